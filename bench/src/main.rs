//! Times the proved library beside the unchanged Rust, in one process: opening a full image of sixteen sectors, and
//! 10,000 spends. Both sides' answers and image bytes are compared first; a difference stops the program.
//!   bench [ROUNDS]              the lines that table.py reads, of at least 31 rounds
//!   bench SIDE WORK KEYS TIMES  one work of one side alone (ours or rust; open or spends), to be profiled

mod images;
mod ours;

use std::hint::black_box;

use retry_counter::Credential;
use retry_counter::access::{self, Held};

const KEYS: [usize; 3] = [1, 7, 32];
const SPENDS: usize = 10_000;
/// Openings in one sample, so that a sample is far longer than the clock's step.
const OPENINGS: usize = 100;
const ROUNDS: usize = 101;
const FEWEST_ROUNDS: usize = 31;
const SPENT: Credential = Credential::ScHsmUserPin;

// ---- our side; that of the Rust stands in access.rs

fn our_openings(image: &mut [u8]) {
    let mut opened = ours::unopened();
    for _ in 0..OPENINGS {
        ours::open(black_box(&*image), &mut opened);
        black_box(&mut opened);
    }
}

fn our_spends(board: &mut ours::Board, answers: &mut [u8]) {
    for answer in answers {
        *answer = board.spend(SPENT as u8);
        if *answer == 0 {
            board.set(SPENT as u8, 255);
        }
    }
}

// ---- the comparison

fn same<T: PartialEq>(what: &str, keys: usize, ours: T, rust: T) {
    if ours != rust {
        eprintln!("bench: the two sides differ in {what}, in the table of size {keys}");
        std::process::exit(1);
    }
}

fn compare(full: &[u8], keys: usize) {
    let (mut a, mut b) = (full.to_vec(), full.to_vec());
    let mut opened = ours::unopened();
    ours::open(&a, &mut opened);
    let found: Option<Held> = opened.held();
    assert!(found.as_ref().is_some_and(|held| held.4.len() == keys), "the image holds other keys");
    same("what opening finds", keys, found, access::held(&access::open(&mut b)));

    let (mut x, mut y) = (vec![0; SPENDS], vec![0; SPENDS]);
    let mut board = ours::Board::open(&mut a);
    let mut log = access::open(&mut b);
    our_spends(&mut board, &mut x);
    access::spends(&mut log, SPENT, &mut y);
    assert!(x[0] == 255 && x.contains(&0), "the spends do not run from 255 tries to none");
    same("the answers of the spends", keys, &x, &y);
    same("the log after the spends", keys, board.held(), access::held(&log));
    same("the image after the spends", keys, &a, &b);
}

// ---- the timing

#[repr(C)]
struct Time {
    seconds: i64,
    nanoseconds: i64,
}

unsafe extern "C" {
    fn clock_gettime(clock: i32, out: &mut Time) -> i32;
}

/// Linux's number for the processor time of the calling thread: what else the machine runs meanwhile is not in it.
const THREAD_TIME: i32 = 3;

/// Nanoseconds of processor time so far.
fn now() -> i64 {
    let mut t = Time { seconds: 0, nanoseconds: 0 };
    // SAFETY: the C library writes `t`, in the layout declared above.
    let failed = unsafe { clock_gettime(THREAD_TIME, &mut t) };
    assert!(failed == 0, "the system has no clock of a thread's processor time");
    t.seconds * 1_000_000_000 + t.nanoseconds
}

/// Nanoseconds for each of `count` repetitions.
fn timed(count: usize, work: impl FnOnce()) -> f64 {
    let start = now();
    work();
    (now() - start) as f64 / count as f64
}

/// One sample of one side on an image refilled before: an opening's or a spend's nanoseconds.
fn sample(side: &str, work: &str, full: &[u8], image: &mut [u8], answers: &mut [u8]) -> f64 {
    image.copy_from_slice(full);
    match (side, work) {
        ("ours", "open") => timed(OPENINGS, || our_openings(image)),
        ("rust", "open") => timed(OPENINGS, || access::openings(image, OPENINGS)),
        ("ours", "spends") => {
            let mut board = ours::Board::open(image);
            timed(SPENDS, || our_spends(&mut board, answers))
        }
        ("rust", "spends") => {
            let mut log = access::open(image);
            timed(SPENDS, || access::spends(&mut log, SPENT, answers))
        }
        _ => panic!("usage: bench [ROUNDS], or bench ours|rust open|spends KEYS TIMES"),
    }
}

/// The value below which so many quarters of the values lie.
fn quartile(values: &[f64], quarters: usize) -> f64 {
    let mut sorted = values.to_vec();
    sorted.sort_by(f64::total_cmp);
    sorted[(sorted.len() - 1) * quarters / 4]
}

/// Rounds of one work, the two sides in turn, and what came of them: the work, the keys, the medians of both sides
/// in nanoseconds, and the quartiles of the rounds' ratios.
fn line(work: &str, keys: usize, full: &[u8], rounds: usize) {
    let (mut a, mut b) = (full.to_vec(), full.to_vec());
    let mut answers = vec![0; SPENDS];
    let (mut ours, mut rust, mut ratios) = (Vec::new(), Vec::new(), Vec::new());
    // The first rounds warm the caches and the clock up, and are not counted.
    for round in 0..rounds + 5 {
        let x = sample("ours", work, full, &mut a, &mut answers);
        let y = sample("rust", work, full, &mut b, &mut answers);
        if round >= 5 {
            ours.push(x);
            rust.push(y);
            ratios.push(x / y);
        }
    }
    let (x, y) = (quartile(&ours, 2), quartile(&rust, 2));
    let (low, high) = (quartile(&ratios, 1), quartile(&ratios, 3));
    println!("{work} {keys} {x:.1} {y:.1} {low:.3} {high:.3}");
}

/// The comparison, then a line for each work and number of keys.
fn lines(rounds: usize) {
    let fulls = KEYS.map(|keys| images::full(keys, SPENT as u8));
    for (full, keys) in fulls.iter().zip(KEYS) {
        compare(full, keys);
    }
    for work in ["open", "spends"] {
        for (full, keys) in fulls.iter().zip(KEYS) {
            line(work, keys, full, rounds);
        }
    }
}

/// One work of one side, so many times.
fn alone(side: &str, work: &str, keys: usize, times: usize) {
    let full = images::full(keys, SPENT as u8);
    let (mut image, mut answers) = (full.clone(), vec![0; SPENDS]);
    for _ in 0..times {
        sample(side, work, &full, &mut image, &mut answers);
    }
}

fn main() {
    let words: Vec<String> = std::env::args().skip(1).collect();
    let words: Vec<&str> = words.iter().map(String::as_str).collect();
    let number = |word: &str| word.parse::<usize>().expect("a number");
    match words[..] {
        [] => lines(ROUNDS),
        [rounds] => lines(number(rounds).max(FEWEST_ROUNDS)),
        [side, work, keys, times] => alone(side, work, number(keys), number(times)),
        _ => panic!("usage: bench [ROUNDS], or bench ours|rust open|spends KEYS TIMES"),
    }
}
