//! Runs a replay script on the unchanged Rust: reads the script from standard input and writes what
//! each call answered to standard output. The format is that of the program `replay`: docs/REPLAY.md.

mod calls;

use std::io::{self, BufRead, Write};

use calls::{Board, Call, Handed, Log, Reply, Seed, LIMIT};
use retry_counter::access::{Place, Plan, State};
use retry_counter::{Anchor, CounterState};

/// Characters of the longest line.
const LONGEST: usize = 16_384;
/// Bytes of the largest image.
const LARGEST: u64 = 65_536;

// ---- reading

/// A decimal number that fits its place. No sign is taken; zeros in front are.
fn number<T: TryFrom<u64>>(word: &[u8]) -> Option<T> {
    if word.is_empty() {
        return None;
    }
    let mut n: u64 = 0;
    for c in word {
        let digit = c.checked_sub(b'0').filter(|d| *d < 10)?;
        n = n.checked_mul(10)?.checked_add(digit.into())?;
    }
    T::try_from(n).ok()
}

fn flag(word: &[u8]) -> Option<bool> {
    Some(match number::<u64>(word)? {
        0 => false,
        1 => true,
        _ => return None,
    })
}

/// Bytes in lower-case hex, one or more.
fn bytes(word: &[u8]) -> Option<Vec<u8>> {
    let nibble = |c: u8| match c {
        b'0'..=b'9' => Some(c - b'0'),
        b'a'..=b'f' => Some(c - b'a' + 10),
        _ => None,
    };
    if word.is_empty() || word.len() % 2 == 1 {
        return None;
    }
    word.chunks(2)
        .map(|c| Some(nibble(c[0])? * 16 + nibble(c[1])?))
        .collect()
}

fn counter(allowance: &[u8], total: &[u8], at_reset: &[u8]) -> Option<CounterState> {
    Some(CounterState {
        failures_total: number(total)?,
        failures_at_reset: number(at_reset)?,
        allowance: number(allowance)?,
    })
}

fn seeds(words: &[&[u8]]) -> Option<[Seed; 8]> {
    let mut places = [(0, CounterState::fresh(0)); 8];
    if words.len() % 4 != 0 || words.len() / 4 > places.len() {
        return None;
    }
    for (place, w) in places.iter_mut().zip(words.chunks(4)) {
        *place = (number(w[0])?, counter(w[1], w[2], w[3])?);
    }
    Some(places)
}

fn call(words: &[&[u8]]) -> Option<Call> {
    Some(match words {
        [b"open"] => Call::Open,
        [b"put", cred, allowance, total, at_reset] => {
            Call::Put(number(cred)?, counter(allowance, total, at_reset)?)
        }
        [b"put_value", id, n] => Call::PutValue(number(id)?, number(n)?),
        [b"put_anchor", gen, seq, slot] => Call::PutAnchor(Anchor {
            format_gen: number(gen)?,
            head_seq: number(seq)?,
            head_slot: number(slot)?,
        }),
        [b"format", count, rest @ ..] => Call::Format(number(count)?, seeds(rest)?),
        [b"get", cred] => Call::Get(number(cred)?),
        [b"value", id] => Call::Value(number(id)?),
        [b"anchor"] => Call::Anchor,
        [b"lamport"] => Call::Lamport,
        [b"needs_migration"] => Call::NeedsMigration,
        [b"remaining", cred] => Call::Remaining(number(cred)?),
        [b"load", cred, exists, fresh] => Call::Load(number(cred)?, flag(exists)?, number(fresh)?),
        [b"spend", cred, current] => Call::Spend(number(cred)?, number(current)?),
        [b"set", cred, n] => Call::Set(number(cred)?, number(n)?),
        [b"advance_lamport", seen] => Call::AdvanceLamport(number(seen)?),
        _ => return None,
    })
}

/// What a line with an answer does to the board.
fn line_of(words: &[&[u8]]) -> Option<Box<dyn FnOnce(&mut Board) -> Reply>> {
    Some(match words {
        [b"program", sector, slot, hex] => {
            let (sector, slot) = (number(sector)?, number(slot)?);
            let bytes = <[u8; 16]>::try_from(bytes(hex)?).ok()?;
            Box::new(move |board| calls::program(board, sector, slot, bytes))
        }
        [b"erase", sector] => {
            let sector = number(sector)?;
            Box::new(move |board| calls::erase(board, sector))
        }
        [b"attempt", cred, current, seen] => {
            let (cred, current, seen) = (number(cred)?, number(current)?, number(seen)?);
            Box::new(move |board| calls::attempt(board, cred, current, seen))
        }
        words => {
            let call = call(words)?;
            Box::new(move |board| call.make(board))
        }
    })
}

fn plan(units: &[u8], refuse_erases: &[u8], refuse_programs: &[u8]) -> Option<Plan> {
    Some(Plan {
        units: if units == b"inf" {
            None
        } else {
            Some(number(units)?)
        },
        refuse_erases: flag(refuse_erases)?,
        refuse_programs: number(refuse_programs)?,
    })
}

fn log(words: &[&[u8]]) -> Option<Log> {
    let (state, rest) = match words {
        [b"unformatted", rest @ ..] => (State::Unformatted, rest),
        [b"failed", rest @ ..] => (State::Failed, rest),
        [b"active", sector, seq, head, rest @ ..] => {
            let (sector, seq, head) = (number(sector)?, number(seq)?, number(head)?);
            (State::Active { sector, seq, head }, rest)
        }
        _ => return None,
    };
    let [b"next", next_seq, b"count", count, places @ ..] = rest else {
        return None;
    };
    let mut log = Log::empty(state, number(next_seq)?);
    log.count = number(count)?;
    if places.len() > LIMIT {
        return None;
    }
    for (place, word) in log.table.iter_mut().zip(places) {
        *place = Place::try_from(bytes(word)?).ok()?;
    }
    Some(log)
}

// ---- writing

fn put_hex(out: &mut String, bytes: &[u8]) {
    const DIGITS: &[u8; 16] = b"0123456789abcdef";
    for b in bytes {
        out.push(DIGITS[usize::from(b / 16)].into());
        out.push(DIGITS[usize::from(b % 16)].into());
    }
}

fn put_state(out: &mut String, state: State) {
    match state {
        State::Unformatted => out.push_str("unformatted"),
        State::Failed => out.push_str("failed"),
        State::Active { sector, seq, head } => {
            out.push_str(&format!("active {sector} {seq} {head}"))
        }
    }
}

/// A log as a `log` line takes it: the counted places, and beyond them all up to the last that isn't zeros.
fn put_log(out: &mut String, log: &Log) {
    put_state(out, log.state);
    out.push_str(&format!(" next {} count {}", log.next_seq, log.count));
    let used = log
        .table
        .iter()
        .rposition(|p| *p != [0; 12])
        .map_or(0, |i| i + 1);
    for place in &log.table[..used.max(log.counted().len())] {
        out.push(' ');
        put_hex(out, place);
    }
}

/// The runs of bytes that differ.
fn put_changes(out: &mut String, old: &[u8], new: &[u8]) {
    let differs = |i: usize| i < new.len() && old[i] != new[i];
    let mut comma = "";
    let mut at = 0;
    while at < new.len() {
        if !differs(at) {
            at += 1;
            continue;
        }
        let mut end = at;
        while differs(end) {
            end += 1;
        }
        out.push_str(&format!("{comma}{at}:"));
        put_hex(out, &new[at..end]);
        comma = ",";
        at = end;
    }
}

fn put_reply(out: &mut String, reply: &Reply, board: &Board, before: &[u8]) {
    let value = match &reply.value {
        Handed::Nothing => "-".to_string(),
        Handed::None => "none".to_string(),
        Handed::Numbers(n) => n.iter().map(u64::to_string).collect::<Vec<_>>().join(" "),
    };
    let plan = board.plan;
    let units = plan.units.map_or("inf".to_string(), |n| n.to_string());
    out.push_str(&format!(
        "{} {value}|{} {}|",
        reply.answer, reply.programmed, reply.erased
    ));
    out.push_str(&format!(
        "{units} {} {}|",
        u8::from(plan.refuse_erases),
        plan.refuse_programs
    ));
    put_log(out, &board.log);
    out.push('|');
    put_changes(out, before, &board.image);
    out.push('\n');
}

/// The listing of document 01, worked case 8.
fn put_list(out: &mut String, image: &[u8]) {
    let (answer, log) = calls::opened(image);
    if answer != 0 {
        out.push_str("bad-image\n");
        return;
    }
    put_state(out, log.state);
    if let State::Active { .. } = log.state {
        out.push_str(&format!(" {}", log.count));
    }
    out.push('\n');
    for place in log.counted() {
        let numbers: Vec<String> = place.iter().map(u8::to_string).collect();
        out.push_str(&numbers.join(" "));
        out.push('\n');
    }
}

// ---- one line

/// Does what a line says and writes its answer; none where it cannot be read.
fn step(line: &[u8], board: &mut Board, kept: &mut Board, out: &mut String) -> Option<()> {
    let words: Vec<&[u8]> = line.split(|c| *c == b' ').collect();
    match words.as_slice() {
        [b"image", len] => {
            // A length above the largest is held as another wrong size, one byte.
            let len: u64 = number(len)?;
            let len = if len > LARGEST { 1 } else { len };
            board.image = vec![0xFF; len as usize];
        }
        [b"at", offset, hex] => {
            let at: usize = number(offset)?;
            let new = bytes(hex)?;
            board
                .image
                .get_mut(at..at.checked_add(new.len())?)?
                .copy_from_slice(&new);
        }
        [b"plan", units, refuse_erases, refuse_programs] => {
            board.plan = plan(units, refuse_erases, refuse_programs)?;
        }
        [b"log", rest @ ..] => board.log = log(rest)?,
        [b"save"] => *kept = board.clone(),
        [b"restore"] => *board = kept.clone(),
        [b"dump"] => {
            put_hex(out, &board.image);
            out.push('\n');
        }
        [b"list"] => put_list(out, &board.image),
        words => {
            let make = line_of(words)?;
            let before = board.image.clone();
            let reply = make(board);
            put_reply(out, &reply, board, &before);
        }
    }
    Some(())
}

fn main() -> io::Result<()> {
    let mut board = Board {
        image: Vec::new(),
        plan: Plan {
            units: None,
            refuse_erases: false,
            refuse_programs: 0,
        },
        log: Log::empty(State::Unformatted, 1),
    };
    let mut kept = board.clone();
    let mut input = io::stdin().lock();
    let mut output = io::BufWriter::new(io::stdout().lock());
    let mut text = Vec::new();
    let mut out = String::new();
    for n in 1u64.. {
        text.clear();
        input.read_until(b'\n', &mut text)?;
        let ended = text.last() == Some(&b'\n');
        if ended {
            text.pop();
        }
        let long = text.len() > LONGEST;
        if !ended && !long {
            // The script's end; what follows its last newline is no line.
            break;
        }
        let line = text.strip_suffix(b" ").unwrap_or(&text);
        if !long && (line.is_empty() || line[0] == b'#') {
            continue;
        }
        out.clear();
        if long || step(line, &mut board, &mut kept, &mut out).is_none() {
            writeln!(output, "bad line {n}")?;
            break;
        }
        output.write_all(out.as_bytes())?;
    }
    output.flush()
}
