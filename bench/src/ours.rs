//! The proved library as Rust sees it: its structs in C's layout, and the functions of the object file that
//! bench/run makes of the program `replay`. A result is written where the first parameter points, a struct is
//! passed as a pointer that the callee copies from, and a slice as a pointer and a length.

use retry_counter::access::Held;

#[repr(C)]
#[derive(Clone, Copy)]
struct State {
    kind: u8,
    sector: u32,
    seq: u32,
    head: u32,
}

/// The number of the state Active among the states.
const ACTIVE: u8 = 2;

#[repr(C)]
#[derive(Clone, Copy)]
pub struct Log {
    state: State,
    next_seq: u32,
    count: usize,
    table: [[u8; 12]; 32],
}

/// An Option of the library: one byte says which it is, and behind it stands the number.
#[repr(u8)]
#[derive(Clone, Copy)]
#[allow(dead_code)] // the library reads them, and writes them
enum Units {
    Unlimited,
    Left(u64),
}

#[repr(C)]
#[derive(Clone, Copy)]
struct Plan {
    units: Units,
    refuse_erase: bool,
    refuse_programs: u32,
}

/// A Result of the library: one byte says which it is, and behind it stands what it holds, a value or the
/// refusal's place among the refusals.
#[repr(u8)]
#[allow(dead_code)] // the library writes them
enum Answer<T> {
    Done(T),
    Refused(u8),
}

#[repr(C)]
pub struct Opened {
    answer: Answer<()>,
    log: Log,
}

#[repr(C)]
struct Done {
    answer: Answer<u64>,
    programmed: usize,
    erased: usize,
    plan: Plan,
    log: Log,
}

const _: () = assert!(size_of::<Answer<()>>() == 2 && size_of::<Answer<u64>>() == 16);
const _: () = assert!(size_of::<Log>() == 416 && size_of::<Opened>() == 424 && size_of::<Done>() == 472);

type Change = unsafe extern "C" fn(&mut Done, *mut u8, usize, &Log, &Plan, u8, u8);

unsafe extern "C" {
    fn spoolewe_open(out: &mut Opened, image: *const u8, len: usize);
    fn spoolewe_spend(out: &mut Done, image: *mut u8, len: usize, log: &Log, plan: &Plan, credential: u8, current: u8);
    fn spoolewe_set(out: &mut Done, image: *mut u8, len: usize, log: &Log, plan: &Plan, credential: u8, tries: u8);
}

const ZEROS: Log = Log {
    state: State { kind: 0, sector: 0, seq: 0, head: 0 },
    next_seq: 0,
    count: 0,
    table: [[0; 12]; 32],
};

/// Unlimited power, and nothing refused.
const PLAN: Plan = Plan { units: Units::Unlimited, refuse_erase: false, refuse_programs: 0 };

/// Where an opening is put.
pub fn unopened() -> Opened {
    Opened { answer: Answer::Done(()), log: ZEROS }
}

pub fn open(image: &[u8], out: &mut Opened) {
    // SAFETY: the library reads the slice lent and writes `out`, in the layout declared above.
    unsafe { spoolewe_open(out, image.as_ptr(), image.len()) }
}

/// An image under an open log, as the last call left them. Two places take turns, so that a call reads the log
/// where the last one put it and no copy is made here.
pub struct Board<'a> {
    image: &'a mut [u8],
    last: Box<Done>,
    next: Box<Done>,
}

impl<'a> Board<'a> {
    pub fn open(image: &'a mut [u8]) -> Self {
        let mut opened = unopened();
        open(image, &mut opened);
        assert!(matches!(opened.answer, Answer::Done(())), "the image has no size of an image");
        let done = |log| Box::new(Done { answer: Answer::Done(0), programmed: 0, erased: 0, plan: PLAN, log });
        Board { image, last: done(opened.log), next: done(ZEROS) }
    }

    #[inline]
    fn change(&mut self, call: Change, credential: u8, tries: u8) -> u8 {
        let (image, len) = (self.image.as_mut_ptr(), self.image.len());
        // SAFETY: `image` is lent whole and to this call alone; the rest is as in `open`.
        unsafe { call(&mut self.next, image, len, &self.last.log, &self.last.plan, credential, tries) }
        std::mem::swap(&mut self.last, &mut self.next);
        match self.last.answer {
            Answer::Done(value) => value as u8,
            Answer::Refused(_) => panic!("a call was refused"),
        }
    }

    #[inline]
    pub fn spend(&mut self, credential: u8) -> u8 {
        self.change(spoolewe_spend, credential, 255)
    }

    pub fn set(&mut self, credential: u8, tries: u8) {
        self.change(spoolewe_set, credential, tries);
    }

    pub fn held(&self) -> Option<Held> {
        held(&self.last.log)
    }
}

impl Opened {
    pub fn held(&self) -> Option<Held> {
        held(&self.log)
    }
}

/// What an active log holds; else none.
fn held(log: &Log) -> Option<Held> {
    let s = log.state;
    let records = log.table[..log.count].to_vec();
    (s.kind == ACTIVE).then_some((s.sector, s.seq, s.head, log.next_seq, records))
}
