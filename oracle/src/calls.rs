//! The calls of a script: the refusals 1, 2 and 3 that document 01 puts in front, and behind them the
//! unchanged Rust.

use retry_counter::access::{self, Flash, Place, Plan, RustLog, State};
use retry_counter::{
    Anchor, CounterFlash, CounterLog, CounterState, Credential, RetryCounterBackend, ValueId,
};

use pico2hsm_core::error::{HsmError, StorageError};
use pico2hsm_core::flash::SECTOR_SIZE;

/// Places of a table.
pub const LIMIT: usize = retry_counter::MAX_RAW;
/// Sectors of the largest image.
pub const MAX_SECTORS: u32 = 16;

/// A log value, good or bad.
#[derive(Clone)]
pub struct Log {
    pub state: State,
    pub next_seq: u32,
    pub count: u64,
    pub table: [Place; LIMIT],
}

impl Log {
    pub fn empty(state: State, next_seq: u32) -> Log {
        Log {
            state,
            next_seq,
            count: 0,
            table: [[0; 12]; LIMIT],
        }
    }

    /// The records before the count: all places where the count is larger.
    pub fn counted(&self) -> &[Place] {
        let n = usize::try_from(self.count).map_or(LIMIT, |n| n.min(LIMIT));
        &self.table[..n]
    }

    /// Document 01's BadLog, clause by clause, on an image of so many sectors.
    fn is_bad(&self, sectors: u32) -> bool {
        let bad_state = match self.state {
            State::Active { sector, seq, head } => {
                let sector_not_below_n = sector >= sectors;
                let head_outside = !(1..=256).contains(&head);
                let next_not_above_seq = self.next_seq <= seq && self.next_seq != u32::MAX;
                sector_not_below_n || head_outside || next_not_above_seq
            }
            // records while not Active
            State::Unformatted | State::Failed => self.count != 0,
        };
        let records = self.counted();
        let over_the_limit = self.count > LIMIT as u64;
        let not_zeros_past_count = self.table[records.len()..].iter().any(|p| *p != [0; 12]);
        let key_twice =
            (1..records.len()).any(|i| records[..i].iter().any(|p| p[..2] == records[i][..2]));
        let tag_ff = records.iter().any(|p| p[0] == 0xFF);
        bad_state
            || over_the_limit
            || not_zeros_past_count
            || key_twice
            || tag_ff
            || self.next_seq == 0
    }
}

/// What a script's calls work on.
#[derive(Clone)]
pub struct Board {
    pub image: Vec<u8>,
    pub plan: Plan,
    pub log: Log,
}

/// A seed as a script writes it: the credential's number, known or not, and its state.
pub type Seed = (u8, CounterState);

pub enum Call {
    Open,
    Put(u8, CounterState),
    PutValue(u8, u64),
    PutAnchor(Anchor),
    Format(u64, [Seed; 8]),
    Get(u8),
    Value(u8),
    Anchor,
    Lamport,
    NeedsMigration,
    Remaining(u8),
    Load(u8, bool, u8),
    Spend(u8, u8),
    Set(u8, u8),
    AdvanceLamport(u64),
}

/// What a call hands back beside its number.
pub enum Handed {
    /// The call has no value.
    Nothing,
    /// It has one, and here there is none.
    None,
    Numbers(Vec<u64>),
}

pub struct Reply {
    pub answer: u8,
    pub value: Handed,
    pub programmed: u64,
    pub erased: u64,
}

/// Document 01's number for an error of the Rust.
fn number_of(e: StorageError) -> u8 {
    match e {
        StorageError::NotFormatted => 4,
        StorageError::ReadError => 5,
        StorageError::WriteError => 6,
        StorageError::EraseError => 7,
        StorageError::KeystoreFull => 8,
        StorageError::IntegrityFailure => 9,
    }
}

/// The sectors of an image of this length, or none where it is no image.
pub fn sectors_of(len: usize) -> Option<u32> {
    let whole = len > 0 && len % SECTOR_SIZE == 0 && len <= SECTOR_SIZE * MAX_SECTORS as usize;
    whole.then_some((len / SECTOR_SIZE) as u32)
}

impl Call {
    /// Calls that only read the log take no image.
    fn takes_image(&self) -> bool {
        use Call::*;
        matches!(
            self,
            Open | Put(..)
                | PutValue(..)
                | PutAnchor(..)
                | Format(..)
                | Spend(..)
                | Set(..)
                | AdvanceLamport(..)
        )
    }

    /// The value beside a refusal.
    fn refused_value(&self) -> Handed {
        use Call::*;
        match self {
            Open | Put(..) | PutValue(..) | PutAnchor(..) | Format(..) | Set(..) => Handed::Nothing,
            Get(..) | Value(..) | Anchor | Remaining(..) => Handed::None,
            Lamport | NeedsMigration | Load(..) | Spend(..) | AdvanceLamport(..) => {
                Handed::Numbers(vec![0])
            }
        }
    }

    /// Whether the Rust's types can hold the call's ids: otherwise it is document 01's BadId.
    fn ids_are_known(&self) -> bool {
        use Call::*;
        match self {
            Put(cred, _)
            | Get(cred)
            | Remaining(cred)
            | Load(cred, ..)
            | Spend(cred, _)
            | Set(cred, _) => Credential::from_id(*cred).is_some(),
            PutValue(id, _) | Value(id) => ValueId::from_id(*id).is_some(),
            Format(count, seeds) => known_seeds(*count, seeds).is_some(),
            Open | PutAnchor(..) | Anchor | Lamport | NeedsMigration | AdvanceLamport(..) => true,
        }
    }

    /// Make the call on the board; what it returns stays there.
    pub fn make(&self, board: &mut Board) -> Reply {
        if let Call::Open = self {
            return open(board);
        }
        let sectors = if self.takes_image() {
            match sectors_of(board.image.len()) {
                Some(n) => n,
                None => return self.refused(1),
            }
        } else {
            MAX_SECTORS
        };
        if board.log.is_bad(sectors) {
            return self.refused(2);
        }
        if !self.ids_are_known() {
            return self.refused(3);
        }
        // A call that only reads the log is lent no image, so that it would stop here if it touched one.
        let image = if self.takes_image() {
            std::mem::take(&mut board.image)
        } else {
            Vec::new()
        };
        let flash = Flash {
            image,
            plan: board.plan,
            programmed: 0,
            erased: 0,
        };
        let old = &board.log;
        let mut log = access::enter(flash, sectors, old.state, old.next_seq, old.counted());
        let result = self.of_rust(&mut log);
        let (flash, left) = taken_apart(log);
        board.log = left;
        board.plan = flash.plan;
        if self.takes_image() {
            board.image = flash.image;
        }
        let (answer, value) = match result {
            Ok(value) => (0, value),
            Err(e) => (number_of(e), self.refused_value()),
        };
        Reply {
            answer,
            value,
            programmed: flash.programmed,
            erased: flash.erased,
        }
    }

    fn refused(&self, answer: u8) -> Reply {
        Reply {
            answer,
            value: self.refused_value(),
            programmed: 0,
            erased: 0,
        }
    }

    /// The Rust's own answer, once the refusals 1, 2 and 3 are past.
    fn of_rust(&self, log: &mut RustLog) -> Result<Handed, StorageError> {
        use Handed::{None, Nothing, Numbers};
        let one = |n: u64| Numbers(vec![n]);
        let maybe = |n: Option<u64>| n.map_or(None, one);
        let cred = |id: u8| Credential::from_id(id).expect("BadId is answered before");
        let value = |id: u8| ValueId::from_id(id).expect("BadId is answered before");
        let storage = |HsmError::Storage(e): HsmError| e;
        Ok(match *self {
            Call::Open => unreachable!("opening takes no log"),
            Call::Put(c, state) => {
                log.put(cred(c), state)?;
                Nothing
            }
            Call::PutValue(id, n) => {
                log.put_value(value(id), n)?;
                Nothing
            }
            Call::PutAnchor(a) => {
                log.put_anchor(a)?;
                Nothing
            }
            Call::Format(count, ref seeds) => {
                log.format(&known_seeds(count, seeds).expect("BadId is answered before"))?;
                Nothing
            }
            Call::Get(c) => log.get(cred(c))?.map_or(None, |s| {
                Numbers(vec![
                    s.allowance.into(),
                    s.failures_total.into(),
                    s.failures_at_reset.into(),
                ])
            }),
            Call::Value(id) => maybe(log.value(value(id))?),
            Call::Anchor => log.anchor()?.map_or(None, |a| {
                Numbers(vec![a.format_gen.into(), a.head_seq, a.head_slot.into()])
            }),
            Call::Lamport => one(retry_counter::lamport(log).map_err(storage)?),
            Call::NeedsMigration => one(log.needs_migration().into()),
            Call::Remaining(c) => maybe(
                retry_counter::remaining(log, cred(c))
                    .map_err(storage)?
                    .map(u64::from),
            ),
            Call::Load(c, exists, fresh) => {
                one(retry_counter::load(log, cred(c), exists, fresh).into())
            }
            Call::Spend(c, current) => one(retry_counter::spend(log, cred(c), current)
                .map_err(storage)?
                .into()),
            Call::Set(c, n) => {
                retry_counter::set(log, cred(c), n).map_err(storage)?;
                Nothing
            }
            Call::AdvanceLamport(seen) => {
                one(retry_counter::advance_lamport(log, seen).map_err(storage)?)
            }
        })
    }
}

// ---- the lines of the host build beside its calls

/// One step of the flash alone, under the board's plan. The log isn't looked at.
fn alone(board: &mut Board, step: impl FnOnce(&mut Flash) -> Result<(), StorageError>) -> Reply {
    let mut flash = Flash {
        image: std::mem::take(&mut board.image),
        plan: board.plan,
        programmed: 0,
        erased: 0,
    };
    let result = step(&mut flash);
    board.image = flash.image;
    board.plan = flash.plan;
    Reply {
        answer: result.map_or_else(number_of, |()| 0),
        value: Handed::Nothing,
        programmed: flash.programmed,
        erased: flash.erased,
    }
}

fn not_begun(answer: u8) -> Reply {
    Reply {
        answer,
        value: Handed::Nothing,
        programmed: 0,
        erased: 0,
    }
}

/// A slot programmed and read back: another content is a failure. 1 of no image, 6 of a slot that it lacks.
pub fn program(board: &mut Board, sector: u64, slot: u64, bytes: [u8; 16]) -> Reply {
    let Some(sectors) = sectors_of(board.image.len()) else {
        return not_begun(1);
    };
    if sector >= u64::from(sectors) || slot >= 256 {
        return not_begun(6);
    }
    let offset = (sector * SECTOR_SIZE as u64 + slot * 16) as u32;
    alone(board, |flash| {
        flash.program(offset, &bytes)?;
        let mut found = [0; 16];
        flash.read(offset, &mut found)?;
        if found == bytes {
            Ok(())
        } else {
            Err(StorageError::WriteError)
        }
    })
}

/// A sector erased. 1 of no image, 7 of a sector that it lacks.
pub fn erase(board: &mut Board, sector: u64) -> Reply {
    let Some(sectors) = sectors_of(board.image.len()) else {
        return not_begun(1);
    };
    if sector >= u64::from(sectors) {
        return not_begun(7);
    }
    alone(board, |flash| flash.erase_sector(sector as u32))
}

/// A PIN attempt: the clock's next number, then the try on what that left. The try's answer and wear,
/// beside the number's answer, the number, and the tries before.
pub fn attempt(board: &mut Board, cred: u8, current: u8, seen: u64) -> Reply {
    let told = |r: &Reply| match &r.value {
        Handed::Numbers(n) => n[0],
        Handed::Nothing | Handed::None => unreachable!("both calls tell a number"),
    };
    let numbered = Call::AdvanceLamport(seen).make(board);
    let spent = Call::Spend(cred, current).make(board);
    Reply {
        value: Handed::Numbers(vec![numbered.answer.into(), told(&numbered), told(&spent)]),
        ..spent
    }
}

/// The seeds before the count, where there are at most eight of known credentials.
fn known_seeds(count: u64, seeds: &[Seed; 8]) -> Option<Vec<(Credential, CounterState)>> {
    let counted = seeds.get(..usize::try_from(count).ok()?)?;
    counted
        .iter()
        .map(|(id, state)| Some((Credential::from_id(*id)?, *state)))
        .collect()
}

fn taken_apart(log: RustLog) -> (Flash, Log) {
    let (flash, state, next_seq, places) = access::leave(log);
    let mut left = Log::empty(state, next_seq);
    left.count = places.len() as u64;
    left.table[..places.len()].copy_from_slice(&places);
    (flash, left)
}

/// The log that opening an image gives, and the answer.
pub fn opened(image: &[u8]) -> (u8, Log) {
    let Some(sectors) = sectors_of(image.len()) else {
        return (1, Log::empty(State::Failed, 1));
    };
    let flash = Flash {
        image: image.to_vec(),
        // Opening takes no plan: this one would refuse whatever isn't a read.
        plan: Plan {
            units: Some(0),
            refuse_erases: true,
            refuse_programs: 0,
        },
        programmed: 0,
        erased: 0,
    };
    let (flash, log) = taken_apart(CounterLog::open(flash, sectors));
    assert!(flash.image == image, "opening changed the image");
    (0, log)
}

fn open(board: &mut Board) -> Reply {
    let (answer, log) = opened(&board.image);
    board.log = log;
    Reply {
        answer,
        value: Handed::Nothing,
        programmed: 0,
        erased: 0,
    }
}
