// ---- What oracle/build appends to the text of retry_counter.rs: the trait that it takes from its
// crate, and a module that stands below it and so reaches its private parts. It holds the flash and
// fault plan of document 01, and the way of a log value into the Rust's own log and out of it.

pub mod storage {
    /// The firmware's key store, of which retry_counter.rs uses this alone.
    pub trait KeyStore {
        fn retry_counters(&mut self) -> Option<&mut dyn crate::RetryCounterBackend>;
    }
}

pub mod access {
    use super::*;

    /// Bytes 0..11 of a slot: tag, id, body.
    pub type Place = [u8; 12];

    /// The Rust's `LogState`, with a head as wide as a script may write it.
    #[derive(Clone, Copy)]
    pub enum State {
        Unformatted,
        Failed,
        Active { sector: u32, seq: u32, head: u32 },
    }

    /// The fault plan; `units` is none where the power is unlimited.
    #[derive(Clone, Copy)]
    pub struct Plan {
        pub units: Option<u64>,
        pub refuse_erases: bool,
        pub refuse_programs: u32,
    }

    impl Plan {
        /// Take one unit; false where none is left.
        fn take_unit(&mut self) -> bool {
            match &mut self.units {
                None => true,
                Some(0) => false,
                Some(left) => {
                    *left -= 1;
                    true
                }
            }
        }
    }

    /// An image under a fault plan, with the wear of one call.
    pub struct Flash {
        pub image: Vec<u8>,
        pub plan: Plan,
        pub programmed: u64,
        pub erased: u64,
    }

    impl CounterFlash for Flash {
        fn read(&mut self, offset: u32, buf: &mut [u8]) -> Result<(), StorageError> {
            let at = offset as usize;
            buf.copy_from_slice(&self.image[at..at + buf.len()]);
            Ok(())
        }

        fn program(&mut self, offset: u32, data: &[u8]) -> Result<(), StorageError> {
            if self.plan.refuse_programs > 0 {
                self.plan.refuse_programs -= 1;
                return Err(StorageError::WriteError);
            }
            let at = offset as usize;
            for (old, new) in self.image[at..at + data.len()].iter_mut().zip(data) {
                if !self.plan.take_unit() {
                    return Err(StorageError::WriteError);
                }
                *old &= new;
                self.programmed += 1;
            }
            Ok(())
        }

        fn erase_sector(&mut self, sector: u32) -> Result<(), StorageError> {
            if self.plan.refuse_erases {
                return Err(StorageError::EraseError);
            }
            let size = pico2hsm_core::flash::SECTOR_SIZE;
            let at = sector as usize * size;
            for byte in &mut self.image[at..at + size] {
                if !self.plan.take_unit() {
                    return Err(StorageError::EraseError);
                }
                *byte = 0xFF;
                self.erased += 1;
            }
            Ok(())
        }
    }

    /// The Rust's log over that flash; the applet helpers reach it as a key store.
    pub type RustLog = CounterLog<Flash>;

    impl crate::storage::KeyStore for RustLog {
        fn retry_counters(&mut self) -> Option<&mut dyn RetryCounterBackend> {
            Some(self)
        }
    }

    /// A log value that passed the BadLog test, as the Rust's own log.
    pub fn enter(
        flash: Flash,
        sectors: u32,
        state: State,
        next_seq: u32,
        places: &[Place],
    ) -> RustLog {
        let mut raw = RawTable::new();
        for p in places {
            let mut slot = [0u8; SLOT_SIZE];
            slot[..12].copy_from_slice(p);
            raw.push(Raw::from_slot(&slot))
                .expect("a good log has room for its records");
        }
        let state = match state {
            State::Unformatted => LogState::Unformatted,
            State::Failed => LogState::Failed,
            State::Active { sector, seq, head } => LogState::Active {
                sector,
                seq,
                head: u16::try_from(head).expect("a good log's head is at most 256"),
            },
        };
        CounterLog {
            flash,
            sectors,
            state,
            next_seq,
            raw,
            migrated_v1: false,
        }
    }

    /// The Rust's log as flash, state, next_seq and records.
    pub fn leave(log: RustLog) -> (Flash, State, u32, Vec<Place>) {
        let state = match log.state {
            LogState::Unformatted => State::Unformatted,
            LogState::Failed => State::Failed,
            LogState::Active { sector, seq, head } => State::Active {
                sector,
                seq,
                head: u32::from(head),
            },
        };
        let places = log.raw.iter().map(|r| {
            let mut p = [0u8; 12];
            p.copy_from_slice(&r.encode(0)[..12]);
            p
        });
        let places = places.collect();
        (log.flash, state, log.next_seq, places)
    }
}
