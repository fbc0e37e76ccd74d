
// ---- What bench/run appends to the text of retry_counter.rs: the trait that it takes from its crate, and a
// module that stands below it and so reaches its private parts. It holds a plain flash without a fault plan, and
// the work that is timed: here, so that the compiler sees it in one crate with the source, as the firmware has it.

pub mod storage {
    /// The firmware's key store, of which retry_counter.rs uses this alone.
    pub trait KeyStore {
        fn retry_counters(&mut self) -> Option<&mut dyn crate::RetryCounterBackend>;
    }
}

pub mod access {
    use super::*;
    use std::hint::black_box;

    const SECTOR: usize = pico2hsm_core::flash::SECTOR_SIZE;

    /// A lent byte array: a program ANDs, an erase fills with FF, and nothing is refused.
    pub struct Flash<'a>(pub &'a mut [u8]);

    impl CounterFlash for Flash<'_> {
        fn read(&mut self, offset: u32, buf: &mut [u8]) -> Result<(), StorageError> {
            let at = offset as usize;
            buf.copy_from_slice(&self.0[at..at + buf.len()]);
            Ok(())
        }

        fn program(&mut self, offset: u32, data: &[u8]) -> Result<(), StorageError> {
            let at = offset as usize;
            for (old, new) in self.0[at..at + data.len()].iter_mut().zip(data) {
                *old &= new;
            }
            Ok(())
        }

        fn erase_sector(&mut self, sector: u32) -> Result<(), StorageError> {
            let at = sector as usize * SECTOR;
            self.0[at..at + SECTOR].fill(0xFF);
            Ok(())
        }
    }

    /// The Rust's log over that flash; the applet helpers reach it as a key store.
    pub type RustLog<'a> = CounterLog<Flash<'a>>;

    impl crate::storage::KeyStore for RustLog<'_> {
        fn retry_counters(&mut self) -> Option<&mut dyn RetryCounterBackend> {
            Some(self)
        }
    }

    pub fn open(image: &mut [u8]) -> RustLog<'_> {
        let sectors = (image.len() / SECTOR) as u32;
        CounterLog::open(Flash(image), sectors)
    }

    pub fn openings(image: &mut [u8], count: usize) {
        for _ in 0..count {
            black_box(open(black_box(&mut *image)));
        }
    }

    /// A spend for each place of `answers`; after a 0 the tries are set back.
    pub fn spends(log: &mut RustLog, cred: Credential, answers: &mut [u8]) {
        for answer in answers {
            *answer = spend(log, cred, 255).expect("a spend was refused");
            if *answer == 0 {
                set(log, cred, 255).expect("a set was refused");
            }
        }
    }

    /// Sector, sequence number, head, next sequence number and records of an active log; else none.
    pub type Held = (u32, u32, u32, u32, Vec<[u8; 12]>);

    pub fn held(log: &RustLog) -> Option<Held> {
        let LogState::Active { sector, seq, head } = log.state else {
            return None;
        };
        let records = log.raw.iter().map(|r| {
            let mut bytes = [r.tag, r.id, 0, 0, 0, 0, 0, 0, 0, 0, 0, 0];
            bytes[2..].copy_from_slice(&r.body);
            bytes
        });
        Some((sector, seq, head.into(), log.next_seq, records.collect()))
    }
}
