//! A stand-in for the crate `pico2hsm_core`: only what retry_counter.rs names of it.
//! The sector size is document 01's; the file that defines it cannot be had.

pub mod error {
    #[derive(Clone, Copy, Debug, PartialEq, Eq)]
    pub enum StorageError {
        NotFormatted,
        ReadError,
        WriteError,
        EraseError,
        KeystoreFull,
        IntegrityFailure,
    }

    #[derive(Clone, Copy, Debug, PartialEq, Eq)]
    pub enum HsmError {
        Storage(StorageError),
    }

    impl From<StorageError> for HsmError {
        fn from(e: StorageError) -> Self {
            HsmError::Storage(e)
        }
    }
}

pub mod flash {
    pub const SECTOR_SIZE: usize = 4096;
}
