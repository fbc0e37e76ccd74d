//! A stand-in for the crate `crc32fast`, used where the real one is not installed: the plain CRC-32 of
//! IEEE 802.3, a bit at a time.

pub struct Hasher(u32);

impl Hasher {
    pub fn new() -> Self {
        Hasher(0xFFFF_FFFF)
    }

    pub fn update(&mut self, bytes: &[u8]) {
        for &b in bytes {
            self.0 ^= u32::from(b);
            for _ in 0..8 {
                let low = self.0 & 1;
                self.0 >>= 1;
                if low == 1 {
                    self.0 ^= 0xEDB8_8320;
                }
            }
        }
    }

    pub fn finalize(self) -> u32 {
        !self.0
    }
}
