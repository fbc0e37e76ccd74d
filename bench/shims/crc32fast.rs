//! A stand-in for the crate `crc32fast` that is as fast as the real one on slots, used where the real one is not
//! installed: sixteen bytes at a time from sixteen tables in runs of 64 bytes, and the rest a byte at a time from
//! the first. The Rust feeds it 4 and 12 bytes, so a byte at a time from a table is what it comes to.

/// Table k: what a byte comes to when k zero bytes follow it.
static TABLES: [[u32; 256]; 16] = tables();

const fn tables() -> [[u32; 256]; 16] {
    let mut t = [[0u32; 256]; 16];
    let mut i = 0;
    while i < 256 {
        t[0][i] = one_byte(i as u32);
        i += 1;
    }
    let mut k = 1;
    while k < 16 {
        let mut i = 0;
        while i < 256 {
            let before = t[k - 1][i];
            t[k][i] = (before >> 8) ^ t[0][(before & 0xFF) as usize];
            i += 1;
        }
        k += 1;
    }
    t
}

const fn one_byte(byte: u32) -> u32 {
    let mut s = byte;
    let mut bit = 0;
    while bit < 8 {
        s = (s >> 1) ^ (0xEDB8_8320 * (s & 1));
        bit += 1;
    }
    s
}

/// The register after sixteen bytes more.
fn sixteen(state: u32, bytes: &[u8]) -> u32 {
    let first = state.to_le_bytes();
    let mut s = 0;
    for i in 0..16 {
        let b = if i < 4 { bytes[i] ^ first[i] } else { bytes[i] };
        s ^= TABLES[15 - i][b as usize];
    }
    s
}

pub struct Hasher(u32);

impl Hasher {
    #[inline]
    pub fn new() -> Self {
        Hasher(0xFFFF_FFFF)
    }

    #[inline]
    pub fn update(&mut self, bytes: &[u8]) {
        let mut s = self.0;
        let mut runs = bytes.chunks_exact(64);
        for run in &mut runs {
            for part in run.chunks_exact(16) {
                s = sixteen(s, part);
            }
        }
        for &b in runs.remainder() {
            s = (s >> 8) ^ TABLES[0][(s as u8 ^ b) as usize];
        }
        self.0 = s;
    }

    #[inline]
    pub fn finalize(self) -> u32 {
        !self.0
    }
}
