//! Full images: every sector with a valid header, every slot with a valid record, and so many keys in turn.

use crc32fast::Hasher;

const SECTORS: usize = 16;
const SECTOR: usize = 4096;
const SLOT: usize = 16;

/// Tag and id of the keys that a table of 32 has: seven credentials, eight values, the anchor, and unknown ones.
fn keys() -> Vec<(u8, u8)> {
    let credentials = [1, 2, 3, 0x11, 0x12, 0x21, 0x22].map(|id| (0x52, id));
    let mut keys = credentials.to_vec();
    keys.extend((1..=8).map(|id| (0x4C, id)));
    keys.push((0x41, 0));
    keys.extend((1..=16).map(|id| (0x60, id)));
    keys
}

/// The first `count` keys, those of the credentials spread so that `spent` stands in the middle of them.
fn table_keys(count: usize, spent: u8) -> Vec<(u8, u8)> {
    let mut chosen = keys();
    chosen.truncate(count);
    let at = chosen.iter().position(|k| *k == (0x52, spent)).expect("the credential is among the keys");
    chosen.swap(at, count / 2);
    chosen
}

fn sealed(body: [u8; 12], seq: Option<u32>) -> [u8; SLOT] {
    let mut h = Hasher::new();
    if let Some(seq) = seq {
        h.update(&seq.to_le_bytes());
    }
    h.update(&body);
    let mut slot = [0; SLOT];
    slot[..12].copy_from_slice(&body);
    slot[12..].copy_from_slice(&h.finalize().to_le_bytes());
    slot
}

fn header(seq: u32) -> [u8; SLOT] {
    let mut body = *b"P2RC\0\0\0\0\x02\0\0\0";
    body[4..8].copy_from_slice(&seq.to_le_bytes());
    sealed(body, None)
}

/// A record of a key: for a counter 255 tries, all of them left; `n` is its total, or grows as a value does.
fn record((tag, id): (u8, u8), n: u32, seq: u32) -> [u8; SLOT] {
    let mut body = [tag, id, 0, 0, 0, 0, 0, 0, 0, 0, 0, 0];
    body[4..8].copy_from_slice(&n.to_le_bytes());
    if tag == 0x52 {
        body[2] = 255;
        body[8..12].copy_from_slice(&n.to_le_bytes());
    }
    sealed(body, Some(seq))
}

/// An image of sixteen sectors; the last one wins, and the next write must go to another sector.
pub fn full(count: usize, spent: u8) -> Vec<u8> {
    let keys = table_keys(count, spent);
    let mut image = Vec::with_capacity(SECTORS * SECTOR);
    for sector in 0..SECTORS as u32 {
        let seq = sector + 1;
        image.extend(header(seq));
        for k in 0..SECTOR / SLOT - 1 {
            let n = sector * 255 + k as u32;
            image.extend(record(keys[k % count], n, seq));
        }
    }
    image
}
