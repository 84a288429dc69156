// The cell of the plain programs: what it shows of a row in 165 words, with a count of its changes, loaded and stored whole. A store waits for no one, and a load is
// made again where a store came between. It proves nothing.
use std::sync::atomic::{AtomicU64, Ordering, fence};

pub const WORDS: usize = 165;

pub type Words = [u64; WORDS];

pub struct Cell {
    changes: AtomicU64,
    words: [AtomicU64; WORDS],
}

impl Cell {
    pub fn new() -> Cell {
        Cell { changes: AtomicU64::new(0), words: [const { AtomicU64::new(0) }; WORDS] }
    }

    pub fn store(&self, words: &Words) {
        let changes = self.changes.load(Ordering::Relaxed);
        self.changes.store(changes + 1, Ordering::Relaxed);
        fence(Ordering::Release);
        for (to, from) in self.words.iter().zip(words) {
            to.store(*from, Ordering::Relaxed);
        }
        self.changes.store(changes + 2, Ordering::Release);
    }

    pub fn load(&self, words: &mut Words) {
        loop {
            let before = self.changes.load(Ordering::Acquire);
            for (to, from) in words.iter_mut().zip(&self.words) {
                *to = from.load(Ordering::Relaxed);
            }
            fence(Ordering::Acquire);
            if before % 2 == 0 && self.changes.load(Ordering::Relaxed) == before {
                return;
            }
        }
    }
}

pub fn cells() -> Vec<Cell> {
    (0..32).map(|_| Cell::new()).collect()
}

pub fn cell_of(key: &[u8]) -> usize {
    key.iter().map(|byte| *byte as usize).sum::<usize>() / 8 % 32
}

/// A row as a cell shows it.
pub struct Shown<'a> {
    pub valid: bool,
    pub version: u64,
    pub node: u16,
    pub ticket: u64,
    pub flags: u32,
    /// Nothing where the row holds nothing.
    pub data: Option<&'a [u8]>,
}

fn pack(bytes: &[u8], words: &mut [u64]) {
    for (word, part) in words.iter_mut().zip(bytes.chunks(8)) {
        let mut eight = [0; 8];
        eight[..part.len()].copy_from_slice(part);
        *word = u64::from_le_bytes(eight);
    }
}

fn unpack(words: &[u64], bytes: &mut [u8]) {
    for (eight, word) in bytes.chunks_exact_mut(8).zip(words) {
        eight.copy_from_slice(&word.to_le_bytes());
    }
}

pub fn words_of(key: &[u8], row: &Shown) -> Words {
    let (shape, data): (u64, &[u8]) = match row.data {
        Some(data) if data.len() <= 1000 => (1, data),
        Some(_) => (2, &[]),
        None => (3, &[]),
    };
    let mut words = [0; WORDS];
    words[..8].copy_from_slice(&[shape, !row.valid as u64, row.version, row.node as u64, row.ticket, row.flags as u64, key.len() as u64, data.len() as u64]);
    pack(key, &mut words[8..40]);
    pack(data, &mut words[40..]);
    words
}

/// Whether the words show this key.
pub fn shows_key(words: &Words, key: &[u8]) -> bool {
    let mut room = [0; 256];
    unpack(&words[8..40], &mut room);
    words[0] != 0 && room[..words[6] as usize] == *key
}

/// The data that the words show, at the front of the room.
pub fn data_in<'a>(words: &Words, room: &'a mut [u8; 1000]) -> &'a [u8] {
    unpack(&words[40..], room);
    &room[..words[7] as usize]
}
