// Reads of several keys, of the same form as those of hermes: together from cells of 165 words with a count of their changes, each loaded twice and whole, or under a mutex from a map of rows.
// It proves nothing. Its input and its output are those of the small program `bench_joint`.
use std::collections::BTreeMap;
use std::hint::black_box;
use std::io;
use std::sync::{Arc, Mutex};

#[path = "plain_cell.rs"]
mod plain_cell;

use plain_cell::{Cell, Shown, WORDS, Words, cell_of, cells, data_in, shows_key, words_of};

type Key = Arc<[u8]>;

#[allow(dead_code)]
struct Snapshot {
    key: Key,
    ticket: u64,
    content: Arc<[u8]>,
}

// The snapshots that all cells show at both of their loads.
fn read_together(cells: &[Cell], words: &mut Words, keys: &[Key]) -> Option<Vec<Snapshot>> {
    let mut first = Vec::new();
    for key in keys {
        cells[cell_of(key)].load(words);
        first.push(shows_key(words, key).then_some(words[4]));
    }
    let mut found = Vec::new();
    for (key, ticket) in keys.iter().zip(first) {
        cells[cell_of(key)].load(words);
        if !shows_key(words, key) || ticket != Some(words[4]) || words[1] != 0 || words[0] == 2 {
            return None;
        }
        let content = Arc::from(data_in(words, &mut [0; 1000]));
        found.push(Snapshot { key: key.clone(), ticket: words[4], content });
    }
    Some(found)
}

// What the keys hold, under the lock.
fn read_locked(rows: &Mutex<BTreeMap<Key, Arc<[u8]>>>, keys: &[Key]) -> Vec<Arc<[u8]>> {
    let rows = rows.lock().unwrap();
    keys.iter().filter_map(|key| rows.get(key).cloned()).collect()
}

fn read_number() -> u64 {
    let mut line = String::new();
    io::stdin().read_line(&mut line).unwrap();
    line.trim().parse().unwrap()
}

fn main() {
    let (locked, reads) = (read_number(), read_number());
    let keys: Vec<Key> = ["c", "k", "s", "{"].iter().map(|key| Arc::from(key.as_bytes())).collect();
    let cells = cells();
    let mut rows = BTreeMap::new();
    for (ticket, key) in keys.iter().enumerate() {
        let shown = Shown { valid: true, version: 2, node: 0, ticket: ticket as u64 + 1, flags: 0, data: Some(b"a") };
        cells[cell_of(key)].store(&words_of(key, &shown));
        rows.insert(key.clone(), Arc::from(*b"a"));
    }
    let rows = Mutex::new(rows);
    let mut words = [0; WORDS];
    let mut found = 0;
    for _ in 0..reads {
        if locked != 0 {
            found += (black_box(read_locked(&rows, &keys)).len() == keys.len()) as u64;
        } else {
            found += black_box(read_together(&cells, &mut words, &keys)).is_some() as u64;
        }
    }
    println!("found {found}");
}
