// Looks by watches of one key, of the same form as the watches of hermes: a map of watches by number, and a cell of 165 words with a count of its changes, which shows
// the key's row and is loaded whole. It proves nothing. Its input and its output are those of the small program `bench_watch`.
use std::collections::HashMap;
use std::hint::black_box;
use std::io;
use std::sync::Arc;

#[path = "plain_cell.rs"]
mod plain_cell;

use plain_cell::{Cell, Shown, WORDS, Words, cell_of, cells, data_in, shows_key, words_of};

type Stamp = (u64, u16);

struct Seen {
    #[allow(dead_code)]
    key: Arc<[u8]>,
    stamp: Stamp,
    #[allow(dead_code)]
    content: Arc<[u8]>,
}

type Watcher = Box<dyn Fn(u64, &Seen) -> (u64, Stamp)>;

struct Watch {
    key: Arc<[u8]>,
    last: Stamp,
    done: Watcher,
}

// The notice of one look, if it fired.
fn look(watches: &mut HashMap<u64, Watch>, cells: &[Cell], words: &mut Words, number: u64) -> Option<(u64, Stamp)> {
    let watch = watches.get_mut(&number)?;
    cells[cell_of(&watch.key)].load(words);
    let stamp = (words[2], words[3] as u16);
    if !shows_key(words, &watch.key) || words[1] != 0 || words[0] == 2 || stamp <= watch.last {
        return None;
    }
    let content = Arc::from(data_in(words, &mut [0; 1000]));
    let seen = Seen { key: watch.key.clone(), stamp, content };
    let notice = (watch.done)(number, &seen);
    watch.last = stamp;
    Some(notice)
}

fn read_number() -> u64 {
    let mut line = String::new();
    io::stdin().read_line(&mut line).unwrap();
    line.trim().parse().unwrap()
}

fn main() {
    let (count, looking, looks) = (read_number(), read_number(), read_number());
    let key: Arc<[u8]> = Arc::from(*b"k");
    let cells = cells();
    let shown = Shown { valid: true, version: 2, node: 0, ticket: 1, flags: 0, data: Some(b"a") };
    cells[cell_of(&key)].store(&words_of(&key, &shown));
    let new = || Watch { key: key.clone(), last: (0, 0), done: Box::new(|watch, seen| (watch, seen.stamp)) };
    let mut watches: HashMap<u64, Watch> = (0..count).map(|watch| (watch, new())).collect();
    let mut words = [0; WORDS];
    let mut fired = 0;
    for turn in 0..looks {
        if black_box(look(&mut watches, &cells, &mut words, turn % looking)).is_some() {
            fired += 1;
        }
    }
    println!("fired {fired}");
}
