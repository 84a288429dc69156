// A plain shard of the same form as a shard of hermes: a map under a mutex, a journal with an entry for each call, and cells that show the row that
// was changed last. It proves nothing, and knows reads and writes alone. Its input and its output are those of the small program `bench_shard`.
use std::collections::BTreeMap;
use std::hint::black_box;
use std::sync::{Arc, Mutex};
use std::time::Instant;
use std::{io, mem, thread};

#[path = "plain_cell.rs"]
mod plain_cell;

use plain_cell::{Cell, Shown, WORDS, Words, cell_of, cells, data_in, shows_key, words_of};

#[derive(Clone)]
struct Content {
    flags: u32,
    bytes: Arc<[u8]>,
}

#[derive(Clone)]
struct Row {
    valid: bool,
    version: u64,
    node: u16,
    content: Option<Content>,
}

#[derive(Clone)]
enum Op {
    Read,
    Write(Content),
}

#[derive(Clone)]
#[allow(dead_code)]
enum Answer {
    Found { content: Content, tag: u64 },
    Missing,
    Stored,
}

#[allow(dead_code)]
struct Entry {
    ticket: u64,
    call: u64,
    key: Arc<[u8]>,
    op: Op,
    letters: Vec<u64>,
    replies: Vec<(u64, Answer)>,
}

fn words_of_row(key: &[u8], row: &Row, ticket: u64) -> Words {
    let (flags, data) = match &row.content {
        Some(content) => (content.flags, Some(&content.bytes[..])),
        None => (0, None),
    };
    words_of(key, &Shown { valid: row.valid, version: row.version, node: row.node, ticket, flags, data })
}

type Map = BTreeMap<Arc<[u8]>, Row>;

struct Shard {
    base: Map,
    part: Map,
    journal: Vec<Entry>,
    changing: Vec<usize>,
    last: u64,
    cells: Arc<Vec<Cell>>,
}

fn step(map: &mut Map, key: &Arc<[u8]>, op: &Op) -> Answer {
    match op {
        Op::Read => match map.get(key) {
            Some(Row { valid: true, version, node, content: Some(content) }) => {
                Answer::Found { content: content.clone(), tag: version * 65536 + *node as u64 }
            }
            _ => Answer::Missing,
        },
        Op::Write(content) => {
            match map.get_mut(key) {
                Some(row) => {
                    row.version += 2;
                    row.content = Some(content.clone());
                }
                None => {
                    map.insert(key.clone(), Row { valid: true, version: 2, node: 0, content: Some(content.clone()) });
                }
            }
            Answer::Stored
        }
    }
}

impl Shard {
    fn apply(&mut self, key: &Arc<[u8]>, op: &Op) -> Answer {
        let (key, op) = (key.clone(), op.clone());
        let answer = step(&mut self.part, &key, &op);
        self.last += 1;
        if let Op::Write(_) = op {
            self.changing.push(self.journal.len());
            self.cells[cell_of(&key)].store(&words_of_row(&key, &self.part[&key], self.last));
        }
        let replies = vec![(1, answer.clone())];
        self.journal.push(Entry { ticket: self.last, call: 1, key, op, letters: Vec::new(), replies });
        answer
    }

    fn checkpoint(&mut self) -> Vec<Entry> {
        for place in self.changing.drain(..) {
            let entry = &self.journal[place];
            step(&mut self.base, &entry.key, &entry.op);
        }
        mem::take(&mut self.journal)
    }
}

fn content() -> Content {
    Content { flags: 0, bytes: Arc::from([b'd'; 100]) }
}

// What a read is told by the cell of its key.
fn read_local(cells: &[Cell], words: &mut Words, key: &[u8]) -> Option<Content> {
    cells[cell_of(key)].load(words);
    if !shows_key(words, key) || words[0] != 1 || words[1] != 0 {
        return None;
    }
    Some(Content { flags: words[5] as u32, bytes: Arc::from(data_in(words, &mut [0; 1000])) })
}

fn draw(state: u64) -> u64 {
    state.wrapping_mul(6364136223846793005).wrapping_add(1442695040888963407)
}

// What the threads share, and what each does.
struct Plan {
    kind: String,
    count: u64,
    entries: u64,
    keys: Vec<Arc<[u8]>>,
    cells: Arc<Vec<Cell>>,
    shard: Mutex<Shard>,
}

/// Answers, the nanoseconds that went into handing journals out, and how often that was done.
type Spent = (u64, u64, u64);

// Calls the operation under the lock, and hands the journal out where it has become long.
fn ask(plan: &Plan, key: &Arc<[u8]>, spent: &mut Spent) {
    let op = if plan.kind == "set" { Op::Write(content()) } else { Op::Read };
    let mut shard = plan.shard.lock().unwrap();
    black_box(shard.apply(key, &op));
    spent.0 += 1;
    if plan.entries > 0 && shard.journal.len() as u64 >= plan.entries {
        let started = Instant::now();
        let journal = shard.checkpoint();
        spent.1 += started.elapsed().as_nanos() as u64;
        spent.2 += 1;
        drop(shard);
        drop(journal);
    }
}

fn work(plan: &Plan, seed: u64) -> Spent {
    let mut spent = (0, 0, 0);
    let mut state = draw(seed);
    let mut words = [0; WORDS];
    for _ in 0..plan.count {
        state = draw(state);
        let key = &plan.keys[(state >> 33) as usize % plan.keys.len()];
        if plan.kind == "local" {
            spent.0 += black_box(read_local(&plan.cells, &mut words, key)).is_some() as u64;
        } else {
            ask(plan, key, &mut spent);
        }
    }
    spent
}

fn filled(keys: &[Arc<[u8]>], cells: &Arc<Vec<Cell>>) -> Shard {
    let mut shard = Shard { base: Map::new(), part: Map::new(), journal: Vec::new(), changing: Vec::new(), last: 0, cells: cells.clone() };
    for key in keys {
        shard.apply(key, &Op::Write(content()));
    }
    shard.checkpoint();
    shard
}

fn main() {
    let mut line = String::new();
    io::stdin().read_line(&mut line).unwrap();
    let words: Vec<&str> = line.split_ascii_whitespace().collect();
    let numbers: Vec<u64> = words[1..].iter().map(|word| word.parse().unwrap()).collect();
    let (kind, threads, count, entries) = (words[0].to_string(), numbers[0], numbers[1], numbers[3]);
    let keys: Vec<Arc<[u8]>> = (0..numbers[2]).map(|k| Arc::from(format!("key:{k}").as_bytes())).collect();
    let cells = Arc::new(cells());
    let shard = Mutex::new(filled(&keys, &cells));
    let plan = Arc::new(Plan { kind, count, entries, keys, cells, shard });
    let start = Instant::now();
    let start_one = |seed| {
        let plan = plan.clone();
        thread::spawn(move || work(&plan, seed))
    };
    let all: Vec<_> = (0..threads).map(start_one).collect();
    let mut sum = (0, 0, 0);
    for one in all {
        let one = one.join().unwrap();
        sum = (sum.0 + one.0, sum.1 + one.1, sum.2 + one.2);
    }
    eprintln!("{} {} {}", start.elapsed().as_nanos(), sum.1, sum.2);
    println!("answers {}", sum.0);
}
