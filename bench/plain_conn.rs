// A plain loop that serves the bytes of standard input as one connection, over a table, and writes the replies to
// standard output. It proves nothing, and knows only the requests that `plain_conn gen KIND REQUESTS` writes: small gets
// (`get`), sets with 100 bytes of data (`set`), both (`mixed`), and gets of ten keys (`tens`). Before them come sets of
// every key.
use std::io::{Read, Write};
use std::sync::Arc;

const KEYS: u64 = 10_000;

// More than there are keys.
const PLACES: usize = 32_768;

fn generate(kind: &str, requests: u64) {
    let mut out = std::io::BufWriter::new(std::io::stdout().lock());
    let data = [b'd'; 100];
    let mut state = 1u64;
    let mut draw = move || {
        state = state.wrapping_mul(6364136223846793005).wrapping_add(1442695040888963407);
        state >> 33
    };
    let set = |out: &mut dyn Write, key: u64| {
        write!(out, "set key:{key} 0 0 100\r\n").unwrap();
        out.write_all(&data).unwrap();
        out.write_all(b"\r\n").unwrap();
    };
    for key in 0..KEYS {
        set(&mut out, key);
    }
    for _ in 0..requests {
        let key = draw() % KEYS;
        match kind {
            "set" => set(&mut out, key),
            "mixed" if draw() % 2 == 0 => set(&mut out, key),
            "tens" => {
                write!(out, "get").unwrap();
                for _ in 0..10 {
                    write!(out, " key:{}", draw() % KEYS).unwrap();
                }
                write!(out, "\r\n").unwrap();
            }
            _ => write!(out, "get key:{key}\r\n").unwrap(),
        }
    }
}

#[derive(Clone)]
struct Content {
    flags: u32,
    bytes: Arc<[u8]>,
}

struct Held {
    key: Vec<u8>,
    content: Content,
}

// A key stands at the place that its bytes give, or at the first place behind it that was free when it came.
struct Table {
    places: Vec<Option<Held>>,
}

impl Table {
    fn new() -> Table {
        Table { places: (0..PLACES).map(|_| None).collect() }
    }

    fn find(&self, key: &[u8]) -> usize {
        let mut at = first_place(key);
        while let Some(held) = &self.places[at] {
            if held.key == key {
                break;
            }
            at = (at + 1) % PLACES;
        }
        at
    }

    // The content is shared, so that the table need not be held while it is written out.
    fn get(&self, key: &[u8]) -> Option<Content> {
        self.places[self.find(key)].as_ref().map(|held| held.content.clone())
    }

    fn insert(&mut self, key: Vec<u8>, content: Content) {
        let at = self.find(&key);
        match &mut self.places[at] {
            Some(held) => held.content = content,
            place => *place = Some(Held { key, content }),
        }
    }
}

// The Fowler-Noll-Vo hash, 1a, folded.
fn first_place(key: &[u8]) -> usize {
    let mut hash = 0xcbf2_9ce4_8422_2325_u64;
    for byte in key {
        hash = (hash ^ u64::from(*byte)).wrapping_mul(0x0100_0000_01b3);
    }
    (hash ^ (hash >> 32)) as usize % PLACES
}

struct Head {
    key: Vec<u8>,
    flags: u32,
    bytes: usize,
}

fn number(word: &[u8]) -> Option<u64> {
    if word.is_empty() || word.len() > 20 || !word.iter().all(u8::is_ascii_digit) {
        return None;
    }
    std::str::from_utf8(word).ok()?.parse().ok()
}

fn is_key(word: &[u8]) -> bool {
    (1..=250).contains(&word.len()) && word.iter().all(|b| *b >= 0x21 && *b != 0x7f)
}

fn line_end(bytes: &[u8]) -> Option<usize> {
    let mut at = 0;
    loop {
        let feed = at + bytes[at..].iter().position(|b| *b == b'\n')?;
        if feed > 0 && bytes[feed - 1] == b'\r' {
            return Some(feed - 1);
        }
        at = feed + 1;
    }
}

fn get(table: &Table, keys: &[&[u8]], replies: &mut Vec<u8>) {
    for key in keys {
        if let Some(content) = table.get(key) {
            replies.extend_from_slice(b"VALUE ");
            replies.extend_from_slice(key);
            write!(replies, " {} {}\r\n", content.flags, content.bytes.len()).unwrap();
            replies.extend_from_slice(&content.bytes);
            replies.extend_from_slice(b"\r\n");
        }
    }
    replies.extend_from_slice(b"END\r\n");
}

/// What is read and not yet answered, what is stored, and the replies to one piece.
struct Conn {
    buffer: Vec<u8>,
    start: usize,
    store: Option<Head>,
    table: Table,
    replies: Vec<u8>,
}

impl Conn {
    fn new() -> Conn {
        Conn { buffer: Vec::new(), start: 0, store: None, table: Table::new(), replies: Vec::new() }
    }

    fn take(&mut self, piece: &[u8]) {
        if self.start * 2 > self.buffer.len() {
            self.buffer.drain(..self.start);
            self.start = 0;
        }
        self.buffer.extend_from_slice(piece);
        self.replies.clear();
        while self.answer_next() {}
    }

    /// Answers the next line or block, if it is there.
    fn answer_next(&mut self) -> bool {
        if let Some(head) = self.store.take() {
            if self.buffer.len() - self.start < head.bytes + 2 {
                self.store = Some(head);
                return false;
            }
            let data = &self.buffer[self.start..self.start + head.bytes];
            self.table.insert(head.key, Content { flags: head.flags, bytes: Arc::from(data) });
            self.start += head.bytes + 2;
            self.replies.extend_from_slice(b"STORED\r\n");
            return true;
        }
        let Some(end) = line_end(&self.buffer[self.start..]) else { return false };
        let line = &self.buffer[self.start..self.start + end];
        self.start += end + 2;
        let words: Vec<&[u8]> = line.split(|b| *b == b' ').filter(|word| !word.is_empty()).collect();
        match words.as_slice() {
            [b"get", keys @ ..] if !keys.is_empty() && keys.iter().all(|key| is_key(key)) => get(&self.table, keys, &mut self.replies),
            [b"set", key, flags, expiry, bytes] if is_key(key) && number(expiry) == Some(0) => {
                if let (Some(flags), Some(bytes)) = (number(flags), number(bytes)) {
                    self.store = Some(Head { key: key.to_vec(), flags: flags as u32, bytes: bytes as usize });
                }
            }
            _ => self.replies.extend_from_slice(b"ERROR\r\n"),
        }
        true
    }
}

fn main() {
    let words: Vec<String> = std::env::args().collect();
    if words.len() == 4 && words[1] == "gen" {
        return generate(&words[2], words[3].parse().unwrap());
    }
    let mut input = Vec::new();
    std::io::stdin().lock().read_to_end(&mut input).unwrap();
    let mut source = input.as_slice();
    let mut written: Vec<u8> = Vec::new();
    let mut piece = [0u8; 16_384];
    let mut conn = Conn::new();
    loop {
        let count = source.read(&mut piece).unwrap();
        if count == 0 {
            break;
        }
        conn.take(&piece[..count]);
        written.extend_from_slice(&conn.replies);
    }
    std::io::stdout().lock().write_all(&written).unwrap();
}
