// A plain loop over what clients send: it reads standard input in pieces of 16 KiB, cuts lines and blocks, reads the
// requests and prints how many there were. It proves nothing. `plain_front gen REQUESTS` writes such input instead:
// small gets, and sets with 100 bytes of data.
use std::io::{Read, Write};

fn generate(requests: u64) {
    let mut out = std::io::BufWriter::new(std::io::stdout().lock());
    let data = [b'd'; 100];
    let mut state = 1u64;
    for _ in 0..requests {
        state = state.wrapping_mul(6364136223846793005).wrapping_add(1442695040888963407);
        let key = (state >> 33) % 100_000;
        if state >> 63 == 0 {
            write!(out, "set key:{key} 0 0 100\r\n").unwrap();
            out.write_all(&data).unwrap();
            out.write_all(b"\r\n").unwrap();
        } else {
            write!(out, "get key:{key}\r\n").unwrap();
        }
    }
}

struct Store {
    _key: Vec<u8>,
    bytes: usize,
}

enum Request {
    Get(Vec<Vec<u8>>),
    Set(Vec<u8>),
}

fn number(word: &[u8]) -> Option<u64> {
    if word.is_empty() || word.len() > 20 || !word.iter().all(u8::is_ascii_digit) {
        return None;
    }
    std::str::from_utf8(word).ok()?.parse().ok()
}

fn is_key(word: &[u8]) -> bool {
    (1..=250).contains(&word.len()) && word.iter().all(|b| *b >= 0x21 && *b != 0x7f)
}

/// What is read and not yet counted, and the counts.
#[derive(Default)]
struct Front {
    buffer: Vec<u8>,
    start: usize,
    store: Option<Store>,
    lines: u64,
    requests: u64,
    last: Option<Request>,
}

impl Front {
    fn take(&mut self, piece: &[u8]) {
        if self.start * 2 > self.buffer.len() {
            self.buffer.drain(..self.start);
            self.start = 0;
        }
        self.buffer.extend_from_slice(piece);
        while self.count_next() {}
    }

    /// Counts the next line or block, if it is there.
    fn count_next(&mut self) -> bool {
        if let Some(head) = self.store.take() {
            if self.buffer.len() - self.start < head.bytes + 2 {
                self.store = Some(head);
                return false;
            }
            self.last = Some(Request::Set(self.buffer[self.start..self.start + head.bytes].to_vec()));
            self.start += head.bytes + 2;
            self.requests += 1;
            return true;
        }
        let Some(end) = self.buffer[self.start..].windows(2).position(|two| two == b"\r\n") else { return false };
        let line = &self.buffer[self.start..self.start + end];
        self.start += end + 2;
        self.lines += 1;
        let words: Vec<&[u8]> = line.split(|b| *b == b' ').filter(|word| !word.is_empty()).collect();
        match words.as_slice() {
            [b"get", keys @ ..] if !keys.is_empty() && keys.iter().all(|key| is_key(key)) => {
                self.last = Some(Request::Get(keys.iter().map(|key| key.to_vec()).collect()));
                self.requests += 1;
            }
            [b"set", key, flags, expiry, bytes] if is_key(key) && number(flags).is_some() && number(expiry) == Some(0) => {
                if let Some(bytes) = number(bytes) {
                    self.store = Some(Store { _key: key.to_vec(), bytes: bytes as usize });
                }
            }
            _ => {}
        }
        true
    }
}

fn main() {
    let words: Vec<String> = std::env::args().collect();
    if words.len() == 3 && words[1] == "gen" {
        return generate(words[2].parse().unwrap());
    }
    let mut input = std::io::stdin().lock();
    let mut piece = [0u8; 16_384];
    let mut front = Front::default();
    loop {
        let count = input.read(&mut piece).unwrap();
        if count == 0 {
            break;
        }
        front.take(&piece[..count]);
    }
    match &front.last {
        Some(Request::Get(keys)) => assert!(!keys.is_empty()),
        Some(Request::Set(data)) => assert!(data.len() <= 1_048_576),
        None => {}
    }
    println!("lines {} requests {}", front.lines, front.requests);
}
