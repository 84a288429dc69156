//! Replies of a server: how they are drawn, and a reader that takes one byte after the other.

use crate::broken::Drawn;
use crate::random::Random;
use crate::told;

const MOST_DATA: usize = 1_048_576;

/// Each whole text, and what it is told as.
const TEXTS: &[(&str, &str)] = &[
    ("STORED\r\n", "stored"),
    ("NOT_STORED\r\n", "not-stored"),
    ("EXISTS\r\n", "exists"),
    ("NOT_FOUND\r\n", "not-found"),
    ("DELETED\r\n", "deleted"),
    ("ERROR\r\n", "error"),
    ("VERSION hermes-1\r\n", "version"),
    ("CLIENT_ERROR bad key\r\n", "bad-key"),
    ("CLIENT_ERROR bad number\r\n", "bad-number"),
    ("CLIENT_ERROR bad data chunk\r\n", "bad-chunk"),
    ("CLIENT_ERROR not a number\r\n", "not-number"),
    ("CLIENT_ERROR line too long\r\n", "line-too-long"),
    ("SERVER_ERROR object too large\r\n", "too-large"),
    ("SERVER_ERROR expiry not kept\r\n", "expiry"),
    ("SERVER_ERROR busy\r\n", "busy"),
    ("SERVER_ERROR aborted\r\n", "aborted"),
    ("SERVER_ERROR outcome unknown\r\n", "unknown"),
    ("SERVER_ERROR calls spent\r\n", "spent"),
    ("SERVER_ERROR version limit\r\n", "version-limit"),
    ("SERVER_ERROR out of memory\r\n", "memory"),
];

fn draw_values(random: &mut Random, text: &mut Vec<u8>) {
    let tags = random.one_in(2);
    for _ in 0..random.below(4) {
        let data = random.data(MOST_DATA);
        text.extend_from_slice(b"VALUE ");
        text.extend_from_slice(&random.key());
        text.extend_from_slice(format!(" {} {}", random.number(0, u64::from(u32::MAX)), data.len()).as_bytes());
        if tags {
            text.extend_from_slice(format!(" {}", random.number(0, u64::MAX)).as_bytes());
        }
        text.extend_from_slice(b"\r\n");
        text.extend_from_slice(&data);
        text.extend_from_slice(b"\r\n");
    }
    text.extend_from_slice(b"END\r\n");
}

pub fn draw(random: &mut Random) -> Drawn {
    let mut text = Vec::new();
    match random.below(8) {
        0 => text.extend_from_slice(format!("{}\r\n", random.number(0, u64::MAX)).as_bytes()),
        1..=4 => draw_values(random, &mut text),
        _ => text.extend_from_slice(TEXTS[random.below(TEXTS.len())].0.as_bytes()),
    }
    // the next reply may be there already
    if random.one_in(4) {
        text.extend_from_slice(b"STORED\r\n");
    }
    Drawn::text(text)
}

/// What must come next.
enum State {
    /// One of these texts, of which so many bytes came.
    Text(Vec<(&'static str, &'static str)>, usize),
    Number(Option<u64>),
    NumberEnd(u64),
    Key(Vec<u8>),
    Flags(Option<u64>),
    Length(Option<u64>),
    Tag(Option<u64>),
    LineEnd,
    Data(usize),
    DataEnd(usize),
}

struct Item {
    key: Vec<u8>,
    flags: u64,
    data: Vec<u8>,
    length: u64,
    tag: u64,
}

struct Machine {
    state: State,
    items: Vec<Item>,
    /// Whether items have tags, once one told.
    tags: Option<bool>,
}

/// What a byte leads to.
enum Next {
    To(State),
    Whole(String),
    Bad,
}

/// The number with a digit more, where one without a spare zero goes on so.
fn longer(number: Option<u64>, byte: u8, limit: u64) -> Option<u64> {
    let digit = u128::from(byte.checked_sub(b'0').filter(|digit| *digit < 10)?);
    let value = match number {
        None => digit,
        Some(0) => return None,
        Some(number) => u128::from(number) * 10 + digit,
    };
    (value <= u128::from(limit)).then_some(value as u64)
}

const MORE: &[(&str, &str)] = &[("VALUE ", "VALUE"), ("END\r\n", "END")];

impl Machine {
    fn text(&mut self, texts: Vec<(&'static str, &'static str)>, at: usize, byte: u8) -> Next {
        let left: Vec<_> = texts.into_iter().filter(|(text, _)| text.as_bytes()[at] == byte).collect();
        match left[..] {
            [] => Next::Bad,
            [("VALUE ", _)] if at == 5 => Next::To(State::Key(Vec::new())),
            [(text, _)] if text.len() == at + 1 && text == "END\r\n" => Next::Whole(self.values()),
            [(text, name)] if text.len() == at + 1 => Next::Whole(name.to_string()),
            _ => Next::To(State::Text(left, at + 1)),
        }
    }

    fn values(&self) -> String {
        let mut text = format!("values {}", u8::from(self.tags == Some(true)));
        for item in &self.items {
            text += &format!(" {} {} {} {}", told(&item.key), item.flags, told(&item.data), item.tag);
        }
        text
    }

    fn item(&mut self) -> &mut Item {
        self.items.last_mut().unwrap()
    }

    fn length(&mut self, length: Option<u64>, byte: u8) -> Next {
        let tagged = match (length, byte) {
            (Some(_), b' ') => true,
            (Some(_), b'\r') => false,
            _ => return longer(length, byte, MOST_DATA as u64).map_or(Next::Bad, |length| Next::To(State::Length(Some(length)))),
        };
        if *self.tags.get_or_insert(tagged) != tagged {
            return Next::Bad;
        }
        self.item().length = length.unwrap();
        Next::To(if tagged { State::Tag(None) } else { State::LineEnd })
    }

    fn key(&mut self, mut key: Vec<u8>, byte: u8) -> Next {
        match byte {
            b' ' if !key.is_empty() => {
                self.items.push(Item { key, flags: 0, data: Vec::new(), length: 0, tag: 0 });
                Next::To(State::Flags(None))
            }
            0..=0x20 | 0x7f => Next::Bad,
            _ if key.len() == 250 => Next::Bad,
            _ => {
                key.push(byte);
                Next::To(State::Key(key))
            }
        }
    }

    fn behind_line(&mut self) -> State {
        match self.item().length {
            0 => State::DataEnd(0),
            length => State::Data(length as usize),
        }
    }

    fn step(&mut self, state: State, byte: u8) -> Next {
        let go = |next: Option<State>| next.map_or(Next::Bad, Next::To);
        match (state, byte) {
            (State::Text(texts, at), _) => self.text(texts, at, byte),
            (State::Number(Some(number)), b'\r') => Next::To(State::NumberEnd(number)),
            (State::Number(number), _) => go(longer(number, byte, u64::MAX).map(|n| State::Number(Some(n)))),
            (State::NumberEnd(number), b'\n') => Next::Whole(format!("number {number}")),
            (State::Key(key), _) => self.key(key, byte),
            (State::Flags(Some(flags)), b' ') => {
                self.item().flags = flags;
                Next::To(State::Length(None))
            }
            (State::Flags(flags), _) => go(longer(flags, byte, u64::from(u32::MAX)).map(|n| State::Flags(Some(n)))),
            (State::Length(length), _) => self.length(length, byte),
            (State::Tag(Some(tag)), b'\r') => {
                self.item().tag = tag;
                Next::To(State::LineEnd)
            }
            (State::Tag(tag), _) => go(longer(tag, byte, u64::MAX).map(|n| State::Tag(Some(n)))),
            (State::LineEnd, b'\n') => Next::To(self.behind_line()),
            (State::Data(left), _) => {
                self.item().data.push(byte);
                Next::To(if left == 1 { State::DataEnd(0) } else { State::Data(left - 1) })
            }
            (State::DataEnd(0), b'\r') => Next::To(State::DataEnd(1)),
            (State::DataEnd(1), b'\n') => Next::To(State::Text(MORE.to_vec(), 0)),
            _ => Next::Bad,
        }
    }
}

/// Reads the reply that the bytes begin with: how long it is and what it says; `need`, where it goes on; or the first byte with which
/// no reply goes on.
pub fn read(bytes: &[u8]) -> String {
    let state = match bytes.first() {
        Some(b'0'..=b'9') => State::Number(None),
        _ => State::Text([MORE, TEXTS].concat(), 0),
    };
    let mut machine = Machine { state, items: Vec::new(), tags: None };
    for (at, byte) in bytes.iter().enumerate() {
        let state = std::mem::replace(&mut machine.state, State::LineEnd);
        match machine.step(state, *byte) {
            Next::To(state) => machine.state = state,
            Next::Whole(text) => return format!("{} {text}", at + 1),
            Next::Bad => return format!("bad {at}"),
        }
    }
    "need".to_string()
}
