//! Frames of letters: how they are drawn, and a reader of fields by their places.

use crate::broken::Drawn;
use crate::random::Random;
use crate::told;

const MOST_LENGTH: u64 = 2_200_000;
const MOST_VERSION: u64 = (1 << 48) - 1;
const MOST_TIME: u64 = 1_000_000_000_000;
const MOST_DATA: usize = 1_048_576;

/// A frame in the making, and the places of its numbers.
#[derive(Default)]
struct Frame(Drawn);

impl Frame {
    fn number(&mut self, len: usize, value: u64) {
        self.0.numbers.push((self.0.bytes.len(), len));
        self.0.bytes.extend_from_slice(&value.to_be_bytes()[8 - len..]);
    }

    fn key(&mut self, key: &[u8]) {
        self.number(1, key.len() as u64);
        self.0.bytes.extend_from_slice(key);
    }

    fn after(&mut self, random: &mut Random) {
        if random.one_in(3) {
            self.number(1, 0);
        } else {
            self.key(&random.key());
        }
    }

    fn stamp(&mut self, random: &mut Random) {
        self.number(8, random.number(0, MOST_VERSION));
        self.number(2, random.number(0, 65_535));
    }

    fn actor(&mut self, random: &mut Random) {
        let manager = random.one_in(2);
        self.number(1, u64::from(manager));
        self.number(2, random.number(0, if manager { 8 } else { 65_535 }));
    }

    fn content(&mut self, random: &mut Random, data: Option<usize>) {
        let data = data.map_or_else(|| random.data(MOST_DATA), |len| vec![b'd'; len]);
        self.number(4, random.number(0, u64::from(u32::MAX)));
        self.number(4, data.len() as u64);
        self.0.bytes.extend_from_slice(&data);
    }

    fn items(&mut self, random: &mut Random) {
        let huge = random.one_in(20_000);
        let full = random.one_in(200);
        let count = if huge { 2 } else if full { 64 } else { random.below(4) };
        self.number(1, count as u64);
        for item in 0..count {
            self.key(&random.key());
            self.stamp(random);
            let kind = if huge { 1 } else { random.below(3) as u64 };
            self.number(1, kind);
            self.number(1, random.below(2) as u64);
            if kind < 2 {
                let left = (MOST_LENGTH as usize).saturating_sub(self.0.bytes.len() + 4 + random.below(8));
                self.content(random, huge.then_some(if item == 0 { MOST_DATA } else { left.min(MOST_DATA) }));
            }
        }
    }

    fn ballot(&mut self, random: &mut Random) {
        self.number(4, random.number(0, u64::from(u32::MAX)));
        self.number(1, random.number(0, 8));
    }

    fn view(&mut self, random: &mut Random) {
        let count = if random.one_in(10) { 16 } else { 1 + random.below(4) };
        let next = random.number(16, 65_536).max(count as u64);
        let mut members = std::collections::BTreeSet::new();
        while members.len() < count {
            members.insert(if random.one_in(2) { random.number(0, next - 1) } else { random.below(next as usize) as u64 });
        }
        self.number(8, random.number(0, u64::MAX));
        self.number(4, next);
        self.number(1, count as u64);
        for member in members {
            self.number(2, member);
        }
    }

    fn inv(&mut self, random: &mut Random) {
        self.key(&random.key());
        self.stamp(random);
        let kind = random.below(3) as u64;
        self.number(1, kind);
        if kind < 2 {
            self.content(random, None);
        }
    }

    fn body(&mut self, random: &mut Random, kind: u64) {
        match kind {
            1 => self.inv(random),
            2 | 3 => {
                self.key(&random.key());
                self.stamp(random);
                if kind == 2 {
                    self.stamp(random);
                }
            }
            4 => {
                self.after(random);
                self.number(1, random.number(1, 64));
            }
            5 => {
                self.after(random);
                self.number(1, random.below(2) as u64);
                self.items(random);
            }
            6 | 7 => self.number(8, random.number(0, MOST_TIME)),
            8 | 11 => self.ballot(random),
            9 => {
                self.ballot(random);
                let voted = random.one_in(2);
                self.number(1, u64::from(voted));
                if voted {
                    self.ballot(random);
                    self.view(random);
                }
            }
            10 => {
                self.ballot(random);
                self.view(random);
            }
            _ => self.view(random),
        }
    }
}

fn draw_whole(random: &mut Random) -> Drawn {
    let mut frame = Frame::default();
    let kind = random.number(1, 13);
    frame.number(4, 0);
    frame.number(1, kind);
    frame.number(1, random.number(0, 7));
    frame.number(8, random.number(0, u64::MAX));
    frame.actor(random);
    frame.actor(random);
    frame.body(random, kind);
    let mut drawn = frame.0;
    let length = drawn.bytes.len() as u32 - 4;
    drawn.bytes[..4].copy_from_slice(&length.to_be_bytes());
    drawn
}

pub fn draw(random: &mut Random) -> Drawn {
    let mut drawn = draw_whole(random);
    // the next frame may be there already
    if random.one_in(8) {
        drawn.bytes.extend_from_slice(&[0, 0, 0, 16]);
    }
    drawn
}

/// Frames one after the other.
pub fn draw_several(random: &mut Random) -> Drawn {
    let mut all = Drawn::default();
    for _ in 0..1 + random.below(3) {
        let start = all.bytes.len();
        let frame = draw_whole(random);
        all.numbers.extend(frame.numbers.iter().map(|(at, len)| (start + at, *len)));
        all.bytes.extend_from_slice(&frame.bytes);
    }
    all
}

/// Why bytes are no frame, as it is told.
type Fault = String;

/// Reads fields from a place on, up to the frame's end.
struct Fields<'a> {
    frame: &'a [u8],
    at: usize,
}

impl<'a> Fields<'a> {
    fn bytes(&mut self, len: usize) -> Result<&'a [u8], Fault> {
        let bytes = self.frame.get(self.at..self.at + len).ok_or_else(|| self.bad_length())?;
        self.at += len;
        Ok(bytes)
    }

    fn bad_length(&self) -> Fault {
        format!("bad-length {}", self.frame.len() - 4)
    }

    /// A number of so many bytes; its place is told where it is out of its range.
    fn number(&mut self, len: usize, least: u64, most: u64) -> Result<u64, Fault> {
        let at = self.at;
        let value = self.bytes(len)?.iter().fold(0, |value, byte| value << 8 | u64::from(*byte));
        if value < least || value > most { Err(format!("bad-field {at}")) } else { Ok(value) }
    }

    /// A key, which may be none where `least` is 0.
    fn key(&mut self, least: u64) -> Result<String, Fault> {
        let len = self.number(1, least, 250)?;
        let start = self.at;
        let key = self.bytes(len as usize)?;
        match key.iter().position(|byte| *byte <= 0x20 || *byte == 0x7f) {
            Some(bad) => Err(format!("bad-field {}", start + bad)),
            None => Ok(told(key)),
        }
    }

    fn stamp(&mut self) -> Result<String, Fault> {
        let version = self.number(8, 0, MOST_VERSION)?;
        Ok(format!("{version}.{}", self.number(2, 0, u64::MAX)?))
    }

    fn actor(&mut self) -> Result<String, Fault> {
        if self.number(1, 0, 1)? == 0 {
            Ok(format!("n{}", self.number(2, 0, u64::MAX)?))
        } else {
            Ok(format!("m{}", self.number(2, 0, 8)?))
        }
    }

    fn content(&mut self, kind: u64) -> Result<String, Fault> {
        if kind == 2 {
            return Ok("gone".to_string());
        }
        let flags = self.number(4, 0, u64::MAX)?;
        let len = self.number(4, 0, MOST_DATA as u64)?;
        Ok(format!("{flags} {}", told(self.bytes(len as usize)?)))
    }

    fn items(&mut self) -> Result<String, Fault> {
        let mut text = String::new();
        for _ in 0..self.number(1, 0, 64)? {
            let (key, stamp, kind) = (self.key(1)?, self.stamp()?, self.number(1, 0, 2)?);
            let valid = self.number(1, 0, 1)?;
            text += &format!(" {key} {valid} {stamp} {} {}", kind_name(kind), self.content(kind)?);
        }
        Ok(text)
    }

    fn ballot(&mut self) -> Result<String, Fault> {
        let round = self.number(4, 0, u64::MAX)?;
        Ok(format!("{round}.{}", self.number(1, 0, 8)?))
    }

    fn view(&mut self) -> Result<String, Fault> {
        let (epoch, next) = (self.number(8, 0, u64::MAX)?, self.number(4, 1, 65_536)?);
        let mut text = format!("{epoch}:{next}");
        let mut least = 0;
        for _ in 0..self.number(1, 1, 16)? {
            let member = self.number(2, least, next - 1)?;
            text += &format!(":{member}");
            least = member + 1;
        }
        Ok(text)
    }

    fn body(&mut self, kind: u64) -> Result<String, Fault> {
        Ok(match kind {
            1 => {
                let (key, stamp, kind) = (self.key(1)?, self.stamp()?, self.number(1, 0, 2)?);
                format!("inv {key} {stamp} {} {}", kind_name(kind), self.content(kind)?)
            }
            2 => format!("ack {} {} {}", self.key(1)?, self.stamp()?, self.stamp()?),
            3 => format!("val {} {}", self.key(1)?, self.stamp()?),
            4 => format!("copy-ask {} {}", self.key(0)?, self.number(1, 1, 64)?),
            5 => format!("copy-give {} {}{}", self.key(0)?, self.number(1, 0, 1)?, self.items()?),
            6 => format!("lease-ask {}", self.number(8, 0, MOST_TIME)?),
            7 => format!("lease-give {}", self.number(8, 0, MOST_TIME)?),
            8 => format!("prepare {}", self.ballot()?),
            9 => {
                let ballot = self.ballot()?;
                match self.number(1, 0, 1)? {
                    0 => format!("promise {ballot} none"),
                    _ => format!("promise {ballot} {} {}", self.ballot()?, self.view()?),
                }
            }
            10 => format!("accept {} {}", self.ballot()?, self.view()?),
            11 => format!("accepted {}", self.ballot()?),
            12 => format!("chosen {}", self.view()?),
            _ => format!("activate {}", self.view()?),
        })
    }
}

fn kind_name(kind: u64) -> &'static str {
    if kind == 0 { "write" } else { "rmw" }
}

fn read_whole(frame: &[u8]) -> Result<String, Fault> {
    let mut fields = Fields { frame, at: 4 };
    let kind = fields.number(1, 0, 255)?;
    if !(1..=13).contains(&kind) {
        return Err(format!("bad-kind {kind}"));
    }
    let (shard, epoch) = (fields.number(1, 0, 7)?, fields.number(8, 0, u64::MAX)?);
    let (from, to) = (fields.actor()?, fields.actor()?);
    let body = fields.body(kind)?;
    if fields.at < frame.len() {
        return Err(fields.bad_length());
    }
    Ok(format!("{} {shard} {epoch} {from} {to} {body}", frame.len()))
}

/// Reads the frame that the bytes begin with: how long it is and its letter, or the first fault.
pub fn read(bytes: &[u8]) -> String {
    let Some(length) = bytes.get(..4) else {
        return "short 4".to_string();
    };
    let length = u32::from_be_bytes(length.try_into().unwrap());
    if u64::from(length) < 16 || u64::from(length) > MOST_LENGTH {
        return format!("bad-length {length}");
    }
    let wanted = 4 + length as usize;
    match bytes.get(..wanted) {
        None => format!("short {wanted}"),
        Some(frame) => read_whole(frame).unwrap_or_else(|fault| fault),
    }
}

/// Reads frames one after the other: the letter of each, and then the first fault, or that more is needed.
pub fn read_several(bytes: &[u8]) -> String {
    let mut text = String::new();
    let mut rest = bytes;
    loop {
        let told = read(rest);
        match told.split_once(' ') {
            Some((len, letter)) if len.starts_with(|c: char| c.is_ascii_digit()) => {
                text += &format!(" {letter};");
                rest = &rest[len.parse::<usize>().unwrap()..];
            }
            _ if told.starts_with("short") => return text + "need",
            _ => return text + &told,
        }
    }
}
