//! Draws inputs for the readers of bytes, and reads them by readers of its own, which are written from the formats alone. Each input is drawn from its
//! grammar and broken in one place. The inputs go to one file, as the programs `bytes_wire` and `bytes_script` read them, and the answers that
//! are due to another, a line each; on standard output it tells how the inputs were broken and what is due.
//!
//! usage: hostile_bytes KIND SEED COUNT INPUTS ANSWERS
mod broken;
mod command;
mod frame;
mod random;
mod reply;
mod requests;
mod script;

use broken::{BREAKS, Drawn, broken};
use random::Random;
use std::collections::BTreeMap;
use std::fmt::Write as _;
use std::fs::File;
use std::io::{BufWriter, Result, Write};

/// How inputs of a kind are drawn, and how they are read.
struct Kind {
    draw: fn(&mut Random) -> Drawn,
    read: fn(&[u8]) -> String,
}

fn kind(name: &str) -> Option<Kind> {
    Some(match name {
        "header" => Kind { draw: script::draw_header, read: script::read_header },
        "event" => Kind { draw: script::draw_event, read: script::read_event },
        "script" => Kind { draw: script::draw_script, read: script::read_script },
        "command" => Kind { draw: command::draw, read: command::read },
        "requests" => Kind { draw: requests::draw, read: requests::read },
        "reply" => Kind { draw: reply::draw, read: reply::read },
        "frame" => Kind { draw: frame::draw, read: frame::read },
        "frames" => Kind { draw: frame::draw_several, read: frame::read_several },
        _ => return None,
    })
}

/// Bytes by two hexadecimal digits each, and `-` where there is none.
pub fn told(bytes: &[u8]) -> String {
    if bytes.is_empty() {
        return "-".to_string();
    }
    let mut text = String::with_capacity(2 * bytes.len());
    for byte in bytes {
        write!(text, "{byte:02x}").unwrap();
    }
    text
}

/// What a tally counts: the words of an answer that are no numbers and no bytes.
fn name(kind: &str, answer: &str) -> String {
    match kind {
        // of several requests the last one
        "requests" => {
            let mut last = answer.rsplit("; ");
            let words = last.next().filter(|end| *end != "need").or(last.next()).unwrap_or("need");
            words.split(' ').take(if words.starts_with("refused") { 2 } else { 1 }).collect::<Vec<_>>().join(" ")
        }
        "reply" | "frame" if answer.starts_with(|c: char| c.is_ascii_digit()) => "read".to_string(),
        "frames" => answer.rsplit(';').next().and_then(|end| end.split(' ').next()).unwrap_or("").to_string(),
        "script" => answer.split(' ').filter(|word| word.parse::<u64>().is_err()).collect::<Vec<_>>().join(" "),
        _ => answer.split(' ').next().unwrap_or("").to_string(),
    }
}

fn main() -> Result<()> {
    let words: Vec<String> = std::env::args().collect();
    let [_, name_of_kind, seed, count, inputs, answers] = &words[..] else {
        panic!("usage: hostile_bytes KIND SEED COUNT INPUTS ANSWERS");
    };
    let kind = kind(name_of_kind).expect("a kind");
    let count: u64 = count.parse().expect("a count");
    let mut random = Random::new(seed.parse().expect("a seed"));
    let mut inputs = BufWriter::new(File::create(inputs)?);
    let mut answers = BufWriter::new(File::create(answers)?);
    let mut hows = [0u64; BREAKS.len()];
    let mut dues: BTreeMap<String, u64> = BTreeMap::new();
    for _ in 0..count {
        let drawn = (kind.draw)(&mut random);
        let (how, bytes) = broken(&mut random, drawn);
        writeln!(inputs, "{name_of_kind} {}", bytes.len())?;
        inputs.write_all(&bytes)?;
        inputs.write_all(b"\n")?;
        let answer = (kind.read)(&bytes);
        writeln!(answers, "{answer}")?;
        hows[how] += 1;
        *dues.entry(name(name_of_kind, &answer)).or_default() += 1;
    }
    for (how, count) in BREAKS.iter().zip(hows) {
        println!("{count} broken {how}");
    }
    for (due, count) in dues {
        println!("{count} due {due}");
    }
    inputs.flush()?;
    answers.flush()
}
