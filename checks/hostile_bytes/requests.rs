//! What clients send: how it is drawn, and a reader that has a table of commands.

use crate::broken::Drawn;
use crate::random::Random;
use crate::told;

const LINE_LIMIT: usize = 65_536;
const MOST_DATA: u64 = 1_048_576;
const MOST_32: u64 = 4_294_967_295;

/// What a word must be.
#[derive(Clone, Copy, PartialEq)]
enum Field {
    Key,
    /// A number up to a limit.
    Number(u64),
    /// 0.
    Expiry,
    /// How long the block is.
    Bytes,
}

use Field::{Bytes, Expiry, Key, Number};

/// A command's words behind its name. Those of updates may be followed by `noreply`.
struct Command {
    name: &'static str,
    fields: &'static [Field],
    updates: bool,
}

const STORE: &[Field] = &[Key, Number(MOST_32), Expiry, Bytes];
const CAS: &[Field] = &[Key, Number(MOST_32), Expiry, Bytes, Number(u64::MAX)];

const COMMANDS: &[Command] = &[
    Command { name: "set", fields: STORE, updates: true },
    Command { name: "add", fields: STORE, updates: true },
    Command { name: "replace", fields: STORE, updates: true },
    Command { name: "cas", fields: CAS, updates: true },
    Command { name: "incr", fields: &[Key, Number(u64::MAX)], updates: true },
    Command { name: "decr", fields: &[Key, Number(u64::MAX)], updates: true },
    Command { name: "delete", fields: &[Key], updates: true },
    Command { name: "quit", fields: &[], updates: false },
    Command { name: "version", fields: &[], updates: false },
];

/// Those whose line is followed by a block, whether they are served or not.
const WITH_BLOCK: [&[u8]; 6] = [b"set", b"cas", b"add", b"replace", b"append", b"prepend"];

fn space(random: &mut Random, line: &mut Vec<u8>) {
    let count = if random.one_in(20) { random.below(4) } else { 1 };
    line.resize(line.len() + count, b' ');
}

fn draw_get(random: &mut Random, line: &mut Vec<u8>) {
    line.extend_from_slice(random.pick(&["get", "gets"]).as_bytes());
    if random.one_in(1_000) {
        // a line of just the limit, or about that
        let len = LINE_LIMIT - 2 + random.below(5);
        while line.len() < len {
            line.push(b' ');
            line.resize((line.len() + 1 + random.below(250)).min(len), b'k');
        }
        return;
    }
    for _ in 0..1 + random.below(4) {
        space(random, line);
        line.extend_from_slice(&random.key());
    }
}

fn draw_number(random: &mut Random, most: u64) -> String {
    let number = random.number(0, most);
    if random.one_in(10) { format!("{number:020}") } else { number.to_string() }
}

fn draw_command(random: &mut Random, line: &mut Vec<u8>, data: &[u8]) {
    let command = &COMMANDS[random.below(COMMANDS.len())];
    let unserved = command.fields == STORE && random.one_in(20);
    line.extend_from_slice(if unserved { random.pick(&["append", "prepend"]) } else { command.name }.as_bytes());
    for field in command.fields {
        space(random, line);
        match field {
            Key => line.extend_from_slice(&random.key()),
            Number(most) => line.extend_from_slice(draw_number(random, *most).as_bytes()),
            Expiry if random.one_in(20) => line.extend_from_slice(random.pick(&["60", "-1", "-0", "-", "00", "+0"]).as_bytes()),
            Expiry => line.push(b'0'),
            Bytes => line.extend_from_slice(data.len().to_string().as_bytes()),
        }
    }
    if command.updates && random.one_in(4) {
        space(random, line);
        line.extend_from_slice(b"noreply");
    }
    if command.fields.contains(&Bytes) {
        line.extend_from_slice(b"\r\n");
        line.extend_from_slice(data);
    }
}

/// One to three requests.
pub fn draw(random: &mut Random) -> Drawn {
    let mut bytes = Vec::new();
    for _ in 0..1 + random.below(3) {
        if random.one_in(20) {
            space(random, &mut bytes);
        }
        if random.one_in(4) {
            draw_get(random, &mut bytes);
        } else {
            let data = random.data(MOST_DATA as usize);
            draw_command(random, &mut bytes, &data);
        }
        bytes.extend_from_slice(b"\r\n");
    }
    Drawn::text(bytes)
}

/// The number that 1 to 20 digits are, where it is in its type.
fn number(word: &[u8], most: u64) -> Option<u64> {
    let digits = std::str::from_utf8(word).ok().filter(|text| (1..=20).contains(&text.len()) && text.bytes().all(|byte| byte.is_ascii_digit()))?;
    digits.parse::<u128>().ok().filter(|value| *value <= u128::from(most)).map(|value| value as u64)
}

fn is_key(word: &[u8]) -> bool {
    (1..=250).contains(&word.len()) && !word.iter().any(|byte| *byte < 33 || *byte == 127)
}

/// The first fault of a word that is no such field, at this place.
fn fault_of(field: Field, word: &[u8], place: usize) -> Option<String> {
    let limit = match field {
        Key => return (!is_key(word)).then(|| "bad-key".to_string()),
        Number(most) => most,
        Expiry => u64::MAX,
        Bytes => MOST_32,
    };
    let minus = field == Expiry && word.starts_with(b"-");
    match (number(&word[usize::from(minus)..], limit), field) {
        (None, _) => Some(format!("bad-number {}", place.min(255))),
        (Some(value), Expiry) if minus || value != 0 => Some("expiry".to_string()),
        (Some(value), Bytes) if value > MOST_DATA => Some(format!("too-large {value}")),
        _ => None,
    }
}

/// What a line says, if it is read: what is told, and of a store how its request is told before and behind the data.
struct Line {
    told: String,
    store: Option<Store>,
}

struct Store {
    bytes: usize,
    before: String,
    behind: String,
}

fn plain(told: String) -> Result<Line, String> {
    Ok(Line { told, store: None })
}

fn read_get(words: &[&[u8]]) -> Result<Line, String> {
    if words.len() < 2 {
        return Err("wrong-count".to_string());
    }
    if !words[1..].iter().all(|word| is_key(word)) {
        return Err("bad-key".to_string());
    }
    let keys: Vec<String> = words[1..].iter().map(|word| told(word)).collect();
    plain(format!("{} {}", String::from_utf8_lossy(words[0]), keys.join(" ")))
}

fn read_line(words: &[&[u8]]) -> Result<Line, String> {
    let Some(first) = words.first() else {
        return Err("unknown".to_string());
    };
    if [&b"get"[..], b"gets"].contains(first) {
        return read_get(words);
    }
    let Some(command) = COMMANDS.iter().find(|command| command.name.as_bytes() == *first) else {
        return Err("unknown".to_string());
    };
    let least = 1 + command.fields.len();
    let noreply = command.updates && words.len() == least + 1 && words[least] == b"noreply";
    if words.len() != least && !noreply {
        return Err("wrong-count".to_string());
    }
    for (place, field) in command.fields.iter().enumerate() {
        if let Some(fault) = fault_of(*field, words[place + 1], place + 2) {
            return Err(fault);
        }
    }
    Ok(line_of(command, words, u8::from(noreply)))
}

/// The line of words that are right.
fn line_of(command: &Command, words: &[&[u8]], noreply: u8) -> Line {
    let name = command.name;
    if command.fields.is_empty() {
        return Line { told: name.to_string(), store: None };
    }
    let value = |place: usize| number(words[place], u64::MAX).unwrap();
    let key = told(words[1]);
    if !command.fields.contains(&Bytes) {
        let by = if command.fields.len() == 2 { format!(" {}", value(2)) } else { String::new() };
        return Line { told: format!("update {key} {name}{by} {noreply}"), store: None };
    }
    let tag = if command.fields == CAS { format!(" {}", value(5)) } else { String::new() };
    Line {
        told: format!("store {name} {key} {} {}{tag} {noreply}", value(2), value(4)),
        store: Some(Store {
            bytes: value(4) as usize,
            before: format!("update {key} {name} {}", value(2)),
            behind: format!("{tag} {noreply}"),
        }),
    }
}

/// How many bytes behind a refused line belong to it.
fn skipped(words: &[&[u8]]) -> u64 {
    match words {
        [first, _, _, _, bytes, ..] if WITH_BLOCK.contains(first) => number(bytes, MOST_32).map_or(0, |bytes| bytes + 2),
        _ => 0,
    }
}

/// Where the first line ends, if it does within the limit.
fn line_end(bytes: &[u8]) -> Option<usize> {
    bytes[..bytes.len().min(LINE_LIMIT + 2)].windows(2).position(|two| two == b"\r\n")
}

/// Reads all that a client sent, and tells it in turn; at last whether more is needed or a line is too long.
pub fn read(bytes: &[u8]) -> String {
    let mut text = String::new();
    let mut rest = bytes;
    while let Some(end) = line_end(rest) {
        let words: Vec<&[u8]> = rest[..end].split(|byte| *byte == b' ').filter(|word| !word.is_empty()).collect();
        rest = &rest[end + 2..];
        match read_line(&words) {
            Err(cause) => {
                let skip = skipped(&words);
                text += &format!("refused {cause} {skip}; ");
                rest = &rest[rest.len().min(skip as usize)..];
            }
            Ok(Line { told, store: None }) => text += &format!("{told}; "),
            Ok(Line { told: line, store: Some(store) }) => {
                text += &format!("{line}; ");
                let Some((block, behind)) = rest.split_at_checked(store.bytes + 2) else {
                    return text + "need";
                };
                rest = behind;
                match block.strip_suffix(b"\r\n") {
                    Some(data) => text += &format!("{} {}{}; ", store.before, told(data), store.behind),
                    None => text += "bad-end; ",
                }
            }
        }
    }
    text + if rest.len() >= LINE_LIMIT + 2 { "too-long" } else { "need" }
}
