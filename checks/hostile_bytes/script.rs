//! Scripts and their lines: how they are drawn, and readers of them.

use crate::broken::Drawn;
use crate::random::Random;
use crate::told;

const MOST_TIME: u64 = 1_000_000_000_000;
const MOST_LINE: usize = 4_096;

/// The one word that spells these bytes.
fn spelled(bytes: &[u8]) -> String {
    match bytes {
        [] => "-".to_string(),
        b"-" => "%2D".to_string(),
        _ => bytes.iter().map(|byte| if (0x21..=0x7e).contains(byte) && *byte != b'%' { char::from(*byte).to_string() } else { format!("%{byte:02X}") }).collect(),
    }
}

fn draw_actor(random: &mut Random) -> String {
    if random.one_in(3) { format!("m{}", random.number(0, 8)) } else { random.number(0, 65_535).to_string() }
}

fn draw_change(random: &mut Random) -> String {
    if random.one_in(2) { "add".to_string() } else { format!("drop {}", random.number(0, 65_535)) }
}

fn draw_op(random: &mut Random) -> String {
    let key = spelled(&random.key());
    let content = format!("{} {}", random.number(0, u64::from(u32::MAX)), spelled(&random.data(5_000)));
    let number = random.number(0, u64::MAX);
    match random.below(8) {
        0 => format!("get {key}"),
        1 => format!("set {key} {content}"),
        2 => format!("add {key} {content}"),
        3 => format!("replace {key} {content}"),
        4 => format!("cas {key} {content} {number}"),
        5 => format!("incr {key} {number}"),
        6 => format!("decr {key} {number}"),
        _ => format!("delete {key}"),
    }
}

fn event_line(random: &mut Random) -> String {
    let node = random.number(0, 65_535);
    let manager = random.number(0, 8);
    let time = random.number(0, MOST_TIME);
    match random.below(19) {
        0..=4 => format!("call {node} {}", draw_op(random)),
        5 => format!("take {}", random.number(0, u64::MAX)),
        6 => format!("tick {} {time}", draw_actor(random)),
        7 => format!("tick all {time}"),
        8 => format!("crash {}", draw_actor(random)),
        9 => format!("resend {node} {}", spelled(&random.key())),
        10 => format!("replay {node} {}", spelled(&random.key())),
        11 => format!("copy {node} {} {}", random.number(0, 65_535), random.number(1, 64)),
        12 => format!("start {node}"),
        13 => format!("agree {}", draw_change(random)),
        14 => format!("install {node} {}", random.number(0, u64::MAX)),
        15 => format!("lease {node} {time}"),
        16 => format!("asklease {node} m{manager}"),
        17 => format!("propose m{manager} {} {}", random.number(0, u64::MAX), draw_change(random)),
        _ => format!("activate m{manager}"),
    }
}

fn header_line(random: &mut Random) -> String {
    format!("group {} managers {} lease {} skew {}", random.number(1, 16), random.number(0, 9), random.number(0, MOST_TIME), random.number(0, MOST_TIME))
}

pub fn draw_header(random: &mut Random) -> Drawn {
    Drawn::text(header_line(random).into_bytes())
}

pub fn draw_event(random: &mut Random) -> Drawn {
    Drawn::text(event_line(random).into_bytes())
}

/// A script of a few lines, some of them comments and empty ones, and now and then one about as long as a line may be. Its events are cheap: those with
/// great numbers are refused by the group.
pub fn draw_script(random: &mut Random) -> Drawn {
    let mut lines = vec![header_line(random)];
    for _ in 0..random.below(5) {
        lines.push(event_line(random));
    }
    for _ in 0..random.below(3) {
        let line = match random.below(400) {
            0 => format!("#{}", "x".repeat(MOST_LINE - 3 + random.below(5))),
            1 => format!("call 0 set k 0 {}", "d".repeat(MOST_LINE - 17 + random.below(5))),
            2..=150 => "# a comment".to_string(),
            _ => String::new(),
        };
        lines.insert(random.below(lines.len() + 1), line);
    }
    let end = if random.one_in(3) { "" } else { "\n" };
    Drawn::text((lines.join("\n") + end).into_bytes())
}

/// The number that a word spells: decimal digits with no spare zero.
fn number(word: &str, least: u64, most: u64) -> Option<u64> {
    let value: u128 = if word.len() <= 20 && word.bytes().all(|byte| byte.is_ascii_digit()) { word.parse().ok()? } else { return None };
    (value.to_string() == word && value >= u128::from(least) && value <= u128::from(most)).then_some(value as u64)
}

/// The bytes that a word spells. Each list of bytes has one word, so the word is right if it is theirs.
fn bytes(word: &str) -> Option<Vec<u8>> {
    let mut bytes = Vec::new();
    let mut rest = if word == "-" { "" } else { word };
    while let Some(first) = rest.chars().next() {
        let (byte, len) = if first == '%' { (u8::from_str_radix(rest.get(1..3)?, 16).ok()?, 3) } else { (rest.as_bytes()[0], 1) };
        bytes.push(byte);
        rest = rest.get(len..)?;
    }
    (spelled(&bytes) == word).then_some(bytes)
}

fn key(word: &str) -> Option<String> {
    let key = bytes(word)?;
    ((1..=250).contains(&key.len()) && key.iter().all(|byte| *byte > 32 && *byte != 127)).then(|| told(&key))
}

fn content(flags: &str, data: &str) -> Option<String> {
    Some(format!("{} {}", number(flags, 0, u64::from(u32::MAX))?, told(&bytes(data)?)))
}

fn node(word: &str) -> Option<u64> {
    number(word, 0, 65_535)
}

fn manager(word: &str) -> Option<u64> {
    number(word.strip_prefix('m')?, 0, 8)
}

fn actor(word: &str) -> Option<String> {
    manager(word).map(|manager| format!("m{manager}")).or_else(|| node(word).map(|node| format!("n{node}")))
}

fn time(word: &str) -> Option<u64> {
    number(word, 0, MOST_TIME)
}

fn any(word: &str) -> Option<u64> {
    number(word, 0, u64::MAX)
}

fn op(words: &[&str]) -> Option<String> {
    Some(match words {
        ["get"] => "get".to_string(),
        ["delete"] => "delete".to_string(),
        [name @ ("set" | "add" | "replace"), flags, data] => format!("{name} {}", content(flags, data)?),
        ["cas", flags, data, tag] => format!("cas {} {}", content(flags, data)?, any(tag)?),
        [name @ ("incr" | "decr"), by] => format!("{name} {}", any(by)?),
        _ => return None,
    })
}

fn change(words: &[&str]) -> Option<String> {
    match words {
        ["drop", id] => Some(format!("drop {}", node(id)?)),
        ["add"] => Some("add".to_string()),
        _ => None,
    }
}

fn event(words: &[&str]) -> Option<String> {
    Some(match words {
        ["call", id, name, word, rest @ ..] => format!("call {} {} {}", node(id)?, key(word)?, op(&[&[*name], rest].concat())?),
        ["take", letter] => format!("take {}", any(letter)?),
        ["tick", "all", to] => format!("tick all {}", time(to)?),
        ["tick", who, to] => format!("tick {} {}", actor(who)?, time(to)?),
        ["crash", who] => format!("crash {}", actor(who)?),
        [name @ ("resend" | "replay"), id, word] => format!("{name} {} {}", node(id)?, key(word)?),
        ["copy", id, from, room] => format!("copy {} {} {}", node(id)?, node(from)?, number(room, 1, 64)?),
        ["start", id] => format!("start {}", node(id)?),
        ["agree", rest @ ..] => format!("agree {}", change(rest)?),
        ["install", id, epoch] => format!("install {} {}", node(id)?, any(epoch)?),
        ["lease", id, end] => format!("lease {} {}", node(id)?, time(end)?),
        ["asklease", id, who] => format!("asklease {} {}", node(id)?, manager(who)?),
        ["propose", who, base, rest @ ..] => format!("propose {} {} {}", manager(who)?, any(base)?, change(rest)?),
        ["activate", who] => format!("activate {}", manager(who)?),
        _ => return None,
    })
}

fn header(words: &[&str]) -> Option<String> {
    match words {
        ["group", nodes, "managers", managers, "lease", lease, "skew", skew] => {
            Some(format!("group {} {} {} {}", number(nodes, 1, 16)?, number(managers, 0, 9)?, time(lease)?, time(skew)?))
        }
        _ => None,
    }
}

/// What the words of a line are, by one of the two readers.
fn line(bytes: &[u8], read: fn(&[&str]) -> Option<String>) -> Option<String> {
    let text = std::str::from_utf8(bytes).ok()?;
    read(&text.split(' ').collect::<Vec<_>>())
}

pub fn read_header(bytes: &[u8]) -> String {
    line(bytes, header).unwrap_or("bad".to_string())
}

pub fn read_event(bytes: &[u8]) -> String {
    line(bytes, event).unwrap_or("bad".to_string())
}

/// How a script ends: where it stops, or how many events it has.
pub fn read_script(bytes: &[u8]) -> String {
    let mut lines: Vec<&[u8]> = bytes.split(|byte| *byte == b'\n').collect();
    if lines.last().is_some_and(|last| last.is_empty()) {
        lines.pop();
    }
    let (mut begun, mut events) = (false, 0);
    for (place, bytes) in lines.iter().enumerate() {
        if bytes.len() > MOST_LINE {
            return format!("6 stop line {} long", place + 1);
        }
        if bytes.is_empty() || bytes[0] == b'#' {
            continue;
        }
        if line(bytes, if begun { event } else { header }).is_none() {
            return format!("5 stop line {} bad", place + 1);
        }
        events += u64::from(begun);
        begun = true;
    }
    if begun { format!("0 end {events}") } else { format!("5 stop line {} bad", lines.len() + 1) }
}
