//! Words of commands: how they are drawn, and a reader that has a table of options. Each word is ended by a zero byte.

use crate::broken::Drawn;
use crate::random::Random;
use std::collections::BTreeMap;

const MOST_TIME: u64 = 1_000_000_000_000;

/// A command, and its options with the least and the greatest value of each.
type Command = (&'static str, &'static [(&'static str, u64, u64)]);

const COMMANDS: &[Command] = &[
    ("drill", &[]),
    ("joint", &[]),
    ("generate", &[("start", 0, u64::MAX), ("count", 1, 100_000), ("nodes", 1, 16)]),
    ("storm", &[("start", 0, u64::MAX), ("nodes", 1, 8), ("workers", 1, 8), ("calls", 1, 20_000)]),
    (
        "serve",
        &[("nodes", 1, 16), ("workers", 1, 8), ("managers", 0, 9), ("lease", 0, MOST_TIME), ("skew", 0, MOST_TIME), ("port", 1, 65_535), ("conns", 1, 1_000_000)],
    ),
    ("watch", &[("writes", 1, 10_000)]),
    ("joint-storm", &[("workers", 1, 8), ("reads", 1, 10_000)]),
    ("peer", &[("id", 0, 15), ("nodes", 1, 16), ("workers", 1, 8), ("port", 1, 65_535), ("conns", 1, 1_000_000)]),
];

/// The options whose values are told, in this order.
const TOLD: &[&str] = &["start", "count", "calls", "id", "nodes", "workers", "managers", "lease", "skew", "port", "conns", "writes", "reads"];

pub fn draw(random: &mut Random) -> Drawn {
    let (name, options) = COMMANDS[[0, 1, 2, 2, 3, 3, 4, 4, 5, 6, 7, 7][random.below(12)]];
    let mut words = vec![name.to_string()];
    let mut options = options.to_vec();
    while !options.is_empty() {
        let (option, least, most) = options.remove(random.below(options.len()));
        let value = random.number(least, most);
        if random.one_in(2) {
            words.push(format!("--{option}={value}"));
        } else {
            words.push(format!("--{option}"));
            words.push(value.to_string());
        }
    }
    // one break in two is of whole words
    match random.below(10) {
        0 => drop(words.remove(random.below(words.len()))),
        1 => {
            let at = random.below(words.len());
            words.insert(random.below(words.len() + 1), words[at].clone());
        }
        2 => words.insert(random.below(words.len() + 1), random.pick(&["--", "-h", "--help", "help", "", "now", "0", "--nodes=1", "storm", "serve", "joint", "peer"]).to_string()),
        3 => {
            let (first, second) = (random.below(words.len()), random.below(words.len()));
            words.swap(first, second);
        }
        _ => {}
    }
    Drawn::text(words.iter().flat_map(|word| [word.as_bytes(), b"\0"].concat()).collect())
}

fn value(word: &str) -> Option<u64> {
    let value: u64 = word.parse().ok()?;
    (value.to_string() == word).then_some(value)
}

/// The options of words, each once.
fn options<'a>(words: &[&'a str]) -> Option<BTreeMap<&'a str, u64>> {
    let mut options = BTreeMap::new();
    let mut words = words.iter();
    while let Some(word) = words.next() {
        let option = word.strip_prefix("--")?;
        let (name, digits) = match option.split_once('=') {
            Some(parts) => parts,
            None => (option, *words.next()?),
        };
        if options.insert(name, value(digits)?).is_some() {
            return None;
        }
    }
    Some(options)
}

fn command(words: &[&str]) -> Option<String> {
    let (first, rest) = words.split_first()?;
    let (name, ranges) = COMMANDS.iter().find(|(name, _)| name == first)?;
    let options = options(rest)?;
    if options.len() != ranges.len() {
        return None;
    }
    for (option, least, most) in *ranges {
        if !(*least..=*most).contains(options.get(option)?) {
            return None;
        }
    }
    if *name == "peer" && (options["id"] >= options["nodes"] || options["port"] + options["nodes"] > 65_536) {
        return None;
    }
    let told = TOLD.iter().filter_map(|option| options.get(option)).map(|value| format!(" {value}")).collect::<String>();
    Some(format!("{name}{told}"))
}

/// The command that words are; a word that is no text is in none.
pub fn read(bytes: &[u8]) -> String {
    let Ok(text) = std::str::from_utf8(bytes) else {
        return "none".to_string();
    };
    let mut words: Vec<&str> = text.split('\0').collect();
    if words.last().is_some_and(|last| last.is_empty()) {
        words.pop();
    }
    command(&words).unwrap_or("none".to_string())
}
