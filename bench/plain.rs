// A plain program of the same form as `hermes drill`: it holds its input whole, follows its lines one after the other over a
// world of nodes and managers, keeps of each key what its history and order are made of, and writes the transcript at the
// end. It proves nothing.
//
// `plain gen EVENTS KEYS NODES` writes a script of so many mixed events instead, none of which is refused. `plain letters
// LETTERS NODES` writes a script that sends nearly so many letters over few keys. `plain managed EVENTS KEYS` writes one of three nodes
// and three managers that change the view about every hundred events. `plain random PROFILE START EVENTS MANAGERS` draws a script
// of events of every kind, some of them refused (`plain/random.rs`); `plain profiles` tells its profiles. `plain generate START COUNT NODES` draws a run as `hermes generate` does. `plain drill` is `plain`. `plain joint` writes what
// `hermes joint` writes.
#[path = "plain/actors.rs"]
mod actors;
#[path = "plain/drill.rs"]
mod drill;
#[path = "plain/joint.rs"]
mod joint;
#[path = "plain/lines.rs"]
mod lines;
#[path = "plain/made.rs"]
mod made;
#[path = "plain/random.rs"]
mod random;
#[path = "plain/text.rs"]
mod text;
#[path = "plain/world.rs"]
mod world;

use actors::*;
use drill::*;
use joint::*;
use lines::*;
use made::*;
use text::*;
use world::*;
use std::collections::btree_map::{BTreeMap, Entry};
use std::io::{self, Read, Write};
use std::rc::Rc;

const MAX_TIME: u64 = 1_000_000_000_000;
const MAX_LINE_LEN: usize = 4096;
const MAX_LINES: u64 = 1_000_000;
const MAX_LETTERS: usize = 4_000_000;
const MAX_VERSION: u64 = (1 << 48) - 1;
const MAX_MEMBERS: usize = 16;
const MAX_NODES: u64 = 65_536;
const MAX_BATCH_BYTES: usize = 2_097_152;

// ---- keys, contents, stamps
type Key = Rc<[u8]>;

#[derive(Clone)]
struct Content {
    flags: u32,
    data: Rc<[u8]>,
}

#[derive(Clone, Copy, PartialEq)]
enum Kind {
    Write,
    Rmw,
}

#[derive(Clone, Copy, PartialEq)]
enum State {
    Valid,
    Invalid,
    Write,
    Replay,
    Trans,
}

/// A version and a node in one number, which is also the tag. So stamps are ordered by version, then by node.
#[derive(Clone, Copy, PartialEq, Eq, PartialOrd, Ord)]
struct Stamp(u64);

/// The stamp of a key that nothing has touched.
const ZERO: Stamp = Stamp(0);

impl Stamp {
    fn version(self) -> u64 {
        self.0 >> 16
    }

    fn node(self) -> u64 {
        self.0 & 0xffff
    }

    fn next(self, kind: Kind, node: u16) -> Option<Stamp> {
        let step = if kind == Kind::Write { 2 } else { 1 };
        let version = self.version() + step;
        (version <= MAX_VERSION).then_some(Stamp(version << 16 | u64::from(node)))
    }
}

// ---- operations
enum Op {
    Read,
    Write(Content),
    Cas { tag: u64, content: Content },
    Incr(u64),
    Decr(u64),
    Add(Content),
    Replace(Content),
    Delete,
}

enum Answer {
    Found(Content, u64),
    Missing,
    Stored,
    Number(u64),
    Exists,
    NotFound,
    NotNumber,
    NotStored,
    Deleted,
    BusyLease { end: u64, now: u64 },
    BusyRow(State, Stamp),
    Aborted(Stamp),
    Exhausted(Stamp),
}

struct Reply {
    call: u64,
    answer: Answer,
}

/// The number that data is: 1 to 20 digits of 64 bits, where zeros may stand in front.
fn value_of(data: &[u8]) -> Option<u64> {
    if data.is_empty() || data.len() > 20 || !data.iter().all(u8::is_ascii_digit) {
        return None;
    }
    std::str::from_utf8(data).ok()?.parse().ok()
}

/// What an operation leaves, nothing or a content, with its answer; or the answer where nothing changes.
type Turn = Result<(Option<Content>, Answer), Answer>;

fn turn_number(held: &Content, step: impl Fn(u64) -> u64) -> Turn {
    let value = step(value_of(&held.data).ok_or(Answer::NotNumber)?);
    let mut text = Text::default();
    text.number(value);
    Ok((Some(Content { flags: held.flags, data: text.0.into() }), Answer::Number(value)))
}

/// What an operation makes of what a row holds at its stamp.
fn turn(op: Op, held: Option<&Content>, stamp: Stamp) -> Turn {
    match (op, held) {
        (Op::Write(content), _) | (Op::Add(content), None) | (Op::Replace(content), Some(_)) => Ok((Some(content), Answer::Stored)),
        (Op::Add(_), Some(_)) | (Op::Replace(_), None) => Err(Answer::NotStored),
        (Op::Read, None) => Err(Answer::Missing),
        (_, None) => Err(Answer::NotFound),
        (Op::Read, Some(held)) => Err(Answer::Found(held.clone(), stamp.0)),
        (Op::Cas { tag, .. }, Some(_)) if tag != stamp.0 => Err(Answer::Exists),
        (Op::Cas { content, .. }, Some(_)) => Ok((Some(content), Answer::Stored)),
        (Op::Incr(by), Some(held)) => turn_number(held, |value| value.wrapping_add(by)),
        (Op::Decr(by), Some(held)) => turn_number(held, |value| value.saturating_sub(by)),
        (Op::Delete, Some(_)) => Ok((None, Answer::Deleted)),
    }
}

// ---- views and letters
struct View {
    epoch: u64,
    next: u64,
    members: Vec<u16>,
}

enum Change {
    Drop(u16),
    Add,
}

impl View {
    /// The view after a change, or why there is none.
    fn changed(&self, change: Change) -> Result<Rc<View>, Fault> {
        let View { epoch, mut next, ref members } = *self;
        let mut members = members.clone();
        match change {
            Change::Drop(id) if !members.contains(&id) => return Err(refused("no-such-member")),
            Change::Drop(_) if members.len() == 1 => return Err(refused("last-member")),
            Change::Drop(id) => members.retain(|member| *member != id),
            Change::Add if members.len() >= MAX_MEMBERS => return Err(refused("full")),
            Change::Add if next >= MAX_NODES => return Err(refused("no-numbers")),
            Change::Add => {
                members.push(next as u16);
                next += 1;
            }
        }
        Ok(Rc::new(View { epoch: epoch + 1, next, members }))
    }
}

struct CopyItem {
    key: Key,
    stamp: Stamp,
    kind: Kind,
    valid: bool,
    content: Option<Content>,
}

/// Nodes stand before managers, and each kind by number.
#[derive(Clone, Copy, PartialEq, Eq, PartialOrd, Ord)]
enum Actor {
    Node(u16),
    Manager(u8),
}

/// A round and a manager.
#[derive(Clone, Copy, PartialEq, Eq, PartialOrd, Ord)]
struct Ballot {
    round: u64,
    manager: u8,
}

/// A view that was accepted at a ballot.
#[derive(Clone)]
struct Voted {
    ballot: Ballot,
    view: Rc<View>,
}

#[derive(Clone)]
enum Body {
    Inv { key: Key, stamp: Stamp, kind: Kind, content: Option<Content> },
    Ack { key: Key, stamp: Stamp, top: Stamp },
    Val { key: Key, stamp: Stamp },
    CopyAsk { after: Option<Key>, room: u8 },
    CopyGive { after: Option<Key>, done: bool, items: Rc<[CopyItem]> },
    LeaseAsk { asked: u64 },
    LeaseGive { end: u64 },
    Prepare(Ballot),
    Promise { ballot: Ballot, accepted: Option<Voted> },
    Accept { ballot: Ballot, view: Rc<View> },
    Accepted(Ballot),
    Chosen(Rc<View>),
    Activate(Rc<View>),
}

#[derive(Clone)]
struct Letter {
    epoch: u64,
    from: Actor,
    to: Actor,
    body: Body,
}

/// A node's number, and the view that it installed last.
struct Place {
    id: u16,
    view: Option<Rc<View>>,
}

impl Place {
    fn epoch(&self) -> u64 {
        self.view.as_ref().map_or(0, |view| view.epoch)
    }

    fn members(&self) -> &[u16] {
        self.view.as_ref().map_or(&[], |view| &view.members)
    }

    fn others(&self) -> impl Iterator<Item = u16> + '_ {
        self.members().iter().copied().filter(move |member| *member != self.id)
    }

    fn is_other(&self, node: u16) -> bool {
        node != self.id && self.members().contains(&node)
    }

    fn send(&self, to: u16, body: Body, letters: &mut Vec<Letter>) {
        self.send_to(Actor::Node(to), body, letters);
    }

    fn send_to(&self, to: Actor, body: Body, letters: &mut Vec<Letter>) {
        letters.push(Letter { epoch: self.epoch(), from: Actor::Node(self.id), to, body });
    }
}

fn usage() -> ! {
    eprintln!("usage: plain [drill] | plain joint | plain gen EVENTS KEYS NODES | plain letters LETTERS NODES | plain managed EVENTS KEYS | plain random PROFILE START EVENTS MANAGERS | plain profiles | plain generate START COUNT NODES");
    std::process::exit(2);
}

fn main() -> io::Result<()> {
    let words: Vec<String> = std::env::args().skip(1).collect();
    let profile = words.get(1).and_then(|word| random::PROFILES.iter().find(|profile| profile.name == word));
    let numbers: Vec<u64> = words.iter().skip(if profile.is_some() { 2 } else { 1 }).map(|word| word.parse().unwrap_or_else(|_| usage())).collect();
    let mut out = io::stdout().lock();
    match (words.first().map_or("drill", String::as_str), &numbers[..]) {
        (command @ ("drill" | "joint"), []) => {
            let mut input = Vec::new();
            io::stdin().read_to_end(&mut input)?;
            let (text, status) = transcript(&input, command == "joint");
            out.write_all(&text)?;
            std::process::exit(status);
        }
        ("gen", [events, keys, nodes @ 1..=16]) if *keys > 0 => mixed(*events, *keys, *nodes, &mut io::BufWriter::new(out)),
        ("managed", [events, keys]) if *keys > 0 => managed(*events, *keys, &mut io::BufWriter::new(out)),
        ("random", [start, events, managers @ 0..=9]) => {
            random::random(profile.unwrap_or_else(|| usage()), *start, *events, *managers, &mut io::BufWriter::new(out))
        }
        ("profiles", []) => random::PROFILES.iter().try_for_each(|profile| writeln!(out, "{}", profile.name)),
        ("generate", [start, count, nodes @ 1..=16]) => generate(*start, *count, *nodes, &mut out),
        ("letters", [letters, nodes @ 2..=16]) => many_letters(*letters, *nodes, &mut io::BufWriter::new(out)),
        _ => usage(),
    }
}
