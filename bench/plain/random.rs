// Scripts that are drawn from a number, so that much goes wrong in them: letters are lost, repeated and overtake each other, nodes and managers
// stop in the midst of something, views are skipped, proposals rival, clocks run apart, and some events are refused. Each line is drawn by what
// the world is in, so that joiners come to serve and views to begin. A profile says what there is much of.
use super::*;

/// How much of each kind of event is drawn, beside the others.
pub struct Profile {
    pub name: &'static str,
    calls: u64,
    letters: u64,
    /// Updates that are sent again or replayed.
    again: u64,
    copies: u64,
    clocks: u64,
    leases: u64,
    views: u64,
    stops: u64,
    /// Events that are most likely refused.
    wrong: u64,
    keys: u64,
    /// Of sixteen calls so many are read-modify-writes.
    rmws: u64,
}

const COMMON: Profile = Profile { name: "mixed", calls: 22, letters: 56, again: 5, copies: 5, clocks: 4, leases: 6, views: 7, stops: 1, wrong: 3, keys: 3, rmws: 6 };

pub const PROFILES: [Profile; 7] = [
    Profile { name: "calm", again: 2, copies: 0, views: 0, stops: 0, wrong: 1, keys: 2, ..COMMON },
    Profile { name: "fixed", again: 12, copies: 0, leases: 3, views: 0, stops: 0, wrong: 2, keys: 2, ..COMMON },
    Profile { name: "rmw", again: 8, views: 4, wrong: 1, keys: 1, rmws: 13, ..COMMON },
    Profile { name: "churn", calls: 14, copies: 9, views: 14, stops: 3, keys: 2, ..COMMON },
    Profile { name: "lease", calls: 14, clocks: 14, leases: 12, views: 8, wrong: 5, ..COMMON },
    Profile { name: "tiny", calls: 14, views: 9, stops: 2, keys: 1, ..COMMON },
    COMMON,
];

const KEYS: [&str; 3] = ["k", "zeta", "%2D"];

struct Drawn<'a, W> {
    script: Scripted<'a, W>,
    profile: &'a Profile,
    draws: Draws,
    lease: u64,
    /// Of each letter whether it was taken.
    taken: Vec<bool>,
    /// Calls write numbers that rise.
    value: u64,
}

/// Draws a script of so many events, and then takes what is open and reads each key.
pub fn random(profile: &Profile, start: u64, events: u64, managers: u64, out: &mut impl Write) -> io::Result<()> {
    let mut draws = Draws(start.wrapping_mul(0x9e37_79b9_7f4a_7c15).wrapping_add(managers));
    for _ in 0..4 {
        draws.below(2);
    }
    let nodes = 2 + draws.below(if profile.name == "tiny" { 1 } else { 3 });
    let (lease, skew) = (30 + draws.below(if managers == 0 { 800 } else { 120 }), draws.below(6));
    writeln!(out, "group {nodes} managers {managers} lease {lease} skew {skew}")?;
    let script = Scripted { world: World::new(nodes as u16, managers as u8, lease, skew), out };
    let mut drawn = Drawn { script, profile, draws, lease, taken: Vec::new(), value: 0 };
    for _ in 0..events {
        let line = drawn.any_line();
        drawn.make(&line)?;
    }
    drawn.come_to_rest(events / 8)
}

impl<W: Write> Drawn<'_, W> {
    fn make(&mut self, line: &str) -> io::Result<()> {
        if let Some(letter) = line.strip_prefix("take ").and_then(|word| word.parse::<usize>().ok()) {
            if let Some(taken) = self.taken.get_mut(letter.wrapping_sub(1)) {
                *taken = true;
            }
        }
        self.script.line(line)?;
        self.taken.resize(self.world().letters.len(), false);
        Ok(())
    }

    /// Takes up to so many letters that are open, and reads each key at each node.
    fn come_to_rest(&mut self, most: u64) -> io::Result<()> {
        for _ in 0..most {
            let Some(letter) = self.open_letters().first().copied() else { break };
            self.make(&format!("take {letter}"))?;
        }
        let nodes: Vec<u16> = self.world().live_nodes().map(|node| node.place.id).collect();
        for key in &KEYS[..self.profile.keys as usize] {
            for node in &nodes {
                self.make(&format!("call {node} get {key}"))?;
            }
        }
        Ok(())
    }

    fn world(&self) -> &World {
        &self.script.world
    }

    fn one_of<T: Copy>(&mut self, items: &[T]) -> Option<T> {
        if items.is_empty() { None } else { Some(items[self.draws.below(items.len() as u64) as usize]) }
    }

    fn any_line(&mut self) -> String {
        let &Profile { calls, mut letters, again, mut copies, clocks, mut leases, mut views, mut stops, wrong, .. } = self.profile;
        // what waits comes on: else there were nothing to see but nodes that are busy
        letters = letters / 4 + (letters / 8) * self.open_letters().len().min(12) as u64;
        copies *= 1 + 2 * self.joiners().len() as u64;
        leases *= if self.members().iter().any(|id| !self.is_leased(*id)) { 3 } else { 1 };
        if self.members().len() < self.world().last_view().members.len() {
            (views, stops) = (views * 4, 0);
        }
        let weights = [calls, letters, again, copies, clocks, leases, views, stops, wrong];
        let mut drawn = self.draws.below(weights.iter().sum());
        let kind = weights.iter().position(|weight| drawn.checked_sub(*weight).map(|left| drawn = left).is_none());
        let line = match kind {
            Some(0) => None,
            Some(1) => self.take_line(),
            Some(2) => self.again_line(),
            Some(3) => self.copy_line(),
            Some(4) => Some(self.tick_line()),
            Some(5) => self.lease_line(),
            Some(6) => self.view_line(),
            Some(7) => self.crash_line(),
            _ => Some(self.wrong_line()),
        };
        // where there is nothing of the kind a client calls
        line.unwrap_or_else(|| self.call_line())
    }

    fn key(&mut self) -> &'static str {
        KEYS[self.draws.below(self.profile.keys) as usize]
    }

    /// The nodes of the last view that run.
    fn members(&self) -> Vec<u16> {
        let members = &self.world().last_view().members;
        self.world().live_nodes().map(|node| node.place.id).filter(|id| members.contains(id)).collect()
    }

    /// The nodes that run and have installed a view, and do not have all rows yet.
    fn joiners(&self) -> Vec<u16> {
        self.world().live_nodes().filter(|node| !node.ready && node.place.view.is_some()).map(|node| node.place.id).collect()
    }

    fn is_leased(&self, id: u16) -> bool {
        self.world().nodes.get(&id).is_some_and(|node| node.clock + self.world().skew <= node.granted)
    }

    fn bytes_of(key: &str) -> &[u8] {
        if key == "%2D" { b"-" } else { key.as_bytes() }
    }

    /// Most often a call that is served: at a node that is ready and has a lease, where the key is Valid.
    fn call_line(&mut self) -> String {
        let mut served = Vec::new();
        for node in self.world().live_nodes().filter(|node| node.ready && self.is_leased(node.place.id)) {
            let is_valid = |key: &&str| node.rows.get(Self::bytes_of(key)).is_none_or(|row| row.state == State::Valid);
            served.extend(KEYS[..self.profile.keys as usize].iter().copied().filter(is_valid).map(|key| (node.place.id, key)));
        }
        let all = self.world().nodes.len() as u64;
        if served.is_empty() && self.draws.below(4) > 0 {
            if let Some(line) = if self.draws.below(2) == 0 { self.lease_line() } else { self.take_line() } {
                return line;
            }
        }
        let drawn = if self.draws.below(8) == 0 { None } else { self.one_of(&served) };
        let live: Vec<u16> = self.world().live_nodes().map(|node| node.place.id).collect();
        let any = if self.draws.below(16) == 0 { self.draws.below(all) as u16 } else { self.one_of(&live).unwrap_or(0) };
        let (node, key) = drawn.unwrap_or((any, self.key()));
        let (op, rest) = self.op(node, key);
        format!("call {node} {op} {key}{rest}")
    }

    /// The operation's word, and what stands behind the key.
    fn op(&mut self, node: u16, key: &str) -> (&'static str, String) {
        let row = self.world().nodes.get(&node).and_then(|node| node.rows.get(Self::bytes_of(key)));
        let (held, is_empty) = row.map_or((0, true), |row| (row.stamp.0, row.content.is_none()));
        if is_empty && self.draws.below(2) == 0 {
            return (["set", "add"][self.draws.below(2) as usize], self.content());
        }
        if self.draws.below(16) >= self.profile.rmws {
            return if self.draws.below(3) == 0 { ("get", String::new()) } else { ("set", self.content()) };
        }
        match self.draws.below(8) {
            0 => ("add", self.content()),
            1 => ("replace", self.content()),
            2 => ("delete", String::new()),
            3 => ("decr", format!(" {}", self.draws.below(9))),
            4 | 5 => {
                let tag = if self.draws.below(6) == 0 { self.draws.below(1 << 18) } else { held };
                ("cas", format!("{} {tag}", self.content()))
            }
            _ => ("incr", format!(" {}", self.draws.below(3))),
        }
    }

    fn content(&mut self) -> String {
        self.value += 1;
        let flags = self.draws.below(3);
        match self.draws.below(12) {
            0 => format!(" {flags} -"),
            1 => format!(" {flags} v%20{}%25", self.value),
            2 => format!(" {flags} 18446744073709551615"),
            3 => format!(" {flags} 00{}", self.value),
            _ => format!(" {flags} {}", self.value),
        }
    }

    /// The letters that were never taken and whose addressee runs, by their numbers.
    fn open_letters(&self) -> Vec<usize> {
        let runs = |actor: Actor| match actor {
            Actor::Node(id) => self.world().nodes.get(&id).is_some_and(|node| !node.crashed),
            Actor::Manager(id) => self.world().managers.get(usize::from(id)).is_some_and(|manager| !manager.crashed),
        };
        let letters = self.world().letters.iter().zip(&self.taken).enumerate();
        letters.filter(|(_, (letter, taken))| !**taken && runs(letter.to)).map(|(place, _)| place + 1).collect()
    }

    fn take_line(&mut self) -> Option<String> {
        let open = self.open_letters();
        let sent = self.world().letters.len() as u64;
        let letter = match self.draws.below(16) {
            0..10 => self.one_of(&open[..open.len().min(3)])?,
            10..15 => self.one_of(&open)?,
            // one that was taken before, or that is of an old epoch, or that there is not
            _ => (sent + 1).checked_sub(self.draws.below(24))? as usize,
        };
        Some(format!("take {letter}"))
    }

    fn again_line(&mut self) -> Option<String> {
        let mut lines = Vec::new();
        for node in self.world().live_nodes() {
            for (key, row) in &node.rows {
                let key = KEYS.iter().find(|word| Self::bytes_of(word) == &key[..]).unwrap_or(&KEYS[0]);
                match row.state {
                    State::Valid => {}
                    State::Invalid => lines.push(("replay", node.place.id, *key)),
                    _ => lines.push(("resend", node.place.id, *key)),
                }
            }
        }
        self.one_of(&lines).map(|(word, node, key)| format!("{word} {node} {key}"))
    }

    fn copy_line(&mut self) -> Option<String> {
        let joiner = self.one_of(&self.joiners())?;
        let members = self.world().nodes[&joiner].place.members().to_vec();
        let giver = self.one_of(&members)?;
        let room = if self.draws.below(3) == 0 { 64 } else { 1 + self.draws.below(2) };
        Some(format!("copy {joiner} {giver} {room}"))
    }

    fn tick_line(&mut self) -> String {
        let greatest = self.world().greatest_clock(1);
        let actors: Vec<(Actor, u64)> = self.world().live_clocks().collect();
        let Some((actor, clock)) = self.one_of(&actors) else { return format!("tick all {greatest}") };
        let name = match actor {
            Actor::Node(id) => id.to_string(),
            Actor::Manager(id) => format!("m{id}"),
        };
        match self.draws.below(12) {
            0..4 => format!("tick {name} {}", clock + self.draws.below(self.script.world.skew + 3)),
            4 => format!("tick {name} {}", clock.saturating_sub(self.draws.below(3))),
            5 => format!("tick all {}", greatest + self.lease + self.lease / 10 + 1),
            6 => format!("tick all {}", greatest + self.draws.below(self.lease)),
            _ => format!("tick all {}", greatest + self.draws.below(9)),
        }
    }

    fn lease_line(&mut self) -> Option<String> {
        let world = self.world();
        let members: Vec<&Node> = world.live_nodes().filter(|node| world.last_view().members.contains(&node.place.id)).collect();
        // most often the one whose lease ends first
        let first = members.iter().min_by_key(|node| node.granted).map(|node| node.place.id)?;
        let ids: Vec<u16> = members.iter().map(|node| node.place.id).collect();
        let end = world.greatest_clock(1) + self.lease;
        let managers = world.managers.len() as u64;
        let node = if self.draws.below(3) > 0 { first } else { self.one_of(&ids)? };
        if managers == 0 { Some(format!("lease {node} {end}")) } else { Some(format!("asklease {node} m{}", self.draws.below(managers))) }
    }

    fn view_line(&mut self) -> Option<String> {
        let world = self.world();
        let held = world.managers.iter().flat_map(|manager| &manager.held.members);
        let named = world.last_view().members.iter().chain(held);
        if let Some(joiner) = named.copied().find(|id| !world.nodes.contains_key(id)) {
            return Some(format!("start {joiner}"));
        }
        if world.managers.is_empty() { Some(self.agreed_line()) } else { self.proposed_line() }
    }

    fn agreed_line(&mut self) -> String {
        let last = self.world().last_view();
        let (epoch, members) = (last.epoch, last.members.clone());
        let behind: Vec<(u16, u64)> = self.world().live_nodes().map(|node| (node.place.id, node.place.epoch())).filter(|(id, at)| *at < epoch && members.contains(id)).collect();
        let left_out = |node: &&Node| !members.contains(&node.place.id);
        let until = self.world().live_nodes().filter(left_out).map(|node| node.granted).max().unwrap_or(0);
        match self.one_of(&behind) {
            Some(_) if until >= self.world().greatest_clock(1) && self.draws.below(2) == 0 => format!("tick all {}", until + 1),
            Some((node, at)) if self.draws.below(8) > 0 => {
                let to = if self.draws.below(6) == 0 { at + 1 } else { epoch };
                format!("install {node} {to}")
            }
            _ => format!("agree {}", self.change(&members)),
        }
    }

    fn proposed_line(&mut self) -> Option<String> {
        let live: Vec<&Manager> = self.world().managers.iter().filter(|manager| !manager.crashed).collect();
        let is_behind = |manager: &Manager| {
            let is_old = |id: &u16| self.world().nodes.get(id).is_some_and(|node| !node.crashed && node.place.epoch() < manager.held.epoch);
            manager.held.members.iter().any(is_old)
        };
        let begins: Vec<u8> = live.iter().filter(|manager| is_behind(manager)).map(|manager| manager.id).collect();
        let bases: Vec<(u8, u64)> = live.iter().map(|manager| (manager.id, manager.held.epoch)).collect();
        let is_sent = |letter: &usize| matches!(self.world().letters[letter - 1].body, Body::Activate(_));
        if self.open_letters().iter().filter(|letter| is_sent(letter)).count() > 3 {
            return self.take_line();
        }
        if let Some(manager) = self.one_of(&begins) {
            let Manager { held, untils, clock, .. } = &self.world().managers[usize::from(manager)];
            let until = untils.iter().filter(|(node, _)| !held.members.contains(node)).map(|(_, until)| *until).max().unwrap_or(0);
            let waits = until >= *clock;
            return Some(if waits && self.draws.below(2) == 0 { format!("tick all {}", until + 1) } else { format!("activate m{manager}") });
        }
        // few proposals run at once
        let is_paxos = |letter: &usize| matches!(self.world().letters[letter - 1].body, Body::Prepare(_) | Body::Promise { .. } | Body::Accept { .. } | Body::Accepted(_));
        if self.open_letters().iter().any(is_paxos) && self.draws.below(12) > 0 {
            return self.take_line();
        }
        let (manager, base) = self.one_of(&bases)?;
        let members = self.world().managers[usize::from(manager)].held.members.clone();
        Some(format!("propose m{manager} {base} {}", self.change(&members)))
    }

    /// Most often one who stopped is dropped, or the next number is added where there are few.
    fn change(&mut self, members: &[u16]) -> String {
        let stopped = members.iter().copied().find(|id| self.world().nodes.get(id).is_some_and(|node| node.crashed));
        match (stopped, self.draws.below(8)) {
            (Some(node), 1..) => format!("drop {node}"),
            (None, 0..4) if members.len() > 1 => format!("drop {}", self.one_of(members).unwrap_or(0)),
            _ if members.len() > 5 => format!("drop {}", members[0]),
            _ => "add".to_string(),
        }
    }

    fn crash_line(&mut self) -> Option<String> {
        let nodes: Vec<u16> = self.world().live_nodes().map(|node| node.place.id).collect();
        let managers: Vec<u8> = self.world().managers.iter().filter(|manager| !manager.crashed).map(|manager| manager.id).collect();
        let all = self.world().managers.len();
        if is_majority(managers.len().wrapping_sub(1), all) && managers.len() > 1 && self.draws.below(3) == 0 {
            return self.one_of(&managers).map(|manager| format!("crash m{manager}"));
        }
        if nodes.len() > 1 { self.one_of(&nodes).map(|node| format!("crash {node}")) } else { None }
    }

    /// An event that is most likely refused: of who is not there, of a view that is not, or in a group of the other sort.
    fn wrong_line(&mut self) -> String {
        let (nodes, epoch) = (self.world().nodes.len() as u64, self.world().last_view().epoch);
        let (node, key) = (self.draws.below(nodes + 2), self.key());
        match self.draws.below(10) {
            0 => format!("resend {node} {key}"),
            1 => format!("replay {node} {key}"),
            2 => format!("copy {node} {} {}", self.draws.below(nodes), 1 + self.draws.below(64)),
            3 => format!("install {node} {}", epoch + self.draws.below(2)),
            4 => format!("start {}", node + self.draws.below(2)),
            5 => format!("lease {node} {}", self.draws.below(2000)),
            6 => format!("asklease {node} m{}", self.draws.below(9)),
            7 => format!("propose m{} {} drop {node}", self.draws.below(9), epoch.saturating_sub(self.draws.below(2))),
            8 => format!("activate m{}", self.draws.below(9)),
            _ => format!("agree drop {node}"),
        }
    }
}
