// Scripts and runs that are made.
use super::*;

pub struct Draws(pub u64);

impl Draws {
    pub fn below(&mut self, n: u64) -> u64 {
        self.0 = self.0.wrapping_mul(6364136223846793005).wrapping_add(1442695040888963407);
        (self.0 >> 33) % n
    }
}

/// A quarter of the events are calls; else one of the last letters is taken, or an update is sent again or replayed.
pub fn mixed_line(mut below: impl FnMut(u64) -> u64, letters: u64, prefix: &str, keys: u64, nodes: u64) -> String {
    match below(16) {
        p if p < 4 || (p < 14 && letters == 0) => {
            let (node, key) = (below(nodes), below(keys));
            match below(4) {
                0 => format!("call {node} get {prefix}{key}"),
                1 => format!("call {node} set {prefix}{key} 0 {}", below(100)),
                2 => format!("call {node} incr {prefix}{key} {}", below(100)),
                _ => format!("call {node} decr {prefix}{key} {}", below(100)),
            }
        }
        14 => format!("resend {} {prefix}{}", below(nodes), below(keys)),
        15 => format!("replay {} {prefix}{}", below(nodes), below(keys)),
        _ => format!("take {}", letters - below(letters.min(64))),
    }
}

pub fn mixed(events: u64, keys: u64, nodes: u64, out: &mut impl Write) -> io::Result<()> {
    writeln!(out, "group {nodes} managers 0 lease {MAX_TIME} skew 0")?;
    let mut world = World::new(nodes as u16, 0, MAX_TIME, 0);
    let mut draws = Draws(1);
    for _ in 0..events {
        let line = mixed_line(|n| draws.below(n), world.letters.len() as u64, "key:", keys, nodes);
        writeln!(out, "{line}")?;
        let words: Vec<&[u8]> = line.as_bytes().split(|byte| *byte == b' ').collect();
        assert!(world.step(&words).is_ok());
    }
    Ok(())
}

/// A script that is written while its world runs.
pub struct Scripted<'a, W> {
    pub world: World,
    pub out: &'a mut W,
}

impl<W: Write> Scripted<'_, W> {
    /// Writes the line of an event, which may be refused.
    pub fn line(&mut self, line: &str) -> io::Result<()> {
        writeln!(self.out, "{line}")?;
        let words: Vec<&[u8]> = line.as_bytes().split(|byte| *byte == b' ').collect();
        if let Err(Fault::Bad) = self.world.step(&words) {
            panic!("{}", format!("outside the grammar: {line}"));
        }
        Ok(())
    }

    /// Takes every letter that is not taken, in their order, until none is left.
    pub fn take_all(&mut self, mut taken: usize) -> io::Result<usize> {
        while taken < self.world.letters.len() {
            taken += 1;
            self.line(&format!("take {taken}"))?;
        }
        Ok(taken)
    }
}

/// About every hundred events the third node is dropped, or the next one joins; between them each call's letters are taken.
pub fn managed(events: u64, keys: u64, out: &mut impl Write) -> io::Result<()> {
    writeln!(out, "group 3 managers 3 lease 1000 skew 0")?;
    let mut script = Scripted { world: World::new(3, 3, 1000, 0), out };
    let mut draws = Draws(1);
    let (mut made, mut taken, mut change) = (0, 0, 0);
    while made < events {
        if made / 100 >= change {
            change += 1;
            made += change_view(&mut script, &mut taken)?;
        }
        let members = script.world.managers[0].held.members.clone();
        let (node, key) = (members[draws.below(members.len() as u64) as usize], draws.below(keys));
        let before = script.world.letters.len() as u64;
        match draws.below(3) {
            0 => script.line(&format!("call {node} get key:{key}"))?,
            1 => script.line(&format!("call {node} set key:{key} 0 {}", draws.below(100)))?,
            _ => script.line(&format!("call {node} incr key:{key} 1"))?,
        }
        taken = script.take_all(taken)?;
        made += 1 + script.world.letters.len() as u64 - before;
    }
    Ok(())
}

/// The managers agree on the next view, its nodes install it, and all leases are asked for anew. Gives how many events it took.
pub fn change_view(script: &mut Scripted<impl Write>, taken: &mut usize) -> io::Result<u64> {
    let held = script.world.managers[0].held.clone();
    let before = script.world.letters.len();
    let mut lines = 0;
    match held.members[..] {
        [_, _, last] => script.line(&format!("propose m0 {} drop {last}", held.epoch))?,
        _ => script.line(&format!("propose m0 {} add", held.epoch))?,
    }
    *taken = script.take_all(*taken)?;
    let now = script.world.greatest_clock(1) + 1101;
    script.line(&format!("tick all {now}"))?;
    let view = script.world.managers[0].held.clone();
    let joiner = view.members.iter().copied().find(|member| !script.world.nodes.contains_key(member));
    if let Some(joiner) = joiner {
        script.line(&format!("start {joiner}"))?;
    }
    for manager in 0..3 {
        script.line(&format!("activate m{manager}"))?;
    }
    *taken = script.take_all(*taken)?;
    for member in &view.members {
        for manager in 0..3 {
            script.line(&format!("asklease {member} m{manager}"))?;
            lines += 1;
        }
    }
    *taken = script.take_all(*taken)?;
    if let Some(joiner) = joiner {
        while !script.world.nodes[&joiner].ready {
            script.line(&format!("copy {joiner} {} 64", view.members[0]))?;
            *taken = script.take_all(*taken)?;
            lines += 1;
        }
    }
    Ok(lines + 6 + (*taken - before) as u64)
}

/// The words of the generator `pcg32`.
pub struct Pcg {
    pub state: u64,
    pub increment: u64,
}

impl Pcg {
    pub fn new(start: u64, stream: u64) -> Pcg {
        let increment = stream << 1 | 1;
        let mut pcg = Pcg { state: start.wrapping_add(increment), increment };
        pcg.step();
        pcg
    }

    pub fn step(&mut self) {
        self.state = self.state.wrapping_mul(6364136223846793005).wrapping_add(self.increment);
    }

    pub fn below(&mut self, n: u64) -> u64 {
        let state = self.state;
        self.step();
        let word = ((((state >> 18) ^ state) >> 27) as u32).rotate_right((state >> 59) as u32);
        u64::from(word) % n
    }
}

/// Draws a run as `hermes generate` does, and writes its summary.
pub fn generate(start: u64, count: u64, nodes: u64, out: &mut impl Write) -> io::Result<()> {
    let mut drill = Drill::new(World::new(nodes as u16, 0, MAX_TIME, 0));
    let mut numbers = Pcg::new(start, 54);
    let (mut answered, mut busy, mut aborted) = (0, 0, 0);
    for _ in 0..count {
        let line = mixed_line(|n| numbers.below(n), drill.world.letters.len() as u64, "k", 8, nodes);
        let words: Vec<&[u8]> = line.as_bytes().split(|byte| *byte == b' ').collect();
        assert!(drill.world.step(&words).is_ok());
        drill.keep();
        for reply in drill.world.shown.told.iter().filter_map(|told| told.reply.as_ref()) {
            match reply.answer {
                Answer::BusyLease { .. } | Answer::BusyRow(..) => busy += 1,
                Answer::Aborted(_) => aborted += 1,
                _ => answered += 1,
            }
        }
    }
    let (calls, letters) = (drill.world.calls, drill.world.letters.len());
    let open = calls - answered - busy - aborted;
    writeln!(out, "generated {start} {count} {nodes}")?;
    writeln!(out, "calls {calls} answered {answered} busy {busy} aborted {aborted} open {open}")?;
    writeln!(out, "letters {letters} legal")
}

/// Each node sets a key of its own, and then the updates are sent again and again. Each line sends a letter to each other node.
pub fn many_letters(letters: u64, nodes: u64, out: &mut impl Write) -> io::Result<()> {
    writeln!(out, "group {nodes} managers 0 lease {MAX_TIME} skew 0")?;
    for line in 0..letters / (nodes - 1).max(1) {
        let node = line % nodes;
        if line < nodes {
            writeln!(out, "call {node} set key:{node} 0 value-{node}")?;
        } else {
            writeln!(out, "resend {node} key:{node}")?;
        }
    }
    Ok(())
}
