// A script, followed line by line.
use super::*;

/// The word of a stop line.
pub type Stop = &'static str;

pub struct Drill {
    pub world: World,
    pub keys: BTreeMap<Key, KeyRun>,
    pub events: u64,
    pub text: Text,
    /// Where the joint order is wanted.
    pub moments: Option<Moments>,
}

impl Drill {
    pub fn new(world: World) -> Drill {
        Drill { world, keys: BTreeMap::new(), events: 0, text: Text::default(), moments: None }
    }

    pub fn event(&mut self, words: &[&[u8]]) -> Result<(), Stop> {
        let sent = self.world.letters.len();
        let made = self.world.step(words);
        self.events += 1;
        match made {
            Err(Fault::Bad) => return Err("bad"),
            Err(Fault::Refused(text)) => {
                self.text.number(self.events).str(" refused ").str(&text).str("\n");
            }
            Ok(()) if self.world.letters.len() > MAX_LETTERS => return Err("letters"),
            Ok(()) => {
                self.show(sent);
                self.keep();
                if let Some(moments) = &mut self.moments {
                    moments.note(self.events, &self.world, &self.keys);
                }
            }
        }
        Ok(())
    }

    pub fn show(&mut self, sent: usize) {
        let Drill { world, text, events: number, .. } = self;
        let shown = &world.shown;
        if let Some(call) = shown.call {
            text.number(*number).str(" call ").number(call).str("\n");
        }
        if let Some(view) = &shown.agreed {
            text.number(*number).str(" view ").view(view).str("\n");
        }
        if let Some((manager, view)) = &shown.chosen {
            text.number(*number).str(" chosen ").actor(Actor::Manager(*manager)).str(" ").view(view).str("\n");
        }
        if let Some(acting) = shown.acting.filter(|_| shown.installed) {
            text.number(*number).str(" installed ").number(acting.node).str(" ").number(acting.epoch).str("\n");
        }
        for (at, letter) in world.letters.iter().enumerate().skip(sent) {
            text.number(*number).str(" send ").number(at as u64 + 1).str(" ").actor(letter.from).str(">").actor(letter.to);
            text.str(" ").number(letter.epoch).str(" ").body(&letter.body).str("\n");
        }
        for reply in shown.told.iter().filter_map(|told| told.reply.as_ref()) {
            text.number(*number).str(" reply ").number(reply.call).str(" ").answer(&reply.answer).str("\n");
        }
    }

    pub fn keep(&mut self) {
        let shown = &self.world.shown;
        let Some(acting) = shown.acting else { return };
        if let (Some(call), [told]) = (shown.call, &shown.told[..]) {
            let run = self.keys.entry(told.key.clone()).or_default();
            run.history.push((Item::Call, call));
            if shown.begun {
                run.at(told.row).update = Some(call);
            }
            if shown.looked {
                run.at(told.row).looks.push(call);
            }
            run.keep(told, acting);
            return;
        }
        for told in &shown.told {
            // only a call brings a key into the world
            if let Some(run) = self.keys.get_mut(&told.key) {
                run.keep(told, acting);
            }
        }
    }

    pub fn end(&mut self) {
        if let Some(moments) = &mut self.moments {
            self.text = Text::default();
            moments.end(&mut self.text, &self.world, &self.keys);
        } else {
            for (key, run) in &self.keys {
                self.text.key(key, run, &self.world);
            }
        }
        let letters = self.world.letters.len() as u64;
        self.text.str("end ").number(self.events).str(" ").number(self.world.calls).str(" ").number(letters).str("\n");
    }
}

/// Follows a script to its end, or to the line at which it stops.
pub fn follow(input: &[u8], drill: &mut Option<Drill>, is_joint: bool) -> Result<(), (u64, Stop)> {
    let mut words = Vec::new();
    let mut line_number = 0;
    let lines = input.strip_suffix(b"\n").unwrap_or(input).split(|byte| *byte == b'\n');
    for line in lines.take(if input.is_empty() { 0 } else { usize::MAX }) {
        line_number += 1;
        if line_number > MAX_LINES {
            return Err((line_number, "lines"));
        }
        if line.len() > MAX_LINE_LEN {
            return Err((line_number, "long"));
        }
        if line.is_empty() || line[0] == b'#' {
            continue;
        }
        words.clear();
        words.extend(line.split(|byte| *byte == b' '));
        match drill {
            None => {
                let mut begun = Drill::new(read_header(&words).map_err(|_| (line_number, "bad"))?);
                begun.moments = is_joint.then(Moments::default);
                *drill = Some(begun);
            }
            Some(drill) => drill.event(&words).map_err(|stop| (line_number, stop))?,
        }
    }
    if drill.is_none() {
        Err((line_number + 1, "bad"))
    } else {
        Ok(())
    }
}

/// The transcript of a script, or its joint order, and the status that goes with it.
pub fn transcript(input: &[u8], is_joint: bool) -> (Vec<u8>, i32) {
    let mut drill = None;
    let stop = follow(input, &mut drill, is_joint).err();
    if let (None, Some(drill)) = (stop, &mut drill) {
        drill.end();
    }
    let mut text = drill.filter(|_| stop.is_none() || !is_joint).map_or(Text::default(), |drill| drill.text);
    let Some((line, stop)) = stop else { return (text.0, 0) };
    text.str("stop line ").number(line).str(" ").str(stop).str("\n");
    (text.0, if stop == "bad" { 5 } else { 6 })
}
