// What a transcript says.
use super::*;

#[derive(Default)]
pub struct Text(pub Vec<u8>);

impl Text {
    pub fn str(&mut self, text: &str) -> &mut Text {
        self.0.extend_from_slice(text.as_bytes());
        self
    }

    pub fn number(&mut self, n: impl Into<u64>) -> &mut Text {
        let mut n = n.into();
        let mut digits = [0; 20];
        let mut at = digits.len();
        loop {
            at -= 1;
            digits[at] = b'0' + (n % 10) as u8;
            n /= 10;
            if n == 0 {
                break;
            }
        }
        self.0.extend_from_slice(&digits[at..]);
        self
    }

    pub fn word(&mut self, bytes: &[u8]) -> &mut Text {
        match bytes {
            [] => self.str("-"),
            b"-" => self.str("%2D"),
            _ => {
                for byte in bytes {
                    if is_plain(*byte) {
                        self.0.push(*byte);
                    } else {
                        write!(self.0, "%{byte:02X}").unwrap();
                    }
                }
                self
            }
        }
    }

    pub fn stamp(&mut self, stamp: Stamp) -> &mut Text {
        self.number(stamp.version()).str(".").number(stamp.node())
    }

    pub fn update(&mut self, stamp: Stamp, kind: Kind) -> &mut Text {
        let kind = if kind == Kind::Write { " write" } else { " rmw" };
        self.stamp(stamp).str(kind)
    }

    pub fn content(&mut self, content: &Option<Content>) -> &mut Text {
        match content {
            Some(content) => self.number(content.flags).str(" ").word(&content.data),
            None => self.str("gone"),
        }
    }

    pub fn actor(&mut self, actor: Actor) -> &mut Text {
        match actor {
            Actor::Node(id) => self.number(id),
            Actor::Manager(id) => self.str("m").number(id),
        }
    }

    pub fn ballot(&mut self, ballot: Ballot) -> &mut Text {
        self.number(ballot.round).str(".").number(ballot.manager)
    }

    pub fn state(&mut self, state: State) -> &mut Text {
        self.str(match state {
            State::Valid => "valid",
            State::Invalid => "invalid",
            State::Write => "write",
            State::Replay => "replay",
            State::Trans => "trans",
        })
    }

    pub fn answer(&mut self, answer: &Answer) -> &mut Text {
        match answer {
            Answer::Found(content, tag) => self.str("found ").number(content.flags).str(" ").number(*tag).str(" ").word(&content.data),
            Answer::Missing => self.str("missing"),
            Answer::Stored => self.str("stored"),
            Answer::Number(n) => self.str("number ").number(*n),
            Answer::Exists => self.str("exists"),
            Answer::NotFound => self.str("not-found"),
            Answer::NotNumber => self.str("not-number"),
            Answer::NotStored => self.str("not-stored"),
            Answer::Deleted => self.str("deleted"),
            Answer::BusyLease { end, now } => self.str("busy lease ").number(*end).str(" ").number(*now),
            Answer::BusyRow(state, stamp) => self.str("busy ").state(*state).str(" ").stamp(*stamp),
            Answer::Aborted(stamp) => self.str("aborted ").stamp(*stamp),
            Answer::Exhausted(stamp) => self.str("exhausted ").stamp(*stamp),
        }
    }

    pub fn after(&mut self, after: &Option<Key>) -> &mut Text {
        match after {
            Some(key) => self.word(key),
            None => self.str("-"),
        }
    }

    pub fn body(&mut self, body: &Body) -> &mut Text {
        match body {
            Body::Inv { key, stamp, kind, content } => self.str("inv ").word(key).str(" ").update(*stamp, *kind).str(" ").content(content),
            Body::Ack { key, stamp, top } => self.str("ack ").word(key).str(" ").stamp(*stamp).str(" ").stamp(*top),
            Body::Val { key, stamp } => self.str("val ").word(key).str(" ").stamp(*stamp),
            Body::CopyAsk { after, room } => self.str("copyask ").after(after).str(" ").number(*room),
            Body::CopyGive { after, done, items } => {
                self.str("copygive ").after(after).str(if *done { " done" } else { " more" });
                for item in items.iter() {
                    self.str(" ").word(&item.key).str(" ").update(item.stamp, item.kind);
                    self.str(if item.valid { " valid " } else { " open " }).content(&item.content);
                }
                self
            }
            Body::LeaseAsk { .. } => self.str("leaseask"),
            Body::LeaseGive { end } => self.str("leasegive ").number(*end),
            Body::Prepare(ballot) => self.str("prepare ").ballot(*ballot),
            Body::Promise { ballot, accepted: None } => self.str("promise ").ballot(*ballot).str(" none"),
            Body::Promise { ballot, accepted: Some(voted) } => self.str("promise ").ballot(*ballot).str(" ").ballot(voted.ballot).str(" ").view(&voted.view),
            Body::Accept { ballot, view } => self.str("accept ").ballot(*ballot).str(" ").view(view),
            Body::Accepted(ballot) => self.str("accepted ").ballot(*ballot),
            Body::Chosen(view) => self.str("chosen ").view(view),
            Body::Activate(view) => self.str("activate ").view(view),
        }
    }

    pub fn view(&mut self, view: &View) -> &mut Text {
        self.number(view.epoch).str(":").number(view.next);
        for (at, member) in view.members.iter().enumerate() {
            self.str(if at == 0 { ":" } else { "," }).number(*member);
        }
        self
    }

    pub fn key(&mut self, key: &[u8], run: &KeyRun, world: &World) {
        self.str("key ").word(key).str("\nhistory");
        for (item, call) in &run.history {
            self.str(if matches!(item, Item::Call) { " c" } else { " r" }).number(*call);
        }
        self.str("\norder");
        for (stamp, at) in &run.stamps {
            if let Some(call) = at.update.filter(|_| at.is_complete(world)) {
                self.str(" ").number(call).str("@").number(stamp.0);
            }
            for call in &at.looks {
                self.str(" ").number(*call);
            }
        }
        self.str("\n");
    }
}
