// The nodes of a group with their rows, and its managers.
use super::*;

// ---- the row of a key
pub struct Ack {
    pub node: u16,
    /// The node had the update's own stamp.
    pub exact: bool,
}

pub struct Pending {
    pub reply: Option<Reply>,
    pub stamp: Stamp,
    pub kind: Kind,
    pub content: Option<Content>,
    pub acks: Vec<Ack>,
}

pub struct Row {
    pub state: State,
    pub stamp: Stamp,
    pub kind: Kind,
    pub content: Option<Content>,
    pub kept_val: bool,
    pub pending: Option<Pending>,
}

/// What a step did to one key: the stamps that its node covers by it, and the call that it answers.
pub struct Told {
    pub key: Key,
    pub row: Stamp,
    pub pending: Stamp,
    pub acked: Stamp,
    pub reply: Option<Reply>,
}

impl Row {
    pub fn told(&self, key: &Key, acked: Stamp, reply: Option<Reply>) -> Told {
        let pending = self.pending.as_ref().map_or(ZERO, |pending| pending.stamp);
        Told { key: key.clone(), row: self.stamp, pending, acked, reply }
    }

    pub fn inv(&self, key: &Key) -> Body {
        Body::Inv { key: key.clone(), stamp: self.stamp, kind: self.kind, content: self.content.clone() }
    }

    /// The pending update has all acknowledgements.
    pub fn complete(&mut self, key: &Key, place: &Place, letters: &mut Vec<Letter>) -> Option<Reply> {
        let pending = self.pending.take()?;
        let valid = if self.stamp == pending.stamp {
            let settled = pending.acks.iter().all(|ack| ack.exact);
            if settled {
                for to in place.others() {
                    place.send(to, Body::Val { key: key.clone(), stamp: self.stamp }, letters);
                }
            }
            settled
        } else {
            self.kept_val
        };
        self.state = if valid { State::Valid } else { State::Invalid };
        pending.reply
    }

    /// The pending update, of which nothing is acknowledged, goes out to all others.
    pub fn start(&mut self, key: &Key, place: &Place, letters: &mut Vec<Letter>) -> Option<Reply> {
        if place.members().len() == 1 {
            return self.complete(key, place, letters);
        }
        self.resend(key, place, letters);
        None
    }

    /// INV of the pending update to each other that has not acknowledged it.
    pub fn resend(&self, key: &Key, place: &Place, letters: &mut Vec<Letter>) {
        let Some(pending) = &self.pending else { return };
        for to in place.others() {
            if pending.acks.iter().all(|ack| ack.node != to) {
                let content = pending.content.clone();
                place.send(to, Body::Inv { key: key.clone(), stamp: pending.stamp, kind: pending.kind, content }, letters);
            }
        }
    }

    pub fn replay(&mut self, key: &Key, place: &Place, letters: &mut Vec<Letter>) {
        if self.state == State::Invalid {
            self.state = State::Replay;
            self.wait(None);
            self.start(key, place, letters);
        }
    }

    /// The row's update becomes the pending one.
    pub fn wait(&mut self, reply: Option<Reply>) {
        self.pending = Some(Pending { reply, stamp: self.stamp, kind: self.kind, content: self.content.clone(), acks: Vec::new() });
    }

    /// An INV above the row: gives the call that is given up.
    pub fn overtake(&mut self, stamp: Stamp, kind: Kind, content: Option<Content>) -> Option<Reply> {
        self.stamp = stamp;
        self.kind = kind;
        self.content = content;
        self.kept_val = false;
        let plain = self.pending.as_ref().is_some_and(|pending| pending.kind == Kind::Write);
        match self.state {
            State::Trans => None,
            State::Write if plain => {
                self.state = State::Trans;
                None
            }
            State::Write => {
                self.state = State::Invalid;
                let reply = self.pending.take()?.reply?;
                Some(Reply { call: reply.call, answer: Answer::Aborted(stamp) })
            }
            State::Valid | State::Invalid | State::Replay => {
                self.state = State::Invalid;
                self.pending = None;
                None
            }
        }
    }

    pub fn on_ack(&mut self, key: &Key, place: &Place, from: u16, stamp: Stamp, top: Stamp, letters: &mut Vec<Letter>) -> Option<Reply> {
        let pending = self.pending.as_mut().filter(|pending| pending.stamp == stamp)?;
        match pending.acks.iter_mut().find(|ack| ack.node == from) {
            Some(ack) => ack.exact |= top == stamp,
            None => pending.acks.push(Ack { node: from, exact: top == stamp }),
        }
        if pending.acks.len() + 1 < place.members().len() {
            return None;
        }
        self.complete(key, place, letters)
    }

    pub fn on_val(&mut self, stamp: Stamp) {
        match self.state {
            State::Invalid if self.stamp == stamp => self.state = State::Valid,
            State::Trans if self.stamp == stamp => self.kept_val = true,
            _ => {}
        }
    }

    pub fn of_copy(item: &CopyItem) -> Row {
        Row {
            state: if item.valid { State::Valid } else { State::Invalid },
            stamp: item.stamp,
            kind: item.kind,
            content: item.content.clone(),
            kept_val: false,
            pending: None,
        }
    }
}

// ---- a node
/// The ACTIVATEs of the greatest epoch that came.
pub struct Activation {
    pub view: Rc<View>,
    pub managers: Vec<u8>,
}

pub struct Node {
    pub place: Place,
    pub ready: bool,
    pub cursor: Option<Key>,
    /// The end that each manager granted.
    pub ends: Vec<u64>,
    pub granted: u64,
    pub activation: Option<Activation>,
    pub clock: u64,
    pub crashed: bool,
    pub rows: BTreeMap<Key, Row>,
}

pub fn is_majority(count: usize, managers: usize) -> bool {
    2 * count > managers
}

impl Node {
    /// A founder has a view and is ready, a joiner is not.
    pub fn new(id: u16, view: Option<Rc<View>>, managers: u8, granted: u64, clock: u64) -> Node {
        let ready = view.is_some();
        let ends = vec![granted; usize::from(managers)];
        Node { place: Place { id, view }, ready, cursor: None, ends, granted, activation: None, clock, crashed: false, rows: BTreeMap::new() }
    }

    pub fn call(&mut self, skew: u64, call: u64, key: &Key, op: Op, shown: &mut Shown, letters: &mut Vec<Letter>) {
        let answered = |row, answer| Told { key: key.clone(), row, pending: ZERO, acked: ZERO, reply: Some(Reply { call, answer }) };
        let end = if self.ready { self.granted } else { 0 };
        if self.clock + skew > end {
            return shown.told.push(answered(ZERO, Answer::BusyLease { end, now: self.clock }));
        }
        let entry = self.rows.entry(key.clone());
        let (state, stamp, held) = match &entry {
            Entry::Vacant(_) => (State::Valid, ZERO, None),
            Entry::Occupied(row) => (row.get().state, row.get().stamp, row.get().content.as_ref()),
        };
        if state != State::Valid {
            return shown.told.push(answered(stamp, Answer::BusyRow(state, stamp)));
        }
        let kind = if matches!(op, Op::Write(_)) { Kind::Write } else { Kind::Rmw };
        let (content, answer) = match turn(op, held, stamp) {
            Ok(changed) => changed,
            Err(answer) => {
                shown.looked = true;
                return shown.told.push(answered(stamp, answer));
            }
        };
        let Some(stamp) = stamp.next(kind, self.place.id) else {
            return shown.told.push(answered(stamp, Answer::Exhausted(stamp)));
        };
        let row = Row { state: State::Write, stamp, kind, content, kept_val: false, pending: None };
        let row = match entry {
            Entry::Vacant(vacant) => vacant.insert(row),
            Entry::Occupied(occupied) => {
                let held = occupied.into_mut();
                *held = row;
                held
            }
        };
        row.wait(Some(Reply { call, answer }));
        let reply = row.start(key, &self.place, letters);
        shown.begun = true;
        shown.told.push(row.told(key, ZERO, reply));
    }

    pub fn receive(&mut self, letter: Letter, shown: &mut Shown, letters: &mut Vec<Letter>) {
        match letter.from {
            Actor::Manager(manager) => self.hear(manager, letter.body, shown, letters),
            Actor::Node(from) if letter.epoch == self.place.epoch() && self.place.is_other(from) => self.receive_from(from, letter.body, shown, letters),
            Actor::Node(_) => {}
        }
    }

    /// A letter of a manager.
    pub fn hear(&mut self, manager: u8, body: Body, shown: &mut Shown, letters: &mut Vec<Letter>) {
        match body {
            Body::LeaseGive { end } => {
                let held = &mut self.ends[usize::from(manager)];
                *held = end.max(*held);
                let mut ends = self.ends.clone();
                ends.sort_unstable_by(|a, b| b.cmp(a));
                // so many managers as make a majority granted this one at least
                self.granted = self.granted.max(ends[ends.len() / 2]);
            }
            Body::Activate(view) => self.activate(manager, view, shown, letters),
            _ => {}
        }
    }

    pub fn activate(&mut self, manager: u8, view: Rc<View>, shown: &mut Shown, letters: &mut Vec<Letter>) {
        let kept = self.activation.as_ref().map_or(0, |activation| activation.view.epoch);
        if view.epoch < kept {
            return;
        }
        if view.epoch > kept {
            self.activation = Some(Activation { view, managers: Vec::new() });
        }
        let Some(Activation { view, managers }) = &mut self.activation else { return };
        if !managers.contains(&manager) {
            managers.push(manager);
        }
        let installs = is_majority(managers.len(), self.ends.len()) && view.epoch > self.place.epoch() && view.members.contains(&self.place.id);
        if installs {
            let view = view.clone();
            self.install(view, shown, letters);
            shown.installed = true;
        }
    }

    pub fn receive_from(&mut self, from: u16, body: Body, shown: &mut Shown, letters: &mut Vec<Letter>) {
        match body {
            Body::Inv { key, stamp, kind, content } => {
                let told = self.receive_inv(from, key, stamp, kind, content, letters);
                shown.told.push(told);
            }
            Body::Ack { key, stamp, top } => {
                if let Some(row) = self.rows.get_mut(&key) {
                    let reply = row.on_ack(&key, &self.place, from, stamp, top, letters);
                    shown.told.push(row.told(&key, ZERO, reply));
                }
            }
            Body::Val { key, stamp } => {
                if let Some(row) = self.rows.get_mut(&key) {
                    row.on_val(stamp);
                }
            }
            Body::CopyAsk { after, room } if self.ready => self.give(from, after, room, letters),
            Body::CopyGive { after, done, items } if !self.ready && after == self.cursor => self.merge(done, &items, shown),
            _ => {}
        }
    }

    pub fn receive_inv(&mut self, from: u16, key: Key, stamp: Stamp, kind: Kind, content: Option<Content>, letters: &mut Vec<Letter>) -> Told {
        let first = || Row { state: State::Valid, stamp: ZERO, kind: Kind::Write, content: content.clone(), kept_val: false, pending: None };
        let row = self.rows.entry(key.clone()).or_insert_with(first);
        let counters = row.stamp > stamp && kind == Kind::Rmw;
        let reply = if row.stamp < stamp { row.overtake(stamp, kind, content) } else { None };
        if counters {
            self.place.send(from, row.inv(&key), letters);
        } else {
            self.place.send(from, Body::Ack { key: key.clone(), stamp, top: row.stamp }, letters);
        }
        row.told(&key, if counters { ZERO } else { stamp }, reply)
    }

    pub fn ask_copy(&self, from: u16, room: u8, letters: &mut Vec<Letter>) {
        if !self.ready && self.place.is_other(from) {
            self.place.send(from, Body::CopyAsk { after: self.cursor.clone(), room }, letters);
        }
    }

    /// The rows behind a key, as many as there is room for.
    pub fn give(&self, to: u16, after: Option<Key>, room: u8, letters: &mut Vec<Letter>) {
        use std::ops::Bound::{Excluded, Unbounded};
        let start = after.as_deref().map_or(Unbounded, Excluded);
        let mut rows = self.rows.range::<[u8], _>((start, Unbounded)).peekable();
        let mut items = Vec::new();
        let mut left = MAX_BATCH_BYTES;
        while items.len() < usize::from(room) {
            let size = |key: &Key, row: &Row| key.len() + row.content.as_ref().map_or(0, |content| content.data.len());
            let Some((key, row)) = rows.next_if(|(key, row)| size(key, row) <= left) else { break };
            left -= size(key, row);
            let valid = row.state == State::Valid;
            items.push(CopyItem { key: key.clone(), stamp: row.stamp, kind: row.kind, valid, content: row.content.clone() });
        }
        let done = rows.peek().is_none();
        self.place.send(to, Body::CopyGive { after, done, items: items.into() }, letters);
    }

    pub fn merge(&mut self, done: bool, items: &[CopyItem], shown: &mut Shown) {
        for item in items {
            let row = match self.rows.entry(item.key.clone()) {
                Entry::Vacant(vacant) => vacant.insert(Row::of_copy(item)),
                Entry::Occupied(occupied) => {
                    let row = occupied.into_mut();
                    if row.stamp < item.stamp {
                        *row = Row::of_copy(item);
                    } else if row.stamp == item.stamp && item.valid && row.state == State::Invalid {
                        row.state = State::Valid;
                    }
                    row
                }
            };
            shown.told.push(row.told(&item.key, ZERO, None));
        }
        if let Some(last) = items.last() {
            self.cursor = Some(last.key.clone());
        }
        self.ready = done;
        if done {
            shown.told.clear();
            shown.told.extend(self.rows.iter().map(|(key, row)| row.told(key, ZERO, None)));
        }
    }

    pub fn install(&mut self, view: Rc<View>, shown: &mut Shown, letters: &mut Vec<Letter>) {
        self.place.view = Some(view);
        for (key, row) in &mut self.rows {
            let mut told = row.told(key, ZERO, None);
            if let Some(pending) = &mut row.pending {
                pending.acks.clear();
                told.reply = row.start(key, &self.place, letters);
            }
            shown.told.push(told);
        }
    }
}

// ---- a manager
#[derive(Clone, Default)]
pub struct Instance {
    pub promised: Option<Ballot>,
    pub accepted: Option<Voted>,
    /// The greatest round used here, or seen in a Prepare or an Accept.
    pub round: u64,
}

/// The latest proposal.
pub struct Proposal {
    pub epoch: u64,
    pub ballot: Ballot,
    /// The view that was accepted at the highest ballot, as far as promises tell, or else the one that is proposed.
    pub value: Rc<View>,
    pub highest: Option<Ballot>,
    pub promised: Vec<u8>,
    pub accepted: Vec<u8>,
}

pub struct Manager {
    pub id: u8,
    pub managers: u8,
    pub lease: u64,
    pub held: Rc<View>,
    pub clock: u64,
    pub crashed: bool,
    pub untils: BTreeMap<u16, u64>,
    pub instances: BTreeMap<u64, Instance>,
    pub proposal: Option<Proposal>,
}

impl Manager {
    pub fn new(id: u8, managers: u8, view: Rc<View>, lease: u64) -> Manager {
        let untils = view.members.iter().map(|member| (*member, wait(lease))).collect();
        Manager { id, managers, lease, held: view, clock: 1, crashed: false, untils, instances: BTreeMap::new(), proposal: None }
    }

    pub fn send(&self, epoch: u64, to: Actor, body: Body, letters: &mut Vec<Letter>) {
        letters.push(Letter { epoch, from: Actor::Manager(self.id), to, body });
    }

    pub fn send_all(&self, epoch: u64, body: Body, letters: &mut Vec<Letter>) {
        for to in 0..self.managers {
            self.send(epoch, Actor::Manager(to), body.clone(), letters);
        }
    }

    pub fn is_majority(&self, heard: &[u8]) -> bool {
        is_majority(heard.len(), usize::from(self.managers))
    }

    pub fn propose(&mut self, base: u64, change: Change, letters: &mut Vec<Letter>) -> Result<(), Fault> {
        let held = self.held.epoch;
        if held != base {
            return Err(Fault::Refused(format!("behind {held}")));
        }
        let value = self.held.changed(change)?;
        let instance = self.instances.entry(held + 1).or_default();
        instance.round += 1;
        let ballot = Ballot { round: instance.round, manager: self.id };
        self.proposal = Some(Proposal { epoch: held + 1, ballot, value, highest: None, promised: Vec::new(), accepted: Vec::new() });
        self.send_all(held + 1, Body::Prepare(ballot), letters);
        Ok(())
    }

    pub fn activate(&self, letters: &mut Vec<Letter>) -> Result<(), Fault> {
        let runs = |(node, until): &(&u16, &u64)| !self.held.members.contains(node) && **until >= self.clock;
        if let Some((node, until)) = self.untils.iter().find(runs) {
            return Err(Fault::Refused(format!("not-past {node} {until}")));
        }
        for member in &self.held.members {
            self.send(self.held.epoch, Actor::Node(*member), Body::Activate(self.held.clone()), letters);
        }
        Ok(())
    }

    /// Gives the view, where the manager holds another one from now on.
    pub fn receive(&mut self, letter: Letter, letters: &mut Vec<Letter>) -> Option<Rc<View>> {
        match letter.from {
            Actor::Node(from) => {
                if let Body::LeaseAsk { asked } = letter.body {
                    self.grant(from, asked, letters);
                }
                None
            }
            Actor::Manager(from) => self.receive_from(from, letter.epoch, letter.body, letters),
        }
    }

    pub fn grant(&mut self, to: u16, asked: u64, letters: &mut Vec<Letter>) {
        if self.held.members.contains(&to) {
            let until = self.untils.entry(to).or_default();
            *until = (*until).max(self.clock + wait(self.lease));
            let end = (asked + self.lease).min(MAX_TIME);
            self.send(self.held.epoch, Actor::Node(to), Body::LeaseGive { end }, letters);
        }
    }

    pub fn receive_from(&mut self, from: u8, epoch: u64, body: Body, letters: &mut Vec<Letter>) -> Option<Rc<View>> {
        match body {
            Body::Prepare(ballot) => {
                let instance = self.instances.entry(epoch).or_default();
                instance.round = instance.round.max(ballot.round);
                if instance.promised.is_none_or(|promised| promised <= ballot) {
                    instance.promised = Some(ballot);
                    let accepted = instance.accepted.clone();
                    self.send_all(epoch, Body::Promise { ballot, accepted }, letters);
                }
                None
            }
            Body::Accept { ballot, view } => {
                let instance = self.instances.entry(epoch).or_default();
                instance.round = instance.round.max(ballot.round);
                if instance.promised.is_none_or(|promised| promised <= ballot) {
                    instance.promised = Some(ballot);
                    instance.accepted = Some(Voted { ballot, view });
                    self.send_all(epoch, Body::Accepted(ballot), letters);
                }
                None
            }
            Body::Promise { ballot, accepted } => {
                self.count_promise(from, epoch, ballot, accepted, letters);
                None
            }
            Body::Accepted(ballot) => self.count_acceptance(from, epoch, ballot, letters),
            Body::Chosen(view) => self.learn(view),
            _ => None,
        }
    }

    pub fn count_promise(&mut self, from: u8, epoch: u64, ballot: Ballot, accepted: Option<Voted>, letters: &mut Vec<Letter>) {
        let Some(mut proposal) = self.proposal.take() else { return };
        let counts = proposal.epoch == epoch && proposal.ballot == ballot && !self.is_majority(&proposal.promised) && !proposal.promised.contains(&from);
        if counts {
            proposal.promised.push(from);
            if let Some(voted) = accepted.filter(|voted| proposal.highest.is_none_or(|highest| highest < voted.ballot)) {
                proposal.highest = Some(voted.ballot);
                proposal.value = voted.view;
            }
            if self.is_majority(&proposal.promised) {
                self.send_all(epoch, Body::Accept { ballot, view: proposal.value.clone() }, letters);
            }
        }
        self.proposal = Some(proposal);
    }

    pub fn count_acceptance(&mut self, from: u8, epoch: u64, ballot: Ballot, letters: &mut Vec<Letter>) -> Option<Rc<View>> {
        let mut proposal = self.proposal.take()?;
        let counts = proposal.epoch == epoch
            && proposal.ballot == ballot
            && self.is_majority(&proposal.promised)
            && !self.is_majority(&proposal.accepted)
            && !proposal.accepted.contains(&from);
        let mut chosen = None;
        if counts {
            proposal.accepted.push(from);
            chosen = self.is_majority(&proposal.accepted).then(|| proposal.value.clone());
        }
        self.proposal = Some(proposal);
        let view = chosen?;
        for to in (0..self.managers).filter(|to| *to != self.id) {
            self.send(view.epoch, Actor::Manager(to), Body::Chosen(view.clone()), letters);
        }
        self.learn(view)
    }

    pub fn learn(&mut self, view: Rc<View>) -> Option<Rc<View>> {
        (view.epoch > self.held.epoch).then(|| {
            self.held = view.clone();
            view
        })
    }
}

/// How long a manager waits on its own clock for a lease to end on any other.
pub fn wait(lease: u64) -> u64 {
    lease + lease.div_ceil(10)
}
