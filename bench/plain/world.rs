// A whole group, and what is kept of each key.
use super::*;

// ---- the world
/// Why an event is not made: its line is outside the grammar, or the world refuses it by this text.
pub enum Fault {
    Bad,
    Refused(String),
}

pub fn refused(text: &str) -> Fault {
    Fault::Refused(text.to_string())
}

/// What an event shows beside its letters.
#[derive(Default)]
pub struct Shown {
    pub call: Option<u64>,
    pub agreed: Option<Rc<View>>,
    /// The manager that holds another view, and that view.
    pub chosen: Option<(u8, Rc<View>)>,
    pub installed: bool,
    /// The node that acted: its number, epoch and whether it is ready.
    pub acting: Option<Cover>,
    /// The call began an update; or it was answered by the row that it found.
    pub begun: bool,
    pub looked: bool,
    pub told: Vec<Told>,
}

impl Shown {
    pub fn act(&mut self, node: &Node) {
        self.acting = Some(Cover { epoch: node.place.epoch(), node: node.place.id, ready: node.ready });
    }

    pub fn clear(&mut self) {
        let mut told = std::mem::take(&mut self.told);
        told.clear();
        *self = Shown { told, ..Shown::default() };
    }
}

/// A world's events put what they show into `shown`, and their letters behind all others.
pub struct World {
    pub skew: u64,
    pub nodes: BTreeMap<u16, Node>,
    pub managers: Vec<Manager>,
    /// For each two live actors by how much the clock of the first may have run ahead of the second's, in thousandths, where that is above 0.
    pub leads: BTreeMap<(Actor, Actor), u64>,
    pub letters: Vec<Letter>,
    /// The views that were agreed or learned, by epoch.
    pub views: Vec<Rc<View>>,
    pub calls: u64,
    pub shown: Shown,
}

pub fn live(nodes: &mut BTreeMap<u16, Node>, id: u16) -> Result<&mut Node, Fault> {
    let node = nodes.get_mut(&id).ok_or_else(|| refused("no-actor"))?;
    if node.crashed {
        Err(refused("crashed"))
    } else {
        Ok(node)
    }
}

pub fn live_manager(managers: &mut [Manager], id: u8) -> Result<&mut Manager, Fault> {
    let manager = managers.get_mut(usize::from(id)).ok_or_else(|| refused("no-actor"))?;
    if manager.crashed {
        Err(refused("crashed"))
    } else {
        Ok(manager)
    }
}

impl World {
    pub fn new(nodes: u16, managers: u8, lease: u64, skew: u64) -> World {
        let view = Rc::new(View { epoch: 1, next: u64::from(nodes), members: (0..nodes).collect() });
        World {
            skew,
            nodes: (0..nodes).map(|id| (id, Node::new(id, Some(view.clone()), managers, lease, 1))).collect(),
            managers: (0..managers).map(|id| Manager::new(id, managers, view.clone(), lease)).collect(),
            leads: BTreeMap::new(),
            letters: Vec::new(),
            views: vec![view],
            calls: 0,
            shown: Shown::default(),
        }
    }

    /// The agreed view of an epoch.
    pub fn view(&self, epoch: u64) -> Option<&Rc<View>> {
        self.views.get((epoch as usize).wrapping_sub(1))
    }

    pub fn last_view(&self) -> &View {
        &self.views[self.views.len() - 1]
    }

    pub fn live_nodes(&self) -> impl Iterator<Item = &Node> {
        self.nodes.values().filter(|node| !node.crashed)
    }

    /// The live actors with their clocks, nodes before managers.
    pub fn live_clocks(&self) -> impl Iterator<Item = (Actor, u64)> + '_ {
        let nodes = self.live_nodes().map(|node| (Actor::Node(node.place.id), node.clock));
        let managers = self.managers.iter().filter(|manager| !manager.crashed);
        nodes.chain(managers.map(|manager| (Actor::Manager(manager.id), manager.clock)))
    }

    pub fn greatest_clock(&self, low: u64) -> u64 {
        self.live_clocks().map(|(_, clock)| clock).fold(low, u64::max)
    }

    pub fn lead(&self, a: Actor, b: Actor) -> u64 {
        self.leads.get(&(a, b)).copied().unwrap_or(0)
    }

    pub fn set_lead(&mut self, a: Actor, b: Actor, lead: u64) {
        if lead == 0 {
            self.leads.remove(&(a, b));
        } else {
            self.leads.insert((a, b), lead);
        }
    }

    /// With managers, views and leases are theirs alone.
    pub fn unmanaged(&self) -> Result<(), Fault> {
        if self.managers.is_empty() {
            Ok(())
        } else {
            Err(refused("managed"))
        }
    }

    pub fn live_clock(&mut self, actor: Actor) -> Result<&mut u64, Fault> {
        Ok(match actor {
            Actor::Node(id) => &mut live(&mut self.nodes, id)?.clock,
            Actor::Manager(id) => &mut live_manager(&mut self.managers, id)?.clock,
        })
    }

    pub fn call(&mut self, id: u16, key: Key, op: Op) -> Result<(), Fault> {
        let node = live(&mut self.nodes, id)?;
        self.calls += 1;
        self.shown.call = Some(self.calls);
        node.call(self.skew, self.calls, &key, op, &mut self.shown, &mut self.letters);
        self.shown.act(node);
        Ok(())
    }

    pub fn take(&mut self, letter: u64) -> Result<(), Fault> {
        let letter = self.letters.get((letter as usize).wrapping_sub(1)).ok_or_else(|| refused("no-letter"))?.clone();
        match letter.to {
            Actor::Node(id) => {
                let node = live(&mut self.nodes, id)?;
                node.receive(letter, &mut self.shown, &mut self.letters);
                self.shown.act(node);
            }
            Actor::Manager(id) => {
                let chosen = live_manager(&mut self.managers, id)?.receive(letter, &mut self.letters);
                self.learn(id, chosen);
            }
        }
        Ok(())
    }

    pub fn learn(&mut self, manager: u8, chosen: Option<Rc<View>>) {
        if let Some(view) = chosen {
            if view.epoch > self.last_view().epoch {
                self.views.push(view.clone());
            }
            self.shown.chosen = Some((manager, view));
        }
    }

    pub fn tick(&mut self, actor: Actor, to: u64) -> Result<(), Fault> {
        let clock = *self.live_clock(actor)?;
        if to < clock {
            return Err(Fault::Refused(format!("clock-falls {clock}")));
        }
        let risen = to - clock;
        let others: Vec<(Actor, u64)> = self.live_clocks().filter(|(other, _)| *other != actor).collect();
        let far = |(other, _): &&(Actor, u64)| self.lead(actor, *other) + 1000 * risen > 1000 * self.skew;
        if let Some((_, other)) = others.iter().find(far) {
            return Err(Fault::Refused(format!("skew {to} {other}")));
        }
        for (other, _) in others {
            self.set_lead(actor, other, self.lead(actor, other) + 1000 * risen);
            self.set_lead(other, actor, self.lead(other, actor).saturating_sub(1100 * risen));
        }
        *self.live_clock(actor)? = to;
        Ok(())
    }

    pub fn tick_all(&mut self, to: u64) -> Result<(), Fault> {
        let greatest = self.greatest_clock(0);
        if to < greatest {
            return Err(Fault::Refused(format!("clock-falls {greatest}")));
        }
        let clocks: Vec<(Actor, u64)> = self.live_clocks().collect();
        let lead = |a: (Actor, u64), b: (Actor, u64)| self.lead(a.0, b.0) + 1000 * (to - a.1);
        let slack = |b: (Actor, u64)| 1100 * (to - b.1);
        let far = |b: &&(Actor, u64)| clocks.iter().any(|a| a.0 != b.0 && lead(*a, **b) > slack(**b) + 1000 * self.skew);
        if let Some((_, other)) = clocks.iter().find(far) {
            return Err(Fault::Refused(format!("skew {to} {other}")));
        }
        let mut leads = BTreeMap::new();
        for a in &clocks {
            for b in clocks.iter().filter(|b| b.0 != a.0) {
                let lead = lead(*a, *b).saturating_sub(slack(*b));
                if lead > 0 {
                    leads.insert((a.0, b.0), lead);
                }
            }
        }
        self.leads = leads;
        for (actor, _) in clocks {
            *self.live_clock(actor)? = to;
        }
        Ok(())
    }

    pub fn crash(&mut self, actor: Actor) -> Result<(), Fault> {
        match actor {
            Actor::Node(id) => live(&mut self.nodes, id)?.crashed = true,
            Actor::Manager(id) => live_manager(&mut self.managers, id)?.crashed = true,
        }
        self.leads.retain(|(a, b), _| *a != actor && *b != actor);
        Ok(())
    }

    pub fn ask_lease(&mut self, id: u16, manager: u8) -> Result<(), Fault> {
        let node = live(&mut self.nodes, id)?;
        if usize::from(manager) < self.managers.len() {
            node.place.send_to(Actor::Manager(manager), Body::LeaseAsk { asked: node.clock }, &mut self.letters);
        }
        Ok(())
    }

    pub fn resend(&mut self, id: u16, key: Key) -> Result<(), Fault> {
        let node = live(&mut self.nodes, id)?;
        if let Some(row) = node.rows.get(&key) {
            row.resend(&key, &node.place, &mut self.letters);
        }
        Ok(())
    }

    pub fn replay(&mut self, id: u16, key: Key) -> Result<(), Fault> {
        let node = live(&mut self.nodes, id)?;
        let ready = node.ready;
        if let Some(row) = node.rows.get_mut(&key).filter(|_| ready) {
            row.replay(&key, &node.place, &mut self.letters);
        }
        Ok(())
    }

    pub fn start(&mut self, id: u16) -> Result<(), Fault> {
        if self.nodes.contains_key(&id) {
            return Err(refused("started"));
        }
        let held = self.managers.iter().any(|manager| manager.held.members.contains(&id));
        if !held && !self.last_view().members.contains(&id) {
            return Err(refused("not-member"));
        }
        let clock = self.greatest_clock(1);
        self.nodes.insert(id, Node::new(id, None, self.managers.len() as u8, 0, clock));
        Ok(())
    }

    pub fn agree(&mut self, change: Change) -> Result<(), Fault> {
        self.unmanaged()?;
        let view = self.last_view().changed(change)?;
        self.views.push(view.clone());
        self.shown.agreed = Some(view);
        Ok(())
    }

    pub fn install(&mut self, id: u16, epoch: u64) -> Result<(), Fault> {
        self.unmanaged()?;
        let held = live(&mut self.nodes, id)?.place.epoch();
        let view = self.view(epoch).ok_or_else(|| refused("no-view"))?.clone();
        if !view.members.contains(&id) {
            return Err(refused("not-member"));
        }
        if epoch <= held {
            return Err(Fault::Refused(format!("behind {held}")));
        }
        // Every number that was given before this epoch is that of a member of an earlier view.
        let given = self.view(epoch - 1).map_or(0, |view| view.next);
        let is_out = |id: u16| u64::from(id) < given && !view.members.contains(&id);
        let runs = |node: &&Node| is_out(node.place.id) && node.clock + self.skew <= node.granted;
        if let Some(node) = self.live_nodes().find(runs) {
            return Err(Fault::Refused(format!("lease-runs {} {}", node.place.id, node.granted)));
        }
        let node = live(&mut self.nodes, id)?;
        node.install(view, &mut self.shown, &mut self.letters);
        self.shown.installed = true;
        self.shown.act(node);
        Ok(())
    }

    pub fn lease(&mut self, id: u16, end: u64) -> Result<(), Fault> {
        self.unmanaged()?;
        let is_member = self.last_view().members.contains(&id);
        let node = live(&mut self.nodes, id)?;
        if !is_member {
            return Err(refused("not-member"));
        }
        node.granted = node.granted.max(end);
        Ok(())
    }
}

// ---- what is kept of each key
/// That a node covered a stamp in an epoch, and whether it was ready then.
#[derive(Clone, Copy, PartialEq, Eq, PartialOrd, Ord)]
pub struct Cover {
    pub epoch: u64,
    pub node: u16,
    pub ready: bool,
}

#[derive(Default)]
pub struct AtStamp {
    /// The call that began the update of this stamp.
    pub update: Option<u64>,
    /// Each of them once.
    pub covers: Vec<Cover>,
    /// The calls that found this stamp and changed nothing.
    pub looks: Vec<u64>,
}

impl AtStamp {
    /// In some epoch all members covered the stamp, and one of them was ready.
    pub fn is_complete(&self, world: &World) -> bool {
        let mut covers = self.covers.clone();
        covers.sort_unstable();
        covers.chunk_by(|a, b| a.epoch == b.epoch).any(|covers| {
            let all = |view: &Rc<View>| view.members.iter().all(|member| covers.iter().any(|cover| cover.node == *member));
            covers.iter().any(|cover| cover.ready) && world.view(covers[0].epoch).is_some_and(all)
        })
    }
}

pub enum Item {
    Call,
    Reply,
}

#[derive(Default)]
pub struct KeyRun {
    /// Calls and replies, each with the number of the call.
    pub history: Vec<(Item, u64)>,
    pub stamps: BTreeMap<Stamp, AtStamp>,
}

impl KeyRun {
    pub fn at(&mut self, stamp: Stamp) -> &mut AtStamp {
        self.stamps.entry(stamp).or_default()
    }

    pub fn cover(&mut self, stamp: Stamp, cover: Cover) {
        let covers = &mut self.at(stamp).covers;
        // A node's epoch never falls and it stays ready: so this is its last cover, or a new one.
        if covers.iter().rev().find(|last| last.node == cover.node) != Some(&cover) {
            covers.push(cover);
        }
    }

    /// Keeps what a step of the acting node did to the key.
    pub fn keep(&mut self, told: &Told, acting: Cover) {
        if told.row != ZERO {
            self.cover(told.row, acting);
        }
        if told.pending != ZERO && told.pending != told.row {
            self.cover(told.pending, acting);
        }
        if told.acked != ZERO && told.acked != told.row {
            self.cover(told.acked, acting);
        }
        if let Some(reply) = &told.reply {
            self.history.push((Item::Reply, reply.call));
        }
    }
}
