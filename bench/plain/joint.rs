// The order of the calls on all keys, and the batches of reads. All keys are looked at anew after each event.
use super::*;

/// A Read that told what its key holds.
struct Reading {
    node: u16,
    key: Key,
    call: u64,
}

/// What the order is made of beside the runs of the keys.
#[derive(Default)]
pub struct Moments {
    /// Of each key the greatest stamp that is complete, from the event on at which it was.
    reached: BTreeMap<Key, Vec<(u64, Stamp)>>,
    /// The event that replied to a call.
    replied: BTreeMap<u64, u64>,
    open: Vec<Reading>,
    batches: Vec<Vec<u64>>,
}

impl Moments {
    fn close(&mut self) {
        let batch: Vec<u64> = self.open.drain(..).map(|reading| reading.call).collect();
        if batch.len() > 1 {
            self.batches.push(batch);
        }
    }

    pub fn note(&mut self, event: u64, world: &World, keys: &BTreeMap<Key, KeyRun>) {
        for (key, run) in keys {
            let greatest = run.stamps.iter().rev().find(|(_, at)| at.update.is_some() && at.is_complete(world));
            let reached = self.reached.entry(key.clone()).or_default();
            if let Some((stamp, _)) = greatest.filter(|(stamp, _)| reached.last().map_or(true, |last| last.1 < **stamp)) {
                reached.push((event, *stamp));
            }
        }
        for reply in world.shown.told.iter().filter_map(|told| told.reply.as_ref()) {
            self.replied.insert(reply.call, event);
        }
        let shown = &world.shown;
        let reading = match (shown.call, shown.acting, &shown.told[..]) {
            (Some(call), Some(acting), [told]) => match &told.reply {
                Some(Reply { answer: Answer::Found(..) | Answer::Missing, .. }) => Some(Reading { node: acting.node, key: told.key.clone(), call }),
                _ => None,
            },
            _ => None,
        };
        if !reading.as_ref().is_some_and(|reading| self.open.iter().all(|other| other.node == reading.node && other.key != reading.key)) {
            self.close();
        }
        self.open.extend(reading);
    }

    fn moment(&self, key: &Key, stamp: Stamp) -> u64 {
        self.reached[key].iter().find(|(_, reached)| *reached >= stamp).expect("the update is complete").0
    }

    pub fn end(&mut self, text: &mut Text, world: &World, keys: &BTreeMap<Key, KeyRun>) {
        self.close();
        let mut order = Vec::new();
        for (key, run) in keys {
            for (stamp, at) in &run.stamps {
                order.extend(at.update.filter(|_| at.is_complete(world)).map(|call| (self.moment(key, *stamp), call, Some(*stamp))));
                order.extend(at.looks.iter().map(|call| (self.replied[call], *call, None)));
            }
        }
        order.sort_by_key(|(event, ..)| *event);
        text.str("joint");
        for (_, call, change) in order {
            text.str(" ").number(call);
            if let Some(stamp) = change {
                text.str("@").number(stamp.0);
            }
        }
        text.str("\n");
        for batch in &self.batches {
            text.str("together");
            for call in batch {
                text.str(" ").number(*call);
            }
            text.str("\n");
        }
    }
}
