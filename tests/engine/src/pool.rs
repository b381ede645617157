//! Valid records in all six states, taken from the books that were played.

use bytes::field::STATE;

use crate::book::Snapshot;
use crate::chance::Chance;

/// At most this many records are kept of each state.
const PER_STATE: usize = 48;

#[derive(Default)]
pub struct Pool {
    states: [Vec<Snapshot>; 6],
}

impl Pool {
    /// Keeps the record; sometimes it replaces an older one.
    pub fn offer(&mut self, chance: &mut Chance, snapshot: Snapshot) {
        let kept = &mut self.states[snapshot.record[STATE] as usize];
        if kept.len() < PER_STATE {
            kept.push(snapshot);
        } else if chance.one_in(4) {
            kept[chance.place(PER_STATE)] = snapshot;
        }
    }

    /// A random record; every state is equally likely.
    pub fn pick(&self, chance: &mut Chance) -> Snapshot {
        let kept = &self.states[chance.place(self.states.len())];
        kept[chance.place(kept.len())].clone()
    }

    /// The first records of each state, at most this many of each.
    pub fn some(&self, of_each: usize) -> Vec<Snapshot> {
        let some = self
            .states
            .iter()
            .flat_map(|kept| kept.iter().take(of_each));
        some.cloned().collect()
    }
}
