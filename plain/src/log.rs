//! Released messages with their counts and tables: what a site and the auditor have in common.

use crate::model::{Counts, MOST_SITES, Slot, Store};
use crate::tables::Tables;

pub struct Log {
    sites: usize,
    /// How many messages of each site there are.
    pub counts: Counts,
    /// How many red messages there are.
    pub red: u32,
    pub entries: Vec<Slot>,
    pub tables: Tables,
}

impl Log {
    pub fn new(sites: usize) -> Log {
        let tables = Tables::new(sites);
        Log { sites, counts: [0; MOST_SITES], red: 0, entries: Vec::new(), tables }
    }

    /// Whether a message with this red number and these deps, the next of its site, can be released.
    pub fn is_ready(&self, red: u32, deps: &[u32]) -> bool {
        (red == 0 || red == self.red + 1)
            && deps[..self.sites].iter().zip(&self.counts).all(|(dep, count)| dep <= count)
    }

    /// Releases a message, the next of its site.
    pub fn release(&mut self, store: &Store, slot: Slot) {
        let message = store.get(slot);
        self.counts[message.id.site()] += 1;
        self.red += u32::from(message.red != 0);
        self.entries.push(slot);
        self.tables.apply(store, message);
    }
}
