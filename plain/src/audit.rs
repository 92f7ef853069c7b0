//! The auditor: logs are walked entry by entry, and the first fault is the verdict.

use crate::Fault;
use crate::grammar::Grammar;
use crate::listing::{Row, put_row, table_rows};
use crate::log::Log;
use crate::model::{Id, Incoming, Message, Shadow, Slot, Store};
use crate::output::{Lines, Output};
use crate::records::{Fields, Reader};
use std::io::{Read, Write};

#[derive(Clone, Copy, PartialEq, Eq, Debug)]
pub enum Kind {
    Clash,
    Order,
    RedGap,
    Refers,
    Nick,
    Stock,
    Winner,
    Rows,
}

#[derive(Clone, Copy, PartialEq, Eq, Debug)]
pub enum Verdict {
    Agree,
    /// A kind of fault, the log and the entry.
    Found(Kind, u64, u64),
}

/// The walk over logs. It looks at nothing more once it has found a fault.
pub struct Walk {
    sites: usize,
    /// The first message that was seen with each id, by site and number - 1.
    seen: Vec<Vec<Slot>>,
    /// The id with each red number, by number - 1.
    reds: Vec<Id>,
    /// How many logs have begun.
    logs: u64,
    /// The site of the present log, the log so far and its last red message.
    site: usize,
    log: Log,
    last_red: Option<Id>,
    verdict: Verdict,
    /// Room for the texts of two rows that are compared.
    texts: [Lines; 2],
}

impl Walk {
    pub fn new(sites: usize) -> Walk {
        Walk {
            sites,
            seen: vec![Vec::new(); sites],
            reds: Vec::new(),
            logs: 0,
            site: 0,
            log: Log::new(sites),
            last_red: None,
            verdict: Verdict::Agree,
            texts: Default::default(),
        }
    }

    pub fn verdict(&self) -> Verdict {
        self.verdict
    }

    fn agrees(&self) -> bool {
        self.verdict == Verdict::Agree
    }

    fn found(&mut self, kind: Kind, entry: u64) {
        self.verdict = Verdict::Found(kind, self.logs, entry);
    }

    pub fn begin(&mut self, site: usize) {
        self.logs += 1;
        self.site = site;
        self.last_red = None;
        if self.agrees() {
            self.log = Log::new(self.sites);
        }
    }

    fn first_seen(&self, id: Id) -> Option<Slot> {
        self.seen[id.site()].get(id.number() as usize - 1).copied()
    }

    /// The next entry of the log, as it was read.
    fn read_entry(&mut self, store: &mut Store, m: &Incoming) {
        if !self.agrees() {
            return;
        }
        match self.first_seen(m.id) {
            Some(slot) if store.equals(slot, m) => self.entry(store, slot),
            Some(_) => self.found(Kind::Clash, self.log.entries.len() as u64 + 1),
            None => {
                let slot = store.add_incoming(m);
                self.entry(store, slot);
            }
        }
    }

    /// The next entry of the log, a message of the store, where equal messages have one slot.
    pub fn entry(&mut self, store: &Store, slot: Slot) {
        if !self.agrees() {
            return;
        }
        if let Some(kind) = self.fault(store, slot) {
            return self.found(kind, self.log.entries.len() as u64 + 1);
        }
        let m = store.get(slot);
        if self.first_seen(m.id).is_none() {
            self.seen[m.id.site()].push(slot);
        }
        if m.red != 0 {
            if self.reds.len() < m.red as usize {
                self.reds.push(m.id);
            }
            self.last_red = Some(m.id);
        }
        self.log.release(store, slot);
    }

    /// The first fault of an entry.
    fn fault(&self, store: &Store, slot: Slot) -> Option<Kind> {
        let m = store.get(slot);
        let deps = store.deps(slot);
        if self.first_seen(m.id).is_some_and(|first| first != slot) {
            Some(Kind::Clash)
        } else if self.is_out_of_order(store, m, deps) {
            Some(Kind::Order)
        } else if m.red != 0 && self.is_red_gap(m, deps) {
            Some(Kind::RedGap)
        } else if !self.refers_well(m, deps) {
            Some(Kind::Refers)
        } else if self.takes_nick(store, m) {
            Some(Kind::Nick)
        } else if self.oversells(m) {
            Some(Kind::Stock)
        } else if self.is_too_late_or_wrong(m) {
            Some(Kind::Winner)
        } else {
            None
        }
    }

    fn is_out_of_order(&self, store: &Store, m: &Message, deps: &[u32]) -> bool {
        let counts = &self.log.counts;
        let site = m.id.site();
        if m.id.number() != counts[site] + 1 {
            return true;
        }
        if deps.iter().zip(counts).any(|(dep, count)| dep > count) {
            return true;
        }
        if site == self.site && deps.iter().zip(counts).any(|(dep, count)| dep != count) {
            return true;
        }
        deps.iter().enumerate().filter(|&(_, &dep)| dep > 0).any(|(site, &dep)| {
            let before = store.deps(self.seen[site][dep as usize - 1]);
            before.iter().zip(deps).any(|(theirs, own)| theirs > own)
        })
    }

    fn is_red_gap(&self, m: &Message, deps: &[u32]) -> bool {
        m.red != self.log.red + 1
            || self.reds.get(m.red as usize - 1).is_some_and(|&id| id != m.id)
            || self.last_red.is_some_and(|last| !last.is_in(deps))
    }

    fn refers_well(&self, m: &Message, deps: &[u32]) -> bool {
        let tables = &self.log.tables;
        let is_user = |id: Id| id.is_in(deps) && tables.user(id).is_some();
        let is_item = |id: Id| id.is_in(deps) && tables.item(id).is_some();
        let is_bid = |id: Id| id.is_in(deps) && tables.has_bid(id);
        match m.shadow {
            Shadow::User { .. } => true,
            Shadow::Item { seller, .. } => is_user(seller),
            Shadow::Bid { item, bidder, .. } => is_item(item) && is_user(bidder),
            Shadow::Buy { item, buyer, .. } => is_item(item) && is_user(buyer),
            Shadow::Close { item, category, winner } => {
                is_item(item)
                    && winner.is_none_or(is_bid)
                    && tables.item(item).is_some_and(|row| row.category == category)
            }
            Shadow::Comment { item, from, to, .. } => is_item(item) && is_user(from) && is_user(to),
            Shadow::Restock { item, .. } => is_item(item),
            Shadow::Rename { user, .. } => is_user(user),
        }
    }

    fn takes_nick(&self, store: &Store, m: &Message) -> bool {
        let tables = &self.log.tables;
        match m.shadow {
            Shadow::User { nick } => tables.has_nick(store.text(nick)),
            Shadow::Rename { user, old, new } => {
                let own = tables.user(user).map(|row| store.text(row.nick));
                tables.has_nick(store.text(new)) || own != Some(store.text(old))
            }
            _ => false,
        }
    }

    fn oversells(&self, m: &Message) -> bool {
        let Shadow::Buy { item, quantity, .. } = m.shadow else { return false };
        // No part of the log misfits so far, so the row has what is left.
        self.log.tables.item(item).is_none_or(|row| u64::from(quantity) > row.stock)
    }

    fn is_too_late_or_wrong(&self, m: &Message) -> bool {
        let row = |id| self.log.tables.item(id);
        match m.shadow {
            Shadow::Bid { item, .. } | Shadow::Buy { item, .. } => {
                row(item).is_none_or(|row| row.is_closed)
            }
            Shadow::Close { item, winner, .. } => {
                row(item).is_none_or(|row| row.is_closed || row.best != winner)
            }
            _ => false,
        }
    }

    /// Compares the tables of a site with those of the present log, which has ended.
    pub fn compare_tables(&mut self, store: &Store, theirs: &Log) {
        if !self.agrees() {
            return;
        }
        let mut texts = std::mem::take(&mut self.texts);
        let mut rows = (table_rows(&self.log), table_rows(theirs));
        let is_same = loop {
            let pair = (rows.0.next(), rows.1.next());
            let (Some(own), Some(other)) = pair else { break pair.0.is_none() && pair.1.is_none() };
            texts.iter_mut().for_each(|text| text.0.clear());
            put_row(&mut texts[0], store, &self.log, own);
            put_row(&mut texts[1], store, theirs, other);
            if texts[0].0 != texts[1].0 {
                break false;
            }
        };
        drop(rows);
        self.texts = texts;
        if !is_same {
            self.found(Kind::Rows, 0);
        }
    }

    /// Compares a claimed row with the one that the present log has in its place.
    fn compare_row(&mut self, store: &Store, own: Option<Row>, claimed: Fields) {
        let mut texts = std::mem::take(&mut self.texts);
        texts.iter_mut().for_each(|text| text.0.clear());
        texts[0].record(claimed.iter());
        if let Some(row) = own {
            put_row(&mut texts[1], store, &self.log, row);
        }
        if texts[0].0 != texts[1].0 {
            self.found(Kind::Rows, 0);
        }
        self.texts = texts;
    }
}

/// An audit of records.
struct Audit {
    grammar: Grammar,
    store: Store,
    walk: Walk,
    /// The rows of the present log that weren't claimed yet, once one was.
    rows: Option<std::vec::IntoIter<Row>>,
}

impl Audit {
    /// Takes in a record; `None` is one that an audit doesn't take.
    fn take(&mut self, f: Fields) -> Option<()> {
        match f.get(0) {
            b"site" if f.len() == 2 => {
                let site = self.grammar.site(f.get(1))?;
                self.end_log();
                self.walk.begin(site);
            }
            b"msg" if self.walk.logs > 0 && self.rows.is_none() => {
                let message = self.grammar.message(f)?;
                self.walk.read_entry(&mut self.store, &message);
            }
            b"row" if self.walk.logs > 0 => {
                let walk = &mut self.walk;
                let all = || table_rows(&walk.log).collect::<Vec<_>>().into_iter();
                let own = self.rows.get_or_insert_with(all).next();
                if walk.agrees() {
                    walk.compare_row(&self.store, own, f);
                }
            }
            _ => return None,
        }
        Some(())
    }

    fn end_log(&mut self) {
        let is_short = self.rows.take().is_some_and(|mut rows| rows.next().is_some());
        if is_short && self.walk.agrees() {
            self.walk.found(Kind::Rows, 0);
        }
    }
}

/// Runs an audit.
pub fn run_audit<R: Read, W: Write>(
    records: Reader<R>,
    out: &mut Output<W>,
    grammar: Grammar,
) -> Result<(), Fault> {
    let mut audit = Audit {
        grammar,
        store: Store::new(grammar.sites),
        walk: Walk::new(grammar.sites),
        rows: None,
    };
    let mut bad = None;
    records.each(out, |_, n, fields| {
        if audit.take(fields).is_none() {
            bad = Some(n);
        }
        Ok(bad.is_none())
    })?;
    match bad {
        Some(n) => {
            out.lines.put(b"audit,BadRecord");
            out.lines.numbers([n]);
            out.lines.end();
        }
        None => {
            audit.end_log();
            put_verdict(&mut out.lines, audit.walk.verdict());
        }
    }
    out.flush()
}

pub fn put_verdict(lines: &mut Lines, verdict: Verdict) {
    match verdict {
        Verdict::Agree => lines.put(b"audit,Agree"),
        Verdict::Found(kind, log, entry) => {
            lines.put(format!("audit,{kind:?}").as_bytes());
            lines.numbers([log, entry]);
        }
    }
    lines.end();
}
