//! Several sites, and the list of all packets that they sent.

use crate::Fault;
use crate::answers::{Answer, Sent, put_refusal};
use crate::audit::{Verdict, Walk, put_verdict};
use crate::command_line::Line;
use crate::grammar::{Grammar, number};
use crate::model::{Refusal, Store};
use crate::output::{Lines, Output};
use crate::records::{Fields, Reader};
use crate::site::Site;
use std::io::{Read, Write};

const MOST_PACKETS: u64 = 4_000_000;

enum Event<'a> {
    At(usize, Fields<'a>),
    Deliver(usize, usize),
    Audit,
}

/// The sites share one store.
struct World {
    grammar: Grammar,
    store: Store,
    sites: Vec<Site>,
    /// What stands before the answers of each site.
    prefixes: Vec<Vec<u8>>,
    packets: Vec<Sent>,
}

impl World {
    fn event<'a>(&self, f: Fields<'a>) -> Option<Event<'a>> {
        match (f.get(0), f.len()) {
            (b"at", 3..) => Some(Event::At(self.grammar.site(f.get(1))?, f.skip(2))),
            (b"deliver", 3) => {
                let packet = number(f.get(2), MOST_PACKETS)? as usize;
                Some(Event::Deliver(self.grammar.site(f.get(1))?, packet))
            }
            (b"audit", 1) => Some(Event::Audit),
            _ => None,
        }
    }

    fn answer<W: Write>(&mut self, out: &mut Output<W>, n: u64, f: Fields) -> Result<(), Fault> {
        match self.event(f) {
            None => put_world_refusal(&mut out.lines, n, Refusal::BadEvent),
            Some(Event::Audit) => put_verdict(&mut out.lines, self.audit()),
            Some(Event::Deliver(to, packet)) => self.deliver(&mut out.lines, n, to, packet),
            Some(Event::At(at, f)) => {
                let answer = Answer { prefix: &self.prefixes[at], n };
                match self.grammar.request(f) {
                    None => answer.refused(&mut out.lines, Refusal::BadRecord),
                    Some(request) => {
                        let (site, store) = (&mut self.sites[at], &mut self.store);
                        self.packets.extend(answer.request(out, site, store, &request)?);
                    }
                }
            }
        }
        Ok(())
    }

    fn deliver(&mut self, lines: &mut Lines, n: u64, to: usize, packet: usize) {
        let answer = Answer { prefix: &self.prefixes[to], n };
        let site = &mut self.sites[to];
        match packet.checked_sub(1).and_then(|at| self.packets.get(at)) {
            None => put_world_refusal(lines, n, Refusal::NoSuchPacket),
            Some(&Sent::Message(slot)) => answer.arrival(lines, site.deliver(&self.store, slot)),
            Some(Sent::Token(token)) => answer.taken(lines, site.take(token)),
        }
    }

    /// Audits all logs with their tables.
    fn audit(&self) -> Verdict {
        let mut walk = Walk::new(self.sites.len());
        for (number, site) in self.sites.iter().enumerate() {
            walk.begin(number);
            site.log.entries.iter().for_each(|&slot| walk.entry(&self.store, slot));
            walk.compare_tables(&self.store, &site.log);
        }
        walk.verdict()
    }
}

fn put_world_refusal(lines: &mut Lines, n: u64, refusal: Refusal) {
    lines.put(b"world");
    lines.numbers([n]);
    put_refusal(lines, refusal);
}

/// Runs several sites.
pub fn run_world<R: Read, W: Write>(
    records: Reader<R>,
    out: &mut Output<W>,
    line: &Line,
) -> Result<(), Fault> {
    let mut world = World {
        grammar: Grammar { sites: line.sites },
        store: Store::new(line.sites),
        sites: (0..line.sites).map(|site| Site::new(site, line.sites, line.keep)).collect(),
        prefixes: (0..line.sites).map(|site| format!("at,{site},").into_bytes()).collect(),
        packets: Vec::new(),
    };
    records.each(out, |out, n, fields| world.answer(out, n, fields).map(|()| true))
}
