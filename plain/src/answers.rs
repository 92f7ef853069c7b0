//! The answers of one site to its records.

use crate::Fault;
use crate::command_line::Line;
use crate::grammar::{Grammar, Packet, Request};
use crate::listing::{Shown, put_message, put_token};
use crate::model::{Refusal, Slot, Store, Token};
use crate::output::{Lines, Output};
use crate::records::{Fields, Reader};
use crate::site::{Arrival, Site, Taken};
use std::io::{Read, Write};

/// A packet that a site has sent.
#[derive(Clone, Copy)]
pub enum Sent {
    Message(Slot),
    Token(Token),
}

/// What stands before each record of an answer, and the number of the record that is answered.
#[derive(Clone, Copy)]
pub struct Answer<'a> {
    pub prefix: &'a [u8],
    pub n: u64,
}

impl Answer<'_> {
    fn begin(&self, lines: &mut Lines) {
        lines.put(self.prefix);
        lines.put(b"reply");
        lines.numbers([self.n]);
    }

    fn word(&self, lines: &mut Lines, word: &[u8]) {
        self.begin(lines);
        lines.put(word);
        lines.end();
    }

    pub fn refused(&self, lines: &mut Lines, refusal: Refusal) {
        self.begin(lines);
        put_refusal(lines, refusal);
    }

    fn sent(&self, lines: &mut Lines, store: &Store, sent: Sent) {
        match sent {
            Sent::Message(slot) => {
                self.begin(lines);
                lines.put(b",ok");
                lines.ids([store.get(slot).id]);
                lines.end();
            }
            Sent::Token(_) => self.word(lines, b",passed"),
        }
        lines.put(self.prefix);
        lines.put(b"send,");
        match sent {
            Sent::Message(slot) => put_message(lines, store, slot),
            Sent::Token(token) => put_token(lines, &token),
        }
    }

    /// Answers a request, and gives the packet that was sent.
    pub fn request<W: Write>(
        &self,
        out: &mut Output<W>,
        site: &mut Site,
        store: &mut Store,
        request: &Request,
    ) -> Result<Option<Sent>, Fault> {
        let sent = match request {
            Request::Ask(ask) => site.request(store, ask).map(Sent::Message),
            Request::Pass(to) => site.pass(*to).map(Sent::Token),
            Request::List(listing) => {
                let shown = Shown { store, log: &site.log, prefix: self.prefix };
                shown.put(out, self.n, listing)?;
                return Ok(None);
            }
        };
        match sent {
            Ok(sent) => self.sent(&mut out.lines, store, sent),
            Err(refusal) => self.refused(&mut out.lines, refusal),
        }
        Ok(sent.ok())
    }

    pub fn arrival(&self, lines: &mut Lines, arrival: Result<Arrival, Refusal>) {
        match arrival {
            Ok(Arrival::Released(count)) => {
                self.begin(lines);
                lines.put(b",released");
                lines.numbers([count.into()]);
                lines.end();
            }
            Ok(Arrival::Held) => self.word(lines, b",held"),
            Ok(Arrival::Repeat) => self.word(lines, b",repeat"),
            Err(refusal) => self.refused(lines, refusal),
        }
    }

    pub fn taken(&self, lines: &mut Lines, taken: Result<Taken, Refusal>) {
        match taken {
            Ok(Taken::Holding) => self.word(lines, b",holding"),
            Ok(Taken::Repeat) => self.word(lines, b",repeat"),
            Err(refusal) => self.refused(lines, refusal),
        }
    }
}

/// `,refused,code,Name` and the end of the record.
pub fn put_refusal(lines: &mut Lines, refusal: Refusal) {
    lines.put(b",refused");
    lines.numbers([refusal as u64]);
    lines.comma();
    lines.put(format!("{refusal:?}").as_bytes());
    lines.end();
}

/// A site with its messages.
struct Single {
    grammar: Grammar,
    store: Store,
    site: Site,
}

impl Single {
    fn answer<W: Write>(&mut self, out: &mut Output<W>, n: u64, f: Fields) -> Result<(), Fault> {
        let answer = Answer { prefix: b"", n };
        if !matches!(f.get(0), b"msg" | b"token") {
            match self.grammar.request(f) {
                Some(request) => {
                    answer.request(out, &mut self.site, &mut self.store, &request)?;
                }
                None => answer.refused(&mut out.lines, Refusal::BadRecord),
            }
            return Ok(());
        }
        let lines = &mut out.lines;
        match self.grammar.packet(f) {
            Some(Packet::Message(m)) => {
                answer.arrival(lines, self.site.arrive(&mut self.store, &m))
            }
            Some(Packet::Token(token)) => answer.taken(lines, self.site.take(&token)),
            None => answer.refused(lines, Refusal::BadRecord),
        }
        Ok(())
    }
}

/// Runs one site.
pub fn run_site<R: Read, W: Write>(
    records: Reader<R>,
    out: &mut Output<W>,
    line: &Line,
) -> Result<(), Fault> {
    let mut single = Single {
        grammar: Grammar { sites: line.sites },
        store: Store::new(line.sites),
        site: Site::new(line.site, line.sites, line.keep),
    };
    records.each(out, |out, n, fields| single.answer(out, n, fields).map(|()| true))
}
