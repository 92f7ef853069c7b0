//! One site: what it decides, what waits there, and the token.

use crate::grammar::Ask;
use crate::log::Log;
use crate::model::{Id, Incoming, LAST_TURN, Message, Refusal, Shadow, Slot, Store, Text, Token};
use std::collections::VecDeque;

#[derive(Clone, Copy, Debug)]
pub enum Arrival {
    Released(u32),
    Held,
    Repeat,
}

#[derive(Clone, Copy, Debug)]
pub enum Taken {
    Holding,
    Repeat,
}

/// A message that waits, with its place in the order of arrival.
#[derive(Clone, Copy)]
struct Waiting {
    arrival: u32,
    slot: Slot,
}

pub struct Site {
    me: usize,
    sites: usize,
    keep: usize,
    pub log: Log,
    /// For each site, at place k, the waiting message that comes k after the next one.
    ahead: Vec<VecDeque<Option<Waiting>>>,
    waiting: usize,
    arrivals: u32,
    /// How many red numbers were issued, if the site holds the token.
    token: Option<u32>,
    last_turn: u32,
}

fn refuse_if(is_so: bool, refusal: Refusal) -> Result<(), Refusal> {
    if is_so { Err(refusal) } else { Ok(()) }
}

impl Site {
    pub fn new(me: usize, sites: usize, keep: usize) -> Site {
        Site {
            me,
            sites,
            keep,
            log: Log::new(sites),
            ahead: vec![VecDeque::new(); sites],
            waiting: 0,
            arrivals: 0,
            token: (me == 0).then_some(0),
            last_turn: 0,
        }
    }

    /// Decides an ask, and releases the message of one that is accepted.
    pub fn request(&mut self, store: &mut Store, ask: &Ask) -> Result<Slot, Refusal> {
        refuse_if(self.is_full(), Refusal::Full)?;
        let shadow = self.decide(store, ask)?;
        let mut red = 0;
        if shadow.is_red() {
            red = self.log.red + 1;
            self.token = Some(red);
        }
        let id = Id::new(self.me, self.log.counts[self.me] + 1);
        let slot = store.add(Message { id, red, shadow }, &self.log.counts);
        self.release(store, slot);
        self.settle(store);
        Ok(slot)
    }

    fn decide(&self, store: &mut Store, ask: &Ask) -> Result<Shadow<Text>, Refusal> {
        let tables = &self.log.tables;
        let user = |id| tables.user(id).ok_or(Refusal::NoUser);
        let item = |id| tables.item(id).ok_or(Refusal::NoItem);
        match *ask {
            Ask::Alike(shadow) => {
                self.permit(&shadow)?;
                Ok(shadow.map(|text| store.add_text(text)))
            }
            Ask::Close { item: id, seller } => {
                self.may_issue_red()?;
                let row = item(id)?;
                refuse_if(row.seller != seller, Refusal::NotSeller)?;
                refuse_if(row.is_closed, Refusal::Closed)?;
                Ok(Shadow::Close { item: id, category: row.category, winner: row.best })
            }
            Ask::Restock { item: id, seller, quantity } => {
                let row = item(id)?;
                refuse_if(row.seller != seller, Refusal::NotSeller)?;
                refuse_if(row.is_closed, Refusal::Closed)?;
                Ok(Shadow::Restock { item: id, quantity })
            }
            Ask::Rename { user: id, nick } => {
                self.may_issue_red()?;
                let old = user(id)?.nick;
                // After forged messages a user's own nickname may have no row. It is taken too.
                let is_taken = tables.has_nick(nick) || store.text(old) == nick;
                refuse_if(is_taken, Refusal::NickTaken)?;
                Ok(Shadow::Rename { user: id, old, new: store.add_text(nick) })
            }
        }
    }

    /// Refuses an ask that can't become this shadow.
    fn permit(&self, shadow: &Shadow<&[u8]>) -> Result<(), Refusal> {
        let tables = &self.log.tables;
        let user = |id| tables.user(id).ok_or(Refusal::NoUser);
        let item = |id| tables.item(id).ok_or(Refusal::NoItem);
        if shadow.is_red() {
            self.may_issue_red()?;
        }
        match *shadow {
            Shadow::User { nick } => refuse_if(tables.has_nick(nick), Refusal::NickTaken),
            Shadow::Item { seller, .. } => user(seller).map(|_| ()),
            Shadow::Bid { item: id, bidder, amount } => {
                let row = item(id)?;
                user(bidder)?;
                refuse_if(row.is_closed, Refusal::Closed)?;
                refuse_if(row.seller == bidder, Refusal::OwnItem)?;
                refuse_if(amount < row.start, Refusal::LowBid)
            }
            Shadow::Buy { item: id, buyer, quantity } => {
                let row = item(id)?;
                user(buyer)?;
                refuse_if(row.is_closed, Refusal::Closed)?;
                refuse_if(row.seller == buyer, Refusal::OwnItem)?;
                refuse_if(row.price == 0, Refusal::NoBuyNow)?;
                refuse_if(u64::from(quantity) > row.stock, Refusal::StockShort)
            }
            Shadow::Comment { item: id, from, to, .. } => {
                item(id)?;
                user(from)?;
                user(to)?;
                refuse_if(from == to, Refusal::SelfComment)
            }
            _ => Ok(()),
        }
    }

    fn may_issue_red(&self) -> Result<(), Refusal> {
        let issued = self.token.ok_or(Refusal::NoToken)?;
        refuse_if(self.log.red != issued, Refusal::RedBehind)
    }

    fn is_full(&self) -> bool {
        self.log.entries.len() + self.waiting == self.keep
    }

    /// Takes in a message that was read.
    pub fn arrive(&mut self, store: &mut Store, m: &Incoming) -> Result<Arrival, Refusal> {
        if self.has(m.id)? {
            return Ok(Arrival::Repeat);
        }
        refuse_if(self.is_full(), Refusal::Full)?;
        let slot = store.add_incoming(m);
        Ok(self.take_in(store, slot))
    }

    /// Takes in a message of the store.
    pub fn deliver(&mut self, store: &Store, slot: Slot) -> Result<Arrival, Refusal> {
        if self.has(store.get(slot).id)? {
            return Ok(Arrival::Repeat);
        }
        refuse_if(self.is_full(), Refusal::Full)?;
        Ok(self.take_in(store, slot))
    }

    /// Whether a message that arrives is released or waits here already.
    fn has(&self, id: Id) -> Result<bool, Refusal> {
        let released = self.log.counts[id.site()];
        if id.number() <= released {
            return Ok(true);
        }
        refuse_if(id.site() == self.me, Refusal::NotOurs)?;
        let place = (id.number() - released - 1) as usize;
        Ok(matches!(self.ahead[id.site()].get(place), Some(Some(_))))
    }

    /// Takes in a message that isn't here. None that waits is ready before that.
    fn take_in(&mut self, store: &Store, slot: Slot) -> Arrival {
        let Message { id, red, .. } = *store.get(slot);
        let place = (id.number() - self.log.counts[id.site()] - 1) as usize;
        if place == 0 && self.log.is_ready(red, store.deps(slot)) {
            self.release(store, slot);
            return Arrival::Released(1 + self.settle(store));
        }
        self.waiting += 1;
        self.arrivals += 1;
        let row = &mut self.ahead[id.site()];
        if row.len() <= place {
            row.resize(place + 1, None);
        }
        row[place] = Some(Waiting { arrival: self.arrivals, slot });
        Arrival::Held
    }

    /// Releases the first to arrive of the ready messages, again and again; how many.
    fn settle(&mut self, store: &Store) -> u32 {
        let mut count = 0;
        while self.waiting > 0 {
            let next = self.ahead.iter().filter_map(|row| *row.front()?);
            let is_ready = |waiting: &Waiting| {
                self.log.is_ready(store.get(waiting.slot).red, store.deps(waiting.slot))
            };
            let Some(first) = next.filter(is_ready).min_by_key(|waiting| waiting.arrival) else {
                break;
            };
            self.waiting -= 1;
            self.release(store, first.slot);
            count += 1;
        }
        count
    }

    fn release(&mut self, store: &Store, slot: Slot) {
        self.ahead[store.get(slot).id.site()].pop_front();
        self.log.release(store, slot);
    }

    pub fn take(&mut self, token: &Token) -> Result<Taken, Refusal> {
        refuse_if(token.to != self.me, Refusal::NotForMe)?;
        if token.turn <= self.last_turn {
            return Ok(Taken::Repeat);
        }
        self.last_turn = token.turn;
        self.token = Some(token.issued);
        Ok(Taken::Holding)
    }

    pub fn pass(&mut self, to: usize) -> Result<Token, Refusal> {
        let issued = self.token.ok_or(Refusal::NoToken)?;
        refuse_if(to >= self.sites || to == self.me, Refusal::BadTarget)?;
        refuse_if(self.last_turn == LAST_TURN, Refusal::LastTurn)?;
        self.token = None;
        Ok(Token { turn: self.last_turn + 1, to, issued })
    }
}
