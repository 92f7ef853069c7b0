//! Ids, shadows, messages, tokens and refusals, and the store that has each message once.

use std::num::NonZeroU32;

pub const MOST_SITES: usize = 16;
/// The greatest number of a message, and of a red one.
pub const MOST_MESSAGES: u32 = 1_000_000;
pub const LAST_TURN: u32 = 1_000_000_000;

/// A count for each site; those past the number of sites are 0.
pub type Counts = [u32; MOST_SITES];

/// A site, and a number from 1 in the low 20 bits. They are ordered by site, then by number.
#[derive(Clone, Copy, PartialEq, Eq, PartialOrd, Ord, Hash, Debug)]
pub struct Id(NonZeroU32);

impl Id {
    pub fn new(site: usize, number: u32) -> Id {
        Id(NonZeroU32::new((site as u32) << 20 | number).expect("numbers begin with 1"))
    }

    pub fn site(self) -> usize {
        (self.0.get() >> 20) as usize
    }

    pub fn number(self) -> u32 {
        self.0.get() & 0xF_FFFF
    }

    /// Whether these counts have the message.
    pub fn is_in(self, counts: &[u32]) -> bool {
        self.number() <= counts[self.site()]
    }
}

/// What a message does. `T` is a text: a part of the input, or where it stands in a store.
#[derive(Clone, Copy, PartialEq, Eq, Debug)]
pub enum Shadow<T> {
    User { nick: T },
    Item { seller: Id, name: T, category: u16, stock: u32, start: u64, price: u64 },
    Bid { item: Id, bidder: Id, amount: u64 },
    Buy { item: Id, buyer: Id, quantity: u32 },
    Close { item: Id, category: u16, winner: Option<Id> },
    Comment { item: Id, from: Id, to: Id, rating: i8, text: T },
    Restock { item: Id, quantity: u32 },
    Rename { user: Id, old: T, new: T },
}

impl<T: Copy> Shadow<T> {
    pub fn is_red(&self) -> bool {
        !matches!(self, Shadow::Item { .. } | Shadow::Comment { .. } | Shadow::Restock { .. })
    }

    /// The version of its messages.
    pub fn version(&self) -> u8 {
        if matches!(self, Shadow::Restock { .. } | Shadow::Rename { .. }) { 2 } else { 1 }
    }

    /// The same with other texts.
    pub fn map<U>(&self, mut other: impl FnMut(T) -> U) -> Shadow<U> {
        use Shadow::*;
        match *self {
            User { nick } => User { nick: other(nick) },
            Item { seller, name, category, stock, start, price } => {
                Item { seller, name: other(name), category, stock, start, price }
            }
            Bid { item, bidder, amount } => Bid { item, bidder, amount },
            Buy { item, buyer, quantity } => Buy { item, buyer, quantity },
            Close { item, category, winner } => Close { item, category, winner },
            Comment { item, from, to, rating, text } => {
                Comment { item, from, to, rating, text: other(text) }
            }
            Restock { item, quantity } => Restock { item, quantity },
            Rename { user, old, new } => Rename { user, old: other(old), new: other(new) },
        }
    }
}

/// A message as it was read.
#[derive(Clone, Copy, Debug)]
pub struct Incoming<'a> {
    pub id: Id,
    /// Its red number, or 0.
    pub red: u32,
    pub deps: Counts,
    pub shadow: Shadow<&'a [u8]>,
}

/// A message of a store, which has its `deps`.
#[derive(Clone, Copy, Debug)]
pub struct Message {
    pub id: Id,
    pub red: u32,
    pub shadow: Shadow<Text>,
}

#[derive(Clone, Copy, Debug)]
pub struct Token {
    pub turn: u32,
    pub to: usize,
    /// How many red numbers were issued.
    pub issued: u32,
}

/// Where a text of at most 255 bytes stands in a store: a byte for its length, and the text.
#[derive(Clone, Copy, Debug)]
pub struct Text(u32);

/// The place of a message in its store.
pub type Slot = u32;

/// Messages, each once, whatever many logs have it.
pub struct Store {
    sites: usize,
    messages: Vec<Message>,
    deps: Vec<u32>,
    texts: Vec<u8>,
}

impl Store {
    pub fn new(sites: usize) -> Store {
        Store { sites, messages: Vec::new(), deps: Vec::new(), texts: Vec::new() }
    }

    pub fn get(&self, slot: Slot) -> &Message {
        &self.messages[slot as usize]
    }

    pub fn deps(&self, slot: Slot) -> &[u32] {
        &self.deps[slot as usize * self.sites..][..self.sites]
    }

    pub fn text(&self, text: Text) -> &[u8] {
        let at = text.0 as usize;
        &self.texts[at + 1..][..self.texts[at] as usize]
    }

    pub fn add_text(&mut self, text: &[u8]) -> Text {
        let at = u32::try_from(self.texts.len()).expect("the texts of a run take less than 4 GiB");
        self.texts.push(text.len() as u8);
        self.texts.extend_from_slice(text);
        Text(at)
    }

    pub fn add(&mut self, message: Message, deps: &[u32]) -> Slot {
        self.messages.push(message);
        self.deps.extend_from_slice(&deps[..self.sites]);
        self.messages.len() as Slot - 1
    }

    pub fn add_incoming(&mut self, m: &Incoming) -> Slot {
        let shadow = m.shadow.map(|text| self.add_text(text));
        self.add(Message { id: m.id, red: m.red, shadow }, &m.deps)
    }

    pub fn equals(&self, slot: Slot, m: &Incoming) -> bool {
        let own = self.get(slot);
        own.id == m.id
            && own.red == m.red
            && self.deps(slot) == &m.deps[..self.sites]
            && own.shadow.map(|text| self.text(text)) == m.shadow
    }
}

#[derive(Clone, Copy, PartialEq, Eq, Debug)]
pub enum Refusal {
    BadRecord = 1,
    Full = 2,
    NoToken = 3,
    RedBehind = 4,
    NickTaken = 5,
    NoUser = 6,
    NoItem = 7,
    Closed = 8,
    LowBid = 9,
    StockShort = 10,
    NotSeller = 11,
    OwnItem = 12,
    NoBuyNow = 13,
    SelfComment = 14,
    BadTarget = 15,
    LastTurn = 16,
    NotOurs = 20,
    NotForMe = 21,
    BadEvent = 30,
    NoSuchPacket = 31,
}
