//! The tables of a log, and what each message does to them.
//!
//! Bids, purchases and comments have no rows of their own: they are their messages. What stands under an id is found by its
//! number, since the messages of a site are released in the order of their numbers. The rows that belong to an item, a user or
//! a category are linked, each to the one before it.

use crate::model::{Id, Message, Shadow, Store, Text};
use std::collections::HashMap;
use std::hash::{BuildHasher, Hash, Hasher, RandomState};

pub const CATEGORIES: usize = 1000;

/// What stands under an id; `Other` for messages that insert no row of an id.
#[derive(Clone, Copy, PartialEq, Eq, Hash, Debug)]
pub enum Kind {
    User,
    Item,
    Bid,
    Purchase,
    Comment,
    Other,
}

/// A kind, and its place in `users`, `items` or else the log.
#[derive(Clone, Copy)]
struct Place {
    kind: Kind,
    at: u32,
}

/// The last of some entries of the log, each of which is linked to the one before. Entries count from 1; 0 is none.
type Chain = u32;

pub struct User {
    pub id: Id,
    pub nick: Text,
    pub items: u32,
    pub comments: u32,
    pub bought: u64,
    pub rating: i64,
    comment_rows: Chain,
}

pub struct Item {
    pub id: Id,
    pub name: Text,
    pub seller: Id,
    pub best: Option<Id>,
    pub winner: Option<Id>,
    pub bids: u32,
    pub category: u16,
    pub is_closed: bool,
    pub stock: u64,
    pub sold: u64,
    pub start: u64,
    pub price: u64,
    /// The amount of the best bid, or 0.
    pub amount: u64,
    bid_rows: Chain,
    purchase_rows: Chain,
}

#[derive(Clone, Copy, Default)]
pub struct Category {
    pub items: u32,
    pub live: i64,
    item_rows: Chain,
}

impl Category {
    fn is_listed(&self) -> bool {
        self.items != 0 || self.live != 0
    }
}

#[derive(Clone, Copy, PartialEq, Eq, Debug)]
pub enum MisfitKind {
    RowThere,
    NoRow,
    OtherUser,
    ClosedItem,
    StockShort,
}

/// A part of a message that didn't fit.
pub struct Misfit {
    pub entry: u32,
    pub part: u8,
    pub id: Id,
    pub kind: MisfitKind,
}

/// A nickname with zeros behind it.
#[derive(Clone, Copy, PartialEq, Eq)]
struct Nick([u8; 20]);

impl Nick {
    fn new(nick: &[u8]) -> Nick {
        let mut bytes = [0; 20];
        bytes[..nick.len()].copy_from_slice(nick);
        Nick(bytes)
    }
}

impl Hash for Nick {
    fn hash<H: Hasher>(&self, state: &mut H) {
        let word =
            |at: usize| self.0[at..].first_chunk().map_or(0, |word| u64::from_le_bytes(*word));
        [word(0), word(8), word(12)].into_iter().for_each(|word| state.write_u64(word));
    }
}

/// Hashes words by products, under a key that each run draws, so that nobody can choose nicknames that collide.
#[derive(Clone)]
struct Hashes {
    key: u64,
}

impl Hashes {
    fn new() -> Hashes {
        Hashes { key: RandomState::new().hash_one(()) | 1 }
    }
}

impl BuildHasher for Hashes {
    type Hasher = Products;

    fn build_hasher(&self) -> Products {
        Products { key: self.key, state: self.key }
    }
}

struct Products {
    key: u64,
    state: u64,
}

impl Hasher for Products {
    fn write_u64(&mut self, word: u64) {
        let product = u128::from(self.state ^ word) * u128::from(self.key);
        self.state = self.key ^ product as u64 ^ (product >> 64) as u64;
    }

    fn write(&mut self, bytes: &[u8]) {
        bytes.iter().for_each(|&byte| self.write_u64(byte.into()));
    }

    fn finish(&self) -> u64 {
        self.state
    }
}

pub struct Tables {
    /// For each site, by number - 1.
    places: Vec<Vec<Place>>,
    pub users: Vec<User>,
    pub items: Vec<Item>,
    pub categories: Vec<Category>,
    nicks: HashMap<Nick, Id, Hashes>,
    pub misfits: Vec<Misfit>,
    /// For each entry of the log the one before it in its chain.
    before: Vec<Chain>,
    /// Rows of an item or a user that has no row itself, which is so only after forged messages.
    orphans: HashMap<(Kind, Id), Chain>,
    /// How many bids, purchases and comments there are.
    logged: usize,
}

impl Tables {
    pub fn new(sites: usize) -> Tables {
        Tables {
            places: vec![Vec::new(); sites],
            users: Vec::new(),
            items: Vec::new(),
            categories: vec![Category::default(); CATEGORIES],
            nicks: HashMap::with_hasher(Hashes::new()),
            misfits: Vec::new(),
            before: Vec::new(),
            orphans: HashMap::new(),
            logged: 0,
        }
    }

    fn place(&self, kind: Kind, id: Id) -> Option<usize> {
        let place = self.places[id.site()].get(id.number() as usize - 1)?;
        (place.kind == kind).then_some(place.at as usize)
    }

    pub fn user(&self, id: Id) -> Option<&User> {
        self.place(Kind::User, id).map(|at| &self.users[at])
    }

    pub fn item(&self, id: Id) -> Option<&Item> {
        self.place(Kind::Item, id).map(|at| &self.items[at])
    }

    pub fn has_bid(&self, id: Id) -> bool {
        self.place(Kind::Bid, id).is_some()
    }

    pub fn has_nick(&self, nick: &[u8]) -> bool {
        self.nicks.contains_key(&Nick::new(nick))
    }

    /// How many rows `list,tables` has.
    pub fn row_count(&self) -> usize {
        self.users.len() + self.items.len() + self.logged + self.listed_categories().count()
    }

    pub fn listed_categories(&self) -> impl Iterator<Item = usize> + '_ {
        (0..CATEGORIES).filter(|&category| self.categories[category].is_listed())
    }

    /// Does all parts of the next message of the log.
    pub fn apply(&mut self, store: &Store, message: &Message) {
        self.before.push(0);
        let entry = self.before.len() as u32;
        let id = message.id;
        let mut kind = Kind::Other;
        let mut at = entry - 1;
        match message.shadow {
            Shadow::User { nick } => {
                (kind, at) = (Kind::User, self.users.len() as u32);
                self.add_user(id, nick);
                if !self.take_nick(store.text(nick), id) {
                    self.misfit(2, id, MisfitKind::RowThere);
                }
            }
            Shadow::Item { seller, .. } => {
                (kind, at) = (Kind::Item, self.items.len() as u32);
                self.add_item(message);
                match self.place(Kind::User, seller) {
                    Some(at) => self.users[at].items += 1,
                    None => self.misfit(2, id, MisfitKind::NoRow),
                }
            }
            Shadow::Bid { item, amount, .. } => {
                kind = Kind::Bid;
                self.bid(id, item, amount);
            }
            Shadow::Buy { item, buyer, quantity } => {
                kind = Kind::Purchase;
                self.buy(id, item, quantity.into());
                match self.place(Kind::User, buyer) {
                    Some(at) => self.users[at].bought += u64::from(quantity),
                    None => self.misfit(3, id, MisfitKind::NoRow),
                }
            }
            Shadow::Close { item, category, winner } => {
                self.close(id, item, winner);
                self.categories[category as usize].live -= 1;
            }
            Shadow::Comment { to, rating, .. } => {
                kind = Kind::Comment;
                self.comment(id, to, rating);
            }
            Shadow::Restock { item, quantity } => match self.place(Kind::Item, item) {
                Some(at) => self.items[at].stock += u64::from(quantity),
                None => self.misfit(1, id, MisfitKind::NoRow),
            },
            Shadow::Rename { user, old, new } => {
                match self.place(Kind::User, user) {
                    Some(at) => self.users[at].nick = new,
                    None => self.misfit(1, id, MisfitKind::NoRow),
                }
                if let Err(kind) = self.give_up_nick(store.text(old), user) {
                    self.misfit(2, id, kind);
                }
                if !self.take_nick(store.text(new), user) {
                    self.misfit(3, id, MisfitKind::RowThere);
                }
            }
        }
        self.logged += usize::from(matches!(kind, Kind::Bid | Kind::Purchase | Kind::Comment));
        self.places[id.site()].push(Place { kind, at });
    }

    fn misfit(&mut self, part: u8, id: Id, kind: MisfitKind) {
        self.misfits.push(Misfit { entry: self.before.len() as u32, part, id, kind });
    }

    fn add_user(&mut self, id: Id, nick: Text) {
        let comment_rows = self.adopt(Kind::Comment, id);
        self.users.push(User {
            id,
            nick,
            items: 0,
            comments: 0,
            bought: 0,
            rating: 0,
            comment_rows,
        });
    }

    fn add_item(&mut self, message: &Message) {
        let id = message.id;
        let Shadow::Item { seller, name, category, stock, start, price } = message.shadow else {
            return;
        };
        let item = Item {
            id,
            name,
            seller,
            best: None,
            winner: None,
            bids: 0,
            category,
            is_closed: false,
            stock: stock.into(),
            sold: 0,
            start,
            price,
            amount: 0,
            bid_rows: self.adopt(Kind::Bid, id),
            purchase_rows: self.adopt(Kind::Purchase, id),
        };
        self.items.push(item);
        let category = &mut self.categories[category as usize];
        category.items += 1;
        category.live += 1;
        link(&mut self.before, &mut category.item_rows);
    }

    fn bid(&mut self, id: Id, item: Id, amount: u64) {
        let Some(at) = self.place(Kind::Item, item) else {
            self.orphan(Kind::Bid, item);
            return self.misfit(2, id, MisfitKind::NoRow);
        };
        let row = &mut self.items[at];
        link(&mut self.before, &mut row.bid_rows);
        if row.is_closed {
            return self.misfit(2, id, MisfitKind::ClosedItem);
        }
        row.bids += 1;
        if row.best.is_none() || amount > row.amount {
            row.best = Some(id);
            row.amount = amount;
        }
    }

    fn buy(&mut self, id: Id, item: Id, quantity: u64) {
        let Some(at) = self.place(Kind::Item, item) else {
            self.orphan(Kind::Purchase, item);
            return self.misfit(2, id, MisfitKind::NoRow);
        };
        let row = &mut self.items[at];
        link(&mut self.before, &mut row.purchase_rows);
        if row.is_closed {
            self.misfit(2, id, MisfitKind::ClosedItem);
        } else if quantity > row.stock {
            self.misfit(2, id, MisfitKind::StockShort);
        } else {
            row.stock -= quantity;
            row.sold += quantity;
        }
    }

    fn close(&mut self, id: Id, item: Id, winner: Option<Id>) {
        match self.place(Kind::Item, item) {
            Some(at) if self.items[at].is_closed => self.misfit(1, id, MisfitKind::ClosedItem),
            Some(at) => {
                self.items[at].is_closed = true;
                self.items[at].winner = winner;
            }
            None => self.misfit(1, id, MisfitKind::NoRow),
        }
    }

    fn comment(&mut self, id: Id, to: Id, rating: i8) {
        let Some(at) = self.place(Kind::User, to) else {
            self.orphan(Kind::Comment, to);
            return self.misfit(2, id, MisfitKind::NoRow);
        };
        let row = &mut self.users[at];
        link(&mut self.before, &mut row.comment_rows);
        row.rating += i64::from(rating);
        row.comments += 1;
    }

    /// False if the nickname has a row, which then stays.
    fn take_nick(&mut self, nick: &[u8], user: Id) -> bool {
        use std::collections::hash_map::Entry;
        match self.nicks.entry(Nick::new(nick)) {
            Entry::Vacant(free) => {
                free.insert(user);
                true
            }
            Entry::Occupied(_) => false,
        }
    }

    fn give_up_nick(&mut self, nick: &[u8], user: Id) -> Result<(), MisfitKind> {
        let key = Nick::new(nick);
        match self.nicks.get(&key) {
            None => Err(MisfitKind::NoRow),
            Some(&holder) if holder != user => Err(MisfitKind::OtherUser),
            Some(_) => {
                self.nicks.remove(&key);
                Ok(())
            }
        }
    }

    /// Links the present entry to the rows of an item or a user that isn't there.
    fn orphan(&mut self, kind: Kind, parent: Id) {
        link(&mut self.before, self.orphans.entry((kind, parent)).or_default());
    }

    /// The rows that came before the row to which they belong.
    fn adopt(&mut self, kind: Kind, parent: Id) -> Chain {
        if self.orphans.is_empty() {
            return 0;
        }
        self.orphans.remove(&(kind, parent)).unwrap_or_default()
    }

    /// The entries of the bids on an item, its purchases or the comments to a user, the last one first.
    pub fn entries_of(&self, kind: Kind, parent: Id) -> impl Iterator<Item = u32> + '_ {
        let chain = match kind {
            Kind::Bid => self.item(parent).map(|row| row.bid_rows),
            Kind::Purchase => self.item(parent).map(|row| row.purchase_rows),
            Kind::Comment => self.user(parent).map(|row| row.comment_rows),
            _ => None,
        };
        self.entries(chain.or_else(|| self.orphans.get(&(kind, parent)).copied()).unwrap_or(0))
    }

    /// The entries of a category's items, the last one first.
    pub fn items_of(&self, category: u16) -> impl Iterator<Item = u32> + '_ {
        self.entries(self.categories[category as usize].item_rows)
    }

    fn entries(&self, last: Chain) -> impl Iterator<Item = u32> + '_ {
        let some = |entry: Chain| (entry != 0).then_some(entry);
        std::iter::successors(some(last), move |&entry| some(self.before[entry as usize - 1]))
    }

    /// The places of a kind's rows in `users`, `items` or else the log, by id.
    pub fn places_of(&self, kind: Kind) -> impl Iterator<Item = usize> + '_ {
        let is_it = move |place: &&Place| place.kind == kind;
        self.places.iter().flatten().filter(is_it).map(|place| place.at as usize)
    }

    /// The place in `items` of an item that has a row.
    pub fn item_place(&self, id: Id) -> Option<usize> {
        self.place(Kind::Item, id)
    }
}

/// Puts the last entry at the end of a chain.
fn link(before: &mut [Chain], chain: &mut Chain) {
    let entry = before.len();
    before[entry - 1] = *chain;
    *chain = entry as u32;
}
