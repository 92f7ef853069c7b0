//! Fields as requests and packets; `None` is a record outside the grammar.

use crate::model::{Counts, Id, Incoming, LAST_TURN, MOST_MESSAGES, MOST_SITES, Shadow, Token};
use crate::records::Fields;

const MOST_MONEY: u64 = 1_000_000_000_000;
const MOST_STOCK: u64 = 1_000_000;
const LAST_CATEGORY: u64 = 999;

/// The grammar of records of `sites` sites.
#[derive(Clone, Copy, Debug)]
pub struct Grammar {
    pub sites: usize,
}

/// What a site is asked to do.
#[derive(Clone, Copy, Debug)]
pub enum Ask<'a> {
    /// A user, an item, a bid, a purchase or a comment: its shadow has the fields of the ask.
    Alike(Shadow<&'a [u8]>),
    Close {
        item: Id,
        seller: Id,
    },
    Restock {
        item: Id,
        seller: Id,
        quantity: u32,
    },
    Rename {
        user: Id,
        nick: &'a [u8],
    },
}

#[derive(Clone, Copy, Debug)]
pub enum Listing {
    Users,
    Categories,
    Log,
    Misfits,
    Tables,
    Items(u16),
    Bids(Id),
    Purchases(Id),
    Comments(Id),
}

#[derive(Clone, Copy, Debug)]
pub enum Request<'a> {
    Ask(Ask<'a>),
    Pass(usize),
    List(Listing),
}

#[derive(Clone, Copy, Debug)]
pub enum Packet<'a> {
    Message(Incoming<'a>),
    Token(Token),
}

/// A decimal number without leading zeros, up to `most`, which is below 10^18.
pub fn number(field: &[u8], most: u64) -> Option<u64> {
    if field.is_empty() || field.len() > 18 || (field[0] == b'0' && field.len() > 1) {
        return None;
    }
    let mut n = 0;
    for &c in field {
        let digit = c.wrapping_sub(b'0');
        if digit > 9 {
            return None;
        }
        n = n * 10 + digit as u64;
    }
    (n <= most).then_some(n)
}

fn number_from_1(field: &[u8], most: u64) -> Option<u64> {
    number(field, most).filter(|&n| n > 0)
}

fn count(field: &[u8]) -> Option<u32> {
    number(field, MOST_MESSAGES as u64).map(|n| n as u32)
}

fn category(field: &[u8]) -> Option<u16> {
    number(field, LAST_CATEGORY).map(|n| n as u16)
}

fn quantity(field: &[u8]) -> Option<u32> {
    number_from_1(field, MOST_STOCK).map(|n| n as u32)
}

fn rating(field: &[u8]) -> Option<i8> {
    match *field {
        [c @ b'0'..=b'5'] => Some((c - b'0') as i8),
        [b'-', c @ b'1'..=b'5'] => Some(-((c - b'0') as i8)),
        _ => None,
    }
}

fn nick(field: &[u8]) -> Option<&[u8]> {
    let fits = (1..=20).contains(&field.len())
        && field[0].is_ascii_lowercase()
        && field.iter().all(|c| matches!(c, b'a'..=b'z' | b'0'..=b'9' | b'_'));
    fits.then_some(field)
}

fn text(field: &[u8], least: usize, most: usize) -> Option<&[u8]> {
    let fits =
        (least..=most).contains(&field.len()) && field.iter().all(|c| matches!(c, b' '..=b'~'));
    fits.then_some(field)
}

impl Grammar {
    pub fn site(&self, field: &[u8]) -> Option<usize> {
        number(field, self.sites as u64 - 1).map(|n| n as usize)
    }

    fn id(&self, field: &[u8]) -> Option<Id> {
        let dot = field.iter().take(3).position(|&c| c == b'.')?;
        let site = self.site(&field[..dot])?;
        let number = number_from_1(&field[dot + 1..], MOST_MESSAGES as u64)?;
        Some(Id::new(site, number as u32))
    }

    fn deps(&self, field: &[u8]) -> Option<Counts> {
        let mut deps = [0; MOST_SITES];
        let mut parts = field.split(|&c| c == b':');
        for dep in &mut deps[..self.sites] {
            *dep = count(parts.next()?)?;
        }
        parts.next().is_none().then_some(deps)
    }

    pub fn request<'a>(&self, f: Fields<'a>) -> Option<Request<'a>> {
        let ask = match (f.get(0), f.len()) {
            (b"close", 3) => Ask::Close { item: self.id(f.get(1))?, seller: self.id(f.get(2))? },
            (b"restock", 4) => Ask::Restock {
                item: self.id(f.get(1))?,
                seller: self.id(f.get(2))?,
                quantity: quantity(f.get(3))?,
            },
            (b"rename", 3) => Ask::Rename { user: self.id(f.get(1))?, nick: nick(f.get(2))? },
            (b"pass", 2) => return Some(Request::Pass(number(f.get(1), 99)? as usize)),
            (b"list", 2..) => return self.listing(f.skip(1)).map(Request::List),
            _ => Ask::Alike(self.alike(f)?),
        };
        Some(Request::Ask(ask))
    }

    fn listing(&self, f: Fields) -> Option<Listing> {
        Some(match (f.get(0), f.len()) {
            (b"users", 1) => Listing::Users,
            (b"categories", 1) => Listing::Categories,
            (b"log", 1) => Listing::Log,
            (b"misfits", 1) => Listing::Misfits,
            (b"tables", 1) => Listing::Tables,
            (b"items", 2) => Listing::Items(category(f.get(1))?),
            (b"bids", 2) => Listing::Bids(self.id(f.get(1))?),
            (b"purchases", 2) => Listing::Purchases(self.id(f.get(1))?),
            (b"comments", 2) => Listing::Comments(self.id(f.get(1))?),
            _ => return None,
        })
    }

    /// A packet, whose first field is `msg` or `token`.
    pub fn packet<'a>(&self, f: Fields<'a>) -> Option<Packet<'a>> {
        match (f.get(0), f.len(), f.get(1)) {
            (b"msg", ..) => self.message(f).map(Packet::Message),
            (b"token", 5, b"1") => Some(Packet::Token(Token {
                turn: number(f.get(2), LAST_TURN as u64)? as u32,
                to: self.site(f.get(3))?,
                issued: count(f.get(4))?,
            })),
            _ => None,
        }
    }

    /// A message, whose first field is `msg`.
    pub fn message<'a>(&self, f: Fields<'a>) -> Option<Incoming<'a>> {
        if f.len() < 8 {
            return None;
        }
        let version = match f.get(1) {
            b"1" => 1,
            b"2" => 2,
            _ => return None,
        };
        let origin = self.site(f.get(2))?;
        let number = count(f.get(3)).filter(|&n| n > 0)?;
        let red = count(f.get(4))?;
        let deps = self.deps(f.get(5))?;
        let shadow = self.shadow(f.skip(6))?;
        let fits = deps[origin] == number - 1
            && (red != 0) == shadow.is_red()
            && version == shadow.version();
        fits.then_some(Incoming { id: Id::new(origin, number), red, deps, shadow })
    }

    fn shadow<'a>(&self, f: Fields<'a>) -> Option<Shadow<&'a [u8]>> {
        Some(match (f.get(0), f.len()) {
            (b"close", 4) => Shadow::Close {
                item: self.id(f.get(1))?,
                category: category(f.get(2))?,
                winner: match f.get(3) {
                    b"none" => None,
                    id => Some(self.id(id)?),
                },
            },
            (b"restock", 3) => {
                Shadow::Restock { item: self.id(f.get(1))?, quantity: quantity(f.get(2))? }
            }
            (b"rename", 4) if f.get(2) != f.get(3) => Shadow::Rename {
                user: self.id(f.get(1))?,
                old: nick(f.get(2))?,
                new: nick(f.get(3))?,
            },
            _ => return self.alike(f),
        })
    }

    /// The kinds that are written alike in asks and in messages.
    fn alike<'a>(&self, f: Fields<'a>) -> Option<Shadow<&'a [u8]>> {
        Some(match (f.get(0), f.len()) {
            (b"user", 2) => Shadow::User { nick: nick(f.get(1))? },
            (b"item", 7) => Shadow::Item {
                seller: self.id(f.get(1))?,
                name: text(f.get(2), 1, 64)?,
                category: category(f.get(3))?,
                stock: quantity(f.get(4))?,
                start: number_from_1(f.get(5), MOST_MONEY)?,
                price: number(f.get(6), MOST_MONEY)?,
            },
            (b"bid", 4) => Shadow::Bid {
                item: self.id(f.get(1))?,
                bidder: self.id(f.get(2))?,
                amount: number_from_1(f.get(3), MOST_MONEY)?,
            },
            (b"buy", 4) => Shadow::Buy {
                item: self.id(f.get(1))?,
                buyer: self.id(f.get(2))?,
                quantity: quantity(f.get(3))?,
            },
            (b"comment", 6) => Shadow::Comment {
                item: self.id(f.get(1))?,
                from: self.id(f.get(2))?,
                to: self.id(f.get(3))?,
                rating: rating(f.get(4))?,
                text: text(f.get(5), 0, 200)?,
            },
            _ => return None,
        })
    }
}
