//! Messages, tokens, rows and listings as records.

use crate::Fault;
use crate::grammar::Listing;
use crate::log::Log;
use crate::model::{Shadow, Slot, Store, Token};
use crate::output::{Lines, Output};
use crate::tables::{Kind, Misfit};
use std::io::Write;

/// A message's record, from `msg` on.
pub fn put_message(lines: &mut Lines, store: &Store, slot: Slot) {
    let m = store.get(slot);
    lines.put(if m.shadow.version() == 1 { b"msg,1" } else { b"msg,2" });
    lines.numbers([m.id.site() as u64, m.id.number().into(), m.red.into()]);
    for (site, &count) in store.deps(slot).iter().enumerate() {
        lines.put(if site == 0 { b"," } else { b":" });
        lines.number(count.into());
    }
    lines.comma();
    put_shadow(lines, &m.shadow.map(|text| store.text(text)));
    lines.end();
}

fn put_shadow(lines: &mut Lines, shadow: &Shadow<&[u8]>) {
    match *shadow {
        Shadow::User { nick } => {
            lines.put(b"user,");
            lines.put(nick);
        }
        Shadow::Item { seller, name, category, stock, start, price } => {
            lines.put(b"item");
            lines.ids([seller]);
            lines.comma();
            lines.field(name);
            lines.numbers([category.into(), stock.into(), start, price]);
        }
        Shadow::Bid { item, bidder, amount } => {
            lines.put(b"bid");
            lines.ids([item, bidder]);
            lines.numbers([amount]);
        }
        Shadow::Buy { item, buyer, quantity } => {
            lines.put(b"buy");
            lines.ids([item, buyer]);
            lines.numbers([quantity.into()]);
        }
        Shadow::Close { item, category, winner } => {
            lines.put(b"close");
            lines.ids([item]);
            lines.numbers([category.into()]);
            lines.comma();
            lines.id_or_none(winner);
        }
        Shadow::Comment { item, from, to, rating, text } => {
            lines.put(b"comment");
            lines.ids([item, from, to]);
            lines.comma();
            lines.signed(rating.into());
            lines.comma();
            lines.field(text);
        }
        Shadow::Restock { item, quantity } => {
            lines.put(b"restock");
            lines.ids([item]);
            lines.numbers([quantity.into()]);
        }
        Shadow::Rename { user, old, new } => {
            lines.put(b"rename");
            lines.ids([user]);
            lines.comma();
            lines.put(old);
            lines.comma();
            lines.put(new);
        }
    }
}

pub fn put_token(lines: &mut Lines, token: &Token) {
    lines.put(b"token,1");
    lines.numbers([token.turn.into(), token.to as u64, token.issued.into()]);
    lines.end();
}

/// A row of the tables, by its place.
#[derive(Clone, Copy)]
pub enum Row {
    User(usize),
    Item(usize),
    /// A bid, a purchase or a comment, by its place in the log.
    Entry(usize),
    Category(usize),
}

/// A row's record, from `row` on.
pub fn put_row(lines: &mut Lines, store: &Store, log: &Log, row: Row) {
    match row {
        Row::User(at) => {
            let row = &log.tables.users[at];
            lines.put(b"row,user");
            lines.ids([row.id]);
            lines.comma();
            lines.put(store.text(row.nick));
            lines.numbers([row.items.into(), row.bought]);
            lines.comma();
            lines.signed(row.rating);
            lines.numbers([row.comments.into()]);
        }
        Row::Item(at) => put_item(lines, store, log, at),
        Row::Entry(at) => put_entry(lines, store, log.entries[at]),
        Row::Category(at) => {
            let row = &log.tables.categories[at];
            lines.put(b"row,category");
            lines.numbers([at as u64, row.items.into()]);
            lines.comma();
            lines.signed(row.live);
        }
    }
    lines.end();
}

fn put_item(lines: &mut Lines, store: &Store, log: &Log, at: usize) {
    let row = &log.tables.items[at];
    lines.put(b"row,item");
    lines.ids([row.id, row.seller]);
    lines.comma();
    lines.field(store.text(row.name));
    lines.numbers([
        row.category.into(),
        row.stock,
        row.sold,
        row.start,
        row.price,
        row.bids.into(),
    ]);
    lines.comma();
    lines.id_or_none(row.best);
    lines.numbers([row.amount]);
    lines.put(if row.is_closed { b",closed," } else { b",open," });
    lines.id_or_none(row.winner);
}

/// The row of a bid, a purchase or a comment, which is its message.
fn put_entry(lines: &mut Lines, store: &Store, slot: Slot) {
    let m = store.get(slot);
    match m.shadow {
        Shadow::Bid { item, bidder, amount } => {
            lines.put(b"row,bid");
            lines.ids([m.id, item, bidder]);
            lines.numbers([amount, m.red.into()]);
        }
        Shadow::Buy { item, buyer, quantity } => {
            lines.put(b"row,purchase");
            lines.ids([m.id, item, buyer]);
            lines.numbers([quantity.into()]);
        }
        Shadow::Comment { item, from, to, rating, text } => {
            lines.put(b"row,comment");
            lines.ids([m.id, item, from, to]);
            lines.comma();
            lines.signed(rating.into());
            lines.comma();
            lines.field(store.text(text));
        }
        _ => unreachable!("no other message is a row"),
    }
}

fn put_misfit(lines: &mut Lines, misfit: &Misfit) {
    lines.put(b"row,misfit");
    lines.numbers([misfit.entry.into(), misfit.part.into()]);
    lines.ids([misfit.id]);
    lines.comma();
    lines.put(format!("{:?}", misfit.kind).as_bytes());
    lines.end();
}

/// The rows of `list,tables`.
pub fn table_rows(log: &Log) -> impl Iterator<Item = Row> + '_ {
    let tables = &log.tables;
    let logged = [Kind::Bid, Kind::Purchase, Kind::Comment];
    let users = tables.places_of(Kind::User).map(Row::User);
    let items = tables.places_of(Kind::Item).map(Row::Item);
    let entries = logged.into_iter().flat_map(|kind| tables.places_of(kind)).map(Row::Entry);
    let categories = tables.listed_categories().map(Row::Category);
    users.chain(items).chain(entries).chain(categories)
}

/// A site's log with its messages, and what stands before each record of an answer.
pub struct Shown<'a> {
    pub store: &'a Store,
    pub log: &'a Log,
    pub prefix: &'a [u8],
}

impl Shown<'_> {
    /// `reply,n,rows,k` and the rows of a listing.
    pub fn put<W: Write>(
        &self,
        out: &mut Output<W>,
        n: u64,
        listing: &Listing,
    ) -> Result<(), Fault> {
        let tables = &self.log.tables;
        match *listing {
            Listing::Users => {
                self.put_head(out, n, tables.users.len());
                self.put_rows(out, tables.places_of(Kind::User).map(Row::User))
            }
            Listing::Categories => {
                self.put_head(out, n, tables.listed_categories().count());
                self.put_rows(out, tables.listed_categories().map(Row::Category))
            }
            Listing::Tables => {
                self.put_head(out, n, tables.row_count());
                self.put_rows(out, table_rows(self.log))
            }
            Listing::Items(category) => self.put_sorted(out, n, tables.items_of(category)),
            Listing::Bids(item) => self.put_sorted(out, n, tables.entries_of(Kind::Bid, item)),
            Listing::Purchases(item) => {
                self.put_sorted(out, n, tables.entries_of(Kind::Purchase, item))
            }
            Listing::Comments(user) => {
                self.put_sorted(out, n, tables.entries_of(Kind::Comment, user))
            }
            Listing::Log => self.put_log(out, n),
            Listing::Misfits => {
                self.put_head(out, n, tables.misfits.len());
                for misfit in &tables.misfits {
                    out.lines.put(self.prefix);
                    put_misfit(&mut out.lines, misfit);
                    out.ended()?;
                }
                Ok(())
            }
        }
    }

    fn put_head<W: Write>(&self, out: &mut Output<W>, n: u64, count: usize) {
        out.lines.put(self.prefix);
        out.lines.put(b"reply");
        out.lines.numbers([n]);
        out.lines.put(b",rows");
        out.lines.numbers([count as u64]);
        out.lines.end();
    }

    fn put_rows<W: Write>(
        &self,
        out: &mut Output<W>,
        mut rows: impl Iterator<Item = Row>,
    ) -> Result<(), Fault> {
        rows.try_for_each(|row| {
            out.lines.put(self.prefix);
            put_row(&mut out.lines, self.store, self.log, row);
            out.ended()
        })
    }

    /// The rows of entries, by id. Those of one site come in falling order, which the sort makes use of.
    fn put_sorted<W: Write>(
        &self,
        out: &mut Output<W>,
        n: u64,
        entries: impl Iterator<Item = u32>,
    ) -> Result<(), Fault> {
        let place = |entry: u32| {
            let at = entry as usize - 1;
            (self.store.get(self.log.entries[at]).id, at)
        };
        let mut places: Vec<_> = entries.map(place).collect();
        places.sort();
        self.put_head(out, n, places.len());
        let row = |&(id, at)| self.log.tables.item_place(id).map_or(Row::Entry(at), Row::Item);
        self.put_rows(out, places.iter().map(row))
    }

    fn put_log<W: Write>(&self, out: &mut Output<W>, n: u64) -> Result<(), Fault> {
        self.put_head(out, n, self.log.entries.len());
        for (at, &slot) in self.log.entries.iter().enumerate() {
            out.lines.put(self.prefix);
            out.lines.put(b"row,log");
            out.lines.numbers([at as u64 + 1]);
            out.lines.comma();
            put_message(&mut out.lines, self.store, slot);
            out.ended()?;
        }
        Ok(())
    }
}
