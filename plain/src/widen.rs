//! The records of an audit as those of more sites.

use crate::Fault;
use crate::grammar::Grammar;
use crate::output::{Lines, Output};
use crate::records::{Fields, Reader};
use std::io::{Read, Write};

/// The field of a message that has a count for each site.
const DEPS: usize = 5;

/// What may come next.
#[derive(Clone, Copy, PartialEq, Eq)]
enum Place {
    BeforeLogs,
    Messages,
    Rows,
}

/// Where a record leads, if it may stand at a place.
fn next_place(grammar: &Grammar, place: Place, f: Fields) -> Option<Place> {
    match f.get(0) {
        b"site" if f.len() == 2 => grammar.site(f.get(1)).map(|_| Place::Messages),
        b"row" if place != Place::BeforeLogs => Some(Place::Rows),
        b"msg" if place == Place::Messages => grammar.message(f).map(|_| place),
        _ => None,
    }
}

/// A message with counts of 0 for further sites.
fn put_wider(lines: &mut Lines, f: Fields, further: usize) {
    for (i, field) in f.iter().enumerate() {
        if i > 0 {
            lines.comma();
        }
        lines.field(field);
        if i == DEPS {
            (0..further).for_each(|_| lines.put(b":0"));
        }
    }
    lines.end();
}

/// Widens the records of the grammar's sites to `to` sites.
pub fn run_widen<R: Read, W: Write>(
    records: Reader<R>,
    out: &mut Output<W>,
    grammar: Grammar,
    to: usize,
) -> Result<(), Fault> {
    let mut place = Place::BeforeLogs;
    records.each(out, |out, n, fields| {
        let Some(next) = next_place(&grammar, place, fields) else {
            out.lines.put(b"widen,BadRecord");
            out.lines.numbers([n]);
            out.lines.end();
            return Ok(false);
        };
        place = next;
        if fields.get(0) == b"msg" {
            put_wider(&mut out.lines, fields, to - grammar.sites);
        } else {
            out.lines.record(fields.iter());
        }
        Ok(true)
    })
}
