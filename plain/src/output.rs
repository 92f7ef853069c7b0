//! Records as text: fields in quotes only where they need them, gathered before they are written.

use crate::Fault;
use crate::model::Id;
use std::io::Write;

/// As many bytes are written at once.
const FULL: usize = 64 * 1024;

const EIGHT_DIGITS: u64 = 100_000_000;

/// Eight bytes of the digit 0.
const ZEROS: u64 = 0x3030_3030_3030_3030;

/// The eight digits of a number below 10^8, the first in the lowest byte: halved into two numbers of four digits, into four of
/// two, and into eight of one.
fn digits(n: u64) -> u64 {
    let fours = n / 10_000 | (n % 10_000) << 32;
    let hundreds = ((fours * 10_486) >> 20) & 0x7F_0000_007F;
    let twos = hundreds + ((fours - 100 * hundreds) << 16);
    let tens = ((twos * 103) >> 10) & 0x000F_000F_000F_000F;
    ZEROS + tens + ((twos - 10 * tens) << 8)
}

/// A text that records are added to.
#[derive(Default)]
pub struct Lines(pub Vec<u8>);

impl Lines {
    /// Bytes that need no quotes.
    pub fn put(&mut self, bytes: &[u8]) {
        self.0.extend_from_slice(bytes);
    }

    pub fn comma(&mut self) {
        self.0.push(b',');
    }

    pub fn end(&mut self) {
        self.0.push(b'\n');
    }

    pub fn number(&mut self, n: u64) {
        if n < 10 {
            return self.0.push(b'0' + n as u8);
        }
        if n >= EIGHT_DIGITS {
            self.number(n / EIGHT_DIGITS);
            return self.put(&digits(n % EIGHT_DIGITS).to_le_bytes());
        }
        // Eight bytes are added at once, and those past the digits are taken off again.
        let all = digits(n);
        let zeros = (all - ZEROS).trailing_zeros() as usize / 8;
        let end = self.0.len() + 8 - zeros;
        self.put(&(all >> (8 * zeros)).to_le_bytes());
        self.0.truncate(end);
    }

    /// Each number with a comma before it.
    pub fn numbers<const N: usize>(&mut self, numbers: [u64; N]) {
        for n in numbers {
            self.comma();
            self.number(n);
        }
    }

    pub fn signed(&mut self, n: i64) {
        if n < 0 {
            self.0.push(b'-');
        }
        self.number(n.unsigned_abs());
    }

    pub fn id(&mut self, id: Id) {
        self.number(id.site() as u64);
        self.0.push(b'.');
        self.number(id.number() as u64);
    }

    /// Each id with a comma before it.
    pub fn ids<const N: usize>(&mut self, ids: [Id; N]) {
        for id in ids {
            self.comma();
            self.id(id);
        }
    }

    pub fn id_or_none(&mut self, id: Option<Id>) {
        match id {
            Some(id) => self.id(id),
            None => self.put(b"none"),
        }
    }

    /// Any field, in quotes where it needs them.
    pub fn field(&mut self, field: &[u8]) {
        if !field.iter().any(|c| matches!(c, b',' | b'"' | b'\n' | b'\r')) {
            return self.put(field);
        }
        self.0.push(b'"');
        for &c in field {
            if c == b'"' {
                self.0.push(c);
            }
            self.0.push(c);
        }
        self.0.push(b'"');
    }

    /// A whole record. One empty field gets quotes, so that the line isn't empty.
    pub fn record<'a>(&mut self, fields: impl Iterator<Item = &'a [u8]>) {
        let start = self.0.len();
        let mut count = 0;
        for field in fields {
            if count > 0 {
                self.comma();
            }
            self.field(field);
            count += 1;
        }
        if count < 2 && self.0.len() == start {
            self.put(b"\"\"");
        }
        self.end();
    }
}

/// Lines on their way to a writer.
pub struct Output<W> {
    pub lines: Lines,
    writer: W,
}

impl<W: Write> Output<W> {
    pub fn new(writer: W) -> Output<W> {
        Output { lines: Lines(Vec::with_capacity(FULL + 4096)), writer }
    }

    /// Called after each record.
    pub fn ended(&mut self) -> Result<(), Fault> {
        if self.lines.0.len() >= FULL { self.flush() } else { Ok(()) }
    }

    pub fn flush(&mut self) -> Result<(), Fault> {
        self.writer.write_all(&self.lines.0).map_err(|_| Fault::Write)?;
        self.lines.0.clear();
        self.writer.flush().map_err(|_| Fault::Write)
    }
}

#[test]
fn numbers_are_as_rust_writes_them() {
    let powers = (0..20).map(|power| 10_u64.pow(power));
    let near = |power: u64| [power - 1, power, power + 1, power + power / 7, u64::MAX / power];
    for n in powers.flat_map(near) {
        let mut lines = Lines::default();
        lines.number(n);
        assert_eq!(lines.0, n.to_string().into_bytes());
    }
}
