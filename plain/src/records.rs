//! Records of CSV text: any number of fields, no header, nothing trimmed, each line end alike, no record for an empty line.

use crate::Fault;
use crate::output::Output;
use std::io::{ErrorKind, Read, Write};

/// The greatest count of records of a run.
const MOST_RECORDS: u64 = 4_000_000;

const ROOM: usize = 128 * 1024;

/// So many bytes are looked at together. As many stand behind those that were read.
const BLOCK: usize = 16;

/// Reads records. Those without quotes are lent from the bytes that were read.
pub struct Reader<R> {
    source: R,
    /// `bytes[start..end]` are unread.
    bytes: Vec<u8>,
    start: usize,
    end: usize,
    at_end: bool,
    started: bool,
    /// How many records were read.
    count: u64,
    /// Where each field of the record ends.
    ends: Vec<usize>,
    /// The fields of a record with quotes, with one byte between them.
    unquoted: Vec<u8>,
}

/// A record: its fields with one byte between them.
#[derive(Clone, Copy)]
pub struct Fields<'a> {
    bytes: &'a [u8],
    start: usize,
    ends: &'a [usize],
}

impl<'a> Fields<'a> {
    pub fn len(&self) -> usize {
        self.ends.len()
    }

    /// Field i, or an empty one past the last.
    pub fn get(&self, i: usize) -> &'a [u8] {
        let Some(&end) = self.ends.get(i) else { return &[] };
        let start = if i == 0 { self.start } else { self.ends[i - 1] + 1 };
        &self.bytes[start..end]
    }

    /// The fields from the i-th on; there are at least as many.
    pub fn skip(&self, i: usize) -> Fields<'a> {
        let start = if i == 0 { self.start } else { self.ends[i - 1] + 1 };
        Fields { bytes: self.bytes, start, ends: &self.ends[i..] }
    }

    pub fn iter(&self) -> impl Iterator<Item = &'a [u8]> + use<'a> {
        let all = *self;
        (0..all.len()).map(move |i| all.get(i))
    }
}

/// Where a record was found.
struct Found {
    start: usize,
    next: usize,
    has_quotes: bool,
}

impl<R: Read> Reader<R> {
    pub fn new(source: R) -> Reader<R> {
        Reader {
            source,
            bytes: vec![0; ROOM + BLOCK],
            start: 0,
            end: 0,
            at_end: false,
            started: false,
            count: 0,
            ends: Vec::with_capacity(32),
            unquoted: Vec::new(),
        }
    }

    /// Hands each record with its number to `answer`, until that says false or the text ends. What was answered is written.
    pub fn each<W: Write>(
        mut self,
        out: &mut Output<W>,
        mut answer: impl FnMut(&mut Output<W>, u64, Fields) -> Result<bool, Fault>,
    ) -> Result<(), Fault> {
        let end = loop {
            match self.next(out) {
                Ok(Some((n, fields))) => {
                    if !answer(out, n, fields)? {
                        break Ok(());
                    }
                    out.ended()?;
                }
                Ok(None) => break Ok(()),
                Err(fault) => break Err(fault),
            }
        };
        out.flush()?;
        end
    }

    /// The next record with its number, or `None` at the end. What was answered is written before more is waited for.
    fn next<W: Write>(&mut self, out: &mut Output<W>) -> Result<Option<(u64, Fields<'_>)>, Fault> {
        if !self.started {
            self.skip_mark(out)?;
        }
        let found = loop {
            if let Some(found) = self.scan() {
                break found;
            }
            if self.at_end {
                return Ok(None);
            }
            self.fill(out)?;
        };
        if self.count == MOST_RECORDS {
            return Err(Fault::TooLong);
        }
        self.count += 1;
        self.start = found.next;
        let (bytes, start) =
            if found.has_quotes { (&self.unquoted, 0) } else { (&self.bytes, found.start) };
        Ok(Some((self.count, Fields { bytes, start, ends: &self.ends })))
    }

    /// Leaves out a byte order mark.
    fn skip_mark<W: Write>(&mut self, out: &mut Output<W>) -> Result<(), Fault> {
        const MARK: &[u8] = b"\xEF\xBB\xBF";
        while self.end < MARK.len() && !self.at_end && MARK.starts_with(&self.bytes[..self.end]) {
            self.fill(out)?;
        }
        if self.bytes[..self.end].starts_with(MARK) {
            self.start = MARK.len();
        }
        self.started = true;
        Ok(())
    }

    /// Reads more behind the unread bytes, which move to the front.
    #[cold]
    fn fill<W: Write>(&mut self, out: &mut Output<W>) -> Result<(), Fault> {
        self.bytes.copy_within(self.start..self.end, 0);
        self.end -= self.start;
        self.start = 0;
        if self.end + BLOCK == self.bytes.len() {
            self.bytes.resize(2 * self.end + BLOCK, 0);
        }
        out.flush()?;
        // A record is looked for from its start after each call, so a long one is read until the room is full.
        let is_long = self.end > ROOM / 2;
        loop {
            let room = self.bytes.len() - BLOCK;
            match self.source.read(&mut self.bytes[self.end..room]) {
                Ok(0) => self.at_end = true,
                Ok(n) => self.end += n,
                Err(error) if error.kind() == ErrorKind::Interrupted => continue,
                Err(_) => return Err(Fault::Read),
            }
            if self.at_end || !is_long || self.end == room {
                return Ok(());
            }
        }
    }

    /// The next record, if all of it was read.
    fn scan(&mut self) -> Option<Found> {
        while self.start < self.end && matches!(self.bytes[self.start], b'\n' | b'\r') {
            self.start += 1;
        }
        let (start, end) = (self.start, self.end);
        let bytes = &self.bytes[..];
        if start == end {
            return None;
        }
        if bytes[start] == b'"' {
            return self.scan_quotes(start);
        }
        self.ends.clear();
        for from in (start..end).step_by(BLOCK) {
            let mut marks = marks(bytes[from..].first_chunk().expect("as many bytes stand there"));
            while marks != 0 {
                let at = from + marks.trailing_zeros() as usize;
                marks &= marks - 1;
                if at >= end {
                    break;
                }
                self.ends.push(at);
                if bytes[at] != b',' {
                    return Some(Found { start, next: at + 1, has_quotes: false });
                }
                if at + 1 < end && bytes[at + 1] == b'"' {
                    return self.scan_quotes(start);
                }
            }
        }
        if !self.at_end {
            return None;
        }
        self.ends.push(end);
        Some(Found { start, next: end, has_quotes: false })
    }

    /// The same for a record of which a field begins with a quote, byte by byte.
    fn scan_quotes(&mut self, start: usize) -> Option<Found> {
        enum State {
            FieldStart,
            Field,
            Quoted,
            AfterQuote,
        }
        self.ends.clear();
        self.unquoted.clear();
        let mut state = State::FieldStart;
        for (at, &c) in self.bytes[..self.end].iter().enumerate().skip(start) {
            state = match (state, c) {
                (State::FieldStart, b'"') => State::Quoted,
                (State::Quoted, b'"') => State::AfterQuote,
                (State::Quoted, _) | (State::AfterQuote, b'"') => {
                    self.unquoted.push(c);
                    State::Quoted
                }
                (_, b',') => {
                    self.ends.push(self.unquoted.len());
                    self.unquoted.push(c);
                    State::FieldStart
                }
                (_, b'\n' | b'\r') => {
                    self.ends.push(self.unquoted.len());
                    return Some(Found { start, next: at + 1, has_quotes: true });
                }
                (_, _) => {
                    self.unquoted.push(c);
                    State::Field
                }
            };
        }
        if !self.at_end {
            return None;
        }
        self.ends.push(self.unquoted.len());
        Some(Found { start, next: self.end, has_quotes: true })
    }
}

/// A bit for each byte that ends a field: a comma or a line end.
#[cfg(target_arch = "x86_64")]
fn marks(block: &[u8; BLOCK]) -> u32 {
    use std::arch::x86_64::*;
    // SAFETY: each x86-64 has these instructions, and the load needs no alignment.
    unsafe {
        let bytes = _mm_loadu_si128(block.as_ptr().cast());
        let are = |c: u8| _mm_cmpeq_epi8(bytes, _mm_set1_epi8(c as i8));
        let marks = _mm_or_si128(are(b','), _mm_or_si128(are(b'\n'), are(b'\r')));
        _mm_movemask_epi8(marks) as u32
    }
}

#[cfg(not(target_arch = "x86_64"))]
fn marks(block: &[u8; BLOCK]) -> u32 {
    let bit = |(i, c): (usize, &u8)| u32::from(matches!(c, b',' | b'\n' | b'\r')) << i;
    block.iter().enumerate().map(bit).sum()
}
