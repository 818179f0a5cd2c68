//! The journal: one line for each request that changed the book, in text. A record is its number, the request line, `>`, the answer line and a
//! checksum, parted by tabs; behind an order's answer stand its lifts. A line `rules`, its number and a checksum stands where other rules begin.
//! A checksum goes on from the line before, the first from the opening image's: a line that is changed, missing or of another book is seen.

use crate::checksum::extend;
use crate::{Result, RULES};
use std::fs::File;
use std::io::{BufRead, Write};

/// No line is as long: a request line has up to 541 bytes, an answer that is recorded under 200.
const LONGEST: usize = 1_024;

/// The end of a whole line.
#[derive(Clone, Copy, PartialEq, Eq, Debug)]
pub struct Position {
    pub records: u64,
    pub bytes: u64,
    /// Of the newest record, 0 where there is none.
    pub rules: u64,
    pub checksum: u64,
}

impl Position {
    /// Where the journal of the book with this opening image starts.
    pub fn start(opening: u64) -> Position {
        Position { records: 0, bytes: 0, rules: 0, checksum: opening }
    }
}

fn chained(before: u64, text: &[u8]) -> u64 {
    extend(extend(0, &before.to_le_bytes()), text)
}

/// Request and answer without byte 10.
pub struct Record<'a> {
    pub number: u64,
    pub rules: u64,
    pub request: &'a [u8],
    pub answer: &'a [u8],
}

/// Reads a journal from its start, and judges every line of it.
pub struct Reader<R> {
    input: R,
    at: Position,
    lines: u64,
    line: Vec<u8>,
    torn: u64,
}

/// What a line is, by places in it.
enum Kind {
    Rules(u64),
    Record { request: usize, mark: usize, end: usize },
}

impl<R: BufRead> Reader<R> {
    pub fn new(input: R, opening: u64) -> Reader<R> {
        Reader { input, at: Position::start(opening), lines: 0, line: Vec::new(), torn: 0 }
    }

    /// Behind the newest whole line that was read.
    pub fn position(&self) -> Position {
        self.at
    }

    /// How many bytes of a torn last line there are, once the end was read.
    pub fn torn(&self) -> u64 {
        self.torn
    }

    /// The next record; none at the end, or where only a torn line is left.
    #[allow(clippy::should_implement_trait)]
    pub fn next(&mut self) -> Result<Option<Record<'_>>> {
        loop {
            match self.read_line()? {
                None => return Ok(None),
                Some(Kind::Rules(rules)) => self.at.rules = rules,
                Some(Kind::Record { request, mark, end }) => {
                    let (number, rules) = (self.at.records, self.at.rules);
                    return Ok(Some(Record { number, rules, request: &self.line[request..mark], answer: &self.line[mark + 3..end] }));
                }
            }
        }
    }

    fn read_line(&mut self) -> Result<Option<Kind>> {
        self.line.clear();
        self.input.read_until(b'\n', &mut self.line).map_err(|error| format!("the journal cannot be read: {error}"))?;
        let Some((b'\n', line)) = self.line.split_last() else {
            if !self.is_torn(&self.line) {
                return Err(self.damage("it is neither a whole line nor the beginning of one"));
            }
            self.torn = self.line.len() as u64;
            return Ok(None);
        };
        if !checksum_fits(self.at.checksum, line) {
            return Err(self.damage("the line and its checksum do not go together, or not with the line before"));
        }
        let end = line.len() - 17;
        let Some(kind) = self.kind(&line[..end]) else {
            return Err(self.damage("the checksum is right, but this is not the record that has its turn"));
        };
        self.at.checksum = chained(self.at.checksum, &line[..end]);
        self.at.bytes += self.line.len() as u64;
        self.at.records += u64::from(matches!(kind, Kind::Record { .. }));
        self.lines += 1;
        Ok(Some(kind))
    }

    /// Whether bytes at the end may be the beginning of the line that has its turn, which a write that was cut off has left. A whole line with
    /// another byte where byte 10 should be is not: it may have been answered.
    fn is_torn(&self, tail: &[u8]) -> bool {
        let begins = |with: &[u8]| tail.iter().zip(with).all(|(byte, with)| byte == with);
        let plain = tail.len() < LONGEST && tail.iter().all(|byte| matches!(byte, b'\t' | 32..=126));
        let has_whole = || (17..tail.len()).any(|end| checksum_fits(self.at.checksum, &tail[..end]));
        plain && !has_whole() && (begins(format!("{}\t", self.at.records + 1).as_bytes()) || begins(b"rules\t"))
    }

    fn kind(&self, text: &[u8]) -> Option<Kind> {
        if let Some(rules) = text.strip_prefix(b"rules\t") {
            return std::str::from_utf8(rules).ok()?.parse().ok().map(Kind::Rules);
        }
        let number = format!("{}\t", self.at.records + 1);
        let mark = text.windows(3).position(|bytes| bytes == b"\t>\t")?;
        (text.starts_with(number.as_bytes()) && number.len() <= mark).then_some(Kind::Record { request: number.len(), mark, end: text.len() })
    }

    fn damage(&self, what: &str) -> String {
        let (line, byte, record) = (self.lines + 1, self.at.bytes + 1, self.at.records + 1);
        format!("the journal is damaged in line {line}, from byte {byte} on, where record {record} should be: {what}; nothing was changed")
    }
}

/// Whether a line without its byte 10 ends in the checksum that goes on from the one before.
fn checksum_fits(before: u64, line: &[u8]) -> bool {
    let Some(end) = line.len().checked_sub(17) else { return false };
    line[end] == b'\t' && line[end + 1..] == *format!("{:016x}", chained(before, &line[..end])).as_bytes()
}

/// Appends records. They are on disk once `sync` has answered.
pub struct Writer {
    file: File,
    /// Behind the newest line on disk, and behind the newest that was added.
    on_disk: Position,
    added: Position,
    batch: Vec<u8>,
}

impl Writer {
    /// The file is opened for appending, and ends at this position.
    pub fn new(file: File, at: Position) -> Writer {
        Writer { file, on_disk: at, added: at, batch: Vec::new() }
    }

    pub fn on_disk(&self) -> Position {
        self.on_disk
    }

    /// A request line and its answer, each with its byte 10.
    pub fn add(&mut self, request: &[u8], answer: &[u8], lifts: Option<u64>) {
        if self.added.rules != RULES {
            self.added.rules = RULES;
            let start = self.batch.len();
            self.batch.extend_from_slice(format!("rules\t{RULES}").as_bytes());
            self.end_line(start);
        }
        self.added.records += 1;
        let start = self.batch.len();
        self.batch.extend_from_slice(format!("{}\t", self.added.records).as_bytes());
        self.batch.extend_from_slice(request.strip_suffix(b"\n").unwrap_or(request));
        self.batch.extend_from_slice(b"\t>\t");
        self.batch.extend_from_slice(answer.strip_suffix(b"\n").unwrap_or(answer));
        if let Some(lifts) = lifts {
            self.batch.extend_from_slice(format!("\t{lifts}").as_bytes());
        }
        self.end_line(start);
    }

    fn end_line(&mut self, start: usize) {
        self.added.checksum = chained(self.added.checksum, &self.batch[start..]);
        self.batch.extend_from_slice(format!("\t{:016x}\n", self.added.checksum).as_bytes());
        self.added.bytes = self.on_disk.bytes + self.batch.len() as u64;
    }

    /// Puts all that was added on disk. Where that fails, the journal is cut back to what was there before, if it can be.
    pub fn sync(&mut self) -> Result<()> {
        if self.batch.is_empty() {
            return Ok(());
        }
        if let Err(error) = self.file.write_all(&self.batch).and_then(|()| self.file.sync_data()) {
            let cut = self.file.set_len(self.on_disk.bytes).and_then(|()| self.file.sync_data());
            let (from, to) = (self.on_disk.records + 1, self.added.records);
            let left = if cut.is_ok() { "are not in the journal" } else { "may be in the journal" };
            return Err(format!("the journal cannot be written: {error}; records {from} to {to} {left}, and their requests were not answered"));
        }
        self.batch.clear();
        self.on_disk = self.added;
        Ok(())
    }
}
