//! Request lines answered in turn. Lines that wait are carried out together; their records are put on disk by one sync, and only then do their
//! answers leave.

use crate::carry::carry_out;
use crate::journal::Writer;
use crate::kept::Kept;
use crate::{say, Result};
use std::fs::File;
use std::io::{self, ErrorKind, Read, Write};
use std::path::Path;
use std::time::Duration;

/// Bytes of input that are taken at once.
const BLOCK: usize = 1 << 20;
/// No line as long as this has a form; of a longer one no more is kept.
const TOO_LONG: usize = 1_024;

pub struct Desk<'a> {
    dir: &'a Path,
    pub kept: Kept,
    journal: Writer,
    /// An image is written after so many records; the next at this one.
    every: u64,
    next_image: u64,
    answers: Vec<u8>,
}

impl<'a> Desk<'a> {
    pub fn new(dir: &'a Path, kept: Kept, journal: Writer, every: u64) -> Desk<'a> {
        let next_image = kept.imaged.saturating_add(every);
        Desk { dir, kept, journal, every, next_image, answers: Vec::new() }
    }

    /// Answers all of the input, then writes an image where there are records behind the newest.
    pub fn run(&mut self, input: &mut File, output: &mut File) -> Result<()> {
        let (mut block, mut part) = (vec![0; BLOCK], Vec::new());
        loop {
            let length = patiently(|| input.read(&mut block)).map_err(|error| format!("standard input cannot be read: {error}"))?;
            if length == 0 {
                break;
            }
            for piece in block[..length].split_inclusive(|&byte| byte == b'\n') {
                self.take(piece, &mut part);
            }
            self.let_go(output)?;
            if self.kept.records >= self.next_image {
                self.image_on_the_way();
            }
        }
        if !part.is_empty() {
            self.carry(&part);
            self.let_go(output)?;
        }
        if self.kept.records == self.kept.imaged {
            return Ok(());
        }
        let written = self.kept.write_image(self.dir, self.journal.on_disk());
        written.map_err(|error| format!("every answer is in the journal, but {error}"))
    }

    /// A piece of input up to a line's end, or to the block's.
    fn take(&mut self, piece: &[u8], part: &mut Vec<u8>) {
        if part.is_empty() && piece.ends_with(b"\n") {
            return self.carry(piece);
        }
        part.extend_from_slice(&piece[..piece.len().min(TOO_LONG.saturating_sub(part.len()))]);
        if piece.ends_with(b"\n") {
            self.carry(&std::mem::take(part));
        }
    }

    fn carry(&mut self, line: &[u8]) {
        let start = self.answers.len();
        let carried = carry_out(&mut self.kept.book, line, &mut self.answers);
        if carried.changed {
            self.journal.add(line, &self.answers[start..], carried.lifts);
            self.kept.records += 1;
        }
    }

    /// The records on disk, then the answers out.
    fn let_go(&mut self, output: &mut File) -> Result<()> {
        self.journal.sync()?;
        let mut left = &self.answers[..];
        while !left.is_empty() {
            match patiently(|| output.write(left)) {
                Ok(0) => return Err(no_answer("it takes no more")),
                Ok(written) => left = &left[written..],
                Err(error) => return Err(no_answer(&error.to_string())),
            }
        }
        self.answers.clear();
        Ok(())
    }

    /// An image that cannot be written is no reason to stop: the journal has everything.
    fn image_on_the_way(&mut self) {
        if let Err(error) = self.kept.write_image(self.dir, self.journal.on_disk()) {
            say(&format!("{error}; the journal has everything, and the next image is tried later"));
        }
        self.next_image = self.kept.records.saturating_add(self.every);
    }
}

fn no_answer(error: &str) -> String {
    format!("answers cannot be written to standard output: {error}; their requests are carried out and in the journal")
}

/// Tries again where a signal came between, or a descriptor that does not block has nothing yet.
fn patiently<T>(mut what: impl FnMut() -> io::Result<T>) -> io::Result<T> {
    loop {
        match what() {
            Err(error) if error.kind() == ErrorKind::Interrupted => {}
            Err(error) if error.kind() == ErrorKind::WouldBlock => std::thread::sleep(Duration::from_millis(1)),
            done => return done,
        }
    }
}
