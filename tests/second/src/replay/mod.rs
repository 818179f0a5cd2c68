//! The replay program: commands in, one answer for each command that answers.
//!
//! `run` reads and prints for any `Engine`, so that two engines differ in nothing but
//! the calls themselves.

pub mod command;
pub mod engine;
pub mod hex;
pub mod print;
pub mod sha256;

pub use engine::{Engine, Lent, SecondEngine};

use crate::layout::Layout;
use command::{Command, Slice};
use std::io::{self, BufRead, Write};

/// Where the commands and answers are described.
pub const HELP: &str = "HELP tests/REPLAY.md says what the commands are";

/// What a byte of a write buffer holds before the call.
const UNWRITTEN: u8 = 0xEE;

/// Carries out all commands of the input and prints the answers.
pub fn run(
    engine: &mut impl Engine,
    input: &mut impl BufRead,
    output: &mut impl Write,
) -> io::Result<()> {
    let mut replay = Replay::new(engine);
    let mut line = Vec::new();
    loop {
        line.clear();
        if input.read_until(b'\n', &mut line)? == 0 {
            return output.flush();
        }
        if line.last() == Some(&b'\n') {
            line.pop();
        }
        if let Some(mut answer) = replay.step(&line) {
            answer.push('\n');
            output.write_all(answer.as_bytes())?;
        }
    }
}

/// The slices as commands set them and calls leave them.
#[derive(Default)]
pub struct Slices {
    pub lent: Lent,
    /// Has a command set the last orders, the notes, the top-up table? They are then never made anew.
    last_set: bool,
    notes_set: bool,
    topup_set: bool,
}

impl Slices {
    pub fn set(&mut self, slice: Slice) {
        match slice {
            Slice::Nums(nums) => self.set_nums(nums),
            Slice::Names(names) => self.lent.names = names,
            Slice::Last(last) => {
                self.lent.last = last;
                self.last_set = true;
            }
            Slice::Notes(notes) => {
                self.lent.notes = notes;
                self.notes_set = true;
            }
            Slice::Topup(topup) => {
                self.lent.topup = topup;
                self.topup_set = true;
            }
            Slice::Buffer(buffer) => self.lent.buffer = buffer,
            Slice::Queue(queue) => self.lent.queue = queue,
        }
    }

    /// With a head in range, last orders that no command has set become all 0, such notes all spaces, such a table 10 and 91 for each item.
    fn set_nums(&mut self, nums: Vec<i64>) {
        if let Some(layout) = Layout::from_head(&nums) {
            if !self.last_set {
                self.lent.last = vec![0; layout.last_orders()];
            }
            if !self.notes_set {
                self.lent.notes = vec![b' '; layout.note_bytes()];
            }
            if !self.topup_set {
                self.lent.topup = layout.usual_topup();
            }
        }
        self.lent.nums = nums;
    }
}

/// An engine and the slices that stand lent to it.
pub struct Replay<'e, E: Engine> {
    engine: &'e mut E,
    pub slices: Slices,
    /// The last fingerprint, and what it was taken of: most answers change nothing.
    taken: Option<(Lent, String)>,
}

impl<'e, E: Engine> Replay<'e, E> {
    pub fn new(engine: &'e mut E) -> Replay<'e, E> {
        Replay {
            engine,
            slices: Slices::default(),
            taken: None,
        }
    }

    /// Carries out one command, its end of line cut off; the answer if it has one.
    pub fn step(&mut self, line: &[u8]) -> Option<String> {
        let lent = &mut self.slices.lent;
        let answer = match command::parse(line) {
            Command::Nothing => return None,
            Command::Lend(slice) => {
                self.slices.set(slice);
                return None;
            }
            Command::Help => return Some(HELP.to_string()),
            Command::Bad(word) => return Some(format!("BAD {word}")),
            Command::Open => print::open(self.engine.open(lent)),
            Command::Call(request) => print::call(self.engine, lent, &request),
            Command::QueueDelivery(request) => {
                print::queue_delivery(self.engine.queue_delivery(lent, &request))
            }
            Command::RunDelivery(date) => {
                print::delivery("RD", &self.engine.run_delivery(lent, date))
            }
            Command::Read(line) => print::read(self.engine.read(&line)),
            Command::Write(cap, request) => {
                let mut buffer = vec![UNWRITTEN; cap];
                let outcome = self.engine.write(&request, &mut buffer);
                print::write(outcome, &buffer)
            }
        };
        Some(format!("{answer} | {}", self.fingerprint()))
    }

    /// The fingerprint of the slices as they now stand.
    fn fingerprint(&mut self) -> String {
        let now = &self.slices.lent;
        match &self.taken {
            Some((lent, fingerprint)) if lent == now => fingerprint.clone(),
            _ => {
                let fingerprint = now.fingerprint();
                self.taken = Some((now.clone(), fingerprint.clone()));
                fingerprint
            }
        }
    }
}
