//! A book kept on disk: an opening image, a journal of the requests that changed it, and the newest image, so that a start has little to carry out
//! again. The proved library carries out every request; what stands here keeps its slices, and decides nothing about them.

pub mod book;
pub mod carry;
pub mod checksum;
pub mod close;
pub mod date;
pub mod image;
pub mod journal;
pub mod kept;
pub mod library;
pub mod masters;
pub mod run;
pub mod show;
pub mod verify;

use std::io::Write;

pub type Result<T> = std::result::Result<T, String>;

/// The rules by which a request is carried out and answered. The number rises with each change of them, as a kept journal in tests/ shows that
/// there was one: records of other rules are never carried out again.
pub const RULES: u64 = 1;

/// Says something on standard error. Where that takes nothing, nothing can be said.
pub fn say(what: &str) {
    let mut to = std::io::stderr().lock();
    what.lines().for_each(|line| drop(writeln!(to, "bookkeeper: {line}")));
}
