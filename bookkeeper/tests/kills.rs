//! The program killed at random moments under load, and started again: nothing that was answered is lost, nothing is half there, the book is the one
//! that the second engine has after the records, and verify passes. 50 kills; BOOKKEEPER_KILLS says how many instead.

mod common;

use bookkeeper::kept;
use common::lines::{split, Lines};
use common::model::Model;
use common::{command, ended, new_book, run_book, spawn, with_dir, Temp};
use second::lists::random::Random;
use std::ffi::OsStr;
use std::fs::{self, File};
use std::io::{Read, Write};
use std::path::Path;
use std::process::{ChildStdin, ChildStdout, Stdio};
use std::sync::atomic::{AtomicUsize, Ordering};
use std::time::{Duration, Instant};

const SIZES: [usize; 5] = [3, 4, 9, 300, 6_000];
/// Kills of one book, before its slots are full.
const ROUNDS: usize = 13;

/// When the end comes.
enum When {
    Answers(usize),
    Time(Duration),
    /// As soon as the journal has grown, or an image is being written: in the midst of it.
    Growth,
    Image,
}

/// How the lines go in, and when the end comes.
struct Plan {
    /// Lines that are written at once; each such part waits until the one before is answered, or not. None: all of them from a file.
    at_once: Option<usize>,
    waits: bool,
    when: When,
    image_every: usize,
}

impl Plan {
    fn random(random: &mut Random) -> Plan {
        let ways = [(Some(1), true), (Some(1), false), (Some(7), true), (Some(40), false), (Some(300), true), (Some(3_000), false), (None, false)];
        let (at_once, waits) = *random.pick(&ways);
        let when = match random.below(8) {
            0..=2 => When::Answers(random.below(if at_once == Some(1) { 150 } else { 2_500 })),
            3..=4 => When::Time(Duration::from_micros(random.below(70_000) as u64)),
            5..=6 => When::Growth,
            _ => When::Image,
        };
        Plan { at_once, waits, when, image_every: *random.pick(&[1, 3, 20, 100_000]) }
    }

    fn lines(&self) -> usize {
        self.at_once.map_or(6_000, |at_once| if at_once == 1 { 200 } else { 2_500 })
    }
}

/// Feeds the program, kills it as planned, and gives all that came out.
fn kill(dir: &Path, plan: &Plan, input: &[u8]) -> Vec<u8> {
    let every = plan.image_every.to_string();
    let arguments = [OsStr::new("run"), OsStr::new("--image-every"), OsStr::new(&every), dir.as_os_str()];
    let file = dir.with_extension("requests");
    fs::write(&file, input).expect("a file");
    let from = if plan.at_once.is_some() { Stdio::piped() } else { Stdio::from(File::open(file).expect("a file")) };
    let length = || fs::metadata(dir.join("journal")).map_or(0, |found| found.len());
    let before = length();
    let mut child = spawn(command(&arguments).stdin(from).stdout(Stdio::piped()).stderr(Stdio::null()));
    let start = Instant::now();
    let (stdin, stdout) = (child.stdin.take(), child.stdout.take().expect("its output"));
    let come = AtomicUsize::new(0);
    let due = || match plan.when {
        When::Answers(count) => come.load(Ordering::Relaxed) >= count,
        When::Time(time) => start.elapsed() >= time,
        When::Growth => length() != before,
        When::Image => dir.join("image.new").exists(),
    };
    std::thread::scope(|scope| {
        stdin.map(|stdin| scope.spawn(|| feed(stdin, plan, input, &come)));
        let out = scope.spawn(|| collect(stdout, &come));
        while !due() && start.elapsed() < Duration::from_millis(300) && child.try_wait().is_ok_and(|ended| ended.is_none()) {
            std::hint::spin_loop();
        }
        child.kill().expect("it is there");
        ended(&mut child);
        let out = out.join().expect("its answers");
        come.store(usize::MAX, Ordering::Relaxed);
        out
    })
}

/// Writes the lines, up to the end of the process, and keeps its input open.
fn feed(mut stdin: ChildStdin, plan: &Plan, input: &[u8], come: &AtomicUsize) {
    let lines: Vec<&[u8]> = split(input).collect();
    let mut written = 0;
    for part in lines.chunks(plan.at_once.unwrap_or(1)) {
        while plan.waits && come.load(Ordering::Relaxed) < written {
            std::thread::yield_now();
        }
        if stdin.write_all(&part.concat()).is_err() {
            return;
        }
        written += part.len();
    }
    while come.load(Ordering::Relaxed) != usize::MAX {
        std::thread::sleep(Duration::from_micros(100));
    }
}

/// Reads answers as they come, and counts them.
fn collect(mut stdout: ChildStdout, come: &AtomicUsize) -> Vec<u8> {
    let (mut all, mut block) = (Vec::new(), vec![0; 1 << 16]);
    loop {
        match stdout.read(&mut block) {
            Ok(0) => return all,
            Ok(length) => {
                all.extend_from_slice(&block[..length]);
                come.fetch_add(block[..length].iter().filter(|&&byte| byte == b'\n').count(), Ordering::Relaxed);
            }
            Err(error) => panic!("the answers cannot be read: {error}"),
        }
    }
}

/// The model after what is in the journal, which has to be the first lines' records, those of the answered lines among them.
fn survived(model: Model, input: &[u8], out: &[u8], journal: &[u8]) -> Model {
    let whole = journal.iter().rposition(|&byte| byte == b'\n').map_or(0, |end| end + 1);
    let (mut now, mut answered) = (model.clone(), 0);
    for line in split(input) {
        if answered >= out.len() && now.journal.len() >= whole {
            break;
        }
        let answer = now.answer(line);
        let came = &out[answered.min(out.len())..out.len().min(answered + answer.len())];
        assert!(answer.starts_with(came), "an answer that the second engine does not give");
        assert!(came.is_empty() || now.journal.len() <= whole, "an answered request is not in the journal");
        answered += answer.len();
    }
    assert!(answered >= out.len(), "more answers than lines");
    assert!(now.journal.starts_with(&journal[..whole]), "the journal is not that of the lines in their order");
    let mut kept = model;
    split(input).take_while(|line| kept.journal.len() < whole && !kept.answer(line).is_empty()).for_each(drop);
    kept
}

fn round(dir: &Path, model: Model, lines: &mut Lines, random: &mut Random) -> Model {
    let plan = Plan::random(random);
    let input = lines.text(plan.lines());
    let out = kill(dir, &plan, &input);
    let half_an_image = dir.join("image.new").exists();
    let journal = fs::read(dir.join("journal")).expect("a journal");
    let model = survived(model, &input, &out, &journal);
    let torn = journal.len() - model.journal.len();
    println!("{} bytes answered, {} records, {torn} bytes torn{}", out.len(), model.records(), if half_an_image { ", half an image" } else { "" });
    let found = kept::load(dir).expect("a book to be shown");
    assert_eq!(model.difference(&found.book), None);
    let again = run_book(dir, b"");
    assert_eq!((again.status, again.out), (Some(0), Vec::new()), "{}", again.err);
    assert!(again.err.is_empty() || again.err.contains("a torn last record"), "{}", again.err);
    assert!(fs::read(dir.join("journal")).expect("a journal") == model.journal, "the journal is not the whole records");
    let found = kept::load(dir).expect("a book");
    assert_eq!(model.difference(&found.book), None);
    let verified = String::from_utf8(with_dir("verify", dir).well()).expect("text");
    assert!(verified.starts_with(&format!("{} records; ", model.records())), "{verified}");
    model
}

/// So many kills, on one book after the other.
fn kills(count: usize, seed: u64, place: fn() -> Temp) {
    let random = &mut Random::new(seed);
    let mut left = count;
    while left > 0 {
        let temp = place();
        let dir = temp.book();
        new_book(&dir, SIZES);
        let mut lines = Lines::new(random.number(), SIZES);
        let mut model = Model::of(&dir);
        for _ in 0..left.min(ROUNDS) {
            model = round(&dir, model, &mut lines, random);
        }
        left -= left.min(ROUNDS);
    }
    println!("{count} kills, nothing lost");
}

fn asked() -> usize {
    std::env::var("BOOKKEEPER_KILLS").map_or(50, |count| count.parse().expect("BOOKKEEPER_KILLS is a number"))
}

#[test]
fn kills_on_disk() {
    kills(asked() / 2, 22, Temp::on_disk);
}

#[test]
fn kills_in_memory() {
    kills(asked() - asked() / 2, 23, Temp::new);
}
