//! One flipped bit in each part of a book's files, and files that do not belong together: the start stops with an error that says where, and changes
//! nothing; a damaged newest image is passed over. Put back, everything is there.

mod common;

use bookkeeper::book::NOTE_BYTES;
use bookkeeper::journal::Position;
use bookkeeper::{image, kept};
use common::lines::Lines;
use common::model::{chained, requests, texts, Model};
use common::{copy, files, new_book, open, put, run_book, with_dir, Temp};
use second::lists::random::Random;
use std::fs;
use std::ops::Range;
use std::path::{Path, PathBuf};

const SIZES: [usize; 5] = [2, 2, 6, 5, 40];

/// A book that ended well after some lines, and the model of it.
struct Whole {
    _temp: Temp,
    dir: PathBuf,
    model: Model,
    opening: u64,
}

fn whole(seed: u64, lines: usize) -> Whole {
    let temp = Temp::new();
    let dir = temp.book();
    new_book(&dir, SIZES);
    let mut model = Model::of(&dir);
    let text = Lines::new(seed, SIZES).text(lines);
    assert_eq!(run_book(&dir, &text).well(), model.answers(&text));
    let opening = kept::opening(&dir).expect("an opening image").checksum;
    Whole { _temp: temp, dir, model, opening }
}

impl Whole {
    fn path(&self, name: &str) -> PathBuf {
        self.dir.join(name)
    }

    fn read(&self, name: &str) -> Vec<u8> {
        fs::read(self.path(name)).expect("a file")
    }

    fn remove(&self, name: &str) {
        fs::remove_file(self.path(name)).expect("a file");
    }

    /// The start stops, for a reader and a writer, and changes nothing; what it says.
    fn refused(&self) -> String {
        let before = files(&self.dir);
        let reading = kept::load(&self.dir).err().expect("a reader's start stops");
        let (_guard, opened) = open(&self.dir);
        let writing = opened.err().expect("a writer's start stops");
        assert!(files(&self.dir) == before, "something was changed: {writing}");
        assert_eq!(reading, writing);
        writing
    }

    /// The start gives the whole book.
    fn accepted(&self) {
        let (_guard, opened) = open(&self.dir);
        let (kept, _) = opened.expect("a start");
        assert_eq!((kept.records as usize, self.model.difference(&kept.book)), (self.model.records(), None));
        assert!(self.read("journal") == self.model.journal);
    }

    /// Lines of the journal changed, and every checksum made right again.
    fn journal_of(&self, texts: &[Vec<u8>]) -> Vec<u8> {
        chained(self.opening, texts.iter().map(Vec::as_slice))
    }
}

/// The line of a journal, from 1, in which a byte lies.
fn line_of(journal: &[u8], at: usize) -> usize {
    1 + journal[..at].iter().filter(|&&byte| byte == b'\n').count()
}

/// Flips these bits of each byte of the journal from a place on; something may stand behind it.
fn flip_journal(whole: &Whole, from: usize, behind: &[u8], bits: impl Fn(usize) -> Range<usize>) -> usize {
    let mut flips = 0;
    let journal = &whole.model.journal;
    let mut bytes = [&journal[..], behind].concat();
    for at in from..journal.len() {
        for bit in bits(at) {
            bytes[at] ^= 1 << bit;
            fs::write(whole.path("journal"), &bytes).expect("a journal");
            let said = whole.refused();
            let place = format!("the journal is damaged in line {}, ", line_of(journal, at));
            assert!(said.contains(&place), "byte {at}, bit {bit}: {said}");
            bytes[at] ^= 1 << bit;
            flips += 1;
        }
    }
    fs::write(whole.path("journal"), &bytes).expect("a journal");
    whole.accepted();
    flips
}

#[test]
fn each_bit_of_a_short_journal() {
    let whole = whole(3, 60);
    let with_image = flip_journal(&whole, 0, b"", |at| at % 8..at % 8 + 1);
    whole.remove("image");
    let without = flip_journal(&whole, 0, b"", |_| 0..8);
    println!("{with_image} flips beside an image, {without} without, of {} records", whole.model.records());
}

#[test]
fn each_byte_of_a_journal() {
    let whole = whole(4, 260);
    whole.remove("image");
    let flips = flip_journal(&whole, 0, b"", |at| 7 * at % 8..7 * at % 8 + 1);
    println!("{flips} flips of {} records", whole.model.records());
}

/// An answered record is never taken for a torn one, whatever stands behind it.
#[test]
fn the_last_record_before_a_torn_piece() {
    let whole = whole(5, 40);
    whole.remove("image");
    let (journal, ends) = (&whole.model.journal, &whole.model.ends);
    let last = ends[ends.len() - 2];
    let mut next = whole.model.clone();
    let mut lines = Lines::new(6, SIZES);
    while next.records() == whole.model.records() {
        next.answer(&lines.line());
    }
    let behind = &next.journal[journal.len()..];
    let mut flips = flip_journal(&whole, last, b"", |_| 0..8);
    for length in [1, 2, 3, 16, 17, 18, 19, behind.len() - 2, behind.len() - 1] {
        flips += flip_journal(&whole, last, &behind[..length], |_| 0..8);
    }
    println!("{flips} flips of the last record");
}

/// A write that was cut short leaves the beginning of a record. Anything else at the end is damage, and may have been answered: a lost block.
#[test]
fn the_end_of_the_journal_lost() {
    let whole = whole(5, 120);
    whole.remove("image");
    let good = &whole.model.journal;
    for length in [1, 2, 10, 17, 18, 30, 100, 512, 1_000, good.len()] {
        for byte in [0, 255] {
            let lost = [&good[..good.len() - length], &vec![byte; length][..]].concat();
            put(&whole.path("journal"), &lost);
            let said = whole.refused();
            assert!(said.contains("the journal is damaged in line "), "{length} bytes {byte}: {said}");
        }
    }
    for behind in [&[0; 1][..], &[0; 5_000], &[b'7'; 5_000], b"\t"] {
        put(&whole.path("journal"), &[good, behind].concat());
        whole.refused();
    }
    put(&whole.path("journal"), good);
    whole.accepted();
}

/// The parts of an image in their order, each with its place.
fn parts(image: &[u8]) -> Vec<(&'static str, Range<usize>)> {
    let [w, c, i, o, h] = SIZES;
    let farms = 10 * w * c;
    let numbers = 6 + 2 * w + 30 * w + 6 * farms + i + 4 * w * i + 10 * w * o * 81 + 7 * h;
    let head = image.windows(2).position(|bytes| bytes == b"\n\n").expect("a head") + 2;
    let lengths = [head, 8 * numbers, 32 * farms, 8 * farms, NOTE_BYTES * farms, 16 * i, 8 * 49, 8];
    let names = ["head", "numbers", "names", "last orders", "notes", "top-up", "waiting list", "checksum"];
    let mut end = 0;
    let places = lengths.map(|length| {
        end += length;
        end - length..end
    });
    assert_eq!(end, image.len());
    names.into_iter().zip(places).collect()
}

/// Bytes of a part to be flipped: all of a short one, else the ends and some between.
fn places(part: &Range<usize>) -> Vec<usize> {
    if part.len() <= 400 {
        return part.clone().collect();
    }
    let mut random = Random::new(part.start as u64);
    let between = (0..40).map(|_| part.start + random.below(part.len()));
    [part.start, part.end - 1].into_iter().chain(between).collect()
}

#[test]
fn each_part_of_the_opening_image() {
    let whole = whole(7, 60);
    let good = whole.read("opening.image");
    let mut flips = 0;
    for (name, part) in parts(&good) {
        for at in places(&part) {
            let bits = if name == "head" { 0..8 } else { at % 8..at % 8 + 1 };
            for bit in bits {
                let mut bad = good.clone();
                bad[at] ^= 1 << bit;
                put(&whole.path("opening.image"), &bad);
                let said = whole.refused();
                assert!(said.contains("opening.image: it "), "{name}, byte {at}, bit {bit}: {said}");
                flips += 1;
            }
        }
    }
    for bad in [&good[..0], &good[..50], &good[..good.len() / 2], &good[..good.len() - 1], &[&good[..], b"\n"].concat()] {
        put(&whole.path("opening.image"), bad);
        assert!(whole.refused().contains("opening.image: it "));
    }
    put(&whole.path("opening.image"), &good);
    whole.accepted();
    println!("{flips} flips in eight parts of the opening image");
}

#[test]
fn each_part_of_the_newest_image() {
    let whole = whole(8, 60);
    let good = whole.read("image");
    let mut flips = 0;
    for (name, part) in parts(&good) {
        for at in places(&part) {
            let mut bad = good.clone();
            bad[at] ^= 1 << (at % 8);
            put(&whole.path("image"), &bad);
            whole.accepted();
            assert!(whole.read("image") == bad, "{name}, byte {at}: the start has changed the image");
            flips += 1;
        }
        passed_over(&whole, name);
        assert!(whole.read("image") == good, "{name}: a run that ends well writes the same image");
    }
    for bad in [&good[..0], &good[..50], &good[..good.len() / 2], &good[..good.len() - 1], &[&good[..], b"\n"].concat()] {
        put(&whole.path("image"), bad);
        whole.accepted();
    }
    println!("{flips} flips in eight parts of the newest image");
}

/// The program warns, and shows, verifies and runs the same book; the run leaves a whole image.
fn passed_over(whole: &Whole, name: &str) {
    let shown = with_dir("verify", &whole.dir);
    assert!(shown.err.contains("image: it ") && shown.err.contains("it is passed over"), "{name}: {}", shown.err);
    assert_eq!(shown.status, Some(0), "{name}: {}", shown.err);
    let run = run_book(&whole.dir, b"");
    assert_eq!((run.status, run.err), (Some(0), shown.err));
    assert_eq!(run_book(&whole.dir, b"").well(), b"");
    whole.accepted();
}

#[test]
fn files_of_another_book() {
    let (one, other) = (whole(9, 60), whole(10, 60));
    assert_eq!(one.opening, other.opening, "the same masters make the same opening image");
    let temp = Temp::new();
    let dir = temp.book();
    let text = common::masters(SIZES).replace("depot\t1\t700\n", "depot\t1\t701\n");
    common::run(&["new".as_ref(), dir.as_os_str()], text.as_bytes()).well();
    run_book(&dir, &Lines::new(9, SIZES).text(60)).well();
    let name = |name: &str| fs::read(dir.join(name)).expect("a file");

    let good = files(&one.dir);
    let back = |one: &Whole| {
        good.iter().for_each(|(name, bytes)| put(&one.path(name), bytes));
        one.accepted();
    };
    put(&one.path("journal"), &name("journal"));
    assert!(one.refused().contains("damaged in line 1, from byte 1 on, where record 1 should be"));
    back(&one);
    put(&one.path("journal"), &other.read("journal"));
    assert!(one.refused().contains("it has lost some, or is not the image's"), "the image's records are not the journal's");
    back(&one);
    put(&one.path("image"), &name("image"));
    assert!(one.refused().contains("image is of another book than opening.image"));
    back(&one);
    put(&one.path("opening.image"), &name("opening.image"));
    assert!(one.refused().contains("image is of another book than opening.image"));
    one.remove("image");
    assert!(one.refused().contains("damaged in line 1, from byte 1 on, where record 1 should be"));
    back(&one);
    put(&one.path("opening.image"), &one.read("image"));
    one.refused();
    one.remove("image");
    one.refused();
    back(&one);
}

#[test]
fn files_that_are_missing() {
    let whole = whole(11, 60);
    let good = files(&whole.dir);
    for (name, says) in [("journal", "is no whole book: it has no journal"), ("opening.image", "opening.image: No such file")] {
        whole.remove(name);
        assert!(whole.refused().contains(says), "{}", whole.refused());
        let run = run_book(&whole.dir, b"L\t1\t1\t15\n");
        assert!(run.out.is_empty() && run.said(1).contains(says));
        assert!(!whole.path(name).exists());
        put(&whole.path(name), &good[name]);
        whole.accepted();
    }
    put(&whole.path("journal"), b"");
    assert!(whole.refused().contains(&format!("the image has {} records, the journal 0: it has lost some", whole.model.records())));
}

#[test]
fn records_left_out_exchanged_and_twice() {
    let whole = whole(12, 120);
    let ends = &whole.model.ends;
    let record = |number: usize| &whole.model.journal[ends[number - 1]..ends[number]];
    let put_journal = |parts: &[&[u8]]| put(&whole.path("journal"), &parts.concat());
    let (all, end) = (&whole.model.journal[..], whole.model.records());
    for with_image in [true, false] {
        if !with_image {
            whole.remove("image");
        }
        for number in 2..end {
            // The line `rules` stands before record 1.
            let says = format!("damaged in line {}, from byte {} on, where record {number} should be", number + 1, ends[number - 1] + 1);
            put_journal(&[&all[..ends[number - 1]], &all[ends[number]..]]);
            assert!(whole.refused().contains(&says), "left out");
            put_journal(&[&all[..ends[number - 1]], record(number + 1), record(number), &all[ends[number + 1]..]]);
            assert!(whole.refused().contains(&says), "exchanged");
            put_journal(&[&all[..ends[number - 1]], record(number - 1), &all[ends[number - 1]..]]);
            assert!(whole.refused().contains(&says), "twice");
        }
        put_journal(&[all]);
        whole.accepted();
    }
}

/// A record that was changed, with every checksum from it on made right again: the engine does not answer so.
#[test]
fn records_that_were_changed_with_care() {
    let whole = whole(13, 160);
    let good = texts(&whole.model.journal);
    let mut letters = std::collections::BTreeSet::new();
    for number in 1..=whole.model.records() {
        let mut bad = good.clone();
        let text = &mut bad[number];
        let digit = text.iter().rposition(u8::is_ascii_digit).expect("a number");
        text[digit] = if text[digit] == b'9' { b'8' } else { text[digit] + 1 };
        letters.insert(good[number][good[number].iter().position(|&byte| byte == b'\t').expect("a tab") + 1]);
        let forged = whole.journal_of(&bad);
        put(&whole.path("journal"), &forged);
        assert!(whole.refused().contains("or is not the image's"), "beside an image: {}", whole.refused());
        let image = whole.read("image");
        whole.remove("image");
        let said = whole.refused();
        assert!(said.contains(&format!("record {number}, carried out again, is answered '")), "{said}");
        put(&whole.path("image"), &image);
    }
    assert_eq!(letters.iter().collect::<Vec<_>>(), [b'D', b'N', b'P', b'Q', b'R'].iter().collect::<Vec<_>>());
    let mut bad = good.clone();
    bad[2] = [&b"7"[..], &bad[2][1..]].concat();
    put(&whole.path("journal"), &whole.journal_of(&bad));
    assert!(whole.refused().contains("damaged in line 3, "), "a record with another number");
    put(&whole.path("journal"), &whole.model.journal);
    whole.accepted();
}

/// The end of a journal, as an image names it.
fn end_of(journal: &[u8], records: u64, rules: u64) -> Position {
    let checksum = std::str::from_utf8(&journal[journal.len() - 17..journal.len() - 1]).expect("a checksum");
    Position { records, bytes: journal.len() as u64, rules, checksum: u64::from_str_radix(checksum, 16).expect("a checksum") }
}

#[test]
fn records_under_other_rules() {
    for rules in ["0", "2"] {
        let whole = whole(14, 60);
        let mut lines = texts(&whole.model.journal);
        lines[0] = format!("rules\t{rules}").into_bytes();
        let (journal, records) = (whole.journal_of(&lines), whole.model.records());
        put(&whole.path("journal"), &journal);
        whole.remove("image");
        let said = whole.refused();
        assert!(said.contains(&format!("record 1 was written under rules {rules}, this program has rules 1")), "{said}");

        let book = kept_book(&whole);
        let at = end_of(&journal, records as u64, rules.parse().expect("a number"));
        image::write(&whole.path("image"), &book, at, whole.opening).expect("an image");
        goes_on(&whole, &mut lines);
    }
}

/// The book by the second engine's account, as the program had it.
fn kept_book(whole: &Whole) -> bookkeeper::book::Book {
    let temp = Temp::new();
    let dir = temp.book();
    new_book(&dir, SIZES);
    run_book(&dir, &requests(&whole.model.journal).concat()).well();
    let book = kept::load(&dir).expect("a book").book;
    assert_eq!(whole.model.difference(&book), None);
    book
}

/// From an image behind records of other rules: the next record stands behind a line with the rules of this program.
fn goes_on(whole: &Whole, lines: &mut Vec<Vec<u8>>) {
    let mut model = whole.model.clone();
    let image = whole.read("image");
    lines.push(b"rules\t1".to_vec());
    for request in [&b"Q\t1\t1\t5000\n"[..], b"P\t1\t1\t2\t2\t#1\t5001\t100\n"] {
        assert_eq!(run_book(&whole.dir, request).well(), model.answer(request));
        lines.push(texts(&model.journal).pop().expect("a record"));
        assert!(whole.read("journal") == whole.journal_of(lines), "not under the rules of this program");
        // As a kill leaves it: the older image, and records of this program behind it.
        put(&whole.path("image"), &image);
        assert_eq!(model.difference(&kept::load(&whole.dir).expect("a book").book), None);
    }
    let head = image.windows(7).position(|bytes| bytes == b"rules 1").expect("a head");
    let mut newer = [&image[..head], b"rules 2", &image[head + 7..image.len() - 8]].concat();
    newer.extend_from_slice(&bookkeeper::checksum::extend(0, &newer).to_le_bytes());
    put(&whole.path("image"), &newer);
    assert!(whole.refused().contains("record 1 was written under rules"), "an image of a newer program is passed over");
}

/// A copy of the folder is the same book.
#[test]
fn a_copy_of_the_folder() {
    let whole = whole(15, 60);
    let to: &Path = &whole.dir.with_extension("copy");
    copy(&whole.dir, to);
    assert_eq!(whole.model.difference(&kept::load(to).expect("a book").book), None);
    assert_eq!(run_book(to, b"").well(), b"");
}
