//! Every prefix of a journal, byte by byte: the start gives the book after the whole records, cuts the rest off and goes on from there, or says that
//! records are missing and changes nothing. What the book has to be after each record comes from the second engine.

mod common;

use bookkeeper::kept;
use bookkeeper::run::Desk;
use common::lines::Lines;
use common::model::{requests, Model};
use common::{files, new_book, open, put, run_book, Temp};
use std::fs::{self, File};
use std::path::PathBuf;

const SIZES: [usize; 5] = [2, 3, 6, 12, 60];

struct Whole {
    temp: Temp,
    dir: PathBuf,
    journal: Vec<u8>,
    /// After each record, from none on.
    models: Vec<Model>,
    /// The image on the way, and how many records it has.
    image: Vec<u8>,
    imaged: usize,
}

/// A book with some hundred records, made by the program, without its newest image.
fn whole() -> Whole {
    let temp = Temp::new();
    let dir = temp.book();
    new_book(&dir, SIZES);
    let (mut model, mut lines) = (Model::of(&dir), Lines::new(1, SIZES));
    let mut part = || {
        let text = lines.text(150);
        assert_eq!(run_book(&dir, &text).well(), model.answers(&text));
        (fs::read(dir.join("image")).expect("an image"), model.records())
    };
    let ((image, imaged), (_, records)) = (part(), part());
    assert!(imaged > 50 && records > imaged + 50, "{imaged} and {records} records");
    let journal = fs::read(dir.join("journal")).expect("a journal");
    assert!(journal == model.journal);
    let mut models = vec![Model::of(&dir)];
    for request in requests(&journal) {
        let mut next = models[models.len() - 1].clone();
        next.answer(&request);
        models.push(next);
    }
    fs::remove_file(dir.join("image")).expect("an image");
    Whole { temp, dir, journal, models, image, imaged }
}

impl Whole {
    /// Starts on a prefix, which has to be accepted.
    fn accepted(&self, length: usize) {
        let prefix = &self.journal[..length];
        let lines = prefix.iter().rposition(|&byte| byte == b'\n').map_or(0, |end| end + 1);
        let records = self.models[self.models.len() - 1].ends.iter().filter(|&&end| end <= lines).count() - 1;
        put(&self.dir.join("journal"), prefix);
        let found = kept::load(&self.dir).expect("a start that changes nothing");
        assert_eq!((found.records, self.models[records].difference(&found.book)), (records as u64, None), "prefix of {length} bytes");
        assert!(fs::read(self.dir.join("journal")).expect("a journal") == prefix, "prefix of {length} bytes: changed by a reader");
        let (_guard, opened) = open(&self.dir);
        let (kept, writer) = opened.expect("a start");
        assert_eq!((kept.records, self.models[records].difference(&kept.book)), (records as u64, None), "prefix of {length} bytes");
        assert!(fs::read(self.dir.join("journal")).expect("a journal") == self.journal[..lines], "prefix of {length} bytes: not cut");
        let Some(next) = self.models.get(records + 1) else { return };
        let mut desk = Desk::new(&self.dir, kept, writer, 1_000_000);
        let (input, output) = (self.temp.path().join(format!("request-{records}")), self.temp.path().join("answer"));
        desk.run(&mut File::open(input).expect("a request"), &mut File::create(output).expect("an answer")).expect("a run");
        assert!(fs::read(self.dir.join("journal")).expect("a journal") == next.journal, "prefix of {length} bytes: the run goes on otherwise");
        assert_eq!(next.difference(&desk.kept.book), None, "prefix of {length} bytes");
    }

    /// A request in a file, for each number of records before it.
    fn write_requests(&self) {
        for (records, request) in requests(&self.journal).iter().enumerate() {
            fs::write(self.temp.path().join(format!("request-{records}")), request).expect("a file");
        }
    }
}

#[test]
fn prefixes_over_the_opening_image() {
    let whole = whole();
    whole.write_requests();
    for length in 0..=whole.journal.len() {
        whole.accepted(length);
        let _ = fs::remove_file(whole.dir.join("image"));
    }
    println!("{} prefixes of {} records", whole.journal.len() + 1, whole.models.len() - 1);
}

#[test]
fn prefixes_over_an_image_on_the_way() {
    let whole = whole();
    whole.write_requests();
    let place = whole.models[whole.imaged].journal.len();
    for length in 0..place {
        fs::write(whole.dir.join("journal"), &whole.journal[..length]).expect("a journal");
        put(&whole.dir.join("image"), &whole.image);
        let before = files(&whole.dir);
        let said = kept::load(&whole.dir).err().expect("records are missing");
        let (_guard, opened) = open(&whole.dir);
        assert_eq!(Some(&said), opened.err().as_ref());
        let records = whole.models[whole.imaged].ends.iter().filter(|&&end| end <= length).count() - 1;
        let expected = format!("the image has {} records, the journal {records}: it has lost some", whole.imaged);
        assert!(said.contains(&expected), "prefix of {length} bytes: {said}");
        assert!(files(&whole.dir) == before, "prefix of {length} bytes: something was changed");
    }
    for length in place..=whole.journal.len() {
        put(&whole.dir.join("image"), &whole.image);
        whole.accepted(length);
    }
    println!("{} prefixes, {place} of them shorter than the image's place", whole.journal.len() + 1);
}
