//! The program's answers beside the second engine's, on the same book: lines at once, one by one and cut anywhere, with restarts between; and one
//! journal carried out more than once.

mod common;

use bookkeeper::kept;
use common::lines::{split, Lines};
use common::model::{requests, Model};
use common::{command, copy, ended, files, new_book, put, run, run_book, spawn, with_dir, Temp};
use second::lists::random::Random;
use std::ffi::OsStr;
use std::fs;
use std::io::{BufRead, BufReader, Read, Write};
use std::path::Path;
use std::process::{Child, ChildStdin, ChildStdout, Stdio};
use std::time::Duration;

const SIZES: [usize; 5] = [3, 4, 9, 40, 900];

fn book(sizes: [usize; 5]) -> (Temp, std::path::PathBuf, Model) {
    let temp = Temp::new();
    let dir = temp.book();
    new_book(&dir, sizes);
    let model = Model::of(&dir);
    (temp, dir, model)
}

/// The folder holds what the model has.
fn same(dir: &Path, model: &Model) {
    let found = kept::load(dir).expect("a book");
    assert_eq!((found.records as usize, model.difference(&found.book)), (model.records(), None));
    assert!(fs::read(dir.join("journal")).expect("a journal") == model.journal);
}

/// Answers that differ, by the line.
fn compare(input: &[u8], said: &[u8], expected: &[u8]) {
    let answers = split(said).zip(split(expected));
    for ((answer, expected), line) in answers.zip(split(input)) {
        let text = String::from_utf8_lossy;
        assert_eq!(text(answer), text(expected), "to {:?}", text(line));
    }
    assert_eq!((said.len(), split(input).count()), (expected.len(), split(expected).count()));
}

#[test]
fn at_once_with_restarts() {
    let mut lines_in_all = 0;
    for seed in 0..6 {
        let (_temp, dir, mut model) = book(if seed % 2 == 0 { SIZES } else { [1, 2, 5, 4, 8] });
        let mut lines = Lines::new(100 + seed, if seed % 2 == 0 { SIZES } else { [1, 2, 5, 4, 8] });
        lines.damaged = [0, 12, 50][seed as usize % 3];
        for count in [0, 1, 900, 3_000] {
            let input = lines.text(count);
            let expected = model.answers(&input);
            compare(&input, &run_book(&dir, &input).well(), &expected);
            same(&dir, &model);
            lines_in_all += split(&input).count();
        }
        let verified = with_dir("verify", &dir).well();
        assert!(verified.ends_with(b"; 0 differences\n"), "{}", String::from_utf8_lossy(&verified));
    }
    println!("{lines_in_all} lines");
}

/// The program at work, its input and output at hand.
struct Desk {
    child: Child,
    input: Option<ChildStdin>,
    output: BufReader<ChildStdout>,
}

impl Desk {
    fn new(dir: &Path) -> Desk {
        let arguments = [OsStr::new("run"), dir.as_os_str()];
        let mut child = spawn(command(&arguments).stdin(Stdio::piped()).stdout(Stdio::piped()));
        let (input, output) = (child.stdin.take(), BufReader::new(child.stdout.take().expect("its output")));
        Desk { child, input, output }
    }

    fn write(&mut self, bytes: &[u8]) {
        self.input.as_mut().expect("its input").write_all(bytes).expect("it takes input");
    }

    fn answer(&mut self) -> Vec<u8> {
        let mut line = Vec::new();
        self.output.read_until(b'\n', &mut line).expect("an answer");
        line
    }

    /// Ends its input; what is still answered.
    fn end(mut self) -> Vec<u8> {
        self.input = None;
        let mut rest = Vec::new();
        self.output.read_to_end(&mut rest).expect("its output");
        assert_eq!(ended(&mut self.child), Some(0));
        rest
    }
}

#[test]
fn one_line_at_a_time_with_restarts() {
    let (_temp, dir, mut model) = book(SIZES);
    let mut lines = Lines::new(7, SIZES);
    let mut count = 0;
    for _ in 0..6 {
        let mut desk = Desk::new(&dir);
        let input = lines.text(150);
        for line in split(&input).filter(|line| line.ends_with(b"\n")) {
            desk.write(line);
            let expected = model.answer(line);
            assert_eq!(String::from_utf8_lossy(&desk.answer()), String::from_utf8_lossy(&expected));
            assert!(fs::read(dir.join("journal")).expect("a journal") == model.journal, "answered, and not in the journal");
            count += 1;
        }
        assert_eq!(desk.end(), b"");
        same(&dir, &model);
    }
    println!("{count} lines, each answered before the next");
}

#[test]
fn lines_cut_anywhere() {
    let (_temp, dir, mut model) = book(SIZES);
    let (mut lines, mut random) = (Lines::new(8, SIZES), Random::new(8));
    let mut desk = Desk::new(&dir);
    let mut input = lines.text(150);
    let all: &[u8] = b"R\t77\nQ\t1\t2\t78\nN\t1\t1\t1\t79\t1\t1\t1\n";
    (0..=all.len()).for_each(|_| input.extend_from_slice(all));
    // The part of known lines is cut at each of its bytes.
    let known = input.len() - all.len() * (all.len() + 1);
    let mut cuts: Vec<usize> = (0..=all.len()).map(|at| known + at * all.len() + at).collect();
    cuts.extend((0..250).map(|_| random.below(known)));
    cuts.extend([0, input.len()]);
    cuts.sort_unstable();
    for cut in cuts.windows(2) {
        desk.write(&input[cut[0]..cut[1]]);
        std::thread::sleep(Duration::from_micros(600));
    }
    let expected = model.answers(&input);
    compare(&input, &desk.end(), &expected);
    same(&dir, &model);
}

/// One line is answered at once, also behind a part of another that has not come yet.
#[test]
fn an_answer_does_not_wait() {
    let (_temp, dir, mut model) = book(SIZES);
    let mut desk = Desk::new(&dir);
    desk.write(b"Q\t1\t1\t100\nL\t1\t1");
    assert_eq!(desk.answer(), model.answer(b"Q\t1\t1\t100\n"));
    desk.write(b"\t15\nR\t2");
    assert_eq!(desk.answer(), model.answer(b"L\t1\t1\t15\n"));
    desk.write(b"00\n");
    assert_eq!(desk.answer(), model.answer(b"R\t200\n"));
    for length in [1, 1_023, 1_024, 1_025, 5_000] {
        desk.write(&vec![b'7'; length]);
        // By then it has been taken, and the whole line behind it comes alone.
        std::thread::sleep(Duration::from_millis(20));
        desk.write(b"Q\t1\t1\t250\n");
        assert_eq!(desk.answer(), b"?\t1\t0\n", "the end of a line of {length} bytes more");
    }
    desk.write(b"Q\t1\t1\t300");
    assert_eq!(desk.end(), b"?\t1\t0\n", "a line without its end has no form");
    same(&dir, &model);
}

#[test]
fn long_lines() {
    let (_temp, dir, mut model) = book(SIZES);
    let long = |length: usize| vec![b'7'; length];
    let order = [&b"N\t1\t1\t1\t"[..], &long(3_000_000), b"\t1\t1\t1\n"].concat();
    let mut input = [&b"Q\t1\t1\t100\n"[..], &order, b"Q\t1\t1\t101\n"].concat();
    for length in [540, 541, 542, 1_022, 1_023, 1_024, 1_025, 65_535, 65_536, 65_537, 1_048_575, 1_048_576, 1_048_577] {
        input.extend_from_slice(&[&long(length)[..], b"\nL\t1\t1\t15\n", b"Q\t1\t1\t", &long(length - 6), b"\n"].concat());
    }
    // A whole line at the end of one that is cut there.
    input.extend_from_slice(&[&long(1_024)[..], b"Q\t1\t1\t102\n", &long(1_100_000), b"\tQ\t1\t1\t103\nQ\t1\t1\t104\n"].concat());
    let longest = format!("N\t1\t1\t1\t6342969600{}\n", "\t9999999999\t9999999999\t9999999999".repeat(15));
    input.extend_from_slice(longest.as_bytes());
    input.extend_from_slice(&long(2_500_000));
    let expected = model.answers(&input);
    compare(&input, &run_book(&dir, &input).well(), &expected);
    let file = dir.with_extension("requests");
    fs::write(&file, &input).expect("a file");
    let expected = model.answers(&input);
    let mut from_file = command(&[OsStr::new("run"), dir.as_os_str()]);
    let from_file = from_file.stdin(fs::File::open(&file).expect("a file")).stderr(Stdio::inherit()).output().expect("a run");
    compare(&input, &from_file.stdout, &expected);
    assert!(from_file.status.success());
    same(&dir, &model);
}

/// The same opening image and the same records are the same book, wherever and however often they are carried out.
#[test]
fn one_journal_carried_out_again() {
    let (temp, dir, mut model) = book(SIZES);
    let mut lines = Lines::new(9, SIZES);
    let mut images = Vec::new();
    for _ in 0..3 {
        let input = lines.text(400);
        compare(&input, &run_book(&dir, &input).well(), &model.answers(&input));
        images.push(fs::read(dir.join("image")).expect("an image"));
    }
    let [from_opening, from_image, fed] = ["opening", "image", "fed"].map(|name| temp.path().join(name));
    [&from_opening, &from_image].iter().for_each(|to| copy(&dir, to));
    fs::remove_file(from_opening.join("image")).expect("an image");
    put(&from_image.join("image"), &images[1]);
    new_book(&fed, SIZES);
    let answers = run(&[OsStr::new("run"), OsStr::new("--image-every"), OsStr::new("7"), fed.as_os_str()], &requests(&model.journal).concat());
    assert_eq!(split(&answers.well()).count(), model.records());
    for other in [&from_opening, &from_image, &fed] {
        assert_eq!(run_book(other, b"").well(), b"");
        same(other, &model);
        assert!(files(other) == files(&dir), "the folders differ");
    }
    println!("{} records in four folders", model.records());
}
