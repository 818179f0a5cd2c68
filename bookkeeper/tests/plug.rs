//! The plug pulled: of the journal only what was put on disk is left, and not all that was written. plug.c stands before the C library in the program
//! and writes down what was put there. At every sync of a run the process is ended; then the book starts from what a pulled plug leaves, with every
//! answered request.

mod common;

use bookkeeper::kept;
use common::lines::{split, Lines};
use common::model::Model;
use common::{command, copy, ended, files, finish, masters, new_book, run_book, spawn, Temp};
use std::ffi::OsStr;
use std::fs::{self, File};
use std::io::{BufRead, BufReader, Write};
use std::path::{Path, PathBuf};
use std::process::{Command, Stdio};

const SIZES: [usize; 5] = [2, 2, 6, 6, 80];

/// The program with plug.c before it.
struct Plug {
    library: PathBuf,
    log: PathBuf,
}

impl Plug {
    fn new(temp: &Temp) -> Plug {
        let (source, library) = (Path::new(env!("CARGO_MANIFEST_DIR")).join("tests/common/plug.c"), temp.path().join("plug.so"));
        let made = Command::new("gcc").args(["-shared", "-fPIC", "-O1", "-o"]).args([&library, &source]).status();
        assert!(made.expect("gcc").success(), "plug.c");
        Plug { library, log: temp.path().join("log") }
    }

    /// The program, to be ended before this sync; 0 for none.
    fn command(&self, arguments: &[&OsStr], at: usize) -> Command {
        let mut command = command(arguments);
        command.env("LD_PRELOAD", &self.library).env("PLUG_LOG", &self.log).env("PLUG_AT", at.to_string());
        command
    }

    /// Asks the lines in turn, so many at once; gives the answers that came, and whether the process was ended.
    fn run(&self, dir: &Path, lines: &[&[u8]], at_once: usize, at: usize) -> (Vec<u8>, bool) {
        let mut command = self.command(&["run".as_ref(), "--image-every".as_ref(), "4".as_ref(), dir.as_os_str()], at);
        let mut child = spawn(command.stdin(Stdio::piped()).stdout(Stdio::piped()).stderr(Stdio::null()));
        let (mut input, mut output) = (child.stdin.take().expect("its input"), BufReader::new(child.stdout.take().expect("its output")));
        let mut answers = Vec::new();
        for part in lines.chunks(at_once) {
            if input.write_all(&part.concat()).is_err() {
                break;
            }
            for _ in part {
                output.read_until(b'\n', &mut answers).expect("its output");
            }
        }
        drop(input);
        (answers, ended(&mut child).is_none())
    }

    /// How many bytes of the file were last put on disk.
    fn on_disk(&self, path: &Path) -> u64 {
        let log = fs::read_to_string(&self.log).unwrap_or_default();
        let last = log.lines().filter_map(|line| line.rsplit_once('\t')).rfind(|(name, _)| Path::new(name) == path);
        last.map_or(0, |(_, length)| length.parse().expect("a length"))
    }
}

/// The book that a pulled plug leaves: it starts, with the answered requests, and is what the second engine makes of its records.
fn pulled(temp: &Temp, plug: &Plug, dir: &Path, opening: &Model, lines: &[&[u8]], answers: &[u8]) {
    let left = temp.path().join("left");
    copy(dir, &left);
    let on_disk = plug.on_disk(&dir.join("journal"));
    assert!(on_disk <= fs::metadata(dir.join("journal")).expect("a journal").len());
    File::options().write(true).open(left.join("journal")).and_then(|journal| journal.set_len(on_disk)).expect("a shorter journal");
    let found = kept::load(&left).expect("a start from what is on disk");
    let (mut model, mut answered, mut checked) = (opening.clone(), 0, false);
    for line in lines {
        checked |= model.records() as u64 == found.records && model.difference(&found.book).is_none();
        if answered < answers.len() {
            answered += model.answer(line).len();
            assert!(model.records() as u64 <= found.records, "an answered request was not on disk");
        } else {
            model.answer(line);
        }
    }
    assert!(checked || model.difference(&found.book).is_none(), "no book of the second engine's");
    assert_eq!(run_book(&left, b"").status, Some(0));
    fs::remove_dir_all(left).expect("a folder");
}

/// Ends the process at each of its syncs in turn.
fn every_sync(at_once: usize) -> usize {
    let temp = Temp::new();
    let plug = Plug::new(&temp);
    let mut lines = Lines::new(17, SIZES);
    lines.damaged = 0;
    let input = lines.text(30);
    let lines: Vec<&[u8]> = split(&input).collect();
    for at in 1.. {
        let dir = temp.path().join(format!("book-{at}"));
        new_book(&dir, SIZES);
        let opening = Model::of(&dir);
        let (answers, killed) = plug.run(&dir, &lines, at_once, at);
        assert!(opening.clone().answers(&input).starts_with(&answers));
        pulled(&temp, &plug, &dir, &opening, &lines, &answers);
        if !killed {
            return at - 1;
        }
        // A start finds what was written and perhaps never put on disk. What it then shows, or keeps in an image, has to be there.
        let (shown, killed) = plug.run(&dir, &[b"L\t1\t1\t15\n"], 1, 0);
        assert!(!killed && !shown.is_empty());
        pulled(&temp, &plug, &dir, &opening, &lines, &answers);
        let on_disk = plug.on_disk(&dir.join("journal"));
        assert_eq!(on_disk, fs::metadata(dir.join("journal")).expect("a journal").len(), "sync {at}: answered from records that are not on disk");
    }
    unreachable!("a run that never ends")
}

#[test]
fn the_plug_pulled_at_every_sync() {
    for at_once in [1, 5, 30] {
        println!("{} syncs, {at_once} lines at once", every_sync(at_once));
    }
}

/// A book that is being made is whole once its journal is there; before, it is none, and says so.
#[test]
fn the_plug_pulled_while_a_book_is_made() {
    let temp = Temp::new();
    let plug = Plug::new(&temp);
    for at in 1.. {
        let dir = temp.path().join(format!("book-{at}"));
        let made = finish(&mut plug.command(&["new".as_ref(), dir.as_os_str()], at), masters(SIZES).as_bytes());
        let run = run_book(&dir, b"Q\t1\t1\t5\n");
        if dir.join("journal").exists() {
            let image = files(&dir)["opening.image"].len() as u64;
            assert_eq!(plug.on_disk(&dir.join("opening.image.new")), image, "sync {at}: a journal before the opening image");
            assert_eq!(run.well(), b"Q\t0\t0\n");
        } else {
            assert!(run.said(1).contains("is no whole book"), "sync {at}");
        }
        if made.status == Some(0) {
            assert!(at > 3, "{} syncs", at - 1);
            return;
        }
    }
}
