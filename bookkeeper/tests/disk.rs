//! A full disk, folders and files that may not be written or read, a second process, and standard input and output that fail: a clear error, nothing
//! answered that is not on disk, nothing lost.

mod common;

use bookkeeper::kept;
use common::lines::{split, Lines};
use common::model::Model;
use common::{alone, command, copy, ended, files, finish, masters, new_book, run, run_book, spawn, with_dir, Ended, Temp, PROGRAM};
use std::ffi::OsStr;
use std::fs::{self, File, Permissions};
use std::io::{BufRead, BufReader, Read, Write};
use std::os::unix::ffi::OsStrExt;
use std::os::unix::fs::{chown, PermissionsExt};
use std::os::unix::process::CommandExt;
use std::path::{Path, PathBuf};
use std::process::{Child, ChildStdin, ChildStdout, Command, Stdio};
use std::time::Duration;

/// An image of it has some 190 KiB.
const SIZES: [usize; 5] = [2, 2, 6, 12, 200];

fn book() -> (Temp, PathBuf, Model) {
    let temp = Temp::on_disk();
    let dir = temp.book();
    new_book(&dir, SIZES);
    let model = Model::of(&dir);
    (temp, dir, model)
}

/// The program under a shell that first does something.
fn under(shell: &str, arguments: &[&OsStr]) -> Command {
    let mut command = Command::new("bash");
    command.args(["-c", &format!("{shell}; exec \"$0\" \"$@\"")]).arg(PROGRAM).args(arguments);
    command
}

/// No file gets longer than so many KiB.
fn limited(kib: usize, arguments: &[&OsStr]) -> Command {
    under(&format!("ulimit -f {kib}"), arguments)
}

/// A command's words with the folder behind the first.
fn with_words<'a>(words: &'a [&'a str], dir: &'a Path) -> Vec<&'a OsStr> {
    [OsStr::new(words[0]), dir.as_os_str()].into_iter().chain(words[1..].iter().map(OsStr::new)).collect()
}

fn run_arguments<'a>(every: &'a str, dir: &'a Path) -> [&'a OsStr; 4] {
    [OsStr::new("run"), OsStr::new("--image-every"), OsStr::new(every), dir.as_os_str()]
}

/// The program at work, its input and output at hand.
struct Desk {
    child: Child,
    input: Option<ChildStdin>,
    output: Option<BufReader<ChildStdout>>,
}

impl Desk {
    fn new(command: &mut Command) -> Desk {
        let mut child = spawn(command.stdin(Stdio::piped()).stdout(Stdio::piped()).stderr(Stdio::piped()));
        let (input, output) = (child.stdin.take(), child.stdout.take().map(BufReader::new));
        Desk { child, input, output }
    }

    /// Writes a line and reads its answer, which is empty where the program has ended.
    fn ask(&mut self, line: &[u8]) -> Vec<u8> {
        let mut answer = Vec::new();
        let written = self.input.as_mut().expect("its input").write_all(line);
        if written.is_ok() {
            self.output.as_mut().expect("its output").read_until(b'\n', &mut answer).expect("its output");
        }
        answer
    }

    fn end(mut self) -> Ended {
        self.input = None;
        let (mut out, mut err) = (Vec::new(), String::new());
        self.output.take().map(|mut output| output.read_to_end(&mut out).expect("its output"));
        self.child.stderr.take().expect("its errors").read_to_string(&mut err).expect("its errors");
        Ended { status: ended(&mut self.child), out, err }
    }
}

/// Waits until nobody reads what a process writes: one that was just started may have our end of the pipe a moment longer.
fn unread(child: &Child) {
    let mut output = File::options().write(true).open(format!("/proc/{}/fd/1", child.id())).expect("its output");
    while output.write(b"\n").is_ok() {
        std::thread::sleep(Duration::from_micros(100));
    }
}

/// The book is that of the model, its journal too, and the program goes on with it.
fn goes_on(dir: &Path, model: &mut Model) {
    assert_eq!(model.difference(&kept::load(dir).expect("a book").book), None);
    assert!(fs::read(dir.join("journal")).expect("a journal") == model.journal);
    let input = Lines::new(5, SIZES).text(20);
    assert_eq!(run_book(dir, &input).well(), model.answers(&input));
    assert!(with_dir("verify", dir).well().starts_with(format!("{} records; ", model.records()).as_bytes()));
}

#[test]
fn a_full_disk_in_the_journal_line_by_line() {
    for every in ["1", "100000"] {
        let (_temp, dir, mut model) = book();
        let mut desk = Desk::new(&mut limited(4, &run_arguments(every, &dir)));
        let input = Lines::new(1, SIZES).text(200);
        let mut full = None;
        for line in split(&input) {
            let mut next = model.clone();
            let (expected, answer) = (next.answer(line), desk.ask(line));
            if answer.is_empty() {
                full = Some(next);
                break;
            }
            assert_eq!(answer, expected);
            model = next;
        }
        assert!(full.is_some_and(|full| full.journal.len() > 4_096), "the limit was not met");
        let said = desk.end().said(1);
        let record = model.records() + 1;
        assert!(said.contains("the journal cannot be written: File too large"), "{said}");
        assert!(said.contains(&format!("records {record} to {record} are not in the journal, and their requests were not answered")), "{said}");
        assert_eq!(said.contains("the next image is tried later"), every == "1");
        assert!(!dir.join("image").exists() && !dir.join("image.new").exists());
        goes_on(&dir, &mut model);
    }
}

#[test]
fn a_full_disk_in_the_journal_at_once() {
    let (_temp, dir, mut model) = book();
    let first = Lines::new(2, SIZES).text(20);
    assert_eq!(run_book(&dir, &first).well(), model.answers(&first));
    let before = files(&dir);
    let input = Lines::new(3, SIZES).text(400);
    let full = finish(&mut limited(4, &run_arguments("1", &dir)), &input);
    assert_eq!(full.out, b"", "an answer whose record is not on disk");
    assert!(full.said(1).contains("the journal cannot be written: File too large"));
    assert!(files(&dir) == before, "what was there before is not there any more");
    assert_eq!(run_book(&dir, &input).well(), model.answers(&input));
    goes_on(&dir, &mut model);
}

#[test]
fn a_full_disk_in_an_image() {
    let (_temp, dir, mut model) = book();
    let (first, input) = (Lines::new(2, SIZES).text(20), Lines::new(3, SIZES).text(60));
    assert_eq!(run_book(&dir, &first).well(), model.answers(&first));
    let image = fs::read(dir.join("image")).expect("an image");
    let full = finish(&mut limited(64, &run_arguments("100000", &dir)), &input);
    assert_eq!(full.out, model.answers(&input));
    let said = full.said(1);
    assert!(said.contains("every answer is in the journal, but") && said.contains("image cannot be written: File too large"), "{said}");
    assert!(fs::read(dir.join("image")).expect("the older image") == image && !dir.join("image.new").exists());
    assert_eq!(model.difference(&kept::load(&dir).expect("a book").book), None);

    let mut desk = Desk::new(&mut limited(64, &run_arguments("1", &dir)));
    for line in split(&input).filter(|line| line.ends_with(b"\n")) {
        assert_eq!(desk.ask(line), model.answer(line));
    }
    let said = desk.end().said(1);
    assert!(said.contains("image cannot be written: File too large (os error 27); the journal has everything, and the next image is tried later"));
    assert!(fs::read(dir.join("image")).expect("the older image") == image && !dir.join("image.new").exists());
    goes_on(&dir, &mut model);
}

#[test]
fn a_full_disk_for_a_new_book() {
    let temp = Temp::on_disk();
    let dir = temp.book();
    let full = finish(&mut limited(64, &[OsStr::new("new"), dir.as_os_str()]), masters(SIZES).as_bytes());
    assert!(full.said(1).contains("opening.image cannot be written: File too large"));
    assert!(!dir.exists() || files(&dir).is_empty(), "half a book");
    new_book(&dir, SIZES);
}

extern "C" {
    fn geteuid() -> u32;
}

/// Permissions mean nothing to root: the program then runs as nobody, from a place that anyone may enter, on a folder that nobody owns.
struct Nobody {
    program: PathBuf,
    root: bool,
}

const NOBODY: u32 = 65_534;

impl Nobody {
    fn new(temp: &Temp) -> Nobody {
        let program = temp.path().join("bookkeeper");
        fs::copy(PROGRAM, &program).expect("a copy of the program");
        [temp.path(), &program].iter().for_each(|path| mode(path, 0o755));
        // SAFETY: it takes nothing.
        Nobody { program, root: unsafe { geteuid() } == 0 }
    }

    fn owns(&self, dir: &Path) {
        let inside = files(dir).into_keys().map(|name| dir.join(name));
        for path in inside.chain([dir.to_path_buf()]).filter(|_| self.root) {
            chown(path, Some(NOBODY), Some(NOBODY)).expect("another owner");
        }
    }

    fn run(&self, arguments: &[&OsStr], input: &[u8]) -> Ended {
        let mut command = Command::new(&self.program);
        command.args(arguments).current_dir("/");
        if self.root {
            command.uid(NOBODY).gid(NOBODY);
        }
        finish(&mut command, input)
    }
}

fn mode(path: &Path, mode: u32) {
    fs::set_permissions(path, Permissions::from_mode(mode)).expect("permissions");
}

/// A book that nobody owns, with some records and an image.
fn nobodys() -> (Temp, PathBuf, Model, Nobody) {
    let (temp, dir, mut model) = book();
    let first = Lines::new(2, SIZES).text(40);
    assert_eq!(run_book(&dir, &first).well(), model.answers(&first));
    let nobody = Nobody::new(&temp);
    nobody.owns(&dir);
    (temp, dir, model, nobody)
}

#[test]
fn a_read_only_folder() {
    let (_temp, dir, mut model, nobody) = nobodys();
    let (before, input) = (files(&dir), Lines::new(3, SIZES).text(40));
    mode(&dir, 0o555);
    mode(&dir.join("journal"), 0o444);
    let run = nobody.run(&run_arguments("1", &dir), &input);
    assert_eq!(run.out, b"");
    let said = run.said(1);
    assert!(said.contains("journal cannot be opened: Permission denied"), "{said}");
    assert!(files(&dir) == before);
    nobody.run(&[OsStr::new("verify"), dir.as_os_str()], b"").well();
    nobody.run(&[OsStr::new("show"), dir.as_os_str(), OsStr::new("farms")], b"").well();

    // The journal may be written, the folder not: everything is answered, and the end says that there is no new image.
    mode(&dir.join("journal"), 0o644);
    let run = nobody.run(&run_arguments("1", &dir), &input);
    assert_eq!(run.out, model.answers(&input));
    let said = run.said(1);
    assert!(said.contains("Permission denied (os error 13); the journal has everything, and the next image is tried later"), "{said}");
    assert!(said.contains("every answer is in the journal, but") && said.contains("image cannot be written: Permission denied"), "{said}");
    assert!(files(&dir)["image"] == before["image"]);
    let made = nobody.run(&[OsStr::new("new"), dir.join("inside").as_os_str()], masters(SIZES).as_bytes());
    assert!(made.said(1).contains("inside cannot be made: Permission denied"));
    mode(&dir, 0o755);
    goes_on(&dir, &mut model);
}

#[test]
fn files_that_may_not_be_read() {
    let (_temp, dir, mut model, nobody) = nobodys();
    let before = files(&dir);
    mode(&dir.join("image"), 0o000);
    let verified = nobody.run(&[OsStr::new("verify"), dir.as_os_str()], b"");
    assert!(verified.err.contains("image: Permission denied (os error 13); it is passed over"), "{}", verified.err);
    assert!(verified.out.starts_with(format!("{} records; ", model.records()).as_bytes()));
    let input = Lines::new(3, SIZES).text(40);
    let run = nobody.run(&run_arguments("100000", &dir), &input);
    assert_eq!((run.status, &run.out), (Some(0), &model.answers(&input)));
    assert_eq!(run.err, verified.err);
    assert_eq!(nobody.run(&run_arguments("100000", &dir), b"").well(), b"", "the new image may be read");
    for (name, says) in [("opening.image", "opening.image: Permission denied"), ("journal", "its journal cannot be opened: Permission denied")] {
        mode(&dir.join(name), 0o000);
        let run = nobody.run(&run_arguments("1", &dir), &input);
        assert_eq!(run.out, b"");
        assert!(run.said(1).contains(says));
        assert!(nobody.run(&[OsStr::new("verify"), dir.as_os_str()], b"").said(1).contains(says));
        mode(&dir.join(name), 0o644);
    }
    assert!(files(&dir)["opening.image"] == before["opening.image"]);
    goes_on(&dir, &mut model);
}

/// A folder where the newest image should be cannot be read as one, nor replaced.
#[test]
fn a_folder_in_place_of_an_image() {
    let (_temp, dir, mut model) = book();
    fs::create_dir(dir.join("image")).expect("a folder");
    let input = Lines::new(3, SIZES).text(40);
    let run = run_book(&dir, &input);
    assert_eq!(run.out, model.answers(&input));
    let said = run.said(1);
    assert!(said.contains("it is passed over") && said.contains("every answer is in the journal, but"), "{said}");
    fs::remove_dir(dir.join("image")).expect("a folder");
    goes_on(&dir, &mut model);
}

#[test]
fn a_second_process() {
    let (temp, dir, mut model) = book();
    let mut desk = Desk::new(&mut command(&run_arguments("3", &dir)));
    let input = Lines::new(4, SIZES).text(60);
    for (count, line) in split(&input).filter(|line| line.ends_with(b"\n")).enumerate() {
        assert_eq!(desk.ask(line), model.answer(line));
        if count % 6 == 0 {
            let second = run_book(&dir, b"Q\t1\t1\t5\n");
            assert_eq!(second.out, b"");
            let said = second.said(1);
            assert!(said.contains("is in use: another process has it open for writing"), "{said}");
            assert!(fs::read(dir.join("journal")).expect("a journal") == model.journal);
            let verified = with_dir("verify", &dir).well();
            assert!(verified.starts_with(format!("{} records; ", model.records()).as_bytes()));
            let shown = run(&["show".as_ref(), dir.as_os_str(), "history".as_ref()], b"").well();
            assert!(!shown.is_empty());
        }
    }
    let other = temp.path().join("copy");
    copy(&dir, &other);
    assert_eq!(run_book(&other, b"").well(), b"", "a copy of the folder is another book");
    assert_eq!(desk.end().well(), b"");
    goes_on(&dir, &mut model);
}

/// Readers beside a run that writes all the time: each finds a whole book, later ones no fewer records.
#[test]
fn readers_beside_a_busy_run() {
    let (_temp, dir, mut model) = book();
    let input = Lines::new(7, SIZES).text(3_000);
    let expected = model.answers(&input);
    let lines: Vec<&[u8]> = split(&input).collect();
    let mut child = spawn(command(&run_arguments("5", &dir)).stdin(Stdio::piped()).stdout(Stdio::piped()));
    let (mut stdin, mut stdout) = (child.stdin.take().expect("its input"), child.stdout.take().expect("its output"));
    let (mut answers, mut found) = (Vec::new(), vec![0]);
    std::thread::scope(|scope| {
        let reading = scope.spawn(|| stdout.read_to_end(&mut answers).expect("its answers"));
        scope.spawn(move || {
            for part in lines.chunks(9) {
                stdin.write_all(&part.concat()).expect("it takes input");
                std::thread::sleep(Duration::from_millis(1));
            }
        });
        while !reading.is_finished() {
            found.push(kept::load(&dir).expect("a whole book").records);
        }
    });
    assert_eq!((ended(&mut child), answers == expected), (Some(0), true));
    assert!(found.is_sorted(), "{found:?}");
    println!("{} readers, {} different books", found.len() - 1, found.chunk_by(|one, next| one == next).count());
    goes_on(&dir, &mut model);
}

#[test]
fn standard_output_that_is_full() {
    let (_temp, dir, mut model) = book();
    let input = Lines::new(6, SIZES).text(40);
    let mut to_full = under("exec > /dev/full", &run_arguments("1", &dir));
    let said = finish(&mut to_full, &input).said(1);
    assert!(said.contains("answers cannot be written to standard output: No space left on device"), "{said}");
    assert!(said.contains("their requests are carried out and in the journal"), "{said}");
    model.answers(&input);
    goes_on(&dir, &mut model);
    for words in [&["verify"][..], &["show", "farms"], &["close", "1", "9"]] {
        let full = finish(&mut under("exec > /dev/full", &with_words(words, &dir)), b"");
        assert!(full.said(1).contains("standard output cannot be written"), "{words:?}");
    }
}

#[test]
fn standard_input_or_output_that_is_closed() {
    let (_temp, dir, mut model) = book();
    let request = b"Q\t1\t1\t5\n";
    for shell in ["exec >&-", "exec <&-"] {
        let closed = finish(&mut under(shell, &run_arguments("1", &dir)), request);
        assert!(closed.said(1).contains("is closed"), "{shell}");
        assert!(fs::read(dir.join("journal")).expect("a journal").is_empty(), "recorded, and nobody can have the answer");
    }
    goes_on(&dir, &mut model);
}

/// What is to be said on standard error may go nowhere: that changes neither the answers nor the status.
#[test]
fn standard_error_that_is_full() {
    let (_temp, dir, mut model) = book();
    let input = Lines::new(6, SIZES).text(40);
    let run = finish(&mut under("ulimit -f 64; exec 2> /dev/full", &run_arguments("1", &dir)), &input);
    assert_eq!((run.status, run.out), (Some(1), model.answers(&input)));
    goes_on(&dir, &mut model);
}

#[test]
fn a_reader_that_goes_away() {
    let (_temp, dir, mut model) = book();
    let mut desk = Desk::new(&mut command(&run_arguments("100000", &dir)));
    assert_eq!(desk.ask(b"Q\t1\t1\t5\n"), model.answer(b"Q\t1\t1\t5\n"));
    let guard = alone();
    desk.output = None;
    unread(&desk.child);
    desk.input.as_mut().expect("its input").write_all(b"R\t6\nQ\t2\t1\t7\n").expect("it takes input");
    let said = desk.end().said(1);
    drop(guard);
    assert!(said.contains("answers cannot be written to standard output: Broken pipe"), "{said}");
    // Both lines may have come at once, or one after the other.
    model.answer(b"R\t6\n");
    if kept::load(&dir).expect("a book").records == 3 {
        model.answer(b"Q\t2\t1\t7\n");
    }
    goes_on(&dir, &mut model);
}

#[test]
fn standard_input_that_ends_or_fails() {
    let (_temp, dir, mut model) = book();
    let whole = b"Q\t1\t1\t5\nN\t1\t1\t1\t9\t1\t1\t3\nP\t1\t1\t1\t1\t#1\t9\t500\n";
    for length in 0..whole.len() {
        let input = &whole[..length];
        assert_eq!(run_book(&dir, input).well(), model.answers(input), "{length} bytes");
    }
    let folder = File::open(&dir).expect("a folder");
    let output = spawn(command(&run_arguments("1", &dir)).stdin(folder).stdout(Stdio::piped()).stderr(Stdio::piped())).wait_with_output().expect("a run");
    assert_eq!((output.status.code(), output.stdout), (Some(1), Vec::new()));
    assert!(String::from_utf8_lossy(&output.stderr).contains("standard input cannot be read"));
    goes_on(&dir, &mut model);
}

#[test]
fn a_new_book_over_something() {
    let (temp, dir, mut model) = book();
    let before = files(&dir);
    let text = masters(SIZES);
    let new = |dir: &Path, text: &str| run(&["new".as_ref(), dir.as_os_str()], text.as_bytes());
    assert!(new(&dir, &text).said(1).contains("is not empty; nothing was changed"));
    assert!(files(&dir) == before);
    let [empty, file, none] = ["empty", "file", "none"].map(|name| temp.path().join(name));
    fs::create_dir(&empty).expect("a folder");
    new(&empty, &text).well();
    assert_eq!(files(&empty).into_keys().collect::<Vec<_>>(), ["journal", "opening.image"]);
    fs::write(&file, b"something").expect("a file");
    assert!(new(&file, &text).said(1).contains("cannot be made"));
    assert_eq!(fs::read(&file).expect("a file"), b"something");
    assert!(new(&none.join("deeper"), &text).said(1).contains("cannot be made"));
    for words in [&["run"][..], &["verify"], &["show", "farms"], &["close", "1", "9"]] {
        assert!(run(&with_words(words, &none), b"").said(1).contains("there is no folder"), "{words:?}");
    }
    let with = |depot: &str| text.replace("depot\t1\t700\n", depot);
    for bad in ["", "sizes\t1\n", &with(""), &with("depot\t1\t70000\n"), &(text.clone() + "x")] {
        assert!(new(&none, bad).said(1).contains("nothing was made"));
        assert!(!none.exists(), "something was made in spite of mistakes");
    }
    goes_on(&dir, &mut model);
}

#[test]
fn wrong_usage_and_help() {
    let (_temp, dir, mut model) = book();
    let before = files(&dir);
    let name = dir.to_str().expect("a name");
    let wrong: [&[&str]; 15] = [
        &[], &["x"], &["new"], &["new", name, name], &["run"], &["run", name, name], &["run", "--image-every", name],
        &["run", "--image-every", "0", name], &["run", "--image-every", "-1", name], &["run", "--every", "1", name], &["show", name],
        &["show", name, "farmers"], &["close", name, "1"], &["verify"], &["verify", name, name],
    ];
    for arguments in wrong {
        let ended = run(arguments, b"Q\t1\t1\t5\n");
        assert_eq!((ended.status, ended.out.len()), (Some(2), 0), "{arguments:?}");
        assert!(ended.err.contains("bookkeeper "), "{arguments:?}");
    }
    let helps: [&[&str]; 6] = [&["--help"], &["new", "--help"], &["run", "--help"], &["show", "--help"], &["close", "--help"], &["verify", "--help"]];
    for arguments in helps {
        let text = String::from_utf8(run(arguments, b"").well()).expect("text");
        let says = if arguments.len() == 1 { "bookkeeper keeps a book".to_string() } else { format!("bookkeeper {} ", arguments[0]) };
        assert!(text.starts_with(&says), "{arguments:?}");
    }
    for command in ["run", "verify"] {
        assert!(with_dir(command, &dir.join("none")).said(1).contains("none"));
    }
    assert!(files(&dir) == before);
    goes_on(&dir, &mut model);
}

#[test]
fn a_folder_whose_name_is_any_bytes() {
    let temp = Temp::on_disk();
    let dir = temp.path().join(OsStr::from_bytes(b"book \xff\n"));
    new_book(&dir, SIZES);
    let mut model = Model::of(&dir);
    goes_on(&dir, &mut model);
}
