//! What the fault tests share: folders, a small book's masters, random request lines, and the program started on them. What a book, its answers and
//! its journal have to be comes from `model`, which is the second engine's.

#![allow(dead_code)] // each test takes a part of it

pub mod lines;
pub mod model;

use bookkeeper::journal::Writer;
use bookkeeper::kept::{self, Kept};
use std::collections::BTreeMap;
use std::ffi::OsStr;
use std::fs;
use std::io::{Read, Write};
use std::path::{Path, PathBuf};
use std::process::{Child, Command, Stdio};
use std::sync::atomic::{AtomicUsize, Ordering};
use std::sync::{RwLock, RwLockReadGuard};
use std::time::{Duration, Instant};

pub const PROGRAM: &str = env!("CARGO_BIN_EXE_bookkeeper");

/// A folder of its own, removed in the end.
pub struct Temp(PathBuf);

impl Temp {
    /// In memory where the machine has a place for that, since thousands of starts sync.
    pub fn new() -> Temp {
        let memory = Path::new("/dev/shm");
        Temp::under(memory).unwrap_or_else(|_| Temp::on_disk())
    }

    pub fn on_disk() -> Temp {
        Temp::under(&std::env::temp_dir()).expect("a temporary folder")
    }

    fn under(place: &Path) -> std::io::Result<Temp> {
        static COUNT: AtomicUsize = AtomicUsize::new(0);
        let name = format!("bookkeeper-{}-{}", std::process::id(), COUNT.fetch_add(1, Ordering::Relaxed));
        let path = place.canonicalize()?.join(name);
        fs::create_dir(&path)?;
        Ok(Temp(path))
    }

    pub fn path(&self) -> &Path {
        &self.0
    }

    /// The book's folder in it.
    pub fn book(&self) -> PathBuf {
        self.0.join("book")
    }
}

impl Drop for Temp {
    fn drop(&mut self) {
        let _ = fs::remove_dir_all(&self.0);
    }
}

/// A process that is being started has the locks and the pipes of this one for a moment: nobody starts one while a journal is open here, or while it
/// matters that a pipe has no reader.
static STARTING: RwLock<()> = RwLock::new(());

pub fn spawn(command: &mut Command) -> Child {
    let _alone = STARTING.write().unwrap_or_else(|poisoned| poisoned.into_inner());
    command.spawn().expect("the program starts")
}

/// A guard that keeps others from starting a process.
pub fn alone() -> RwLockReadGuard<'static, ()> {
    STARTING.read().unwrap_or_else(|poisoned| poisoned.into_inner())
}

/// `kept::open`, with that guard.
pub fn open(dir: &Path) -> (RwLockReadGuard<'static, ()>, bookkeeper::Result<(Kept, Writer)>) {
    let guard = alone();
    let opened = kept::open(dir);
    (guard, opened)
}

/// How a process ended; no status where a signal ended it.
pub struct Ended {
    pub status: Option<i32>,
    pub out: Vec<u8>,
    pub err: String,
}

impl Ended {
    /// What it wrote, where it ended well and had nothing to say.
    pub fn well(self) -> Vec<u8> {
        assert_eq!((self.status, self.err.as_str()), (Some(0), ""));
        self.out
    }

    /// What it said, where it ended with this status.
    pub fn said(self, status: i32) -> String {
        assert_eq!(self.status, Some(status), "it said: {}", self.err);
        self.err
    }
}

pub fn command<A: AsRef<OsStr>>(arguments: &[A]) -> Command {
    let mut command = Command::new(PROGRAM);
    command.args(arguments);
    command
}

/// Runs the program on some input to its end.
pub fn run<A: AsRef<OsStr>>(arguments: &[A], input: &[u8]) -> Ended {
    finish(&mut command(arguments), input)
}

pub fn run_book(dir: &Path, input: &[u8]) -> Ended {
    run(&[OsStr::new("run"), dir.as_os_str()], input)
}

pub fn with_dir(word: &str, dir: &Path) -> Ended {
    run(&[OsStr::new(word), dir.as_os_str()], b"")
}

/// Runs a command on some input to its end, which has to come within a minute.
pub fn finish(command: &mut Command, input: &[u8]) -> Ended {
    let mut child = spawn(command.stdin(Stdio::piped()).stdout(Stdio::piped()).stderr(Stdio::piped()));
    let (stdin, stdout, stderr) = (child.stdin.take(), child.stdout.take(), child.stderr.take());
    std::thread::scope(|scope| {
        // A process that ends early takes no more input.
        scope.spawn(move || stdin.map(|mut stdin| stdin.write_all(input)));
        let out = scope.spawn(move || all_of(stdout));
        let err = scope.spawn(move || all_of(stderr));
        let status = ended(&mut child);
        let err = String::from_utf8_lossy(&err.join().expect("standard error")).into_owned();
        Ended { status, out: out.join().expect("standard output"), err }
    })
}

fn all_of(from: Option<impl Read>) -> Vec<u8> {
    let mut bytes = Vec::new();
    from.map(|mut from| from.read_to_end(&mut bytes).expect("what the process wrote"));
    bytes
}

pub fn ended(child: &mut Child) -> Option<i32> {
    let start = Instant::now();
    loop {
        if let Some(status) = child.try_wait().expect("the process is there") {
            return status.code();
        }
        if start.elapsed() > Duration::from_secs(60) {
            let _ = child.kill();
            panic!("the program has not ended within a minute");
        }
        std::thread::sleep(Duration::from_micros(500));
    }
}

/// Every file of a folder, by name; what cannot be read is an empty one.
pub fn files(dir: &Path) -> BTreeMap<String, Vec<u8>> {
    let entries = fs::read_dir(dir).expect("a folder");
    let named = entries.map(|entry| entry.expect("a file").path());
    named.map(|path| (path.file_name().expect("a name").to_string_lossy().into_owned(), fs::read(&path).unwrap_or_default())).collect()
}

/// Copies a book's folder.
pub fn copy(from: &Path, to: &Path) {
    fs::create_dir(to).expect("a folder");
    files(from).iter().for_each(|(name, bytes)| fs::write(to.join(name), bytes).expect("a copy"));
}

/// Puts bytes in a file's place, whatever its permissions.
pub fn put(path: &Path, bytes: &[u8]) {
    let _ = fs::remove_file(path);
    fs::write(path, bytes).expect("a file");
}

/// A book's master data: namesakes, farms of bad credit, an item that is not sold, and items with their own top-up. Names with J and * are one bit
/// from having a line's end in them.
pub fn masters([w, c, i, o, h]: [usize; 5]) -> String {
    let mut text = format!("sizes\t{w}\t{c}\t{i}\t{o}\t{h}\n");
    let own = ["", "\t0\t10", "\t9000\t1000", "\t30\t25", "\t10\t92"];
    for item in 1..=i {
        let price = if item % 7 == 4 { 0 } else { 137 * item % 99_999 + 1 };
        text += &format!("item\t{item}\t{price}{}\n", own[item % 5]);
    }
    for depot in 1..=w {
        text += &format!("depot\t{depot}\t{}\n", 700 * depot);
        (1..=i).for_each(|item| text += &format!("stock\t{depot}\t{item}\t{}\n", (17 * depot + 29 * item) % 120));
        for district in 1..=10 {
            text += &format!("district\t{depot}\t{district}\t{}\n", 90 * district + depot);
            (1..=c).for_each(|farm| text += &farm_line(depot, district, farm));
        }
    }
    text
}

fn farm_line(depot: usize, district: usize, farm: usize) -> String {
    let (last, first) = (lines::NAMES[(farm / 2 + district) % 4], ["EVA", "BO", "JO", "BO", ""][(farm + district) % 5]);
    let (credit, discount) = (["bad", "good"][(farm + depot) % 2], (farm * 317 + district * 11) % 5_000);
    format!("farm\t{depot}\t{district}\t{farm}\t{last}\t{first}\t{credit}\t{discount}\n")
}

/// Makes a book of these sizes.
pub fn new_book(dir: &Path, sizes: [usize; 5]) {
    let out = run(&[OsStr::new("new"), dir.as_os_str()], masters(sizes).as_bytes()).well();
    assert_eq!(out, b"");
}
