//! Times TPC-C's mix on a book that is kept on disk, `bookkeeper run` beside SQLite, and how long `run` takes to start.
//!
//! All contenders carry out the same requests in the same order, each on its own copy of the same book, and every answer is compared.

use crate::book::{self, Size};
use crate::contender::{Contender, InBook};
use crate::keeper::{self, Running};
use crate::measure::{median, step, Step};
use crate::requests::{Asker, Call};
use crate::sql::Sql;
use second::layout::{customer, district, warehouse, Layout};
use second::lines::{write_line, LONGEST};
use second::replay::{Lent, SecondEngine};
use second::{Outcome, Request};
use std::fs::{self, File};
use std::io::{self, Write};
use std::os::unix::fs::FileExt;
use std::path::{Path, PathBuf};
use std::time::Instant;

/// The program and a folder for books, on a file system that keeps them.
pub struct Place {
    program: PathBuf,
    folder: PathBuf,
}

/// A book to measure on: its customers and items, and the requests of the mix that it has had before.
pub struct Kind {
    pub title: &'static str,
    pub customers: usize,
    pub items: usize,
    pub before: usize,
}

/// What was measured on one book.
pub struct Mixed {
    pub title: &'static str,
    /// Microseconds a request or a write: SQLite; `run` piped, and one line at a time; a line appended and synced, a page written over and synced.
    pub step: Step,
    /// With those before; how many of them were committed, how many of those are in the journal, and the bytes of such a record.
    pub requests: usize,
    pub committed: usize,
    pub records: usize,
    pub record_bytes: usize,
    /// Seconds from the end of the input to the end of `run`: it writes an image, none before.
    pub image: f64,
}

/// Seconds from the start of `run` to its first answer.
pub struct Started {
    /// A new book.
    pub empty: f64,
    pub records: usize,
    /// From the opening image and every record.
    pub by_records: f64,
    /// From the newest image, which has every record, and the journal read and judged.
    pub by_image: f64,
}

/// Requests of a round, and syncs of a round for each of the two bare writes.
const BATCH: usize = 1_000;
const WRITES: usize = 200;
const PAGE: usize = 4_096;

impl Place {
    /// In the target folder of this repository; what an earlier run has left there is removed.
    pub fn below(root: &Path) -> Place {
        let program = root.join("target/bookkeeper/release/bookkeeper");
        let folder = root.join("target/on-disk");
        let _ = fs::remove_dir_all(&folder);
        fs::create_dir_all(&folder).expect("a folder for books");
        Place { program, folder }
    }

    /// A new book of this name.
    fn new_book(&self, name: &str, masters: &str) -> PathBuf {
        let dir = self.folder.join(name);
        keeper::new(&self.program, &dir, masters);
        dir
    }

    fn run(&self, dir: &Path, options: &[&str]) -> Running {
        Running::start(&self.program, dir, options)
    }
}

impl Drop for Place {
    fn drop(&mut self) {
        let _ = fs::remove_dir_all(&self.folder);
    }
}

/// A book with two warehouses, and with room for so many requests of the mix.
fn sized(customers: usize, items: usize, requests: usize) -> Size {
    Size {
        warehouses: 2,
        customers,
        items,
        order_slots: 3 * requests / 100 + 100,
        history_slots: requests / 2,
        orders: 0,
        histories: 0,
    }
}

/// The book as it is opened: nothing ordered, nothing paid.
fn opened(size: &Size) -> Lent {
    let (mut lent, layout) = (book::make(size), size.layout());
    for w in 1..=layout.warehouses {
        lent.nums[layout.warehouse(w)][warehouse::YTD] = 0;
        for d in 1..=10 {
            lent.nums[layout.district(w, d)][district::YTD] = 0;
            let customers = lent.nums[layout.customers_of(w, d)].chunks_exact_mut(customer::WIDTH);
            customers.for_each(|row| row[customer::BALANCE..].fill(0));
        }
    }
    let opening = second::opening::open(&lent.nums, &lent.names, &lent.topup);
    assert!(
        matches!(opening, Outcome::Committed(())),
        "not an opening book"
    );
    lent
}

/// The line of each request.
fn lines(requests: &[Request]) -> Vec<Vec<u8>> {
    let line = |request| {
        let mut buffer = [0; LONGEST];
        match write_line(request, &mut buffer) {
            Outcome::Committed(length) => buffer[..length as usize].to_vec(),
            Outcome::Refused(_) => panic!("{request:?} has no line"),
        }
    };
    requests.iter().map(line).collect()
}

/// The answers of a contender that is not a process, as lines.
fn answer_lines(contender: &mut impl Contender, requests: &[Request]) -> Vec<u8> {
    let mut lines = Vec::new();
    for request in requests {
        put_answer(&mut lines, request, &contender.answer(request));
    }
    lines
}

/// The line of an answer, in which an order's lifts and a Delivery's mark do not stand.
fn put_answer(lines: &mut Vec<u8>, request: &Request, numbers: &[i64]) {
    let (letter, unshown) = match request {
        Request::NewOrder(_) => (b'N', 3),
        Request::Payment(_) => (b'P', usize::MAX),
        Request::Delivery(_) => (b'D', 2),
        Request::OrderStatus(_) => (b'S', usize::MAX),
        Request::StockLevel(_) => (b'L', usize::MAX),
    };
    let length = if numbers[0] == 0 { numbers.len() } else { 2 };
    lines.push(letter);
    for (place, number) in numbers[..length].iter().enumerate() {
        if place != unshown {
            write!(lines, "\t{number}").expect("a vector takes it");
        }
    }
    lines.push(b'\n');
}

/// Requests, and the same as lines.
struct Batch {
    requests: Vec<Request>,
    lines: Vec<Vec<u8>>,
    text: Vec<u8>,
}

impl Batch {
    fn of(requests: Vec<Request>) -> Batch {
        let lines = lines(&requests);
        let text = lines.concat();
        Batch {
            requests,
            lines,
            text,
        }
    }
}

/// Who takes turns: SQLite, `run` piped, `run` one line at a time, a line appended, a page written over.
const CONTENDERS: usize = 5;
/// Those who answer come first.
const ANSWER: usize = 3;

struct Field {
    sql: Sql,
    piped: Running,
    single: Running,
    appended: File,
    over: File,
    dirs: [PathBuf; 2],
}

impl Field {
    /// A book that was just opened, for each; all carry out the requests before. Also gives the answers to those.
    fn on(place: &Place, title: &str, lent: Lent, before: &Batch) -> (Field, Vec<u8>) {
        let masters = keeper::masters(&lent, &layout(&lent));
        let named = |name: &str| format!("{title}, {name}");
        let file = |name: &str| File::create(place.folder.join(named(name))).expect("a file");
        let over = file("written over");
        let pages = over.write_all_at(&[0; PAGE * WRITES], 0);
        pages.and_then(|()| over.sync_all()).expect("pages");
        let engine = SecondEngine;
        let mut book = InBook { engine, lent };
        let answers = answer_lines(&mut book, &before.requests);
        let database = place.folder.join(named("SQLite"));
        let dirs = ["piped", "one at a time"].map(|name| place.new_book(&named(name), &masters));
        let [piped, single] = dirs.each_ref().map(|dir| {
            let mut run = place.run(dir, &[]);
            let said = run.piped(&before.text, before.lines.len());
            assert!(said == answers, "{title}: other answers before");
            run
        });
        let field = Field {
            sql: Sql::on_disk(&database, &book.lent, &layout(&book.lent)),
            piped,
            single,
            appended: file("appended"),
            over,
            dirs,
        };
        (field, answers)
    }

    /// Microseconds a request, or a write, of one contender, and its answers.
    fn time(&mut self, which: usize, batch: &Batch) -> (f64, Vec<u8>) {
        let count = batch.lines.len();
        match which {
            0 => timed(count, || answer_lines(&mut self.sql, &batch.requests)),
            1 => timed(count, || self.piped.piped(&batch.text, count)),
            2 => timed(count, || self.single.one_at_a_time(&batch.lines)),
            3 => synced(&self.appended, |place| {
                (&self.appended).write_all(&batch.lines[place])
            }),
            _ => synced(&self.over, |place| {
                self.over.write_all_at(&[1; PAGE], (PAGE * place) as u64)
            }),
        }
    }

    /// Ends both of `run`; their journals, which have to be the same, and the seconds that the first end took.
    fn ended(self) -> (Vec<u8>, f64) {
        let (micros, ()) = timed(1, || self.piped.end());
        self.single.end();
        let [journal, other] = self
            .dirs
            .map(|dir| fs::read(dir.join("journal")).expect("a journal"));
        assert!(journal == other, "other records");
        (journal, micros / 1e6)
    }
}

fn layout(lent: &Lent) -> Layout {
    Layout::from_head(&lent.nums).expect("a sound head")
}

/// Microseconds for each of `count` in a run, and what it gives.
fn timed<T>(count: usize, run: impl FnOnce() -> T) -> (f64, T) {
    let start = Instant::now();
    let given = run();
    (start.elapsed().as_secs_f64() * 1e6 / count as f64, given)
}

/// Microseconds of a write and its sync; there is no answer.
fn synced(file: &File, write: impl Fn(usize) -> io::Result<()>) -> (f64, Vec<u8>) {
    let all = || (0..WRITES).try_for_each(|place| write(place).and_then(|()| file.sync_data()));
    let (spent, written) = timed(WRITES, all);
    written.expect("a disk that takes it");
    (spent, Vec::new())
}

/// TPC-C's mix by all contenders in turn, another one first in each round; every answer is compared.
pub fn mixed(place: &Place, kind: &Kind, rounds: usize) -> Mixed {
    let (title, requests) = (kind.title, kind.before + rounds * BATCH);
    let size = sized(kind.customers, kind.items, requests);
    let lent = opened(&size);
    let mut asker = Asker::new(&size, &lent, 2);
    let mut batch = |count| Batch::of(asker.batch(Call::Mix, count));
    let before = batch(kind.before);
    let batches: Vec<Batch> = (0..rounds).map(|_| batch(BATCH)).collect();
    let (mut field, answers) = Field::on(place, title, lent, &before);
    let mut answers = vec![answers; ANSWER];
    let step = step(rounds, CONTENDERS, |round, which| {
        let (spent, said) = field.time(which, &batches[round]);
        if let Some(all) = answers.get_mut(which) {
            all.extend(said);
        }
        spent
    });
    let same = answers.iter().all(|all| *all == answers[0]);
    assert!(same, "{title}: other answers");
    let (journal, image) = field.ended();
    let committed = |letters: &str| count_committed(&answers[0], letters);
    let records = committed("NPD");
    assert_eq!(
        newest_record(&journal),
        records,
        "{title}: committed, and recorded"
    );
    Mixed {
        title,
        step,
        requests,
        committed: committed("NPDSL"),
        records,
        record_bytes: journal.len() / records,
        image,
    }
}

/// How many answers to requests of these letters are 0.
fn count_committed(answers: &[u8], letters: &str) -> usize {
    let lines = answers.split(|&byte| byte == b'\n');
    let asked = lines.filter(|line| {
        line.first()
            .is_some_and(|letter| letters.as_bytes().contains(letter))
    });
    asked.filter(|line| line[1..].starts_with(b"\t0\t")).count()
}

/// The number of a journal's last record.
fn newest_record(journal: &[u8]) -> usize {
    let text = std::str::from_utf8(journal).expect("a journal is text");
    let number = text.lines().last().and_then(|line| line.split('\t').next());
    number
        .and_then(|number| number.parse().ok())
        .expect("a record")
}

/// Starts `run` on a new book, then on the journal of so many requests of the mix, without an image and with one of its last record.
pub fn started(place: &Place, requests: usize, rounds: usize) -> Started {
    let size = sized(300, 1_000, requests);
    let lent = opened(&size);
    let batch = Batch::of(Asker::new(&size, &lent, 2).batch(Call::Mix, requests));
    let dir = place.new_book("start", &keeper::masters(&lent, &layout(&lent)));
    let seconds = || median((0..rounds).map(|_| first_answer(place, &dir)));
    let empty = seconds();
    let mut run = place.run(&dir, &["--image-every", "1000000000"]);
    let answers = run.piped(&batch.text, requests);
    run.kill();
    assert!(!dir.join("image").exists(), "an image before the end");
    let by_records = seconds();
    place.run(&dir, &[]).end();
    assert!(dir.join("image").exists(), "no image at the end");
    Started {
        empty,
        records: count_committed(&answers, "NPD"),
        by_records,
        by_image: seconds(),
    }
}

/// Seconds from the start of `run` to its first answer; it is killed then, so that it leaves the book as it was.
fn first_answer(place: &Place, dir: &Path) -> f64 {
    let (micros, run) = timed(1, || {
        let mut run = place.run(dir, &[]);
        run.one_at_a_time(&[b"S\t1\t1\t#1\n".to_vec()]);
        run
    });
    run.kill();
    micros / 1e6
}
