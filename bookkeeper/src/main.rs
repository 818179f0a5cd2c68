//! `bookkeeper`: a book made, run, shown, closed and verified.

use bookkeeper::kept::Kept;
use bookkeeper::run::Desk;
use bookkeeper::{close, date, kept, library, masters, say, show, verify, Result};
use std::ffi::OsString;
use std::fs::File;
use std::io::{self, BufWriter, Read, Write};
use std::os::fd::AsFd;
use std::path::Path;
use std::process::ExitCode;
use std::sync::atomic::{AtomicBool, Ordering};

const USAGE: &str = "\
bookkeeper keeps a book on disk.

  bookkeeper new DIR < MASTERS                         makes a book from its master data
  bookkeeper run [--image-every N] DIR < REQUESTS      answers request lines; what is answered is on disk
  bookkeeper show DIR TABLE                            a table, tab-separated
  bookkeeper close DIR FROM UNTIL                      the lots and the farms' accounts of a month
  bookkeeper verify DIR                                compares the book with its history

bookkeeper COMMAND --help says more. Exit status: 0 where everything asked was done, 1 where not (standard error says why), 2 for wrong usage.
";

const NEW: &str = "\
bookkeeper new DIR < MASTERS

Makes the folder DIR (which must not be there, or be empty) with the opening image of a book and an empty journal. MASTERS are lines of fields
parted by tabs, `sizes` first, then in any order each depot, district, farm, item and stock once:

  sizes     W C I O H                    depots (up to 20), farms a district (3,000), items (100,000), and room for
                                         orders a district (10,000) and for payments (1,000,000)
  depot     depot tax                    taxes and discounts in ten-thousandths, 0 to 9,999
  district  depot district tax           districts 1 to 10 in each depot
  farm      depot district farm last first credit discount
                                         names of up to 16 bytes, no umlauts; credit is good or bad
  item      item price                   cents, 0 to 99,999; 0 for an item that is not sold
  item      item price margin lift       with its own top-up, where it is not 10 and 91
  stock     depot item on_hand           lots, 0 to 9,999

Empty lines and lines that start with # are passed over. Every mistake is said, by line and field, and then nothing is made.
";

const RUN: &str = "\
bookkeeper run [--image-every N] DIR < REQUESTS > ANSWERS

Answers request lines in turn, on the book in DIR. An answer leaves only after what its request changed is on disk; lines that wait are put there
together. The lines are N, P, D, S and L of document 01 (README.md has them) and two more:

  Q warehouse carrier date    a Delivery that waits its turn; answers how many stand before it
  R date                      runs the oldest that waits; answers its result line

Starts from the newest image and carries out the records behind it again. An image is written at the end, and after each N records on the way
(100,000 where not given). The process may be killed at any moment: nothing that was answered is lost. One process at a time writes a book.
";

const SHOW: &str = "\
bookkeeper show DIR depots|districts|farms|items|stock|orders|history|notes|waiting

Prints the table as it stands after the newest whole record, tab-separated, with a header. Changes nothing, and may run beside `run`.
";

const CLOSE: &str = "\
bookkeeper close DIR FROM UNTIL

Prints two tables, tab-separated, for the time from FROM to UNTIL, both counted: the lots ordered and the lots delivered by depot and item; and each
farm's balance brought forward, orders delivered, payments and balance carried forward. Rows without anything are left out. FROM and UNTIL are days
(2026-11-01), times ('2026-11-01 12:00:00') or dates as the book has them, in seconds. Where the sheet does not add up to the balances and lots of
the book, each such place is said and the exit status is 1. Changes nothing, and may run beside `run`.
";

const VERIFY: &str = "\
bookkeeper verify DIR

Counts once more what the book should hold, from the opening image and the journal alone and without the engine, and compares every number and byte
of the book as it stands. Says how many were compared, and each difference. Changes nothing, and may run beside `run`.
";

/// Why a command did not do what was asked.
enum Failure {
    Usage(&'static str),
    Said(String),
}

impl From<String> for Failure {
    fn from(error: String) -> Failure {
        Failure::Said(error)
    }
}

extern "C" {
    fn signal(number: i32, handler: usize) -> usize;
    fn fcntl(descriptor: i32, command: i32, ...) -> i32;
}

/// A file that reaches its limit is an error to be said, and not the signal SIGXFSZ that ends the process.
fn ignore_file_size_signal() {
    const SIGXFSZ: i32 = 25;
    const SIG_IGN: usize = 1;
    // SAFETY: ignoring a signal installs no handler.
    unsafe { signal(SIGXFSZ, SIG_IGN) };
}

/// Whether standard input, or output, was closed when the process began: before `main`, /dev/null is opened in their place, and answers would go
/// nowhere. So this looks earlier.
static CLOSED: AtomicBool = AtomicBool::new(false);

#[used]
#[link_section = ".init_array"]
static LOOK: extern "C" fn() = {
    extern "C" fn look() {
        const F_GETFD: i32 = 1;
        // SAFETY: asks for a descriptor's flags, and changes nothing.
        CLOSED.store((0..2).any(|descriptor| unsafe { fcntl(descriptor, F_GETFD) } == -1), Ordering::Relaxed);
    }
    look
};

fn main() -> ExitCode {
    ignore_file_size_signal();
    let arguments: Vec<OsString> = std::env::args_os().skip(1).collect();
    match command(&arguments) {
        Ok(()) => ExitCode::SUCCESS,
        Err(Failure::Usage(help)) => {
            let _ = io::stderr().write_all(help.as_bytes());
            ExitCode::from(2)
        }
        Err(Failure::Said(error)) => {
            say(&error);
            ExitCode::FAILURE
        }
    }
}

/// A folder's name may be any bytes; all other arguments are words.
fn command(arguments: &[OsString]) -> std::result::Result<(), Failure> {
    let dir = |place: usize| Path::new(&arguments[place]);
    let arguments: Vec<&str> = arguments.iter().map(|argument| argument.to_str().unwrap_or_default()).collect();
    let helps = [("new", NEW), ("run", RUN), ("show", SHOW), ("close", CLOSE), ("verify", VERIFY)];
    let help = helps.iter().find(|(name, _)| arguments.first() == Some(name)).map_or(USAGE, |(_, help)| help);
    if arguments.iter().any(|argument| matches!(*argument, "--help" | "-h")) {
        return Ok(out(|to| to.write_all(help.as_bytes()))?);
    }
    if CLOSED.load(Ordering::Relaxed) {
        return Err(Failure::Said("standard input or output is closed".to_string()));
    }
    if !library::version_fits() {
        return Err(Failure::Said("the library is not the one that this program was made for: build it again".to_string()));
    }
    let done = match arguments[..] {
        ["new", _] => new(dir(1)),
        ["run", _] => run(dir(1), 100_000),
        ["run", "--image-every", every, _] => match every.parse() {
            Ok(every @ 1..) => run(dir(3), every),
            _ => return Err(Failure::Usage(help)),
        },
        ["show", _, table] if show::TABLES.contains(&table) => shown(dir(1), table),
        ["close", _, from, until] => closed(dir(1), from, until),
        ["verify", _] => verified(dir(1)),
        _ => return Err(Failure::Usage(help)),
    };
    Ok(done?)
}

/// Writes to standard output; an error is said.
fn out(write: impl FnOnce(&mut dyn Write) -> io::Result<()>) -> Result<()> {
    let mut to = BufWriter::new(io::stdout().lock());
    write(&mut to).and_then(|()| to.flush()).map_err(|error| format!("standard output cannot be written: {error}"))
}

fn new(dir: &Path) -> Result<()> {
    let mut text = Vec::new();
    io::stdin().read_to_end(&mut text).map_err(|error| format!("standard input cannot be read: {error}"))?;
    let book = masters::read(&text).map_err(|mistakes| {
        let count = mistakes.len();
        format!("{}\nmistakes in the master data: {count}; nothing was made", mistakes.join("\n"))
    })?;
    match book.opening() {
        [0, _] => kept::create(dir, &book),
        [refusal, _] => Err(format!("opening refuses the book by {refusal}; nothing was made")),
    }
}

fn run(dir: &Path, every: u64) -> Result<()> {
    let (kept, journal) = kept::open(dir)?;
    kept.warnings.iter().for_each(|warning| say(warning));
    let descriptor = |owned: io::Result<_>| owned.map(File::from).map_err(|error| format!("standard input or output is closed: {error}"));
    let mut input = descriptor(io::stdin().as_fd().try_clone_to_owned())?;
    let mut output = descriptor(io::stdout().as_fd().try_clone_to_owned())?;
    Desk::new(dir, kept, journal, every).run(&mut input, &mut output)
}

/// The book as it stands, for reading.
fn loaded(dir: &Path) -> Result<Kept> {
    let kept = kept::load(dir)?;
    kept.warnings.iter().for_each(|warning| say(warning));
    Ok(kept)
}

fn shown(dir: &Path, table: &str) -> Result<()> {
    let book = loaded(dir)?.book;
    out(|to| show::table(&book, table, to))
}

fn closed(dir: &Path, from: &str, until: &str) -> Result<()> {
    let (from, until) = (date::from(from)?, date::until(until)?);
    if from > until {
        return Err("FROM is later than UNTIL".to_string());
    }
    let book = loaded(dir)?.book;
    let mut wrong = Vec::new();
    out(|to| {
        wrong = close::close(&book, from, until, to)?;
        Ok(())
    })?;
    if wrong.is_empty() {
        return Ok(());
    }
    Err(format!("{}\nplaces where the sheet does not add up: {}", wrong.join("\n"), wrong.len()))
}

fn verified(dir: &Path) -> Result<()> {
    let opening = kept::opening(dir)?;
    if opening.book.opening()[0] != 0 {
        return Err("the opening image is not that of a new book".to_string());
    }
    let found = loaded(dir)?;
    let mut journal = kept::journal(dir, opening.checksum, found.at.bytes)?;
    let said = verify::verify(&opening.book, &mut journal, &found.book)?;
    let (records, numbers, bytes, count) = (said.records, said.numbers, said.bytes, said.count());
    out(|to| writeln!(to, "{records} records; {numbers} numbers and {bytes} bytes compared; {count} differences"))?;
    if count == 0 {
        return Ok(());
    }
    Err(format!("{}\nthe book and its history differ", said.differences.join("\n")))
}
