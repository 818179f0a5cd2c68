//! The tables, in Markdown.

use crate::measure::{Measured, Row, Step, Waiting};
use crate::on_disk::{Mixed, Started};
use crate::topup::Table;
use std::fs;

/// A time with three figures that count.
fn time(micros: f64) -> String {
    let places = match micros {
        m if m >= 99.95 => 0,
        m if m >= 9.995 => 1,
        m if m >= 0.9995 => 2,
        _ => 3,
    };
    format!("{micros:.places$}")
}

fn or_dash(value: Option<String>) -> String {
    value.unwrap_or_else(|| "–".into())
}

/// Times of all contenders on one book, and the proved library's time as a multiple of each other one's.
pub fn compared(title: &str, rows: &[Row]) {
    println!("\n### {title}\n");
    println!("| Call | Proved, µs | Second engine, µs | SQLite, µs | Plain sum, µs | Proved ÷ second | Proved ÷ SQLite | Proved ÷ sum |");
    println!("|---|--:|--:|--:|--:|--:|--:|--:|");
    for row in rows {
        println!(
            "| {} | {} | {} | {} | {} | {:.2} | {:.3} | {} |",
            row.name,
            time(row.proved),
            time(row.second),
            time(row.sql),
            or_dash(row.sum.map(time)),
            row.to_second,
            row.to_sql,
            or_dash(row.to_sum.map(|times| format!("{times:.2}"))),
        );
    }
}

/// The pass over a district's last orders on each book.
pub fn passes(books: &[(&str, Measured)]) {
    println!("\n### The pass over a district's last orders\n");
    println!("C numbers; a New-Order refused by 17 for the top-up table's length, behind the pass, less the same refused by 13 for the slice's length, before it.\n");
    println!("| Book | Proved, µs | Second engine, µs | By hand, µs | Plain sum, µs | Proved ÷ second | Proved ÷ by hand | Proved ÷ sum |");
    println!("|---|--:|--:|--:|--:|--:|--:|--:|");
    steps(books, 2, |book| &book.pass);
}

/// The pass over the top-up table.
pub fn table(table: &Table) {
    println!("\n### The pass over the top-up table\n");
    println!("2 × I numbers, each item with a margin and a lift of its own; a New-Order on a book of I 100,000 less one of the same lines on a book of I 100 that is else the same, both carried out. The plain sum is of the longer table, in the place of the pass.\n");
    println!(
        "| | Proved, µs | Second engine, µs | Plain sum, µs | Proved ÷ second | Proved ÷ sum |"
    );
    println!("|---|--:|--:|--:|--:|--:|");
    step_line("New-Order, I 100,000", &table.order, 2);
    step_line("The pass", &table.pass, 2);
}

/// The search for a last name on each book.
pub fn searches(books: &[(&str, Measured)]) {
    println!("\n### The search for a last name\n");
    println!("C names of 16 bytes; an Order-Status for a name that nobody has, one of TPC-C's with another last letter, less the same for an empty name, which is not looked for: both are refused by 10, behind the same judging of rows and names. So it is the name padded, the list of namesakes cleared and C names compared. The plain sum takes the same bytes, eight at a time.\n");
    println!("| Book | Proved, µs | Second engine, µs | Plain sum, µs | Proved ÷ second | Proved ÷ sum |");
    println!("|---|--:|--:|--:|--:|--:|");
    steps(books, 2, |book| &book.search);
}

/// The note of a payment with credit 1 on each book.
pub fn notes(books: &[(&str, Measured)]) {
    println!("\n### The note of a payment with credit 1\n");
    println!("A Payment by number with credit 1 less one with credit 0, both carried out once before they are timed, so that rows and texts are near; in the rows above they have to be fetched, the text's 500 bytes too.\n");
    println!("| Book | Proved, µs | Second engine, µs | Proved ÷ second |");
    println!("|---|--:|--:|--:|");
    steps(books, 2, |book| &book.note);
}

/// Deliveries that wait, on each book, and what waiting takes by itself.
pub fn waiting(books: &[(&str, Measured)], waiting: &Waiting) {
    println!("\n### Deliveries that wait\n");
    println!("A Delivery queued and then run, beside a plain one at once, each on a book of the same orders; the books are dealt out anew after each round.\n");
    println!("| Book | Queued and run, µs | Plain Delivery, µs | Second engine, queued and run, µs | Queued and run ÷ plain | Proved ÷ second |");
    println!("|---|--:|--:|--:|--:|--:|");
    steps(books, 3, |book| &book.run);
    println!("\nThe queuing alone, into a list that is emptied whenever sixteen wait; and what queuing and running take beside the Delivery, one queued and run less a plain one on the smallest book, where none has an order to deliver.\n");
    println!("| | Proved, µs | Second engine, µs | Proved ÷ second |");
    println!("|---|--:|--:|--:|");
    step_line("Queuing", &waiting.queuing, 2);
    step_line("Queued and run less plain", &waiting.added, 2);
}

/// The lines of a step's table, one a book; the quotients with so many places.
fn steps(books: &[(&str, Measured)], places: usize, pick: impl Fn(&Measured) -> &Step) {
    for (title, book) in books {
        step_line(title, pick(book), places);
    }
}

fn step_line(title: &str, step: &Step, places: usize) {
    let times = step.times.iter().map(|&micros| time(micros));
    let quotients = step
        .to_others
        .iter()
        .map(|times| format!("{times:.places$}"));
    let cells: Vec<String> = times.chain(quotients).collect();
    println!("| {title} | {} |", cells.join(" | "));
}

/// Times at each size, and the largest as a multiple of the smallest.
pub fn growth(titles: &[&str], sizes: &[Measured]) {
    let heads: Vec<String> = titles.iter().map(|title| format!("{title}, µs")).collect();
    println!(
        "\n| Call | Who | {} | {} ÷ {} |",
        heads.join(" | "),
        titles[titles.len() - 1],
        titles[0]
    );
    println!("|---|---|{}--:|", "--:|".repeat(titles.len()));
    for (place, first) in sizes[0].rows.iter().enumerate() {
        line(first.name, "proved", sizes, |rows| Some(rows[place].proved));
        line("", "second engine", sizes, |rows| Some(rows[place].second));
        line("", "SQLite", sizes, |rows| Some(rows[place].sql));
        line("", "plain sum", sizes, |rows| rows[place].sum);
    }
}

fn line(call: &str, who: &str, sizes: &[Measured], pick: impl Fn(&[Row]) -> Option<f64>) {
    let times: Vec<f64> = sizes.iter().filter_map(|book| pick(&book.rows)).collect();
    if let (Some(first), Some(last)) = (times.first(), times.last()) {
        let cells: Vec<String> = times.iter().map(|&t| time(t)).collect();
        println!(
            "| {call} | {who} | {} | {:.1} |",
            cells.join(" | "),
            last / first
        );
    }
}

/// What a note may take, in microseconds.
const LONGEST_NOTE: f64 = 0.060;

/// What queuing a Delivery may take, in microseconds, and a Delivery queued and run as a multiple of a plain one.
const LONGEST_QUEUING: f64 = 0.050;
const MOST_OF_A_DELIVERY: f64 = 1.02;

/// What New-Order's pass over the top-up table may take as a multiple of the plain sum.
const LONGEST_PASS: f64 = 2.5;

/// What misses what was set out to reach, over all books.
pub fn missed(books: &[(&str, Measured)], waiting: &Waiting, table: &Table) {
    println!("\n### What misses the mark\n\nSlower than the second engine (with credit 1, 1.1 times its time), or under half the speed of the plain sum (Payment by name, Delivery, Order-Status, Stock-Level), or a note of more than {:.0} ns, queuing of more than {:.0} ns, a Delivery queued and run of more than {MOST_OF_A_DELIVERY} of a plain one, or a pass over the top-up table of more than {LONGEST_PASS} times the plain sum's time, or the second engine's:\n", 1_000.0 * LONGEST_NOTE, 1_000.0 * LONGEST_QUEUING);
    let mut any = false;
    for (title, book) in books {
        for row in &book.rows {
            any |= miss(title, row);
        }
        any |= miss_step(title, book);
    }
    let queuing = waiting.queuing.times[0];
    if queuing > LONGEST_QUEUING {
        println!("- Queuing: {:.0} ns.", 1_000.0 * queuing);
        any = true;
    }
    any |= miss_table(table);
    if !any {
        println!("- nothing.");
    }
}

/// The note, and a Delivery queued and run.
fn miss_step(title: &str, book: &Measured) -> bool {
    let (note, of_plain) = (book.note.times[0], book.run.to_others[0]);
    if note > LONGEST_NOTE {
        println!("- {title}, the note: {:.0} ns.", 1_000.0 * note);
    }
    if of_plain > MOST_OF_A_DELIVERY {
        println!("- {title}, a Delivery queued and run: {of_plain:.3} of a plain one.");
    }
    note > LONGEST_NOTE || of_plain > MOST_OF_A_DELIVERY
}

/// The pass over the top-up table; beside the second engine's to two places, since the two may be one and the same loop.
fn miss_table(table: &Table) -> bool {
    let (to_second, to_sum) = (table.pass.to_others[0], table.pass.to_others[1]);
    let slower = (100.0 * to_second).round() > 100.0;
    if slower {
        println!(
            "- The pass over the top-up table: {to_second:.2} times the second engine's time."
        );
    }
    if to_sum > LONGEST_PASS {
        println!("- The pass over the top-up table: {to_sum:.2} times the plain sum's time.");
    }
    slower || to_sum > LONGEST_PASS
}

fn miss(title: &str, row: &Row) -> bool {
    use crate::requests::Call;
    let to_second = row.to_second;
    let most = match row.call {
        Call::PaymentBadCredit => 1.1,
        _ => 1.0,
    };
    let to_sum = row
        .to_sum
        .filter(|_| row.call != Call::NewOrder)
        .unwrap_or_default();
    if to_second > most {
        println!(
            "- {title}, {}: {to_second:.2} times the second engine's time.",
            row.name
        );
    }
    if to_sum > 2.0 {
        println!(
            "- {title}, {}: {to_sum:.2} times the plain sum's time.",
            row.name
        );
    }
    to_second > most || to_sum > 2.0
}

/// How many times as fast as SQLite on disk `bookkeeper run` has to be, piped and one line at a time.
const LEAST_PIPED: f64 = 10.0;
const LEAST_SINGLE: f64 = 1.0;

/// Books on disk: the mix, the start, and what misses what was set out to reach.
pub fn on_disk(books: &[Mixed], started: &Started) {
    println!("\n## A book on disk\n");
    println!("| Book | SQLite, µs | Piped, µs | One line at a time, µs | A line appended, µs | A page written over, µs | SQLite ÷ piped | SQLite ÷ one at a time | SQLite ÷ appended | SQLite ÷ written over |");
    println!("|---|--:|--:|--:|--:|--:|--:|--:|--:|--:|");
    for book in books {
        step_line(book.title, &book.step, 2);
    }
    println!();
    for Mixed {
        title,
        requests,
        committed,
        records,
        record_bytes,
        image,
        ..
    } in books
    {
        println!("- {title}: {requests} requests, the same answers of all three, {committed} committed, {records} records of {record_bytes} bytes; an image at the end in {} s.", time(*image));
    }
    start_lines(started);
    println!("\nUnder {LEAST_PIPED} times SQLite's speed piped, or slower than SQLite one line at a time:\n");
    let missed = books.iter().filter(|book| miss_on_disk(book)).count();
    if missed == 0 {
        println!("- nothing.");
    }
}

/// A million records take what these have taken beyond a new book's start.
fn start_lines(started: &Started) {
    let Started {
        empty,
        records,
        by_records,
        by_image,
    } = *started;
    let a_million = |seconds: f64| time((seconds - empty) * 1e6 / records as f64);
    println!("\n| `run` starts | Records | To its first answer, s | More than a new book's, s a million records |");
    println!("|---|--:|--:|--:|");
    println!("| A new book | 0 | {} | – |", time(empty));
    for (title, seconds) in [
        ("From the opening image", by_records),
        ("From the newest image", by_image),
    ] {
        println!(
            "| {title} | {records} | {} | {} |",
            time(seconds),
            a_million(seconds)
        );
    }
}

fn miss_on_disk(book: &Mixed) -> bool {
    let [piped, single] = [book.step.to_others[0], book.step.to_others[1]];
    let title = book.title;
    if piped < LEAST_PIPED {
        println!("- {title}, piped: {piped:.2} times SQLite's speed.");
    }
    if single < LEAST_SINGLE {
        println!("- {title}, one line at a time: {single:.2} times SQLite's speed.");
    }
    piped < LEAST_PIPED || single < LEAST_SINGLE
}

/// Processor, cores, memory, and the versions of what was built with.
pub fn machine() {
    let field = |file: &str, name: &str| {
        let text = fs::read_to_string(file).unwrap_or_default();
        let line = text
            .lines()
            .find(|line| line.starts_with(name))
            .unwrap_or_default();
        line.split(':')
            .nth(1)
            .unwrap_or_default()
            .trim()
            .to_string()
    };
    println!("## Machine and check\n");
    let cores = std::thread::available_parallelism().map_or(0, usize::from);
    let kilobytes = field("/proc/meminfo", "MemTotal")
        .trim_end_matches(" kB")
        .parse()
        .unwrap_or(0.0);
    println!(
        "Machine: {}, {cores} cores, cache of {}, {:.0} GiB.",
        field("/proc/cpuinfo", "model name"),
        field("/proc/cpuinfo", "cache size"),
        kilobytes / f64::from(1 << 20)
    );
    println!("SQLite {}.", crate::sqlite::version());
}
