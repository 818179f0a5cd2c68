//! `verify`'s tally against the engine: what the library did over random lists has no difference, and one number, byte, answer or record that is
//! otherwise is always said. Document 01's listing and cases are judged without the engine.

use bookkeeper::book::{Book, Sizes, DISTRICTS};
use bookkeeper::carry::carry_out;
use bookkeeper::journal::{Position, Reader, Record, Writer};
use bookkeeper::verify::{verify, Tally, Verified};
use bookkeeper::RULES;

/// Random numbers that are the same each time (splitmix64).
struct Dice(u64);

impl Dice {
    fn below(&mut self, n: usize) -> usize {
        self.0 = self.0.wrapping_add(0x9e37_79b9_7f4a_7c15);
        let mixed = (self.0 ^ (self.0 >> 30)).wrapping_mul(0xbf58_476d_1ce4_e5b9);
        let mixed = (mixed ^ (mixed >> 27)).wrapping_mul(0x94d0_49bb_1331_11eb);
        ((mixed ^ (mixed >> 31)) % n as u64) as usize
    }

    fn within(&mut self, low: i64, high: i64) -> i64 {
        low + self.below((high - low + 1) as usize) as i64
    }

    /// 1 to the limit; once in sixty just outside.
    fn place(&mut self, limit: usize) -> usize {
        match self.below(120) {
            0 => 0,
            1 => limit + 1,
            _ => 1 + self.below(limit),
        }
    }
}

const LAST_NAMES: [&str; 4] = ["ALM", "ALM HOF", "BERG", "ABCDEFGHIJKLMNOP"];
const FIRST_NAMES: [&str; 4] = ["EVA", "BO", "EVA MARIA", ""];

/// A new book with masters of all kinds. Slots that are not in use and the texts hold anything.
fn opened(sizes: [usize; 5], dice: &mut Dice) -> Book {
    let s = Sizes::of(sizes).expect("sizes in range");
    let mut book = Book::blank(s);
    for w in 1..=s.warehouses {
        book.nums[s.warehouse_at(w)] = dice.within(0, 9_999);
        for i in 1..=s.items {
            book.nums[s.stock_at(w, i)] = dice.within(0, 60);
        }
        for d in 1..=DISTRICTS {
            book.nums[s.district_at(w, d)] = dice.within(0, 9_999);
            for c in 1..=s.customers {
                let at = s.customer_at(w, d, c);
                (book.nums[at], book.nums[at + 1]) = (dice.within(0, 1), dice.within(0, 9_999));
                let name = format!("{:16}{:16}", LAST_NAMES[dice.below(4)], FIRST_NAMES[dice.below(4)]);
                book.names[32 * s.farm(w, d, c)..][..32].copy_from_slice(name.as_bytes());
            }
        }
    }
    for i in 1..=s.items {
        book.nums[s.item_at(i)] = if i == 3 { 0 } else { dice.within(1, 99_999) };
        let margin = dice.within(0, 60);
        (book.topup[2 * i - 2], book.topup[2 * i - 1]) = (margin, dice.within(10, 200));
    }
    let slots = s.order_at(1, 1, 1);
    book.nums[slots..].iter_mut().for_each(|number| *number = dice.within(-5, 5));
    book.notes.iter_mut().step_by(7).for_each(|byte| *byte = dice.below(256) as u8);
    assert_eq!(book.opening(), [0, 0]);
    book
}

/// A request line of any kind; some are to be refused, some have no form.
fn request(s: &Sizes, dice: &mut Dice) -> String {
    let (w, d, c) = (dice.place(s.warehouses), dice.place(DISTRICTS), dice.place(s.customers));
    let date = dice.place(6_342_969_600);
    match dice.below(40) {
        0..=12 => {
            let most = if dice.below(4) == 0 { 15 } else { 4 };
            let lines = 1 + dice.below(most);
            let line = |_| {
                let supply = if dice.below(3) == 0 { dice.place(s.warehouses) } else { w };
                format!("\t{}\t{supply}\t{}", dice.place(s.items), dice.place(10))
            };
            format!("N\t{w}\t{d}\t{c}\t{date}{}\n", (0..lines).map(line).collect::<String>())
        }
        13..=26 => {
            let (pw, pd, amount) = (dice.place(s.warehouses), dice.place(DISTRICTS), dice.within(90, 500_010));
            let who = if dice.below(2) == 0 { format!("#{c}") } else { format!("={}", LAST_NAMES[dice.below(4)]) };
            format!("P\t{pw}\t{pd}\t{w}\t{d}\t{who}\t{date}\t{amount}\n")
        }
        27..=29 => format!("D\t{w}\t{}\t{date}\n", dice.place(10)),
        30..=33 => format!("Q\t{}\t{}\t{date}\n", dice.within(0, s.warehouses as i64 + 1), dice.within(0, 12)),
        34..=36 => format!("R\t{date}\n"),
        37 => format!("S\t{w}\t{d}\t#{c}\n"),
        38 => format!("L\t{w}\t{d}\t15\n"),
        _ => "N\t1\t1\t01\n".to_string(),
    }
}

/// A recorded request and its answer, an order's lifts with it, without byte 10.
type Recorded = (Vec<u8>, Vec<u8>);

/// Carries out random lines; answers what is recorded.
fn carried(book: &mut Book, dice: &mut Dice, count: usize) -> Vec<Recorded> {
    let mut records = Vec::new();
    for _ in 0..count {
        let (line, mut answer) = (request(&book.sizes, dice), Vec::new());
        let done = carry_out(book, line.as_bytes(), &mut answer);
        answer.pop();
        if let Some(lifts) = done.lifts {
            answer.extend_from_slice(format!("\t{lifts}").as_bytes());
        }
        if done.changed {
            records.push((line.trim_end_matches('\n').into(), answer));
        }
    }
    records
}

fn tally<'a>(opening: &'a Book, records: &[Recorded]) -> Result<Tally<'a>, String> {
    let mut tally = Tally::new(opening)?;
    for (number, (request, answer)) in (1..).zip(records) {
        tally.record(&Record { number, rules: RULES, request, answer })?;
    }
    Ok(tally)
}

fn judged(opening: &Book, records: &[Recorded], book: &Book) -> Result<Verified, String> {
    tally(opening, records).map(|tally| tally.compare(book))
}

/// What is said, be it differences or an error; empty where all is well.
fn said(opening: &Book, records: &[Recorded], book: &Book) -> String {
    judged(opening, records, book).map_or_else(|error| error, |verified| verified.differences.join("\n"))
}

fn text(record: &Recorded) -> String {
    format!("{} > {}", String::from_utf8_lossy(&record.0), String::from_utf8_lossy(&record.1))
}

/// A small book after some hundred requests, with slots left.
fn small() -> (Book, Vec<Recorded>, Book) {
    let mut dice = Dice(22);
    let opening = opened([2, 2, 3, 6, 90], &mut dice);
    let mut book = opening.clone();
    let records = carried(&mut book, &mut dice, 240);
    let used = book.nums[5];
    assert!(used > 40 && used < 90, "{used} payments");
    assert!(book.queue.count > 0, "none waits");
    (opening, records, book)
}

#[test]
fn random_lists_have_no_difference() {
    for (seed, sizes) in [[2, 5, 7, 80, 3_000], [1, 1, 1, 200, 900], [2, 3, 4, 5, 60], [3, 9, 20, 30, 2_000]].into_iter().enumerate() {
        let mut dice = Dice(seed as u64);
        let opening = opened(sizes, &mut dice);
        let mut book = opening.clone();
        let records = carried(&mut book, &mut dice, 5_000);
        let verified = judged(&opening, &records, &book).expect("records that can be read");
        assert_eq!(verified.differences, [""; 0]);
        let answers: usize = records.iter().map(|record| record.1.split(|&byte| byte == b'\t').count() - 1).sum();
        let numbers = book.nums.len() + book.last.len() + book.topup.len() + 49 + answers + 1;
        assert_eq!(verified.numbers, numbers as u64);
        assert_eq!(verified.bytes, (book.names.len() + book.notes.len()) as u64);
        assert_eq!((verified.records, verified.count()), (records.len() as u64, 0));
        for what in ["> N\t0", "> P\t0", "\t=ALM", "> D\t0", "> Q\t0", "> R\t0", "> R\t4", "> R\t8"] {
            assert!(records.iter().any(|record| text(record).contains(what)), "{sizes:?} has no {what:?}");
        }
    }
}

#[test]
fn a_journal_is_read_and_judged() {
    let (opening, records, mut book) = small();
    let path = std::env::temp_dir().join(format!("tally-{}", std::process::id()));
    let mut journal = Writer::new(std::fs::File::create(&path).expect("a file"), Position::start(7));
    for (request, answer) in &records {
        journal.add(request, answer, None);
    }
    journal.sync().expect("a journal on disk");
    let bytes = std::fs::read(&path).expect("the journal");
    std::fs::remove_file(&path).expect("its end");
    let verified = verify(&opening, &mut Reader::new(&bytes[..], 7), &book).expect("a whole journal");
    assert_eq!((verified.count(), verified.records), (0, records.len() as u64));
    book.nums[5] += 1;
    assert_eq!(verify(&opening, &mut Reader::new(&bytes[..], 7), &book).expect("a whole journal").count(), 1);
    assert!(verify(&opening, &mut Reader::new(&bytes[..], 8), &book).is_err());
}

/// A cell of the book as it stands is changed, judged and set back.
fn changed<T: Copy>(book: &mut Book, tally: &Tally, cell: impl Fn(&mut Book) -> &mut T, other: impl Fn(T) -> T) -> String {
    let was = *cell(book);
    *cell(book) = other(was);
    let verified = tally.compare(book);
    assert_eq!((verified.count(), verified.differences.len()), (1, 1), "{:?}", verified.differences);
    *cell(book) = was;
    verified.differences.into_iter().next().unwrap_or_default()
}

#[test]
fn every_number_and_byte_that_is_changed_is_said() {
    let (opening, records, mut book) = small();
    let tally = tally(&opening, &records).expect("records that can be read");
    for at in 0..book.nums.len() {
        let difference = changed(&mut book, &tally, |book| &mut book.nums[at], |number| number + 1);
        let number = book.nums[at];
        assert!(difference.ends_with(&format!(" is {}, by the tally {number}", number + 1)), "{difference}");
    }
    for at in 0..book.last.len() {
        assert!(changed(&mut book, &tally, |book| &mut book.last[at], |number| number - 1).contains("last order"));
    }
    for at in 0..book.topup.len() {
        changed(&mut book, &tally, |book| &mut book.topup[at], |number| number + 1);
    }
    for at in 0..book.names.len() {
        assert!(changed(&mut book, &tally, |book| &mut book.names[at], |byte| byte + 1).contains("name from byte"));
    }
    for at in 0..book.notes.len() {
        let difference = changed(&mut book, &tally, |book| &mut book.notes[at], |byte| byte ^ 1);
        assert!(difference.contains(&format!("notes from byte {} on", at % 500 + 1)), "{difference}");
    }
    assert!(changed(&mut book, &tally, |book| &mut book.queue.count, |number| number + 1).starts_with("waiting list: count is"));
    for k in 0..16 {
        let place = format!("waiting list place {}: ", k + 1);
        assert!(changed(&mut book, &tally, |book| &mut book.queue.waiting[k].date, |_| u64::MAX).starts_with(&(place.clone() + "queuing date")));
        assert!(changed(&mut book, &tally, |book| &mut book.queue.waiting[k].warehouse, |number| number + 1).starts_with(&(place.clone() + "depot")));
        assert!(changed(&mut book, &tally, |book| &mut book.queue.waiting[k].carrier, |number| number + 1).starts_with(&(place + "carrier")));
    }
    assert_eq!(tally.compare(&book).count(), 0);
}

#[test]
fn a_difference_names_row_and_column() {
    let (opening, records, mut book) = small();
    let tally = tally(&opening, &records).expect("records that can be read");
    let s = book.sizes;
    let rows: [(usize, &str, &[&str]); 9] = [
        (0, "head", &["W", "C", "I", "O", "H", "history count"]),
        (s.warehouse_at(2), "depot 2", &["tax", "money to date"]),
        (s.district_at(2, 3), "district 2 3", &["tax", "money to date", "next order"]),
        (s.customer_at(2, 3, 1), "farm 2 3 1", &["credit", "discount", "balance", "payments to date", "payment count", "delivery count"]),
        (s.item_at(2), "item 2", &["price"]),
        (s.stock_at(2, 3), "stock 2 3", &["on hand", "lots to date", "order count", "remote count"]),
        (s.order_at(2, 10, 6), "order 2 10 6", &["customer", "entry date", "carrier", "line count", "all-local", "waiting"]),
        (s.order_at(1, 4, 1) + 6 + 5 * 14, "order 1 4 1 line 15", &["item", "supplying depot", "quantity", "amount", "delivery date"]),
        (s.history_at(7), "history 7", &["farm", "its district", "its depot", "paying district", "paying depot", "date", "amount"]),
    ];
    for (at, row, columns) in rows {
        for (k, column) in columns.iter().enumerate() {
            let difference = changed(&mut book, &tally, |book| &mut book.nums[at + k], |number| number - 1);
            assert!(difference.starts_with(&format!("{row}: {column} is ")), "{difference}");
        }
    }
    let farm = s.farm(2, 3, 1);
    assert!(changed(&mut book, &tally, |book| &mut book.last[farm], |number| number + 1).starts_with("farm 2 3 1: last order is "));
    assert!(changed(&mut book, &tally, |book| &mut book.topup[3], |number| number + 1).starts_with("item 2: lift is "));
    let first = changed(&mut book, &tally, |book| &mut book.names[32 * farm + 16], |_| b'~');
    assert!(first.starts_with("farm 2 3 1: first name from byte 1 on is \"~"), "{first}");
}

#[test]
fn many_differences_are_counted() {
    let (opening, records, mut book) = small();
    book.nums[6..31].iter_mut().for_each(|number| *number += 1);
    let verified = judged(&opening, &records, &book).expect("records that can be read");
    assert_eq!((verified.count(), verified.differences.len()), (25, 21));
    assert_eq!(verified.differences[20], "and 5 more");
    book.names.pop();
    assert_eq!(said(&opening, &records, &book), "the book's sizes or lengths are not those of the opening image");
    let other = Book::blank(Sizes::of([2, 2, 3, 6, 91]).expect("sizes in range"));
    assert_eq!(said(&opening, &records, &other), "the book's sizes or lengths are not those of the opening image");
}

#[test]
fn every_number_of_every_answer_is_judged() {
    let (opening, records, book) = small();
    for at in 0..records.len() {
        let fields: Vec<String> = String::from_utf8_lossy(&records[at].1).split('\t').map(str::to_string).collect();
        for k in 1..fields.len() {
            let (mut other, mut fields) = (records.clone(), fields.clone());
            fields[k] = (fields[k].parse::<i64>().expect("a number") + 1).to_string();
            other[at].1 = fields.join("\t").into_bytes();
            let said = said(&opening, &other, &book);
            assert!(said.starts_with(&format!("record {}: ", at + 1)), "{}: {said}", text(&other[at]));
            let lifts = fields[0] == "N" && k == 4;
            assert_eq!(said.lines().count(), 1 + usize::from(lifts), "{said}");
            assert!(!lifts || said.contains("\nall orders: sum of the recorded lifts is "), "{said}");
        }
    }
}

#[test]
fn records_left_out_doubled_or_exchanged_are_seen() {
    let (opening, records, book) = small();
    let payment = |record: &Recorded| record.0[0] == b'P';
    let mut exchanged = 0;
    for at in 0..records.len() {
        let mut without = records.clone();
        let record = without.remove(at);
        // A Delivery that finds no order at all leaves no trace but its record.
        if !text(&record).contains("> D\t0\t10\t") {
            assert_ne!(said(&opening, &without, &book), "", "left out: {}", text(&record));
            let mut twice = records.clone();
            twice.insert(at, record);
            assert_ne!(said(&opening, &twice, &book), "", "twice: {}", text(&records[at]));
        }
        if let Some(next) = (at + 1..records.len()).find(|&next| payment(&records[at]) && payment(&records[next])) {
            let mut other = records.clone();
            other.swap(at, next);
            assert_ne!(said(&opening, &other, &book), "", "exchanged: {} and {}", text(&records[at]), text(&records[next]));
            exchanged += 1;
        }
    }
    assert!(exchanged > 20);
}

/// Document 01's book.
fn paper() -> Book {
    let s = Sizes::of([1, 2, 5, 4, 8]).expect("sizes in range");
    let mut book = Book::blank(s);
    book.nums[s.warehouse_at(1)] = 1_000;
    for d in 1..=DISTRICTS {
        book.nums[s.district_at(1, d)] = 500;
        book.nums[s.customer_at(1, d, 1) + 1] = 1_000;
        for (c, name) in [(1, "EVA"), (2, "BO")] {
            book.names[32 * s.farm(1, d, c)..][..32].copy_from_slice(format!("{:16}{name:16}", "ALM").as_bytes());
        }
    }
    for (i, price) in [100, 250, 999, 0, 1_234].into_iter().enumerate() {
        book.nums[s.item_at(i + 1)] = price;
        book.nums[s.stock_at(1, i + 1)] = 20;
    }
    book
}

/// Records from text in which each space is a tab: request, `>`, answer.
fn records(lines: &[&str]) -> Vec<Recorded> {
    let tabbed = |part: &str| part.replace(' ', "\t").into_bytes();
    let parts = lines.iter().map(|line| line.split_once(" > ").expect("request > answer"));
    parts.map(|(request, answer)| (tabbed(request), tabbed(answer))).collect()
}

#[test]
fn the_papers_listing_and_cases() {
    let mut book = paper();
    let listing = [
        "N 1 1 1 100 1 1 10 2 1 3 > N 0 1 1811 0",
        "N 1 1 2 102 1 1 1 > N 0 2 115 1",
        "D 1 3 200 > D 0 9 1 0 0 0 0 0 0 0 0 0",
        "P 1 1 1 1 =ALM 201 500 > P 0 2 -500",
    ];
    let verified = judged(&book, &records(&listing), &book).expect("records that can be read");
    let stock = "stock 1 1: on hand is 20, by the tally 100";
    assert!(verified.differences.contains(&stock.to_string()), "{:?}", verified.differences);
    assert!(!verified.differences.iter().any(|difference| difference.starts_with("record")), "{:?}", verified.differences);
    // an exact half goes up. On hand 0 and 10 gives 81, 9,999 and 10 gives 9,989.
    let s = book.sizes;
    (book.nums[s.item_at(1)], book.nums[s.warehouse_at(1)]) = (10, 0);
    (book.nums[s.stock_at(1, 1)], book.nums[s.stock_at(1, 2)]) = (0, 9_999);
    let said = said(&book, &records(&["N 1 1 2 1 1 1 1 > N 0 1 11 1", "N 1 2 2 1 1 1 10 2 1 10 > N 0 1 2730 0"]), &book);
    assert!(!said.contains("record"), "{said}");
    assert!(said.contains("stock 1 1: on hand is 0, by the tally 80\n"), "{said}");
    assert!(said.contains("stock 1 2: on hand is 9999, by the tally 9989\n"), "{said}");
}

/// Records that no request could have left, and what is said of each.
const NONSENSE: [(&str, &str); 32] = [
    ("N 99 1 1 100 1 1 1 > N 0 1 100 0", "warehouse 99 is not 1 to 1"),
    ("N 1 11 1 100 1 1 1 > N 0 1 100 0", "district 11 is not 1 to 10"),
    ("N 1 1 3 100 1 1 1 > N 0 1 100 0", "customer 3 is not 1 to 2"),
    ("N 1 1 1 0 1 1 1 > N 0 1 100 0", "date 0 is not 1 to 6342969600"),
    ("N 1 1 1 1 > N 0 1 100 0", "number of lines 0 is not 1 to 15"),
    ("N 1 1 1 1 1 1 > N 0 1 100 0", "number of lines 0 is not 1 to 15"),
    ("N 1 1 1 1 1 1 1 1 > N 0 1 100 0", "the request has no form"),
    ("N 1 1 > N 0 1 100 0", "the request has no form"),
    ("N 1 1 1 1 6 1 1 > N 0 1 100 0", "item 6 is not 1 to 5"),
    ("N 1 1 1 1 4 1 1 > N 0 1 100 0", "price of item 4: 0 is not 1 to 99999"),
    ("N 1 1 1 1 1 2 1 > N 0 1 100 0", "supplying warehouse 2 is not 1 to 1"),
    ("N 1 1 1 1 1 1 11 > N 0 1 100 0", "quantity 11 is not 1 to 10"),
    ("N 1 1 1 1 1 1 01 > N 0 1 100 0", "\"01\" is not a number"),
    ("N 1 1 1 1 1 1 99999999999999999999 > N 0 1 100 0", "\"99999999999999999999\" is not a number"),
    ("N 1 1 1 1 1 1 1 > N 0 1 100", "the answer has 3 numbers and not 4"),
    ("N 1 1 1 1 1 1 1 > N 0 x 100 0", "\"x\" is not a number"),
    ("N 1 1 1 1 1 1 1 > P 0 1 100", "the answer is none to this request"),
    ("N 1 1 1 1 1 1 1 > N", "the answer is none to this request"),
    ("P 1 1 1 1 =BERG 201 500 > P 0 2 -500", "nobody has the last name \"BERG\""),
    ("P 1 1 1 1 =ABCDEFGHIJKLMNOPQ 201 500 > P 0 2 -500", "nobody has the last name \"ABCDEFGHIJKLMNOPQ\""),
    ("P 1 1 1 1 2 201 500 > P 0 2 -500", "the request has no form"),
    ("P 1 1 1 1 #-1 201 500 > P 0 2 -500", "customer -1 is not 1 to 2"),
    ("P 1 1 2 1 #1 201 500 > P 0 2 -500", "warehouse of the customer 2 is not 1 to 1"),
    ("P 1 1 1 0 #1 201 500 > P 0 2 -500", "district of the customer 0 is not 1 to 10"),
    ("P 1 1 1 1 #1 201 9223372036854775807 > P 0 2 -500", "amount 9223372036854775807 is not 100 to 500000"),
    ("D 2 1 1 > D 0 10 0 0 0 0 0 0 0 0 0 0", "warehouse 2 is not 1 to 1"),
    ("D 1 11 1 > D 0 10 0 0 0 0 0 0 0 0 0 0", "carrier 11 is not 1 to 10"),
    ("Q -1 1 1 > Q 0 0", "warehouse -1 is not 0 to 9999999999"),
    ("R 1 > R 0 1 1 1 1 10 0 0 0 0 0 0 0 0 0 0", "no Delivery waits"),
    ("S 1 1 #1 > S 0 1 0 0 0 0", "\"S\" is no request that is recorded"),
    ("\u{e9} 1 > \u{e9} 0", "\"\\xc3\\xa9\" is no request that is recorded"),
    (" > ", "the answer is none to this request"),
];

#[test]
fn nonsense_is_an_error_with_the_record() {
    let book = paper();
    for (line, why) in NONSENSE {
        let two = [records(&["Q 1 1 1 > Q 0 0", "R 2 > R 0 1 1 1 2 10 0 0 0 0 0 0 0 0 0 0"]), records(&[line])].concat();
        assert_eq!(said(&book, &two, &book), format!("record 3: {why}"), "{line}");
    }
}

#[test]
fn more_than_there_is_room_for_is_an_error() {
    let book = paper();
    let too_many = [
        ("N 1 1 1 1 1 1 1 > N 0 1 104 0", 5, "number of the order 5 is not 1 to 4"),
        ("P 1 1 1 1 #1 1 100 > P 0 1 -100", 9, "number of the payment 9 is not 1 to 8"),
        ("Q 9 0 1 > Q 0 0", 17, "place in the waiting list 17 is not 1 to 16"),
    ];
    for (line, count, why) in too_many {
        let said = said(&book, &records(&vec![line; count]), &book);
        assert!(said.ends_with(&format!("\nrecord {count}: {why}")), "{said}");
    }
}

#[test]
fn what_is_never_recorded_is_said() {
    let book = paper();
    for line in ["N 1 1 1 1 1 1 1 > N 9 0", "P 1 1 1 1 #1 1 100 > P 2 0", "D 1 1 1 > D 3 0", "Q 1 1 1 > Q 15 0", "R 1 > R 16 0"] {
        let said = said(&book, &records(&[line]), &book);
        assert!(said.starts_with("record 1: answered ") && said.ends_with(", and what was refused so is never recorded"), "{said}");
    }
    let two = records(&["Q 1 1 5 > Q 0 3", "S 1 1 #1 > S 0 1 0 0 0 0"]);
    assert_eq!(said(&book, &two, &book), "record 1: place is 3, by the tally 0\nrecord 2: \"S\" is no request that is recorded");
    let refused = records(&["Q 1 1 5 > Q 0 0", "R 6 > R 9 0 5 1 1 6 9"]);
    assert_eq!(said(&book, &refused, &book), "record 2: answer is 9, by the tally 0\nrecord 2: refusal is 9, by the tally 0");
    let by_date = records(&["Q 1 11 5 > Q 0 0", "R 0 > R 7 0 5 1 11 0 7"]);
    assert_eq!(said(&book, &by_date, &book), "");
}

#[test]
fn other_rules_and_other_openings_are_refused() {
    let mut book = paper();
    let old = Record { number: 12, rules: RULES + 1, request: b"D\t1\t1\t1", answer: b"" };
    let error = Tally::new(&book).and_then(|mut tally| tally.record(&old)).expect_err("other rules");
    assert_eq!(error, format!("record 12 was written under rules {}, this program judges by rules {RULES}", RULES + 1));
    // Numbers that opening would not accept are met when an order reckons with them.
    let (s, order) = (book.sizes, records(&["N 1 9 2 1 5 1 1 > N 0 1 1419 0"]));
    assert!(!said(&book, &order, &book).contains("record"));
    for at in [s.warehouse_at(1), s.district_at(1, 9), s.customer_at(1, 9, 2) + 1, s.item_at(5), s.stock_at(1, 5)] {
        let was = std::mem::replace(&mut book.nums[at], i64::MAX);
        let said = said(&book, &order, &book);
        assert!(said.starts_with("record 1: ") && said.contains(&format!(" {} is not ", i64::MAX)), "{said}");
        book.nums[at] = was;
    }
    for at in [8, 9] {
        let was = std::mem::replace(&mut book.topup[at], i64::MIN);
        assert!(said(&book, &order, &book).starts_with("record 1: "));
        book.topup[at] = was;
    }
    book.topup.pop();
    assert_eq!(said(&book, &[], &book), "the opening image's lengths are not those that its sizes want");
}
