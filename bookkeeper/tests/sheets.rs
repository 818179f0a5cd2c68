//! What `show` and `close` print. Tabs are written as spaces here; dates in tables are set as seconds and compared as text.

use bookkeeper::book::Book;
use bookkeeper::{carry, close, date, masters, show};
use std::collections::BTreeMap;

/// 2 depots, 2 farms a district (1 ALM EVA, good; 2 VON BERG, bad), 3 items at 100, 250 and 0, 4 orders a district, 8 payments; on hand 20.
fn new_book(orders: usize, payments: usize) -> Book {
    let mut text = format!("sizes\t2\t2\t3\t{orders}\t{payments}\nitem\t1\t100\nitem\t2\t250\t5\t50\nitem\t3\t0\n");
    for w in 1..=2 {
        text += &format!("depot\t{w}\t1000\nstock\t{w}\t1\t20\nstock\t{w}\t2\t20\nstock\t{w}\t3\t20\n");
        for d in 1..=10 {
            text += &format!("district\t{w}\t{d}\t500\nfarm\t{w}\t{d}\t1\tALM\tEVA\tgood\t1000\nfarm\t{w}\t{d}\t2\tVON BERG\t\tbad\t0\n");
        }
    }
    let book = masters::read(text.as_bytes()).expect("a sound book");
    assert_eq!(book.opening(), [0, 0]);
    book
}

/// Carries a line out and answers its answer, both without byte 10 and with spaces for tabs.
fn ask(book: &mut Book, line: &str) -> String {
    let mut answer = Vec::new();
    carry::carry_out(book, (line.replace(' ', "\t") + "\n").as_bytes(), &mut answer);
    String::from_utf8(answer).unwrap().trim_end().replace('\t', " ")
}

fn asked(book: &mut Book, lines: &[&str]) {
    for line in lines {
        assert_eq!(ask(book, line).split(' ').nth(1), Some("0"), "{line}");
    }
}

/// A table's rows, the header first, tabs written as `|`.
fn table(book: &Book, name: &str) -> Vec<String> {
    let mut out = Vec::new();
    show::table(book, name, &mut out).unwrap();
    let text = String::from_utf8(out).unwrap();
    assert!(text.ends_with('\n'));
    let rows: Vec<String> = text.lines().map(|row| row.replace('\t', "|")).collect();
    let columns = |row: &String| row.matches('|').count();
    assert!(rows.iter().all(|row| columns(row) == columns(&rows[0])), "a row without its columns");
    rows
}

/// Orders, payments, a delivery, a note, two Deliveries that wait.
fn used_book() -> Book {
    let mut book = new_book(4, 8);
    asked(
        &mut book,
        &[
            "N 1 1 1 86401 1 1 10 2 2 3",
            "N 1 1 2 86402 1 1 1",
            "N 2 10 2 86403 2 2 10 2 2 10",
            "D 1 3 172801",
            "P 1 1 1 1 #1 172802 500",
            "P 2 9 1 1 #2 172803 100",
            "P 2 10 2 10 #2 172804 700",
            "P 1 1 1 1 #2 172805 200",
            "Q 2 7 259201",
            "Q 1 8 259100",
        ],
    );
    book
}

#[test]
fn new_tables() {
    let book = new_book(4, 8);
    assert_eq!(table(&book, "depots"), ["depot|tax|paid", "1|1000|0", "2|1000|0"]);
    assert_eq!(table(&book, "items"), ["item|price|margin|lift", "1|100|10|91", "2|250|5|50", "3|0|10|91"]);
    assert_eq!(table(&book, "orders").len(), 1);
    assert_eq!(table(&book, "history"), ["payment|depot|district|farm|paid_depot|paid_district|date|amount"]);
    assert_eq!(table(&book, "notes"), ["depot|district|farm|note"]);
    assert_eq!(table(&book, "waiting"), ["place|queued|depot|carrier"]);
    assert_eq!(table(&book, "farms").len(), 41);
    assert_eq!(table(&book, "stock").len(), 7);
    assert!(show::table(&book, "farm", &mut Vec::new()).is_err());
    assert_eq!(show::TABLES, ["depots", "districts", "farms", "items", "stock", "orders", "history", "notes", "waiting"]);
}

#[test]
fn used_tables() {
    let book = used_book();
    assert_eq!(table(&book, "depots"), ["depot|tax|paid", "1|1000|700", "2|1000|800"]);
    let districts = table(&book, "districts");
    assert_eq!(districts.len(), 21);
    assert_eq!(districts[..3], ["depot|district|tax|paid|next_order", "1|1|500|700|3", "1|2|500|0|1"]);
    assert_eq!(&districts[19..], ["2|9|500|100|1", "2|10|500|700|2"]);
    let farms = table(&book, "farms");
    let expected = [
        "depot|district|farm|last|first|credit|discount|balance|paid|payments|deliveries|last_order",
        "1|1|1|ALM|EVA|good|1000|1250|500|1|1|1",
        "1|1|2|VON BERG||bad|0|-300|300|2|0|2",
        "1|2|1|ALM|EVA|good|1000|0|0|0|0|0",
    ];
    assert_eq!((farms.len(), &farms[..4], farms[40].as_str()), (41, &expected.map(String::from)[..], "2|10|2|VON BERG||bad|0|-700|700|1|0|1"));
    let stock = table(&book, "stock");
    assert_eq!(stock[0], "depot|item|on_hand|lots|orders|remote");
    assert_eq!(stock[1..], ["1|1|100|11|2|0", "1|2|20|0|0|0", "1|3|20|0|0|0", "2|1|20|0|0|0", "2|2|47|23|3|1", "2|3|20|0|0|0"]);
}

#[test]
fn used_lists() {
    let book = used_book();
    let orders = [
        "depot|district|order|farm|entry_date|carrier|waiting|all_local|line|item|supplied_by|quantity|amount|delivery_date",
        "1|1|1|1|1900-01-02 00:00:00|3|0|0|1|1|1|10|1000|1900-01-03 00:00:00",
        "1|1|1|1|1900-01-02 00:00:00|3|0|0|2|2|2|3|750|1900-01-03 00:00:00",
        "1|1|2|2|1900-01-02 00:00:01|0|1|1|1|1|1|1|100|",
        "2|10|1|2|1900-01-02 00:00:02|0|1|1|1|2|2|10|2500|",
        "2|10|1|2|1900-01-02 00:00:02|0|1|1|2|2|2|10|2500|",
    ];
    assert_eq!(table(&book, "orders"), orders);
    let history = [
        "payment|depot|district|farm|paid_depot|paid_district|date|amount",
        "1|1|1|1|1|1|1900-01-03 00:00:01|500",
        "2|1|1|2|2|9|1900-01-03 00:00:02|100",
        "3|2|10|2|2|10|1900-01-03 00:00:03|700",
        "4|1|1|2|1|1|1900-01-03 00:00:04|200",
    ];
    assert_eq!(table(&book, "history"), history);
    assert_eq!(table(&book, "notes"), ["depot|district|farm|note", "1|1|2|2 1 1 1 1 200;2 1 1 9 2 100;", "2|10|2|2 10 2 10 2 700;"]);
    assert_eq!(table(&book, "waiting"), ["place|queued|depot|carrier", "1|1900-01-04 00:00:00|2|7", "2|1900-01-03 23:58:19|1|8"]);
}

#[test]
fn a_run_leaves_the_waiting_table() {
    let mut book = used_book();
    assert_eq!(ask(&mut book, "R 259300"), "R 0 259201 2 7 259300 9 0 0 0 0 0 0 0 0 0 1");
    assert_eq!(table(&book, "waiting"), ["place|queued|depot|carrier", "1|1900-01-03 23:58:19|1|8"]);
    assert_eq!(table(&book, "orders")[4], "2|10|1|2|1900-01-02 00:00:02|7|0|1|1|2|2|10|2500|1900-01-04 00:01:39");
}

/// Sixteen wait, every order slot and history slot is used: the last rows are shown too.
#[test]
fn full_tables() {
    let mut book = new_book(1, 2);
    for place in 1..=16 {
        asked(&mut book, &[&format!("Q 2 {} {place}", 1 + place % 10)]);
    }
    asked(&mut book, &[&format!("N 2 10 2 5{} 1 1 2", " 1 1 1".repeat(14)), "P 1 1 1 1 #1 6 100"]);
    asked(&mut book, &["P 1 1 1 1 #1 6342969600 500000"]);
    assert_eq!(table(&book, "waiting")[16], "16|1900-01-01 00:00:15|2|7");
    assert_eq!((table(&book, "orders").len(), table(&book, "history").len()), (16, 3));
    assert_eq!(table(&book, "orders")[15], "2|10|1|2|1900-01-01 00:00:04|0|1|0|15|1|1|2|200|");
    assert_eq!(table(&book, "history")[2], "2|1|1|1|1|1|2100-12-31 23:59:59|500000");
}

/// A text may hold any bytes; none of them breaks a row. A text of 500 bytes is shown whole.
#[test]
fn notes_of_any_bytes() {
    let mut book = new_book(4, 8);
    let at = book.sizes.farm(1, 1, 2) * 500;
    book.notes[at..at + 6].copy_from_slice(b" a\t\n\xffb");
    book.notes[at + 500] = b'\t';
    let end = book.notes.len();
    book.notes[end - 500..].fill(b'x');
    assert_eq!(table(&book, "notes"), ["depot|district|farm|note", "1|1|2| a???b", "1|2|1|?", &format!("2|10|2|{}", "x".repeat(500))]);
}

const STOCK: &str = "depot|item|lots_ordered|lots_delivered";
const FARMS: &str = "depot|district|farm|last|first|brought_forward|orders_delivered|payments|carried_forward";

/// Both tables without their headers, and where they do not add up.
fn closed(book: &Book, from: &str, until: &str) -> (Vec<String>, Vec<String>, Vec<String>) {
    let mut out = Vec::new();
    let faults = close::close(book, date::from(from).unwrap(), date::until(until).unwrap(), &mut out).unwrap();
    let text = String::from_utf8(out).unwrap().replace('\t', "|");
    assert!(text.ends_with('\n') && !text.ends_with("\n\n"));
    let (stock, farms) = text.split_once("\n\n").expect("two tables");
    let rows = |table: &str, header: &str| {
        let rows: Vec<String> = table.lines().map(String::from).collect();
        assert_eq!(rows[0], header);
        assert!(rows.iter().all(|row| row.matches('|').count() == header.matches('|').count()));
        rows[1..].to_vec()
    };
    (rows(stock, STOCK), rows(farms, FARMS), faults)
}

/// A line in which each date is written as a text of its own between braces.
fn dated(line: &str) -> String {
    let (before, rest) = line.split_once('{').expect("a date");
    let (text, after) = rest.split_once('}').expect("a date's end");
    format!("{before}{}{after}", date::from(text).unwrap())
}

/// Movements before, within and after November; the first and the last second count; clocks go back.
fn november() -> Book {
    let mut book = new_book(10, 20);
    for line in [
        "N 1 1 1 {2026-10-31 23:59:59} 1 1 10",      // ordered before, delivered before
        "D 1 3 {2026-10-31 23:59:59}",
        "P 1 1 1 1 #1 {2026-10-31 23:59:59} 300",    // before
        "N 1 1 1 {2026-10-05} 1 1 4 2 2 2",          // ordered before, delivered within
        "D 1 3 {2026-11-01}",                        // the first second
        "N 1 1 1 {2026-11-30 23:59:59} 2 1 8",       // ordered in the last second, delivered after
        "N 1 1 2 {2026-11-20} 1 2 3",                // ordered within, delivered within: the clock goes back
        "D 1 3 {2026-12-01}",
        "P 1 1 1 1 #1 {2026-12-01} 1000",            // after
        "D 1 4 {2026-11-30 23:59:59}",               // the last second, carried out after December's
        "P 2 5 1 1 #1 {2026-11-01} 100",             // within, at another depot
        "P 1 1 1 1 #2 {2026-11-30 23:59:59} 300",    // within
        "P 1 1 1 1 #1 {2026-11-15} 200",             // within
        "N 1 1 2 {2026-12-24} 1 1 1",                // ordered after, waiting
        "N 2 10 1 {2026-11-11} 2 2 5",               // ordered within, delivered within
        "N 2 9 1 {2027-01-01} 2 2 6",                // ordered after, delivered within: the clock goes back
        "D 2 1 {2026-11-12}",
        "P 2 3 2 3 #2 {2026-09-01} 999",             // before, nothing since
    ] {
        asked(&mut book, &[&dated(line)]);
    }
    book
}

#[test]
fn a_month() {
    let (stock, farms, faults) = closed(&november(), "2026-11-01", "2026-11-30");
    assert_eq!(stock, ["1|1|0|4", "1|2|8|0", "2|1|3|3", "2|2|5|13", "total||16|20"]);
    let expected = [
        "1|1|1|ALM|EVA|700|900|300|1300",
        "1|1|2|VON BERG||0|300|300|0",
        "2|3|2|VON BERG||-999|0|0|-999",
        "2|9|1|ALM|EVA|0|1500|0|1500",
        "2|10|1|ALM|EVA|0|1250|0|1250",
        "total|||||-299|3950|600|3051",
    ];
    assert_eq!((farms, faults), (expected.map(String::from).to_vec(), vec![]));
}

#[test]
fn the_months_beside_it_and_all_time() {
    let book = november();
    let (stock, farms, faults) = closed(&book, "2026-12-01", "2026-12-31");
    assert_eq!(stock, ["1|1|1|0", "1|2|0|8", "total||1|8"]);
    let expected = [
        "1|1|1|ALM|EVA|1300|2000|1000|2300",
        "2|3|2|VON BERG||-999|0|0|-999",
        "2|9|1|ALM|EVA|1500|0|0|1500",
        "2|10|1|ALM|EVA|1250|0|0|1250",
        "total|||||3051|2000|1000|4051",
    ];
    assert_eq!((farms, faults), (expected.map(String::from).to_vec(), vec![]));
    let (stock, farms, faults) = closed(&book, "1900-01-01", "2100-12-31");
    assert_eq!(stock, ["1|1|15|14", "1|2|8|8", "2|1|3|3", "2|2|13|13", "total||39|38"]);
    assert_eq!((farms[0].as_str(), farms[5].as_str()), ("1|1|1|ALM|EVA|0|3900|1600|2300", "total|||||0|6950|2899|4051"));
    assert!(faults.is_empty());
    let (stock, farms, faults) = closed(&book, "1900-01-01", "2026-08-31");
    assert_eq!((stock, farms, faults), (vec!["total||0|0".to_string()], vec!["total|||||0|0|0|0".to_string()], vec![]));
}

#[test]
fn where_it_does_not_add_up() {
    let (sound, sizes) = (november(), november().sizes);
    let faults = |damage: &dyn Fn(&mut Book)| {
        let mut book = sound.clone();
        damage(&mut book);
        closed(&book, "2026-11-01", "2026-11-30").2
    };
    assert_eq!(faults(&|book| book.nums[sizes.customer_at(1, 1, 1) + 2] += 1), ["farm 1 1 1: delivered less paid is 2300, its balance is 2301"]);
    // A farm that is not printed.
    assert_eq!(faults(&|book| book.nums[sizes.customer_at(2, 7, 2) + 2] = -5), ["farm 2 7 2: delivered less paid is 0, its balance is -5"]);
    assert_eq!(faults(&|book| book.nums[sizes.stock_at(2, 3) + 1] = 7), ["stock 2 3: its order lines have 0 lots, its lots to date are 7"]);
    assert_eq!(faults(&|book| book.nums[sizes.order_at(1, 1, 1) + 6 + 2] = 9), ["stock 1 1: its order lines have 14 lots, its lots to date are 15"]);
    assert_eq!(faults(&|book| book.nums[sizes.order_at(1, 1, 1) + 6 + 3] = 1), ["farm 1 1 1: delivered less paid is 1301, its balance is 2300"]);
    assert_eq!(faults(&|book| book.nums[sizes.history_at(1) + 6] = 301), ["farm 1 1 1: delivered less paid is 2299, its balance is 2300"]);
    // An order that changed hands, a payment too few, a line too few.
    let hands = ["farm 1 1 1: delivered less paid is 1300, its balance is 2300", "farm 1 1 2: delivered less paid is 1000, its balance is 0"];
    assert_eq!(faults(&|book| book.nums[sizes.order_at(1, 1, 1)] = 2), hands);
    assert_eq!(faults(&|book| book.nums[5] -= 1), ["farm 2 3 2: delivered less paid is 0, its balance is -999"]);
    let line = ["stock 2 2: its order lines have 11 lots, its lots to date are 13", "farm 1 1 1: delivered less paid is 1800, its balance is 2300"];
    assert_eq!(faults(&|book| book.nums[sizes.order_at(1, 1, 2) + 3] = 1), line);
}

/// Rows that name what the book has not are said, and nothing is read beside the book.
#[test]
fn rows_out_of_range() {
    let (sound, sizes) = (november(), november().sizes);
    let first = |damage: &dyn Fn(&mut Book)| {
        let mut book = sound.clone();
        damage(&mut book);
        show::TABLES.iter().for_each(|name| drop(table(&book, name)));
        closed(&book, "2026-11-01", "2026-11-30").2.first().cloned().unwrap_or_default()
    };
    for wrong in [0, -1, 4, i64::MIN, i64::MAX] {
        let said = first(&|book| book.nums[sizes.order_at(1, 1, 2) + 11] = wrong);
        assert_eq!(said, format!("order 1 1 2: line 2 names farm 1, item {wrong} and depot 2, one of which the book has not"));
        let said = first(&|book| book.nums[sizes.order_at(1, 1, 2)] = wrong);
        assert_eq!(said, format!("order 1 1 2: line 1 names farm {wrong}, item 1 and depot 1, one of which the book has not"));
        let said = first(&|book| book.nums[sizes.history_at(2) + 2] = wrong);
        assert_eq!(said, format!("payment 2: the book has no farm {wrong} 1 1"));
        let _ = first(&|book| book.nums[sizes.order_at(1, 1, 2) + 3] = wrong);
        let _ = first(&|book| book.nums[sizes.district_at(1, 1) + 2] = wrong);
        let _ = first(&|book| book.nums[5] = wrong);
        let _ = first(&|book| book.queue.count = wrong as u64);
    }
}

/// Farm, entry date, lines of item, depot and quantity, delivery date.
type Order = (u64, i64, Vec<[u64; 3]>, i64);

/// What a list of requests moved, counted from the lines and answers alone.
#[derive(Default)]
struct Tally {
    /// By depot and district.
    orders: BTreeMap<(u64, u64), Vec<Order>>,
    /// Depot, district and number of the farm, date, amount.
    payments: Vec<(u64, u64, u64, i64, i64)>,
}

impl Tally {
    fn add(&mut self, line: &str, answer: &str) {
        let number = |field: &str| field.trim_start_matches('#').parse::<i64>().unwrap() as u64;
        let numbers = |text: &str| text.split(' ').skip(1).map(number).collect::<Vec<u64>>();
        let (asked, answered) = (numbers(line), numbers(answer));
        match &line[..1] {
            _ if answered[0] != 0 => {}
            "N" => {
                let lines = asked[4..].chunks(3).map(|line| [line[0], line[1], line[2]]).collect();
                self.orders.entry((asked[0], asked[1])).or_default().push((asked[2], asked[3] as i64, lines, 0));
            }
            "P" => self.payments.push((asked[2], asked[3], asked[4], asked[5] as i64, asked[6] as i64)),
            _ => {
                for (district, order) in (1..).zip(&answered[2..]).filter(|(_, order)| **order != 0) {
                    self.orders.get_mut(&(asked[0], district)).unwrap()[*order as usize - 1].3 = asked[2] as i64;
                }
            }
        }
    }

    /// The rows of both tables.
    fn close(&self, from: i64, until: i64) -> (Vec<String>, Vec<String>) {
        let (mut stock, mut farms) = (BTreeMap::<_, [i64; 2]>::new(), BTreeMap::<_, [i64; 3]>::new());
        let within = |date| from <= date && date <= until;
        for (&(w, d), orders) in &self.orders {
            for (c, entered, lines, delivered) in orders {
                for &[item, depot, quantity] in lines {
                    let (row, lots, price) = (stock.entry((depot, item)).or_default(), quantity as i64, [100, 250][item as usize - 1]);
                    row[0] += if within(*entered) { lots } else { 0 };
                    row[1] += if within(*delivered) { lots } else { 0 };
                    let row = farms.entry((w, d, *c)).or_default();
                    row[0] += if (1..from).contains(delivered) { lots * price } else { 0 };
                    row[1] += if within(*delivered) { lots * price } else { 0 };
                }
            }
        }
        for &(w, d, c, date, amount) in &self.payments {
            let row = farms.entry((w, d, c)).or_default();
            row[0] -= if date < from { amount } else { 0 };
            row[2] += if within(date) { amount } else { 0 };
        }
        let stock = stock.iter().filter(|(_, row)| **row != [0; 2]).map(|((w, i), row)| format!("{w}|{i}|{}|{}", row[0], row[1])).collect();
        let name = |c: &u64| if *c == 1 { "ALM|EVA" } else { "VON BERG|" };
        let account = |[brought, delivered, paid]: &[i64; 3]| format!("{brought}|{delivered}|{paid}|{}", brought + delivered - paid);
        let farms = farms.iter().filter(|(_, row)| **row != [0; 3]);
        (stock, farms.map(|((w, d, c), row)| format!("{w}|{d}|{c}|{}|{}", name(c), account(row))).collect())
    }
}

/// Numbers from 1 to a limit.
fn random(mut seed: u64) -> impl FnMut(u64) -> u64 {
    move |below| {
        seed = seed.wrapping_mul(6_364_136_223_846_793_005).wrapping_add(1_442_695_040_888_963_407);
        1 + (seed >> 33) % below
    }
}

fn random_line(random: &mut impl FnMut(u64) -> u64) -> String {
    let (w, d, c, when) = (random(2), random(3), random(2), random(1_000));
    match random(8) {
        1..=4 => (0..random(5)).fold(format!("N {w} {d} {c} {when}"), |line, _| format!("{line} {} {} {}", random(2), random(2), random(10))),
        5 | 6 => format!("P {} {} {w} {d} #{c} {when} {}", random(2), random(10), 99 + random(2_000)),
        _ => format!("D {w} {} {when}", random(10)),
    }
}

/// Random requests, refused ones among them, with dates in no order; sheets over random times, each as counted from the requests; the totals are
/// the sums of the rows, and what one carries forward the next brings.
#[test]
fn random_lists() {
    let mut random = random(2026);
    for _ in 0..40 {
        let (mut book, mut tally) = (new_book(12, 60), Tally::default());
        for _ in 0..random(400) {
            let line = random_line(&mut random);
            let answer = ask(&mut book, &line);
            tally.add(&line, &answer);
        }
        let last = |rows: &[String]| rows.last().unwrap().rsplit('|').take(4).map(|field| field.parse().unwrap_or_default()).collect::<Vec<i64>>();
        for _ in 0..20 {
            let from = random(1_000) as i64;
            let until = from + random(400) as i64 - 1;
            let (mut stock, mut farms, faults) = closed(&book, &from.to_string(), &until.to_string());
            let next = closed(&book, &(until + 1).to_string(), &(until + 1).to_string()).1;
            assert_eq!(last(&farms)[0], last(&next)[3]);
            for rows in [&stock, &farms] {
                let mut sums = [0; 4];
                for row in &rows[..rows.len() - 1] {
                    sums.iter_mut().zip(last(std::slice::from_ref(row))).for_each(|(sum, figure)| *sum += figure);
                }
                let figures = if rows[0].matches('|').count() == 3 { 2 } else { 4 };
                assert_eq!(sums[..figures], last(rows)[..figures]);
            }
            stock.pop();
            farms.pop();
            assert_eq!(((stock, farms), faults), (tally.close(from, until), vec![]));
        }
    }
}

/// What cannot be written is an error, and no sheet.
#[test]
fn writing_that_fails() {
    struct Full;
    impl std::io::Write for Full {
        fn write(&mut self, _: &[u8]) -> std::io::Result<usize> {
            Err(std::io::Error::other("full"))
        }
        fn flush(&mut self) -> std::io::Result<()> {
            Ok(())
        }
    }
    let book = november();
    assert!(show::TABLES.iter().all(|name| show::table(&book, name, &mut Full).is_err()));
    assert!(close::close(&book, 1, 2, &mut Full).is_err());
}
