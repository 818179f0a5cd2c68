//! Random lists in a debug build: no call panics, a refused one changes nothing, every
//! answer is reached, and lists from opened books keep to the tally of document 01.

mod common;

use common::ends;
use second::checks;
use second::layout::Layout;
use second::lists::last::scanned;
use second::lists::{self, stats};
use second::queue::PLACES;
use second::replay::command::{parse, Command, Slice};
use second::replay::{Engine, Lent, SecondEngine, Slices};
use second::who::{self, Found};
use second::*;
use std::collections::{HashMap, VecDeque};
use std::sync::LazyLock;

/// How often lists reach each answer, counted once for all tests.
static COUNTS: LazyLock<stats::Counts> = LazyLock::new(|| stats::count(11, 3_600));

/// Makes a call and gives its number; asserts that a refused one changes nothing.
fn call(lent: &mut Lent, request: &Request) -> u64 {
    common::call(lent, request).0
}

#[test]
fn no_panic_and_refused_changes_nothing() {
    let mut engine = SecondEngine;
    for number in 0..3_000 {
        let mut slices = Slices::default();
        for line in lists::list(7, number).lines() {
            match parse(line.as_bytes()) {
                Command::Lend(slice) => slices.set(slice),
                Command::Open => {
                    ends(engine.open(&slices.lent));
                }
                Command::Call(request) => {
                    call(&mut slices.lent, &request);
                }
                Command::QueueDelivery(request) => {
                    common::queue(&mut slices.lent, &request);
                }
                Command::RunDelivery(date) => {
                    common::run(&mut slices.lent, date);
                }
                Command::Read(line) => read_back(&line),
                Command::Write(cap, request) => write_back(cap, &request),
                command => panic!("{command:?}"),
            }
        }
    }
}

/// A line that is read is written back as it was.
fn read_back(line: &[u8]) {
    if let Outcome::Committed(request) = read_line(line) {
        let mut buffer = vec![0; line.len()];
        let length = line.len() as u64;
        assert_eq!(
            write_line(&request, &mut buffer),
            Outcome::Committed(length)
        );
        assert_eq!(buffer, line);
    }
}

/// A request that is written is read back as it was.
fn write_back(cap: usize, request: &Request) {
    let mut buffer = vec![0; cap];
    if let Outcome::Committed(length) = write_line(request, &mut buffer) {
        let line = &buffer[..length as usize];
        assert_eq!(read_line(line), Outcome::Committed(request.clone()));
    }
}

#[test]
fn every_answer_is_reached() {
    let reached = |word: &str, number: u64| -> u64 {
        let same = COUNTS
            .iter()
            .filter(|((w, n, _), _)| w == word && *n == number);
        same.map(|(_, times)| times).sum()
    };
    let answers: [(&str, &[u64]); 14] = [
        ("OPEN", &[0, 2, 3, 17]),
        ("N", &[0, 2, 4, 5, 6, 7, 8, 9, 11, 12, 13, 17]),
        ("P", &[0, 2, 4, 5, 6, 7, 8, 9, 10, 11, 14]),
        ("D", &[0, 2, 4, 7, 8, 9]),
        ("S", &[0, 2, 4, 5, 6, 9, 10, 13]),
        ("L", &[0, 2, 4, 5, 8, 9]),
        ("READ", &[0, 1]),
        ("WRITE", &[0, 1]),
        ("=", &[0, 9, 10]),
        (";", &[0, 2, 9, 11, 14]),
        ("QD", &[0, 7, 15]),
        ("RD", &[0, 2, 4, 7, 8, 9, 16]),
        (">", &[0, 2, 4, 7, 8, 9, 15, 16]),
        ("+", &[0, 2, 3, 4, 5, 6, 7, 8, 9, 13, 17]),
    ];
    for (word, numbers) in answers {
        for &number in numbers {
            let times = reached(word, number);
            let least = if word == "+" { 1 } else { 25 };
            assert!(times >= least, "{word} {number}: {times} times");
        }
    }
    let known = |(word, number, _): &(String, u64, String)| {
        answers
            .iter()
            .any(|(w, numbers)| w == word && numbers.contains(number))
    };
    assert!(COUNTS.keys().all(known), "an answer that no call gives");
}

/// Every way to meet 13, each with what stands beside it in checking order, and what calls have to pass by; totals at half a cent and beside it.
#[test]
fn every_kind_is_reached() {
    let slice_faults = [
        "no slice",
        "one short",
        "one long",
        "double",
        "another length",
        "own number negative",
        "own number next",
        "own number above next",
        "another's number negative",
        "another's number next",
        "another's number above next",
    ];
    let reached = |word: &str, number: u64, kind: &str| -> u64 {
        let same = COUNTS
            .iter()
            .filter(|((w, n, k), _)| w == word && *n == number && k.contains(kind));
        same.map(|(_, times)| times).sum()
    };
    for fault in slice_faults {
        for word in ["N", "S"] {
            let times = reached(word, 13, fault);
            assert!(times >= 10, "{word} 13, {fault}: {times} times");
        }
    }
    for (word, number, kind) in [
        ("N", 9, "and 13"),
        ("N", 13, "before 11"),
        ("N", 13, "before 12"),
        ("N", 13, "before 17"),
        ("N", 0, "wrong elsewhere"),
        ("N", 0, "exactly half a cent"),
        ("N", 0, "one part below half a cent"),
        ("N", 0, "one part above half a cent"),
        ("S", 9, "and 13"),
        ("S", 10, "and 13"),
        ("S", 13, "the order found"),
        ("S", 0, "another's order"),
        ("S", 0, "a damaged one not shown"),
        ("S", 0, "wrong elsewhere"),
    ] {
        let times = reached(word, number, kind);
        assert!(times >= 25, "{word} {number}, {kind}: {times} times");
    }
}

/// Searches by name that a comparison by words of eight bytes could get wrong: by the wanted name, where another differs in one byte or one word
/// alone, and by the first names of namesakes; and that a look at many rows at once could.
#[test]
fn every_kind_of_search_is_reached() {
    let check = |number: u64, kind: &str, least: u64| {
        let key = ("=".to_string(), number, kind.to_string());
        let times = COUNTS.get(&key).copied().unwrap_or(0);
        assert!(times >= least, "= {number}, {kind}: {times} times");
    };
    for place in 1..=16 {
        check(10, &format!("last names differ in byte {place} alone"), 25);
    }
    for number in [0, 10] {
        check(number, "last names differ in the first eight alone", 100);
        check(number, "last names differ in the second eight alone", 100);
        check(number, "last names differ in byte 16 alone", 25);
    }
    check(10, "a wanted byte from 128 on", 100);
    check(0, "sixteen rows or more in range, and their ors", 100);
    check(0, "sixteen rows or more in range, but not their ors", 100);
    check(9, "sixteen rows or more out of range", 50);
    for (kind, least) in [
        ("equal", 500),
        ("differ in byte 8 alone", 25),
        ("differ in byte 9 alone", 25),
        ("differ in byte 16 alone", 25),
        ("differ in the first eight alone", 100),
        ("differ in the second eight alone", 100),
        ("differ in both eights", 100),
    ] {
        check(0, &format!("first names {kind}"), least);
    }
}

/// Payments by the credit and the text that they find, and every way to meet 14, each with what stands beside it in checking order.
#[test]
fn every_kind_of_payment_is_reached() {
    let noted = ["by number", "by name", "at home", "in another district"];
    let texts = ["bytes lost", "a byte from 128 on", "no space"];
    let lengths = [
        "no notes",
        "a byte short",
        "a byte long",
        "a text short",
        "a text long",
        "double",
        "500 x W x C",
        "5,000 x W x W",
        "another length",
        "alone, credit 0",
        "alone, credit 1",
    ];
    let mut kinds = vec![(0, "credit 0".to_string()), (0, "credit 1".to_string())];
    kinds.extend(
        noted
            .iter()
            .chain(&texts)
            .map(|k| (0, format!("noted, {k}"))),
    );
    kinds.push((0, "noted, at another warehouse".into()));
    kinds.extend([(2, "and 14".into()), (9, "credit out of range".into())]);
    kinds.extend([9, 11].map(|number| (number, "credit 1".into())));
    kinds.extend(lengths.iter().map(|kind| (14, kind.to_string())));
    kinds.extend((4..=11).map(|number| (14, format!("before {number}"))));
    for (number, kind) in kinds {
        let key = (";".to_string(), number, kind);
        let times = COUNTS.get(&key).copied().unwrap_or(0);
        assert!(times >= 25, "{key:?}: {times} times");
    }
}

/// Calls that queue and that run, by the record, the buffer and the dates that they find and get, and 15 and 16 with what stands behind them in
/// checking order; runs whose Delivery is refused, with others waiting behind.
#[test]
fn every_kind_of_turn_is_reached() {
    let mut kinds = Vec::new();
    let mut add = |number: u64, word: &str, these: &[&str]| {
        kinds.extend(these.iter().map(|kind| (number, format!("{word}, {kind}"))));
    };
    let beyond = ["count 17", "count 2^64 - 1", "another count"];
    let waiting = ["count 1", "count 2 to 14", "count 15", "count 16"];
    add(0, "queued", &["count 0", "count 1", "count 15"]);
    add(0, "queued", &["date 1", "the last date"]);
    add(0, "queued", &["such a warehouse", "such a carrier"]);
    add(
        7,
        "queued",
        &["date 0", "one above the last date", "count 15"],
    );
    add(15, "queued", &["count 16", "alone", "before 7"]);
    add(15, "queued", &beyond);
    for number in [0, 2, 4, 7, 8, 9] {
        let lengths = ["400 bytes", "401 bytes", "more bytes"];
        add(number, "run", &lengths);
        add(number, "run", &waiting);
        add(number, "run", &["20 digits", "numbers beyond the count"]);
    }
    add(
        0,
        "run",
        &["date 1", "the last date", "such a queuing date"],
    );
    add(7, "run", &["date 0", "one above the last date"]);
    add(16, "run", &["count 0", "0 bytes", "399 bytes", "alone"]);
    add(16, "run", &beyond);
    add(16, "run", &waiting);
    for number in [2, 4, 7, 8, 9] {
        kinds.push((16, format!("run, before {number}")));
    }
    for (number, kind) in kinds {
        let key = (">".to_string(), number, kind);
        let times = COUNTS.get(&key).copied().unwrap_or(0);
        assert!(times >= 10, "{key:?}: {times} times");
    }
}

const TABLES: [&str; 3] = [
    "10 and 91 throughout",
    "one row throughout",
    "rows that differ",
];

/// How the lines of an order meet their margins.
const MARGINS_MET: [&str; 14] = [
    "no line lifted",
    "some lines lifted",
    "all lines lifted",
    "a stock row twice",
    "an item of two warehouses",
    "other lifts than by the book as found",
    "left at the margin",
    "left one above",
    "left one below",
    "still below after the lift",
    "margin 0",
    "lift 10",
    "together 9,999",
    "together 10,000",
];

/// What is wrong with a table that 17 refuses.
const WRONG_TABLES: [&str; 21] = [
    "no table",
    "a number short",
    "a number long",
    "a row short",
    "a row long",
    "double",
    "another length",
    "margin -1",
    "margin negative",
    "margin 9,991",
    "lift negative",
    "lift below 9",
    "lift 9",
    "lift 10,000",
    "lift above 10,000",
    "together 10,001",
    "together above 10,001",
    "the first row",
    "a middle row",
    "the last row",
    "alone",
];

/// Orders by how their lines meet the margins and by the ends that their rows are at, and every way to meet 17, each with what stands beside it in
/// checking order; openings likewise.
#[test]
fn every_kind_of_topup_is_reached() {
    let mut kinds = Vec::new();
    let mut add = |number: u64, call: &str, least: u64, these: &[&str]| {
        let named = |kind| (number, format!("{call}, {kind}"), least);
        kinds.extend(these.iter().map(named));
    };
    let ends = ["margin 9,989", "margin 9,990", "lift 9,998", "lift 9,999"];
    let beside = ["a line's row", "no line's row", "before 11", "before 12"];
    add(0, "opened", 100, &TABLES);
    add(0, "ordered", 500, &TABLES);
    add(0, "ordered", 250, &MARGINS_MET);
    add(0, "ordered", 50, &ends);
    add(17, "opened", 5, &WRONG_TABLES);
    add(17, "ordered", 25, &WRONG_TABLES);
    add(17, "ordered", 50, &beside);
    for (call, number) in [
        ("opened", 2),
        ("opened", 3),
        ("ordered", 2),
        ("ordered", 9),
        ("ordered", 13),
    ] {
        add(number, call, 25, &["and 17"]);
    }
    for (number, kind, least) in kinds {
        let key = ("+".to_string(), number, kind);
        let times = COUNTS.get(&key).copied().unwrap_or(0);
        assert!(times >= least, "{key:?}: {times} times");
    }
}

#[test]
fn lists_are_the_same_for_the_same_seed() {
    assert_eq!(lists::list(3, 5), lists::list(3, 5));
    assert_ne!(lists::list(3, 5), lists::list(4, 5));
    assert_ne!(lists::list(3, 5), lists::list(3, 6));
    for number in 0..200 {
        let text = lists::list(1, number);
        let mut lines = text.lines();
        assert!(lines.next().unwrap().starts_with("SLICE nums"));
        assert!(lines.next().unwrap().starts_with("BYTES names "));
        let beside = [
            "SLICE last",
            "SLICE topup",
            "BYTES notes ",
            "BYTES buffer ",
            "QUEUE ",
        ];
        for slice in beside {
            let sets = text.lines().any(|line| line.starts_with(slice));
            assert_eq!(sets, number >= 60);
        }
    }
}

type Place = (u64, u64);

/// Document 01's tally of one list: opening book, requests, and which were answered 0.
struct Tally {
    layout: Layout,
    opening: Lent,
    orders: HashMap<Place, Vec<(u64, i64)>>,
    delivered: HashMap<Place, usize>,
    /// What was taken from each stock row, in turn.
    taken: HashMap<(u64, u64), Vec<i64>>,
    /// The lifts that orders answered.
    lifts: u64,
    /// The table of the opening where 17 lets it through, as long as no other is lent.
    topup: Option<Vec<i64>>,
    /// Whether the last orders were all 0 at opening and are as calls left them.
    zeros: bool,
    history: Vec<[i64; 7]>,
}

impl Tally {
    fn of(opening: &Lent) -> Tally {
        let layout = Layout::of(&opening.nums, &opening.names).unwrap();
        let let_through = checks::topup(&opening.topup, &layout).is_ok();
        Tally {
            layout,
            opening: opening.clone(),
            orders: HashMap::new(),
            delivered: HashMap::new(),
            taken: HashMap::new(),
            lifts: 0,
            topup: let_through.then(|| opening.topup.clone()),
            zeros: opening.last == vec![0; layout.last_orders()],
            history: Vec::new(),
        }
    }

    /// A slice is lent; whether this ends the time of one table.
    fn ends_table(&mut self, slice: &Slice) -> bool {
        match slice {
            Slice::Topup(_) => self.topup.take().is_some(),
            Slice::Buffer(_) | Slice::Queue(_) => false,
            _ => {
                self.zeros = false;
                false
            }
        }
    }

    /// Carries out a command and checks what it answers and leaves.
    fn carry_out(&mut self, lent: &mut Lent, command: Command) {
        let lifts = lifts_of(lent, &command);
        let Some((request, answer)) = stands_as(lent, command) else {
            return;
        };
        assert!(![2, 3, 9].contains(&answer));
        assert!(answer != 17 || self.topup.is_none());
        if answer == 0 {
            self.add(&request);
            self.lifts += lifts;
        }
        self.check(lent);
        if self.zeros {
            assert_ne!(answer, 13);
            self.check_last_orders(lent);
        }
    }

    fn add(&mut self, request: &Request) {
        match request {
            Request::NewOrder(r) => self.add_order(r),
            Request::Delivery(r) => {
                for district in 1..=10 {
                    let place = (r.warehouse, district);
                    let placed = self.orders.get(&place).map_or(0, Vec::len);
                    let delivered = self.delivered.entry(place).or_insert(0);
                    *delivered += usize::from(*delivered < placed);
                }
            }
            Request::Payment(r) => self.add_payment(r),
            _ => {}
        }
    }

    fn add_order(&mut self, r: &NewOrder) {
        let mut sum = 0;
        for line in &r.lines {
            let price = self.opening.nums[self.layout.price(line.item as usize)];
            sum += line.quantity as i64 * price;
            let stock = (line.supply_warehouse, line.item);
            let taken = self.taken.entry(stock).or_default();
            taken.push(line.quantity as i64);
        }
        let place = (r.warehouse, r.district);
        self.orders
            .entry(place)
            .or_default()
            .push((r.customer, sum));
    }

    fn add_payment(&mut self, r: &Payment) {
        let (warehouse, district) = (r.customer_warehouse as usize, r.customer_district as usize);
        let names = &self.opening.names[self.layout.names_of(warehouse, district)];
        let Found::Customer(customer) = who::find(names, &r.who) else {
            panic!("a payment by nobody");
        };
        let places = [
            r.customer_district,
            r.customer_warehouse,
            r.district,
            r.warehouse,
        ];
        let [home_d, home_w, d, w] = places.map(|number| number as i64);
        let row = [
            customer as i64,
            home_d,
            home_w,
            d,
            w,
            r.date as i64,
            r.amount as i64,
        ];
        self.history.push(row);
    }

    /// What the customers of history rows that fit have paid.
    fn paid(&self, fits: impl Fn(&[i64; 7]) -> bool) -> i64 {
        let rows = self.history.iter().filter(|row| fits(row));
        rows.map(|row| row[6]).sum()
    }

    /// The claim about the whole list.
    fn check(&self, lent: &Lent) {
        let (layout, nums) = (&self.layout, &lent.nums);
        let mut lifts = 0;
        assert!(lent.names == self.opening.names);
        assert_eq!(nums[5] as usize, self.history.len());
        for (before, row) in self.history.iter().enumerate() {
            assert_eq!(nums[layout.history(before)], *row);
        }
        for w in 1..=layout.warehouses {
            let paid = self.paid(|row| row[4] == w as i64);
            assert_eq!(nums[layout.warehouse(w)][1], paid);
            lifts += (1..=layout.items)
                .map(|i| self.check_stock(nums, w, i))
                .sum::<i64>();
            for d in 1..=10 {
                self.check_district(nums, w, d);
            }
        }
        if self.topup.is_some() {
            assert_eq!(self.lifts, lifts as u64);
        }
    }

    /// A stock row by what was taken from it; its lifts, where the table is unchanged.
    fn check_stock(&self, nums: &[i64], w: usize, i: usize) -> i64 {
        let (row, none) = (self.layout.stock(w, i), Vec::new());
        let taken = self.taken.get(&(w as u64, i as u64)).unwrap_or(&none);
        let lots: i64 = taken.iter().sum();
        let on_hand = nums[row.start];
        assert_eq!(nums[row.start + 1], lots);
        assert!((0..=9_999).contains(&on_hand));
        let Some(topup) = &self.topup else {
            return 0;
        };
        let (margin, lift) = (topup[2 * i - 2], topup[2 * i - 1]);
        let opening = self.opening.nums[row.start];
        let (expected, lifts) = topped_up(opening, margin, lift, taken);
        assert_eq!(on_hand, expected);
        assert_eq!(on_hand, opening - lots + lift * lifts);
        lifts
    }

    /// Each number is the largest of the customer's orders, in the tally and in the book.
    fn check_last_orders(&self, lent: &Lent) {
        let mut last = vec![0; self.layout.last_orders()];
        for (&(w, d), orders) in &self.orders {
            for (number, &(customer, _)) in (1..).zip(orders) {
                let place = (w as usize, d as usize, customer as usize);
                last[self.layout.last_order(place.0, place.1, place.2)] = number;
            }
        }
        assert_eq!(lent.last, last);
        assert_eq!(lent.last, scanned(&lent.nums, &self.layout));
    }

    fn check_district(&self, nums: &[i64], w: usize, d: usize) {
        let layout = &self.layout;
        let place = (w as u64, d as u64);
        let none = Vec::new();
        let orders = self.orders.get(&place).unwrap_or(&none);
        let delivered = self.delivered.get(&place).copied().unwrap_or(0);
        let row = &nums[layout.district(w, d)];
        let paid_here = |row: &[i64; 7]| row[3] == d as i64 && row[4] == w as i64;
        assert_eq!(row[1], self.paid(paid_here));
        assert_eq!(row[2] as usize, orders.len() + 1);
        for number in 1..=orders.len() {
            let waiting = nums[layout.order(w, d, number)][5] == 1;
            assert_eq!(waiting, number > delivered);
        }
        for c in 1..=layout.customers {
            let mine = orders[..delivered]
                .iter()
                .filter(|order| order.0 == c as u64);
            let bought: i64 = mine.map(|order| order.1).sum();
            let home = [c as i64, d as i64, w as i64];
            let paid = self.paid(|row| row[..3] == home);
            let row = &nums[layout.customer(w, d, c)];
            assert_eq!(row[2], bought - paid);
            assert_eq!(row[2] + row[3], bought);
        }
    }
}

/// On hand after these quantities are taken in turn, and how many lifts there were: the rule said anew.
fn topped_up(opening: i64, margin: i64, lift: i64, taken: &[i64]) -> (i64, i64) {
    taken
        .iter()
        .fold((opening, 0), |(on_hand, lifts), quantity| {
            match on_hand >= margin + quantity {
                true => (on_hand - quantity, lifts),
                false => (on_hand + lift - quantity, lifts + 1),
            }
        })
}

/// The lifts that an order answers, carried out on a twin; 0 for any other call.
fn lifts_of(lent: &Lent, command: &Command) -> u64 {
    let Command::Call(Request::NewOrder(r)) = command else {
        return 0;
    };
    match SecondEngine.new_order(&mut lent.clone(), r) {
        Outcome::Committed(figures) => figures.lifts,
        Outcome::Refused(_) => 0,
    }
}

/// Whether 2 and 3 let a book through, whatever table is lent.
fn accepted(lent: &Lent) -> bool {
    let (nums, names) = (&lent.nums, &lent.names);
    let layout = Layout::of(nums, names);
    layout.is_some_and(|layout| ends(open(nums, names, &layout.usual_topup())) == (0, 0))
}

/// Carries out a command; the call that it is in the lists of demand 3, and its number. A run that takes a request is a Delivery on its date; one
/// refused by 16 and a call that queues are none.
fn stands_as(lent: &mut Lent, command: Command) -> Option<(Request, u64)> {
    match command {
        Command::Call(request) => {
            let answer = call(lent, &request);
            Some((request, answer))
        }
        Command::QueueDelivery(request) => {
            common::queue(lent, &request);
            None
        }
        Command::RunDelivery(date) => {
            let request = Request::Delivery(delivery_of(&lent.queue.waiting[0], date));
            let (answer, _) = ends(common::run(lent, date).outcome);
            (answer != 16).then_some((request, answer))
        }
        _ => None,
    }
}

/// A request's Delivery on a date.
fn delivery_of(waiting: &Waiting, date: u64) -> Delivery {
    Delivery {
        warehouse: waiting.warehouse,
        carrier: waiting.carrier,
        date,
    }
}

/// The claim after each call of lists from opened books; 2, 3 and 9 are never answered. With last orders that were all 0
/// at opening, 13 is not either, and they are those of the tally and of a scan. As long as the table is one that 17 lets through, it is not answered,
/// and on hand and lifts are those of the tally.
#[test]
fn opened_lists_keep_to_the_tally() {
    let mut counts = [0; 2];
    let (mut changed, mut lifts) = (0, 0);
    for number in 0..1_500 {
        let mut slices = Slices::default();
        let mut tally: Option<Tally> = None;
        for line in lists::list(23, number).lines() {
            match (parse(line.as_bytes()), &mut tally) {
                (Command::Lend(slice), tally) => {
                    let tally = tally.as_mut();
                    changed += u64::from(tally.is_some_and(|tally| tally.ends_table(&slice)));
                    slices.set(slice);
                }
                (Command::Open, None) if accepted(&slices.lent) => {
                    let started = Tally::of(&slices.lent);
                    counts[usize::from(started.zeros)] += 1;
                    tally = Some(started);
                }
                (command, Some(tally)) => tally.carry_out(&mut slices.lent, command),
                _ => {}
            }
        }
        lifts += tally.map_or(0, |tally| tally.lifts);
    }
    let [wrong, right] = counts;
    assert!(right > 300, "{right} opened books");
    assert!(wrong > 5, "{wrong} with last orders not all 0");
    assert!(changed > 15, "{changed} with another table later");
    assert!(lifts > 2_000, "{lifts} lifts");
}

/// The payments that were committed since the notes were lent, and what the slices were then.
struct Noted {
    layout: Layout,
    start: Lent,
    payments: Vec<[u64; 6]>,
}

impl Noted {
    /// Nothing where the book is refused by 2 or Payment by 14.
    fn of(start: &Lent) -> Option<Noted> {
        let layout = Layout::of(&start.nums, &start.names)?;
        let fits = start.notes.len() == 5_000 * layout.warehouses * layout.customers;
        fits.then(|| Noted {
            layout,
            start: start.clone(),
            payments: Vec::new(),
        })
    }

    fn add(&mut self, r: &Payment) {
        let (w, d) = (r.customer_warehouse, r.customer_district);
        let names = self.layout.names_of(w as usize, d as usize);
        let Found::Customer(customer) = who::find(&self.start.names[names], &r.who) else {
            panic!("a payment by nobody");
        };
        let paid = [customer as u64, d, w, r.district, r.warehouse, r.amount];
        self.payments.push(paid);
    }

    /// With bad credit the text is the first 500 bytes of the customer's notes, newest first, and of what stood there; with good credit that alone.
    fn check(&self, lent: &Lent) {
        let mut expected = Vec::new();
        for w in 1..=self.layout.warehouses {
            for d in 1..=10 {
                for c in 1..=self.layout.customers {
                    expected.extend(self.text(&self.start.notes[expected.len()..], [c, d, w]));
                }
            }
        }
        assert!(lent.notes == expected);
    }

    /// A customer's text, which stood at the front of these bytes.
    fn text(&self, stood: &[u8], place: [usize; 3]) -> Vec<u8> {
        let [c, d, w] = place;
        let mut text = Vec::new();
        if self.start.nums[self.layout.customer(w, d, c).start] == 1 {
            let mine = self.payments.iter().rev();
            for paid in mine.filter(|paid| paid[..3] == place.map(|n| n as u64)) {
                let numbers: Vec<String> = paid.iter().map(u64::to_string).collect();
                text.extend(format!("{};", numbers.join(" ")).into_bytes());
            }
        }
        text.extend(&stood[..500]);
        text.truncate(500);
        text
    }
}

/// After each call of any list, on any book: the texts are those of the payments committed since the notes were lent; 14 is answered for no other
/// reason than the length.
#[test]
fn texts_are_the_notes_newest_first() {
    let (mut noted, mut unnoted) = (0, 0);
    for number in 0..1_800 {
        let mut slices = Slices::default();
        let mut since: Option<Noted> = None;
        for line in lists::list(29, number).lines() {
            match parse(line.as_bytes()) {
                Command::Lend(slice) => {
                    slices.set(slice);
                    since = Noted::of(&slices.lent);
                }
                command => {
                    let before = slices.lent.notes.clone();
                    let Some((request, answer)) = stands_as(&mut slices.lent, command) else {
                        continue;
                    };
                    let Some(since) = &mut since else {
                        assert!(slices.lent.notes == before);
                        unnoted += u64::from(answer == 14);
                        continue;
                    };
                    assert_ne!(answer, 14);
                    if let (0, Request::Payment(r)) = (answer, &request) {
                        since.add(r);
                        noted += 1;
                    }
                    since.check(&slices.lent);
                }
            }
        }
    }
    assert!(noted > 2_000, "{noted} payments");
    assert!(unnoted > 400, "{unnoted} refused by 14");
}

/// The line of a run, written anew.
fn line_of(oldest: &Waiting, date: u64, answer: &DeliveryAnswer) -> String {
    let (queued, w, c) = (oldest.date, oldest.warehouse, oldest.carrier);
    let mut line = format!("{queued}\t{w}\t{c}\t{date}");
    match answer.outcome {
        Outcome::Refused(refusal) => line += &format!("\t{}", refusal.number),
        Outcome::Committed(figures) => {
            line += &format!("\t{}", figures.skip_count);
            for order in answer.orders {
                line += &format!("\t{order}");
            }
        }
    }
    line + "\n"
}

/// The requests that wait, told by a plain queue beside the record.
struct Turns {
    /// Each with the number of the run that has to take it.
    waiting: VecDeque<(Waiting, u64)>,
    /// Runs that were not refused by 16.
    runs: u64,
}

impl Turns {
    /// Nothing where the record counts more than 16: every call on it is refused.
    fn of(queue: &Queue) -> Option<Turns> {
        let places = queue.waiting.get(..usize::try_from(queue.count).ok()?)?;
        Some(Turns {
            waiting: places.iter().copied().zip(1..).collect(),
            runs: 0,
        })
    }

    /// Behind j others, and so run number j + 1 after it.
    fn queue(&mut self, lent: &mut Lent, request: &Delivery) {
        let before = self.waiting.len() as u64;
        let date_ok = (1..=6_342_969_600).contains(&request.date);
        let outcome = SecondEngine.queue_delivery(lent, request);
        if self.waiting.len() == PLACES || !date_ok {
            let number = if self.waiting.len() == PLACES { 15 } else { 7 };
            assert_eq!(ends(outcome), (number, 0));
            return;
        }
        assert_eq!(outcome, Outcome::Committed(QueueFigures { before }));
        let place = Waiting {
            date: request.date,
            warehouse: request.warehouse,
            carrier: request.carrier,
        };
        self.waiting.push_back((place, self.runs + before + 1));
    }

    /// A run takes the oldest and does what its Delivery does on a twin of the book, on the run's date, whatever that answers.
    fn run(&mut self, lent: &mut Lent, date: u64) {
        let before = lent.clone();
        let answer = common::run(lent, date);
        if self.waiting.is_empty() || before.buffer.len() < 400 {
            assert_eq!(ends(answer.outcome), (16, 0));
            return;
        }
        self.runs += 1;
        let (oldest, turn) = self.waiting.pop_front().unwrap();
        assert_eq!(turn, self.runs);
        let mut twin = before.clone();
        let expected = SecondEngine.delivery(&mut twin, &delivery_of(&oldest, date));
        assert_eq!(answer, expected);
        assert!(lent.nums == twin.nums);
        let line = line_of(&oldest, date, &answer);
        assert_eq!(lent.buffer[..line.len()], *line.as_bytes());
        assert_eq!(lent.buffer[line.len()..], before.buffer[line.len()..]);
    }

    /// The record has those who wait, the oldest first.
    fn check(&self, queue: &Queue) {
        let waiting: Vec<Waiting> = self.waiting.iter().map(|&(place, _)| place).collect();
        assert_eq!(queue.count, waiting.len() as u64);
        assert_eq!(queue.waiting[..waiting.len()], waiting);
    }
}

/// First in, first out, over every list: who is queued behind j others is run by run number j + 1 after it, refusals by 16 uncounted, however many
/// are queued meanwhile; none is lost or doubled.
#[test]
fn requests_are_run_in_turn() {
    let (mut ran, mut long) = (0, 0);
    for number in 0..2_000 {
        let mut slices = Slices::default();
        let mut turns = Turns::of(&slices.lent.queue);
        for line in lists::list(31, number).lines() {
            let lent = &mut slices.lent;
            match (parse(line.as_bytes()), &mut turns) {
                (Command::Lend(slice), _) => {
                    let anew = matches!(slice, Slice::Queue(_));
                    slices.set(slice);
                    if anew {
                        turns = Turns::of(&slices.lent.queue);
                    }
                }
                (Command::QueueDelivery(request), Some(turns)) => turns.queue(lent, &request),
                (Command::QueueDelivery(request), None) => {
                    assert_eq!(common::queue(lent, &request), (15, 0));
                }
                (Command::RunDelivery(date), Some(turns)) => turns.run(lent, date),
                (Command::RunDelivery(date), None) => {
                    assert_eq!(ends(common::run(lent, date).outcome), (16, 0));
                }
                (command, _) => drop(stands_as(lent, command)),
            }
            if let Some(turns) = &turns {
                turns.check(&slices.lent.queue);
            }
        }
        let runs = turns.map_or(0, |turns| turns.runs);
        ran += runs;
        long += u64::from(runs > PLACES as u64);
    }
    assert!(ran > 1_000, "{ran} runs");
    assert!(long > 25, "{long} lists with more than 16");
}
