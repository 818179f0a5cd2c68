//! A small book for the tests, its positions worked out by hand from document 01:
//! W 2, C 2, I 3, O 3, H 2.
#![allow(dead_code)]

use second::book_program::Book;
use second::replay::{Engine, Lent, SecondEngine};
use second::*;

pub const NUMBERS: usize = 5_211;
pub const NAME_BYTES: usize = 1_280;
pub const LAST_ORDERS: usize = 40;
pub const NOTE_BYTES: usize = 20_000;
pub const TOPUP: [i64; 6] = [10, 91, 10, 91, 10, 91];

/// Rows, counted from 1 as the book counts them.
pub fn warehouse(w: usize) -> usize {
    6 + 2 * (w - 1)
}
pub fn district(w: usize, d: usize) -> usize {
    10 + 3 * (10 * (w - 1) + d - 1)
}
pub fn customer(w: usize, d: usize, c: usize) -> usize {
    70 + 6 * (2 * (10 * (w - 1) + d - 1) + c - 1)
}
pub fn item(i: usize) -> usize {
    310 + i - 1
}
pub fn stock(w: usize, i: usize) -> usize {
    313 + 4 * (3 * (w - 1) + i - 1)
}
pub fn order(w: usize, d: usize, o: usize) -> usize {
    337 + 81 * (3 * (10 * (w - 1) + d - 1) + o - 1)
}
pub fn history(h: usize) -> usize {
    5_197 + 7 * (h - 1)
}
pub fn name(w: usize, d: usize, c: usize) -> usize {
    32 * (2 * (10 * (w - 1) + d - 1) + c - 1)
}

/// The place of a customer's number in the last orders.
pub fn last(w: usize, d: usize, c: usize) -> usize {
    2 * (10 * (w - 1) + d - 1) + c - 1
}

/// Where a customer's text starts in the notes.
pub fn text(w: usize, d: usize, c: usize) -> usize {
    500 * last(w, d, c)
}

/// A book that opening accepts, its last orders all 0, its notes spaces, its top-up table document 01's. Customer 1 is ALM, EVA and customer 2 is
/// ALM, BO.
pub fn fresh() -> Lent {
    let mut nums = vec![0; NUMBERS];
    nums[..6].copy_from_slice(&[2, 2, 3, 3, 2, 0]);
    for w in 1..=2 {
        nums[warehouse(w)] = 1_000;
        for d in 1..=10 {
            nums[district(w, d)] = 500;
            nums[district(w, d) + 2] = 1;
            nums[customer(w, d, 1) + 1] = 1_000;
        }
        for i in 1..=3 {
            nums[stock(w, i)] = 20;
        }
    }
    nums[item(1)] = 100;
    nums[item(2)] = 250;
    let mut names = Vec::new();
    for first in ["EVA", "BO"].iter().cycle().take(40) {
        names.extend_from_slice(format!("{:16}{:16}", "ALM", first).as_bytes());
    }
    Lent {
        nums,
        names,
        last: vec![0; LAST_ORDERS],
        notes: vec![b' '; NOTE_BYTES],
        topup: TOPUP.to_vec(),
        ..Lent::default()
    }
}

/// The program's book with all that is lent beside it: W 1, C 2, I 5, O 4, H 8.
pub fn program() -> Lent {
    let book = Book::built_in();
    Lent {
        nums: book.nums,
        names: book.names,
        last: book.last,
        notes: book.notes,
        topup: book.topup,
        ..Lent::default()
    }
}

/// A book with two orders of two lines in each district, both waiting, the second's
/// customer 2, one history row, and the last orders that fit.
pub fn in_use() -> Lent {
    let mut lent = fresh();
    lent.nums[5] = 1;
    lent.nums[history(1)..history(2)].copy_from_slice(&[1, 1, 1, 1, 1, 50, 100]);
    for w in 1..=2 {
        for d in 1..=10 {
            lent.nums[district(w, d) + 2] = 3;
            for o in 1..=2 {
                let start = order(w, d, o);
                let row = [o as i64, 50, 0, 2, 1, 1, 1, 1, 3, 300, 0, 2, 1, 1, 250, 0];
                lent.nums[start..start + 16].copy_from_slice(&row);
                lent.last[last(w, d, o)] = o as i64;
            }
        }
    }
    lent
}

pub fn line(item: u64, supply_warehouse: u64, quantity: u64) -> Line {
    Line {
        item,
        supply_warehouse,
        quantity,
    }
}

/// Sound requests to warehouse 1, district 1.
pub fn new_order_of(lines: &[Line]) -> NewOrder {
    NewOrder {
        warehouse: 1,
        district: 1,
        customer: 1,
        date: 100,
        lines: lines.to_vec(),
    }
}
pub fn payment_by(who: Who) -> Payment {
    Payment {
        warehouse: 1,
        district: 1,
        customer_warehouse: 1,
        customer_district: 1,
        who,
        date: 100,
        amount: 500,
    }
}
pub fn delivery_at(warehouse: u64) -> Delivery {
    Delivery {
        warehouse,
        carrier: 3,
        date: 200,
    }
}
pub fn status_of(who: Who) -> OrderStatus {
    OrderStatus {
        warehouse: 1,
        district: 1,
        who,
    }
}
pub fn stock_level_below(threshold: u64) -> StockLevel {
    StockLevel {
        warehouse: 1,
        district: 1,
        threshold,
    }
}
pub fn named(name: &str) -> Who {
    Who::LastName(name.as_bytes().to_vec())
}

/// The number and detail of an answer; a committed one has 0, 0.
pub fn ends<F>(outcome: Outcome<F>) -> (u64, u64) {
    match outcome {
        Outcome::Committed(_) => (0, 0),
        Outcome::Refused(refusal) => (refusal.number, refusal.detail),
    }
}

/// Makes a call and gives number and detail. A refused call must have changed nothing
/// and show nothing beside its refusal.
pub fn call(lent: &mut Lent, request: &Request) -> (u64, u64) {
    let before = lent.clone();
    let engine = &mut SecondEngine;
    let answer = match request {
        Request::NewOrder(r) => ends(engine.new_order(lent, r)),
        Request::Payment(r) => ends(engine.payment(lent, r)),
        Request::Delivery(r) => {
            let answer = engine.delivery(lent, r);
            let refused = ends(answer.outcome) != (0, 0);
            assert!(!refused || answer.orders == [0; 10]);
            ends(answer.outcome)
        }
        Request::OrderStatus(r) => {
            let answer = engine.order_status(lent, r);
            let refused = ends(answer.outcome) != (0, 0);
            assert!(!refused || answer.lines.is_empty());
            ends(answer.outcome)
        }
        Request::StockLevel(r) => ends(engine.stock_level(lent, r)),
    };
    let reads_only = matches!(request, Request::OrderStatus(_) | Request::StockLevel(_));
    if answer != (0, 0) || reads_only {
        assert!(*lent == before, "changed by {request:?}");
    }
    answer
}

/// Queues a Delivery; gives number and detail. Refused, it must have changed nothing; committed, nothing but the record.
pub fn queue(lent: &mut Lent, request: &Delivery) -> (u64, u64) {
    let before = lent.clone();
    let answer = ends(SecondEngine.queue_delivery(lent, request));
    let queue = lent.queue;
    if answer != (0, 0) {
        assert!(queue == before.queue, "changed by a refused {request:?}");
    }
    assert!(*lent == Lent { queue, ..before }, "changed by {request:?}");
    answer
}

/// Runs the oldest Delivery that waits. Refused by 16, it must have changed nothing; refused otherwise, nothing but record and buffer.
pub fn run(lent: &mut Lent, date: u64) -> DeliveryAnswer {
    let mut expected = lent.clone();
    let answer = SecondEngine.run_delivery(lent, date);
    let (number, _) = ends(answer.outcome);
    assert!(number == 0 || answer.orders == [0; 10]);
    if number == 0 {
        expected.nums.clone_from(&lent.nums);
    }
    if number != 16 {
        expected.queue = lent.queue;
        expected.buffer.clone_from(&lent.buffer);
    }
    assert!(*lent == expected, "changed by a run on {date}");
    answer
}

/// Runs a replay text through the second engine and gives the answers, fingerprints cut off.
pub fn replayed(text: &str) -> Vec<String> {
    let mut output = Vec::new();
    second::replay::run(&mut SecondEngine, &mut text.as_bytes(), &mut output).unwrap();
    let output = String::from_utf8(output).unwrap();
    let cut = |line: &str| line.split(" | ").next().unwrap().to_string();
    output.lines().map(cut).collect()
}

/// Commands of the replay format on a book, beside their answers.
pub fn answers(lent: &Lent, expected: &[(&str, &str)]) {
    let mut text = lists::lend(lent);
    for (command, _) in expected {
        text.push_str(command);
        text.push('\n');
    }
    let said = replayed(&text);
    let pairs: Vec<(&str, &str)> = expected
        .iter()
        .zip(&said)
        .map(|(&(command, _), answer)| (command, answer.as_str()))
        .collect();
    assert_eq!(pairs, expected);
}
