//! Both engines at the upper end of each dimension of the head, and one above it, on books that opening accepts but for that; and every row of a
//! top-up table.
//!
//! The ends, the lengths and the answers are written out here from document 01; all other dimensions are 1.

use proved::ProvedEngine;
use second::replay::{print, Engine, Lent, SecondEngine};
use second::{Delivery, Line, NewOrder, OrderStatus, Payment, Queue, Request, StockLevel, Waiting, Who};

/// W, C, I, O and H.
type Head = [usize; 5];

#[test]
fn warehouses_up_to_20() {
    both_sides([20, 1, 1, 1, 1], [21, 1, 1, 1, 1]);
}

#[test]
fn customers_up_to_3_000() {
    both_sides([1, 3_000, 1, 1, 1], [1, 3_001, 1, 1, 1]);
}

#[test]
fn items_up_to_100_000() {
    both_sides([1, 1, 100_000, 1, 1], [1, 1, 100_001, 1, 1]);
}

#[test]
fn order_slots_up_to_10_000() {
    both_sides([1, 1, 1, 10_000, 1], [1, 1, 1, 10_001, 1]);
}

#[test]
fn history_slots_up_to_1_000_000() {
    both_sides([1, 1, 1, 1, 1_000_000], [1, 1, 1, 1, 1_000_001]);
}

/// Both engines put a note into the last of the longest notes, which are of 300,000,000 bytes, and into nothing else of the last two texts.
#[test]
fn notes_up_to_300_000_000_bytes() {
    let head = [20, 3_000, 1, 1, 2];
    let mut lent = book(head);
    let credit = 6 + 2 * 20 + 3 * 200 + 6 * (200 * 3_000 - 1);
    lent.nums[credit] = 1;
    let [_, payment, ..] = requests(head);
    let said = [print::call(&mut ProvedEngine, &mut lent, &payment), print::call(&mut SecondEngine, &mut lent, &payment)];
    assert_eq!(said, ["P 0 3000 -500", "P 0 3000 -1000"]);
    let end = &lent.notes[300_000_000 - 1_000..];
    let note = "3000 10 20 10 20 500;";
    assert_eq!(String::from_utf8_lossy(end), format!("{:500}{:500}", "", note.repeat(2)));
}

/// Both engines judge every row of the longest table, of 200,000 numbers, and of every short one: a row that is wrong in one rule is refused by 17
/// wherever it is, one at an end of the rules is not. The order is for the last item.
#[test]
fn every_row_of_a_table() {
    let wrong = [[-1, 91], [9_991, 10], [10, 9], [0, 10_000], [5_000, 5_001], [i64::MAX, i64::MAX], [i64::MIN, i64::MIN]];
    let right = [[0, 10], [1, 9_999], [9_990, 10], [5_000, 5_000]];
    let longest = [1, 2, 3, 4, 5, 6, 7, 8, 9, 49_999, 50_000, 50_001, 99_993, 99_994, 99_995, 99_996, 99_997, 99_998, 99_999, 100_000];
    let short = (1..=24).flat_map(|items| (1..=items).map(move |item| (items, item)));
    for (items, item) in short.chain(longest.map(|item| (100_000, item))) {
        let head = [1, 1, items, 1, 1];
        let mut lent = book(head);
        for row in wrong {
            lent.topup[2 * item - 2..2 * item].copy_from_slice(&row);
            judged(head, &lent, "OPEN 17 0", "N 17 0");
        }
        if item < items {
            let row = right[item % right.len()];
            lent.topup[2 * item - 2..2 * item].copy_from_slice(&row);
            judged(head, &lent, "OPEN 0", "N 0 1 750 0");
        }
    }
}

/// What both engines answer to opening and to New-Order.
fn judged(head: Head, lent: &Lent, opened: &str, ordered: &str) {
    let [order, ..] = requests(head);
    let engines: [&mut dyn Engine; 2] = [&mut ProvedEngine, &mut SecondEngine];
    for (engine, name) in engines.into_iter().zip(["the proved library", "the second engine"]) {
        assert_eq!(print::open(engine.open(lent)), opened, "{name}, {:?}", lent.topup);
    }
    same(lent, ordered, |engine, lent| print::call(engine, lent, &order));
}

/// Both engines write the longest line of a committed run: order 10,000 of every district, queued on the latest date that a record can hold.
#[test]
fn longest_line_of_a_committed_run() {
    let mut lent = book([1, 1, 1, 10_000, 1]);
    for d in 0..10 {
        lent.nums[8 + 3 * d + 2] = 10_001;
        for order in 0..10_000 {
            let slot = 6 + 2 + 30 + 60 + 1 + 4 + 81 * (10_000 * d + order);
            let waits = i64::from(order == 9_999);
            lent.nums[slot..slot + 11].copy_from_slice(&[1, 1, 0, 1, 1, waits, 1, 1, 1, 250, 0]);
        }
    }
    lent.queue = waiting(1, [u64::MAX, 1, 10]);
    let line = format!("{}\t1\t10\t6342969600\t0{}\n", u64::MAX, "\t10000".repeat(10));
    let answer = format!("RD 0 0 0{}", " 10000".repeat(10));
    ran(&lent, 6_342_969_600, &line, &answer);
}

/// The longest line of a run whose Delivery is refused: four numbers of 20 digits.
#[test]
fn longest_line_of_a_refused_run() {
    let mut lent = book([1, 1, 1, 1, 1]);
    lent.queue = waiting(1, [u64::MAX; 3]);
    let line = format!("{0}\t{0}\t{0}\t{0}\t4\n", u64::MAX);
    ran(&lent, u64::MAX, &line, "RD 4 0");
    lent.names.pop();
    ran(&lent, u64::MAX, &line.replace("\t4\n", "\t2\n"), "RD 2 0");
}

/// Counts beside 0 and 16 and at the end of 64 bits: queuing and running on a record that holds something everywhere, by both engines.
#[test]
fn counts_of_the_waiting_list() {
    for count in [0, 1, 2, 15, 16, 17, 1 << 32, (1 << 32) + 1, 1 << 63, u64::MAX] {
        let mut lent = book([1, 1, 1, 1, 1]);
        lent.queue = waiting(count, [5, 1, 7]);
        lent.buffer = vec![0xee; 400];
        let said = if count < 16 { format!("QD 0 {count}") } else { "QD 15 0".to_string() };
        let request = Delivery { warehouse: 1, carrier: 8, date: 6 };
        let queued = |engine: &mut dyn Engine, lent: &mut Lent| print::queue_delivery(engine.queue_delivery(lent, &request));
        same(&lent, &said, queued);
        let said = if (1..=16).contains(&count) { "RD 0 10 1023 0 0 0 0 0 0 0 0 0 0" } else { "RD 16 0" };
        same(&lent, said, |engine, lent| print::delivery("RD", &engine.run_delivery(lent, 9)));
    }
}

/// A record of this count, all of whose places are the same: queuing date, warehouse, carrier.
fn waiting(count: u64, [date, warehouse, carrier]: [u64; 3]) -> Queue {
    Queue { count, waiting: [Waiting { date, warehouse, carrier }; 16] }
}

/// Both engines run with 400 bytes and with more, and write this line; a byte less is refused by 16 and nothing is changed.
fn ran(lent: &Lent, date: u64, line: &str, answer: &str) {
    for length in [400, 401, 1_000] {
        let mut lent = lent.clone();
        lent.buffer = vec![0xee; length];
        let left = same(&lent, answer, |engine, lent| print::delivery("RD", &engine.run_delivery(lent, date)));
        let (front, rest) = left.buffer.split_at(line.len());
        assert_eq!(String::from_utf8_lossy(front), line);
        assert!(rest.iter().all(|&byte| byte == 0xee), "bytes behind the line");
        assert_eq!(left.queue.count, 0);
    }
    let mut lent = lent.clone();
    lent.buffer = vec![0xee; 399];
    let left = same(&lent, "RD 16 0", |engine, lent| print::delivery("RD", &engine.run_delivery(lent, date)));
    assert!(left == lent, "changed by a run refused by 16");
}

/// Both engines answer this and leave the same, which is given.
fn same(lent: &Lent, said: &str, call: impl Fn(&mut dyn Engine, &mut Lent) -> String) -> Lent {
    let (mut proved, mut second) = (lent.clone(), lent.clone());
    assert_eq!(call(&mut ProvedEngine, &mut proved), said, "the proved library, {:?}", lent.queue.count);
    assert_eq!(call(&mut SecondEngine, &mut second), said, "the second engine, {:?}", lent.queue.count);
    assert!(proved == second, "the engines leave different things");
    proved
}

/// Committed at the limit; refused by 2 where a length is one off, and above the limit; New-Order and Order-Status by 13 where that of the last
/// orders is, Payment by 14 where that of the notes is, opening and New-Order by 17 where that of the top-up table is, by a number or a row.
fn both_sides(limit: Head, above: Head) {
    committed(limit, &book(limit));
    for last in [-1, 1] {
        refused_by_13(limit, &off_last(book(limit), last));
    }
    for notes in [-1, 1] {
        refused_by_14(limit, &off_notes(book(limit), notes));
    }
    for topup in [-2, -1, 1, 2] {
        refused_by_17(limit, &off_topup(book(limit), topup));
    }
    for numbers in [-1, 1] {
        refused(limit, &off(book(limit), numbers, 0));
    }
    for name_bytes in [-1, 1] {
        refused(limit, &off(book(limit), 0, name_bytes));
    }
    refused(above, &book(above));
}

/// Opening and the five calls are committed with these figures, and both engines leave the same numbers.
fn committed(head: Head, lent: &Lent) {
    let [w, c, i, ..] = head;
    let said = [
        "OPEN 0".to_string(),
        "N 0 1 750 0".to_string(),
        format!("P 0 {c} -500"),
        "D 0 9 511 0 0 0 0 0 0 0 0 0 1".to_string(),
        format!("S 0 {c} 250 1 100 3 {i} {w} 3 750 200"),
        "L 0 1".to_string(),
    ];
    let (mut proved, mut second) = (lent.clone(), lent.clone());
    assert_eq!(answers(&mut ProvedEngine, &mut proved, head), said, "the proved library, {head:?}");
    assert_eq!(answers(&mut SecondEngine, &mut second, head), said, "the second engine, {head:?}");
    assert!(proved == second, "{head:?}: the books differ");
}

/// Opening and the five calls are refused by 2 and change nothing.
fn refused(head: Head, lent: &Lent) {
    let said = ["OPEN 2 0", "N 2 0", "P 2 0", "D 2 0", "S 2 0", "L 2 0"];
    let lengths = (lent.nums.len(), lent.names.len());
    let mut left = lent.clone();
    assert_eq!(answers(&mut ProvedEngine, &mut left, head), said, "the proved library, {head:?}, {lengths:?}");
    assert_eq!(answers(&mut SecondEngine, &mut left, head), said, "the second engine, {head:?}, {lengths:?}");
    assert!(left == *lent, "{head:?}, {lengths:?}: changed by a refused call");
}

/// New-Order and Order-Status are refused by 13, the other calls are not, and the last orders are left.
fn refused_by_13(head: Head, lent: &Lent) {
    let said = ["OPEN 0", "N 13 0", &format!("P 0 {} -500", head[1]), "D 0 10 1023 0 0 0 0 0 0 0 0 0 0", "S 13 0", "L 0 0"];
    let (mut proved, mut second) = (lent.clone(), lent.clone());
    assert_eq!(answers(&mut ProvedEngine, &mut proved, head), said, "the proved library, {head:?}, {}", lent.last.len());
    assert_eq!(answers(&mut SecondEngine, &mut second, head), said, "the second engine, {head:?}, {}", lent.last.len());
    assert!(proved == second && proved.last == lent.last, "{head:?}: the books differ");
}

/// Payment is refused by 14, the other calls are not, and the notes are left.
fn refused_by_14(head: Head, lent: &Lent) {
    let [w, c, i, ..] = head;
    let said = [
        "OPEN 0".to_string(),
        "N 0 1 750 0".to_string(),
        "P 14 0".to_string(),
        "D 0 9 511 0 0 0 0 0 0 0 0 0 1".to_string(),
        format!("S 0 {c} 750 1 100 3 {i} {w} 3 750 200"),
        "L 0 1".to_string(),
    ];
    let (mut proved, mut second) = (lent.clone(), lent.clone());
    assert_eq!(answers(&mut ProvedEngine, &mut proved, head), said, "the proved library, {head:?}, {}", lent.notes.len());
    assert_eq!(answers(&mut SecondEngine, &mut second, head), said, "the second engine, {head:?}, {}", lent.notes.len());
    assert!(proved == second && proved.notes == lent.notes, "{head:?}: the books differ");
}

/// Opening and New-Order are refused by 17, the other calls are not.
fn refused_by_17(head: Head, lent: &Lent) {
    let c = head[1];
    let said = [
        "OPEN 17 0".to_string(),
        "N 17 0".to_string(),
        format!("P 0 {c} -500"),
        "D 0 10 1023 0 0 0 0 0 0 0 0 0 0".to_string(),
        format!("S 0 {c} -500 0 0 0"),
        "L 0 0".to_string(),
    ];
    let (mut proved, mut second) = (lent.clone(), lent.clone());
    let length = lent.topup.len();
    assert_eq!(answers(&mut ProvedEngine, &mut proved, head), said, "the proved library, {head:?}, {length}");
    assert_eq!(answers(&mut SecondEngine, &mut second, head), said, "the second engine, {head:?}, {length}");
    assert!(proved == second && proved.topup == lent.topup, "{head:?}: the books differ");
}

/// Opening and one call of each kind, on the last warehouse, district, customer and item.
fn answers(engine: &mut impl Engine, lent: &mut Lent, head: Head) -> Vec<String> {
    let mut said = vec![print::open(engine.open(lent))];
    said.extend(requests(head).iter().map(|request| print::call(engine, lent, request)));
    said
}

fn requests(head: Head) -> [Request; 5] {
    let [w, c, i, ..] = head.map(|n| n as u64);
    [
        Request::NewOrder(NewOrder {
            warehouse: w,
            district: 10,
            customer: c,
            date: 100,
            lines: vec![Line { item: i, supply_warehouse: w, quantity: 3 }],
        }),
        Request::Payment(Payment {
            warehouse: w,
            district: 10,
            customer_warehouse: w,
            customer_district: 10,
            who: Who::Number(c),
            date: 100,
            amount: 500,
        }),
        Request::Delivery(Delivery { warehouse: w, carrier: 3, date: 200 }),
        Request::OrderStatus(OrderStatus { warehouse: w, district: 10, who: Who::Number(c) }),
        Request::StockLevel(StockLevel { warehouse: w, district: 10, threshold: 20 }),
    ]
}

/// A book as opening wants it, with the lengths that its head implies: every price 250, 20 of each item on hand, no taxes or discounts.
fn book(head: Head) -> Lent {
    let [w, c, i, o, h] = head;
    let mut nums: Vec<i64> = head.iter().map(|&n| n as i64).collect();
    nums.push(0);
    nums.extend([0, 0].repeat(w));
    nums.extend([0, 0, 1].repeat(10 * w));
    nums.extend([0; 6].repeat(10 * w * c));
    nums.extend([250].repeat(i));
    nums.extend([20, 0, 0, 0].repeat(w * i));
    nums.resize(nums.len() + 81 * 10 * w * o + 7 * h, 0);
    Lent {
        nums,
        names: vec![b'A'; 32 * 10 * w * c],
        last: vec![0; 10 * w * c],
        notes: vec![b' '; 5_000 * w * c],
        topup: [10, 91].repeat(i),
        ..Lent::default()
    }
}

/// The book with that many more last orders.
fn off_last(mut lent: Lent, numbers: isize) -> Lent {
    lent.last.resize(lent.last.len().wrapping_add_signed(numbers), 0);
    lent
}

/// The book with that many more numbers in its top-up table.
fn off_topup(mut lent: Lent, numbers: isize) -> Lent {
    lent.topup.resize(lent.topup.len().wrapping_add_signed(numbers), 10);
    lent
}

/// The book with that many more bytes of notes.
fn off_notes(mut lent: Lent, bytes: isize) -> Lent {
    lent.notes.resize(lent.notes.len().wrapping_add_signed(bytes), b' ');
    lent
}

/// The book with that many more numbers and name bytes.
fn off(mut lent: Lent, numbers: isize, name_bytes: isize) -> Lent {
    lent.nums.resize(lent.nums.len().wrapping_add_signed(numbers), 0);
    lent.names.resize(lent.names.len().wrapping_add_signed(name_bytes), b'A');
    lent
}
