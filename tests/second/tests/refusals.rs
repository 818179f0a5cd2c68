//! Every refusal of every call, alone and two at once, and which rows each call uses.

mod common;

use common::*;
use second::replay::{Engine, Lent, SecondEngine};
use second::*;

/// A book and a request to it, both sound until a fault is put in.
struct Case {
    lent: Lent,
    request: Request,
}

fn case(request: Request) -> Case {
    Case {
        lent: in_use(),
        request,
    }
}

/// Puts the fault that a refusal number is about into a book or its request.
fn put_fault(case: &mut Case, number: u64) {
    let nums = &mut case.lent.nums;
    match (&case.request, number) {
        (_, 2) => nums.push(0),
        (_, 9) => nums[district(1, 1)] = 10_000,
        (_, 13) => case.lent.last[last(1, 1, 2)] = -1,
        (_, 14) => case.lent.notes.truncate(NOTE_BYTES - 1),
        (_, 17) => case.lent.topup[4] = 9_991, // of item 3, which no line names but for 12
        (Request::NewOrder(_), 11) => nums[district(1, 1) + 2] = 4,
        (Request::Payment(_), 11) => nums[5] = 2,
        _ => put_request_fault(&mut case.request, number),
    }
}

fn put_request_fault(request: &mut Request, number: u64) {
    match (request, number) {
        (Request::NewOrder(r), 4) => r.warehouse = 3,
        (Request::NewOrder(r), 5) => r.district = 11,
        (Request::NewOrder(r), 6) => r.customer = 3,
        (Request::NewOrder(r), 7) => r.date = 6_342_969_601,
        (Request::NewOrder(r), 8) => r.lines[1].quantity = 11,
        (Request::NewOrder(r), 12) => r.lines[2].item = 3,
        (Request::Payment(r), 4) => r.customer_warehouse = 0,
        (Request::Payment(r), 5) => r.customer_district = 0,
        (Request::Payment(r), 6) => r.who = Who::Number(0),
        (Request::Payment(r), 7) => r.date = 0,
        (Request::Payment(r), 8) => r.amount = 99,
        (Request::Payment(r), 10) => r.who = named("NOBODY"),
        (Request::Delivery(r), 4) => r.warehouse = 0,
        (Request::Delivery(r), 7) => r.date = 0,
        (Request::Delivery(r), 8) => r.carrier = 11,
        (Request::OrderStatus(r), 4) => r.warehouse = 3,
        (Request::OrderStatus(r), 5) => r.district = 0,
        (Request::OrderStatus(r), 6) => r.who = Who::Number(3),
        (Request::OrderStatus(r), 10) => r.who = named("NOBODY"),
        (Request::StockLevel(r), 4) => r.warehouse = 0,
        (Request::StockLevel(r), 5) => r.district = 11,
        (Request::StockLevel(r), 8) => r.threshold = 21,
        (request, _) => panic!("no fault {number} in {request:?}"),
    }
}

/// The refusals of each call in checking order.
fn calls() -> [(Request, Vec<u64>); 5] {
    let lines = [line(1, 1, 1), line(2, 1, 1), line(1, 2, 1)];
    let new_order = Request::NewOrder(new_order_of(&lines));
    let payment = Request::Payment(payment_by(Who::Number(1)));
    let order_status = Request::OrderStatus(status_of(Who::Number(1)));
    [
        (new_order, vec![2, 4, 5, 6, 7, 8, 9, 13, 17, 11, 12]),
        (payment, vec![2, 14, 4, 5, 6, 7, 8, 9, 10, 11]),
        (Request::Delivery(delivery_at(1)), vec![2, 4, 7, 8, 9]),
        (order_status, vec![2, 4, 5, 6, 9, 10, 13]),
        (
            Request::StockLevel(stock_level_below(15)),
            vec![2, 4, 5, 8, 9],
        ),
    ]
}

fn detail(request: &Request, number: u64) -> u64 {
    match (request, number) {
        (Request::NewOrder(_), 8) => 2,
        (Request::NewOrder(_), 12) => 3,
        _ => 0,
    }
}

#[test]
fn each_refusal_alone() {
    for (request, numbers) in calls() {
        let mut sound = case(request.clone());
        assert_eq!(call(&mut sound.lent, &sound.request), (0, 0));
        for number in numbers {
            let mut case = case(request.clone());
            put_fault(&mut case, number);
            let answer = call(&mut case.lent, &case.request);
            assert_eq!(answer, (number, detail(&request, number)), "{request:?}");
        }
    }
}

/// Of two faults the earlier in checking order is answered; adjacent pairs and all others.
#[test]
fn two_refusals_at_once() {
    for (request, numbers) in calls() {
        for (place, &earlier) in numbers.iter().enumerate() {
            for &later in &numbers[place + 1..] {
                if (earlier, later) == (6, 10) {
                    continue; // a number and a name can not stand at once
                }
                let mut case = case(request.clone());
                put_fault(&mut case, later);
                put_fault(&mut case, earlier);
                let answer = call(&mut case.lent, &case.request);
                let expected = (earlier, detail(&request, earlier));
                assert_eq!(answer, expected, "{earlier} before {later}: {request:?}");
            }
        }
    }
}

#[test]
fn opening_refusals() {
    let answer = |lent: &Lent| ends(SecondEngine.open(lent));
    let mut lent = fresh();
    lent.topup[4] = 9_991;
    assert_eq!(answer(&lent), (17, 0));
    lent.nums[warehouse(1)] = 10_000;
    assert_eq!(answer(&lent), (3, 0));
    lent.names.pop();
    assert_eq!(answer(&lent), (2, 0));
    assert_eq!(answer(&in_use()), (3, 0));
}

/// What opening accepts in each position: low and high end. Slots may hold anything.
fn opening_ends() -> Vec<(i64, i64)> {
    let mut ends_of = vec![(i64::MIN, i64::MAX); NUMBERS];
    for w in 1..=2 {
        ends_of[warehouse(w)..warehouse(w) + 2].copy_from_slice(&[(0, 9_999), (0, 0)]);
        for d in 1..=10 {
            let row = [(0, 9_999), (0, 0), (1, 1)];
            ends_of[district(w, d)..district(w, d) + 3].copy_from_slice(&row);
            for c in 1..=2 {
                let row = [(0, 1), (0, 9_999), (0, 0), (0, 0), (0, 0), (0, 0)];
                let start = customer(w, d, c);
                ends_of[start..start + 6].copy_from_slice(&row);
            }
        }
        for i in 1..=3 {
            let row = [(0, 9_999), (0, 0), (0, 0), (0, 0)];
            ends_of[stock(w, i)..stock(w, i) + 4].copy_from_slice(&row);
            ends_of[item(i)] = (0, 99_999);
        }
    }
    ends_of[5] = (0, 0);
    ends_of
}

#[test]
fn opening_rule_number_by_number() {
    let mut lent = fresh();
    for (position, (low, high)) in opening_ends().into_iter().enumerate().skip(5) {
        let sound = lent.nums[position];
        for value in around(low, high) {
            lent.nums[position] = value;
            let bad = if position == 5 && !(0..=2).contains(&value) {
                2
            } else {
                3
            };
            let expected = if low <= value && value <= high {
                0
            } else {
                bad
            };
            let answer = ends(SecondEngine.open(&lent));
            assert_eq!(answer, (expected, 0), "{position} {value}");
        }
        lent.nums[position] = sound;
    }
}

/// Both ends, the numbers beside them, and the extremes of 64 bits.
fn around(low: i64, high: i64) -> [i64; 7] {
    let (below, above) = (low.saturating_sub(1), high.saturating_add(1));
    [below, low, high, above, -1, i64::MIN, i64::MAX]
}

#[test]
fn opening_judges_all_names() {
    for position in 0..NAME_BYTES {
        for byte in [0, 31, 32, 33, 126, 127, 255] {
            let mut lent = fresh();
            lent.names[position] = byte;
            let first = position % 32 == 0;
            let sound = (32..=126).contains(&byte) && !(first && byte == 32);
            let expected = if sound { (0, 0) } else { (3, 0) };
            assert_eq!(ends(SecondEngine.open(&lent)), expected);
        }
    }
}

#[test]
fn heads_and_lengths() {
    let highs = [20, 3_000, 100_000, 10_000, 1_000_000, 2];
    for (request, _) in calls() {
        let refused = |change: &dyn Fn(&mut Lent)| {
            let mut lent = in_use();
            change(&mut lent);
            assert_eq!(call(&mut lent, &request), (2, 0), "{request:?}");
            assert_eq!(ends(SecondEngine.open(&lent)), (2, 0));
        };
        for length in 0..=7 {
            refused(&|lent| lent.nums.truncate(length));
        }
        refused(&|lent| lent.nums.truncate(NUMBERS - 1));
        refused(&|lent| lent.nums.push(0));
        refused(&|lent| lent.names.truncate(NAME_BYTES - 1));
        refused(&|lent| lent.names.push(b'A'));
        refused(&|lent| lent.names.clear());
        for (place, high) in highs.into_iter().enumerate() {
            let low = if place == 5 { 0 } else { 1 };
            for value in [low - 1, high + 1, -2, i64::MIN, i64::MAX] {
                refused(&|lent| lent.nums[place] = value);
            }
        }
        for (place, high) in highs.into_iter().enumerate().take(5) {
            refused(&|lent| lent.nums[place] += 1);
            refused(&|lent| lent.nums[place] = high);
        }
    }
}

/// What a call accepts in each position of the book: low and high end, none where unused.
type Used = Vec<Option<(i64, i64)>>;

const RATE: (i64, i64) = (0, 9_999);
const MONEY: (i64, i64) = (0, 999_999_999_999);
const COUNT: (i64, i64) = (0, 999_999_999);
const DATE: (i64, i64) = (1, 6_342_969_600);

fn use_row(used: &mut Used, start: usize, ranges: &[(i64, i64)]) {
    for (place, &range) in ranges.iter().enumerate() {
        used[start + place] = Some(range);
    }
}
fn use_warehouse(used: &mut Used, w: usize) {
    use_row(used, warehouse(w), &[RATE, MONEY]);
}
fn use_district(used: &mut Used, w: usize, d: usize) {
    use_row(used, district(w, d), &[RATE, MONEY, (1, 4)]);
}
fn use_customer(used: &mut Used, w: usize, d: usize, c: usize) {
    let balance = (-999_999_999_999, 999_999_999_999);
    let row = [(0, 1), RATE, balance, MONEY, COUNT, COUNT];
    use_row(used, customer(w, d, c), &row);
}
fn use_stock(used: &mut Used, w: usize, i: usize) {
    let row = [RATE, (0, 9_999_999_999), COUNT, COUNT];
    use_row(used, stock(w, i), &row);
}
/// The two orders before next in each district, both with two lines.
fn use_orders(used: &mut Used, w: usize, d: usize) {
    let line = [(1, 3), (1, 2), (1, 10), (1, 999_990), (0, DATE.1)];
    for o in 1..=2 {
        let head = [(1, 2), DATE, (0, 10), (1, 15), (0, 1), (0, 1)];
        use_row(used, order(w, d, o), &head);
        use_row(used, order(w, d, o) + 6, &line);
        use_row(used, order(w, d, o) + 11, &line);
    }
}

/// Sets every number of the book in turn around its ends; 9 exactly where a used one is out.
fn judge_every_number(request: &Request, used: &Used) {
    let sound = in_use();
    let mut lent = sound.clone();
    for (position, range) in used.iter().enumerate().skip(6) {
        let (low, high) = range.unwrap_or((i64::MIN, i64::MAX));
        for value in around(low, high) {
            lent.nums[position] = value;
            let (number, _) = call(&mut lent, request);
            let in_range = low <= value && value <= high;
            if is_shape(position) && in_range {
                assert_ne!(number, 2); // other orders or lines come into use: any answer
            } else {
                let expected = !in_range;
                assert_eq!(number == 9, expected, "{position} {value} {request:?}");
            }
            lent.nums.copy_from_slice(&sound.nums);
        }
    }
}

/// Next order numbers and line counts say what else is used.
fn is_shape(position: usize) -> bool {
    let in_district = (10..70).contains(&position) && (position - 10) % 3 == 2;
    let in_order = (337..5_197).contains(&position) && (position - 337) % 81 == 3;
    in_district || in_order
}

#[test]
fn rows_used_by_new_order() {
    // Item 3 has price 0: its rows are used before 12 refuses it. Item 4 does not exist.
    let lines = [line(1, 2, 1), line(3, 1, 1), line(4, 1, 1)];
    let mut used = vec![None; NUMBERS];
    use_warehouse(&mut used, 1);
    use_district(&mut used, 1, 1);
    use_customer(&mut used, 1, 1, 1);
    use_stock(&mut used, 2, 1);
    use_stock(&mut used, 1, 3);
    use_row(&mut used, item(1), &[(0, 99_999)]);
    use_row(&mut used, item(3), &[(0, 99_999)]);
    judge_every_number(&Request::NewOrder(new_order_of(&lines)), &used);
    let mut sound = used;
    sound[stock(1, 3)..stock(1, 3) + 4].fill(None);
    sound[item(3)] = None;
    let one = [line(1, 2, 1)];
    judge_every_number(&Request::NewOrder(new_order_of(&one)), &sound);
}

#[test]
fn rows_used_by_payment() {
    let elsewhere = |who: Who| {
        let mut request = payment_by(who);
        request.customer_warehouse = 2;
        request.customer_district = 3;
        Request::Payment(request)
    };
    let mut used = vec![None; NUMBERS];
    use_warehouse(&mut used, 1);
    use_district(&mut used, 1, 1);
    use_customer(&mut used, 2, 3, 2);
    judge_every_number(&elsewhere(Who::Number(2)), &used);
    use_customer(&mut used, 2, 3, 1);
    for name in ["ALM", "NOBODY", "", "MORE THAN 16 BYTES"] {
        judge_every_number(&elsewhere(named(name)), &used);
    }
}

#[test]
fn rows_used_by_delivery() {
    let mut used = vec![None; NUMBERS];
    for d in 1..=10 {
        use_district(&mut used, 2, d);
        use_customer(&mut used, 2, d, 1);
        use_customer(&mut used, 2, d, 2);
        use_orders(&mut used, 2, d);
    }
    judge_every_number(&Request::Delivery(delivery_at(2)), &used);
}

#[test]
fn rows_used_by_order_status() {
    let mut used = vec![None; NUMBERS];
    use_district(&mut used, 1, 1);
    use_customer(&mut used, 1, 1, 2);
    judge_every_number(&Request::OrderStatus(status_of(Who::Number(2))), &used);
    use_customer(&mut used, 1, 1, 1);
    for name in ["ALM", "NOBODY"] {
        judge_every_number(&Request::OrderStatus(status_of(named(name))), &used);
    }
}

#[test]
fn rows_used_by_stock_level() {
    let mut used = vec![None; NUMBERS];
    use_district(&mut used, 1, 1);
    use_orders(&mut used, 1, 1);
    for i in 1..=3 {
        use_stock(&mut used, 1, i);
    }
    judge_every_number(&Request::StockLevel(stock_level_below(15)), &used);
}

/// Names are used in a search by name alone, all 32 bytes of each customer of the district.
#[test]
fn names_used() {
    let by_name = [
        (Request::OrderStatus(status_of(named("NOBODY"))), 10),
        (Request::Payment(payment_by(named(""))), 10),
        (Request::OrderStatus(status_of(named("ALM"))), 0),
        (Request::Payment(payment_by(named("ALM"))), 0),
    ];
    for position in 0..NAME_BYTES {
        let mut lent = in_use();
        lent.names[position] = if position % 32 == 0 { 32 } else { 127 };
        for (request, _) in calls() {
            assert_eq!(call(&mut lent.clone(), &request), (0, 0), "{request:?}");
        }
        for (request, otherwise) in &by_name {
            let expected = if position < 64 { 9 } else { *otherwise };
            assert_eq!(call(&mut lent.clone(), request), (expected, 0));
        }
    }
}

/// Numbers that a narrower or a signed type would take for sound ones.
fn far(number: u64) -> [u64; 3] {
    [
        number + (1 << 32),
        number + (1 << 63),
        number.wrapping_neg(),
    ]
}

#[test]
fn request_numbers_out_of_range() {
    let lines = [line(1, 1, 1)];
    let ask = |change: &dyn Fn(&mut NewOrder)| {
        let mut request = new_order_of(&lines);
        change(&mut request);
        call(&mut in_use(), &Request::NewOrder(request))
    };
    for value in [0, 3, u64::MAX].into_iter().chain(far(1)) {
        assert_eq!(ask(&|r| r.warehouse = value), (4, 0));
        assert_eq!(ask(&|r| r.customer = value), (6, 0));
        assert_eq!(ask(&|r| r.lines[0].supply_warehouse = value), (8, 1));
    }
    for value in [0, 11, u64::MAX].into_iter().chain(far(1)) {
        assert_eq!(ask(&|r| r.district = value), (5, 0));
        assert_eq!(ask(&|r| r.lines[0].quantity = value), (8, 1));
    }
    for value in [0, 4, u64::MAX].into_iter().chain(far(1)) {
        assert_eq!(ask(&|r| r.lines[0].item = value), (12, 1));
    }
    for value in [0, 6_342_969_601, u64::MAX].into_iter().chain(far(100)) {
        let outside = value != 100 + (1 << 32);
        let expected = if outside { (7, 0) } else { (0, 0) };
        assert_eq!(ask(&|r| r.date = value), expected, "{value}");
    }
    for value in [1, 6_342_969_600] {
        assert_eq!(ask(&|r| r.date = value), (0, 0));
    }
}

#[test]
fn amounts_carriers_and_thresholds_at_their_ends() {
    let pay = |amount: u64| {
        let mut request = payment_by(Who::Number(1));
        request.amount = amount;
        call(&mut in_use(), &Request::Payment(request)).0
    };
    assert_eq!([99, 100, 500_000, 500_001].map(pay), [8, 0, 0, 8]);
    assert_eq!(far(100).map(pay), [8, 8, 8]);
    let deliver = |carrier: u64| {
        let mut request = delivery_at(1);
        request.carrier = carrier;
        call(&mut in_use(), &Request::Delivery(request)).0
    };
    assert_eq!([0, 1, 10, 11].map(deliver), [8, 0, 0, 8]);
    assert_eq!(far(1).map(deliver), [8, 8, 8]);
    let level = |threshold: u64| {
        let request = Request::StockLevel(stock_level_below(threshold));
        call(&mut in_use(), &request).0
    };
    assert_eq!([9, 10, 20, 21].map(level), [8, 0, 0, 8]);
    assert_eq!(far(10).map(level), [8, 8, 8]);
}

#[test]
fn each_warehouse_and_district_of_a_payment() {
    let pay = |change: &dyn Fn(&mut Payment)| {
        let mut request = payment_by(Who::Number(1));
        change(&mut request);
        call(&mut in_use(), &Request::Payment(request))
    };
    assert_eq!(pay(&|r| r.warehouse = 0), (4, 0));
    assert_eq!(pay(&|r| r.customer_warehouse = 3), (4, 0));
    assert_eq!(pay(&|r| r.district = 0), (5, 0));
    assert_eq!(pay(&|r| r.customer_district = 11), (5, 0));
    // The terminal's district comes after the customer's warehouse.
    let both = |r: &mut Payment| (r.district, r.customer_warehouse) = (0, 0);
    assert_eq!(pay(&both), (4, 0));
}

#[test]
fn line_counts_and_first_offending_lines() {
    let ask = |lines: &[Line]| call(&mut in_use(), &Request::NewOrder(new_order_of(lines)));
    let good = line(1, 1, 1);
    assert_eq!(ask(&[]), (8, 0));
    assert_eq!(ask(&[good; 15]), (0, 0));
    assert_eq!(ask(&[good; 16]), (8, 0));
    // The count comes before any line.
    assert_eq!(ask(&[line(1, 0, 0); 16]), (8, 0));
    for place in 0..15 {
        let mut lines = [good; 15];
        lines[place..].fill(line(1, 1, 0));
        assert_eq!(ask(&lines), (8, place as u64 + 1));
        lines[place..].fill(line(3, 1, 1));
        assert_eq!(ask(&lines), (12, place as u64 + 1));
    }
    // 12 looks at unknown and at unused items alike, in line order.
    assert_eq!(ask(&[good, line(4, 1, 1), line(3, 1, 1)]), (12, 2));
    assert_eq!(ask(&[good, line(3, 1, 1), line(0, 1, 1)]), (12, 2));
}

#[test]
fn full_district_and_full_history() {
    let mut lent = fresh();
    let order = Request::NewOrder(new_order_of(&[line(1, 1, 1)]));
    for expected in [0, 0, 0, 11, 11] {
        assert_eq!(call(&mut lent, &order), (expected, 0));
    }
    let pay = Request::Payment(payment_by(Who::Number(1)));
    for expected in [0, 0, 11, 11] {
        assert_eq!(call(&mut lent, &pay), (expected, 0));
    }
}
