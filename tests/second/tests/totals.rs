//! R-2 of document 02: an order total is rounded to the nearest cent, an exact half upwards.

mod common;

use common::*;
use second::layout::Layout;
use second::lists::random::Random;
use second::new_order::{exact_total, total, PARTS};
use second::replay::{Engine, SecondEngine};
use second::*;

/// Sum, discount, taxes and the total; exact totals beside half a cent in the comments.
const TOTALS: [([i64; 4], i64); 28] = [
    ([10, 0, 500, 0], 11), // 10.5
    ([10, 0, 0, 500], 11),
    ([10, 0, 250, 250], 11),
    ([10, 0, 1_000, 500], 12), // 11.5
    ([3, 5_000, 0, 0], 2),     // 1.5
    ([5, 5_000, 0, 0], 3),     // 2.5
    ([1, 5_000, 0, 0], 1),     // 0.5
    ([1, 5_001, 0, 0], 0),
    ([1, 4_999, 0, 0], 1),
    ([1, 9_999, 0, 0], 0),
    ([5, 9_000, 0, 0], 1), // 0.5
    ([5, 9_001, 0, 0], 0),
    ([2, 7_500, 0, 0], 1),     // 0.5
    ([10, 500, 0, 0], 10),     // 9.5
    ([30, 0, 166, 0], 30),     // 30.498
    ([30, 0, 167, 0], 31),     // 30.501
    ([7, 0, 714, 0], 7),       // 7.4998
    ([7, 0, 715, 0], 8),       // 7.5005
    ([23, 307, 541, 0], 23),   // 23.49999999
    ([31, 1_959, 0, 631], 27), // 26.50000001
    ([0, 0, 0, 0], 0),
    ([1, 0, 0, 0], 1),
    ([20, 2_500, 0, 0], 15),
    ([9_999, 1, 1, 0], 9_999),
    ([1_750, 1_000, 1_000, 500], 1_811),
    ([100, 0, 1_000, 500], 115),
    ([14_999_850, 0, 9_999, 9_999], 44_996_550),
    ([14_999_850, 9_999, 0, 0], 1_500),
];

#[test]
fn totals() {
    for ([sum, discount, warehouse_tax, district_tax], cents) in TOTALS {
        let found = total(sum, discount, warehouse_tax, district_tax);
        assert_eq!(found, cents, "sum {sum}, discount {discount}");
    }
}

/// No whole number of cents is nearer, and of two equally near it is the upper.
#[test]
fn nearest_by_distance() {
    let mut random = Random::new(2);
    let mut halves = 0;
    for _ in 0..200_000 {
        let sum = random.between(0, 14_999_850);
        let mut rate = || *random.pick(&[0, 500, 1_000, 2_500, 5_000, 7_500, 9_999]);
        let rates = [rate(), rate(), rate()];
        let cents = total(sum, rates[0], rates[1], rates[2]);
        let exact = exact_total(sum, rates[0], rates[1], rates[2]);
        let apart = |cents: i64| (cents * PARTS - exact).abs();
        assert!(apart(cents) <= apart(cents - 1), "{sum} {rates:?}");
        assert!(apart(cents) < apart(cents + 1), "{sum} {rates:?}");
        halves += i32::from(apart(cents) == apart(cents - 1));
    }
    assert!(halves > 1_000, "{halves} halves");
}

/// Rounded is the order's total, not each line's; the amounts in the slot and the balance after delivery are not rounded.
#[test]
fn once_and_nowhere_else() {
    let mut lent = fresh();
    let layout = Layout::of(&lent.nums, &lent.names).unwrap();
    let lines = [line(1, 1, 1), line(1, 1, 1), line(1, 1, 1)];
    let outcome = SecondEngine.new_order(&mut lent, &new_order_of(&lines));
    let figures = NewOrderFigures {
        order: 1,
        total: 311, // 300 x 0.9 x 1.15 = 310.5; three times 103.5 would be 312
        lifts: 0,
    };
    assert_eq!(outcome, Outcome::Committed(figures));
    let slot = &lent.nums[layout.order(1, 1, 1)];
    assert_eq!([slot[9], slot[14], slot[19]], [100; 3]);
    let request = Delivery {
        warehouse: 1,
        carrier: 1,
        date: 1,
    };
    SecondEngine.delivery(&mut lent, &request);
    assert_eq!(lent.nums[layout.customer(1, 1, 1)][2], 300);
}
