//! R-6 of document 02, sentence by sentence: each item's own margin and lift.

mod common;

use common::*;
use second::lists::random::Random;
use second::new_order::{left_on_hand, Left};
use second::replay::{Engine, Lent, SecondEngine};
use second::*;

/// The book of two warehouses and three items under this table, 20 on hand of each.
fn under(topup: &[i64]) -> Lent {
    Lent {
        topup: topup.to_vec(),
        ..fresh()
    }
}

/// On hand, quantity, margin and lift; what is on hand then, and whether it was topped up.
const STEPS: [([i64; 4], (i64, bool)); 22] = [
    ([20, 10, 10, 91], (10, false)), // at the margin
    ([19, 10, 10, 91], (100, true)),
    ([21, 10, 10, 91], (11, false)),
    ([10, 1, 10, 91], (100, true)),
    ([0, 10, 10, 91], (81, true)),
    ([9_999, 10, 10, 91], (9_989, false)),
    ([10, 10, 0, 10], (0, false)),
    ([0, 10, 0, 10], (0, true)),
    ([0, 1, 0, 10], (9, true)),
    ([9, 10, 0, 9_999], (9_998, true)),
    ([0, 1, 0, 9_999], (9_998, true)),
    ([1, 1, 1, 9_999], (9_999, true)),
    ([2, 1, 1, 9_999], (1, false)),
    ([0, 1, 9_990, 10], (9, true)), // one lift, and still below
    ([9_990, 1, 9_990, 10], (9_999, true)),
    ([9_991, 1, 9_990, 10], (9_990, false)),
    ([9_999, 10, 9_990, 10], (9_999, true)),
    ([9_999, 9, 9_990, 10], (9_990, false)),
    ([9_998, 9, 9_989, 11], (9_989, false)),
    ([9_998, 10, 9_989, 11], (9_999, true)),
    ([5_005, 5, 5_000, 5_000], (5_000, false)),
    ([5_004, 5, 5_000, 5_000], (9_999, true)),
];

/// "which replace 10 and 91": judged on what is left, equality keeps, one lift a line.
#[test]
fn computed_steps() {
    for ([hand, quantity, margin, lift], (on_hand, lifted)) in STEPS {
        let left = left_on_hand(hand, quantity, margin, lift);
        assert_eq!(left, Left { on_hand, lifted }, "{hand} {quantity}");
    }
}

/// With a row that 17 lets through on hand stays from 0 to 9,999, and just outside each rule it does not, but that a lift of 10,000 is refused too.
#[test]
fn on_hand_stays_in_range() {
    let stays = |margin: i64, lift: i64| {
        (0..=9_999).all(|hand| {
            (1..=10).all(|quantity| {
                let left = left_on_hand(hand, quantity, margin, lift);
                (0..=9_999).contains(&left.on_hand)
            })
        })
    };
    for (margin, lift) in [(0, 10), (0, 9_999), (1, 9_999), (9_990, 10), (5_000, 5_000)] {
        assert!(stays(margin, lift), "{margin} {lift}");
    }
    for (margin, lift) in [(0, 9), (9_990, 9), (9_990, 11), (2, 9_999), (5_000, 5_001)] {
        assert!(!stays(margin, lift), "{margin} {lift}");
    }
    assert!(stays(0, 10_000));
}

/// "a margin of 0 to 9,990 and a lift of 10 to 9,999 .. Margin plus lift is at most 10,000", in numbers that have no end.
fn in_range(margin: i64, lift: i64) -> bool {
    let (margin, lift) = (i128::from(margin), i128::from(lift));
    (0..=9_990).contains(&margin) && (10..=9_999).contains(&lift) && margin + lift <= 10_000
}

/// Ends of the rules, the numbers beside them, and those that wrap or that a narrower type would misread.
fn ends_of_rules() -> Vec<i64> {
    let near = [-1, 0, 1, 9, 10, 11, 91, 4_999, 5_000, 5_001, 9_989, 9_990];
    let high = [9_991, 9_998, 9_999, 10_000, 10_001, 1 << 32, (1 << 32) + 91];
    let far = [
        i64::MIN,
        i64::MIN + 1,
        i64::MIN + 91,
        i64::MAX,
        1 - i64::MAX,
    ];
    let low = [-10, -91, -9_999, i64::MAX - 10_000, i64::MIN + 10_000];
    [&near[..], &high, &far, &low].concat()
}

/// The pass over a table is the plain test of each row, at every end of a rule and at any place.
#[test]
fn the_pass_is_the_plain_test() {
    for margin in ends_of_rules() {
        for lift in ends_of_rules() {
            let expected = in_range(margin, lift);
            for place in 0..5 {
                let mut rows = [[10, 91], [0, 10], [9_990, 10], [1, 9_999], [0, 9_999]];
                rows[place] = [margin, lift];
                let found = rows::topup_in_range(rows.as_flattened());
                assert_eq!(found, expected, "{margin} {lift} at {place}");
            }
        }
    }
    let mut random = Random::new(6);
    for _ in 0..200_000 {
        let [margin, lift] = [(); 2].map(|()| random.between(-5, 10_005));
        let found = rows::topup_in_range(&[margin, lift]);
        assert_eq!(found, in_range(margin, lift), "{margin} {lift}");
        let wide = [random.number() as i64, random.number() as i64];
        assert_eq!(rows::topup_in_range(&wide), in_range(wide[0], wide[1]));
    }
    assert!(rows::topup_in_range(&[]));
}

/// "17 when the table is not 2 x I numbers", in opening and in New-Order; calls that do not take it do not look at it.
#[test]
fn lengths() {
    for length in [0, 1, 2, 3, 4, 5, 7, 8, 12, 200_000] {
        let mut lent = under(&[]);
        lent.topup = TOPUP.into_iter().cycle().take(length).collect();
        answers(
            &lent,
            &[
                ("OPEN", "OPEN 17 0"),
                ("N 1 1 1 100 1 1 1 1", "N 17 0"),
                ("P 1 1 1 1 #1 100 500", "P 0 1 -500"),
                ("D 1 1 100", "D 0 10 1023 0 0 0 0 0 0 0 0 0 0"),
                ("S 1 1 #1", "S 0 1 -500 0 0 0"),
                ("L 1 1 10", "L 0 0"),
                ("N 1 1 1 100 1 1 1 1", "N 17 0"),
            ],
        );
    }
}

/// "or a row breaks these rules": any row, also of an item that no line names, at every end; in opening too.
#[test]
fn every_row() {
    let order = Request::NewOrder(new_order_of(&[line(2, 1, 1)]));
    for margin in ends_of_rules() {
        for lift in ends_of_rules() {
            let expected = if in_range(margin, lift) { 0 } else { 17 };
            for item in 1..=3 {
                let mut lent = under(&TOPUP);
                lent.topup[2 * item - 2..2 * item].copy_from_slice(&[margin, lift]);
                let opened = ends(SecondEngine.open(&lent));
                assert_eq!(opened, (expected, 0), "{margin} {lift} of {item}");
                let answer = call(&mut lent, &order);
                assert_eq!(answer, (expected, 0), "{margin} {lift} of {item}");
            }
        }
    }
}

/// "New-Order answers .. how many of its lines did": an item named twice is judged on what the first line left.
#[test]
fn lines_in_turn() {
    let usual = under(&TOPUP);
    let one = "N 1 1 1 100";
    answers(
        &usual,
        &[
            (&format!("{one} 3 1 1 10 1 1 1 1 1 1"), "N 0 1 1242 1"),
            (&format!("{one} 2 1 2 10 1 2 10"), "N 0 2 2070 1"),
            (&format!("{one} 3 2 1 10 2 1 1 2 2 11"), "N 8 3"),
            (&format!("{one} 2 2 1 10 2 2 10"), "N 0 3 5175 0"),
        ],
    );
    let mut ten = usual.clone();
    ten.nums[stock(1, 1)] = 10;
    answers(&ten, &[(&format!("{one} 2 1 1 1 1 1 1"), "N 0 1 207 1")]);
    let mut short = under(&[9_990, 10, 9_990, 10, 9_990, 10]);
    short.nums[stock(1, 1)] = 0;
    let request = new_order_of(&[line(1, 1, 1); 15]);
    let outcome = SecondEngine.new_order(&mut short, &request);
    let Outcome::Committed(figures) = outcome else {
        panic!("refused");
    };
    assert_eq!(figures.lifts, 15);
    assert_eq!(short.nums[stock(1, 1)], 15 * 9);
}

/// "for each item a margin and a lift": the item's own, the same at every warehouse.
#[test]
fn each_items_own() {
    let mut lent = under(&[0, 10, 15, 500, 10, 91]);
    let lines = [
        line(1, 1, 10), // 10
        line(1, 1, 10), // 0
        line(1, 1, 1),  // -1 and 10
        line(2, 1, 5),  // 15
        line(2, 2, 6),  // 14 and 500
    ];
    let outcome = SecondEngine.new_order(&mut lent, &new_order_of(&lines));
    let figures = NewOrderFigures {
        order: 1,
        total: 5_020, // 4,850 x 0.9 x 1.15 = 5,019.75
        lifts: 2,
    };
    assert_eq!(outcome, Outcome::Committed(figures));
    assert_eq!(lent.nums[stock(1, 1)..stock(1, 2)], [9, 21, 3, 0]);
    assert_eq!(lent.nums[stock(1, 2)..stock(1, 3)], [15, 5, 1, 0]);
    assert_eq!(lent.nums[stock(2, 1)..stock(2, 2)], [20, 0, 0, 0]);
    assert_eq!(lent.nums[stock(2, 2)..stock(2, 3)], [514, 6, 1, 1]);
    assert_eq!(lent.topup, [0, 10, 15, 500, 10, 91]);
}

/// "at opening after 3": 2 and 3 come before 17.
#[test]
fn checking_order_of_opening() {
    let mut wrong = under(&[10, 91, 10, 91, 10, 9]);
    let open = |lent: &Lent| ends(SecondEngine.open(lent));
    assert_eq!(open(&wrong), (17, 0));
    wrong.nums[customer(2, 10, 2) + 2] = 1;
    assert_eq!(open(&wrong), (3, 0));
    wrong.names.pop();
    assert_eq!(open(&wrong), (2, 0));
    let mut used = in_use();
    used.topup.pop();
    assert_eq!(open(&used), (3, 0));
}

/// "in New-Order after 13": 13 by the length and by a number comes before, 11 and 12 behind, and 9 before 13.
#[test]
fn checking_order_of_new_order() {
    let order = Request::NewOrder(new_order_of(&[line(1, 1, 1)]));
    let unused = Request::NewOrder(new_order_of(&[line(3, 1, 1)]));
    for topup in [&TOPUP[..5], &[10, 91, 10, 91, 9_990, 11]] {
        let mut lent = under(topup);
        assert_eq!(call(&mut lent, &unused), (17, 0));
        lent.nums[district(1, 1) + 2] = 4;
        assert_eq!(call(&mut lent, &order), (17, 0));
        assert_eq!(call(&mut lent, &unused), (17, 0));
        for number in [-1, 4] {
            lent.last[last(1, 1, 2)] = number;
            assert_eq!(call(&mut lent, &order), (13, 0));
        }
        lent.last.pop();
        assert_eq!(call(&mut lent, &order), (13, 0));
        lent.nums[stock(1, 1)] = 10_000;
        assert_eq!(call(&mut lent, &order), (9, 0));
        lent.topup = TOPUP.to_vec();
        lent.nums[stock(1, 1)] = 20;
        lent.last = vec![0; LAST_ORDERS];
        assert_eq!(call(&mut lent, &order), (11, 0));
        lent.nums[district(1, 1) + 2] = 1;
        assert_eq!(call(&mut lent, &unused), (12, 1));
    }
}

/// "while the table is unchanged": the lender may change it, and each order takes what it is lent.
#[test]
fn tables_that_change() {
    let ask = "N 1 1 1 100 1 1 1 10";
    answers(
        &under(&TOPUP),
        &[
            ("OPEN", "OPEN 0"),
            (ask, "N 0 1 1035 0"), // 10
            (
                "SLICE topup 11 10 10 91 10 91\nD 2 1 1",
                "D 0 10 1023 0 0 0 0 0 0 0 0 0 0",
            ),
            (ask, "N 0 2 1035 1"), // 0 and 10
            (
                "SLICE topup 11 10 10 91 10 9\nD 2 1 1",
                "D 0 10 1023 0 0 0 0 0 0 0 0 0 0",
            ),
            (ask, "N 17 0"),
            ("SLICE topup 0 10 10 91 10 91\nOPEN", "OPEN 3 0"),
            (ask, "N 0 3 1035 0"), // 0
        ],
    );
}
