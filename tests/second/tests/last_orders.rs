//! R-1 of document 02, sentence by sentence: the slice of last orders in New-Order and Order-Status.

mod common;

use common::*;
use second::replay::Lent;
use second::*;

/// The program's book with these numbers in other places, and these last orders, 0 behind them.
fn changed(nums: &[(usize, i64)], first: &[i64]) -> Lent {
    let mut lent = program();
    for &(place, number) in nums {
        lent.nums[place] = number;
    }
    lent.last[..first.len()].copy_from_slice(first);
    lent
}

/// Order 1 of district 1, of customer 1: ten of item 1.
const ONE_ORDER: [(usize, i64); 10] = [
    (10, 2),
    (183, 1),
    (184, 100),
    (186, 1),
    (187, 1),
    (188, 1),
    (189, 1),
    (190, 1),
    (191, 10),
    (192, 1_000),
];

fn with_one_order(also: &[(usize, i64)], first: &[i64]) -> Lent {
    changed(&[&ONE_ORDER, also].concat(), first)
}

const ALM: &str = "=414c4d";

/// "New-Order maintains it": by number, not by date; a refused order changes nothing.
#[test]
fn kept_through_a_list() {
    answers(
        &program(),
        &[
            ("N 1 1 1 100 2 1 1 10 2 1 3", "N 0 1 1811 0"),
            ("N 1 1 2 101 1 1 1 1", "N 0 2 115 1"),
            ("N 1 1 1 101 2 1 1 1 4 1 1", "N 12 2"),
            ("S 1 1 #1", "S 0 1 0 1 100 0 1 1 10 1000 0 2 1 3 750 0"),
            ("S 1 1 #2", "S 0 2 0 2 101 0 1 1 1 100 0"),
            ("N 1 1 1 50 1 3 1 2", "N 0 3 2068 0"),
            ("S 1 1 #1", "S 0 1 0 3 50 0 3 1 2 1998 0"),
            ("D 1 3 200", "D 0 9 1022 1 0 0 0 0 0 0 0 0 0"),
            ("S 1 1 =414c4d", "S 0 2 0 2 101 0 1 1 1 100 0"),
            ("S 1 1 #1", "S 0 1 1750 3 50 0 3 1 2 1998 0"),
            ("N 1 2 1 60 1 5 1 1", "N 0 1 1277 0"),
            ("S 1 2 #1", "S 0 1 0 1 60 0 5 1 1 1234 0"),
            ("S 1 2 #2", "S 0 2 0 0 0 0"),
            ("S 1 3 #1", "S 0 1 0 0 0 0"),
        ],
    );
}

/// "13 when the slice's length is not 10 x W x C"; calls that do not take it do not look at it.
#[test]
fn lengths() {
    for length in [0, 1, 10, 19, 21, 40] {
        let mut lent = program();
        lent.last.resize(length, 0);
        answers(
            &lent,
            &[
                ("S 1 1 #1", "S 13 0"),
                (&format!("S 1 1 {ALM}"), "S 13 0"),
                ("N 1 1 1 100 1 1 1 1", "N 13 0"),
                ("OPEN", "OPEN 0"),
                ("P 1 1 1 1 #1 100 500", "P 0 1 -500"),
                ("D 1 1 100", "D 0 10 1023 0 0 0 0 0 0 0 0 0 0"),
                ("L 1 1 10", "L 0 0"),
            ],
        );
    }
}

/// "a number of the call's district is outside": all C numbers of it, no other district's.
#[test]
fn numbers_of_the_district() {
    answers(
        &changed(&[], &[0, 1]),
        &[
            ("S 1 1 #1", "S 13 0"),
            ("N 1 1 1 100 1 1 1 1", "N 13 0"),
            ("S 1 2 #1", "S 0 1 0 0 0 0"),
            ("N 1 2 1 100 1 1 1 1", "N 0 1 104 0"),
        ],
    );
    answers(
        &changed(&[], &[0, 0, 0, 7]),
        &[
            ("S 1 1 #1", "S 0 1 0 0 0 0"),
            ("N 1 1 1 100 1 1 1 1", "N 0 1 104 0"),
            ("S 1 1 #1", "S 0 1 0 1 100 0 1 1 1 100 0"),
            ("S 1 2 #1", "S 13 0"),
        ],
    );
}

/// "outside 0 to next order number - 1": both ends, just outside, and the extremes of 64 bits.
#[test]
fn ends_of_the_range() {
    let mut lent = in_use(); // next is 3
    for (number, fits) in [
        (0, true),
        (2, true),
        (3, false),
        (-1, false),
        (i64::MIN, false),
        (i64::MIN + 1, false),
        (i64::MAX, false),
        ((1 << 32) + 1, false),
    ] {
        for customer in [1, 2] {
            lent.last[last(1, 1, 1)..=last(1, 1, 2)].copy_from_slice(&[1, 1]);
            lent.last[last(1, 1, customer)] = number;
            let expected = if fits { (0, 0) } else { (13, 0) };
            let status = Request::OrderStatus(status_of(Who::Number(1)));
            let order = Request::NewOrder(new_order_of(&[line(1, 1, 1)]));
            assert_eq!(call(&mut lent.clone(), &status), expected, "{number}");
            assert_eq!(call(&mut lent.clone(), &order), expected, "{number}");
        }
    }
}

/// With no order yet, 0 alone is in range; in a full district O is.
#[test]
fn ends_of_next() {
    let status = Request::OrderStatus(status_of(Who::Number(1)));
    for (next, number, expected) in [(1, 0, 0), (1, 1, 13), (1, -1, 13), (4, 3, 0), (4, 4, 13)] {
        let mut lent = in_use();
        let third = lent.nums[order(1, 1, 2)..order(1, 1, 3)].to_vec();
        lent.nums[order(1, 1, 3)..order(1, 1, 4)].copy_from_slice(&third);
        lent.nums[district(1, 1) + 2] = next;
        lent.last[last(1, 1, 1)..=last(1, 1, 2)].copy_from_slice(&[number, 0]);
        assert_eq!(call(&mut lent, &status), (expected, 0), "{next} {number}");
    }
}

/// "taking as it stands what 13 passes": also where the order is another customer's. A new order's number is stored as it
/// is, whatever stood there.
#[test]
fn as_it_stands() {
    answers(
        &with_one_order(&[], &[0, 1]),
        &[
            ("S 1 1 #1", "S 0 1 0 0 0 0"),
            ("S 1 1 #2", "S 0 2 0 1 100 0 1 1 10 1000 0"),
            ("N 1 1 2 5 1 2 1 1", "N 0 2 288 0"),
            ("S 1 1 #2", "S 0 2 0 2 5 0 2 1 1 250 0"),
            ("S 1 1 #1", "S 0 1 0 0 0 0"),
        ],
    );
    let mut lent = in_use();
    lent.last[last(1, 1, 1)..=last(1, 1, 2)].copy_from_slice(&[0, 1]);
    let mut expected = lent.last.clone();
    for (customer, number) in [(1, 3), (2, 4)] {
        let mut request = new_order_of(&[line(1, 1, 1)]);
        request.customer = customer;
        let wanted = if number == 4 { (11, 0) } else { (0, 0) };
        assert_eq!(call(&mut lent, &Request::NewOrder(request)), wanted);
    }
    expected[last(1, 1, 1)] = 3;
    assert_eq!(lent.last, expected);
}

/// "the order that Order-Status finds holds a value out of range": 13 and not 9. "orders leave the latter's used rows":
/// one that is not shown refuses nothing, and New-Order looks at none.
#[test]
fn damaged_orders() {
    answers(
        &with_one_order(&[(185, 11)], &[1]),
        &[
            ("S 1 1 #1", "S 13 0"),
            ("S 1 1 #2", "S 0 2 0 0 0 0"),
            ("N 1 1 1 5 1 2 1 1", "N 0 2 259 0"),
            ("S 1 1 #1", "S 0 1 0 2 5 0 2 1 1 250 0"),
        ],
    );
    answers(
        &with_one_order(&[(192, 0)], &[1]),
        &[("S 1 1 #1", "S 13 0"), ("S 1 1 =414c4d", "S 0 2 0 0 0 0")],
    );
}

/// Every number of the shown order, around its ends; those of the other order of the district mean nothing.
#[test]
fn every_number_of_the_shown_order() {
    const DATE: i64 = 6_342_969_600;
    let line = [(1, 3), (1, 2), (1, 10), (1, 999_990), (0, DATE)];
    let mut ends = vec![(1, 2), (1, DATE), (0, 10), (1, 2), (0, 1), (0, 1)];
    ends.extend([line, line].concat());
    ends.resize(81, (i64::MIN, i64::MAX));
    let status = Request::OrderStatus(status_of(Who::Number(2)));
    for (column, (low, high)) in ends.into_iter().enumerate() {
        for value in [
            low,
            high,
            low.saturating_sub(1),
            high.saturating_add(1),
            i64::MIN,
            i64::MAX,
        ] {
            let mut lent = in_use();
            lent.nums[order(1, 1, 2) + column] = value;
            let expected = if low <= value && value <= high { 0 } else { 13 };
            assert_eq!(call(&mut lent, &status), (expected, 0), "{column} {value}");
            let mut lent = in_use();
            lent.nums[order(1, 1, 1) + column] = value;
            assert_eq!(call(&mut lent, &status), (0, 0), "{column} {value}");
        }
    }
}

/// New-Order: 2, 4 to 9, then 13, then 11, 12; 9 of a line's stock or item as well comes before 13.
#[test]
fn checking_order_of_new_order() {
    let mut short = changed(&[(40, 1_000_000_000_000)], &[]);
    short.last.pop();
    answers(
        &short,
        &[
            ("N 1 1 1 100 1 1 1 1", "N 9 0"),
            ("S 1 1 #1", "S 9 0"),
            ("S 1 1 =414c4d", "S 9 0"),
        ],
    );
    for (place, number) in [(163, 10_000), (158, 100_000)] {
        let mut lent = changed(&[(place, number)], &[]);
        lent.last.pop();
        answers(
            &lent,
            &[
                ("N 1 1 1 100 1 1 1 1", "N 9 0"),
                ("N 1 1 1 100 1 2 1 1", "N 13 0"),
            ],
        );
        let lent = changed(&[(place, number)], &[0, -1]);
        answers(
            &lent,
            &[
                ("N 1 1 1 100 2 2 1 1 1 1 1", "N 9 0"),
                ("N 1 1 1 100 1 2 1 1", "N 13 0"),
            ],
        );
    }
    let full = |last: i64| changed(&[(10, 5)], &[last]);
    answers(
        &full(5),
        &[
            ("N 1 1 1 100 1 1 1 1", "N 13 0"),
            ("N 1 1 1 100 1 4 1 1", "N 13 0"),
        ],
    );
    answers(
        &full(4),
        &[
            ("N 1 1 1 100 1 1 1 1", "N 11 0"),
            ("N 1 1 1 100 1 4 1 1", "N 11 0"),
        ],
    );
    let mut lent = program();
    lent.last.pop();
    answers(
        &lent,
        &[
            ("N 1 1 1 100 1 4 1 1", "N 13 0"),
            ("N 1 1 1 100 1 9 1 1", "N 13 0"),
            ("N 1 1 1 100 1 1 1 11", "N 8 1"),
            ("N 1 1 1 0 1 1 1 1", "N 7 0"),
            ("N 1 1 3 100 1 1 1 1", "N 6 0"),
        ],
    );
    answers(
        &changed(&[(10, 6)], &[9]),
        &[("S 1 1 #1", "S 9 0"), ("N 1 1 1 100 1 1 1 1", "N 9 0")],
    );
}

/// Order-Status: 9, then 10, then 13, for the length, for a number and for the order found.
#[test]
fn checking_order_of_order_status() {
    let nobody = [
        ("S 1 1 =4e4f", "S 10 0"),
        ("S 1 1 =-", "S 10 0"),
        ("S 1 1 =414c4d", "S 13 0"),
    ];
    let mut short = program();
    short.last.pop();
    answers(&short, &nobody);
    answers(&changed(&[], &[0, 1]), &nobody);
    answers(&changed(&[], &[-1]), &nobody);
    answers(&with_one_order(&[(185, 11)], &[0, 1]), &nobody);
    let damaged = with_one_order(&[(185, 11), (44, 2)], &[0, 1]); // customer 2's credit
    answers(
        &damaged,
        &[
            ("S 1 1 #2", "S 9 0"),
            ("S 1 1 =4e4f", "S 9 0"),
            ("S 1 1 #1", "S 0 1 0 0 0 0"),
        ],
    );
    answers(
        &short,
        &[
            ("S 1 1 #3", "S 6 0"),
            ("S 1 11 #1", "S 5 0"),
            ("S 2 1 #1", "S 4 0"),
        ],
    );
}

/// By depot, then district, then customer; the district of another depot means nothing.
#[test]
fn two_depots() {
    let mut lent = fresh();
    lent.last[last(2, 1, 1)] = 7;
    let line = "1 1 1 1";
    answers(
        &lent,
        &[
            (&format!("N 2 3 2 100 {line}"), "N 0 1 115 0"),
            (&format!("N 1 1 1 100 {line}"), "N 0 1 104 0"),
            ("S 2 1 #1", "S 13 0"),
            (&format!("N 2 1 1 100 {line}"), "N 13 0"),
            ("S 2 3 #2", "S 0 2 0 1 100 0 1 1 1 100 0"),
        ],
    );
    let mut expected = lent.last.clone();
    for (warehouse, district, customer) in [(2, 3, 2), (1, 1, 1), (1, 10, 2)] {
        let mut request = new_order_of(&[common::line(1, 1, 1)]);
        (request.warehouse, request.district, request.customer) = (warehouse, district, customer);
        assert_eq!(call(&mut lent, &Request::NewOrder(request)), (0, 0));
    }
    expected[25] = 1;
    expected[0] = 1;
    expected[19] = 1;
    assert_eq!(lent.last, expected);
}

/// The pass over a district is the plain test of each number, at every end of a range and at any place.
#[test]
fn the_pass_is_the_plain_test() {
    for most in [0, 1, 20, 2_999, 10_000] {
        for number in [i64::MIN, -1, 0, 1, most - 1, most, most + 1, i64::MAX] {
            for place in 0..5 {
                let mut numbers = [0, most, 0, most, 0];
                numbers[place] = number;
                let plain = numbers.iter().all(|n| (0..=most).contains(n));
                assert_eq!(rows::all_up_to(&numbers, most), plain, "{numbers:?}");
            }
        }
    }
    assert!(rows::all_up_to(&[], 0));
}
