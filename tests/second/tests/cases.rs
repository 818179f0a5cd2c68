//! Document 01's twelve cases and R-2's, its listing, and what reviewers try.

mod common;

use common::*;
use second::book_program::{self, Book};
use second::new_order::{left_on_hand, total, Left};
use second::replay::{Engine, Lent, SecondEngine};
use second::stock_level::window_start;
use second::who::place;
use second::*;

const LISTING: &str = "N 1 1 1 100 1 1 10 2 1 3
N 1 1 1 101 1 1 1 4 1 1
N 1 1 2 102 1 1 1
D 1 3 200
P 1 1 1 1 =ALM 201 500
S 1 1 #1
L 1 1 18
";
const ANSWERS: &str = "N 0 1 1811
N 12 2
N 0 2 115
D 0 9 1 0 0 0 0 0 0 0 0 0
P 0 2 -500
S 0 1 1750 1 100 3 1 1 10 1000 200 2 1 3 750 200
L 0 1
";

#[test]
fn thirteen_cases() {
    let left = |on_hand, lifted| Left { on_hand, lifted };
    assert_eq!(left_on_hand(20, 10, 10, 91), left(10, false));
    assert_eq!(left_on_hand(10, 1, 10, 91), left(100, true));
    assert_eq!(left_on_hand(0, 10, 10, 91), left(81, true));
    assert_eq!(left_on_hand(9_999, 10, 10, 91), left(9_989, false));
    assert_eq!(total(1_750, 1_000, 1_000, 500), 1_811);
    assert_eq!(total(100, 0, 1_000, 500), 115);
    assert_eq!(total(10, 0, 250, 250), 11);
    assert_eq!([1, 2, 3].map(place), [1, 1, 2]);
    // The window is from its start to next - 1: empty, 1 to 20, 2 to 21.
    assert_eq!([1, 21, 22].map(window_start), [1, 1, 2]);
}

/// Document 01 prints a space for each tab.
fn tabbed(text: &str) -> String {
    text.replace(' ', "\t")
}

fn book_answers(input: &[u8]) -> String {
    let mut output = Vec::new();
    book_program::run(&mut &input[..], &mut output).unwrap();
    String::from_utf8(output).unwrap()
}

#[test]
fn listing_through_the_program() {
    assert_eq!(book_answers(tabbed(LISTING).as_bytes()), tabbed(ANSWERS));
}

#[test]
fn listing_through_replay() {
    let mut text = lists::lend(&program());
    text.push_str(
        "OPEN\nN 1 1 1 100 2 1 1 10 2 1 3\nN 1 1 1 101 2 1 1 1 4 1 1\nN 1 1 2 102 1 1 1 1\n\
         D 1 3 200\nP 1 1 1 1 =414c4d 201 500\nS 1 1 #1\nL 1 1 18\n",
    );
    let expected = [
        "OPEN 0",
        "N 0 1 1811 0",
        "N 12 2",
        "N 0 2 115 1",
        "D 0 9 1022 1 0 0 0 0 0 0 0 0 0",
        "P 0 2 -500",
        "S 0 1 1750 1 100 3 1 1 10 1000 200 2 1 3 750 200",
        "L 0 1",
    ];
    assert_eq!(replayed(&text), expected);
}

/// Every number that the listing changes, at positions worked out by hand.
#[test]
fn book_after_the_listing() {
    let mut book = Book::built_in();
    assert_eq!((book.nums.len(), book.names.len()), (3_479, 640));
    let mut expected = book.nums.clone();
    for line in tabbed(LISTING).split_inclusive('\n') {
        book.answer(line.as_bytes());
    }
    expected[5] = 1; // history count
    expected[7] = 500; // warehouse year-to-date
    expected[9..11].copy_from_slice(&[500, 3]); // district 1: year-to-date, next order
    expected[38..44].copy_from_slice(&[0, 1_000, 1_750, 0, 0, 1]); // customer 1
    expected[44..50].copy_from_slice(&[0, 0, -500, 500, 1, 0]); // customer 2
    expected[163..167].copy_from_slice(&[100, 11, 2, 0]); // stock 1: 20 - 10, 10 - 1 + 91
    expected[167..171].copy_from_slice(&[17, 3, 1, 0]); // stock 2
    let first = [1, 100, 3, 2, 1, 0, 1, 1, 10, 1_000, 200, 2, 1, 3, 750, 200];
    expected[183..199].copy_from_slice(&first);
    let second = [2, 102, 0, 1, 1, 1, 1, 1, 1, 100, 0];
    expected[264..275].copy_from_slice(&second);
    expected[3_423..3_430].copy_from_slice(&[2, 1, 1, 1, 1, 201, 500]);
    assert!(book.nums == expected);
    assert_eq!(book.last[..2], [1, 2]);
    assert_eq!(book.last[2..], [0; 18]);
    assert!(book.names == Book::built_in().names);
    assert_eq!(book.notes, [b' '; 10_000]); // all credit is good
    assert_eq!(book.topup, [10, 91, 10, 91, 10, 91, 10, 91, 10, 91]);
}

#[test]
fn program_answers_lines_without_a_form() {
    let refused = "?\t1\t0\n";
    assert_eq!(book_answers(b""), "");
    assert_eq!(book_answers(b"\n"), refused);
    assert_eq!(book_answers(b"L\t1\t1\t18"), refused);
    assert_eq!(book_answers(b"\n\nx\nL\t1"), refused.repeat(4));
    let mut overlong = vec![b'1'; 100_000];
    overlong.extend_from_slice(b"\nL\t1\t1\t18\n");
    assert_eq!(book_answers(&overlong), format!("{refused}L\t0\t0\n"));
    let mut every_byte: Vec<u8> = (0..=255).collect();
    every_byte.push(10);
    assert_eq!(book_answers(&every_byte), refused.repeat(2));
}

#[test]
fn overlong_lines_of_every_length_near_the_longest() {
    for length in 530..560 {
        let mut input = vec![b'9'; length];
        input.extend_from_slice(b"\nD\t2\t1\t1\n");
        assert_eq!(book_answers(&input), "?\t1\t0\nD\t4\t0\n");
    }
}

#[test]
fn program_refuses_with_number_and_detail() {
    let input = b"N\t1\t1\t1\t1\t1\t1\t1\t1\t2\t1\nS\t1\t11\t#1\nP\t1\t1\t1\t1\t=X\t1\t100\n";
    assert_eq!(book_answers(input), "N\t8\t2\nS\t5\t0\nP\t10\t0\n");
}

#[test]
fn opening_writes_nothing_and_ignores_slots() {
    let mut lent = fresh();
    assert_eq!(ends(SecondEngine.open(&lent)), (0, 0));
    lent.nums[order(1, 1, 1)..].fill(i64::MIN);
    assert_eq!(ends(SecondEngine.open(&lent)), (0, 0));
}

#[test]
fn item_named_twice_is_taken_twice_in_turn() {
    let mut lent = fresh();
    let lines = [line(1, 1, 10), line(1, 1, 1)];
    let outcome = SecondEngine.new_order(&mut lent, &new_order_of(&lines));
    let figures = NewOrderFigures {
        order: 1,
        total: 1_139, // 1,100 x 0.9 x 1.15 = 1,138.5
        lifts: 1,
    };
    assert_eq!(outcome, Outcome::Committed(figures));
    assert_eq!(lent.nums[stock(1, 1)..stock(1, 2)], [100, 11, 2, 0]);
}

#[test]
fn item_named_twice_may_pass_a_range_between() {
    let mut lent = fresh();
    lent.nums[stock(1, 1) + 2] = 999_999_999;
    let request = Request::NewOrder(new_order_of(&[line(1, 1, 1), line(1, 1, 1)]));
    assert_eq!(call(&mut lent, &request), (0, 0));
    assert_eq!(lent.nums[stock(1, 1) + 2], 1_000_000_001);
    assert_eq!(call(&mut lent, &request), (9, 0));
}

#[test]
fn remote_line() {
    let mut lent = fresh();
    let lines = [line(2, 2, 4), line(1, 1, 1)];
    let request = Request::NewOrder(new_order_of(&lines));
    assert_eq!(call(&mut lent, &request), (0, 0));
    assert_eq!(lent.nums[stock(2, 2)..stock(2, 3)], [16, 4, 1, 1]);
    assert_eq!(lent.nums[stock(1, 1)..stock(1, 2)], [19, 1, 1, 0]);
    let start = order(1, 1, 1);
    let row = [1, 100, 0, 2, 0, 1, 2, 2, 4, 1_000, 0, 1, 1, 1, 100, 0, 0];
    assert_eq!(lent.nums[start..start + 17], row);
}

#[test]
fn new_order_clears_the_unused_lines_of_its_slot() {
    let mut lent = fresh();
    lent.nums[order(1, 1, 1)..order(1, 1, 2)].fill(-7);
    let request = Request::NewOrder(new_order_of(&[line(1, 1, 1)]));
    assert_eq!(call(&mut lent, &request), (0, 0));
    assert!(lent.nums[order(1, 1, 1) + 11..order(1, 1, 2)] == [0; 70]);
}

/// Three equal last names: the second by first name is taken, by bytes and then number.
#[test]
fn second_of_three_equal_names() {
    let mut book = Book::built_in();
    let head = [1, 3, 5, 4, 8, 0];
    book.nums[..6].copy_from_slice(&head);
    // One more customer in each district: six numbers after each two rows.
    for d in (0..10).rev() {
        let end = 38 + 12 * (d + 1);
        book.nums.splice(end..end, [0; 6]);
    }
    let names_of = |firsts: [&str; 3]| -> Vec<u8> {
        let name = |first: &&str| format!("{:16}{:16}", "ALM", first);
        let district: String = firsts.iter().map(name).collect();
        district.repeat(10).into_bytes()
    };
    for (firsts, expected) in [
        (["EVA", "BO", "CY"], 3),
        (["EVA", "CY", "BO"], 2),
        (["CY", "EVA", "BO"], 1),
        (["BO", "BO", "BO"], 2),
        (["EVA", "BO", "BO"], 3),
        (["BO", "EVA", "EVA"], 2),
        (["a", "B", "Z"], 3),
    ] {
        let names = names_of(firsts);
        let request = status_of(named("ALM"));
        let status = order_status(&book.nums, &names, &[0; 30], &request);
        let Outcome::Committed(f) = status.outcome else {
            panic!("refused");
        };
        assert_eq!(f.customer, expected, "{firsts:?}");
        let mut nums = book.nums.clone();
        let notes = &mut [b' '; 15_000];
        let outcome = payment(&mut nums, &names, notes, &payment_by(named("ALM")));
        let figures = PaymentFigures {
            customer: expected,
            balance: -500,
        };
        assert_eq!(outcome, Outcome::Committed(figures));
    }
}

#[test]
fn payment_to_a_customer_elsewhere() {
    let mut lent = in_use();
    let mut request = payment_by(Who::Number(2));
    request.customer_warehouse = 2;
    request.customer_district = 7;
    request.date = 300;
    let mut expected = lent.nums.clone();
    let answer = call(&mut lent, &Request::Payment(request));
    assert_eq!(answer, (0, 0));
    expected[5] = 2;
    expected[warehouse(1) + 1] = 500;
    expected[district(1, 1) + 1] = 500;
    let row = customer(2, 7, 2);
    expected[row..row + 6].copy_from_slice(&[0, 0, -500, 500, 1, 0]);
    expected[history(2)..].copy_from_slice(&[2, 7, 2, 1, 1, 300, 500]);
    assert!(lent.nums == expected);
}

#[test]
fn names_compared_after_padding() {
    let answer = |name: &str| call(&mut in_use(), &Request::OrderStatus(status_of(named(name))));
    assert_eq!(answer("ALM"), (0, 0));
    assert_eq!(answer("ALM   "), (0, 0));
    assert_eq!(answer("ALM             "), (0, 0));
    assert_eq!(answer("ALM              "), (10, 0)); // 17 bytes
    for name in [
        "",
        " ",
        "AL",
        "ALMA",
        " ALM",
        "alm",
        "ALM\u{1f}",
        "                ",
    ] {
        assert_eq!(answer(name), (10, 0), "{name:?}");
    }
}

#[test]
fn delivery_with_some_districts_empty() {
    let mut lent = in_use();
    for d in [1, 4, 10] {
        lent.nums[district(2, d) + 2] = 1; // its slots hold no orders now
    }
    lent.nums[order(2, 5, 1) + 5] = 0; // the first order of district 5 is delivered
    let mut expected = lent.nums.clone();
    let answer = delivery(&mut lent.nums, &lent.names, &delivery_at(2));
    let figures = DeliveryFigures {
        skip_count: 3,
        skip_mark: 0b10_0000_1001,
    };
    assert_eq!(answer.outcome, Outcome::Committed(figures));
    assert_eq!(answer.orders, [0, 1, 1, 0, 2, 1, 1, 1, 1, 0]);
    for (d, number) in (1..).zip(answer.orders).filter(|&(_, number)| number > 0) {
        let start = order(2, d, number as usize);
        expected[start + 2] = 3;
        expected[start + 5] = 0;
        expected[start + 10] = 200;
        expected[start + 15] = 200;
        let row = customer(2, d, number as usize);
        expected[row + 2] += 550;
        expected[row + 5] += 1;
    }
    assert!(lent.nums == expected);
}

#[test]
fn delivery_leaves_lines_past_the_count() {
    let mut lent = in_use();
    let rest = order(1, 1, 1) + 16..order(1, 1, 2);
    lent.nums[rest.clone()].fill(i64::MAX);
    assert_eq!(call(&mut lent, &Request::Delivery(delivery_at(1))), (0, 0));
    assert!(lent.nums[rest].iter().all(|&number| number == i64::MAX));
}

#[test]
fn balance_past_its_range_is_written_and_refused_next() {
    let mut lent = in_use();
    lent.nums[customer(1, 1, 1) + 2] = -999_999_999_999;
    let request = Request::Payment(payment_by(Who::Number(1)));
    assert_eq!(call(&mut lent, &request), (0, 0));
    assert_eq!(lent.nums[customer(1, 1, 1) + 2], -1_000_000_000_499);
    let mut next = lent.clone();
    next.nums[5] = 0; // the history has room again
    assert_eq!(call(&mut next, &request), (9, 0));
}

#[test]
fn order_status_without_an_order() {
    let mut lent = in_use();
    lent.last[last(1, 1, 2)] = 0;
    let request = status_of(Who::Number(2));
    let answer = order_status(&lent.nums, &lent.names, &lent.last, &request);
    let figures = OrderStatusFigures {
        customer: 2,
        balance: 0,
        order: 0,
        entry_date: 0,
        carrier: 0,
    };
    assert_eq!(answer.outcome, Outcome::Committed(figures));
    assert!(answer.lines.is_empty());
}

#[test]
fn order_status_takes_the_number_not_the_date() {
    let mut lent = in_use();
    lent.nums[order(1, 1, 2)] = 1;
    lent.nums[order(1, 1, 2) + 1] = 7; // clocks go back
    lent.last[last(1, 1, 1)] = 2;
    let request = status_of(Who::Number(1));
    let answer = order_status(&lent.nums, &lent.names, &lent.last, &request);
    let Outcome::Committed(f) = answer.outcome else {
        panic!("refused");
    };
    assert_eq!((f.order, f.entry_date, f.carrier), (2, 7, 0));
    let start = order(1, 1, 2) + 6;
    let part = &lent.nums[start..start + 10];
    assert!(std::ptr::eq(answer.lines, part), "a part of the lent book");
}

#[test]
fn stock_level_counts_each_item_once() {
    let mut lent = in_use();
    lent.nums[stock(1, 1)] = 9;
    lent.nums[stock(1, 2)] = 15;
    lent.nums[stock(1, 3)] = 0; // on no order
    lent.nums[stock(2, 2)] = 0; // another warehouse
    for (threshold, low) in [(10, 1), (15, 1), (16, 2), (20, 2)] {
        let request = stock_level_below(threshold);
        let outcome = stock_level(&lent.nums, &lent.names, &request);
        let figures = StockLevelFigures { low_stock: low };
        assert_eq!(outcome, Outcome::Committed(figures));
    }
}

/// A book of one customer, 25 items and 24 order slots; order k is for item k alone.
fn one_item_an_order(next: i64) -> Lent {
    let mut nums = vec![1, 1, 25, 24, 1, 0, 0, 0];
    for d in 0..10 {
        nums.extend([0, 0, if d == 0 { next } else { 1 }]);
    }
    nums.extend([0; 60]);
    nums.extend([1; 25]);
    nums.extend([0; 100]);
    for k in 1..=24 {
        nums.extend([1, 1, 0, 1, 1, 1, k, 1, 1, 1, 0]);
        nums.extend([0; 70]);
    }
    nums.extend(vec![0; 9 * 24 * 81 + 7]);
    Lent {
        nums,
        names: b"A                               ".repeat(10),
        ..Lent::default() // Stock-Level takes nothing else
    }
}

#[test]
fn stock_level_window() {
    for (next, expected) in [(1, 0), (2, 1), (20, 19), (21, 20), (22, 20), (25, 20)] {
        let lent = one_item_an_order(next);
        let outcome = stock_level(&lent.nums, &lent.names, &stock_level_below(10));
        let figures = StockLevelFigures {
            low_stock: expected,
        };
        assert_eq!(outcome, Outcome::Committed(figures), "next {next}");
    }
}

/// Orders outside the window are not used; the first inside it is.
#[test]
fn stock_level_uses_the_window_alone() {
    let first_order = 6 + 2 + 30 + 60 + 25 + 100;
    for (next, damaged, expected) in [(22, 1, 0), (22, 2, 9), (22, 21, 9), (22, 22, 0), (21, 1, 9)]
    {
        let mut lent = one_item_an_order(next);
        lent.nums[first_order + 81 * (damaged - 1)] = -1;
        let request = Request::StockLevel(stock_level_below(10));
        assert_eq!(call(&mut lent, &request), (expected, 0), "{next} {damaged}");
    }
}

#[test]
fn refused_order_does_not_use_up_its_number() {
    let mut lent = fresh();
    let bad = Request::NewOrder(new_order_of(&[line(1, 1, 1), line(3, 1, 1)]));
    assert_eq!(call(&mut lent, &bad), (12, 2));
    let good = new_order_of(&[line(1, 1, 1)]);
    let Outcome::Committed(f) = SecondEngine.new_order(&mut lent, &good) else {
        panic!("refused");
    };
    assert_eq!(f.order, 1);
}
