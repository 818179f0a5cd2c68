//! R-4 of document 02, sentence by sentence: the notes in Payment.

mod common;

use common::*;
use second::replay::command::{parse, Command};
use second::replay::Lent;
use second::*;

/// Customer 2 of warehouse 2, district 4 has bad credit; room for 40 payments.
fn with_bad_credit() -> Lent {
    let mut lent = fresh();
    lent.nums[customer(2, 4, 2)] = 1;
    lent.nums[4] = 40;
    lent.nums.resize(NUMBERS + 7 * 38, 0);
    lent
}

/// Customer 2 of warehouse 2, district 4 pays at warehouse 1, district 3.
fn paid() -> Payment {
    Payment {
        warehouse: 1,
        district: 3,
        customer_warehouse: 2,
        customer_district: 4,
        who: Who::Number(2),
        date: 700,
        amount: 12_345,
    }
}

/// Its note.
const NOTE: &[u8; 16] = b"2 4 2 3 1 12345;";

/// 500 bytes without a space, those side by side never the same.
fn full() -> Vec<u8> {
    (b'A'..=b'Z').cycle().take(500).collect()
}

/// Pays, and gives number and detail.
fn pay(lent: &mut Lent, request: &Payment) -> (u64, u64) {
    call(lent, &Request::Payment(request.clone()))
}

/// A text with these notes put at its left: they, and what they leave of the old one.
fn moved(notes: &[u8], old: &[u8]) -> Vec<u8> {
    [notes, old].concat()[..500].to_vec()
}

/// The text of the customer with bad credit.
fn noted(lent: &Lent) -> &[u8] {
    &lent.notes[text(2, 4, 2)..][..500]
}

/// "six numbers at its left: customer, its district, its depot, paying district, paying depot, amount"; all else stays as it was.
#[test]
fn six_numbers_at_the_left() {
    let mut lent = with_bad_credit();
    let mut expected = lent.notes.clone();
    assert_eq!(pay(&mut lent, &paid()), (0, 0));
    expected[13_500..13_516].copy_from_slice(NOTE);
    assert!(lent.notes == expected);
}

/// "The old text moves right and what passes byte 500 is lost": the note stays whole, the old text loses its end, the neighbours stay.
#[test]
fn old_text_moves_right() {
    let mut lent = with_bad_credit();
    lent.notes.fill(b'-');
    lent.notes[text(2, 4, 2)..][..500].copy_from_slice(&full());
    let mut expected = lent.notes.clone();
    expected[13_500..13_516].copy_from_slice(NOTE);
    expected[13_516..14_000].copy_from_slice(&full()[..484]);
    assert_eq!(pay(&mut lent, &paid()), (0, 0));
    assert!(lent.notes == expected);
}

/// Any bytes may stand in the texts, and every one that is not lost keeps its value.
#[test]
fn any_bytes() {
    for first in [0, 31, 32, 100, 127, 200] {
        let mut lent = with_bad_credit();
        let bytes = (first..=255).chain(0..first).cycle();
        lent.notes = bytes.take(NOTE_BYTES).collect();
        let expected = moved(NOTE, noted(&lent));
        assert_eq!(pay(&mut lent, &paid()), (0, 0));
        assert_eq!(noted(&lent), expected);
    }
}

/// "A Payment to a customer with credit 1": none for credit 0, and none for the same numbers of another depot or district, or for the paying one's.
#[test]
fn none_for_good_credit() {
    let spaces = vec![b' '; NOTE_BYTES];
    let mut lent = with_bad_credit();
    for (warehouse, district, customer) in [(2, 4, 1), (1, 4, 2), (2, 3, 2), (1, 3, 2)] {
        let mut request = paid();
        request.customer_warehouse = warehouse;
        request.customer_district = district;
        request.who = Who::Number(customer);
        assert_eq!(pay(&mut lent, &request), (0, 0));
        assert!(lent.notes == spaces);
    }
    let mut request = paid();
    (request.warehouse, request.district) = (2, 4);
    request.customer_warehouse = 1;
    assert_eq!(pay(&mut lent, &request), (0, 0)); // paid where bad credit is at home
    assert!(lent.notes == spaces);
}

/// Credit is looked at as the call finds it; one out of range is refused by 9, and nothing is noted.
#[test]
fn credit_as_it_stands() {
    let wrong = [2, -1, 257, i64::MIN, i64::MIN + 1, (1 << 32) + 1];
    for credit in wrong {
        let mut lent = with_bad_credit();
        lent.nums[customer(2, 4, 2)] = credit;
        assert_eq!(pay(&mut lent, &paid()), (9, 0), "{credit}");
    }
    let mut lent = with_bad_credit();
    assert_eq!(pay(&mut lent, &paid()), (0, 0));
    lent.nums[customer(2, 4, 2)] = 0;
    assert_eq!(pay(&mut lent, &paid()), (0, 0));
    assert_eq!(noted(&lent), moved(NOTE, &[b' '; 500]));
    lent.nums[customer(2, 4, 2)] = 1;
    assert_eq!(pay(&mut lent, &paid()), (0, 0));
    assert_eq!(noted(&lent), moved(&NOTE.repeat(2), &[b' '; 500]));
}

/// Carries out a command of the replay format, a call; gives its number.
fn carry_out(lent: &mut Lent, command: &str) -> u64 {
    match parse(command.as_bytes()) {
        Command::Call(request) => call(lent, &request).0,
        command => panic!("{command:?}"),
    }
}

/// Gives both customers of warehouse 2, district 4, who have one last name, these first names.
fn set_first_names(lent: &mut Lent, firsts: [&str; 2]) {
    for (number, first) in (1..).zip(firsts) {
        let names = format!("{:16}{first:16}", "ALM");
        lent.names[name(2, 4, number)..][..32].copy_from_slice(names.as_bytes());
    }
}

/// "For every list of committed payments .. newest first, followed by spaces": five payments, one of them refused, one by name.
#[test]
fn newest_first() {
    let mut lent = with_bad_credit();
    lent.nums[customer(2, 4, 1)] = 1;
    set_first_names(&mut lent, ["C", "D"]);
    for (command, expected) in [
        ("P 1 3 2 4 #2 700 12345", 0),
        ("P 2 1 2 4 #1 9 100", 0),
        ("P 2 10 2 4 #2 1 500000", 0),
        ("P 1 1 2 4 #2 7 99", 8),
        ("P 2 2 2 4 =414c4d 5 777", 0),
    ] {
        assert_eq!(carry_out(&mut lent, command), expected);
    }
    let mut expected = vec![b' '; NOTE_BYTES];
    let (first, second) = (
        b"1 4 2 2 2 777;1 4 2 1 2 100;",
        b"2 4 2 10 2 500000;2 4 2 3 1 12345;",
    );
    expected[13_000..13_028].copy_from_slice(first);
    expected[13_500..13_534].copy_from_slice(second);
    assert!(lent.notes == expected);
}

/// The number of the customer found by name is noted; whoever is found, by that one's credit.
#[test]
fn by_name() {
    for (firsts, found) in [(["EVA", "BO"], 2), (["BO", "EVA"], 1), (["BO", "BO"], 1)] {
        let mut lent = with_bad_credit();
        lent.nums[customer(2, 4, 1)] = 1;
        set_first_names(&mut lent, firsts);
        let mut expected = lent.notes.clone();
        let mut request = paid();
        request.who = named("ALM");
        let note = format!("{found} 4 2 3 1 12345;");
        expected[text(2, 4, found)..][..16].copy_from_slice(note.as_bytes());
        assert_eq!(pay(&mut lent, &request), (0, 0));
        assert!(lent.notes == expected);
        lent.nums[customer(2, 4, found)] = 0;
        assert_eq!(pay(&mut lent, &request), (0, 0));
        assert!(lent.notes == expected);
    }
}

/// Notes that fill the text to its last byte lose none; one more loses bytes of the oldest, from the right.
#[test]
fn until_the_text_is_full() {
    let mut lent = with_bad_credit();
    let mut all = Vec::new();
    let mut payments = vec![(1, 3, 12_345); 29]; // 464 bytes
    payments.extend([(2, 10, 500_000), (2, 10, 499_999)]); // 500
    payments.extend([(1, 10, 100), (2, 4, 9_999)]);
    for (warehouse, district, amount) in payments {
        let request = Payment {
            warehouse,
            district,
            amount,
            ..paid()
        };
        assert_eq!(pay(&mut lent, &request), (0, 0));
        let note = format!("2 4 2 {district} {warehouse} {amount};");
        all = [note.as_bytes(), &all].concat();
        assert_eq!(noted(&lent), moved(&all, &[b' '; 500]));
    }
    assert_eq!(all.len(), 500 + 15 + 15);
}

/// Old texts with so many spaces at their end as make a note lose some of them, all of them, or bytes as well.
#[test]
fn nearly_full_texts() {
    for spaces in 0..20 {
        let mut lent = with_bad_credit();
        let old = moved(&full()[spaces..], &[b' '; 20]);
        lent.notes[text(2, 4, 2)..][..500].copy_from_slice(&old);
        assert_eq!(pay(&mut lent, &paid()), (0, 0));
        assert_eq!(noted(&lent), moved(NOTE, &old), "{spaces} spaces");
    }
}

/// "14 when the text's length is not 5,000 x W x C .. in every Payment": with good credit and bad, by number and by name. Opening and the other calls
/// do not look at it.
#[test]
fn lengths() {
    for length in [
        0, 1, 500, 1_000, 9_999, 10_001, 9_500, 10_500, 5_000, 20_000,
    ] {
        let mut lent = program();
        lent.nums[44] = 1; // customer 2 of district 1
        lent.notes.resize(length, b' ');
        answers(
            &lent,
            &[
                ("OPEN", "OPEN 0"),
                ("P 1 1 1 1 #1 100 500", "P 14 0"),
                ("P 1 1 1 1 #2 100 500", "P 14 0"),
                ("P 1 1 1 1 =414c4d 100 500", "P 14 0"),
                ("N 1 1 1 100 1 1 1 1", "N 0 1 104 0"),
                ("S 1 1 #1", "S 0 1 0 1 100 0 1 1 1 100 0"),
                ("D 1 1 100", "D 0 9 1022 1 0 0 0 0 0 0 0 0 0"),
                ("L 1 1 20", "L 0 1"),
            ],
        );
    }
}

/// A book of these warehouses and customers with no taxes, all credit bad, and notes of this length.
fn sized(w: usize, c: usize, length: usize) -> Lent {
    let mut nums = vec![w as i64, c as i64, 1, 1, 1, 0];
    nums.extend([0, 0].repeat(w));
    nums.extend([0, 0, 1].repeat(10 * w));
    nums.extend([1, 0, 0, 0, 0, 0].repeat(10 * w * c));
    nums.push(1);
    nums.resize(nums.len() + 4 * w + 810 * w + 7, 0);
    Lent {
        nums,
        names: vec![b'A'; 320 * w * c],
        notes: vec![b' '; length],
        ..Lent::default()
    }
}

/// W times C and no other product: 5,000 x W x W, 5,000 x C x C and the like do not pass where C is not W.
#[test]
fn warehouses_times_customers() {
    for (w, c) in [(1, 3), (3, 1), (2, 3), (3, 2), (4, 1), (1, 4)] {
        let right = 5_000 * w * c;
        let request = Request::Payment(payment_by(Who::Number(1)));
        assert_eq!(call(&mut sized(w, c, right), &request), (0, 0));
        for length in [
            5_000 * w * w,
            5_000 * c * c,
            5_000 * (w + c),
            500 * w * c,
            5_000 * w,
            5_000 * c,
            right - 1,
            right + 1,
        ] {
            let expected = if length == right { 0 } else { 14 };
            assert_eq!(call(&mut sized(w, c, length), &request), (expected, 0));
        }
    }
}

/// The longest note has 24 bytes, the shortest 14; the last customer's text ends where the notes end.
#[test]
fn longest_and_shortest() {
    let mut lent = sized(10, 1_000, 50_000_000);
    let request = Payment {
        warehouse: 10,
        district: 10,
        customer_warehouse: 10,
        customer_district: 10,
        who: Who::Number(1_000),
        date: 1,
        amount: 500_000,
    };
    let Lent {
        nums, names, notes, ..
    } = &mut lent;
    assert_eq!(ends(payment(nums, names, notes, &request)), (0, 0));
    let (before, last) = lent.notes.split_at(49_999_500);
    assert!(before.iter().all(|&byte| byte == b' '));
    let note = b"1000 10 10 10 10 500000;";
    assert_eq!(last, moved(note, &[b' '; 500]));
    let mut lent = sized(1, 1, 5_000);
    let mut request = payment_by(Who::Number(1));
    request.amount = 100;
    assert_eq!(pay(&mut lent, &request), (0, 0));
    assert_eq!(lent.notes[..500], moved(b"1 1 1 1 1 100;", &[b' '; 500]));
    assert!(lent.notes[500..].iter().all(|&byte| byte == b' '));
}

/// 2, then 14, then 4 to 11: of a wrong length and another fault the earlier is answered. With the right length each is answered and nothing is noted.
#[test]
fn checking_order() {
    let faults = [
        ("P 3 3 2 4 #2 700 12345", 4),
        ("P 1 3 0 4 #2 700 12345", 4),
        ("P 1 11 2 4 #2 700 12345", 5),
        ("P 1 3 2 0 #2 700 12345", 5),
        ("P 1 3 2 4 #3 700 12345", 6),
        ("P 1 3 2 4 #2 0 12345", 7),
        ("P 1 3 2 4 #2 700 500001", 8),
        ("P 1 3 2 4 =4e4f 700 12345", 10),
    ];
    for length in [0, NOTE_BYTES - 1, NOTE_BYTES, NOTE_BYTES + 1] {
        let mut lent = with_bad_credit();
        lent.notes.resize(length, b' ');
        for (command, number) in faults {
            let number = if length == NOTE_BYTES { number } else { 14 };
            assert_eq!(carry_out(&mut lent, command), number);
        }
        lent.names.pop();
        assert_eq!(carry_out(&mut lent, faults[0].0), 2);
    }
}

/// Refused by 9 or 11, with bad credit and notes of the right length, a payment leaves every byte; `call` sees to that.
#[test]
fn refused_behind_the_notes() {
    let refused = |place: usize, number: i64, expected: u64| {
        for who in [Who::Number(2), named("ALM")] {
            let mut lent = with_bad_credit();
            lent.notes[text(2, 4, 2)..][..500].copy_from_slice(&full());
            lent.nums[place] = number;
            let mut request = paid();
            request.who = who;
            assert_eq!(pay(&mut lent, &request), (expected, 0));
            lent.notes.pop();
            assert_eq!(pay(&mut lent, &request), (14, 0));
        }
    };
    refused(5, 40, 11); // the history is full
    refused(warehouse(1) + 1, -1, 9);
    refused(district(1, 3), 10_000, 9);
    refused(customer(2, 4, 2) + 5, -1, 9);
}

/// "written by Payment alone": the other calls pass by texts of any bytes.
#[test]
fn other_calls_leave_them() {
    let mut lent = in_use();
    lent.notes = (0..=255).cycle().take(NOTE_BYTES).collect();
    let notes = lent.notes.clone();
    for request in [
        Request::NewOrder(new_order_of(&[line(1, 1, 1)])),
        Request::Delivery(delivery_at(1)),
        Request::OrderStatus(status_of(Who::Number(1))),
        Request::StockLevel(stock_level_below(15)),
    ] {
        assert_eq!(call(&mut lent, &request), (0, 0));
        assert!(lent.notes == notes);
    }
}

/// Numbers, names and last orders are left as by the same payment with good credit.
#[test]
fn numbers_as_without_a_note() {
    let (mut bad, mut good) = (with_bad_credit(), with_bad_credit());
    good.nums[customer(2, 4, 2)] = 0;
    assert_eq!(pay(&mut bad, &paid()), (0, 0));
    assert_eq!(pay(&mut good, &paid()), (0, 0));
    good.nums[customer(2, 4, 2)] = 1;
    assert!(bad.nums == good.nums && bad.last == good.last && bad.names == good.names);
    assert!(bad.notes != good.notes);
}
