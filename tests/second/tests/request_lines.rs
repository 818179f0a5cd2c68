//! Request lines: forms, borders, and that reading and writing are inverse.

mod common;

use common::*;
use second::*;

fn read(text: &str) -> Option<Request> {
    read_bytes(text.replace(' ', "\t").as_bytes())
}

fn read_bytes(line: &[u8]) -> Option<Request> {
    match read_line(line) {
        Outcome::Committed(request) => Some(request),
        Outcome::Refused(refusal) => {
            assert_eq!((refusal.number, refusal.detail), (1, 0));
            None
        }
    }
}

/// Writes into a buffer of that many bytes, each 0xEE before.
fn write(request: &Request, cap: usize) -> Option<Vec<u8>> {
    let mut buffer = vec![0xEE; cap];
    match write_line(request, &mut buffer) {
        Outcome::Committed(length) => {
            assert!(buffer[length as usize..].iter().all(|&byte| byte == 0xEE));
            buffer.truncate(length as usize);
            Some(buffer)
        }
        Outcome::Refused(refusal) => {
            assert_eq!((refusal.number, refusal.detail), (1, 0));
            assert!(buffer.iter().all(|&byte| byte == 0xEE));
            None
        }
    }
}

const SOUND: [&str; 9] = [
    "N 1 1 1 100 1 1 10 2 1 3\n",
    "N 0 0 0 0 0 0 0\n",
    "P 1 2 3 4 #5 6 7\n",
    "P 1 2 3 4 =ALM 6 7\n",
    "D 1 3 200\n",
    "D 9999999999 0 9999999999\n",
    "S 1 1 #0\n",
    "S 1 1 =~!\n",
    "L 1 1 18\n",
];

#[test]
fn sound_lines_come_back() {
    for text in SOUND {
        let line = text.replace(' ', "\t");
        let request = read(text).expect(text);
        assert_eq!(write(&request, 600).unwrap(), line.as_bytes());
    }
}

#[test]
fn what_is_read() {
    let lines = [line(1, 1, 10), line(2, 1, 3)];
    assert_eq!(
        read(SOUND[0]),
        Some(Request::NewOrder(new_order_of(&lines)))
    );
    let payment = Payment {
        warehouse: 1,
        district: 2,
        customer_warehouse: 3,
        customer_district: 4,
        who: named("ALM"),
        date: 6,
        amount: 7,
    };
    assert_eq!(read(SOUND[3]), Some(Request::Payment(payment)));
    assert_eq!(read(SOUND[4]), Some(Request::Delivery(delivery_at(1))));
    let status = status_of(Who::Number(0));
    assert_eq!(read(SOUND[6]), Some(Request::OrderStatus(status)));
    let level = stock_level_below(18);
    assert_eq!(read(SOUND[8]), Some(Request::StockLevel(level)));
}

const WITHOUT_A_FORM: &[&str] = &[
    "",
    "\n",
    "N\n",
    "X 1 1 1\n",
    "d 1 1 1\n",
    "D 1 1 1",
    "D 1 1\n",
    "D 1 1 1 1\n",
    "D 1 1 1\n\n",
    "\nD 1 1 1\n",
    "D 1 1 1 \n",
    " D 1 1 1\n",
    "D 1  1 1\n",
    "D 01 1 1\n",
    "D 00 1 1\n",
    "D -1 1 1\n",
    "D +1 1 1\n",
    "D 10000000000 1 1\n",
    "D 0000000001 1 1\n",
    "D 1 1 1x\n",
    "D 1 1 1\r\n",
    "D 1 1 \n",
    "DD 1 1 1\n",
    "D1 1 1\n",
    "D 1 1 1\0\n",
    "N 1 1 1 1\n",
    "N 1 1 1 1 1\n",
    "N 1 1 1 1 1 1\n",
    "N 1 1 1 1 1 1 1 1\n",
    "S 1 1 1\n",
    "S 1 1 #\n",
    "S 1 1 #01\n",
    "S 1 1 #-1\n",
    "S 1 1 #10000000000\n",
    "S 1 1 =\n",
    "S 1 1 =01234567890123456\n",
    "S 1 1 ALM\n",
    "S 1 1 #1 1\n",
    "S 1 1 ##1\n",
    "P 1 1 1 1 #1 1\n",
    "P 1 1 1 1 1 1 1\n",
    "P 1 1 1 1 #1 1 1 1\n",
    "P 1 1 1 1 1 1 #1\n",
];

#[test]
fn lines_without_a_form() {
    for text in WITHOUT_A_FORM {
        assert_eq!(read(text), None, "{text:?}");
    }
}

/// Can a line be read with this name? The same names can be written.
fn name_has_form(name: &[u8]) -> bool {
    let line = [b"S\t1\t1\t=", name, b"\n"].concat();
    let request = Request::OrderStatus(status_of(Who::LastName(name.to_vec())));
    let read = read_bytes(&line);
    let written = write(&request, 100);
    assert!(read.is_none() || read == Some(request));
    assert_eq!(read.is_some(), written.is_some(), "{name:?}");
    read.is_some()
}

#[test]
fn names_in_lines() {
    for sound in ["A", "A B", "A  B", "0123456789ABCDEF", "~", "!", "=", "#1"] {
        assert!(name_has_form(sound.as_bytes()), "{sound:?}");
    }
    for unsound in ["", " ", " A", "A ", "0123456789ABCDEFG", "\x1f", "A\x1fB"] {
        assert!(!name_has_form(unsound.as_bytes()), "{unsound:?}");
    }
    for byte in 0..=255 {
        assert_eq!(name_has_form(&[byte]), (33..=126).contains(&byte));
        let inside = name_has_form(&[b'A', byte, b'B']);
        assert_eq!(inside, (32..=126).contains(&byte));
    }
}

#[test]
fn counts_of_lines() {
    for count in 0..40 {
        let text = format!("N 1 1 1 1{}\n", " 1 1 1".repeat(count));
        assert_eq!(read(&text).is_some(), (1..=15).contains(&count), "{count}");
        let request = Request::NewOrder(new_order_of(&vec![line(1, 1, 1); count]));
        assert_eq!(write(&request, 999).is_some(), (1..=15).contains(&count));
    }
}

#[test]
fn buffers_and_lengths() {
    let longest = line(9_999_999_999, 9_999_999_999, 9_999_999_999);
    let mut request = new_order_of(&[longest; 15]);
    request.date = 9_999_999_999;
    (request.warehouse, request.district, request.customer) = (9_999_999_999, 1, 1);
    let request = Request::NewOrder(request);
    let exact = write(&request, 999).unwrap().len();
    assert_eq!(exact, 541 - 18);
    for (cap, fits) in [
        (0, false),
        (exact - 1, false),
        (exact, true),
        (exact + 1, true),
    ] {
        assert_eq!(write(&request, cap).is_some(), fits);
    }
    let line = write(&request, exact).unwrap();
    assert_eq!(read_bytes(&line), Some(request));
}

#[test]
fn numbers_without_a_form_are_not_written() {
    for (number, fits) in [
        (0, true),
        (9_999_999_999, true),
        (10_000_000_000, false),
        (u64::MAX, false),
    ] {
        let mut request = delivery_at(1);
        request.date = number;
        assert_eq!(write(&Request::Delivery(request), 99).is_some(), fits);
        let request = status_of(Who::Number(number));
        assert_eq!(write(&Request::OrderStatus(request), 99).is_some(), fits);
        let mut request = new_order_of(&[line(1, 1, 1), line(1, 1, 1)]);
        request.lines[1].quantity = number;
        assert_eq!(write(&Request::NewOrder(request), 99).is_some(), fits);
    }
}

/// Every single byte of every sound line set to every value: what is read is written back.
#[test]
fn one_byte_changed() {
    for text in SOUND {
        let sound = text.replace(' ', "\t").into_bytes();
        for place in 0..sound.len() {
            for byte in 0..=255 {
                let mut line = sound.clone();
                line[place] = byte;
                if let Some(request) = read_bytes(&line) {
                    assert_eq!(write(&request, line.len()).unwrap(), line);
                }
            }
        }
    }
}
