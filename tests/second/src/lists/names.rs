//! Names close to each other, which a comparison by words of eight bytes could mistake, last names to look for among them, and customers' rows that a
//! look at many at once could.

use super::books::{Book, CUSTOMER_COLUMNS};
use super::random::Random;
use crate::layout::{customer, NAMES_WIDTH};
use crate::ranges::NAME_BYTES;
use crate::request::{OrderStatus, Payment, Request, Who};
use std::ops::Range;

type Name = [u8; NAME_BYTES];

/// Bytes of a word.
const WORD: usize = 8;

/// The least and the greatest byte of a name.
const ENDS: [u8; 2] = [32, 126];

/// A word taken lowest byte first, a sum of bytes, or a second word that goes before the first has these in the wrong order; the last two are of
/// bytes at the ends of the range.
const PAIRS: [[&Name; 2]; 6] = [
    [b"AZZZZZZZ        ", b"BAAAAAAA        "],
    [b"BAAAAAAZ        ", b"AZZZZZZA        "],
    [b"ABCDEFGHAZZZZZZZ", b"ABCDEFGHBAAAAAAA"],
    [b"ABCDEFGHBAAAAAAZ", b"ABCDEFGHAZZZZZZA"],
    [b"ABCDEFGAZZZZZZZZ", b"ABCDEFGBAAAAAAAA"],
    [b"!               ", b"~~~~~~~~~~~~~~~~"],
];

/// Gives all customers of the book such names, of which many share one; in a few books a byte of the favoured district is out of range.
pub fn set(random: &mut Random, book: &mut Book) {
    let mut last_names = family(random, 3);
    for name in &mut last_names {
        name[0] = name[0].max(b'!');
    }
    let first_names = family(random, 6);
    for names in book.lent.names.chunks_exact_mut(NAMES_WIDTH) {
        let (last, first) = (*random.pick(&last_names), *random.pick(&first_names));
        names.copy_from_slice(&[last, first].concat());
    }
    book.last_names = last_names.iter().map(|name| cut(name)).collect();
    if random.percent(5) {
        let range = favoured(book);
        let names = &mut book.lent.names[range];
        let place = random.below(names.len());
        names[place] = *random.pick(&[31, 127, 128, 255]);
    }
}

/// A discount of ones in binary: those up to it have an or in range.
const LOW_DISCOUNT: i64 = 8_191;

/// Gives the customers of the favoured district discounts whose or is in range, in half of the books; in some a number is at an end of its range or
/// beyond it. A search judges all these rows, and may do so many at a time.
pub fn set_rows(random: &mut Random, book: &mut Book) {
    let at = book.focus;
    let range = book.layout.customers_of(at.warehouse, at.district);
    let rows = &mut book.lent.nums[range];
    if random.percent(50) {
        for row in rows.chunks_exact_mut(customer::WIDTH) {
            row[customer::DISCOUNT] &= LOW_DISCOUNT;
        }
    }
    if random.percent(25) {
        let place = random.below(rows.len());
        let (low, high) = CUSTOMER_COLUMNS[place % customer::WIDTH];
        rows[place] = *random.pick(&[low, high, low - 1, high + 1, i64::MIN, i64::MAX]);
    }
}

/// One or two names, and up to `most` others close to them or equal.
fn family(random: &mut Random, most: usize) -> Vec<Name> {
    let mut names = match random.below(3) {
        0 => vec![[(); NAME_BYTES].map(|()| byte(random))],
        _ => random.pick(&PAIRS).map(|name| *name).to_vec(),
    };
    for _ in 0..random.below(most + 1) {
        let mut name = *random.pick(&names);
        bring_close(random, &mut name);
        names.push(name);
    }
    names
}

/// A byte that a name may have, often an end of the range.
fn byte(random: &mut Random) -> u8 {
    match random.below(3) {
        0 => *random.pick(&ENDS),
        1 => *random.pick(b"AZ"),
        _ => random.between(ENDS[0].into(), ENDS[1].into()) as u8,
    }
}

/// Changes one byte of a name, or puts one up and a later one down, or changes the second word, or swaps the words; or leaves the name as it is.
fn bring_close(random: &mut Random, name: &mut [u8]) {
    let any = random.below(NAME_BYTES);
    let place = *random.pick(&[any, any, any, WORD - 1, WORD, NAME_BYTES - 1]);
    let up = |byte: u8| byte.saturating_add(1).min(ENDS[1]);
    let down = |byte: u8| byte.saturating_sub(1).max(ENDS[0]);
    match random.below(10) {
        0 | 1 => name[place] = up(name[place]),
        2 | 3 => name[place] = down(name[place]),
        4 => name[place] = byte(random),
        5 | 6 => {
            let later = place + random.below(NAME_BYTES - place);
            name[place] = up(name[place]);
            name[later] = down(name[later]);
        }
        7 => name[WORD..].fill_with(|| byte(random)),
        8 => name.rotate_left(WORD),
        _ => {}
    }
}

/// A Payment or an Order-Status by last name in the favoured district.
pub fn search(random: &mut Random, book: &Book) -> Request {
    let [warehouse, district] = [book.focus.warehouse, book.focus.district].map(|n| n as u64);
    let who = Who::LastName(wanted(random, book));
    match random.below(2) {
        0 => Request::Payment(Payment {
            warehouse,
            district,
            customer_warehouse: warehouse,
            customer_district: district,
            who,
            date: random.between(100, 400) as u64,
            amount: random.between(100, 5_000) as u64,
        }),
        _ => Request::OrderStatus(OrderStatus {
            warehouse,
            district,
            who,
        }),
    }
}

/// A last name of the favoured district, or one close to it, with a byte that no name may have, or of another length.
fn wanted(random: &mut Random, book: &Book) -> Vec<u8> {
    let names = &book.lent.names[favoured(book)];
    let customer = random.below(book.layout.customers);
    let mut name = names[customer * NAMES_WIDTH..][..NAME_BYTES].to_vec();
    let place = random.below(NAME_BYTES);
    match random.below(14) {
        0 => name[place] = name[place].wrapping_add(1),
        1 => name[place] = name[place].wrapping_sub(1),
        2 => name[place] ^= 128,
        3 => name[place] = *random.pick(&[0, 127, 128, 255]),
        4 => name.resize(random.below(NAME_BYTES + 2), b' '),
        5 => name.push(*random.pick(b" AZ")),
        6 | 7 => bring_close(random, &mut name),
        _ => {}
    }
    if random.percent(50) {
        name = cut(&name);
    }
    name
}

/// Where the names of the favoured district are.
fn favoured(book: &Book) -> Range<usize> {
    let at = book.focus;
    book.layout.names_of(at.warehouse, at.district)
}

/// The name without the spaces at its end.
fn cut(name: &[u8]) -> Vec<u8> {
    let end = name.iter().rposition(|&byte| byte != b' ');
    name[..end.map_or(0, |last| last + 1)].to_vec()
}
