//! The notes lent beside a random book, right or of a wrong length, and payments that fill the favoured customer's text.

use super::books::{self, Book};
use super::random::Random;
use crate::layout::{customer, Layout, HISTORY_COUNT, NAMES_WIDTH, TEXT_WIDTH};
use crate::ranges::{self, NAME_BYTES};
use crate::request::{Payment, Who};

/// With more customers a district than this, over all warehouses, notes would be long: most such books have none.
const MANY: usize = 40;

/// Credits that a row may not have: one beside the range, or read as 1 by a narrower type or without its sign.
const WRONG_CREDITS: [i64; 6] = [2, -1, i64::MIN, i64::MIN + 1, (1 << 32) + 1, 257];

/// Amounts of every length, and the ends of the range.
const AMOUNTS: [i64; 8] = [100, 999, 1_000, 9_999, 10_000, 99_999, 100_000, 500_000];

/// Notes that are all spaces, or none.
pub fn spaces(random: &mut Random, layout: &Layout) -> Vec<u8> {
    let many = layout.warehouses * layout.customers > MANY;
    if many && random.percent(90) {
        return Vec::new();
    }
    vec![b' '; layout.note_bytes()]
}

/// Dimensions of few customers, with room for payments that fill a text.
pub fn dimensions(random: &mut Random) -> Layout {
    let mut layout = books::dimensions(random);
    layout.warehouses = layout.warehouses.min(3);
    layout.customers = 1 + random.below(3);
    layout.items = layout.items.min(8);
    layout.order_slots = layout.order_slots.min(2);
    layout.history_slots = 40 + random.below(20);
    layout
}

/// Other texts for the customers of the favoured district, or for all; or leaves them.
pub fn set_texts(random: &mut Random, book: &mut Book) {
    if random.percent(15) {
        book.lent.notes.fill_with(|| random.number() as u8);
    }
    let (layout, at) = (book.layout, book.focus);
    for customer in 1..=layout.customers {
        let place = layout.text(at.warehouse, at.district, customer);
        if let Some(text) = book.lent.notes.get_mut(place) {
            set_text(random, text);
        }
    }
}

/// A text of any bytes, one without a space, one nearly full, or another byte somewhere; or leaves it.
fn set_text(random: &mut Random, text: &mut [u8]) {
    let place = random.below(TEXT_WIDTH);
    match random.below(7) {
        0 => text.fill_with(|| random.number() as u8),
        1 => text.copy_from_slice(&letters(TEXT_WIDTH)),
        2 => {
            let full = TEXT_WIDTH - random.below(40);
            text[..full].copy_from_slice(&letters(full));
            text[full..].fill(b' ');
        }
        3 => text[place] = random.number() as u8,
        4 => text[TEXT_WIDTH - 1] = *random.pick(b";Z0"),
        _ => {}
    }
}

/// So many letters, those side by side never the same.
fn letters(count: usize) -> Vec<u8> {
    (b'A'..=b'Z').cycle().take(count).collect()
}

/// Bad credit for the favoured customer and most others of its district; in a few books a credit out of range.
pub fn set_credit(random: &mut Random, book: &mut Book) {
    let (layout, at) = (book.layout, book.focus);
    for number in 1..=layout.customers {
        let row = layout.customer(at.warehouse, at.district, number);
        let bad = number == at.customer || random.percent(70);
        book.lent.nums[row][customer::CREDIT] = i64::from(bad);
    }
    if random.percent(10) {
        let number = 1 + random.below(layout.customers);
        let row = layout.customer(at.warehouse, at.district, number);
        book.lent.nums[row][customer::CREDIT] = *random.pick(&WRONG_CREDITS);
    }
}

/// Another length: none, a byte or a text fewer or more, or what comes of W and C by another product.
pub fn damage_length(random: &mut Random, book: &mut Book) {
    let (w, c) = (book.layout.warehouses, book.layout.customers);
    let right = book.layout.note_bytes();
    let lengths = [
        0,
        right - 1,
        right + 1,
        right + 1,
        right - TEXT_WIDTH,
        right + TEXT_WIDTH,
        2 * right,
        500 * w * c,
        5_000 * w * w,
        5_000 * c * c,
        5_000 * (w + 1) * c,
        5_000 * w * (c + 1),
        320 * w * c,
        random.below(right),
    ];
    let length = match *random.pick(&lengths) {
        same if same == right => right - 1,
        length => length,
    };
    book.lent.notes.resize(length, b' ');
}

/// A fault that Payment meets behind the notes: in a row that the favoured payment uses, or no room in the history.
pub fn damage_behind(random: &mut Random, book: &mut Book) {
    let (layout, at) = (book.layout, book.focus);
    let nums = &mut book.lent.nums;
    match random.below(5) {
        0 => nums[layout.warehouse(at.warehouse)][random.below(2)] = -1,
        1 => nums[layout.district(at.warehouse, at.district)][random.below(3)] = i64::MIN,
        2 => {
            let row = layout.customer(at.warehouse, at.district, at.customer);
            nums[row][customer::CREDIT] = *random.pick(&WRONG_CREDITS);
        }
        _ => nums[HISTORY_COUNT] = layout.history_slots as i64,
    }
}

/// A payment by the favoured customer or, by last name, one of its namesakes: at home, in another district, or anywhere.
pub fn payment(random: &mut Random, book: &Book) -> Payment {
    let (layout, at) = (book.layout, book.focus);
    let any_district = 1 + random.below(ranges::DISTRICTS as usize);
    let (warehouse, district) = match random.below(5) {
        0 => (1 + random.below(layout.warehouses), any_district),
        1 => (at.warehouse, any_district),
        _ => (at.warehouse, at.district),
    };
    let who = match random.below(3) {
        0 => Who::LastName(last_name(book)),
        _ => Who::Number(at.customer as u64),
    };
    let amount = match random.below(2) {
        0 => *random.pick(&AMOUNTS),
        _ => random.between(100, 500_000),
    };
    Payment {
        warehouse: warehouse as u64,
        district: district as u64,
        customer_warehouse: at.warehouse as u64,
        customer_district: at.district as u64,
        who,
        date: random.between(100, 400) as u64,
        amount: amount as u64,
    }
}

/// The favoured customer's last name, its spaces with it; empty where the names are cut.
fn last_name(book: &Book) -> Vec<u8> {
    let (layout, at) = (book.layout, book.focus);
    let start = layout.names_of(at.warehouse, at.district).start + (at.customer - 1) * NAMES_WIDTH;
    let name = book.lent.names.get(start..start + NAME_BYTES);
    name.unwrap_or_default().to_vec()
}

/// One number of a payment out of range, or a name that nobody has.
pub fn damage_request(random: &mut Random, book: &Book, request: &mut Payment) {
    let above = |count: usize| count as u64 + 1;
    match random.below(8) {
        0 => request.warehouse = above(book.layout.warehouses),
        1 => request.customer_warehouse = 0,
        2 => request.district = 0,
        3 => request.customer_district = 11,
        4 => request.who = Who::Number(above(book.layout.customers)),
        5 => request.date = *random.pick(&[0, 6_342_969_601]),
        6 => request.amount = *random.pick(&[99, 500_001]),
        _ => request.who = Who::LastName(b"NOBODY".to_vec()),
    }
}
