//! Waiting lists and result buffers lent beside a random book, and the calls that queue and run Deliveries.

use super::books::{self, Book};
use super::random::Random;
use crate::layout::Layout;
use crate::queue::{Queue, Waiting, PLACES, RESULT_BYTES};
use crate::ranges::{self, DATE};
use crate::request::Delivery;

/// Counts that calls leave, those beside the largest, and what a narrower or a signed type would misread.
const COUNTS: [u64; 16] = [
    0,
    0,
    1,
    1,
    2,
    3,
    8,
    15,
    15,
    16,
    16,
    17,
    17,
    u64::MAX,
    1 << 63,
    (1 << 32) + 1,
];

/// Dates at and beside the ends of the range, and those of 64 bits.
const DATES: [u64; 8] = [
    0,
    1,
    DATE.1 as u64,
    DATE.1 as u64 + 1,
    1 << 63,
    u64::MAX,
    (1 << 32) + 1,
    u64::MAX - 1,
];

/// Dimensions of a small book with room for some orders in each district.
pub fn dimensions(random: &mut Random) -> Layout {
    let mut layout = books::dimensions(random);
    layout.warehouses = layout.warehouses.min(3);
    layout.customers = layout.customers.min(4);
    layout.items = layout.items.min(8);
    layout.order_slots = 1 + random.below(7);
    layout.history_slots = layout.history_slots.min(6);
    layout
}

/// A buffer of any bytes: of 400, of some more, or now and then of fewer.
pub fn buffer(random: &mut Random) -> Vec<u8> {
    let length = match random.below(12) {
        0 => *random.pick(&[0, 1, RESULT_BYTES - 1]),
        1..=5 => RESULT_BYTES,
        6 => RESULT_BYTES + 1,
        _ => RESULT_BYTES + random.below(40),
    };
    bytes(random, length)
}

/// A buffer that is long enough or, as often, too short.
pub fn odd_buffer(random: &mut Random) -> Vec<u8> {
    let shorter = [0, 1, 315, RESULT_BYTES - 2, RESULT_BYTES - 1];
    let longer = [RESULT_BYTES, RESULT_BYTES + 1, 2 * RESULT_BYTES];
    let length = match random.percent(40) {
        true => *random.pick(&shorter),
        false => *random.pick(&longer),
    };
    bytes(random, length)
}

/// So many bytes: all the same, or any.
fn bytes(random: &mut Random, length: usize) -> Vec<u8> {
    match random.below(3) {
        0 => (0..length).map(|_| random.number() as u8).collect(),
        _ => vec![*random.pick(b".0\t\n\xee"); length],
    }
}

/// A record as calls leave it: up to 16 sound requests, the rest 0.
pub fn sound(random: &mut Random, book: &Book) -> Queue {
    let count = *random.pick(&[0, 0, 0, 1, 2, 5, 15, 16]);
    let mut queue = Queue {
        count: count as u64,
        ..Queue::default()
    };
    for place in &mut queue.waiting[..count] {
        *place = waiting(&request(random, book));
    }
    queue
}

/// A record of any count, its places of any numbers, also those beyond the count.
pub fn odd(random: &mut Random, book: &Book) -> Queue {
    let mut queue = Queue {
        count: *random.pick(&COUNTS),
        ..Queue::default()
    };
    let used = queue.count.min(PLACES as u64) as usize;
    let filled = match random.below(3) {
        0 => used.max(1),
        _ => PLACES,
    };
    for place in &mut queue.waiting[..filled] {
        let mut request = request(random, book);
        damage_request(random, book, &mut request);
        damage_request(random, book, &mut request);
        *place = waiting(&request);
    }
    queue
}

fn waiting(request: &Delivery) -> Waiting {
    Waiting {
        date: request.date,
        warehouse: request.warehouse,
        carrier: request.carrier,
    }
}

/// A sound request, most to the favoured warehouse.
pub fn request(random: &mut Random, book: &Book) -> Delivery {
    let warehouse = match random.below(4) {
        0 => 1 + random.below(book.layout.warehouses),
        _ => book.focus.warehouse,
    };
    Delivery {
        warehouse: warehouse as u64,
        carrier: random.between(1, 10) as u64,
        date: date(random, 5),
    }
}

/// In a third of cases a warehouse, a carrier or a date that is out of range.
pub fn damage_request(random: &mut Random, book: &Book, request: &mut Delivery) {
    let above = book.layout.warehouses as u64 + 1;
    match random.below(9) {
        0 => request.warehouse = *random.pick(&[0, above, u64::MAX, 1 << 63, (1 << 32) + 1]),
        1 => request.carrier = *random.pick(&[0, 11, u64::MAX, 1 << 63, (1 << 32) + 1]),
        2 => request.date = *random.pick(&DATES),
        _ => {}
    }
}

/// A date, in so many of a hundred cases one at or beside an end of the range.
pub fn date(random: &mut Random, odd: usize) -> u64 {
    match random.percent(odd) {
        true => *random.pick(&DATES),
        false => random.between(100, 400) as u64,
    }
}

/// A value out of range in a row that a Delivery at the favoured warehouse uses.
pub fn damage_used(random: &mut Random, book: &mut Book) {
    let (layout, w) = (book.layout, book.focus.warehouse);
    let d = 1 + random.below(ranges::DISTRICTS as usize);
    let row = match random.below(2) {
        0 => layout.district(w, d),
        _ => layout.customer(w, d, 1 + random.below(layout.customers)),
    };
    let column = random.below(row.len());
    book.lent.nums[row.start + column] = *random.pick(&[i64::MIN, i64::MAX, 1 << 62]);
}
