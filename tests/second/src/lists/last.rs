//! The last orders lent beside a random book: right, or wrong in one way or several.

use super::books::{self, Book};
use super::random::Random;
use crate::layout::{district, order, Layout};
use crate::ranges;

const DISTRICTS: usize = ranges::DISTRICTS as usize;

/// The largest order number of each customer, 0 for none, by a scan of the orders before next.
pub fn scanned(nums: &[i64], layout: &Layout) -> Vec<i64> {
    let mut last = vec![0; layout.last_orders()];
    for w in 1..=layout.warehouses {
        for d in 1..=DISTRICTS {
            let next = nums[layout.district(w, d)][district::NEXT_ORDER] as usize;
            for number in 1..next {
                let customer = nums[layout.order(w, d, number)][order::CUSTOMER] as usize;
                if (1..=layout.customers).contains(&customer) {
                    last[layout.last_order(w, d, customer)] = number as i64;
                }
            }
        }
    }
    last
}

/// Makes the slice wrong in one way; some of them no call notices.
pub fn damage(random: &mut Random, book: &mut Book) {
    match random.weighted(&[15, 50, 20, 60]) {
        0 => damage_length(random, book),
        1 => damage_district(random, book),
        2 => damage_elsewhere(random, book),
        _ => shuffle(random, book),
    }
}

/// Makes it wrong so that the favoured district's calls are refused by 13.
pub fn damage_for_sure(random: &mut Random, book: &mut Book) {
    let next = next_of(book);
    let customer = 1 + random.below(book.layout.customers);
    match random.below(3) {
        0 => damage_length(random, book),
        1 => set(book, customer, *random.pick(&[-1, i64::MIN])),
        _ => set(book, customer, *random.pick(&[next, next + 1, i64::MAX])),
    }
}

/// No numbers, one fewer or one more, twice as many, or those of one warehouse more or fewer.
fn damage_length(random: &mut Random, book: &mut Book) {
    let warehouse = DISTRICTS * book.layout.customers;
    let last = &mut book.lent.last;
    let length = last.len();
    match random.below(8) {
        0 => last.clear(),
        1 => last.truncate(length.saturating_sub(1)),
        2 => last.push(0),
        3 => last.extend_from_within(..),
        4 => last.truncate(length.saturating_sub(warehouse)),
        5 => last.truncate(length / DISTRICTS),
        6 => last.truncate(length / book.layout.customers),
        _ => last.resize(length + warehouse, 0),
    }
}

/// Another number for a customer of the favoured district, mostly for the favoured one.
fn damage_district(random: &mut Random, book: &mut Book) {
    let customer = match random.below(3) {
        0 => 1 + random.below(book.layout.customers),
        _ => book.focus.customer,
    };
    let (next, old) = (next_of(book), get(book, customer));
    let number = match random.below(6) {
        0 => old.wrapping_add(1),
        1 => old.wrapping_sub(1),
        2 => next - 1,
        3 => next,
        4 => *random.pick(&[-1, i64::MIN, old.wrapping_neg(), i64::MIN.wrapping_add(old)]),
        _ => *random.pick(&[next + 1, i64::MAX, old.wrapping_add(1 << 32), 1 << 62]),
    };
    set(book, customer, number);
}

/// Any number for a customer of any district, most often of one that calls leave alone.
fn damage_elsewhere(random: &mut Random, book: &mut Book) {
    let length = book.lent.last.len();
    if length > 0 {
        let number = books::edge(random, (0, book.layout.order_slots as i64));
        book.lent.last[random.below(length)] = number;
    }
}

/// All numbers of the favoured district in range and as they come: orders of others are shown.
fn shuffle(random: &mut Random, book: &mut Book) {
    let most = next_of(book).saturating_sub(1);
    for customer in 1..=book.layout.customers {
        let number = random.between(0, most.max(0));
        set(book, customer, number);
    }
}

/// Damages the order that the favoured customer's number names, or another of the district.
pub fn damage_order(random: &mut Random, book: &mut Book) {
    let (layout, at) = (book.layout, book.focus);
    let named = get(book, at.customer);
    let number = match random.below(3) {
        0 => 1 + random.below(layout.order_slots),
        _ => named.clamp(1, layout.order_slots as i64) as usize,
    };
    let start = layout.order(at.warehouse, at.district, number).start;
    let column = random.below(order::LINES + 5);
    book.lent.nums[start + column] = *random.pick(&[-1, i64::MIN, i64::MAX, 1 << 40]);
}

/// The favoured district's next order number, whatever it is.
fn next_of(book: &Book) -> i64 {
    let row = book
        .layout
        .district(book.focus.warehouse, book.focus.district);
    book.lent.nums[row][district::NEXT_ORDER]
}

/// The number of a customer of the favoured district; 0 where the slice is too short.
fn get(book: &Book, customer: usize) -> i64 {
    let place = place_of(book, customer);
    book.lent.last.get(place).copied().unwrap_or(0)
}

fn set(book: &mut Book, customer: usize, number: i64) {
    let place = place_of(book, customer);
    if let Some(old) = book.lent.last.get_mut(place) {
        *old = number;
    }
}

fn place_of(book: &Book, customer: usize) -> usize {
    let at = book.focus;
    book.layout.last_order(at.warehouse, at.district, customer)
}
