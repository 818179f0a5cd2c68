//! Top-up tables lent beside a random book, right or with one fault, and orders that bring stock to its margin.

use super::books::{self, Book};
use super::random::Random;
use crate::layout::{district, stock, topup, Layout};
use crate::request::{Line, NewOrder};

type Row = [i64; topup::WIDTH];

const LEAST: i64 = i64::MIN;
const MOST: i64 = i64::MAX;

/// Rows at the ends of what 17 lets through, and just inside.
const INSIDE: [Row; 14] = [
    [0, 10],
    [1, 10],
    [0, 11],
    [0, 9_998],
    [1, 9_998],
    [2, 9_998],
    [0, 9_999],
    [1, 9_999],
    [9_988, 11],
    [9_989, 10],
    [9_989, 11],
    [9_990, 10],
    [5_000, 4_999],
    [5_000, 5_000],
];

/// Rows just outside, and those that a sum which wraps, a narrower type or a missing sign would take for right ones.
const OUTSIDE: [Row; 34] = [
    [-1, 10],
    [-1, 91],
    [-1, 9_999],
    [-91, 91],
    [LEAST, 91],
    [LEAST + 10, 91],
    [9_991, 9],
    [9_991, 10],
    [9_991, 91],
    [9_990, 9],
    [9_990, 11],
    [9_989, 12],
    [5_000, 5_001],
    [2, 9_999],
    [10, 9_999],
    [0, 10_000],
    [1, 10_000],
    [10, 10_000],
    [0, 9],
    [10, 9],
    [9_989, 9],
    [10, 0],
    [10_000, 0],
    [10, -1],
    [10, -91],
    [10, LEAST],
    [10, LEAST + 91],
    [10, MOST],
    [MOST, 10],
    [MOST, MOST],
    [LEAST, LEAST],
    [MOST, LEAST],
    [(1 << 32) + 10, 91],
    [10, (1 << 32) + 91],
];

/// Dimensions of a small book with room for many orders of the same items; some have a longer table.
pub fn dimensions(random: &mut Random) -> Layout {
    let mut layout = books::dimensions(random);
    layout.warehouses = 1 + random.below(3);
    layout.customers = layout.customers.min(3);
    let most = *random.pick(&[7, 7, 7, 7, 70]);
    layout.items = 1 + random.below(most);
    layout.order_slots = 2 + random.below(5);
    layout.history_slots = layout.history_slots.min(4);
    layout
}

/// A table that 17 lets through: 10 and 91 for each item, another row for all, or for each item its own.
pub fn sound(random: &mut Random, layout: &Layout) -> Vec<i64> {
    match random.below(10) {
        0..=3 => layout.usual_topup(),
        4 => row(random).repeat(layout.items),
        _ => (0..layout.items).flat_map(|_| row(random)).collect(),
    }
}

/// A row that 17 lets through; most have a margin that stock is often near, and many a short lift.
fn row(random: &mut Random) -> Row {
    match random.below(6) {
        0 => *random.pick(&INSIDE),
        1 => {
            let lift = random.between(10, 9_999);
            [random.between(0, 10_000 - lift), lift]
        }
        _ => {
            let span = *random.pick(&[3, 20, 90]);
            [random.between(0, 30), 10 + random.below(span) as i64]
        }
    }
}

/// Another row for one item, which 17 lets through.
pub fn change(random: &mut Random, book: &mut Book) {
    let item = any_item(random, book);
    let other = row(random);
    set(book, item, other);
}

/// A fault that 17 refuses: in the length, or in one row.
pub fn damage(random: &mut Random, book: &mut Book) {
    if random.percent(35) {
        damage_length(random, book);
        return;
    }
    let item = any_item(random, book);
    set(book, item, *random.pick(&OUTSIDE));
}

/// Another length: none, a number or a row fewer or more, one number an item, or the numbers of some items more.
fn damage_length(random: &mut Random, book: &mut Book) {
    let right = book.layout.topup_numbers();
    let lengths = [
        0,
        right - 2,
        right - 1,
        right - 1,
        right + 1,
        right + 1,
        right + 2,
        right / 2,
        2 * right,
        random.below(right),
    ];
    let length = *random.pick(&lengths);
    let usual = topup::USUAL.iter().copied().cycle();
    let table = &mut book.lent.topup;
    let more = length.saturating_sub(table.len());
    table.truncate(length);
    table.extend(usual.take(more));
}

/// The first, the last, a middle or the favoured item, or any.
fn any_item(random: &mut Random, book: &Book) -> usize {
    let items = book.layout.items;
    match random.below(6) {
        0 => 1,
        1 => items,
        2 => items.div_ceil(2),
        3 => book.focus.item,
        _ => 1 + random.below(items),
    }
}

/// An item's row; nothing is set where the table is too short.
fn set(book: &mut Book, item: usize, new: Row) {
    if let Some(old) = book.lent.topup.get_mut(book.layout.topup(item)) {
        old.copy_from_slice(&new);
    }
}

/// Prices for the items, and stock near their margins that no order has used up.
pub fn set_stock(random: &mut Random, book: &mut Book) {
    let layout = book.layout;
    for item in 1..=layout.items {
        let [margin, _] = rule(book, item);
        let nums = &mut book.lent.nums;
        nums[layout.price(item)] = random.between(1, 3_000);
        for warehouse in 1..=layout.warehouses {
            let on_hand = match random.below(6) {
                0 => random.between(0, 9_999),
                _ => margin + random.between(-2, 25),
            };
            let row = [on_hand.clamp(0, 9_999), 0, 0, 0];
            nums[layout.stock(warehouse, item)].copy_from_slice(&row);
        }
    }
}

/// An item's margin and lift; document 01's where the table is too short.
fn rule(book: &Book, item: usize) -> Row {
    let row = book.lent.topup.get(book.layout.topup(item));
    row.map_or(topup::USUAL, |row| [row[0], row[1]])
}

/// A sound order whose lines leave about their margins, taken from the book's stock as New-Order takes it.
pub fn order(random: &mut Random, book: &mut Book) -> NewOrder {
    let count = *random.pick(&[1, 1, 2, 2, 3, 4, 6, 15]);
    let lines = (0..count).map(|_| line(random, book)).collect();
    NewOrder {
        warehouse: book.focus.warehouse as u64,
        district: enter(random, book) as u64,
        customer: 1 + random.below(book.layout.customers) as u64,
        date: random.between(100, 400) as u64,
        lines,
    }
}

/// The favoured district or another of its warehouse, if possible one with a slot left; its next order number is then one more.
fn enter(random: &mut Random, book: &mut Book) -> usize {
    let (layout, at) = (book.layout, book.focus);
    let place = |d: usize| layout.district(at.warehouse, d).start + district::NEXT_ORDER;
    let slots = layout.order_slots as i64;
    let has_room = |d: &usize| book.lent.nums.get(place(*d)).is_some_and(|&n| n <= slots);
    let drawn = [(); 6].map(|()| 1 + random.below(10));
    let favoured = random.percent(20).then_some(at.district);
    let found = favoured.or(drawn.into_iter().find(has_room));
    let district = found.unwrap_or(at.district);
    if let Some(next) = book.lent.nums.get_mut(place(district)) {
        *next = next.saturating_add(1);
    }
    district
}

fn line(random: &mut Random, book: &mut Book) -> Line {
    let (layout, at) = (book.layout, book.focus);
    let item = match random.percent(50) {
        true => at.item,
        false => 1 + random.below(layout.items),
    };
    let supply = match random.percent(60) {
        true => at.warehouse,
        false => 1 + random.below(layout.warehouses),
    };
    let [margin, lift] = rule(book, item);
    let place = layout.stock(supply, item).start + stock::ON_HAND;
    let on_hand = book.lent.nums.get(place).copied().unwrap_or(0);
    let above = *random.pick(&[-1, 0, 0, 1]);
    let aimed = on_hand.saturating_sub(margin).saturating_sub(above);
    let quantity = match aimed {
        1..=10 => aimed,
        _ if random.percent(50) => aimed.clamp(1, 10),
        _ => random.between(1, 10),
    };
    let left = on_hand.saturating_sub(quantity);
    if let Some(on_hand) = book.lent.nums.get_mut(place) {
        *on_hand = left.saturating_add(if left < margin { lift } else { 0 });
    }
    Line {
        item: item as u64,
        supply_warehouse: supply as u64,
        quantity: quantity as u64,
    }
}

/// Names an item that the book lacks in one line of an order.
pub fn damage_request(random: &mut Random, book: &Book, request: &mut NewOrder) {
    let place = random.below(request.lines.len());
    let lacking = [0, book.layout.items as u64 + 1, u64::MAX];
    request.lines[place].item = *random.pick(&lacking);
}
