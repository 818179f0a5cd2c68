//! Orders whose exact total is half a cent over, or one part of a cent less or more.

use super::books::Book;
use super::random::Random;
use crate::layout::{customer, district, warehouse};
use crate::new_order::PARTS;
use crate::ranges;
use crate::request::{Line, NewOrder};

pub const HALF: i64 = PARTS / 2;

/// Sets taxes, and for some customers of the favoured district and an item each, discount and price; answers an order of each.
pub fn halves(random: &mut Random, book: &mut Book) -> Vec<NewOrder> {
    let (layout, at) = (book.layout, book.focus);
    let rates = taxes(random);
    let nums = &mut book.lent.nums;
    nums[layout.warehouse(at.warehouse)][warehouse::TAX] = rates[0];
    nums[layout.district(at.warehouse, at.district)][district::TAX] = rates[1];
    let taxed = 10_000 + rates[0] + rates[1];
    let some = layout.customers.min(layout.items).min(4);
    let mut orders = Vec::new();
    for number in 1..=some {
        let Some(bill) = bill(random, taxed) else {
            continue;
        };
        let row = layout.customer(at.warehouse, at.district, number);
        nums[row][customer::DISCOUNT] = 10_000 - bill.kept;
        nums[layout.price(number)] = bill.price;
        orders.push(NewOrder {
            warehouse: at.warehouse as u64,
            district: at.district as u64,
            customer: number as u64,
            date: random.between(100, 400) as u64,
            lines: lines(random, number, at.warehouse, bill.quantity),
        });
    }
    orders
}

/// Both taxes; in most lists 10,000 and both have no divisor with 10 in common, or no total would be one part beside a half.
fn taxes(random: &mut Random) -> [i64; 2] {
    let (low, high) = ranges::RATE;
    let any = random.percent(30);
    loop {
        let rates = [(); 2].map(|()| random.between(low, high));
        if any || gcd(10_000 + rates[0] + rates[1], 10) == 1 {
            return rates;
        }
    }
}

/// What is kept of 10,000 after the discount, a price, and how many are ordered at it.
struct Bill {
    kept: i64,
    price: i64,
    quantity: i64,
}

/// A bill whose exact total with these taxes is half a cent over, or one part less or more; none where none was found.
fn bill(random: &mut Random, taxed: i64) -> Option<Bill> {
    let rest = match gcd(taxed, 10) {
        1 => HALF + *random.pick(&[-1, 0, 0, 1]),
        _ => HALF,
    };
    (0..20_000).find_map(|_| {
        let kept = random.between(1, 10_000);
        let quantity = random.between(1, 10) * *random.pick(&[1, 1, 1, 7, 15]);
        let price = price(random, quantity * kept * taxed, rest)?;
        Some(Bill {
            kept,
            price,
            quantity,
        })
    })
}

/// A price in range that, so many times taken, leaves this rest by a cent's parts.
fn price(random: &mut Random, times: i64, rest: i64) -> Option<i64> {
    let common = gcd(times, PARTS);
    if rest % common != 0 {
        return None;
    }
    let span = PARTS / common;
    let least = rest / common % span * inverse(times / common % span, span) % span;
    let most = ranges::PRICE.1;
    let price = least + span * random.between(0, ((most - least) / span).max(0));
    (1..=most).contains(&price).then_some(price)
}

fn gcd(a: i64, b: i64) -> i64 {
    if b == 0 {
        a
    } else {
        gcd(b, a % b)
    }
}

/// The number that times this one leaves 1 by the span; the two have no common divisor.
fn inverse(number: i64, span: i64) -> i64 {
    let (mut last, mut next) = ((span, 0), (number, 1));
    while next.0 != 0 {
        let whole = last.0 / next.0;
        (last, next) = (next, (last.0 - whole * next.0, last.1 - whole * next.1));
    }
    last.1.rem_euclid(span)
}

/// Lines of one item that together have this quantity.
fn lines(random: &mut Random, item: usize, supply: usize, quantity: i64) -> Vec<Line> {
    let (most, most_lines) = (ranges::QUANTITY.1, ranges::LINE_COUNT.1);
    let fewest = (quantity + most - 1) / most;
    let count = random.between(fewest, quantity.min(most_lines).max(fewest));
    let of_line = |line: i64| quantity / count + i64::from(line < quantity % count);
    (0..count)
        .map(|line| Line {
            item: item as u64,
            supply_warehouse: supply as u64,
            quantity: of_line(line) as u64,
        })
        .collect()
}
