//! Is a row in range? One function for each kind of row; a row is handed over as its numbers.

use crate::layout::{customer, district, order, order_line, stock, topup, warehouse, Layout};
use crate::ranges::{self, within, MARGIN_AND_LIFT};

pub fn warehouse_in_range(row: &[i64]) -> bool {
    within(row[warehouse::TAX], ranges::RATE) && within(row[warehouse::YTD], ranges::MONEY_TO_DATE)
}

pub fn district_in_range(layout: &Layout, row: &[i64]) -> bool {
    within(row[district::TAX], ranges::RATE)
        && within(row[district::YTD], ranges::MONEY_TO_DATE)
        && within(
            row[district::NEXT_ORDER],
            (1, layout.order_slots as i64 + 1),
        )
}

pub fn customer_in_range(row: &[i64]) -> bool {
    within(row[customer::CREDIT], ranges::CREDIT)
        && within(row[customer::DISCOUNT], ranges::RATE)
        && within(row[customer::BALANCE], ranges::BALANCE)
        && within(row[customer::YTD_PAYMENT], ranges::MONEY_TO_DATE)
        && within(row[customer::PAYMENT_COUNT], ranges::COUNT)
        && within(row[customer::DELIVERY_COUNT], ranges::COUNT)
}

/// Are all these customers, row after row, in range?
pub fn customers_in_range(rows: &[i64]) -> bool {
    rows.chunks_exact(customer::WIDTH).all(customer_in_range)
}

pub fn price_in_range(price: i64) -> bool {
    within(price, ranges::PRICE)
}

pub fn stock_in_range(row: &[i64]) -> bool {
    within(row[stock::ON_HAND], ranges::ON_HAND)
        && within(row[stock::YTD], ranges::LOTS_TO_DATE)
        && within(row[stock::ORDER_COUNT], ranges::COUNT)
        && within(row[stock::REMOTE_COUNT], ranges::COUNT)
}

/// An order is judged number by number; lines past its line count may hold anything.
pub fn order_in_range(layout: &Layout, row: &[i64]) -> bool {
    within(row[order::CUSTOMER], (1, layout.customers as i64))
        && within(row[order::ENTRY_DATE], ranges::DATE)
        && within(row[order::CARRIER], ranges::CARRIER_OR_NULL)
        && within(row[order::LINE_COUNT], ranges::LINE_COUNT)
        && within(row[order::ALL_LOCAL], ranges::FLAG)
        && within(row[order::WAITING], ranges::FLAG)
        && lines_in_use(row)
            .chunks_exact(order_line::WIDTH)
            .all(|line| order_line_in_range(layout, line))
}

fn order_line_in_range(layout: &Layout, line: &[i64]) -> bool {
    let delivery_date = line[order_line::DELIVERY_DATE];
    within(line[order_line::ITEM], (1, layout.items as i64))
        && within(
            line[order_line::SUPPLY_WAREHOUSE],
            (1, layout.warehouses as i64),
        )
        && within(line[order_line::QUANTITY], ranges::QUANTITY)
        && within(line[order_line::AMOUNT], ranges::LINE_AMOUNT)
        && (delivery_date == 0 || within(delivery_date, ranges::DATE))
}

/// The lines in use of an order whose line count is in range.
pub fn lines_in_use(order: &[i64]) -> &[i64] {
    let count = order[order::LINE_COUNT] as usize;
    &order[order::LINES..order::LINES + count * order_line::WIDTH]
}

/// Are all these numbers from 0 to `most`, which is not negative?
///
/// A number is if neither it nor `most` less it has a sign. The signs are gathered without a
/// branch, two numbers at a time; a comparison of 64 bits took nearly twice as long.
pub fn all_up_to(numbers: &[i64], most: i64) -> bool {
    let signs = numbers
        .iter()
        .fold(0, |signs, &n| signs | n | most.wrapping_sub(n));
    signs >= 0
}

/// Are all these rows of a top-up table in range: each lift, and each margin from 0 to what the lift leaves of 10,000?
///
/// Beside a lift of 10 or more that is at most 9,990. The signs are gathered as above; of a lift outside its range one difference has a sign,
/// also where the others wrap. A loop that leaves at the first bad row took a seventh longer.
pub fn topup_in_range(rows: &[i64]) -> bool {
    let (least, most) = ranges::LIFT;
    let signs = rows.chunks_exact(topup::WIDTH).fold(0, |signs, row| {
        let (margin, lift) = (row[topup::MARGIN], row[topup::LIFT]);
        let room = MARGIN_AND_LIFT.wrapping_sub(lift);
        let of_lift = lift.wrapping_sub(least) | most.wrapping_sub(lift);
        signs | of_lift | margin | room.wrapping_sub(margin)
    });
    signs >= 0
}

/// Are one customer's 32 name bytes in range?
pub fn name_in_range(names: &[u8]) -> bool {
    names[0] != b' ' && names.iter().all(|byte| (32..=126).contains(byte))
}
