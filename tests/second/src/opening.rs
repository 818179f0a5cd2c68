//! Opening: writes nothing, accepts a book in its first state.

use crate::answer::{Outcome, Refusal};
use crate::checks::{self, demand};
use crate::layout::{customer, district, stock, warehouse, Layout, NAMES_WIDTH};
use crate::ranges::{self, within};
use crate::rows;

/// Opens a book: checks 2, 3 and 17. The order and history slots may hold anything.
pub fn open(nums: &[i64], names: &[u8], topup: &[i64]) -> Outcome<()> {
    judge(nums, names, topup).into()
}

fn judge(nums: &[i64], names: &[u8], topup: &[i64]) -> Result<(), Refusal> {
    let layout = checks::layout(nums, names)?;
    demand(in_first_state(nums, names, &layout), 3)?;
    checks::topup(topup, &layout)
}

fn in_first_state(nums: &[i64], names: &[u8], layout: &Layout) -> bool {
    layout.history_count == 0
        && names.chunks_exact(NAMES_WIDTH).all(rows::name_in_range)
        && (1..=layout.items).all(|item| rows::price_in_range(nums[layout.price(item)]))
        && (1..=layout.warehouses).all(|number| warehouse_is_new(nums, layout, number))
}

/// The warehouse row, its districts, their customers, and its stock.
fn warehouse_is_new(nums: &[i64], layout: &Layout, number: usize) -> bool {
    let row = &nums[layout.warehouse(number)];
    within(row[warehouse::TAX], ranges::RATE)
        && row[warehouse::YTD] == 0
        && (1..=ranges::DISTRICTS as usize).all(|d| district_is_new(nums, layout, number, d))
        && nums[layout.stock_of(number)]
            .chunks_exact(stock::WIDTH)
            .all(stock_is_new)
}

fn district_is_new(nums: &[i64], layout: &Layout, warehouse: usize, number: usize) -> bool {
    let row = &nums[layout.district(warehouse, number)];
    within(row[district::TAX], ranges::RATE)
        && row[district::YTD] == 0
        && row[district::NEXT_ORDER] == 1
        && nums[layout.customers_of(warehouse, number)]
            .chunks_exact(customer::WIDTH)
            .all(customer_is_new)
}

fn customer_is_new(row: &[i64]) -> bool {
    within(row[customer::CREDIT], ranges::CREDIT)
        && within(row[customer::DISCOUNT], ranges::RATE)
        && row[customer::BALANCE] == 0
        && row[customer::YTD_PAYMENT] == 0
        && row[customer::PAYMENT_COUNT] == 0
        && row[customer::DELIVERY_COUNT] == 0
}

fn stock_is_new(row: &[i64]) -> bool {
    within(row[stock::ON_HAND], ranges::ON_HAND)
        && row[stock::YTD] == 0
        && row[stock::ORDER_COUNT] == 0
        && row[stock::REMOTE_COUNT] == 0
}
