//! The checks that several calls share, each giving its refusal number.

use crate::answer::Refusal;
use crate::layout::{district, order, Layout};
use crate::ranges::{self, asks_within, Range};
use crate::request::Who;
use crate::rows;

/// Refuses by `number`, detail 0, unless the condition holds.
pub fn demand(holds: bool, number: u64) -> Result<(), Refusal> {
    if holds {
        Ok(())
    } else {
        Err(Refusal::plain(number))
    }
}

/// Check 2: head and lengths.
pub fn layout(nums: &[i64], names: &[u8]) -> Result<Layout, Refusal> {
    Layout::of(nums, names).ok_or(Refusal::plain(2))
}

/// Check 4 for one warehouse.
pub fn warehouse(layout: &Layout, warehouse: u64) -> Result<(), Refusal> {
    demand(one_to(layout.warehouses, warehouse), 4)
}

/// Check 5 for one district.
pub fn district(district: u64) -> Result<(), Refusal> {
    demand((1..=ranges::DISTRICTS).contains(&district), 5)
}

/// Check 6: a customer given by number. One given by name passes here.
pub fn customer(layout: &Layout, who: &Who) -> Result<(), Refusal> {
    match who {
        Who::Number(number) => demand(one_to(layout.customers, *number), 6),
        Who::LastName(_) => Ok(()),
    }
}

/// Check 7.
pub fn date(date: u64) -> Result<(), Refusal> {
    demand(asks_within(date, ranges::DATE), 7)
}

/// Check 8 for a number of the request that is not in an order line.
pub fn asked(value: u64, range: Range) -> Result<(), Refusal> {
    demand(asks_within(value, range), 8)
}

/// Is a request's number 1 to `count`?
pub fn one_to(count: usize, number: u64) -> bool {
    (1..=count as u64).contains(&number)
}

/// For check 9: the customer by number, or by name all customers of the district with names.
pub fn customers_in_range(
    nums: &[i64],
    names: &[u8],
    layout: &Layout,
    (warehouse, district): (usize, usize),
    who: &Who,
) -> bool {
    match who {
        Who::Number(number) => {
            let row = layout.customer(warehouse, district, *number as usize);
            rows::customer_in_range(&nums[row])
        }
        Who::LastName(_) => {
            rows::customers_in_range(&nums[layout.customers_of(warehouse, district)])
                && names[layout.names_of(warehouse, district)]
                    .chunks_exact(crate::layout::NAMES_WIDTH)
                    .all(rows::name_in_range)
        }
    }
}

/// The orders numbered from `first` up to, but without, the district's next order number.
pub fn orders_from<'a>(
    nums: &'a [i64],
    layout: &Layout,
    (warehouse, district): (usize, usize),
    first: usize,
) -> &'a [i64] {
    let next = next_order(nums, layout, (warehouse, district));
    let section = &nums[layout.orders_of(warehouse, district)];
    &section[(first - 1) * order::WIDTH..(next - 1) * order::WIDTH]
}

/// Are all these orders, slot after slot, in range?
pub fn orders_in_range(layout: &Layout, orders: &[i64]) -> bool {
    orders
        .chunks_exact(order::WIDTH)
        .all(|row| rows::order_in_range(layout, row))
}

/// Check 13 for the slice of last orders: its length, then all numbers of the district,
/// whose row is in range, each from 0 to next - 1.
pub fn last_orders(
    nums: &[i64],
    last: &[i64],
    layout: &Layout,
    (warehouse, district): (usize, usize),
) -> Result<(), Refusal> {
    demand(last.len() == layout.last_orders(), 13)?;
    let most = next_order(nums, layout, (warehouse, district)) as i64 - 1;
    let numbers = &last[layout.last_orders_of(warehouse, district)];
    demand(rows::all_up_to(numbers, most), 13)
}

/// Check 17: the length of the top-up table, then every row of it.
pub fn topup(topup: &[i64], layout: &Layout) -> Result<(), Refusal> {
    let fits = topup.len() == layout.topup_numbers();
    demand(fits && rows::topup_in_range(topup), 17)
}

/// The next order number of a district whose row is in range.
pub fn next_order(nums: &[i64], layout: &Layout, (warehouse, district): (usize, usize)) -> usize {
    nums[layout.district(warehouse, district)][district::NEXT_ORDER] as usize
}
