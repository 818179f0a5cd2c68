//! Order-Status (TPC-C 2.6): a customer's balance and last order. Writes nothing.

use crate::answer::{OrderStatusAnswer, OrderStatusFigures, Outcome, Refusal};
use crate::checks::{self, demand};
use crate::layout::{customer, order, Layout};
use crate::request::OrderStatus;
use crate::rows;
use crate::who::{self, Found};

/// What is shown: the customer, and the number of the order, 0 for none.
struct Shown {
    customer: usize,
    order: usize,
}

pub fn order_status<'a>(
    nums: &'a [i64],
    names: &[u8],
    last: &[i64],
    request: &OrderStatus,
) -> OrderStatusAnswer<'a> {
    match judge(nums, names, last, request) {
        Ok((layout, shown)) => status(nums, &layout, request, &shown),
        Err(refusal) => OrderStatusAnswer {
            outcome: Outcome::Refused(refusal),
            lines: &[],
        },
    }
}

/// All checks in order; gives the customer meant and the order that the slice names.
fn judge(
    nums: &[i64],
    names: &[u8],
    last: &[i64],
    request: &OrderStatus,
) -> Result<(Layout, Shown), Refusal> {
    let layout = checks::layout(nums, names)?;
    checks::warehouse(&layout, request.warehouse)?;
    checks::district(request.district)?;
    checks::customer(&layout, &request.who)?;
    demand(used_rows_in_range(nums, names, &layout, request), 9)?;
    let (warehouse, district) = place_of(request);
    let Found::Customer(customer) =
        who::find(&names[layout.names_of(warehouse, district)], &request.who)
    else {
        return Err(Refusal::plain(10));
    };
    checks::last_orders(nums, last, &layout, (warehouse, district))?;
    let order = last[layout.last_order(warehouse, district, customer)] as usize;
    let in_range = |order| rows::order_in_range(&layout, order);
    demand(
        order == 0 || in_range(&nums[layout.order(warehouse, district, order)]),
        13,
    )?;
    Ok((layout, Shown { customer, order }))
}

/// Check 9: district, and the customer or, by name, all of them.
fn used_rows_in_range(nums: &[i64], names: &[u8], layout: &Layout, request: &OrderStatus) -> bool {
    let place = place_of(request);
    rows::district_in_range(layout, &nums[layout.district(place.0, place.1)])
        && checks::customers_in_range(nums, names, layout, place, &request.who)
}

fn place_of(request: &OrderStatus) -> (usize, usize) {
    (request.warehouse as usize, request.district as usize)
}

/// The order as it stands, whoever its customer is.
fn status<'a>(
    nums: &'a [i64],
    layout: &Layout,
    request: &OrderStatus,
    shown: &Shown,
) -> OrderStatusAnswer<'a> {
    let (warehouse, district) = place_of(request);
    let row = &nums[layout.customer(warehouse, district, shown.customer)];
    let mut figures = OrderStatusFigures {
        customer: shown.customer as u64,
        balance: row[customer::BALANCE],
        order: shown.order as u64,
        entry_date: 0,
        carrier: 0,
    };
    let mut lines: &[i64] = &[];
    if shown.order > 0 {
        let slot = &nums[layout.order(warehouse, district, shown.order)];
        figures.entry_date = slot[order::ENTRY_DATE] as u64;
        figures.carrier = slot[order::CARRIER] as u64;
        lines = rows::lines_in_use(slot);
    }
    OrderStatusAnswer {
        outcome: Outcome::Committed(figures),
        lines,
    }
}
