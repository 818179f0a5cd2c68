//! Payment (TPC-C 2.5): a customer pays at a terminal's warehouse and district.

use crate::answer::{Outcome, PaymentFigures, Refusal};
use crate::checks::{self, demand};
use crate::layout::{customer, district, warehouse, Layout, HISTORY_COUNT};
use crate::note;
use crate::ranges;
use crate::request::Payment;
use crate::rows;
use crate::who::{self, Found};

pub fn payment(
    nums: &mut [i64],
    names: &[u8],
    notes: &mut [u8],
    request: &Payment,
) -> Outcome<PaymentFigures> {
    judge(nums, names, notes, request)
        .map(|(layout, customer)| commit(nums, notes, &layout, request, customer))
        .into()
}

/// All checks in order; gives the customer who pays.
fn judge(
    nums: &[i64],
    names: &[u8],
    notes: &[u8],
    request: &Payment,
) -> Result<(Layout, usize), Refusal> {
    let layout = checks::layout(nums, names)?;
    demand(notes.len() == layout.note_bytes(), 14)?;
    checks::warehouse(&layout, request.warehouse)?;
    checks::warehouse(&layout, request.customer_warehouse)?;
    checks::district(request.district)?;
    checks::district(request.customer_district)?;
    checks::customer(&layout, &request.who)?;
    checks::date(request.date)?;
    checks::asked(request.amount, ranges::PAYMENT_AMOUNT)?;
    demand(used_rows_in_range(nums, names, &layout, request), 9)?;
    let (warehouse, district) = home(request);
    let Found::Customer(customer) =
        who::find(&names[layout.names_of(warehouse, district)], &request.who)
    else {
        return Err(Refusal::plain(10));
    };
    demand(layout.history_count < layout.history_slots, 11)?;
    Ok((layout, customer))
}

/// Check 9: the terminal's warehouse and district, and the customer or, by name, all of them.
fn used_rows_in_range(nums: &[i64], names: &[u8], layout: &Layout, request: &Payment) -> bool {
    let (warehouse, district) = (request.warehouse as usize, request.district as usize);
    rows::warehouse_in_range(&nums[layout.warehouse(warehouse)])
        && rows::district_in_range(layout, &nums[layout.district(warehouse, district)])
        && checks::customers_in_range(nums, names, layout, home(request), &request.who)
}

/// The warehouse and district where the customer lives.
fn home(request: &Payment) -> (usize, usize) {
    (
        request.customer_warehouse as usize,
        request.customer_district as usize,
    )
}

/// Writes a payment that no check refused; with bad credit it is noted.
fn commit(
    nums: &mut [i64],
    notes: &mut [u8],
    layout: &Layout,
    request: &Payment,
    customer: usize,
) -> PaymentFigures {
    let (warehouse, district) = (request.warehouse as usize, request.district as usize);
    let amount = request.amount as i64;
    nums[layout.warehouse(warehouse)][warehouse::YTD] += amount;
    nums[layout.district(warehouse, district)][district::YTD] += amount;
    let (home_warehouse, home_district) = home(request);
    let row = &mut nums[layout.customer(home_warehouse, home_district, customer)];
    row[customer::BALANCE] -= amount;
    row[customer::YTD_PAYMENT] += amount;
    row[customer::PAYMENT_COUNT] += 1;
    let balance = row[customer::BALANCE];
    if row[customer::CREDIT] == 1 {
        let text = layout.text(home_warehouse, home_district, customer);
        note::put(&mut notes[text], noted(request, customer));
    }
    add_history(nums, layout, request, customer);
    PaymentFigures {
        customer: customer as u64,
        balance,
    }
}

/// The numbers of a payment's note.
fn noted(request: &Payment, customer: usize) -> [u64; 6] {
    [
        customer as u64,
        request.customer_district,
        request.customer_warehouse,
        request.district,
        request.warehouse,
        request.amount,
    ]
}

fn add_history(nums: &mut [i64], layout: &Layout, request: &Payment, customer: usize) {
    let row = [
        customer as i64,
        request.customer_district as i64,
        request.customer_warehouse as i64,
        request.district as i64,
        request.warehouse as i64,
        request.date as i64,
        request.amount as i64,
    ];
    nums[layout.history(layout.history_count)].copy_from_slice(&row);
    nums[HISTORY_COUNT] += 1;
}
