//! Stock-Level (TPC-C 2.8): how many recently sold items are low. Writes nothing.

use crate::answer::{Outcome, Refusal, StockLevelFigures};
use crate::checks::{self, demand};
use crate::layout::{order, order_line, stock, Layout};
use crate::ranges;
use crate::request::StockLevel;
use crate::rows;

pub fn stock_level(nums: &[i64], names: &[u8], request: &StockLevel) -> Outcome<StockLevelFigures> {
    judge(nums, names, request)
        .map(|layout| StockLevelFigures {
            low_stock: low_stock(nums, &layout, request),
        })
        .into()
}

/// All checks in order.
fn judge(nums: &[i64], names: &[u8], request: &StockLevel) -> Result<Layout, Refusal> {
    let layout = checks::layout(nums, names)?;
    checks::warehouse(&layout, request.warehouse)?;
    checks::district(request.district)?;
    checks::asked(request.threshold, ranges::THRESHOLD)?;
    demand(used_rows_in_range(nums, &layout, request), 9)?;
    Ok(layout)
}

/// Check 9: district, the orders of the window, all stock of the warehouse.
fn used_rows_in_range(nums: &[i64], layout: &Layout, request: &StockLevel) -> bool {
    let (warehouse, district) = (request.warehouse as usize, request.district as usize);
    rows::district_in_range(layout, &nums[layout.district(warehouse, district)])
        && checks::orders_in_range(layout, windowed_orders(nums, layout, request))
        && nums[layout.stock_of(warehouse)]
            .chunks_exact(stock::WIDTH)
            .all(rows::stock_in_range)
}

/// The first order number of the window: next - 20, or 1.
pub fn window_start(next: usize) -> usize {
    next.saturating_sub(20).max(1)
}

fn windowed_orders<'a>(nums: &'a [i64], layout: &Layout, request: &StockLevel) -> &'a [i64] {
    let place = (request.warehouse as usize, request.district as usize);
    let first = window_start(checks::next_order(nums, layout, place));
    checks::orders_from(nums, layout, place, first)
}

/// Counts each item of the window once, where its stock here is below the threshold.
fn low_stock(nums: &[i64], layout: &Layout, request: &StockLevel) -> u64 {
    let mut items: Vec<i64> = windowed_orders(nums, layout, request)
        .chunks_exact(order::WIDTH)
        .flat_map(|slot| rows::lines_in_use(slot).chunks_exact(order_line::WIDTH))
        .map(|line| line[order_line::ITEM])
        .collect();
    items.sort_unstable();
    items.dedup();
    let warehouse = request.warehouse as usize;
    let on_hand = |item: i64| nums[layout.stock(warehouse, item as usize)][stock::ON_HAND];
    let is_low = |item: &&i64| on_hand(**item) < request.threshold as i64;
    items.iter().filter(is_low).count() as u64
}
