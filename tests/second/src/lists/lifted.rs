//! Of which kinds an order or an opening of a random list is, by the top-up table that it finds.

use crate::checks;
use crate::layout::{stock, topup, Layout};
use crate::ranges::{within, LIFT, MARGIN, MARGIN_AND_LIFT};
use crate::replay::command::{parse, Command};
use crate::replay::{Engine, Lent, SecondEngine};
use crate::request::{NewOrder, Request};
use crate::Outcome;
use std::collections::{BTreeSet, HashMap};

/// The kinds of a call that found what is lent so and was answered this number; none where it takes no table.
pub fn kinds(number: u64, command: &str, found: &Lent) -> BTreeSet<String> {
    let (call, order) = match parse(command.as_bytes()) {
        Command::Open => ("opened", None),
        Command::Call(Request::NewOrder(r)) => ("ordered", Some(r)),
        _ => return BTreeSet::new(),
    };
    let Some(layout) = Layout::from_head(&found.nums) else {
        return BTreeSet::new();
    };
    let mut kinds = match (number, &order) {
        (0, Some(r)) => taken(r, found, &layout),
        (17, _) => faults(order.as_ref(), found, &layout),
        _ => BTreeSet::new(),
    };
    if number != 17 && checks::topup(&found.topup, &layout).is_err() {
        kinds.insert("and 17".into());
    }
    if number == 0 {
        kinds.insert(table(found, &layout).into());
    }
    kinds
        .into_iter()
        .map(|kind| format!("{call}, {kind}"))
        .collect()
}

/// What the table is like that was let through.
fn table(found: &Lent, layout: &Layout) -> &'static str {
    let first = &found.topup[..topup::WIDTH];
    match found.topup == first.repeat(layout.items) {
        true if first == topup::USUAL => "10 and 91 throughout",
        true => "one row throughout",
        false => "rows that differ",
    }
}

/// What is wrong with a table, and what the same call would have been answered with document 01's.
fn faults(order: Option<&NewOrder>, found: &Lent, layout: &Layout) -> BTreeSet<String> {
    let mut kinds = BTreeSet::new();
    let (length, right) = (found.topup.len(), layout.topup_numbers());
    if length == right {
        kinds.extend(bad_row(order, found, layout));
    } else {
        kinds.insert(of_length(length, right).into());
    }
    let mut lent = found.clone();
    lent.topup = layout.usual_topup();
    let behind = match order.map(|r| SecondEngine.new_order(&mut lent, r)) {
        Some(Outcome::Refused(refusal)) => format!("before {}", refusal.number),
        _ => "alone".into(),
    };
    kinds.insert(behind);
    kinds
}

fn of_length(length: usize, right: usize) -> &'static str {
    match length {
        0 => "no table",
        _ if length + 1 == right => "a number short",
        _ if length == right + 1 => "a number long",
        _ if length + 2 == right => "a row short",
        _ if length == right + 2 => "a row long",
        _ if length == 2 * right => "double",
        _ => "another length",
    }
}

/// The rule that the first bad row breaks, where the row is, and whether a line names its item.
fn bad_row(order: Option<&NewOrder>, found: &Lent, layout: &Layout) -> Vec<String> {
    let rows = found.topup.chunks_exact(topup::WIDTH);
    let bad = |row: &&[i64]| {
        let (margin, lift) = (row[topup::MARGIN], row[topup::LIFT]);
        let each = within(margin, MARGIN) && within(lift, LIFT);
        !each || margin + lift > MARGIN_AND_LIFT
    };
    let (item, row) = (1..).zip(rows).find(|(_, row)| bad(row)).expect("a fault");
    let place = match item {
        1 => "the first row",
        _ if item == layout.items => "the last row",
        _ => "a middle row",
    };
    let mut kinds = vec![broken(row[0], row[1]).to_string(), place.into()];
    if let Some(r) = order {
        let row = match r.lines.iter().any(|line| line.item == item as u64) {
            true => "a line's row",
            false => "no line's row",
        };
        kinds.push(row.into());
    }
    kinds
}

fn broken(margin: i64, lift: i64) -> &'static str {
    match (margin, lift) {
        (9_991, _) => "margin 9,991",
        (_, 9) => "lift 9",
        (_, 10_000) => "lift 10,000",
        (_, i64::MIN..0) => "lift negative",
        (_, 0..9) => "lift below 9",
        (_, 10_001..) => "lift above 10,000",
        (-1, _) => "margin -1",
        (i64::MIN..0, _) => "margin negative",
        _ if margin == MARGIN_AND_LIFT + 1 - lift => "together 10,001",
        _ => "together above 10,001",
    }
}

/// How the lines of a committed order meet their margins, each judged on what those before it left.
fn taken(r: &NewOrder, found: &Lent, layout: &Layout) -> BTreeSet<String> {
    let mut kinds = BTreeSet::new();
    let mut shelf = HashMap::new();
    let (mut lifts, mut as_found) = (0, 0);
    for line in &r.lines {
        let (supply, item) = (line.supply_warehouse as usize, line.item as usize);
        let first = found.nums[layout.stock(supply, item)][stock::ON_HAND];
        let rule = &found.topup[layout.topup(item)];
        let (margin, lift) = (rule[topup::MARGIN], rule[topup::LIFT]);
        let quantity = line.quantity as i64;
        let before = shelf.insert((supply, item), 0);
        if before.is_some() {
            kinds.insert("a stock row twice".into());
        } else if shelf.keys().any(|&(w, i)| i == item && w != supply) {
            kinds.insert("an item of two warehouses".into());
        }
        let left = before.unwrap_or(first) - quantity;
        let new = left + if left < margin { lift } else { 0 };
        shelf.insert((supply, item), new);
        lifts += usize::from(left < margin);
        as_found += usize::from(first - quantity < margin);
        kinds.extend(at_margin(left - margin, new - margin));
        kinds.extend(of_rule(margin, lift));
    }
    kinds.insert(match lifts {
        0 => "no line lifted".into(),
        _ if lifts == r.lines.len() => "all lines lifted".into(),
        _ => "some lines lifted".into(),
    });
    if lifts != as_found {
        kinds.insert("other lifts than by the book as found".into());
    }
    kinds
}

/// How far a line leaves stock from the margin, before and after a lift.
fn at_margin(left: i64, new: i64) -> Option<String> {
    let kind = match left {
        0 => "left at the margin",
        1 => "left one above",
        -1 => "left one below",
        _ if new < 0 => "still below after the lift",
        _ => return None,
    };
    Some(kind.into())
}

/// The ends of the rules that a line's row is at.
fn of_rule(margin: i64, lift: i64) -> Vec<String> {
    let ends = [
        (margin == 0, "margin 0"),
        (margin == 9_989, "margin 9,989"),
        (margin == 9_990, "margin 9,990"),
        (lift == 10, "lift 10"),
        (lift == 9_998, "lift 9,998"),
        (lift == 9_999, "lift 9,999"),
        (margin + lift == MARGIN_AND_LIFT - 1, "together 9,999"),
        (margin + lift == MARGIN_AND_LIFT, "together 10,000"),
    ];
    let at = ends.into_iter().filter(|end| end.0);
    at.map(|(_, kind)| kind.into()).collect()
}
