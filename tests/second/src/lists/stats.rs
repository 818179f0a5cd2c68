//! How often the random lists reach each answer of each call.

use super::totals::HALF;
use super::{lifted, paid, turns};
use crate::checks;
use crate::layout::{customer, district, Layout, NAMES_WIDTH};
use crate::new_order::{exact_total, rates, PARTS};
use crate::ranges::NAME_BYTES;
use crate::replay::command::{parse, Command};
use crate::replay::{Engine, Lent, Replay, SecondEngine};
use crate::request::{Line, NewOrder, Request, Who};
use crate::rows;
use crate::who::{self, Found};
use crate::Outcome;
use std::collections::{BTreeMap, BTreeSet};

/// Counts of answers, by word and number and, where it tells more, by kind. Searches by name count once more, by the word `=` and each kind that
/// they are of, payments by the word `;`, calls that queue or run a Delivery by the word `>`, and orders and openings by the word `+`.
pub type Counts = BTreeMap<(String, u64, String), u64>;

/// Runs the lists through the second engine and counts the answers.
pub fn count(seed: u64, lists: u64) -> Counts {
    let mut counts = Counts::new();
    for number in 0..lists {
        let mut engine = SecondEngine;
        let mut replay = Replay::new(&mut engine);
        for line in super::list(seed, number).lines() {
            let found = replay.slices.lent.clone();
            if let Some(answer) = replay.step(line.as_bytes()) {
                let lent = &replay.slices.lent;
                let key = key(&answer, line, lent);
                let searches = searched(&answer, line, lent).into_iter();
                let payments = paid::kinds(key.1, line, &found).into_iter();
                let turns = turns::kinds(key.1, line, &found).into_iter();
                let kinds = searches.map(|kind| ("=", kind));
                let kinds = kinds.chain(payments.map(|kind| (";", kind)));
                let kinds = kinds.chain(turns.map(|kind| (">", kind)));
                let tables = lifted::kinds(key.1, line, &found).into_iter();
                for (word, kind) in kinds.chain(tables.map(|kind| ("+", kind))) {
                    let once_more = (word.to_string(), key.1, kind);
                    *counts.entry(once_more).or_insert(0) += 1;
                }
                *counts.entry(key).or_insert(0) += 1;
            }
        }
    }
    counts
}

/// Word, number and kind of an answer to a command, which has left the slices so.
fn key(answer: &str, command: &str, lent: &Lent) -> (String, u64, String) {
    let tokens: Vec<&str> = answer.split(' ').collect();
    let figure = |place: usize| tokens.get(place).and_then(|t| t.parse::<u64>().ok());
    let number = figure(1).unwrap_or(u64::MAX);
    let kind = match (tokens[0], number) {
        ("N" | "S", 9 | 10 | 13) => beside(number, command, lent),
        ("N" | "S", 0) => committed(command, lent, figure(2), figure(4)),
        ("D" | "RD", 0) if figure(2) == Some(10) => "all skipped".into(),
        ("D" | "RD", 0) if figure(2) == Some(0) => "none skipped".into(),
        ("D" | "RD", 0) => "some skipped".into(),
        ("L", 0) if figure(2) == Some(0) => "none low".into(),
        ("L", 0) => "some low".into(),
        (_, 8 | 12) => match figure(2) {
            Some(0) => "detail 0".into(),
            Some(1) => "detail 1".into(),
            _ => "detail 2 to 15".into(),
        },
        _ => String::new(),
    };
    (tokens[0].to_string(), number, kind)
}

/// How near a total is to half a cent; whose order is shown; and what was wrong that the call had no business with.
fn committed(command: &str, lent: &Lent, customer: Option<u64>, order: Option<u64>) -> String {
    let layout = Layout::of(&lent.nums, &lent.names).expect("a book that was not refused");
    let r = match parse(command.as_bytes()) {
        Command::Call(Request::NewOrder(r)) => {
            let rest = rest_of(lent, &layout, &r);
            let kind = format!("{rest}{}", wrong_elsewhere(lent, &layout));
            return kind.trim_start_matches(", ").into();
        }
        Command::Call(Request::OrderStatus(r)) => r,
        _ => unreachable!("a committed N or S"),
    };
    let place = (r.warehouse as usize, r.district as usize);
    let order = order.unwrap_or(0) as usize;
    let kind = match order {
        0 => "no order",
        _ => {
            let buyer = lent.nums[layout.order(place.0, place.1, order).start];
            let own = customer == u64::try_from(buyer).ok();
            if own {
                "an order"
            } else {
                "another's order"
            }
        }
    };
    let orders = checks::orders_from(&lent.nums, &layout, place, 1);
    let damaged = if checks::orders_in_range(&layout, orders) {
        ""
    } else {
        ", a damaged one not shown"
    };
    format!("{kind}{damaged}{}", wrong_elsewhere(lent, &layout))
}

/// How near the exact total is to half a cent, where that is one part or nothing.
fn rest_of(lent: &Lent, layout: &Layout, r: &NewOrder) -> &'static str {
    let nums = &lent.nums;
    let amount = |line: &Line| line.quantity as i64 * nums[layout.price(line.item as usize)];
    let sum = r.lines.iter().map(amount).sum();
    let [discount, warehouse_tax, district_tax] = rates(nums, layout, r);
    let exact = exact_total(sum, discount, warehouse_tax, district_tax);
    match exact % PARTS - HALF {
        -1 => "one part below half a cent",
        0 => "exactly half a cent",
        1 => "one part above half a cent",
        _ => "",
    }
}

/// Whether the slice has a number out of range, which is of another district where a call was committed.
fn wrong_elsewhere(lent: &Lent, layout: &Layout) -> &'static str {
    let places = (1..=layout.warehouses).flat_map(|w| (1..=10).map(move |d| (w, d)));
    let outside = |(w, d): (usize, usize)| {
        let next = lent.nums[layout.district(w, d)][district::NEXT_ORDER];
        let numbers = &lent.last[layout.last_orders_of(w, d)];
        numbers.iter().any(|&number| number < 0 || number >= next)
    };
    let fits = lent.last.len() == layout.last_orders();
    if fits && places.into_iter().any(outside) {
        ", wrong elsewhere"
    } else {
        ""
    }
}

/// What 13 is answered for and what else would have been; whether 13 fits as well where 9 or 10 is answered.
fn beside(number: u64, command: &str, lent: &Lent) -> String {
    let (place, who) = match parse(command.as_bytes()) {
        Command::Call(Request::NewOrder(r)) => ((r.warehouse, r.district), Who::Number(r.customer)),
        Command::Call(Request::OrderStatus(r)) => ((r.warehouse, r.district), r.who),
        _ => return String::new(),
    };
    let layout = Layout::of(&lent.nums, &lent.names).expect("a book that was not refused by 2");
    let place = (place.0 as usize, place.1 as usize);
    let fault = slice_fault(lent, &layout, place, &who);
    match (number, fault, parse(command.as_bytes())) {
        (13, None, _) => "the order found".into(),
        (13, Some(fault), Command::Call(Request::NewOrder(r))) => {
            format!("{fault}{}", behind(lent, &layout, &r))
        }
        (13, Some(fault), _) => fault.into(),
        (_, Some(_), _) => "and 13".into(),
        (_, None, _) => String::new(),
    }
}

/// What is wrong with the slice for a call to this district.
fn slice_fault(
    lent: &Lent,
    layout: &Layout,
    (w, d): (usize, usize),
    who: &Who,
) -> Option<&'static str> {
    let (length, right) = (lent.last.len(), layout.last_orders());
    match length {
        0 => return Some("no slice"),
        _ if length + 1 == right => return Some("one short"),
        _ if length == right + 1 => return Some("one long"),
        _ if length == 2 * right => return Some("double"),
        _ if length != right => return Some("another length"),
        _ => {}
    }
    let next = lent.nums[layout.district(w, d)][district::NEXT_ORDER];
    let outside = |&&number: &&i64| number < 0 || number >= next;
    let found = who::find(&lent.names[layout.names_of(w, d)], who);
    let own = match found {
        Found::Customer(customer) => lent.last.get(layout.last_order(w, d, customer)),
        Found::Nobody => None,
    };
    let mut others = lent.last[layout.last_orders_of(w, d)].iter();
    match (own.filter(outside), others.find(outside)) {
        (Some(number), _) if *number < 0 => Some("own number negative"),
        (Some(number), _) if *number == next => Some("own number next"),
        (Some(_), _) => Some("own number above next"),
        (None, Some(number)) if *number < 0 => Some("another's number negative"),
        (None, Some(number)) if *number == next => Some("another's number next"),
        (None, Some(_)) => Some("another's number above next"),
        (None, None) => None,
    }
}

/// The refusal behind 13: what the same order gets with a slice that is all 0.
fn behind(lent: &Lent, layout: &Layout, order: &NewOrder) -> String {
    let mut lent = lent.clone();
    lent.last = vec![0; layout.last_orders()];
    match SecondEngine.new_order(&mut lent, order) {
        Outcome::Refused(refusal) => format!(", before {}", refusal.number),
        Outcome::Committed(_) => String::new(),
    }
}

/// The kinds of a search by name that found a customer or nobody: how the wanted last name differs from those of other customers, and the first
/// name of the customer found from those of its namesakes. Where a search is refused by 9 too: what its customers' rows are like.
fn searched(answer: &str, command: &str, lent: &Lent) -> BTreeSet<String> {
    let mut kinds = BTreeSet::new();
    let Some(((w, d), name)) = wanted(command) else {
        return kinds;
    };
    let figures = answer.split(' ').skip(1).map_while(|f| f.parse().ok());
    let figures: Vec<usize> = figures.collect();
    if let [0 | 9 | 10, ..] = figures[..] {
        kinds.extend(rows_judged(lent, (w as usize, d as usize)));
    }
    let found = match figures[..] {
        [0, customer, ..] => customer,
        [10, ..] => 0,
        _ => return kinds,
    };
    if name.iter().any(|&byte| byte >= 128) {
        kinds.insert("a wanted byte from 128 on".into());
    }
    let Some(wanted) = who::padded(&name) else {
        return kinds;
    };
    let layout = Layout::of(&lent.nums, &lent.names).expect("a book that was not refused by 2");
    let names = &lent.names[layout.names_of(w as usize, d as usize)];
    let rows: Vec<_> = names.chunks_exact(NAMES_WIDTH).collect();
    for (row, number) in rows.iter().zip(1..) {
        let (last, first) = row.split_at(NAME_BYTES);
        if last != wanted {
            kinds.insert(format!("last names {}", difference(last, &wanted)));
        } else if number != found {
            let of_found = &rows[found - 1][NAME_BYTES..];
            kinds.insert(format!("first names {}", difference(first, of_found)));
        }
    }
    kinds
}

/// What the rows of a district of many customers are like: out of range, or in range and so are the ors of their columns, or not these.
fn rows_judged(lent: &Lent, (w, d): (usize, usize)) -> Option<String> {
    let layout = Layout::of(&lent.nums, &lent.names).expect("a book that was not refused by 2");
    if layout.customers < 16 {
        return None;
    }
    let numbers = &lent.nums[layout.customers_of(w, d)];
    let or_of = |column: usize| {
        let column = numbers.iter().skip(column).step_by(customer::WIDTH);
        column.fold(0, |or, number| or | number)
    };
    let mut ors: [i64; customer::WIDTH] = std::array::from_fn(or_of);
    ors[customer::BALANCE] = 0;
    let kind = match rows::customers_in_range(numbers) {
        false => "out of range",
        true if rows::customer_in_range(&ors) => "in range, and their ors",
        true => "in range, but not their ors",
    };
    Some(format!("sixteen rows or more {kind}"))
}

/// The customer's warehouse and district and the wanted last name of a Payment or an Order-Status by name.
fn wanted(command: &str) -> Option<((u64, u64), Vec<u8>)> {
    let (place, who) = match parse(command.as_bytes()) {
        Command::Call(Request::Payment(r)) => ((r.customer_warehouse, r.customer_district), r.who),
        Command::Call(Request::OrderStatus(r)) => ((r.warehouse, r.district), r.who),
        _ => return None,
    };
    match who {
        Who::LastName(name) => Some((place, name)),
        Who::Number(_) => None,
    }
}

/// In which of their bytes two names differ.
fn difference(one: &[u8], other: &[u8]) -> String {
    let differ = |place: &usize| one[*place] != other[*place];
    let mut places = (0..NAME_BYTES).filter(differ);
    let Some(first) = places.next() else {
        return "equal".into();
    };
    match places.next_back() {
        None => format!("differ in byte {} alone", first + 1),
        Some(_) if first >= 8 => "differ in the second eight alone".into(),
        Some(last) if last < 8 => "differ in the first eight alone".into(),
        Some(_) => "differ in both eights".into(),
    }
}
