//! Of which kinds a payment of a random list is, by the notes that it finds.

use crate::layout::{customer, Layout, TEXT_WIDTH};
use crate::replay::command::{parse, Command};
use crate::replay::{Engine, Lent, SecondEngine};
use crate::request::{Payment, Request, Who};
use crate::who::{self, Found};
use crate::Outcome;

/// The kinds of a payment that found the slices so and was answered this number; none where the command is no payment.
pub fn kinds(number: u64, command: &str, found: &Lent) -> Vec<String> {
    let Command::Call(Request::Payment(r)) = parse(command.as_bytes()) else {
        return Vec::new();
    };
    let Some(layout) = Layout::from_head(&found.nums) else {
        return Vec::new();
    };
    let right = found.notes.len() == layout.note_bytes();
    match number {
        2 if !right => vec!["and 14".into()],
        0 => noted(&r, found, &layout),
        9 | 11 => vec![credit(&r, found, &layout).to_string()],
        14 => vec![
            length(found, &layout).to_string(),
            behind(&r, found, &layout),
        ],
        _ => Vec::new(),
    }
}

/// The number of the paying customer, 0 for nobody.
fn payer(r: &Payment, found: &Lent, layout: &Layout) -> usize {
    let (w, d) = (r.customer_warehouse as usize, r.customer_district as usize);
    match who::find(&found.names[layout.names_of(w, d)], &r.who) {
        Found::Customer(number) => number,
        Found::Nobody => 0,
    }
}

/// The paying customer's credit.
fn credit(r: &Payment, found: &Lent, layout: &Layout) -> &'static str {
    let (w, d) = (r.customer_warehouse as usize, r.customer_district as usize);
    let number = payer(r, found, layout);
    if number == 0 {
        return "nobody";
    }
    match found.nums[layout.customer(w, d, number)][customer::CREDIT] {
        0 => "credit 0",
        1 => "credit 1",
        _ => "credit out of range",
    }
}

/// The credit and, with bad credit, who pays where, and what stood in the text.
fn noted(r: &Payment, found: &Lent, layout: &Layout) -> Vec<String> {
    let credit = credit(r, found, layout);
    let mut kinds = vec![credit.to_string()];
    if credit == "credit 0" {
        return kinds;
    }
    let (w, d) = (r.customer_warehouse, r.customer_district);
    kinds.push(match &r.who {
        Who::Number(_) => "noted, by number".into(),
        Who::LastName(_) => "noted, by name".into(),
    });
    kinds.push(match (r.warehouse == w, r.district == d) {
        (true, true) => "noted, at home".into(),
        (true, false) => "noted, in another district".into(),
        (false, _) => "noted, at another warehouse".into(),
    });
    let number = payer(r, found, layout);
    let text = &found.notes[layout.text(w as usize, d as usize, number)];
    let note = format!(
        "{number} {d} {w} {} {} {};",
        r.district, r.warehouse, r.amount
    );
    if text[TEXT_WIDTH - note.len()..]
        .iter()
        .any(|&byte| byte != b' ')
    {
        kinds.push("noted, bytes lost".into());
    }
    if text.iter().any(|&byte| byte >= 128) {
        kinds.push("noted, a byte from 128 on".into());
    }
    if !text.contains(&b' ') {
        kinds.push("noted, no space".into());
    }
    kinds
}

/// What is wrong with the length.
fn length(found: &Lent, layout: &Layout) -> &'static str {
    let (length, right) = (found.notes.len(), layout.note_bytes());
    let (w, c) = (layout.warehouses, layout.customers);
    match length {
        0 => "no notes",
        _ if length + 1 == right => "a byte short",
        _ if length == right + 1 => "a byte long",
        _ if length == 5_000 * w * w => "5,000 x W x W",
        _ if length == 500 * w * c => "500 x W x C",
        _ if length + TEXT_WIDTH == right => "a text short",
        _ if length == right + TEXT_WIDTH => "a text long",
        _ if length == 2 * right => "double",
        _ => "another length",
    }
}

/// The refusal behind 14: what the same payment gets with notes that are all spaces.
fn behind(r: &Payment, found: &Lent, layout: &Layout) -> String {
    let mut lent = found.clone();
    lent.notes = vec![b' '; layout.note_bytes()];
    match SecondEngine.payment(&mut lent, r) {
        Outcome::Refused(refusal) => format!("before {}", refusal.number),
        Outcome::Committed(_) => format!("alone, {}", credit(r, found, layout)),
    }
}
