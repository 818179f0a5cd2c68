//! Of which kinds a call of a random list is that queues a Delivery or runs one, by the record and the buffer that it finds.

use crate::queue::{Waiting, PLACES, RESULT_BYTES};
use crate::ranges::{asks_within, CARRIER, DATE};
use crate::replay::command::{parse, Command};
use crate::replay::{Engine, Lent, SecondEngine};
use crate::request::Delivery;
use crate::Outcome;

/// The kinds of a call that found what is lent so and was answered this number; none where it neither queues nor runs.
pub fn kinds(number: u64, command: &str, found: &Lent) -> Vec<String> {
    match parse(command.as_bytes()) {
        Command::QueueDelivery(request) => queued(number, &request, found),
        Command::RunDelivery(date) => run(number, date, found),
        _ => Vec::new(),
    }
}

fn queued(number: u64, request: &Delivery, found: &Lent) -> Vec<String> {
    let in_range = asks_within(request.date, DATE);
    let mut kinds = vec![count(found), date(request.date)];
    match number {
        15 if !in_range => kinds.push("before 7".into()),
        15 => kinds.push("alone".into()),
        0 if !asks_within(request.carrier, CARRIER) => kinds.push("such a carrier".into()),
        0 if request.warehouse == 0 || request.warehouse > 20 => {
            kinds.push("such a warehouse".into());
        }
        _ => {}
    }
    let named = |kind| format!("queued, {kind}");
    kinds.into_iter().map(named).collect()
}

fn run(number: u64, at: u64, found: &Lent) -> Vec<String> {
    let mut kinds = vec![count(found), buffer(found), date(at)];
    let [oldest, ..] = found.queue.waiting;
    match number {
        16 => kinds.push(behind(at, found)),
        _ => kinds.extend(of_line(&oldest)),
    }
    let in_use = found.queue.count.min(PLACES as u64) as usize;
    let free = Waiting::default();
    if found.queue.waiting[in_use..]
        .iter()
        .any(|place| *place != free)
    {
        kinds.push("numbers beyond the count".into());
    }
    let named = |kind| format!("run, {kind}");
    kinds.into_iter().map(named).collect()
}

/// What the line prints that a call that queues would not have let in, or that is of 20 digits.
fn of_line(oldest: &Waiting) -> Vec<String> {
    let mut kinds = Vec::new();
    if !asks_within(oldest.date, DATE) {
        kinds.push("such a queuing date".into());
    }
    let numbers = [oldest.date, oldest.warehouse, oldest.carrier];
    if numbers.iter().any(|&number| number >= 10_u64.pow(19)) {
        kinds.push("20 digits".into());
    }
    kinds
}

fn count(found: &Lent) -> String {
    match found.queue.count {
        count @ (0 | 1 | 15..=17) => format!("count {count}"),
        2..=14 => "count 2 to 14".into(),
        u64::MAX => "count 2^64 - 1".into(),
        _ => "another count".into(),
    }
}

fn date(date: u64) -> String {
    let last = DATE.1 as u64;
    match date {
        0 | 1 => format!("date {date}"),
        _ if date == last => "the last date".into(),
        _ if date == last + 1 => "one above the last date".into(),
        _ if date > last => "a later date".into(),
        _ => "a date".into(),
    }
}

fn buffer(found: &Lent) -> String {
    match found.buffer.len() {
        length @ (0 | 399..=401) => format!("{length} bytes"),
        length if length < RESULT_BYTES => "fewer bytes".into(),
        _ => "more bytes".into(),
    }
}

/// What a run refused by 16 would have answered with one request waiting and a buffer of 400 bytes.
fn behind(at: u64, found: &Lent) -> String {
    let mut lent = found.clone();
    lent.queue.count = 1;
    lent.buffer = vec![0; RESULT_BYTES];
    match SecondEngine.run_delivery(&mut lent, at).outcome {
        Outcome::Refused(refusal) => format!("before {}", refusal.number),
        Outcome::Committed(_) => "alone".into(),
    }
}
