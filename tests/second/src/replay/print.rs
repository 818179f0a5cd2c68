//! Printing answers: the word, then 0 and figures, or refusal and detail.
//!
//! What stands beside a refusal (ten orders, an order's lines, a buffer) has to be 0,
//! empty or unwritten. Should an engine leave something there it is printed after the
//! detail, so that a comparison sees it.

use super::engine::{Engine, Lent};
use super::{hex, UNWRITTEN};
use crate::answer::{DeliveryAnswer, OrderStatusAnswer, Outcome, QueueFigures, Refusal};
use crate::request::{Request, Who};
use std::fmt::Display;

/// Makes one of the five calls and prints its answer.
pub fn call(engine: &mut (impl Engine + ?Sized), lent: &mut Lent, request: &Request) -> String {
    match request {
        Request::NewOrder(r) => match engine.new_order(lent, r) {
            Outcome::Committed(f) => format!("N 0 {} {} {}", f.order, f.total, f.lifts),
            Outcome::Refused(refusal) => refused("N", refusal),
        },
        Request::Payment(r) => match engine.payment(lent, r) {
            Outcome::Committed(f) => format!("P 0 {} {}", f.customer, f.balance),
            Outcome::Refused(refusal) => refused("P", refusal),
        },
        Request::Delivery(r) => delivery("D", &engine.delivery(lent, r)),
        Request::OrderStatus(r) => order_status(&engine.order_status(lent, r)),
        Request::StockLevel(r) => match engine.stock_level(lent, r) {
            Outcome::Committed(f) => format!("L 0 {}", f.low_stock),
            Outcome::Refused(refusal) => refused("L", refusal),
        },
    }
}

pub fn open(outcome: Outcome<()>) -> String {
    match outcome {
        Outcome::Committed(()) => "OPEN 0".to_string(),
        Outcome::Refused(refusal) => refused("OPEN", refusal),
    }
}

pub fn read(outcome: Outcome<Request>) -> String {
    match outcome {
        Outcome::Committed(request) => format!("READ 0 {}", request_tokens(&request)),
        Outcome::Refused(refusal) => refused("READ", refusal),
    }
}

/// A written line with the whole buffer.
pub fn write(outcome: Outcome<u64>, buffer: &[u8]) -> String {
    match outcome {
        Outcome::Committed(length) => format!("WRITE 0 {length} {}", hex::token(buffer)),
        Outcome::Refused(refusal) => {
            let mut text = refused("WRITE", refusal);
            if buffer.iter().any(|&byte| byte != UNWRITTEN) {
                put(&mut text, hex::token(buffer));
            }
            text
        }
    }
}

fn refused(word: &str, refusal: Refusal) -> String {
    format!("{word} {} {}", refusal.number, refusal.detail)
}

pub fn queue_delivery(outcome: Outcome<QueueFigures>) -> String {
    match outcome {
        Outcome::Committed(f) => format!("QD 0 {}", f.before),
        Outcome::Refused(refusal) => refused("QD", refusal),
    }
}

/// A Delivery, or a run by its own word.
pub fn delivery(word: &str, answer: &DeliveryAnswer) -> String {
    let mut text = match answer.outcome {
        Outcome::Committed(f) => format!("{word} 0 {} {}", f.skip_count, f.skip_mark),
        Outcome::Refused(refusal) => refused(word, refusal),
    };
    let committed = matches!(answer.outcome, Outcome::Committed(_));
    if committed || answer.orders != [0; 10] {
        put_all(&mut text, answer.orders);
    }
    text
}

fn order_status(answer: &OrderStatusAnswer) -> String {
    let mut text = match answer.outcome {
        Outcome::Committed(f) => format!(
            "S 0 {} {} {} {} {}",
            f.customer, f.balance, f.order, f.entry_date, f.carrier
        ),
        Outcome::Refused(refusal) => refused("S", refusal),
    };
    put_all(&mut text, answer.lines);
    text
}

/// A request in the tokens of its call.
pub fn request_tokens(request: &Request) -> String {
    match request {
        Request::NewOrder(r) => {
            let count = r.lines.len();
            let (w, d, c) = (r.warehouse, r.district, r.customer);
            let mut text = format!("N {w} {d} {c} {} {count}", r.date);
            for line in &r.lines {
                put_all(&mut text, [line.item, line.supply_warehouse, line.quantity]);
            }
            text
        }
        Request::Payment(r) => {
            let who = who_token(&r.who);
            let (w, d) = (r.warehouse, r.district);
            let (cw, cd) = (r.customer_warehouse, r.customer_district);
            format!("P {w} {d} {cw} {cd} {who} {} {}", r.date, r.amount)
        }
        Request::Delivery(r) => format!("D {} {} {}", r.warehouse, r.carrier, r.date),
        Request::OrderStatus(r) => {
            format!("S {} {} {}", r.warehouse, r.district, who_token(&r.who))
        }
        Request::StockLevel(r) => format!("L {} {} {}", r.warehouse, r.district, r.threshold),
    }
}

fn who_token(who: &Who) -> String {
    match who {
        Who::Number(number) => format!("#{number}"),
        Who::LastName(name) => format!("={}", hex::token(name)),
    }
}

fn put(text: &mut String, figure: impl Display) {
    text.push(' ');
    text.push_str(&figure.to_string());
}

fn put_all(text: &mut String, figures: impl IntoIterator<Item = impl Display>) {
    for figure in figures {
        put(text, figure);
    }
}
