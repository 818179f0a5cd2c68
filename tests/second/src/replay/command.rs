//! Reading the commands of a replay text: tokens parted by single spaces.

use super::hex;
use crate::queue::{Queue, Waiting, PLACES};
use crate::request::{Delivery, Line, NewOrder, OrderStatus, Payment, Request, StockLevel, Who};

/// The largest buffer that WRITE makes; a longer one is malformed.
const LARGEST_BUFFER: u64 = 1 << 24;

#[derive(Debug, Clone, PartialEq, Eq)]
pub enum Command {
    /// An empty line, or what is passed over because it has not landed.
    Nothing,
    Lend(Slice),
    Open,
    Call(Request),
    /// Queues a Delivery, on its date.
    QueueDelivery(Delivery),
    /// Runs the oldest Delivery that waits, on this date.
    RunDelivery(u64),
    Read(Vec<u8>),
    Write(usize, Request),
    Help,
    /// Unknown or malformed: its first word.
    Bad(String),
}

/// A slice to be lent from now on.
#[derive(Debug, Clone, PartialEq, Eq)]
pub enum Slice {
    Nums(Vec<i64>),
    Names(Vec<u8>),
    Last(Vec<i64>),
    Topup(Vec<i64>),
    Notes(Vec<u8>),
    Buffer(Vec<u8>),
    Queue(Queue),
}

/// Reads one command, its end of line cut off.
pub fn parse(line: &[u8]) -> Command {
    let text = String::from_utf8_lossy(line);
    let text = text.trim_end_matches(' ');
    if text.is_empty() {
        return Command::Nothing;
    }
    let tokens: Vec<&str> = text.split(' ').collect();
    parse_tokens(&tokens).unwrap_or_else(|| Command::Bad(tokens[0].to_string()))
}

fn parse_tokens(tokens: &[&str]) -> Option<Command> {
    let (&word, rest) = tokens.split_first()?;
    match (word, rest) {
        ("SLICE", ["nums", values @ ..]) => book_numbers(values).map(lend(Slice::Nums)),
        ("SLICE", ["last", values @ ..]) => book_numbers(values).map(lend(Slice::Last)),
        ("SLICE", ["topup", values @ ..]) => book_numbers(values).map(lend(Slice::Topup)),
        ("BYTES", ["names", token]) => hex::read(token).map(lend(Slice::Names)),
        ("BYTES", ["notes", token]) => hex::read(token).map(lend(Slice::Notes)),
        ("BYTES", ["buffer", token]) => hex::read(token).map(lend(Slice::Buffer)),
        ("BYTES", ["names" | "notes" | "buffer", ..]) => None,
        ("QUEUE", [count, places @ ..]) => parse_queue(count, places),
        ("SLICE" | "BYTES", [_, ..]) | ("LEVEL", _) => Some(Command::Nothing),
        ("HELP", []) => Some(Command::Help),
        ("OPEN", []) => Some(Command::Open),
        ("QD", request) => parse_delivery(request).map(Command::QueueDelivery),
        ("RD", [date]) => number(date).map(Command::RunDelivery),
        ("READ", [token]) => hex::read(token).map(Command::Read),
        ("WRITE", [cap, request @ ..]) => {
            let cap = number(cap).filter(|&cap| cap <= LARGEST_BUFFER)?;
            Some(Command::Write(cap as usize, parse_request(request)?))
        }
        _ => parse_request(tokens).map(Command::Call),
    }
}

/// The command that lends a slice of this name.
fn lend<T>(slice: fn(Vec<T>) -> Slice) -> impl Fn(Vec<T>) -> Command {
    move |values| Command::Lend(slice(values))
}

/// The count as it is stored, then up to 16 times date, warehouse and carrier; the other places are 0.
fn parse_queue(count: &str, places: &[&str]) -> Option<Command> {
    let mut queue = Queue {
        count: number(count)?,
        ..Queue::default()
    };
    let triples = places.chunks_exact(3);
    if !triples.remainder().is_empty() || triples.len() > PLACES {
        return None;
    }
    for (place, triple) in queue.waiting.iter_mut().zip(triples) {
        *place = Waiting {
            date: number(triple[0])?,
            warehouse: number(triple[1])?,
            carrier: number(triple[2])?,
        };
    }
    Some(Command::Lend(Slice::Queue(queue)))
}

/// A request in the tokens of its call.
fn parse_request(tokens: &[&str]) -> Option<Request> {
    let (&letter, rest) = tokens.split_first()?;
    match letter {
        "N" => parse_new_order(rest).map(Request::NewOrder),
        "P" => parse_payment(rest).map(Request::Payment),
        "D" => parse_delivery(rest).map(Request::Delivery),
        "S" => parse_order_status(rest).map(Request::OrderStatus),
        "L" => parse_stock_level(rest).map(Request::StockLevel),
        _ => None,
    }
}

/// After the head comes the count of lines, then as many times three numbers.
fn parse_new_order(tokens: &[&str]) -> Option<NewOrder> {
    let (head, rest) = tokens.split_at_checked(5)?;
    let count = number(head[4])?;
    if count.checked_mul(3)? != rest.len() as u64 {
        return None;
    }
    Some(NewOrder {
        warehouse: number(head[0])?,
        district: number(head[1])?,
        customer: number(head[2])?,
        date: number(head[3])?,
        lines: rest
            .chunks_exact(3)
            .map(parse_line)
            .collect::<Option<_>>()?,
    })
}

fn parse_line(tokens: &[&str]) -> Option<Line> {
    Some(Line {
        item: number(tokens[0])?,
        supply_warehouse: number(tokens[1])?,
        quantity: number(tokens[2])?,
    })
}

fn parse_payment(tokens: &[&str]) -> Option<Payment> {
    let [warehouse, district, customer_warehouse, customer_district, who, date, amount] = tokens
    else {
        return None;
    };
    Some(Payment {
        warehouse: number(warehouse)?,
        district: number(district)?,
        customer_warehouse: number(customer_warehouse)?,
        customer_district: number(customer_district)?,
        who: parse_who(who)?,
        date: number(date)?,
        amount: number(amount)?,
    })
}

fn parse_delivery(tokens: &[&str]) -> Option<Delivery> {
    let [warehouse, carrier, date] = tokens else {
        return None;
    };
    Some(Delivery {
        warehouse: number(warehouse)?,
        carrier: number(carrier)?,
        date: number(date)?,
    })
}

fn parse_order_status(tokens: &[&str]) -> Option<OrderStatus> {
    let [warehouse, district, who] = tokens else {
        return None;
    };
    Some(OrderStatus {
        warehouse: number(warehouse)?,
        district: number(district)?,
        who: parse_who(who)?,
    })
}

fn parse_stock_level(tokens: &[&str]) -> Option<StockLevel> {
    let [warehouse, district, threshold] = tokens else {
        return None;
    };
    Some(StockLevel {
        warehouse: number(warehouse)?,
        district: number(district)?,
        threshold: number(threshold)?,
    })
}

fn parse_who(token: &str) -> Option<Who> {
    if let Some(digits) = token.strip_prefix('#') {
        return number(digits).map(Who::Number);
    }
    hex::read(token.strip_prefix('=')?).map(Who::LastName)
}

/// A request number: digits alone, 64-bit.
fn number(token: &str) -> Option<u64> {
    all_digits(token).then(|| token.parse().ok())?
}

fn book_numbers(tokens: &[&str]) -> Option<Vec<i64>> {
    tokens.iter().map(|token| book_number(token)).collect()
}

/// A book number: digits, a minus before them where negative, 64-bit.
fn book_number(token: &str) -> Option<i64> {
    all_digits(token.strip_prefix('-').unwrap_or(token)).then(|| token.parse().ok())?
}

fn all_digits(token: &str) -> bool {
    !token.is_empty() && token.bytes().all(|byte| byte.is_ascii_digit())
}
