//! What the replay program asks of an engine, and the second engine as one of them.

use super::{hex, sha256};
use crate::answer::{
    DeliveryAnswer, NewOrderFigures, OrderStatusAnswer, Outcome, PaymentFigures, QueueFigures,
    StockLevelFigures,
};
use crate::queue::Queue;
use crate::request::{Delivery, NewOrder, OrderStatus, Payment, Request, StockLevel};

/// The slices lent to every call, as the call before left them.
#[derive(Debug, Clone, Default, PartialEq, Eq)]
pub struct Lent {
    pub nums: Vec<i64>,
    pub names: Vec<u8>,
    /// The last order of each customer.
    pub last: Vec<i64>,
    /// The text of each customer.
    pub notes: Vec<u8>,
    /// Where a run writes its line.
    pub buffer: Vec<u8>,
    /// The Deliveries that wait.
    pub queue: Queue,
    /// Margin and lift of each item; no call writes it.
    pub topup: Vec<i64>,
}

impl Lent {
    /// The first 12 hex digits of SHA-256 over the slices as text.
    pub fn fingerprint(&self) -> String {
        let digest = sha256::digest(&self.hashed_text());
        hex::write(&digest[..6])
    }

    /// A line for each slice that calls write, and the names: numbers with commas between, bytes in lower-case hex.
    fn hashed_text(&self) -> Vec<u8> {
        let numbers = self.nums.len() + self.last.len();
        let bytes = self.names.len() + self.notes.len() + self.buffer.len();
        let mut text = Vec::with_capacity(3 * numbers + 2 * bytes + 160);
        text.extend_from_slice(b"nums=");
        put_numbers(&mut text, &self.nums);
        text.extend_from_slice(b"\nnames=");
        hex::put(&mut text, &self.names);
        text.extend_from_slice(b"\nlast=");
        put_numbers(&mut text, &self.last);
        text.extend_from_slice(b"\nnotes=");
        hex::put(&mut text, &self.notes);
        text.extend_from_slice(b"\nbuffer=");
        hex::put(&mut text, &self.buffer);
        text.extend_from_slice(b"\nqueue=");
        text.extend_from_slice(queue_text(&self.queue).as_bytes());
        text.push(b'\n');
        text
    }
}

/// The count and the places' numbers, commas between.
fn queue_text(queue: &Queue) -> String {
    let mut text = queue.count.to_string();
    for place in &queue.waiting {
        let (date, warehouse, carrier) = (place.date, place.warehouse, place.carrier);
        text.push_str(&format!(",{date},{warehouse},{carrier}"));
    }
    text
}

fn put_numbers(text: &mut Vec<u8>, numbers: &[i64]) {
    for (place, &number) in numbers.iter().enumerate() {
        if place > 0 {
            text.push(b',');
        }
        put_number(text, number);
    }
}

/// Most numbers of a book have one digit; the others take the long way.
fn put_number(text: &mut Vec<u8>, number: i64) {
    match number {
        0..=9 => text.push(b'0' + number as u8),
        _ => text.extend_from_slice(number.to_string().as_bytes()),
    }
}

/// The calls that the replay program drives.
pub trait Engine {
    fn open(&mut self, lent: &Lent) -> Outcome<()>;
    fn new_order(&mut self, lent: &mut Lent, request: &NewOrder) -> Outcome<NewOrderFigures>;
    fn payment(&mut self, lent: &mut Lent, request: &Payment) -> Outcome<PaymentFigures>;
    fn delivery(&mut self, lent: &mut Lent, request: &Delivery) -> DeliveryAnswer;
    fn order_status<'a>(&mut self, lent: &'a Lent, request: &OrderStatus) -> OrderStatusAnswer<'a>;
    fn stock_level(&mut self, lent: &Lent, request: &StockLevel) -> Outcome<StockLevelFigures>;
    /// The request's date is that of the queuing.
    fn queue_delivery(&mut self, lent: &mut Lent, request: &Delivery) -> Outcome<QueueFigures>;
    fn run_delivery(&mut self, lent: &mut Lent, date: u64) -> DeliveryAnswer;
    fn read(&mut self, line: &[u8]) -> Outcome<Request>;
    fn write(&mut self, request: &Request, buffer: &mut [u8]) -> Outcome<u64>;
}

/// The engine of this package.
pub struct SecondEngine;

impl Engine for SecondEngine {
    fn open(&mut self, lent: &Lent) -> Outcome<()> {
        crate::open(&lent.nums, &lent.names, &lent.topup)
    }

    fn new_order(&mut self, lent: &mut Lent, request: &NewOrder) -> Outcome<NewOrderFigures> {
        let (last, topup) = (&mut lent.last, &lent.topup);
        crate::new_order(&mut lent.nums, &lent.names, last, topup, request)
    }

    fn payment(&mut self, lent: &mut Lent, request: &Payment) -> Outcome<PaymentFigures> {
        crate::payment(&mut lent.nums, &lent.names, &mut lent.notes, request)
    }

    fn delivery(&mut self, lent: &mut Lent, request: &Delivery) -> DeliveryAnswer {
        crate::delivery(&mut lent.nums, &lent.names, request)
    }

    fn order_status<'a>(&mut self, lent: &'a Lent, request: &OrderStatus) -> OrderStatusAnswer<'a> {
        crate::order_status(&lent.nums, &lent.names, &lent.last, request)
    }

    fn stock_level(&mut self, lent: &Lent, request: &StockLevel) -> Outcome<StockLevelFigures> {
        crate::stock_level(&lent.nums, &lent.names, request)
    }

    fn queue_delivery(&mut self, lent: &mut Lent, request: &Delivery) -> Outcome<QueueFigures> {
        crate::queue_delivery(&mut lent.queue, request)
    }

    fn run_delivery(&mut self, lent: &mut Lent, date: u64) -> DeliveryAnswer {
        let (queue, buffer) = (&mut lent.queue, &mut lent.buffer);
        crate::run_delivery(&mut lent.nums, &lent.names, queue, date, buffer)
    }

    fn read(&mut self, line: &[u8]) -> Outcome<Request> {
        crate::read_line(line)
    }

    fn write(&mut self, request: &Request, buffer: &mut [u8]) -> Outcome<u64> {
        crate::write_line(request, buffer)
    }
}
