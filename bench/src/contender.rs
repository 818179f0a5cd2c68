//! Whoever carries out requests, and what it answers as a row of numbers.

use second::replay::{Engine, Lent};
use second::{Delivery, DeliveryAnswer, Outcome, Request};

/// Takes the numbers of answers in turn.
pub trait Sink {
    fn put(&mut self, number: i64);
}

/// A digest of all answers of a batch; equal ones show that the contenders answered alike.
/// Each number counts times an odd number of its place: one changed number changes the sum, and no product waits for the one before.
pub struct Digest {
    sum: u64,
    place: u64,
}

impl Digest {
    const STEP: u64 = 0x9e37_79b9_7f4a_7c16;

    fn new() -> Self {
        Digest { sum: 0, place: 1 }
    }
}

impl Sink for Digest {
    fn put(&mut self, number: i64) {
        self.sum = self
            .sum
            .wrapping_add((number as u64).wrapping_mul(self.place));
        self.place = self.place.wrapping_add(Self::STEP);
    }
}

impl Sink for Vec<i64> {
    fn put(&mut self, number: i64) {
        self.push(number);
    }
}

pub trait Contender {
    fn carry(&mut self, request: &Request, sink: &mut impl Sink);

    /// All requests in turn; the digest of the answers.
    fn batch(&mut self, requests: &[Request]) -> u64 {
        let mut digest = Digest::new();
        for request in requests {
            self.carry(request, &mut digest);
        }
        digest.sum
    }

    fn answer(&mut self, request: &Request) -> Vec<i64> {
        let mut numbers = Vec::new();
        self.carry(request, &mut numbers);
        numbers
    }
}

/// Number and detail of a refusal, or 0; the figures where there are some.
pub fn put_outcome<F>(sink: &mut impl Sink, outcome: Outcome<F>) -> Option<F> {
    match outcome {
        Outcome::Committed(figures) => {
            sink.put(0);
            Some(figures)
        }
        Outcome::Refused(refusal) => {
            sink.put(refusal.number as i64);
            sink.put(refusal.detail as i64);
            None
        }
    }
}

/// An engine on a book of its own.
pub struct InBook<E> {
    pub engine: E,
    pub lent: Lent,
}

/// Puts an outcome and, where committed, its figures.
fn put_figures<F, const N: usize>(
    sink: &mut impl Sink,
    outcome: Outcome<F>,
    figures: impl Fn(F) -> [i64; N],
) {
    let committed = put_outcome(sink, outcome);
    put_all(sink, committed.map(figures).iter().flatten());
}

fn put_delivery(sink: &mut impl Sink, answer: &DeliveryAnswer) {
    put_figures(sink, answer.outcome, |f| {
        [f.skip_count as i64, f.skip_mark as i64]
    });
    let orders = answer.orders.iter();
    orders.for_each(|&order| sink.put(order as i64));
}

impl<E: Engine> InBook<E> {
    /// Each Delivery in turn, at once; the digest of the answers.
    pub fn at_once(&mut self, requests: &[Delivery]) -> u64 {
        let mut digest = Digest::new();
        for request in requests {
            put_delivery(&mut digest, &self.engine.delivery(&mut self.lent, request));
        }
        digest.sum
    }

    /// Each Delivery in turn, queued and then run on the same date; the digest of what the runs answer.
    pub fn queued_and_run(&mut self, requests: &[Delivery]) -> u64 {
        let mut digest = Digest::new();
        for request in requests {
            let queued = self.engine.queue_delivery(&mut self.lent, request);
            assert!(matches!(queued, Outcome::Committed(_)), "no room to wait");
            let answer = self.engine.run_delivery(&mut self.lent, request.date);
            put_delivery(&mut digest, &answer);
        }
        digest.sum
    }
}

pub fn put_all<'a>(sink: &mut impl Sink, numbers: impl Iterator<Item = &'a i64>) {
    numbers.for_each(|&number| sink.put(number));
}

impl<E: Engine> Contender for InBook<E> {
    fn carry(&mut self, request: &Request, sink: &mut impl Sink) {
        match request {
            Request::NewOrder(r) => {
                let outcome = self.engine.new_order(&mut self.lent, r);
                put_figures(sink, outcome, |f| {
                    [f.order, f.total, f.lifts].map(|n| n as i64)
                });
            }
            Request::Payment(r) => {
                let outcome = self.engine.payment(&mut self.lent, r);
                put_figures(sink, outcome, |f| [f.customer as i64, f.balance]);
            }
            Request::Delivery(r) => {
                put_delivery(sink, &self.engine.delivery(&mut self.lent, r));
            }
            Request::OrderStatus(r) => {
                let answer = self.engine.order_status(&self.lent, r);
                put_figures(sink, answer.outcome, |f| {
                    let shown = [f.order, f.entry_date, f.carrier].map(|n| n as i64);
                    [f.customer as i64, f.balance, shown[0], shown[1], shown[2]]
                });
                put_all(sink, answer.lines.iter());
            }
            Request::StockLevel(r) => {
                let outcome = self.engine.stock_level(&self.lent, r);
                put_figures(sink, outcome, |f| [f.low_stock as i64]);
            }
        }
    }
}
