//! Times every call of the proved library and of the second engine on one book, call by call, in one run.
//!
//! The book: W 2, C 3,000, I 100,000, O 3,000, each district with 2,900 orders of ten lines, of which half wait.
//! Each figure is the best of several rounds; both engines carry out the same requests on a book of their own.

use proved::ProvedEngine;
use second::replay::{Engine, Lent, SecondEngine};
use second::{Delivery, Line, NewOrder, OrderStatus, Payment, Request, StockLevel, Who};
use std::time::Instant;

const W: usize = 2;
const C: usize = 3_000;
const I: usize = 100_000;
const O: usize = 3_000;
const H: usize = 100_000;
const ORDERS: usize = 2_900;
const ROUNDS: usize = 7;

fn main() {
    let fresh = book(0);
    let filled = book(ORDERS);
    println!("| Call | Proved, µs | Second engine, µs | Ratio |");
    println!("|---|---|---|---|");
    row("Opening", &fresh, 1, open);
    for (name, requests) in calls() {
        row(name, &filled, requests.len(), |engine, lent| carry(engine, lent, &requests));
    }
    row("Delivery queued and run", &filled, 20, |engine, lent| (0..20).for_each(|n| engine.later(lent, n)));
}

/// Times both engines, round by round in turn, and prints the best of each.
fn row(name: &str, book: &Lent, calls: usize, work: impl Fn(&mut dyn Carry, &mut Lent)) {
    let mut best = [f64::MAX; 2];
    for _ in 0..ROUNDS {
        best[0] = best[0].min(time(&mut ProvedEngine, book, calls, &work));
        best[1] = best[1].min(time(&mut SecondEngine, book, calls, &work));
    }
    println!("| {name} | {:.2} | {:.2} | {:.2} |", best[0], best[1], best[0] / best[1]);
}

/// Microseconds a call, on a copy of the book.
fn time(engine: &mut dyn Carry, book: &Lent, calls: usize, work: &impl Fn(&mut dyn Carry, &mut Lent)) -> f64 {
    let mut lent = book.clone();
    let start = Instant::now();
    work(engine, &mut lent);
    start.elapsed().as_secs_f64() * 1e6 / calls as f64
}

/// An engine that carries out one request; every one of the bench must be committed.
trait Carry {
    fn open(&mut self, lent: &Lent);
    fn carry(&mut self, lent: &mut Lent, request: &Request);
    /// Queues the Delivery with this number and runs it.
    fn later(&mut self, lent: &mut Lent, n: usize);
}

impl<E: Engine> Carry for E {
    fn open(&mut self, lent: &Lent) {
        assert!(matches!(Engine::open(self, lent), second::Outcome::Committed(())));
    }

    fn carry(&mut self, lent: &mut Lent, request: &Request) {
        let committed = match request {
            Request::NewOrder(r) => matches!(self.new_order(lent, r), second::Outcome::Committed(_)),
            Request::Payment(r) => matches!(self.payment(lent, r), second::Outcome::Committed(_)),
            Request::Delivery(r) => matches!(self.delivery(lent, r).outcome, second::Outcome::Committed(_)),
            Request::OrderStatus(r) => matches!(self.order_status(lent, r).outcome, second::Outcome::Committed(_)),
            Request::StockLevel(r) => matches!(self.stock_level(lent, r), second::Outcome::Committed(_)),
        };
        assert!(committed, "a request of the bench was refused");
    }

    fn later(&mut self, lent: &mut Lent, n: usize) {
        let request = delivered(n);
        let queued = self.queue_delivery(lent, &request);
        assert!(matches!(queued, second::Outcome::Committed(_)), "a Delivery was not queued");
        let answer = self.run_delivery(lent, request.date);
        assert!(matches!(answer.outcome, second::Outcome::Committed(_)), "a run was refused");
    }
}

fn open(engine: &mut dyn Carry, lent: &mut Lent) {
    engine.open(lent);
}

fn carry(engine: &mut dyn Carry, lent: &mut Lent, requests: &[Request]) {
    for request in requests {
        engine.carry(lent, request);
    }
}

/// The requests of each row of the table.
fn calls() -> Vec<(&'static str, Vec<Request>)> {
    vec![
        ("New-Order, ten lines", (0..900).map(new_order).collect()),
        ("Payment by number", (0..2_000).map(|n| payment(n, Who::Number(number(n, C)))).collect()),
        ("Payment by name", (0..200).map(|n| payment(n, Who::LastName(last_name(n % 1_000)))).collect()),
        ("Delivery", (0..20).map(delivery).collect()),
        ("Order-Status by number", (0..100).map(|n| status(n, Who::Number(number(n, C)))).collect()),
        ("Order-Status by name", (0..100).map(|n| status(n, Who::LastName(last_name(n % 1_000)))).collect()),
        ("Stock-Level", (0..20).map(stock_level).collect()),
    ]
}

/// A number from 1 to `top` that goes about with `n`.
fn number(n: usize, top: usize) -> u64 {
    (n * 7_919 % top + 1) as u64
}

fn new_order(n: usize) -> Request {
    let line = |j: usize| Line {
        item: number(n * 10 + j, I),
        supply_warehouse: number(n + j, W),
        quantity: number(n + j, 10),
    };
    Request::NewOrder(NewOrder {
        warehouse: number(n, W),
        district: (n / 2 % 10 + 1) as u64,
        customer: number(n, C),
        date: 1_000_000,
        lines: (0..10).map(line).collect(),
    })
}

fn payment(n: usize, who: Who) -> Request {
    Request::Payment(Payment {
        warehouse: number(n, W),
        district: number(n, 10),
        customer_warehouse: number(n, W),
        customer_district: number(n, 10),
        who,
        date: 1_000_000,
        amount: 100 + n as u64,
    })
}

fn delivery(n: usize) -> Request {
    Request::Delivery(delivered(n))
}

fn delivered(n: usize) -> Delivery {
    Delivery {
        warehouse: number(n, W),
        carrier: number(n, 10),
        date: 1_000_000,
    }
}

fn status(n: usize, who: Who) -> Request {
    Request::OrderStatus(OrderStatus {
        warehouse: number(n, W),
        district: number(n, 10),
        who,
    })
}

fn stock_level(n: usize) -> Request {
    Request::StockLevel(StockLevel {
        warehouse: number(n, W),
        district: number(n, 10),
        threshold: 10 + n as u64 % 11,
    })
}

/// Three customers of a district share each last name.
fn last_name(n: usize) -> Vec<u8> {
    format!("NAME{n}").into_bytes()
}

/// A book with that many orders in each district.
fn book(orders: usize) -> Lent {
    let mut nums = vec![W as i64, C as i64, I as i64, O as i64, H as i64, 0];
    nums.extend([1_000, 0].repeat(W));
    nums.extend([500, 0, orders as i64 + 1].repeat(10 * W));
    for c in 0..10 * W * C {
        nums.extend([0, (c % 5_000) as i64, 0, 0, 0, 0]);
    }
    nums.extend((0..I).map(|i| (i % 9_000 + 1) as i64));
    for i in 0..W * I {
        nums.extend([(i % 90 + 10) as i64, 0, 0, 0]);
    }
    for _ in 0..10 * W {
        for o in 0..O {
            order(&mut nums, o, orders);
        }
    }
    nums.resize(nums.len() + 7 * H, 0);
    Lent {
        nums,
        names: names(),
        last: last_orders(orders),
        notes: vec![b' '; 5_000 * W * C],
        buffer: vec![0; 400],
        topup: [10, 91].repeat(I),
        ..Lent::default()
    }
}

/// The last orders of every district's customers, as `order` enters them.
fn last_orders(orders: usize) -> Vec<i64> {
    let mut district = vec![0; C];
    for o in 0..orders {
        district[number(o, C) as usize - 1] = o as i64 + 1;
    }
    district.repeat(10 * W)
}

fn order(nums: &mut Vec<i64>, o: usize, orders: usize) {
    let start = nums.len();
    if o < orders {
        let waits = o >= orders / 2;
        nums.extend([number(o, C) as i64, 1_000, if waits { 0 } else { 3 }, 10, 1, i64::from(waits)]);
        for j in 0..10 {
            nums.extend([number(o * 10 + j, I) as i64, 1, 5, 500, if waits { 0 } else { 2_000 }]);
        }
    }
    nums.resize(start + 81, 0);
}

fn names() -> Vec<u8> {
    let mut names = Vec::new();
    for c in 0..10 * W * C {
        let mut name = last_name(c % C / 3);
        name.resize(16, b' ');
        let mut first = format!("FIRST{}", c * 31 % 97).into_bytes();
        first.resize(16, b' ');
        names.extend(name);
        names.extend(first);
    }
    names
}
