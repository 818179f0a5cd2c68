//! Times New-Order's pass over the top-up table, on books of their own.

use crate::book::{self, Size};
use crate::contender::{Contender, InBook};
use crate::measure::{carried, micros, step, Step};
use crate::requests::{Asker, Call};
use crate::sums;
use proved::ProvedEngine;
use second::layout::{district, Layout};
use second::lists::random::Random;
use second::replay::{Engine, Lent, SecondEngine};
use second::Request;
use std::hint::black_box;
use std::mem::swap;

/// New-Order, and its pass over the table: proved, second engine, plain sum of the table.
pub struct Table {
    /// New-Order on a book of many items.
    pub order: Step,
    /// That less the same on a book of few.
    pub pass: Step,
}

const MANY: usize = 100_000;
const FEW: usize = 100;

/// Orders of a batch: two of each terminal.
const ORDERS: usize = 20;

/// A book of many items and one of few, which are else the same.
type Pair<E> = [InBook<E>; 2];

struct Field {
    proved: Pair<ProvedEngine>,
    second: Pair<SecondEngine>,
    /// Where the table is summed.
    summed: Pair<SecondEngine>,
    /// They name the few items alone, and every one is carried out: an order that is refused may go over the table twice.
    requests: Vec<Request>,
    random: Random,
}

pub fn table(rounds: usize) -> Table {
    let mut field = Field::with_room(rounds);
    let (order, pass) = (field.timed(rounds, false), field.timed(rounds, true));
    let pairs = field.proved.iter().zip(&field.second);
    let mut same = pairs.map(|(one, other)| one.lent == other.lent);
    assert!(same.all(|same| same), "the books differ");
    Table { order, pass }
}

impl Field {
    /// On books of one warehouse that have room for the orders of all rounds.
    fn with_room(rounds: usize) -> Field {
        let size = |items| Size {
            warehouses: 1,
            customers: 3_000,
            items,
            order_slots: 16 * rounds,
            history_slots: 1,
            orders: 0,
            histories: 0,
        };
        let (many, few) = (topped(&size(MANY)), topped(&size(FEW)));
        let requests = Asker::new(&size(FEW), &few, 2).batch(Call::NewOrder, ORDERS);
        Field {
            proved: pair(|| ProvedEngine, [&many, &few]),
            second: pair(|| SecondEngine, [&many, &few]),
            summed: pair(|| SecondEngine, [&many, &few]),
            requests,
            random: Random::new(3),
        }
    }

    /// The contenders in turn; after each round the engines' books, which are then the same, are dealt out anew.
    fn timed(&mut self, rounds: usize, less: bool) -> Step {
        const TIMED: usize = 3;
        let mut turns = 0;
        step(rounds, TIMED, |_, which| {
            let spent = match which {
                0 => ordered(&mut self.proved, &self.requests, less),
                1 => ordered(&mut self.second, &self.requests, less),
                _ => summed_beside(&mut self.summed, &self.requests),
            };
            turns += 1;
            if turns % TIMED == 0 && self.random.percent(50) {
                for (one, other) in self.proved.iter_mut().zip(&mut self.second) {
                    swap(&mut one.lent, &mut other.lent);
                }
            }
            spent
        })
    }
}

fn pair<E>(engine: impl Fn() -> E, lent: [&Lent; 2]) -> Pair<E> {
    lent.map(|lent| InBook {
        engine: engine(),
        lent: lent.clone(),
    })
}

/// A book whose items each have a margin and a lift of their own.
fn topped(size: &Size) -> Lent {
    let mut random = Random::new(4);
    let row = |_| {
        let lift = random.between(10, 9_999);
        [random.between(0, 10_000 - lift), lift]
    };
    Lent {
        topup: (0..size.items).flat_map(row).collect(),
        ..book::make(size)
    }
}

/// Microseconds of a New-Order on the book of many items or, where asked for, of that less one on the book of few.
fn ordered<E: Engine>(pair: &mut Pair<E>, requests: &[Request], less: bool) -> f64 {
    let [many, few] = pair.each_mut().map(|book| {
        let before = entered(&book.lent);
        let spent = carried(book, requests);
        let entered = entered(&book.lent) - before;
        assert_eq!(entered as usize, 2 * requests.len(), "an order was refused");
        spent
    });
    many - if less { few } else { 0.0 }
}

/// Microseconds of a plain sum in the place of the pass: one of the table of many items beside a New-Order on the book of few, less that order alone.
fn summed_beside([many, few]: &mut Pair<SecondEngine>, requests: &[Request]) -> f64 {
    let mut beside = || {
        requests.iter().fold(0, |all, request| {
            let one = few.batch(std::slice::from_ref(request));
            all ^ one ^ sums::topup(black_box(&many.lent)) as u64
        })
    };
    black_box(beside());
    let spent = micros(requests.len(), beside);
    spent - carried(few, requests)
}

/// How many orders the first warehouse has had.
fn entered(lent: &Lent) -> i64 {
    let layout = Layout::from_head(&lent.nums).expect("a sound head");
    let next = |d: usize| lent.nums[layout.district(1, d)][district::NEXT_ORDER];
    (1..=10).map(|d| next(d) - 1).sum()
}
