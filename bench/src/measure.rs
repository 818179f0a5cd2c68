//! Times every call on one book: all contenders in turn, round by round.

use crate::book::{self, Size};
use crate::by_hand;
use crate::check::Engines;
use crate::contender::{Contender, InBook};
use crate::requests::{Asker, Call, Timed, CALLS};
use crate::sums;
use proved::ProvedEngine;
use second::layout::{Layout, HISTORY_COUNT};
use second::lists::random::Random;
use second::queue::PLACES;
use second::replay::{Engine, Lent, SecondEngine};
use second::{Delivery, OrderStatus, Request, Who};
use std::hint::black_box;
use std::mem::{swap, take};
use std::time::Instant;

/// Microseconds a call, the median of the rounds; and the proved library's time as a multiple of each other one's, the median of
/// the quotients round by round, so that a slow moment of the machine weighs on neither side.
pub struct Row {
    pub call: Call,
    pub name: &'static str,
    pub proved: f64,
    pub second: f64,
    pub sql: f64,
    pub sum: Option<f64>,
    pub to_second: f64,
    pub to_sql: f64,
    pub to_sum: Option<f64>,
}

/// A step of a call by itself: microseconds of the proved library's, then of each other one's, and its time as a multiple of each of those, by the
/// medians as above.
pub struct Step {
    pub times: Vec<f64>,
    pub to_others: Vec<f64>,
}

/// What was measured on one book.
pub struct Measured {
    pub rows: Vec<Row>,
    /// The pass over a district's last orders: proved, second engine, by hand, plain sum.
    pub pass: Step,
    /// The search for a last name: proved, second engine, plain sum.
    pub search: Step,
    /// A Delivery queued and run: proved, the proved library's plain Delivery, second engine.
    pub run: Step,
    /// The note of a payment with credit 1: proved, second engine.
    pub note: Step,
}

/// What waiting takes, whatever the book: proved, second engine.
pub struct Waiting {
    /// The queuing alone.
    pub queuing: Step,
    /// A Delivery queued and run less a plain one.
    pub added: Step,
}

const CONTENDERS: usize = 4;

/// Everything that is timed on one book.
struct Field {
    engines: Engines,
    /// The book that is summed, kept in step with the others.
    summed: InBook<SecondEngine>,
    layout: Layout,
}

impl Field {
    fn on(lent: Lent, layout: Layout) -> Field {
        let engines = Engines::on(&lent, &layout);
        Field {
            engines,
            summed: InBook {
                engine: SecondEngine,
                lent,
            },
            layout,
        }
    }

    /// Microseconds a call of one contender, and the digest of its answers.
    fn time(&mut self, contender: usize, requests: &[Request]) -> (f64, u64) {
        let start = Instant::now();
        let digest = match contender {
            0 => self.engines.proved.batch(requests),
            1 => self.engines.second.batch(requests),
            2 => self.engines.sql.batch(requests),
            _ => {
                let lent = black_box(&self.summed.lent);
                requests.iter().fold(0, |all, r| {
                    all ^ sums::used_rows(lent, &self.layout, r) as u64
                })
            }
        };
        let spent = start.elapsed().as_secs_f64() * 1e6 / requests.len() as f64;
        (spent, black_box(digest))
    }

    /// One round: the contenders in turn, another one first each time, and the other way round after each has been first.
    fn round(&mut self, round: usize, requests: &[Request], spent: &mut [Vec<f64>; CONTENDERS]) {
        let mut digests = [0; CONTENDERS];
        let back = round / CONTENDERS % 2 == 1;
        for turn in 0..CONTENDERS {
            let step = if back { CONTENDERS - turn } else { turn };
            let contender = (round + step) % CONTENDERS;
            let (micros, digest) = self.time(contender, requests);
            spent[contender].push(micros);
            digests[contender] = digest;
        }
        assert!(
            digests[0] == digests[1] && digests[1] == digests[2],
            "the engines answered differently"
        );
    }

    /// Microseconds a Delivery: queued and run by the proved library, plain by it on the third book, queued and run by the second engine; and the
    /// digest of its answers.
    fn time_deliveries(&mut self, which: usize, requests: &[Delivery]) -> (f64, u64) {
        let mut plain = InBook {
            engine: ProvedEngine,
            lent: take(&mut self.summed.lent),
        };
        let start = Instant::now();
        let digest = match which {
            0 => self.engines.proved.queued_and_run(requests),
            1 => plain.at_once(requests),
            _ => self.engines.second.queued_and_run(requests),
        };
        let spent = start.elapsed().as_secs_f64() * 1e6 / requests.len() as f64;
        self.summed.lent = plain.lent;
        (spent, black_box(digest))
    }

    /// Deals out the books, which are the same between rounds, so that no contender keeps the better memory or the warmest.
    fn deal(&mut self, random: &mut Random) {
        let Engines { proved, second, .. } = &mut self.engines;
        match random.below(3) {
            0 => swap(&mut proved.lent, &mut second.lent),
            1 => swap(&mut proved.lent, &mut self.summed.lent),
            _ => swap(&mut second.lent, &mut self.summed.lent),
        }
    }
}

/// One row for each call, the pass, the search, Deliveries queued and run and the note; each has its rounds divided by `fewer`.
pub fn book(size: &Size, fewer: usize) -> Measured {
    let mut field = Field::on(book::make(size), size.layout());
    let mut asker = Asker::new(size, &field.summed.lent, 2);
    for request in asker.batch(Call::Mix, 200) {
        field.engines.agree(&request);
        field.summed.answer(&request);
    }
    let rows = CALLS
        .iter()
        .map(|timed| row(&mut field, &mut asker, timed, fewer))
        .collect();
    let Engines { proved, second, .. } = &field.engines;
    assert!(
        proved.lent == second.lent && second.lent == field.summed.lent,
        "the books differ at the end"
    );
    let pass = pass(&mut field, &mut asker, 64 / fewer);
    let search = search(&mut field, &mut asker, 256 / fewer);
    let run = run(&mut field, &mut asker, 192 / fewer);
    let note = note(&mut field, &mut asker, 64 / fewer);
    Measured {
        rows,
        pass,
        search,
        run,
        note,
    }
}

/// A step's contenders in turn, another one first each time, the proved library being number 0.
pub fn step(rounds: usize, contenders: usize, mut time: impl FnMut(usize, usize) -> f64) -> Step {
    let mut spent = vec![Vec::new(); contenders];
    for round in 0..rounds {
        for turn in 0..contenders {
            let which = (round + turn) % contenders;
            spent[which].push(time(round, which));
        }
    }
    let middle = |all: &Vec<f64>| median(all.iter().copied());
    let quotient = |by: &Vec<f64>| median(spent[0].iter().zip(by).map(|(p, o)| p / o));
    Step {
        times: spent.iter().map(middle).collect(),
        to_others: spent[1..].iter().map(quotient).collect(),
    }
}

/// The pass over a district's last orders, on the requests of New-Order.
fn pass(field: &mut Field, asker: &mut Asker, rounds: usize) -> Step {
    let batches: Vec<_> = (0..rounds)
        .map(|_| of_one_line(asker.batch(Call::NewOrder, 100)))
        .collect();
    let Engines { proved, second, .. } = &mut field.engines;
    let (lent, layout) = (&field.summed.lent, &field.layout);
    step(rounds, 4, |round, which| {
        let requests = &batches[round];
        match which {
            0 => own_pass(proved, requests),
            1 => own_pass(second, requests),
            2 => looked_at(requests, |r| {
                assert!(by_hand::passes(black_box(lent), layout, r));
                0
            }),
            _ => looked_at(requests, |r| {
                let Request::NewOrder(r) = r else {
                    panic!("an order is asked for");
                };
                sums::last_orders(black_box(lent), layout, (r.warehouse, r.district))
            }),
        }
    })
}

/// The search for a last name, on the requests of Order-Status by name.
fn search(field: &mut Field, asker: &mut Asker, rounds: usize) -> Step {
    let batches: Vec<_> = (0..rounds)
        .map(|_| renamed(asker.batch(Call::StatusByName, 45), nobodys))
        .collect();
    let Engines { proved, second, .. } = &mut field.engines;
    let (lent, layout) = (&field.summed.lent, &field.layout);
    step(rounds, 3, |round, which| {
        let requests = &batches[round];
        match which {
            0 => own_search(proved, requests),
            1 => own_search(second, requests),
            _ => looked_at(requests, |r| sums::last_names(black_box(lent), layout, r)),
        }
    })
}

/// Deliveries queued and run, and plain ones, on books that are the same between rounds and dealt out anew after each.
fn run(field: &mut Field, asker: &mut Asker, rounds: usize) -> Step {
    const TIMED: usize = 3;
    let batches: Vec<_> = (0..rounds).map(|_| deliveries(asker, 2)).collect();
    let mut random = Random::new(3);
    let mut digests = Vec::new();
    step(rounds, TIMED, |round, which| {
        let requests = &batches[round];
        let (spent, digest) = field.time_deliveries(which, requests);
        digests.push(digest);
        if digests.len() == TIMED {
            assert!(
                digests.iter().all(|&other| other == digest),
                "other answers"
            );
            digests.clear();
            field.deal(&mut random);
        }
        spent
    })
}

/// Requests for Deliveries.
fn deliveries(asker: &mut Asker, count: usize) -> Vec<Delivery> {
    let requests = asker.batch(Call::Delivery, count).into_iter();
    let delivery = |request| match request {
        Request::Delivery(r) => r,
        other => panic!("{other:?} is no Delivery"),
    };
    requests.map(delivery).collect()
}

/// What waiting takes, on the smallest book: it has no orders, so that every Delivery leaves it as it was.
pub fn waiting(rounds: usize) -> Waiting {
    let size = Size {
        warehouses: 1,
        customers: 1,
        items: 1,
        order_slots: 1,
        history_slots: 1,
        orders: 0,
        histories: 0,
    };
    let lent = book::make(&size);
    let batch = deliveries(&mut Asker::new(&size, &lent, 2), PLACES);
    let Engines {
        mut proved,
        mut second,
        ..
    } = Engines::on(&lent, &size.layout());
    Waiting {
        queuing: step(rounds, 2, |_, which| match which {
            0 => own_queuing(&mut proved, &batch),
            _ => own_queuing(&mut second, &batch),
        }),
        added: step(rounds, 2, |_, which| match which {
            0 => own_waiting(&mut proved, &batch),
            _ => own_waiting(&mut second, &batch),
        }),
    }
}

/// The note of a payment with credit 1, on as many payments of either credit.
fn note(field: &mut Field, asker: &mut Asker, rounds: usize) -> Step {
    let credits = [Call::PaymentGoodCredit, Call::PaymentBadCredit];
    let batches: Vec<_> = (0..rounds)
        .map(|_| credits.map(|call| asker.batch(call, 40)))
        .collect();
    let Engines { proved, second, .. } = &mut field.engines;
    step(rounds, 2, |round, which| match which {
        0 => own_note(proved, &batches[round]),
        _ => own_note(second, &batches[round]),
    })
}

/// The requests by name with other names.
fn renamed(requests: Vec<Request>, other: impl Fn(&mut Vec<u8>)) -> Vec<Request> {
    let mut renamed = requests;
    for request in &mut renamed {
        if let Request::OrderStatus(OrderStatus {
            who: Who::LastName(name),
            ..
        }) = request
        {
            other(name);
        }
    }
    renamed
}

/// Another last letter, with which none of TPC-C's names ends: a district has all of those.
fn nobodys(name: &mut Vec<u8>) {
    name.pop();
    name.push(b'Q');
}

/// The orders with their first line alone.
fn of_one_line(requests: Vec<Request>) -> Vec<Request> {
    let mut short = requests;
    for request in &mut short {
        if let Request::NewOrder(r) = request {
            r.lines.truncate(1);
        }
    }
    short
}

/// Microseconds of a look at the last orders of each request's district, after a turn that is not timed.
fn looked_at(requests: &[Request], look: impl Fn(&Request) -> i64) -> f64 {
    let batch = || requests.iter().fold(0, |all, request| all ^ look(request));
    black_box(batch());
    micros(requests.len(), batch)
}

/// Microseconds of the pass inside an engine's New-Order: what the requests take where the top-up table is a number short, refused by 17 behind
/// it, less what the same take where the last orders are too, refused by 13 before it.
fn own_pass<E: Engine>(book: &mut InBook<E>, requests: &[Request]) -> f64 {
    let cut_table = book.lent.topup.pop();
    let behind = carried(book, requests);
    let cut = book.lent.last.pop();
    let before = carried(book, requests);
    book.lent.last.extend(cut);
    book.lent.topup.extend(cut_table);
    behind - before
}

/// Microseconds of the search inside an engine's Order-Status: what the requests take, refused by 10 behind it, less what the same take without a
/// name, refused by 10 with nothing to look for. Rows and names are judged before, in both.
fn own_search<E: Engine>(book: &mut InBook<E>, requests: &[Request]) -> f64 {
    let nameless = renamed(requests.to_vec(), Vec::clear);
    let mut refused = requests.iter().chain(&nameless);
    assert!(refused.all(|request| book.answer(request) == [10, 0]));
    carried(book, requests) - carried(book, &nameless)
}

/// Microseconds of the note inside an engine's Payment: what payments with credit 1 take, less what those with credit 0 take. The turn before, which
/// is not timed, has brought rows and texts near.
fn own_note<E: Engine>(book: &mut InBook<E>, [good, bad]: &[Vec<Request>; 2]) -> f64 {
    let before = book.lent.nums[HISTORY_COUNT];
    let spent = carried(book, bad) - carried(book, good);
    let committed = book.lent.nums[HISTORY_COUNT] - before;
    assert_eq!(committed as usize, 2 * (good.len() + bad.len()));
    spent
}

/// How often a batch is carried out where a call takes no more than some nanoseconds.
const TURNS: usize = 64;

/// Microseconds of queuing as many Deliveries as may wait, over and over, after a turn that is not timed.
fn own_queuing<E: Engine>(book: &mut InBook<E>, requests: &[Delivery]) -> f64 {
    turned(requests, || {
        book.lent.queue.count = 0;
        for request in requests {
            black_box(book.engine.queue_delivery(&mut book.lent, request));
        }
        assert_eq!(book.lent.queue.count as usize, requests.len());
        book.lent.queue.count = 0;
    })
}

/// Microseconds that queuing and running take beside the Delivery itself.
fn own_waiting<E: Engine>(book: &mut InBook<E>, requests: &[Delivery]) -> f64 {
    let later = turned(requests, || {
        black_box(book.queued_and_run(requests));
    });
    let at_once = turned(requests, || {
        black_box(book.at_once(requests));
    });
    later - at_once
}

/// Microseconds for each request where all are carried out over and over, after as many turns that are not timed.
fn turned(requests: &[Delivery], mut turn: impl FnMut()) -> f64 {
    (0..TURNS).for_each(|_| turn());
    micros(TURNS * requests.len(), || (0..TURNS).for_each(|_| turn()))
}

/// Microseconds a request of an engine, after a turn that is not timed.
pub fn carried<E: Engine>(book: &mut InBook<E>, requests: &[Request]) -> f64 {
    black_box(book.batch(requests));
    micros(requests.len(), || book.batch(requests))
}

/// Microseconds for each of `count` in a run.
pub fn micros<T>(count: usize, run: impl FnOnce() -> T) -> f64 {
    let start = Instant::now();
    black_box(run());
    start.elapsed().as_secs_f64() * 1e6 / count as f64
}

fn row(field: &mut Field, asker: &mut Asker, timed: &Timed, fewer: usize) -> Row {
    let mut random = Random::new(3);
    let mut spent: [Vec<f64>; CONTENDERS] = Default::default();
    for round in 0..timed.rounds / fewer {
        let requests = asker.batch(timed.call, timed.batch);
        field.round(round, &requests, &mut spent);
        if timed.call.writes() {
            field.summed.batch(&requests);
        }
        field.deal(&mut random);
    }
    let scans = sums::scans(timed.call);
    let times = |other: usize| median(spent[0].iter().zip(&spent[other]).map(|(p, o)| p / o));
    let middle = |contender: usize| median(spent[contender].iter().copied());
    Row {
        call: timed.call,
        name: timed.name,
        proved: middle(0),
        second: middle(1),
        sql: middle(2),
        sum: scans.then(|| middle(3)),
        to_second: times(1),
        to_sql: times(2),
        to_sum: scans.then(|| times(3)),
    }
}

/// The middle one.
pub fn median(numbers: impl Iterator<Item = f64>) -> f64 {
    let mut sorted: Vec<f64> = numbers.collect();
    sorted.sort_by(f64::total_cmp);
    sorted[sorted.len() / 2]
}

/// Carries out one call's rounds on the proved library alone, ten times over.
pub fn alone(name: &str, size: &Size) {
    let timed = CALLS.iter().find(|timed| timed.name == name);
    let timed = timed.expect("the name of a row");
    let fresh = book::make(size);
    for _ in 0..10 {
        let mut asker = Asker::new(size, &fresh, 2);
        let mut proved = InBook {
            engine: ProvedEngine,
            lent: fresh.clone(),
        };
        for _ in 0..timed.rounds {
            black_box(proved.batch(&asker.batch(timed.call, timed.batch)));
        }
    }
}
