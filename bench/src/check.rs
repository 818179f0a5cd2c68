//! Before anything is timed: the three engines answer the same requests alike.

use crate::contender::{Contender, InBook};
use crate::sql::Sql;
use proved::ProvedEngine;
use second::lists::books;
use second::lists::random::Random;
use second::lists::requests::Asker;
use second::replay::{Lent, SecondEngine};
use second::Request;

const LISTS: usize = 400;
const REQUESTS: usize = 60;
/// Weights of New-Order, Payment, Delivery, Order-Status, Stock-Level.
const WEIGHTS: [usize; 5] = [40, 25, 8, 17, 10];

/// The three engines that carry out requests, each on a copy of the same book.
pub struct Engines {
    pub proved: InBook<ProvedEngine>,
    pub second: InBook<SecondEngine>,
    pub sql: Sql,
}

impl Engines {
    pub fn on(lent: &Lent, layout: &second::layout::Layout) -> Engines {
        Engines {
            proved: InBook {
                engine: ProvedEngine,
                lent: lent.clone(),
            },
            second: InBook {
                engine: SecondEngine,
                lent: lent.clone(),
            },
            sql: Sql::of(lent, layout),
        }
    }

    /// Carries out one request on all three; gives the refusal number, 0 where committed.
    pub fn agree(&mut self, request: &Request) -> i64 {
        let answer = self.second.answer(request);
        assert_eq!(
            self.proved.answer(request),
            answer,
            "the proved library on {request:?}"
        );
        assert_eq!(self.sql.answer(request), answer, "SQLite on {request:?}");
        answer[0]
    }
}

/// Random lists with faults, each from a small book just opened; gives how often each refusal was answered, committed calls at 0.
pub fn random_lists() -> [usize; 15] {
    let random = &mut Random::new(7);
    let mut answered = [0; 15];
    for list in 0..LISTS {
        let mut layout = if list % 3 == 0 {
            books::crowded(random)
        } else {
            books::dimensions(random)
        };
        if list % 3 == 1 {
            layout.history_slots = 5;
        }
        let mut book = books::fresh(random, layout);
        book.lent.notes = vec![b' '; layout.note_bytes()];
        let mut engines = Engines::on(&book.lent, &layout);
        let mut asker = Asker::new(&book, 50);
        for _ in 0..REQUESTS {
            let request = asker.request(random, &WEIGHTS);
            answered[engines.agree(&request) as usize] += 1;
        }
        assert!(
            engines.proved.lent == engines.second.lent,
            "the books differ after list {list}"
        );
    }
    answered
}
