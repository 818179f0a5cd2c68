//! A request line carried out on a book, and the line that answers it. The library reads the line, judges it and carries it out; here its figures
//! are put into a line.
//!
//! Beside document 01's five forms two more are taken, since Deliveries can wait (R-5 of document 02): `Q warehouse carrier date` queues a Delivery,
//! and is read as a D line; `R date` runs the oldest, and its date is read as a D line's.

use crate::book::Book;
use crate::library::{self, Request};
use std::io::Write;

/// What a request left.
pub struct Carried {
    /// Whether anything that is lent was changed.
    pub changed: bool,
    /// The lifts of an order, which its answer does not print.
    pub lifts: Option<u64>,
}

const KEPT: Carried = Carried { changed: false, lifts: None };

/// Carries out one line, its byte 10 with it, and puts its answer, byte 10 with it, behind `answer`.
pub fn carry_out(book: &mut Book, line: &[u8], answer: &mut Vec<u8>) -> Carried {
    match line {
        [b'Q', rest @ ..] => match library::read(&[b"D", rest].concat()) {
            Some(request) => queue(book, &request, answer),
            None => no_form(answer),
        },
        [b'R', b'\t', date @ ..] => match library::read(&[b"D\t1\t1\t", date].concat()) {
            Some(request) => run(book, request.numbers[2], answer),
            None => no_form(answer),
        },
        _ => match library::read(line) {
            Some(request) => call(book, &request, answer),
            None => no_form(answer),
        },
    }
}

fn no_form(answer: &mut Vec<u8>) -> Carried {
    answer.extend_from_slice(b"?\t1\t0\n");
    KEPT
}

fn call(book: &mut Book, request: &Request, answer: &mut Vec<u8>) -> Carried {
    match request.letter {
        b'N' => {
            let out = book.new_order(request);
            let changed = put(answer, b'N', &out[..2], out[2..4].iter());
            Carried { changed, lifts: changed.then_some(out[4]) }
        }
        b'P' => {
            let (out, balance) = book.payment(request);
            Carried { changed: put(answer, b'P', &out[..2], [out[2] as i64, balance].iter()), lifts: None }
        }
        b'D' => {
            let (out, orders) = book.delivery(request);
            Carried { changed: put(answer, b'D', &out[..2], out[2..3].iter().chain(&orders)), lifts: None }
        }
        b'S' => {
            let (out, balance, lines) = book.order_status(request);
            let [_, _, customer, order, date, carrier, ..] = out.map(|n| n as i64);
            put(answer, b'S', &out[..2], [customer, balance, order, date, carrier].iter().chain(lines));
            KEPT
        }
        _ => {
            let out = book.stock_level(request);
            put(answer, b'L', &out[..2], out[2..].iter());
            KEPT
        }
    }
}

fn queue(book: &mut Book, request: &Request, answer: &mut Vec<u8>) -> Carried {
    let out = book.queue_delivery(request);
    Carried { changed: put(answer, b'Q', &out[..2], out[2..].iter()), lifts: None }
}

/// `R 0` and the run's line; where its Delivery was refused, refusal and detail and the run's line, since the request has left the list; by 16,
/// refusal and detail alone.
fn run(book: &mut Book, date: u64, answer: &mut Vec<u8>) -> Carried {
    let mut line = Vec::new();
    let out = book.run_delivery(date, &mut line);
    let _ = match out[0] {
        0 => write!(answer, "R\t0\t"),
        16 => writeln!(answer, "R\t16\t{}", out[1]),
        refusal => write!(answer, "R\t{refusal}\t{}\t", out[1]),
    };
    answer.extend_from_slice(&line);
    Carried { changed: out[0] != 16, lifts: None }
}

/// The letter, 0 and the figures where committed, else the letter, refusal and detail; whether it was committed.
fn put<'a, F: std::fmt::Display + 'a>(answer: &mut Vec<u8>, letter: u8, outcome: &[u64], figures: impl Iterator<Item = &'a F>) -> bool {
    answer.push(letter);
    let committed = outcome[0] == 0;
    // Writing to a vector does not fail.
    let _ = if committed { write!(answer, "\t0") } else { write!(answer, "\t{}\t{}", outcome[0], outcome[1]) };
    if committed {
        figures.for_each(|figure| drop(write!(answer, "\t{figure}")));
    }
    answer.push(b'\n');
    committed
}
