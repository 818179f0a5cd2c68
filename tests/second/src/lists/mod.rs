//! Random lists for comparing engines: replay texts, the same for the same seed.

pub mod book_lines;
pub mod books;
pub mod last;
pub mod lifted;
pub mod names;
pub mod notes;
pub mod paid;
pub mod queues;
pub mod random;
pub mod requests;
pub mod stats;
pub mod texts;
pub mod topups;
pub mod totals;
pub mod turns;

use crate::queue::{Queue, Waiting, PLACES};
use crate::replay::{hex, print, Lent};
use crate::request::{Delivery, Request};
use random::Random;
use requests::Asker;

/// Weights of New-Order, Payment, Delivery, Order-Status, Stock-Level.
const MIXED: [usize; 5] = [35, 25, 12, 16, 12];
const ORDERS: [usize; 5] = [70, 5, 10, 8, 7];
const BY_NAME: [usize; 5] = [10, 45, 5, 40, 0];
const READERS_OF_ORDERS: [usize; 5] = [10, 5, 30, 30, 25];
const WINDOWS: [usize; 5] = [25, 0, 5, 10, 60];
const EACH: [usize; 5] = [20, 20, 20, 20, 20];
const LAST_ORDERS: [usize; 5] = [40, 4, 4, 48, 4];
const HISTORY: [usize; 5] = [50, 5, 10, 30, 5];
const PAYMENTS: [usize; 5] = [4, 84, 4, 4, 4];
const NO_ORDERS: [usize; 5] = [0, 25, 25, 25, 25];

/// In so many lists at the start of a run no command sets what is lent beside the book: last orders, notes and top-up table are made anew with each,
/// buffer and queue are as they start or were left.
const UNSET: u64 = 60;

/// The list with this number of the run with this seed.
pub fn list(seed: u64, number: u64) -> String {
    let mixed = Random::new(seed).number() ^ number.wrapping_mul(0xd134_2543_de82_ef95);
    let text = any_list(&mut Random::new(mixed));
    if number >= UNSET {
        return text;
    }
    let beside = [
        "SLICE last",
        "SLICE topup",
        "BYTES notes",
        "BYTES buffer",
        "QUEUE",
    ];
    let sets_beside = |line: &&str| beside.iter().any(|command| line.starts_with(command));
    let lines = text.split_inclusive('\n');
    lines.filter(|line| !sets_beside(line)).collect()
}

fn any_list(random: &mut Random) -> String {
    let weights = [
        22, 6, 18, 7, 6, 7, 7, 3, 3, 18, 9, 4, 12, 21, 12, 8, 12, 6, 14, 18, 20,
    ];
    match random.weighted(&weights) {
        0 => opened(random),
        1 => filled(random),
        2 => never_opened(random),
        3 => nearly_fresh(random),
        4 => damaged_head(random),
        5 => many_equal_names(random),
        6 => request_lines(random),
        7 => windows(random),
        8 => chaotic(random),
        9 => last_orders(random),
        10 => neighbours(random),
        11 => long_history(random),
        12 => half_cents(random),
        13 => close_names(random),
        14 => bad_credit(random),
        15 => wrong_notes(random),
        16 => deliveries_later(random),
        17 => refilled(random),
        18 => odd_queues(random),
        19 => topped_up(random),
        _ => wrong_topup(random),
    }
}

/// An opened book and a list of calls.
fn opened(random: &mut Random) -> String {
    let layout = books::dimensions(random);
    let book = books::fresh(random, layout);
    let mut text = lend(&book.lent);
    text.push_str("OPEN\n");
    let count = 6 + random.below(20);
    ask(random, &mut text, &mut Asker::new(&book, 35), &MIXED, count);
    text
}

/// An opened book whose favoured district or history fills up.
fn filled(random: &mut Random) -> String {
    let mut layout = books::dimensions(random);
    if random.percent(70) {
        layout.order_slots = 1 + random.below(4);
    }
    layout.history_slots = 1 + random.below(3);
    let book = books::fresh(random, layout);
    let mut text = lend(&book.lent);
    text.push_str("OPEN\n");
    let count = 2 * layout.order_slots.min(40) + 6;
    ask(
        random,
        &mut text,
        &mut Asker::new(&book, 20),
        &ORDERS,
        count,
    );
    ask(random, &mut text, &mut Asker::new(&book, 20), &MIXED, 6);
    text
}

/// A book in use that was never opened, with a few numbers at or past the ends of ranges.
fn never_opened(random: &mut Random) -> String {
    let layout = books::dimensions(random);
    let mut book = books::in_use(random, layout);
    let times = *random.pick(&[0, 0, 1, 1, 2, 3, 5, 8]);
    let weights = if random.percent(35) {
        books::damage_orders(random, &mut book, 1);
        READERS_OF_ORDERS
    } else {
        books::damage(random, &mut book, times);
        MIXED
    };
    let mut text = lend(&book.lent);
    if random.percent(20) {
        text.push_str("OPEN\n");
    }
    let count = 5 + random.below(12);
    ask(
        random,
        &mut text,
        &mut Asker::new(&book, 40),
        &weights,
        count,
    );
    text
}

/// A fresh book with one number or name byte changed, to be opened and used all the same.
fn nearly_fresh(random: &mut Random) -> String {
    let layout = books::dimensions(random);
    let mut book = books::fresh(random, layout);
    match random.below(6) {
        0 => book.lent.nums[5] = random.between(0, layout.history_slots as i64),
        _ => books::damage(random, &mut book, 1),
    }
    let mut text = lend(&book.lent);
    text.push_str("OPEN\n");
    let count = random.below(6);
    ask(random, &mut text, &mut Asker::new(&book, 50), &MIXED, count);
    text
}

/// A damaged head, or a length that does not fit it: every call refuses by 2.
fn damaged_head(random: &mut Random) -> String {
    let layout = books::dimensions(random);
    let mut book = match random.below(2) {
        0 => books::fresh(random, layout),
        _ => books::in_use(random, layout),
    };
    match random.percent(25).then(|| books::misfit(random)).flatten() {
        Some(lent) => book.lent = lent,
        None => books::damage_head(random, &mut book),
    }
    let mut text = lend(&book.lent);
    text.push_str("OPEN\n");
    ask(random, &mut text, &mut Asker::new(&book, 30), &EACH, 6);
    text
}

/// Requests by name where many customers have the same names.
fn many_equal_names(random: &mut Random) -> String {
    let layout = books::crowded(random);
    let mut book = match random.below(2) {
        0 => books::fresh(random, layout),
        _ => books::in_use(random, layout),
    };
    if random.percent(15) {
        books::damage(random, &mut book, 2);
    }
    let mut text = lend(&book.lent);
    ask(random, &mut text, &mut Asker::new(&book, 90), &BY_NAME, 14);
    text
}

/// Stock-Level where the window has just filled, and as it moves.
fn windows(random: &mut Random) -> String {
    let book = books::windowed(random);
    let mut text = lend(&book.lent);
    ask(random, &mut text, &mut Asker::new(&book, 20), &WINDOWS, 10);
    text
}

/// Last orders that are wrong, orders that they name damaged; later perhaps the slice as it was at first. There are no notes, which these calls do not
/// look at.
fn last_orders(random: &mut Random) -> String {
    let mut layout = books::dimensions(random);
    if random.percent(60) {
        layout.customers = 2 + random.below(5);
        layout.order_slots = 2 + random.below(8);
    }
    let new = random.percent(30);
    let mut book = match new {
        true => books::fresh(random, layout),
        false => books::in_use(random, layout),
    };
    for _ in 0..*random.pick(&[0, 1, 1, 1, 2, 3]) {
        last::damage(random, &mut book);
    }
    if random.percent(35) {
        last::damage_order(random, &mut book);
    }
    book.lent.notes.clear();
    let mut text = lend(&book.lent);
    if new {
        text.push_str("OPEN\n");
    }
    let count = 6 + random.below(10);
    let asker = &mut Asker::new(&book, 30);
    ask(random, &mut text, asker, &LAST_ORDERS, count);
    if random.percent(30) {
        text.push_str(&lend_last(&book.lent));
        ask(random, &mut text, asker, &LAST_ORDERS, 5);
    }
    text
}

/// Last orders refused by 13, and beside it a fault that comes just before or just behind; no notes.
fn neighbours(random: &mut Random) -> String {
    let layout = books::dimensions(random);
    let mut book = match random.below(3) {
        0 => books::fresh(random, layout),
        _ => books::in_use(random, layout),
    };
    last::damage_for_sure(random, &mut book);
    books::damage_beside(random, &mut book);
    book.lent.notes.clear();
    let mut text = lend(&book.lent);
    let asker = &mut Asker::new(&book, 45);
    ask(random, &mut text, asker, &LAST_ORDERS, 10);
    text
}

/// An opened book with room for many orders, and their statuses in between; no notes.
fn long_history(random: &mut Random) -> String {
    let mut layout = books::dimensions(random);
    (layout.warehouses, layout.customers) = (1 + random.below(2), 1 + random.below(5));
    layout.items = layout.items.min(20);
    layout.order_slots = 15 + random.below(30);
    let mut book = books::fresh(random, layout);
    book.lent.notes.clear();
    let mut text = lend(&book.lent);
    text.push_str("OPEN\n");
    let asker = &mut Asker::new(&book, 30);
    ask(random, &mut text, asker, &HISTORY, 80);
    text
}

/// Orders whose exact totals are half a cent over, or one part of a cent less or more, among other calls.
fn half_cents(random: &mut Random) -> String {
    let mut layout = books::dimensions(random);
    layout.order_slots = layout.order_slots.max(8);
    let new = random.percent(60);
    let mut book = match new {
        true => books::fresh(random, layout),
        false => books::in_use(random, layout),
    };
    let orders = totals::halves(random, &mut book);
    let mut text = lend(&book.lent);
    if new {
        text.push_str("OPEN\n");
    }
    let asker = &mut Asker::new(&book, 30);
    for order in orders.into_iter().cycle().take(6) {
        push(&mut text, &Request::NewOrder(order));
        let count = random.below(2);
        ask(random, &mut text, asker, &MIXED, count);
    }
    text
}

/// Searches by name where names are equal in one word of eight bytes, or in all bytes but one, among other calls.
fn close_names(random: &mut Random) -> String {
    let mut layout = books::crowded(random);
    let most = *random.pick(&[6, 12, 38, 38]);
    layout.customers = 3 + random.below(most);
    layout.history_slots = layout.history_slots.max(20);
    let new = random.percent(60);
    let mut book = match new {
        true => books::fresh(random, layout),
        false => books::in_use(random, layout),
    };
    names::set(random, &mut book);
    names::set_rows(random, &mut book);
    let mut text = lend(&book.lent);
    if new {
        text.push_str("OPEN\n");
    }
    let asker = &mut Asker::new(&book, 30);
    for _ in 0..12 {
        push(&mut text, &names::search(random, &book));
        let count = usize::from(random.percent(25));
        ask(random, &mut text, asker, &MIXED, count);
    }
    text
}

/// Payments to customers with bad credit, most to one whose text fills up; later perhaps notes of another length, or as they were at first.
fn bad_credit(random: &mut Random) -> String {
    let layout = notes::dimensions(random);
    let new = random.percent(50);
    let mut book = match new {
        true => books::fresh(random, layout),
        false => books::in_use(random, layout),
    };
    notes::set_credit(random, &mut book);
    notes::set_texts(random, &mut book);
    let mut text = lend(&book.lent);
    if new {
        text.push_str("OPEN\n");
    }
    for _ in 0..*random.pick(&[6, 10, 14, 42]) {
        pay(random, &mut text, &book, 10);
        let count = usize::from(random.percent(15));
        ask(random, &mut text, &mut Asker::new(&book, 30), &MIXED, count);
    }
    if random.percent(25) {
        if random.percent(50) {
            notes::damage_length(random, &mut book);
        }
        text.push_str(&lend_notes(&book.lent));
        let asker = &mut Asker::new(&book, 30);
        ask(random, &mut text, asker, &PAYMENTS, 4);
    }
    text
}

/// Notes of a wrong length, and in most lists a fault that Payment meets before or behind it.
fn wrong_notes(random: &mut Random) -> String {
    let layout = notes::dimensions(random);
    let mut book = match random.below(2) {
        0 => books::fresh(random, layout),
        _ => books::in_use(random, layout),
    };
    notes::damage_length(random, &mut book);
    match random.below(4) {
        0 => books::damage_head(random, &mut book),
        1 | 2 => notes::damage_behind(random, &mut book),
        _ => {}
    }
    let mut text = lend(&book.lent);
    for _ in 0..6 {
        pay(random, &mut text, &book, 60);
        ask(random, &mut text, &mut Asker::new(&book, 45), &PAYMENTS, 1);
    }
    text
}

/// A payment by the favoured customer, in so many of a hundred cases with one fault.
fn pay(random: &mut Random, text: &mut String, book: &books::Book, faulty: usize) {
    let mut request = notes::payment(random, book);
    if random.percent(faulty) {
        notes::damage_request(random, book, &mut request);
    }
    push(text, &Request::Payment(request));
}

/// Deliveries queued and run among other calls; now and then another buffer or another waiting list.
fn deliveries_later(random: &mut Random) -> String {
    let layout = queues::dimensions(random);
    let new = random.percent(50);
    let mut book = match new {
        true => books::fresh(random, layout),
        false => books::in_use(random, layout),
    };
    if random.percent(70) {
        book.lent.notes.clear();
    }
    book.lent.buffer = queues::buffer(random);
    book.lent.queue = queues::sound(random, &book);
    let mut text = lend(&book.lent);
    if new {
        text.push_str("OPEN\n");
    }
    let asker = &mut Asker::new(&book, 20);
    for _ in 0..10 + random.below(30) {
        match random.weighted(&[30, 30, 30, 3, 1]) {
            0 => queue(random, &mut text, &book),
            1 => run(random, &mut text, 10),
            2 => ask(random, &mut text, asker, &ORDERS, 1),
            3 => text.push_str(&lend_buffer(&queues::buffer(random))),
            _ => text.push_str(&lend_queue(&queues::sound(random, &book))),
        }
    }
    text
}

/// A waiting list that fills up and empties again and again: far more than 16 go through it, each known by its date.
fn refilled(random: &mut Random) -> String {
    let layout = queues::dimensions(random);
    let mut book = match random.percent(60) {
        true => books::fresh(random, layout),
        false => books::in_use(random, layout),
    };
    book.lent.notes.clear();
    book.lent.buffer = queues::buffer(random);
    let mut text = lend(&book.lent);
    let mut date = 1 + random.below(1_000) as u64;
    for _ in 0..3 + random.below(4) {
        for _ in 0..*random.pick(&[1, 3, 15, 16, 17]) {
            let mut request = queues::request(random, &book);
            date += 1;
            request.date = date;
            push_queued(&mut text, &request);
        }
        for _ in 0..*random.pick(&[1, 2, 8, 15, 17]) {
            run(random, &mut text, 3);
        }
        ask(random, &mut text, &mut Asker::new(&book, 20), &ORDERS, 3);
    }
    text
}

/// Waiting lists of any count and numbers and buffers of any length, on a sound or a damaged book; a few calls that queue and run on each.
fn odd_queues(random: &mut Random) -> String {
    let layout = queues::dimensions(random);
    let mut book = match random.below(3) {
        0 => books::fresh(random, layout),
        _ => books::in_use(random, layout),
    };
    match random.below(8) {
        0 => books::damage_head(random, &mut book),
        1 | 2 => queues::damage_used(random, &mut book),
        3 => books::damage(random, &mut book, 2),
        _ => {}
    }
    book.lent.notes.clear();
    let mut text = lend(&book.lent);
    for _ in 0..10 {
        text.push_str(&lend_queue(&queues::odd(random, &book)));
        text.push_str(&lend_buffer(&queues::odd_buffer(random)));
        for _ in 0..*random.pick(&[1, 2, 2, 3, PLACES + 1]) {
            match random.percent(35) {
                true => queue(random, &mut text, &book),
                false => run(random, &mut text, 25),
            }
        }
    }
    text
}

/// Orders that bring stock to its margins, under tables of every kind that 17 lets through; now and then another table, or for some orders a wrong
/// one.
fn topped_up(random: &mut Random) -> String {
    let layout = topups::dimensions(random);
    let new = random.percent(60);
    let mut book = match new {
        true => books::fresh(random, layout),
        false => books::in_use(random, layout),
    };
    if random.percent(70) {
        book.lent.notes.clear();
    }
    topups::set_stock(random, &mut book);
    let mut text = lend(&book.lent);
    if new {
        text.push_str("OPEN\n");
    }
    let changing = random.percent(50);
    for _ in 0..8 + random.below(16) {
        match random.weighted(&[80, 12, 8]) {
            1 => ask(random, &mut text, &mut Asker::new(&book, 20), &NO_ORDERS, 1),
            2 if changing => other_table(random, &mut text, &mut book),
            _ => push_order(random, &mut text, &mut book, 4),
        }
    }
    text
}

/// Another table, or another row, from now on; or a wrong table for an order or two, then the old one again.
fn other_table(random: &mut Random, text: &mut String, book: &mut books::Book) {
    match random.below(3) {
        0 => book.lent.topup = topups::sound(random, &book.layout),
        1 => topups::change(random, book),
        _ => wrong_for_a_while(random, text, book),
    }
    text.push_str(&lend_topup(&book.lent));
}

/// An opening, and one or two orders that take nothing, under a wrong table; the book is then as it was.
fn wrong_for_a_while(random: &mut Random, text: &mut String, book: &mut books::Book) {
    let kept = book.lent.clone();
    topups::damage(random, book);
    text.push_str(&lend_topup(&book.lent));
    text.push_str("OPEN\n");
    for _ in 0..1 + random.below(2) {
        push_order(random, text, book, 20);
    }
    book.lent = kept;
}

/// Tables that 17 refuses, and in most lists a fault that opening or New-Order meets before it or just behind; then the right one, and a wrong one
/// again.
fn wrong_topup(random: &mut Random) -> String {
    let layout = topups::dimensions(random);
    let mut book = match random.below(3) {
        0 => books::in_use(random, layout),
        _ => books::fresh(random, layout),
    };
    book.lent.notes.clear();
    topups::set_stock(random, &mut book);
    match random.below(10) {
        0 => books::damage_head(random, &mut book),
        1 => books::damage(random, &mut book, 2),
        2 | 3 => last::damage_for_sure(random, &mut book),
        4..=6 => books::damage_beside(random, &mut book),
        _ => {}
    }
    let mut text = lend(&book.lent);
    for _ in 0..5 {
        wrong_for_a_while(random, &mut text, &mut book);
    }
    text.push_str(&lend_topup(&book.lent));
    text.push_str("OPEN\n");
    for _ in 0..3 {
        push_order(random, &mut text, &mut book, 10);
    }
    wrong_for_a_while(random, &mut text, &mut book);
    ask(random, &mut text, &mut Asker::new(&book, 20), &ORDERS, 2);
    text
}

/// An order that brings stock to its margins; in so many of a hundred cases a line names an item that the book lacks.
fn push_order(random: &mut Random, text: &mut String, book: &mut books::Book, faulty: usize) {
    let mut request = topups::order(random, book);
    if random.percent(faulty) {
        topups::damage_request(random, book, &mut request);
    }
    push(text, &Request::NewOrder(request));
}

/// A call that queues a request, some of them out of range.
fn queue(random: &mut Random, text: &mut String, book: &books::Book) {
    let mut request = queues::request(random, book);
    queues::damage_request(random, book, &mut request);
    push_queued(text, &request);
}

/// A run, in so many of a hundred cases on a date at or beside an end of the range.
fn run(random: &mut Random, text: &mut String, odd: usize) {
    let date = queues::date(random, odd);
    text.push_str(&format!("RD {date}\n"));
}

fn push_queued(text: &mut String, r: &Delivery) {
    text.push_str(&format!("QD {} {} {}\n", r.warehouse, r.carrier, r.date));
}

/// Request lines to read and requests to write; the book is not used.
fn request_lines(random: &mut Random) -> String {
    let mut text = lend(&Lent::default());
    for _ in 0..30 {
        let command = match random.below(2) {
            0 => texts::read_command(random),
            _ => texts::write_command(random),
        };
        text.push_str(&command);
        text.push('\n');
    }
    text
}

/// Slices of any lengths with any values.
fn chaotic(random: &mut Random) -> String {
    let layout = books::dimensions(random);
    let mut book = books::fresh(random, layout);
    book.lent = books::chaos(random);
    let mut text = lend(&book.lent);
    text.push_str("OPEN\n");
    ask(random, &mut text, &mut Asker::new(&book, 30), &EACH, 6);
    text
}

fn ask(
    random: &mut Random,
    text: &mut String,
    asker: &mut Asker<'_>,
    weights: &[usize; 5],
    count: usize,
) {
    for _ in 0..count {
        let request = asker.request(random, weights);
        push(text, &request);
    }
}

fn push(text: &mut String, request: &Request) {
    text.push_str(&print::request_tokens(request));
    text.push('\n');
}

/// The commands that set the lent slices.
pub fn lend(lent: &Lent) -> String {
    let names = hex::token(&lent.names);
    let mut text = slice("nums", &lent.nums);
    text.push_str(&format!("BYTES names {names}\n"));
    text.push_str(&lend_last(lent));
    text.push_str(&lend_notes(lent));
    text.push_str(&lend_buffer(&lent.buffer));
    text.push_str(&lend_queue(&lent.queue));
    text.push_str(&lend_topup(lent));
    text
}

/// The command that sets the top-up table.
fn lend_topup(lent: &Lent) -> String {
    slice("topup", &lent.topup)
}

/// The command that sets the last orders.
fn lend_last(lent: &Lent) -> String {
    slice("last", &lent.last)
}

/// The command that sets the notes.
fn lend_notes(lent: &Lent) -> String {
    format!("BYTES notes {}\n", hex::token(&lent.notes))
}

/// The command that sets the buffer of a run.
fn lend_buffer(buffer: &[u8]) -> String {
    format!("BYTES buffer {}\n", hex::token(buffer))
}

/// The command that sets the waiting list, as far as its places are not 0.
fn lend_queue(queue: &Queue) -> String {
    let free = Waiting::default();
    let set = queue.waiting.iter().rposition(|place| *place != free);
    let mut text = format!("QUEUE {}", queue.count);
    for place in &queue.waiting[..set.map_or(0, |last| last + 1)] {
        let (date, warehouse, carrier) = (place.date, place.warehouse, place.carrier);
        text.push_str(&format!(" {date} {warehouse} {carrier}"));
    }
    text.push('\n');
    text
}

fn slice(name: &str, numbers: &[i64]) -> String {
    let mut text = format!("SLICE {name}");
    for number in numbers {
        text.push(' ');
        text.push_str(&number.to_string());
    }
    text.push('\n');
    text
}
