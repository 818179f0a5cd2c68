//! Where Order-Status from C says that the shown part stands, on random books: the slot's place by document 01's layout,
//! and not merely numbers that are equal.

use proved::{status_out, ProvedEngine};
use second::layout::{order, order_line, Layout};
use second::lists::books::{self, Book};
use second::lists::last;
use second::lists::random::Random;
use second::lists::requests::Asker;
use second::replay::{print, Lent, SecondEngine};
use second::{order_status, OrderStatus, Outcome, Request, Who};

const BOOKS: usize = 2_000;
const REQUESTS: usize = 30;
/// Each kind of answer has to be seen this often, by number and by name.
const OFTEN: usize = 1_000;

/// New-Order, Payment, Delivery, Order-Status, Stock-Level.
const WEIGHTS: [usize; 5] = [40, 5, 10, 45, 0];

/// How many statuses showed lines, had no order, were refused: by number, by name.
#[derive(Default)]
struct Seen {
    shown: [usize; 2],
    no_order: [usize; 2],
    refused: [usize; 2],
}

#[test]
fn the_shown_part_stands_where_the_layout_says() {
    let random = &mut Random::new(1);
    let mut seen = Seen::default();
    for _ in 0..BOOKS {
        let book = random_book(random);
        ask(random, &book, &mut seen);
    }
    let Seen { shown, no_order, refused } = seen;
    println!("place, by number and by name: {shown:?} showed lines, {no_order:?} had no order, {refused:?} were refused");
    assert!([shown, no_order, refused].concat().iter().all(|&times| times >= OFTEN));
}

/// A fresh book, one in use, one with rows damaged, one with last orders of others, or one with a damaged head.
fn random_book(random: &mut Random) -> Book {
    let layout = books::dimensions(random);
    match random.weighted(&[50, 28, 9, 9, 4]) {
        0 => books::fresh(random, layout),
        1 => books::in_use(random, layout),
        2 => {
            let mut book = books::in_use(random, layout);
            books::damage(random, &mut book, 3);
            book
        }
        3 => {
            let mut book = books::in_use(random, layout);
            last::damage(random, &mut book);
            book
        }
        _ => {
            let mut book = books::in_use(random, layout);
            books::damage_head(random, &mut book);
            book
        }
    }
}

/// Orders entered, paid for and delivered by both engines, and statuses asked for in between.
fn ask(random: &mut Random, book: &Book, seen: &mut Seen) {
    let (mut proved, mut second) = (book.lent.clone(), book.lent.clone());
    let mut asker = Asker::new(book, 50);
    for _ in 0..REQUESTS {
        match asker.request(random, &WEIGHTS) {
            Request::OrderStatus(request) => compare(&proved, &request, seen),
            request => {
                let said = print::call(&mut ProvedEngine, &mut proved, &request);
                assert_eq!(said, print::call(&mut SecondEngine, &mut second, &request), "{request:?}");
            }
        }
        assert!(proved == second, "the books differ");
    }
}

/// One status: every number that the proved library leaves is the one that the second engine and the layout give.
fn compare(lent: &Lent, request: &OrderStatus, seen: &mut Seen) {
    let answer = order_status(&lent.nums, &lent.names, &lent.last, request);
    let by_name = usize::from(matches!(request.who, Who::LastName(_)));
    let (out, balance) = match answer.outcome {
        Outcome::Refused(refusal) => {
            seen.refused[by_name] += 1;
            ([refusal.number, refusal.detail, 0, 0, 0, 0, 0, 0], 0)
        }
        Outcome::Committed(f) => {
            let (from, count) = place(lent, request, f.order as usize);
            assert_eq!(lent.nums[from..from + count], *answer.lines, "{request:?}");
            let kind = if f.order == 0 { &mut seen.no_order } else { &mut seen.shown };
            kind[by_name] += 1;
            ([0, 0, f.customer, f.order, f.entry_date, f.carrier, from as u64, count as u64], f.balance)
        }
    };
    assert_eq!(status_out(lent, request), (out, balance), "{request:?}");
}

/// Where the lines of an order start and how many numbers they are; 0 and 0 for no order.
fn place(lent: &Lent, request: &OrderStatus, number: usize) -> (usize, usize) {
    if number == 0 {
        return (0, 0);
    }
    let layout = Layout::of(&lent.nums, &lent.names).expect("a book that was not refused");
    let slot = layout.order(request.warehouse as usize, request.district as usize, number);
    let line_count = lent.nums[slot.start + order::LINE_COUNT] as usize;
    (slot.start + order::LINES, line_count * order_line::WIDTH)
}
