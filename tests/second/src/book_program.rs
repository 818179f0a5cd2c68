//! The program `book` of document 01: request lines in, answers out, on a built-in book.

use crate::answer::{DeliveryAnswer, OrderStatusAnswer, Outcome, Refusal};
use crate::layout::{customer, district, stock, warehouse, Layout, HEAD, NAMES_WIDTH};
use crate::lines;
use crate::request::Request;
use std::io::{self, BufRead, ErrorKind, Write};

const LAYOUT: Layout = Layout {
    warehouses: 1,
    customers: 2,
    items: 5,
    order_slots: 4,
    history_slots: 8,
    history_count: 0,
};
const PRICES: [i64; 5] = [100, 250, 999, 0, 1_234];

/// A book that the program owns and lends to each call.
pub struct Book {
    pub nums: Vec<i64>,
    pub names: Vec<u8>,
    /// The last order of each customer.
    pub last: Vec<i64>,
    /// The text of each customer.
    pub notes: Vec<u8>,
    /// Margin and lift of each item.
    pub topup: Vec<i64>,
}

impl Book {
    /// The book that document 01 gives to the program.
    pub fn built_in() -> Book {
        let mut nums = vec![0; LAYOUT.numbers()];
        nums[..HEAD].copy_from_slice(&[1, 2, 5, 4, 8, 0]);
        nums[LAYOUT.warehouse(1)][warehouse::TAX] = 1_000;
        for d in 1..=10 {
            nums[LAYOUT.district(1, d)][district::TAX] = 500;
            nums[LAYOUT.district(1, d)][district::NEXT_ORDER] = 1;
            nums[LAYOUT.customer(1, d, 1)][customer::DISCOUNT] = 1_000;
        }
        for (item, price) in (1..).zip(PRICES) {
            nums[LAYOUT.price(item)] = price;
            nums[LAYOUT.stock(1, item)][stock::ON_HAND] = 20;
        }
        let mut names = Vec::with_capacity(LAYOUT.name_bytes());
        for first in [&b"EVA"[..], b"BO"].iter().cycle().take(2 * 10) {
            let mut name = [b' '; NAMES_WIDTH];
            name[..3].copy_from_slice(b"ALM");
            name[16..16 + first.len()].copy_from_slice(first);
            names.extend_from_slice(&name);
        }
        Book {
            nums,
            names,
            last: vec![0; LAYOUT.last_orders()],
            notes: vec![b' '; LAYOUT.note_bytes()],
            topup: LAYOUT.usual_topup(),
        }
    }

    /// Carries out one line, its byte 10 with it, and gives the answer's line.
    pub fn answer(&mut self, line: &[u8]) -> String {
        let Outcome::Committed(request) = lines::read_line(line) else {
            return "?\t1\t0\n".to_string();
        };
        let mut answer = self.carry_out(&request);
        answer.push('\n');
        answer
    }

    fn carry_out(&mut self, request: &Request) -> String {
        let (nums, names, last) = (&mut self.nums, &self.names, &mut self.last);
        match request {
            // The lifts are not printed.
            Request::NewOrder(r) => match crate::new_order(nums, names, last, &self.topup, r) {
                Outcome::Committed(f) => format!("N\t0\t{}\t{}", f.order, f.total),
                Outcome::Refused(refusal) => refused('N', refusal),
            },
            Request::Payment(r) => match crate::payment(nums, names, &mut self.notes, r) {
                Outcome::Committed(f) => format!("P\t0\t{}\t{}", f.customer, f.balance),
                Outcome::Refused(refusal) => refused('P', refusal),
            },
            Request::Delivery(r) => delivery_line(&crate::delivery(nums, names, r)),
            Request::OrderStatus(r) => status_line(&crate::order_status(nums, names, last, r)),
            Request::StockLevel(r) => match crate::stock_level(nums, names, r) {
                Outcome::Committed(f) => format!("L\t0\t{}", f.low_stock),
                Outcome::Refused(refusal) => refused('L', refusal),
            },
        }
    }
}

fn refused(letter: char, refusal: Refusal) -> String {
    format!("{letter}\t{}\t{}", refusal.number, refusal.detail)
}

fn delivery_line(answer: &DeliveryAnswer) -> String {
    match answer.outcome {
        Outcome::Committed(f) => {
            let mut line = format!("D\t0\t{}", f.skip_count);
            for order in answer.orders {
                line.push_str(&format!("\t{order}"));
            }
            line
        }
        Outcome::Refused(refusal) => refused('D', refusal),
    }
}

fn status_line(answer: &OrderStatusAnswer) -> String {
    match answer.outcome {
        Outcome::Committed(f) => {
            let mut line = format!(
                "S\t0\t{}\t{}\t{}\t{}\t{}",
                f.customer, f.balance, f.order, f.entry_date, f.carrier
            );
            for number in answer.lines {
                line.push_str(&format!("\t{number}"));
            }
            line
        }
        Outcome::Refused(refusal) => refused('S', refusal),
    }
}

/// Answers each line of the input at once, to the end of the input.
pub fn run(input: &mut impl BufRead, output: &mut impl Write) -> io::Result<()> {
    let mut book = Book::built_in();
    let mut line = Vec::new();
    while next_line(input, &mut line)? {
        output.write_all(book.answer(&line).as_bytes())?;
        output.flush()?;
    }
    Ok(())
}

/// Reads the next line with its byte 10, if any is left. Of an overlong line only the
/// start is kept, which has no form either; the rest is skipped.
fn next_line(input: &mut impl BufRead, line: &mut Vec<u8>) -> io::Result<bool> {
    line.clear();
    let mut any = false;
    loop {
        let waiting = match input.fill_buf() {
            Ok(bytes) => bytes,
            Err(error) if error.kind() == ErrorKind::Interrupted => continue,
            Err(error) => return Err(error),
        };
        if waiting.is_empty() {
            return Ok(any);
        }
        any = true;
        let end = waiting.iter().position(|&byte| byte == 10);
        let taken = end.map_or(waiting.len(), |place| place + 1);
        let kept = taken.min(lines::LONGEST + 1 - line.len());
        line.extend_from_slice(&waiting[..kept]);
        input.consume(taken);
        if end.is_some() {
            return Ok(true);
        }
    }
}
