//! The proved library: the functions of include/book.h that are used here, and each as a safe call on a book.

use crate::book::{Book, Queue};

/// BOOK_VERSION of the header that the declarations below are taken from.
pub const VERSION: u64 = 5;

#[repr(C)]
#[derive(Clone, Copy, Default)]
pub struct Line {
    item: u64,
    supply: u64,
    quantity: u64,
}

#[rustfmt::skip]
extern "C" {
    fn book_version() -> u64;
    fn book_opening(nums: *const i64, nums_len: usize, names: *const u8, names_len: usize, topup: *const i64, topup_len: usize, out: *mut u64);
    fn book_new_order(nums: *mut i64, nums_len: usize, names: *const u8, names_len: usize, last: *mut i64, last_len: usize, topup: *const i64,
        topup_len: usize, warehouse: u64, district: u64, customer: u64, date: u64, lines: *const Line, lines_len: usize, out: *mut u64);
    fn book_payment(nums: *mut i64, nums_len: usize, names: *const u8, names_len: usize, notes: *mut u8, notes_len: usize, warehouse: u64,
        district: u64, custwarehouse: u64, custdistrict: u64, named: bool, number: u64, name: *const u8, name_len: usize, date: u64, amount: u64,
        out: *mut u64, balance: *mut i64);
    fn book_delivery(nums: *mut i64, nums_len: usize, names: *const u8, names_len: usize, warehouse: u64, carrier: u64, date: u64, out: *mut u64,
        orders: *mut u64);
    fn book_queue_delivery(queue: *mut Queue, warehouse: u64, carrier: u64, date: u64, out: *mut u64);
    fn book_run_delivery(nums: *mut i64, nums_len: usize, names: *const u8, names_len: usize, queue: *mut Queue, date: u64, buffer: *mut u8,
        buffer_len: usize, out: *mut u64, orders: *mut u64);
    fn book_order_status(nums: *const i64, nums_len: usize, names: *const u8, names_len: usize, last: *const i64, last_len: usize, warehouse: u64,
        district: u64, named: bool, number: u64, name: *const u8, name_len: usize, out: *mut u64, balance: *mut i64);
    fn book_stock_level(nums: *const i64, nums_len: usize, names: *const u8, names_len: usize, warehouse: u64, district: u64, threshold: u64,
        out: *mut u64);
    fn book_read_line(line: *const u8, line_len: usize, out: *mut u64, lines: *mut Line, name: *mut u8);
    fn book_places(warehouses: u64, customers: u64, items: u64, orders: u64, histories: u64, warehouse: u64, district: u64, customer: u64,
        item: u64, order: u64, history: u64, out: *mut u64);
}

/// Whether the library that is linked is the one that is declared here.
pub fn version_fits() -> bool {
    // SAFETY: it takes nothing.
    unsafe { book_version() == VERSION }
}

/// How many numbers and name bytes a book of these sizes has, and where its first warehouse, district, customer, item, stock, order and history
/// slot start; none where a size is out of range.
pub fn places(sizes: [usize; 5]) -> Option<[usize; 9]> {
    let [w, c, i, o, h] = sizes.map(|size| size as u64);
    let mut out = [0; 12];
    // SAFETY: out has twelve numbers.
    unsafe { book_places(w, c, i, o, h, 1, 1, 1, 1, 1, 1, out.as_mut_ptr()) };
    (out[0] == 0).then(|| std::array::from_fn(|place| out[place + 2] as usize))
}

/// A request line that was read: the letter, its numbers but who, who, and an order's lines.
pub struct Request {
    pub letter: u8,
    pub numbers: [u64; 6],
    named: bool,
    customer: u64,
    lines: [Line; 15],
    lines_len: usize,
    name: [u8; 16],
    name_len: usize,
}

/// Reads a request line, its byte 10 with it; none where it has no form.
pub fn read(line: &[u8]) -> Option<Request> {
    let (mut out, mut lines, mut name) = ([0; 13], [Line::default(); 15], [0; 16]);
    // SAFETY: the pointer goes with its slice's length, and the arrays have the lengths that the header names.
    unsafe { book_read_line(line.as_ptr(), line.len(), out.as_mut_ptr(), lines.as_mut_ptr(), name.as_mut_ptr()) };
    let [0, _, letter, numbers @ .., named, customer, lines_len, name_len] = out else { return None };
    let (lines_len, name_len) = (lines_len as usize, name_len as usize);
    Some(Request { letter: letter as u8, numbers, named: named == 1, customer, lines, lines_len, name, name_len })
}

/// Calls a function on a book: its numbers and names, each as pointer and length, then the rest.
macro_rules! on {
    ($call:ident, $nums:expr, $book:expr, $($rest:expr),+ $(,)?) => {
        // SAFETY: each pointer goes with its slice's length, what is written overlaps with nothing, and the out arrays have the header's lengths.
        unsafe { $call($nums, $book.nums.len(), $book.names.as_ptr(), $book.names.len(), $($rest),+) }
    };
}

/// Refusal and detail; then, of an order, its number, total and lifts.
pub type Out<const N: usize> = [u64; N];

impl Book {
    pub fn opening(&self) -> Out<2> {
        let mut out = [0; 2];
        on!(book_opening, self.nums.as_ptr(), self, self.topup.as_ptr(), self.topup.len(), out.as_mut_ptr());
        out
    }

    pub fn new_order(&mut self, r: &Request) -> Out<5> {
        let ([w, d, c, date, ..], mut out) = (r.numbers, [0; 5]);
        let (last, topup) = (&mut self.last, &self.topup);
        on!(
            book_new_order, self.nums.as_mut_ptr(), self, last.as_mut_ptr(), last.len(), topup.as_ptr(), topup.len(), w, d, c, date,
            r.lines.as_ptr(), r.lines_len, out.as_mut_ptr(),
        );
        out
    }

    /// And the balance.
    pub fn payment(&mut self, r: &Request) -> (Out<3>, i64) {
        let ([w, d, cw, cd, date, amount], mut out, mut balance) = (r.numbers, [0; 3], [0; 1]);
        let notes = &mut self.notes;
        on!(
            book_payment, self.nums.as_mut_ptr(), self, notes.as_mut_ptr(), notes.len(), w, d, cw, cd, r.named, r.customer, r.name.as_ptr(),
            r.name_len, date, amount, out.as_mut_ptr(), balance.as_mut_ptr(),
        );
        (out, balance[0])
    }

    /// And the ten orders.
    pub fn delivery(&mut self, r: &Request) -> (Out<4>, [u64; 10]) {
        let ([w, carrier, date, ..], mut out, mut orders) = (r.numbers, [0; 4], [0; 10]);
        on!(book_delivery, self.nums.as_mut_ptr(), self, w, carrier, date, out.as_mut_ptr(), orders.as_mut_ptr());
        (out, orders)
    }

    /// The request is a Delivery's, its date that of the queuing.
    pub fn queue_delivery(&mut self, r: &Request) -> Out<3> {
        let ([w, carrier, date, ..], mut out) = (r.numbers, [0; 3]);
        // SAFETY: the list is one as the header has it, out has three numbers.
        unsafe { book_queue_delivery(&mut self.queue, w, carrier, date, out.as_mut_ptr()) };
        out
    }

    /// Puts the run's line, its byte 10 with it, behind `line` unless refused by 16.
    pub fn run_delivery(&mut self, date: u64, line: &mut Vec<u8>) -> Out<4> {
        let (mut out, mut orders, mut buffer) = ([0; 4], [0; 10], [0; 400]);
        on!(
            book_run_delivery, self.nums.as_mut_ptr(), self, &mut self.queue, date, buffer.as_mut_ptr(), buffer.len(), out.as_mut_ptr(),
            orders.as_mut_ptr(),
        );
        let written = buffer.iter().position(|&byte| byte == b'\n').map_or(0, |end| end + 1);
        line.extend_from_slice(&buffer[..written]);
        out
    }

    /// And the balance, and the numbers of the order's lines, five a line.
    pub fn order_status(&self, r: &Request) -> (Out<8>, i64, &[i64]) {
        let ([w, d, ..], mut out, mut balance) = (r.numbers, [0; 8], [0; 1]);
        on!(
            book_order_status, self.nums.as_ptr(), self, self.last.as_ptr(), self.last.len(), w, d, r.named, r.customer, r.name.as_ptr(),
            r.name_len, out.as_mut_ptr(), balance.as_mut_ptr(),
        );
        (out, balance[0], &self.nums[out[6] as usize..(out[6] + out[7]) as usize])
    }

    pub fn stock_level(&self, r: &Request) -> Out<3> {
        let ([w, d, threshold, ..], mut out) = (r.numbers, [0; 3]);
        on!(book_stock_level, self.nums.as_ptr(), self, w, d, threshold, out.as_mut_ptr());
        out
    }
}
