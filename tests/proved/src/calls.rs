//! The exported functions, as include/book.h declares them, and the engine over them.

use second::replay::{Engine, Lent};
use second::{
    Delivery, DeliveryAnswer, DeliveryFigures, Line, NewOrder, NewOrderFigures, OrderStatus,
    OrderStatusAnswer, OrderStatusFigures, Outcome, Payment, PaymentFigures, Queue, QueueFigures,
    Refusal, Request, StockLevel, StockLevelFigures, Who,
};

extern "C" {
    fn book_opening(
        nums: *const i64,
        nums_len: usize,
        names: *const u8,
        names_len: usize,
        topup: *const i64,
        topup_len: usize,
        out: *mut u64,
    );
    fn book_new_order(
        nums: *mut i64,
        nums_len: usize,
        names: *const u8,
        names_len: usize,
        last: *mut i64,
        last_len: usize,
        topup: *const i64,
        topup_len: usize,
        warehouse: u64,
        district: u64,
        customer: u64,
        date: u64,
        lines: *const Line,
        lines_len: usize,
        out: *mut u64,
    );
    fn book_payment(
        nums: *mut i64,
        nums_len: usize,
        names: *const u8,
        names_len: usize,
        notes: *mut u8,
        notes_len: usize,
        warehouse: u64,
        district: u64,
        custwarehouse: u64,
        custdistrict: u64,
        named: bool,
        number: u64,
        name: *const u8,
        name_len: usize,
        date: u64,
        amount: u64,
        out: *mut u64,
        balance: *mut i64,
    );
    fn book_delivery(
        nums: *mut i64,
        nums_len: usize,
        names: *const u8,
        names_len: usize,
        warehouse: u64,
        carrier: u64,
        date: u64,
        out: *mut u64,
        orders: *mut u64,
    );
    fn book_order_status(
        nums: *const i64,
        nums_len: usize,
        names: *const u8,
        names_len: usize,
        last: *const i64,
        last_len: usize,
        warehouse: u64,
        district: u64,
        named: bool,
        number: u64,
        name: *const u8,
        name_len: usize,
        out: *mut u64,
        balance: *mut i64,
    );
    fn book_stock_level(
        nums: *const i64,
        nums_len: usize,
        names: *const u8,
        names_len: usize,
        warehouse: u64,
        district: u64,
        threshold: u64,
        out: *mut u64,
    );
    fn book_queue_delivery(queue: *mut Queue, warehouse: u64, carrier: u64, date: u64, out: *mut u64);
    fn book_run_delivery(
        nums: *mut i64,
        nums_len: usize,
        names: *const u8,
        names_len: usize,
        queue: *mut Queue,
        date: u64,
        buffer: *mut u8,
        buffer_len: usize,
        out: *mut u64,
        orders: *mut u64,
    );
}

/// Calls a function on a lent book: its numbers and its names, each as pointer and length, then the rest.
macro_rules! on_book {
    ($call:ident, $nums:expr, $lent:expr, $($rest:expr),+ $(,)?) => {
        // SAFETY: each pointer goes with its slice's length, and the out arrays have the lengths that the header names.
        unsafe { $call($nums, $lent.nums.len(), $lent.names.as_ptr(), $lent.names.len(), $($rest),+) }
    };
}

/// The proved library.
pub struct ProvedEngine;

/// The outcome that the first two figures say.
pub(crate) fn outcome<F>(out: &[u64], figures: F) -> Outcome<F> {
    match out[0] {
        0 => Outcome::Committed(figures),
        number => Outcome::Refused(Refusal { number, detail: out[1] }),
    }
}

/// Who as the calls take it: whether by name, the number, the name.
pub(crate) fn who(who: &Who) -> (bool, u64, &[u8]) {
    match who {
        Who::Number(number) => (false, *number, &[]),
        Who::LastName(name) => (true, 0, name),
    }
}

/// What Order-Status leaves in its arrays, the place of the shown part among it. They start out of place, so that what is left unwritten shows.
pub fn status_out(lent: &Lent, request: &OrderStatus) -> ([u64; 8], i64) {
    let (named, number, name) = who(&request.who);
    let mut out = [77; 8];
    let mut balance = [77; 1];
    on_book!(
        book_order_status,
        lent.nums.as_ptr(),
        lent,
        lent.last.as_ptr(),
        lent.last.len(),
        request.warehouse,
        request.district,
        named,
        number,
        name.as_ptr(),
        name.len(),
        out.as_mut_ptr(),
        balance.as_mut_ptr(),
    );
    (out, balance[0])
}

impl Engine for ProvedEngine {
    fn open(&mut self, lent: &Lent) -> Outcome<()> {
        let mut out = [77; 2];
        on_book!(book_opening, lent.nums.as_ptr(), lent, lent.topup.as_ptr(), lent.topup.len(), out.as_mut_ptr());
        outcome(&out, ())
    }

    fn new_order(&mut self, lent: &mut Lent, request: &NewOrder) -> Outcome<NewOrderFigures> {
        let mut out = [77; 5];
        on_book!(
            book_new_order,
            lent.nums.as_mut_ptr(),
            lent,
            lent.last.as_mut_ptr(),
            lent.last.len(),
            lent.topup.as_ptr(),
            lent.topup.len(),
            request.warehouse,
            request.district,
            request.customer,
            request.date,
            request.lines.as_ptr(),
            request.lines.len(),
            out.as_mut_ptr(),
        );
        outcome(&out, NewOrderFigures { order: out[2], total: out[3], lifts: out[4] })
    }

    fn payment(&mut self, lent: &mut Lent, request: &Payment) -> Outcome<PaymentFigures> {
        let (named, number, name) = who(&request.who);
        let mut out = [0; 3];
        let mut balance = [0; 1];
        on_book!(
            book_payment,
            lent.nums.as_mut_ptr(),
            lent,
            lent.notes.as_mut_ptr(),
            lent.notes.len(),
            request.warehouse,
            request.district,
            request.customer_warehouse,
            request.customer_district,
            named,
            number,
            name.as_ptr(),
            name.len(),
            request.date,
            request.amount,
            out.as_mut_ptr(),
            balance.as_mut_ptr(),
        );
        outcome(&out, PaymentFigures { customer: out[2], balance: balance[0] })
    }

    fn delivery(&mut self, lent: &mut Lent, request: &Delivery) -> DeliveryAnswer {
        let mut out = [0; 4];
        let mut orders = [0; 10];
        on_book!(
            book_delivery,
            lent.nums.as_mut_ptr(),
            lent,
            request.warehouse,
            request.carrier,
            request.date,
            out.as_mut_ptr(),
            orders.as_mut_ptr(),
        );
        DeliveryAnswer {
            outcome: outcome(&out, DeliveryFigures { skip_count: out[2], skip_mark: out[3] }),
            orders,
        }
    }

    fn order_status<'a>(&mut self, lent: &'a Lent, request: &OrderStatus) -> OrderStatusAnswer<'a> {
        let (out, balance) = status_out(lent, request);
        let figures = OrderStatusFigures {
            customer: out[2],
            balance,
            order: out[3],
            entry_date: out[4],
            carrier: out[5],
        };
        let from = out[6] as usize;
        OrderStatusAnswer {
            outcome: outcome(&out, figures),
            lines: &lent.nums[from..from + out[7] as usize],
        }
    }

    fn stock_level(&mut self, lent: &Lent, request: &StockLevel) -> Outcome<StockLevelFigures> {
        let mut out = [0; 3];
        on_book!(
            book_stock_level,
            lent.nums.as_ptr(),
            lent,
            request.warehouse,
            request.district,
            request.threshold,
            out.as_mut_ptr(),
        );
        outcome(&out, StockLevelFigures { low_stock: out[2] })
    }

    fn queue_delivery(&mut self, lent: &mut Lent, request: &Delivery) -> Outcome<QueueFigures> {
        let mut out = [77; 3];
        let queue = &mut lent.queue;
        // SAFETY: the record and the out array lie as the header says.
        unsafe { book_queue_delivery(queue, request.warehouse, request.carrier, request.date, out.as_mut_ptr()) };
        outcome(&out, QueueFigures { before: out[2] })
    }

    /// The ten orders start out of place, so that what a refused run leaves unwritten shows.
    fn run_delivery(&mut self, lent: &mut Lent, date: u64) -> DeliveryAnswer {
        let mut out = [77; 4];
        let mut orders = [77; 10];
        on_book!(
            book_run_delivery,
            lent.nums.as_mut_ptr(),
            lent,
            &mut lent.queue,
            date,
            lent.buffer.as_mut_ptr(),
            lent.buffer.len(),
            out.as_mut_ptr(),
            orders.as_mut_ptr(),
        );
        DeliveryAnswer {
            outcome: outcome(&out, DeliveryFigures { skip_count: out[2], skip_mark: out[3] }),
            orders,
        }
    }

    fn read(&mut self, line: &[u8]) -> Outcome<Request> {
        crate::lines::read(line)
    }

    fn write(&mut self, request: &Request, buffer: &mut [u8]) -> Outcome<u64> {
        crate::lines::write(request, buffer)
    }
}
