//! Request lines by the exported functions, as include/book.h declares them.

use second::{Delivery, Line, NewOrder, OrderStatus, Outcome, Payment, Refusal, Request, StockLevel, Who};

extern "C" {
    fn book_read_line(
        line: *const u8,
        line_len: usize,
        out: *mut u64,
        lines: *mut Line,
        name: *mut u8,
    );
    fn book_write_new_order(
        buffer: *mut u8,
        buffer_len: usize,
        warehouse: u64,
        district: u64,
        customer: u64,
        date: u64,
        lines: *const Line,
        lines_len: usize,
        out: *mut u64,
    );
    fn book_write_payment(
        buffer: *mut u8,
        buffer_len: usize,
        warehouse: u64,
        district: u64,
        custwarehouse: u64,
        custdistrict: u64,
        named: bool,
        number: u64,
        name: *const u8,
        name_len: usize,
        date: u64,
        amount: u64,
        out: *mut u64,
    );
    fn book_write_delivery(buffer: *mut u8, buffer_len: usize, warehouse: u64, carrier: u64, date: u64, out: *mut u64);
    fn book_write_order_status(
        buffer: *mut u8,
        buffer_len: usize,
        warehouse: u64,
        district: u64,
        named: bool,
        number: u64,
        name: *const u8,
        name_len: usize,
        out: *mut u64,
    );
    fn book_write_stock_level(buffer: *mut u8, buffer_len: usize, warehouse: u64, district: u64, threshold: u64, out: *mut u64);
}

/// A line of equal numbers.
const fn line_of(number: u64) -> Line {
    Line {
        item: number,
        supply_warehouse: number,
        quantity: number,
    }
}

/// What reading answers, as the arrays hold it. They start out of place, so that what is left unwritten shows.
struct Read {
    out: [u64; 13],
    lines: [Line; 15],
    name: [u8; 16],
}

pub fn read(line: &[u8]) -> Outcome<Request> {
    let mut read = Read {
        out: [77; 13],
        lines: [line_of(77); 15],
        name: [77; 16],
    };
    // SAFETY: the pointer goes with the slice's length, and the arrays have the lengths that the header names; so for every call below.
    unsafe {
        book_read_line(
            line.as_ptr(),
            line.len(),
            read.out.as_mut_ptr(),
            read.lines.as_mut_ptr(),
            read.name.as_mut_ptr(),
        );
    }
    let (lines, name) = (read.lines(), read.name());
    match read.out {
        [0, 0, letter, numbers @ .., _, _, _, _] => Outcome::Committed(read.request(letter, numbers, lines, name)),
        [number, detail, ..] => {
            assert!(read.out[2..].iter().all(|&n| n == 0), "a refused line shows figures");
            Outcome::Refused(Refusal { number, detail })
        }
    }
}

impl Read {
    /// The order's lines; what lies beyond them is 0.
    fn lines(&self) -> Vec<Line> {
        let count = self.out[11] as usize;
        assert!(self.lines[count..].iter().all(|&line| line == line_of(0)), "a line past the last");
        self.lines[..count].to_vec()
    }

    /// The last name; what lies beyond it is 0.
    fn name(&self) -> Vec<u8> {
        let length = self.out[12] as usize;
        assert!(self.name[length..].iter().all(|&byte| byte == 0), "a byte past the name");
        self.name[..length].to_vec()
    }

    fn who(&self, name: Vec<u8>) -> Who {
        match self.out[9..11] {
            [0, number] => Who::Number(number),
            [1, 0] => Who::LastName(name),
            _ => panic!("neither a number nor a name"),
        }
    }

    fn request(&self, letter: u64, numbers: [u64; 6], lines: Vec<Line>, name: Vec<u8>) -> Request {
        match (letter as u8, numbers) {
            (b'N', [warehouse, district, customer, date, 0, 0]) => Request::NewOrder(NewOrder {
                warehouse,
                district,
                customer,
                date,
                lines,
            }),
            (b'P', [warehouse, district, customer_warehouse, customer_district, date, amount]) => {
                Request::Payment(Payment {
                    warehouse,
                    district,
                    customer_warehouse,
                    customer_district,
                    who: self.who(name),
                    date,
                    amount,
                })
            }
            (b'D', [warehouse, carrier, date, 0, 0, 0]) => Request::Delivery(Delivery { warehouse, carrier, date }),
            (b'S', [warehouse, district, 0, 0, 0, 0]) => Request::OrderStatus(OrderStatus {
                warehouse,
                district,
                who: self.who(name),
            }),
            (b'L', [warehouse, district, threshold, 0, 0, 0]) => Request::StockLevel(StockLevel {
                warehouse,
                district,
                threshold,
            }),
            _ => panic!("no request has the letter {letter} and the numbers {numbers:?}"),
        }
    }
}

pub fn write(request: &Request, buffer: &mut [u8]) -> Outcome<u64> {
    let mut out = [77; 3];
    let (to, room, answer) = (buffer.as_mut_ptr(), buffer.len(), out.as_mut_ptr());
    match request {
        Request::NewOrder(r) => write_new_order(r, to, room, answer),
        Request::Payment(r) => {
            let (named, number, name) = crate::calls::who(&r.who);
            unsafe {
                book_write_payment(
                    to,
                    room,
                    r.warehouse,
                    r.district,
                    r.customer_warehouse,
                    r.customer_district,
                    named,
                    number,
                    name.as_ptr(),
                    name.len(),
                    r.date,
                    r.amount,
                    answer,
                );
            }
        }
        Request::Delivery(r) => unsafe { book_write_delivery(to, room, r.warehouse, r.carrier, r.date, answer) },
        Request::OrderStatus(r) => {
            let (named, number, name) = crate::calls::who(&r.who);
            unsafe {
                book_write_order_status(to, room, r.warehouse, r.district, named, number, name.as_ptr(), name.len(), answer);
            }
        }
        Request::StockLevel(r) => unsafe { book_write_stock_level(to, room, r.warehouse, r.district, r.threshold, answer) },
    }
    crate::calls::outcome(&out, out[2])
}

fn write_new_order(r: &NewOrder, to: *mut u8, room: usize, answer: *mut u64) {
    unsafe {
        book_write_new_order(
            to,
            room,
            r.warehouse,
            r.district,
            r.customer,
            r.date,
            r.lines.as_ptr(),
            r.lines.len(),
            answer,
        );
    }
}
