//! Request lines: reading and writing, inverse to each other.
//!
//! Fields are parted by one tab and the line ends with byte 10. Both answer refusal 1
//! where there is no form.

use crate::answer::{Outcome, Refusal};
use crate::ranges::{MAX_LINES, NAME_BYTES};
use crate::request::{Delivery, Line, NewOrder, OrderStatus, Payment, Request, StockLevel, Who};

const TAB: u8 = 9;
const END: u8 = 10;
const LARGEST: u64 = 9_999_999_999;

/// The length of the longest line: N, and 49 numbers of ten digits.
pub const LONGEST: usize = 1 + 49 * 11 + 1;

/// Reads one line, with its byte 10.
pub fn read_line(line: &[u8]) -> Outcome<Request> {
    parse(line).ok_or(Refusal::plain(1)).into()
}

/// Writes the request's line at the start of the buffer and answers its length.
pub fn write_line(request: &Request, buffer: &mut [u8]) -> Outcome<u64> {
    let Some(text) = text_of(request) else {
        return Outcome::Refused(Refusal::plain(1));
    };
    let Some(start) = buffer.get_mut(..text.len()) else {
        return Outcome::Refused(Refusal::plain(1));
    };
    start.copy_from_slice(&text);
    Outcome::Committed(text.len() as u64)
}

fn parse(line: &[u8]) -> Option<Request> {
    if line.len() > LONGEST {
        return None;
    }
    let (&end, text) = line.split_last()?;
    if end != END {
        return None;
    }
    let fields: Vec<&[u8]> = text.split(|&byte| byte == TAB).collect();
    let (&letter, fields) = fields.split_first()?;
    match letter {
        b"N" => parse_new_order(fields).map(Request::NewOrder),
        b"P" => parse_payment(fields).map(Request::Payment),
        b"D" => parse_delivery(fields).map(Request::Delivery),
        b"S" => parse_order_status(fields).map(Request::OrderStatus),
        b"L" => parse_stock_level(fields).map(Request::StockLevel),
        _ => None,
    }
}

fn parse_new_order(fields: &[&[u8]]) -> Option<NewOrder> {
    let (head, rest) = fields.split_at_checked(4)?;
    let lines = rest.chunks_exact(3);
    let whole = lines.remainder().is_empty() && (1..=MAX_LINES).contains(&lines.len());
    if !whole {
        return None;
    }
    Some(NewOrder {
        warehouse: parse_number(head[0])?,
        district: parse_number(head[1])?,
        customer: parse_number(head[2])?,
        date: parse_number(head[3])?,
        lines: lines.map(parse_order_line).collect::<Option<_>>()?,
    })
}

fn parse_order_line(fields: &[&[u8]]) -> Option<Line> {
    Some(Line {
        item: parse_number(fields[0])?,
        supply_warehouse: parse_number(fields[1])?,
        quantity: parse_number(fields[2])?,
    })
}

fn parse_payment(fields: &[&[u8]]) -> Option<Payment> {
    let [warehouse, district, customer_warehouse, customer_district, who, date, amount] = fields
    else {
        return None;
    };
    Some(Payment {
        warehouse: parse_number(warehouse)?,
        district: parse_number(district)?,
        customer_warehouse: parse_number(customer_warehouse)?,
        customer_district: parse_number(customer_district)?,
        who: parse_who(who)?,
        date: parse_number(date)?,
        amount: parse_number(amount)?,
    })
}

fn parse_delivery(fields: &[&[u8]]) -> Option<Delivery> {
    let [warehouse, carrier, date] = fields else {
        return None;
    };
    Some(Delivery {
        warehouse: parse_number(warehouse)?,
        carrier: parse_number(carrier)?,
        date: parse_number(date)?,
    })
}

fn parse_order_status(fields: &[&[u8]]) -> Option<OrderStatus> {
    let [warehouse, district, who] = fields else {
        return None;
    };
    Some(OrderStatus {
        warehouse: parse_number(warehouse)?,
        district: parse_number(district)?,
        who: parse_who(who)?,
    })
}

fn parse_stock_level(fields: &[&[u8]]) -> Option<StockLevel> {
    let [warehouse, district, threshold] = fields else {
        return None;
    };
    Some(StockLevel {
        warehouse: parse_number(warehouse)?,
        district: parse_number(district)?,
        threshold: parse_number(threshold)?,
    })
}

/// One to ten digits, no leading zero but "0" itself.
fn parse_number(field: &[u8]) -> Option<u64> {
    let leading_zero = field.len() > 1 && field[0] == b'0';
    if field.is_empty() || field.len() > 10 || leading_zero {
        return None;
    }
    let mut number = 0;
    for &byte in field {
        if !byte.is_ascii_digit() {
            return None;
        }
        number = number * 10 + u64::from(byte - b'0');
    }
    Some(number)
}

fn parse_who(field: &[u8]) -> Option<Who> {
    match field.split_first()? {
        (b'#', number) => parse_number(number).map(Who::Number),
        (b'=', name) => has_form(name).then(|| Who::LastName(name.to_vec())),
        _ => None,
    }
}

/// Can the name stand in a line? 1 to 16 bytes 32 to 126, no space at either end.
fn has_form(name: &[u8]) -> bool {
    (1..=NAME_BYTES).contains(&name.len())
        && name.iter().all(|byte| (32..=126).contains(byte))
        && name.first() != Some(&b' ')
        && name.last() != Some(&b' ')
}

/// The whole line of a request, if it has a form.
fn text_of(request: &Request) -> Option<Vec<u8>> {
    let mut text = Vec::new();
    match request {
        Request::NewOrder(r) => put_new_order(&mut text, r)?,
        Request::Payment(r) => {
            text.push(b'P');
            let homes = [r.customer_warehouse, r.customer_district];
            put_numbers(&mut text, &[r.warehouse, r.district])?;
            put_numbers(&mut text, &homes)?;
            put_who(&mut text, &r.who)?;
            put_numbers(&mut text, &[r.date, r.amount])?;
        }
        Request::Delivery(r) => {
            text.push(b'D');
            put_numbers(&mut text, &[r.warehouse, r.carrier, r.date])?;
        }
        Request::OrderStatus(r) => {
            text.push(b'S');
            put_numbers(&mut text, &[r.warehouse, r.district])?;
            put_who(&mut text, &r.who)?;
        }
        Request::StockLevel(r) => {
            text.push(b'L');
            put_numbers(&mut text, &[r.warehouse, r.district, r.threshold])?;
        }
    }
    text.push(END);
    Some(text)
}

fn put_new_order(text: &mut Vec<u8>, request: &NewOrder) -> Option<()> {
    if !(1..=MAX_LINES).contains(&request.lines.len()) {
        return None;
    }
    text.push(b'N');
    let NewOrder {
        warehouse,
        district,
        customer,
        date,
        lines,
    } = request;
    put_numbers(text, &[*warehouse, *district, *customer, *date])?;
    for line in lines {
        put_numbers(text, &[line.item, line.supply_warehouse, line.quantity])?;
    }
    Some(())
}

/// A tab and the number, for each; none where a number has more than ten digits.
fn put_numbers(text: &mut Vec<u8>, numbers: &[u64]) -> Option<()> {
    for &number in numbers {
        if number > LARGEST {
            return None;
        }
        text.push(TAB);
        text.extend_from_slice(number.to_string().as_bytes());
    }
    Some(())
}

fn put_who(text: &mut Vec<u8>, who: &Who) -> Option<()> {
    match who {
        Who::Number(number) if *number <= LARGEST => {
            text.extend_from_slice(format!("\t#{number}").as_bytes());
            Some(())
        }
        Who::LastName(name) if has_form(name) => {
            text.extend_from_slice(b"\t=");
            text.extend_from_slice(name);
            Some(())
        }
        _ => None,
    }
}
