//! Random request lines to read, and random requests to write.
//!
//! The lines are made here by hand, not by the engine's writing, and then damaged.

use super::random::Random;
use crate::replay::{hex, print};
use crate::request::{Delivery, Line, NewOrder, OrderStatus, Payment, Request, StockLevel, Who};

/// A READ command.
pub fn read_command(random: &mut Random) -> String {
    let odd = random.percent(15);
    let mut parts = fields(&request(random, odd));
    if random.percent(30) {
        damage_fields(random, &mut parts);
    }
    let mut line = parts.join(&b'\t');
    line.push(b'\n');
    if random.percent(45) {
        damage_bytes(random, &mut line);
    }
    format!("READ {}", hex::token(&line))
}

/// A WRITE command, its buffer about as long as the line.
pub fn write_command(random: &mut Random) -> String {
    let odd = random.percent(35);
    let request = request(random, odd);
    let exact = fields(&request).join(&b'\t').len() + 1;
    let cap = match random.below(8) {
        0 => exact - 1,
        1..=3 => exact,
        4 => exact + 1,
        5 => 0,
        6 => random.below(exact + 20),
        _ => exact + random.below(60),
    };
    format!("WRITE {cap} {}", print::request_tokens(&request))
}

/// The fields of a request's line, whether it has a form or not.
fn fields(request: &Request) -> Vec<Vec<u8>> {
    let mut fields = Vec::new();
    let mut who = None;
    for token in print::request_tokens(request).split(' ') {
        fields.push(token.as_bytes().to_vec());
    }
    match request {
        // Lines have no count of lines.
        Request::NewOrder(_) => drop(fields.remove(5)),
        Request::Payment(r) => who = Some((5, &r.who)),
        Request::OrderStatus(r) => who = Some((3, &r.who)),
        _ => {}
    }
    if let Some((place, Who::LastName(name))) = who {
        fields[place] = [b"=", &name[..]].concat();
    }
    fields
}

/// A request of any kind with any numbers; an odd one may have no form.
fn request(random: &mut Random, odd: bool) -> Request {
    match random.below(5) {
        0 => {
            let odd_counts = [0, 1, 15, 16, 17, 40];
            let counts = [1, 1, 2, 3, 7, 14, 15];
            let from: &[usize] = if odd { &odd_counts } else { &counts };
            let count = *random.pick(from);
            let odd = odd && random.percent(40);
            let [warehouse, district, customer, date] = [(); 4].map(|()| number(random, odd));
            let lines = (0..count).map(|_| line(random, odd)).collect();
            Request::NewOrder(NewOrder {
                warehouse,
                district,
                customer,
                date,
                lines,
            })
        }
        1 => payment(random, odd),
        2 => Request::Delivery(Delivery {
            warehouse: number(random, odd),
            carrier: number(random, odd),
            date: number(random, odd),
        }),
        3 => Request::OrderStatus(OrderStatus {
            warehouse: number(random, odd),
            district: number(random, odd),
            who: who(random, odd),
        }),
        _ => Request::StockLevel(StockLevel {
            warehouse: number(random, odd),
            district: number(random, odd),
            threshold: number(random, odd),
        }),
    }
}

fn payment(random: &mut Random, odd: bool) -> Request {
    Request::Payment(Payment {
        warehouse: number(random, odd),
        district: number(random, odd),
        customer_warehouse: number(random, odd),
        customer_district: number(random, odd),
        who: who(random, odd),
        date: number(random, odd),
        amount: number(random, odd),
    })
}

fn line(random: &mut Random, odd: bool) -> Line {
    Line {
        item: number(random, odd),
        supply_warehouse: number(random, odd),
        quantity: number(random, odd),
    }
}

/// A number with at most ten digits; an odd request has longer ones among its numbers.
fn number(random: &mut Random, odd: bool) -> u64 {
    let too_long = [10_000_000_000, 99_999_999_999, u64::MAX, 1 << 63, 1 << 34];
    if odd && random.percent(6) {
        return *random.pick(&too_long);
    }
    match random.below(8) {
        0 => 0,
        1 => 9_999_999_999,
        2 => *random.pick(&[9, 10, 4_294_967_296, 1_000_000_000, 999_999_999]),
        _ => random.below(300) as u64,
    }
}

fn who(random: &mut Random, odd: bool) -> Who {
    if random.percent(30) {
        return Who::Number(number(random, odd));
    }
    let length = *random.pick(if odd {
        &[0, 1, 16, 17, 40]
    } else {
        &[1, 2, 3, 15, 16]
    });
    let mut name: Vec<u8> = (0..length).map(|_| name_byte(random)).collect();
    if odd && length > 0 {
        let inner = random.below(length);
        let place = *random.pick(&[0, length - 1, inner]);
        name[place] = *random.pick(&[9, 10, 31, 32, 126, 127, 128, 255]);
    } else if length > 2 && random.percent(30) {
        name[1 + random.below(length - 2)] = b' ';
    }
    Who::LastName(name)
}

fn name_byte(random: &mut Random) -> u8 {
    *random.pick(b"AELMZaz!~#=059")
}

/// Changes whole fields: other numbers and names, one field more or fewer, another letter.
fn damage_fields(random: &mut Random, fields: &mut Vec<Vec<u8>>) {
    let place = random.below(fields.len());
    match random.below(8) {
        0 => fields.insert(place, b"1".to_vec()),
        1 => drop(fields.remove(place)),
        2 => fields[0] = vec![*random.pick(b"NPDSLnpdsl?X ")],
        3 => fields.extend(vec![b"1".to_vec(); 1 + random.below(50)]),
        _ => {
            let place = 1 + random.below(fields.len() - 1);
            fields[place] = special_field(random, &fields[place]);
        }
    }
}

/// Fields at the border of what has a form, for a number.
const ODD_NUMBERS: &[&[u8]] = &[
    b"0",
    b"9999999999",
    b"10000000000",
    b"00",
    b"01",
    b"+1",
    b"-1",
    b"",
    b"1 ",
    b" 1",
    b"0000000001",
    b"1x",
];

/// The same for a last name.
const ODD_NAMES: &[&[u8]] = &[
    b"=",
    b"=A",
    b"=AB CD",
    b"= A",
    b"=A ",
    b"= ",
    b"=0123456789ABCDEF",
    b"=0123456789ABCDEFG",
    b"=\x1f",
    b"=A\x1fB",
    b"=~",
    b"=\x7f",
    b"=A\x7fB",
    b"=\x80",
    b"==",
    b"=#1",
    b"A",
    b"=\xff",
];

/// The same for a customer number.
const ODD_MARKED: &[&[u8]] = &[
    b"#",
    b"#0",
    b"#00",
    b"#01",
    b"#9999999999",
    b"#10000000000",
    b"#-1",
    b"##1",
];

/// A field at the border of what has a form; mostly of the kind that stood there.
fn special_field(random: &mut Random, old: &[u8]) -> Vec<u8> {
    let kinds = [ODD_NUMBERS, ODD_NAMES, ODD_MARKED];
    let is_who = old.first().is_some_and(|byte| b"#=".contains(byte));
    let kind = match random.below(10) {
        0 => random.below(3),
        1..=6 if is_who => 1,
        _ if is_who => 2,
        _ => 0,
    };
    random.pick(kinds[kind]).to_vec()
}

/// Changes a byte, or cuts, doubles or pads the line.
fn damage_bytes(random: &mut Random, line: &mut Vec<u8>) {
    let odd_bytes = [
        0, 9, 10, 13, 31, 32, 35, 43, 45, 48, 57, 58, 61, 78, 126, 127, 255,
    ];
    let byte = *random.pick(&odd_bytes);
    let place = random.below(line.len());
    match random.below(10) {
        0..=2 => line[place] = byte,
        3 => line.truncate(place),
        4 => {
            line.truncate(place);
            line.push(10);
        }
        5 => drop(line.remove(place)),
        6 => line.insert(place, line[place]),
        7 => line.extend_from_within(..),
        8 => line.insert(place, byte),
        _ => match random.below(5) {
            0 => line.insert(0, byte),
            1 => line.insert(line.len() - 1, byte),
            2 => line.push(byte),
            3 => drop(line.pop()),
            _ => line.resize(line.len() + 600, byte),
        },
    }
}
