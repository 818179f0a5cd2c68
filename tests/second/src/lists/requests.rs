//! Random requests to a book: most of them sound, some with one fault or several.

use super::books::Book;
use super::random::Random;
use crate::ranges::{self, Range};
use crate::request::{Delivery, Line, NewOrder, OrderStatus, Payment, Request, StockLevel, Who};

/// Asks about one book. `odd` is how many of a hundred numbers of a request are odd ones.
pub struct Asker<'a> {
    pub book: &'a Book,
    pub by_name: usize,
    odd: usize,
}

impl<'a> Asker<'a> {
    pub fn new(book: &'a Book, by_name: usize) -> Asker<'a> {
        Asker {
            book,
            by_name,
            odd: 0,
        }
    }

    /// A random request; the five calls by weight.
    pub fn request(&mut self, random: &mut Random, weights: &[usize; 5]) -> Request {
        self.odd = *random.pick(&[0, 0, 0, 0, 0, 0, 4, 10, 30]);
        match random.weighted(weights) {
            0 => Request::NewOrder(self.new_order(random)),
            1 => Request::Payment(self.payment(random)),
            2 => Request::Delivery(self.delivery(random)),
            3 => Request::OrderStatus(self.order_status(random)),
            _ => Request::StockLevel(self.stock_level(random)),
        }
    }

    fn new_order(&self, random: &mut Random) -> NewOrder {
        let count = match random.below(20) {
            0 if self.odd > 0 => *random.pick(&[0, 16, 17, 40]),
            1 | 2 => 15,
            _ => 1 + random.below(4),
        };
        let many = count > 4;
        NewOrder {
            warehouse: self.warehouse(random),
            district: self.district(random),
            customer: self.customer(random),
            date: self.date(random),
            lines: (0..count).map(|_| self.line(random, many)).collect(),
        }
    }

    /// A line; in long orders faults are rarer, or no such order would be sound.
    fn line(&self, random: &mut Random, many: bool) -> Line {
        let layout = &self.book.layout;
        let home = self.book.focus.warehouse as i64;
        let no_item = random.percent(if many { 1 } else { 4 });
        let item = match random.below(3) {
            _ if no_item => *random.pick(&[0, layout.items as u64 + 1, u64::MAX]),
            0 => self.book.focus.item as u64,
            _ => self.for_sale(random),
        };
        let supply = self.near(random, home, (1, layout.warehouses as i64));
        Line {
            item,
            supply_warehouse: supply,
            quantity: self.any(random, ranges::QUANTITY),
        }
    }

    /// An item, if possible one with a price.
    fn for_sale(&self, random: &mut Random) -> u64 {
        let layout = &self.book.layout;
        let mut item = 1;
        for _ in 0..4 {
            item = 1 + random.below(layout.items);
            let price = self.book.lent.nums.get(layout.price(item));
            if price.is_some_and(|&price| price != 0) {
                break;
            }
        }
        item as u64
    }

    fn payment(&self, random: &mut Random) -> Payment {
        Payment {
            warehouse: self.warehouse(random),
            district: self.district(random),
            customer_warehouse: self.warehouse(random),
            customer_district: self.district(random),
            who: self.who(random),
            date: self.date(random),
            amount: self.any(random, ranges::PAYMENT_AMOUNT),
        }
    }

    fn delivery(&self, random: &mut Random) -> Delivery {
        Delivery {
            warehouse: self.warehouse(random),
            carrier: self.any(random, ranges::CARRIER),
            date: self.date(random),
        }
    }

    fn order_status(&self, random: &mut Random) -> OrderStatus {
        OrderStatus {
            warehouse: self.warehouse(random),
            district: self.district(random),
            who: self.who(random),
        }
    }

    fn stock_level(&self, random: &mut Random) -> StockLevel {
        StockLevel {
            warehouse: self.warehouse(random),
            district: self.district(random),
            threshold: self.any(random, ranges::THRESHOLD),
        }
    }

    fn warehouse(&self, random: &mut Random) -> u64 {
        let high = self.book.layout.warehouses as i64;
        self.near(random, self.book.focus.warehouse as i64, (1, high))
    }

    fn district(&self, random: &mut Random) -> u64 {
        self.near(random, self.book.focus.district as i64, (1, 10))
    }

    fn customer(&self, random: &mut Random) -> u64 {
        let high = self.book.layout.customers as i64;
        self.near(random, self.book.focus.customer as i64, (1, high))
    }

    fn date(&self, random: &mut Random) -> u64 {
        let now = random.between(100, 400);
        self.near(random, now, ranges::DATE)
    }

    fn who(&self, random: &mut Random) -> Who {
        if random.percent(self.by_name) {
            Who::LastName(self.last_name(random))
        } else {
            Who::Number(self.customer(random))
        }
    }

    /// A name of the book, now and then with spaces or another byte, or a name of nobody.
    fn last_name(&self, random: &mut Random) -> Vec<u8> {
        let mut name = random.pick(&self.book.last_names).clone();
        match random.below(16) {
            0 => name.resize(16, b' '),
            1 => name.resize(17, b' '),
            2 => name.push(b' '),
            3 => name.insert(0, b' '),
            4 => name.truncate(random.below(name.len() + 1)),
            5 => name = b"NOBODY".to_vec(),
            6 => name[0] = *random.pick(&[31, 32, 127, 0, 255, b'a']),
            7 => name = vec![b' '; random.below(18)],
            _ => {}
        }
        name
    }

    /// The favoured number, another of the range, or an odd one.
    fn near(&self, random: &mut Random, favoured: i64, range: Range) -> u64 {
        if self.odd == 0 && random.percent(65) {
            favoured as u64
        } else {
            self.any(random, range)
        }
    }

    /// A number of the range, often one of its ends, or an odd one.
    fn any(&self, random: &mut Random, range: Range) -> u64 {
        if random.percent(self.odd) {
            return odd_number(random, range);
        }
        let (low, high) = range;
        let number = match random.below(6) {
            0 => low,
            1 => high,
            _ => random.between(low, high),
        };
        number as u64
    }
}

/// A number just outside the range, or one that a narrower or a signed type would misread.
fn odd_number(random: &mut Random, (low, high): Range) -> u64 {
    let (low, high) = (low as u64, high as u64);
    match random.below(8) {
        0 | 1 => low - 1,
        2 | 3 => high + 1,
        4 => *random.pick(&[u64::MAX, u64::MAX - 1, 1 << 63, (1 << 63) - 1]),
        5 => (1 << 32) + low,
        6 => (1 << 63) + high,
        _ => u64::MAX - high + 1,
    }
}
