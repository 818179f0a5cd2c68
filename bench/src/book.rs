//! Books in use, filled as TPC-C 4.3.3 fills its tables; the same for the same size.

use second::layout::{order, order_line, Layout};
use second::lists::last;
use second::lists::random::Random;
use second::queue::RESULT_BYTES;
use second::replay::Lent;

const DISTRICTS: usize = 10;
const DATE: i64 = 3_900_000_000;
const SYLLABLES: [&str; 10] = [
    "BAR", "OUGHT", "ABLE", "PRI", "PRES", "ESE", "ANTI", "CALLY", "ATION", "EING",
];

/// The dimensions of a book, and how far it is filled.
#[derive(Clone, Copy)]
pub struct Size {
    pub warehouses: usize,
    pub customers: usize,
    pub items: usize,
    pub order_slots: usize,
    pub history_slots: usize,
    /// Orders in each district.
    pub orders: usize,
    /// History rows.
    pub histories: usize,
}

impl Size {
    fn head(&self) -> [i64; 6] {
        let (w, c, i) = (self.warehouses, self.customers, self.items);
        let (o, h) = (self.order_slots, self.history_slots);
        [w, c, i, o, h, self.histories].map(|n| n as i64)
    }

    pub fn layout(&self) -> Layout {
        Layout {
            warehouses: self.warehouses,
            customers: self.customers,
            items: self.items,
            order_slots: self.order_slots,
            history_slots: self.history_slots,
            history_count: self.histories,
        }
    }
}

/// TPC-C's non-uniform random number from 1 to `top`.
pub fn non_uniform(random: &mut Random, a: usize, top: usize) -> usize {
    ((random.below(a + 1) | random.below(top)) + a / 3) % top + 1
}

/// TPC-C's last name with this number, 0 to 999.
pub fn last_name(number: usize) -> Vec<u8> {
    let part = |place: usize| SYLLABLES[number / place % 10];
    [part(100), part(10), part(1)].concat().into_bytes()
}

/// A book of this size.
pub fn make(size: &Size) -> Lent {
    let random = &mut Random::new(1);
    let layout = size.layout();
    let mut nums = Vec::with_capacity(layout.numbers());
    nums.extend(size.head());
    for _ in 0..size.warehouses {
        nums.extend([random.between(0, 2_000), 30_000_000]);
    }
    for _ in 0..DISTRICTS * size.warehouses {
        nums.extend([random.between(0, 2_000), 3_000_000, size.orders as i64 + 1]);
    }
    for _ in 0..DISTRICTS * size.warehouses * size.customers {
        let credit = i64::from(random.percent(10));
        nums.extend([credit, random.between(0, 5_000), -1_000, 1_000, 1, 0]);
    }
    let prices: Vec<i64> = (0..size.items)
        .map(|_| random.between(100, 10_000))
        .collect();
    nums.extend(&prices);
    for _ in 0..size.warehouses * size.items {
        nums.extend([random.between(10, 100), 0, 0, 0]);
    }
    for district in 0..DISTRICTS * size.warehouses {
        put_orders(random, &mut nums, size, district / DISTRICTS + 1, &prices);
    }
    put_histories(random, &mut nums, size);
    Lent {
        last: last::scanned(&nums, &layout),
        names: names(random, size),
        notes: vec![b' '; layout.note_bytes()],
        buffer: vec![b' '; RESULT_BYTES],
        topup: layout.usual_topup(),
        nums,
        ..Lent::default()
    }
}

/// One district's slots: of its orders the last three in ten wait.
fn put_orders(
    random: &mut Random,
    nums: &mut Vec<i64>,
    size: &Size,
    warehouse: usize,
    prices: &[i64],
) {
    let buyers = permutation(random, size.customers);
    let section = nums.len();
    for number in 0..size.orders {
        let waits = number >= size.orders * 7 / 10;
        let (carrier, delivered) = if waits {
            (0, 0)
        } else {
            (random.between(1, 10), DATE)
        };
        let count = random.between(5, 15);
        let buyer = buyers[number % buyers.len()] as i64;
        nums.extend([buyer, DATE, carrier, count, 1, i64::from(waits)]);
        for _ in 0..count {
            let item = 1 + random.below(size.items);
            let quantity = random.between(1, 10);
            nums.extend([
                item as i64,
                warehouse as i64,
                quantity,
                quantity * prices[item - 1],
                delivered,
            ]);
        }
        nums.resize(section + (number + 1) * order::WIDTH, 0);
    }
    nums.resize(section + size.order_slots * order::WIDTH, 0);
}

fn put_histories(random: &mut Random, nums: &mut Vec<i64>, size: &Size) {
    for _ in 0..size.histories {
        let customer = 1 + random.below(size.customers) as i64;
        let district = random.between(1, 10);
        let warehouse = 1 + random.below(size.warehouses) as i64;
        nums.extend([
            customer, district, warehouse, district, warehouse, DATE, 1_000,
        ]);
    }
    nums.resize(size.layout().numbers(), 0);
}

/// The numbers 1 to n in a random order.
fn permutation(random: &mut Random, n: usize) -> Vec<usize> {
    let mut all: Vec<usize> = (1..=n).collect();
    for place in (1..n).rev() {
        all.swap(place, random.below(place + 1));
    }
    all
}

/// The first thousand customers of a district have the names 0 to 999, the others non-uniform ones.
fn names(random: &mut Random, size: &Size) -> Vec<u8> {
    let mut names = Vec::with_capacity(size.layout().name_bytes());
    for _ in 0..DISTRICTS * size.warehouses {
        for customer in 0..size.customers {
            let number = if customer < 1_000 {
                customer
            } else {
                non_uniform(random, 255, 1_000) - 1
            };
            put_name(&mut names, last_name(number));
            let first = (0..8 + random.below(9))
                .map(|_| b'A' + random.below(26) as u8)
                .collect();
            put_name(&mut names, first);
        }
    }
    names
}

fn put_name(names: &mut Vec<u8>, mut name: Vec<u8>) {
    name.resize(16, b' ');
    names.extend(name);
}

/// How many numbers of an order's row are used: the head and the lines in use.
pub fn used_numbers(slot: &[i64]) -> usize {
    order::LINES + slot[order::LINE_COUNT] as usize * order_line::WIDTH
}
