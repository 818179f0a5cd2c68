//! Random books: fresh ones, ones in use, and damaged ones.

use super::random::Random;
use super::{last, notes, topups};
use crate::layout::{
    customer, order, order_line, topup, Layout, HEAD, HISTORY_COUNT, NAMES_WIDTH, TEXT_WIDTH,
};
use crate::ranges::{self, Range};
use crate::replay::Lent;

const DISTRICTS: usize = ranges::DISTRICTS as usize;

/// A random book, and the district, customer and item that requests and damage favour.
pub struct Book {
    pub layout: Layout,
    pub lent: Lent,
    pub focus: Focus,
    pub last_names: Vec<Vec<u8>>,
}

#[derive(Debug, Clone, Copy)]
pub struct Focus {
    pub warehouse: usize,
    pub district: usize,
    pub customer: usize,
    pub item: usize,
}

/// Dimensions from the smallest to some hundreds, most of them small.
pub fn dimensions(random: &mut Random) -> Layout {
    let [w, c, i, o, h] = match random.weighted(&[140, 640, 130, 45, 22, 15, 3, 5]) {
        0 => [(1, 1); 5],
        1 => [(1, 2), (1, 6), (1, 8), (1, 3), (1, 6)],
        2 => [(2, 3), (1, 4), (1, 8), (2, 5), (1, 6)],
        3 => [(1, 1), (1, 4), (1, 30), (19, 30), (1, 3)],
        4 => [(1, 1), (50, 400), (1, 5), (1, 2), (1, 5)],
        5 => [(1, 2), (1, 3), (100, 500), (1, 3), (1, 5)],
        6 => [(1, 1), (1, 3), (1, 20), (100, 300), (1, 5)],
        _ => [(20, 20), (1, 2), (1, 2), (1, 1), (1, 300)],
    };
    let mut side = |(low, high): Range| random.between(low, high) as usize;
    Layout {
        warehouses: side(w),
        customers: side(c),
        items: side(i),
        order_slots: side(o),
        history_slots: side(h),
        history_count: 0,
    }
}

/// Dimensions with customers enough for many equal names.
pub fn crowded(random: &mut Random) -> Layout {
    let mut layout = dimensions(random);
    layout.warehouses = 1;
    layout.customers = random.between(2, 14) as usize;
    layout.order_slots = layout.order_slots.min(4);
    layout
}

/// A book that opening accepts.
pub fn fresh(random: &mut Random, layout: Layout) -> Book {
    let mut book = blank(random, layout);
    let mut nums = head(&layout);
    for _ in 0..layout.warehouses {
        nums.extend([inside(random, ranges::RATE), 0]);
    }
    for _ in 0..layout.warehouses * DISTRICTS {
        nums.extend([inside(random, ranges::RATE), 0, 1]);
    }
    for _ in 0..layout.warehouses * DISTRICTS * layout.customers {
        let credit = inside(random, ranges::CREDIT);
        nums.extend([credit, inside(random, ranges::RATE), 0, 0, 0, 0]);
    }
    for _ in 0..layout.items {
        nums.push(price(random));
    }
    for _ in 0..layout.warehouses * layout.items {
        nums.extend([on_hand(random), 0, 0, 0]);
    }
    let garbage = random.percent(25);
    while nums.len() < layout.numbers() {
        nums.push(if garbage { anything(random) } else { 0 });
    }
    book.lent.nums = nums;
    book.lent.last = vec![0; layout.last_orders()];
    book.lent.notes = notes::spaces(random, &layout);
    book.lent.topup = topups::sound(random, &layout);
    book
}

/// A book in use that was never opened: every used row in range, many at a range's end.
pub fn in_use(random: &mut Random, layout: Layout) -> Book {
    let mut book = fresh(random, layout);
    book.layout.history_count = random.below(layout.history_slots + 1);
    book.lent.nums[HISTORY_COUNT] = book.layout.history_count as i64;
    for kind in [Kind::Warehouse, Kind::District, Kind::Customer, Kind::Stock] {
        for start in kind.starts(&layout) {
            for (column, range) in kind.ranges(&layout).into_iter().enumerate() {
                book.lent.nums[start + column] = typical(random, range);
            }
        }
    }
    // In a busy book every district has a waiting order.
    let busy = random.percent(35);
    for warehouse in 1..=layout.warehouses {
        for district in 1..=DISTRICTS {
            let next = fill_orders(random, &mut book, warehouse, district);
            if busy && next > 1 {
                let last = layout.order(warehouse, district, next - 1);
                book.lent.nums[last][order::WAITING] = 1;
            }
        }
    }
    book.lent.last = last::scanned(&book.lent.nums, &layout);
    notes::set_texts(random, &mut book);
    book
}

/// A book whose favoured district has about as many orders as Stock-Level's window, each
/// of one line, over many items of which some are low. It has no notes.
pub fn windowed(random: &mut Random) -> Book {
    let mut layout = dimensions(random);
    (layout.warehouses, layout.customers) = (1, layout.customers.min(4));
    layout.items = random.between(20, 120) as usize;
    layout.order_slots = random.between(20, 26) as usize;
    let mut book = fresh(random, layout);
    for item in 1..=layout.items {
        book.lent.nums[layout.stock(1, item)][0] = random.between(5, 25);
    }
    let (district, slots) = (book.focus.district, layout.order_slots as i64);
    let next = random.between(19, slots + 1);
    book.lent.nums[layout.district(1, district)][2] = next;
    for number in 1..next as usize {
        let item = 1 + random.below(layout.items) as i64;
        let waiting = random.between(0, 1);
        let row = [1, 50, 0, 1, 1, waiting, item, 1, 1, 100, 0];
        let start = layout.order(1, district, number).start;
        book.lent.nums[start..start + row.len()].copy_from_slice(&row);
    }
    book.lent.last = last::scanned(&book.lent.nums, &layout);
    book.lent.notes.clear();
    if random.percent(40) {
        let number = 1 + random.below(next as usize);
        let slot = layout.order(1, district, number.min(layout.order_slots));
        book.lent.nums[slot][random_order_column(random)] = -1;
    }
    book
}

/// A column of an order's own numbers or of its first line.
fn random_order_column(random: &mut Random) -> usize {
    random.below(order::LINES + order_line::WIDTH)
}

/// Gives a district orders up to a next order number, which it answers.
fn fill_orders(random: &mut Random, book: &mut Book, warehouse: usize, district: usize) -> usize {
    let layout = book.layout;
    let next = match random.below(4) {
        0 => layout.order_slots + 1,
        1 => layout.order_slots,
        _ => 1 + random.below(layout.order_slots + 1).max(random.below(2)),
    };
    let row = layout.district(warehouse, district);
    book.lent.nums[row][2] = next as i64;
    for number in 1..next {
        let row = layout.order(warehouse, district, number);
        let slot = &mut book.lent.nums[row];
        for (column, range) in Kind::Order.ranges(&layout).into_iter().enumerate() {
            slot[column] = typical(random, range);
        }
        if random.percent(30) {
            slot[order::CUSTOMER] = book.focus.customer as i64;
        }
        slot[order::LINE_COUNT] = *random.pick(&[1, 1, 2, 3, 15]);
        let used = order::LINES + slot[order::LINE_COUNT] as usize * order_line::WIDTH;
        if random.percent(70) {
            slot[used..].fill(0);
        } else {
            slot[used..].fill_with(|| anything(random));
        }
    }
    next
}

/// Sets some numbers or name bytes to values at, inside and outside their ranges.
pub fn damage(random: &mut Random, book: &mut Book, times: usize) {
    for _ in 0..times {
        match random.weighted(&[10, 15, 20, 15, 20, 25, 12]) {
            0 => damage_row(random, book, Kind::Warehouse),
            1 => damage_row(random, book, Kind::District),
            2 => damage_row(random, book, Kind::Customer),
            3 => damage_row(random, book, Kind::Item),
            4 => damage_row(random, book, Kind::Stock),
            5 => damage_row(random, book, Kind::Order),
            _ => damage_name(random, book),
        }
    }
}

/// A fault that New-Order and Order-Status meet just before or just behind the last orders: in the stock or the price of the favoured item, in the
/// favoured customer's row, or a full district.
pub fn damage_beside(random: &mut Random, book: &mut Book) {
    let (layout, at) = (book.layout, book.focus);
    let nums = &mut book.lent.nums;
    match random.below(5) {
        0 => nums[layout.stock(at.warehouse, at.item)][random.below(4)] = -1,
        1 => nums[layout.price(at.item)] = 100_000,
        2 => nums[layout.price(at.item)] = 0,
        3 => nums[layout.customer(at.warehouse, at.district, at.customer)][2] = i64::MIN,
        _ => nums[layout.district(at.warehouse, at.district)][2] = layout.order_slots as i64 + 1,
    }
}

/// Sets numbers of the favoured district's orders so.
pub fn damage_orders(random: &mut Random, book: &mut Book, times: usize) {
    for _ in 0..times {
        damage_row(random, book, Kind::Order);
    }
}

fn damage_row(random: &mut Random, book: &mut Book, kind: Kind) {
    let layout = book.layout;
    let starts = kind.starts(&layout);
    let start = if random.percent(75) {
        kind.focus_start(random, book)
    } else {
        *random.pick(&starts)
    };
    let columns = kind.ranges(&layout);
    // The first 11 columns of an order are its own and those of its first line.
    let first_columns = *random.pick(&[11, 11, 16, 81]);
    let column = random.below(columns.len().min(first_columns));
    book.lent.nums[start + column] = edge(random, columns[column]);
}

fn damage_name(random: &mut Random, book: &mut Book) {
    let names = &mut book.lent.names;
    let at = book.focus;
    let place = match random.below(4) {
        0 => random.below(names.len()),
        _ => {
            let range = book.layout.names_of(at.warehouse, at.district);
            range.start + random.below(range.len())
        }
    };
    if random.percent(40) {
        let first = place - place % NAMES_WIDTH;
        names[first] = b' ';
        return;
    }
    names[place] = *random.pick(&[0, 9, 10, 31, 32, 33, 126, 127, 128, 255, b'A']);
}

/// A damaged head, or lengths that do not fit it.
pub fn damage_head(random: &mut Random, book: &mut Book) {
    let highs = [20, 3_000, 100_000, 10_000, 1_000_000, book.lent.nums[4]];
    match random.below(8) {
        0 => book.lent.nums.truncate(random.below(8)),
        1 => book.lent.nums.push(anything(random)),
        2 => drop(book.lent.nums.pop()),
        3 => book.lent.names.push(b'A'),
        4 => drop(book.lent.names.pop()),
        5 => book.lent.names.clear(),
        _ => {
            let place = random.below(HEAD);
            let low = i64::from(place != HISTORY_COUNT);
            book.lent.nums[place] = edge(random, (low, highs[place]));
        }
    }
}

/// A head with a dimension out of range, and the lengths that it implies all the same.
pub fn misfit(random: &mut Random) -> Option<Lent> {
    let mut head = [1, 1, 1, 1, 1].map(|low| random.between(low, 2));
    match random.below(12) {
        0 => head[0] = 21,
        1..=8 => head[random.below(5)] = 0,
        _ => {
            head = head.map(|_| random.between(-2, 2));
            head[4] = random.between(0, 900);
        }
    }
    let [w, c, i, o, h] = head;
    let numbers = 6 + 2 * w + 30 * w + 60 * w * c + i + 4 * w * i + 810 * w * o + 7 * h;
    let (numbers, bytes) = (usize::try_from(numbers).ok()?, 320 * w * c);
    let names = vec![b'A'; usize::try_from(bytes).ok()?];
    let mut nums = head.to_vec();
    let rest = if random.percent(50) { 1 } else { 0 };
    nums.resize(numbers.max(6), rest);
    nums[5] = 0;
    let customers = names.len() / NAMES_WIDTH;
    Some(Lent {
        nums,
        names,
        last: vec![0; customers],
        notes: vec![b' '; customers * TEXT_WIDTH],
        topup: topup::USUAL.repeat(usize::try_from(i).unwrap_or(0)),
        ..Lent::default()
    })
}

/// Slices of any length with any values, behind a head that is sometimes sound.
pub fn chaos(random: &mut Random) -> Lent {
    let mut nums: Vec<i64> = (0..random.below(40)).map(|_| anything(random)).collect();
    for place in 0..nums.len().min(HEAD) {
        if random.percent(70) {
            nums[place] = random.between(0, 3);
        }
    }
    let [last, topup] = [30, 8].map(|most| {
        let numbers = (0..random.below(most)).map(|_| anything(random));
        numbers.collect::<Vec<i64>>()
    });
    Lent {
        nums,
        last,
        topup,
        names: any_bytes(random, 70),
        notes: any_bytes(random, 70),
        ..Lent::default()
    }
}

/// Fewer than so many bytes.
fn any_bytes(random: &mut Random, most: usize) -> Vec<u8> {
    let bytes = (0..random.below(most)).map(|_| random.number() as u8);
    bytes.collect()
}

/// The ranges of a customer's row, by column.
pub const CUSTOMER_COLUMNS: [Range; customer::WIDTH] = [
    ranges::CREDIT,
    ranges::RATE,
    ranges::BALANCE,
    ranges::MONEY_TO_DATE,
    ranges::COUNT,
    ranges::COUNT,
];

/// The kinds of rows that calls use.
#[derive(Debug, Clone, Copy)]
enum Kind {
    Warehouse,
    District,
    Customer,
    Item,
    Stock,
    Order,
}

impl Kind {
    /// The range of each column.
    fn ranges(self, layout: &Layout) -> Vec<Range> {
        let upto = |high: usize| (1, high as i64);
        let (money, count) = (ranges::MONEY_TO_DATE, ranges::COUNT);
        match self {
            Kind::Warehouse => vec![ranges::RATE, money],
            Kind::District => vec![ranges::RATE, money, upto(layout.order_slots + 1)],
            Kind::Customer => CUSTOMER_COLUMNS.to_vec(),
            Kind::Item => vec![ranges::PRICE],
            Kind::Stock => vec![ranges::ON_HAND, ranges::LOTS_TO_DATE, count, count],
            Kind::Order => {
                let customer = upto(layout.customers);
                let mut columns = vec![customer, ranges::DATE, ranges::CARRIER_OR_NULL];
                columns.extend([ranges::LINE_COUNT, ranges::FLAG, ranges::FLAG]);
                let (item, supply) = (upto(layout.items), upto(layout.warehouses));
                let date = (0, ranges::DATE.1);
                let line = [item, supply, ranges::QUANTITY, ranges::LINE_AMOUNT, date];
                columns.extend(line.into_iter().cycle().take(15 * order_line::WIDTH));
                columns
            }
        }
    }

    /// Where each row of this kind starts.
    fn starts(self, layout: &Layout) -> Vec<usize> {
        let (w, c) = (layout.warehouses, layout.customers);
        let (first, rows) = match self {
            Kind::Warehouse => (layout.warehouse(1).start, w),
            Kind::District => (layout.district(1, 1).start, w * DISTRICTS),
            Kind::Customer => (layout.customer(1, 1, 1).start, w * DISTRICTS * c),
            Kind::Item => (layout.price(1), layout.items),
            Kind::Stock => (layout.stock(1, 1).start, w * layout.items),
            Kind::Order => {
                let rows = w * DISTRICTS * layout.order_slots;
                (layout.order(1, 1, 1).start, rows)
            }
        };
        let width = self.ranges(layout).len();
        (0..rows).map(|row| first + row * width).collect()
    }

    /// Where a favoured row of this kind starts.
    fn focus_start(self, random: &mut Random, book: &Book) -> usize {
        let (layout, at) = (&book.layout, book.focus);
        match self {
            Kind::Warehouse => layout.warehouse(at.warehouse).start,
            Kind::District => layout.district(at.warehouse, at.district).start,
            Kind::Customer => {
                let customer = at.customer;
                layout.customer(at.warehouse, at.district, customer).start
            }
            Kind::Item => layout.price(at.item),
            Kind::Stock => layout.stock(at.warehouse, at.item).start,
            Kind::Order => {
                let next = layout.district(at.warehouse, at.district).start + 2;
                let slots = book.lent.nums[next].clamp(2, layout.order_slots as i64 + 1) - 1;
                let number = 1 + random.below(slots as usize);
                layout.order(at.warehouse, at.district, number).start
            }
        }
    }
}

fn head(layout: &Layout) -> Vec<i64> {
    let sides = [layout.warehouses, layout.customers, layout.items];
    let slots = [layout.order_slots, layout.history_slots, 0];
    sides.iter().chain(&slots).map(|&n| n as i64).collect()
}

/// A book with names and a focus and no numbers yet.
fn blank(random: &mut Random, layout: Layout) -> Book {
    let last_names = last_name_pool(random);
    let firsts = first_name_pool(random);
    let mut names = Vec::with_capacity(layout.name_bytes());
    while names.len() < layout.name_bytes() {
        let mut name = [b' '; NAMES_WIDTH];
        let (last, first) = (random.pick(&last_names), random.pick(&firsts));
        name[..last.len()].copy_from_slice(last);
        name[16..16 + first.len()].copy_from_slice(first);
        names.extend_from_slice(&name);
    }
    let focus = Focus {
        warehouse: 1 + random.below(layout.warehouses),
        district: *random.pick(&[1, 2, 5, 9, 10]),
        customer: 1 + random.below(layout.customers),
        item: 1 + random.below(layout.items),
    };
    let lent = Lent {
        names,
        ..Lent::default()
    };
    Book {
        layout,
        lent,
        focus,
        last_names,
    }
}

/// One to six first names for a whole book; some differ in a late byte alone.
fn first_name_pool(random: &mut Random) -> Vec<&'static [u8]> {
    let pool: [&[u8]; 9] = [
        b"",
        b"EVA",
        b"BO",
        b"EV",
        b"eva",
        b"~~~~~~~~~~~~~~~~",
        b"JOHANNA-MARIA  B",
        b"JOHANNA-MARIA  A",
        b"JOHANNA-ANNA",
    ];
    let count = 1 + random.below(6);
    (0..count).map(|_| *random.pick(&pool)).collect()
}

/// One to four last names for a whole book, so that many customers share one.
fn last_name_pool(random: &mut Random) -> Vec<Vec<u8>> {
    let pool: [&[u8]; 8] = [
        b"ALM",
        b"ALMA",
        b"A",
        b"AL M",
        b"BARBARBARBARBARB",
        b"BARBARBARBARBARC",
        b"~",
        b"=#!",
    ];
    let count = 1 + random.below(4);
    (0..count).map(|_| random.pick(&pool).to_vec()).collect()
}

fn price(random: &mut Random) -> i64 {
    match random.below(10) {
        0 => 0,
        1 => 99_999,
        2 => 1,
        _ => random.between(1, 3_000),
    }
}

fn on_hand(random: &mut Random) -> i64 {
    match random.below(10) {
        0 => 9_999,
        1 => 0,
        _ => random.between(0, 40),
    }
}

/// A value within the range, now and then at an end of it.
fn inside(random: &mut Random, (low, high): Range) -> i64 {
    match random.below(8) {
        0 => low,
        1 => high,
        _ => random.between(low, high),
    }
}

/// A value within the range as books in use have them: mostly near its lower end.
fn typical(random: &mut Random, (low, high): Range) -> i64 {
    match random.below(20) {
        0 => high,
        1 => high - (high - low).min(1),
        2 => high - (high - low).min(100),
        3 => random.between(low, high),
        4 => low,
        _ => low.max(-500) + random.between(0, (high - low.max(-500)).min(30)),
    }
}

/// A value at, just inside or just outside the range, or at an extreme of 64 bits.
pub fn edge(random: &mut Random, (low, high): Range) -> i64 {
    let near = [low - 1, low, low + 1, high - 1, high, high + 1];
    let far = [-1, 0, -high, i64::MIN, i64::MIN + 1, i64::MAX];
    let shifted = [(1 << 32) + low, (1 << 32) + high, i64::MIN + high.abs()];
    match random.below(10) {
        0..=5 => *random.pick(&near),
        6..=8 => *random.pick(&far),
        _ => *random.pick(&shifted),
    }
}

/// Any number at all, small ones and extremes among them.
fn anything(random: &mut Random) -> i64 {
    match random.below(6) {
        0 => random.number() as i64,
        1 => *random.pick(&[i64::MIN, i64::MAX, -1, 1 << 32, 1 << 62]),
        _ => random.between(-3, 12),
    }
}
