//! The memory limit: a plain sum over what a call scans, its used rows, the last orders and the top-up table, as they lie in the book.

use crate::book::used_numbers;
use crate::requests::Call;
use second::layout::{district, order, Layout, NAMES_WIDTH};
use second::ranges::NAME_BYTES;
use second::replay::Lent;
use second::{Request, Who};

/// A call that goes over more numbers in a larger book.
pub fn scans(call: Call) -> bool {
    !call.pays_by_number() && call != Call::Mix
}

/// The sum over what a request scans. Of a New-Order that is its district's last orders and the whole top-up table.
pub fn used_rows(lent: &Lent, layout: &Layout, request: &Request) -> i64 {
    match request {
        Request::NewOrder(r) => {
            let last = last_orders(lent, layout, (r.warehouse, r.district));
            last.wrapping_add(topup(lent))
        }
        Request::Payment(r) => {
            let home = (r.customer_warehouse as usize, r.customer_district as usize);
            let terminal = layout.district(r.warehouse as usize, r.district as usize);
            let money = sum(&lent.nums[layout.warehouse(r.warehouse as usize)])
                .wrapping_add(sum(&lent.nums[terminal]));
            money.wrapping_add(customers(lent, layout, home, &r.who))
        }
        Request::Delivery(r) => (1..=10).fold(0, |all: i64, district| {
            let (w, d) = (r.warehouse as usize, district);
            let row = sum(&lent.nums[layout.district(w, d)]);
            let customers = sum(&lent.nums[layout.customers_of(w, d)]);
            all.wrapping_add(row)
                .wrapping_add(customers)
                .wrapping_add(orders_from(lent, layout, (w, d), 1))
        }),
        Request::OrderStatus(r) => {
            let place = (r.warehouse as usize, r.district as usize);
            let row = sum(&lent.nums[layout.district(place.0, place.1)]);
            row.wrapping_add(customers(lent, layout, place, &r.who))
                .wrapping_add(last_orders(lent, layout, (r.warehouse, r.district)))
                .wrapping_add(shown_order(lent, layout, place, &r.who))
        }
        Request::StockLevel(r) => {
            let place = (r.warehouse as usize, r.district as usize);
            let row = &lent.nums[layout.district(place.0, place.1)];
            let first = second::stock_level::window_start(row[district::NEXT_ORDER] as usize);
            let window = orders_from(lent, layout, place, first);
            sum(row)
                .wrapping_add(window)
                .wrapping_add(sum(&lent.nums[layout.stock_of(place.0)]))
        }
    }
}

/// The customer's row, or by name all rows and names of the district.
fn customers(lent: &Lent, layout: &Layout, (w, d): (usize, usize), who: &Who) -> i64 {
    match who {
        Who::Number(number) => sum(&lent.nums[layout.customer(w, d, *number as usize)]),
        Who::LastName(_) => {
            let rows = sum(&lent.nums[layout.customers_of(w, d)]);
            rows.wrapping_add(sum_bytes(&lent.names[layout.names_of(w, d)]))
        }
    }
}

/// The last orders of a district's customers.
pub fn last_orders(lent: &Lent, layout: &Layout, (w, d): (u64, u64)) -> i64 {
    sum(&lent.last[layout.last_orders_of(w as usize, d as usize)])
}

/// The top-up table.
pub fn topup(lent: &Lent) -> i64 {
    sum(&lent.topup)
}

/// The last names of all customers of a status's district.
pub fn last_names(lent: &Lent, layout: &Layout, request: &Request) -> i64 {
    let Request::OrderStatus(r) = request else {
        panic!("a status is asked for");
    };
    lent.names[layout.names_of(r.warehouse as usize, r.district as usize)]
        .chunks_exact(NAMES_WIDTH)
        .fold(0, |all: i64, names| {
            all.wrapping_add(sum_bytes(&names[..NAME_BYTES]))
        })
}

/// The order that a customer's last order names; by name, which is not searched for, that of any customer.
fn shown_order(lent: &Lent, layout: &Layout, (w, d): (usize, usize), who: &Who) -> i64 {
    let customer = match who {
        Who::Number(number) => *number as usize,
        Who::LastName(name) => {
            let mixed = name.iter().fold(0_usize, |all, &byte| {
                all.wrapping_mul(31).wrapping_add(byte.into())
            });
            mixed % layout.customers + 1
        }
    };
    match lent.last[layout.last_order(w, d, customer)] as usize {
        0 => 0,
        number => {
            let slot = &lent.nums[layout.order(w, d, number)];
            sum(&slot[..used_numbers(slot)])
        }
    }
}

/// The orders of a district from number `first` up to, but without, next.
fn orders_from(lent: &Lent, layout: &Layout, (w, d): (usize, usize), first: usize) -> i64 {
    let next = lent.nums[layout.district(w, d)][district::NEXT_ORDER] as usize;
    let section = &lent.nums[layout.orders_of(w, d)];
    section[(first - 1) * order::WIDTH..(next - 1) * order::WIDTH]
        .chunks_exact(order::WIDTH)
        .fold(0, |all: i64, slot| {
            all.wrapping_add(sum(&slot[..used_numbers(slot)]))
        })
}

/// Eight sums side by side: with fewer a turn, the time goes by where the loop happens to lie in the program, by a factor of two.
fn sum(numbers: &[i64]) -> i64 {
    let mut eights = numbers.chunks_exact(8);
    let mut sums = [0_i64; 8];
    for eight in &mut eights {
        for (sum, number) in sums.iter_mut().zip(eight) {
            *sum = sum.wrapping_add(*number);
        }
    }
    let all = sums.iter().chain(eights.remainder());
    all.fold(0, |all, number| all.wrapping_add(*number))
}

/// Bytes are taken eight at a time.
fn sum_bytes(bytes: &[u8]) -> i64 {
    let word = |eight: &[u8]| eight.try_into().map_or(0, i64::from_le_bytes);
    bytes
        .chunks_exact(8)
        .fold(0, |all: i64, eight| all.wrapping_add(word(eight)))
}
