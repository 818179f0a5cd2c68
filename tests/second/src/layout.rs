//! Where the rows of a book lie. Warehouses, districts, customers, items and orders are
//! counted from 1, as document 01 counts them.

use crate::ranges;
use std::ops::Range;

pub const HEAD: usize = 6;
pub const HISTORY_COUNT: usize = 5;

/// Columns and width of each kind of row, in the order of document 01.
pub mod warehouse {
    pub const TAX: usize = 0;
    pub const YTD: usize = 1;
    pub const WIDTH: usize = 2;
}

pub mod district {
    pub const TAX: usize = 0;
    pub const YTD: usize = 1;
    pub const NEXT_ORDER: usize = 2;
    pub const WIDTH: usize = 3;
}

pub mod customer {
    pub const CREDIT: usize = 0;
    pub const DISCOUNT: usize = 1;
    pub const BALANCE: usize = 2;
    pub const YTD_PAYMENT: usize = 3;
    pub const PAYMENT_COUNT: usize = 4;
    pub const DELIVERY_COUNT: usize = 5;
    pub const WIDTH: usize = 6;
}

/// `YTD` is document 01's lots to date.
pub mod stock {
    pub const ON_HAND: usize = 0;
    pub const YTD: usize = 1;
    pub const ORDER_COUNT: usize = 2;
    pub const REMOTE_COUNT: usize = 3;
    pub const WIDTH: usize = 4;
}

pub mod order {
    pub const CUSTOMER: usize = 0;
    pub const ENTRY_DATE: usize = 1;
    pub const CARRIER: usize = 2;
    pub const LINE_COUNT: usize = 3;
    pub const ALL_LOCAL: usize = 4;
    pub const WAITING: usize = 5;
    pub const LINES: usize = 6;
    pub const WIDTH: usize = 81;
}

pub mod order_line {
    pub const ITEM: usize = 0;
    pub const SUPPLY_WAREHOUSE: usize = 1;
    pub const QUANTITY: usize = 2;
    pub const AMOUNT: usize = 3;
    pub const DELIVERY_DATE: usize = 4;
    pub const WIDTH: usize = 5;
}

pub mod history {
    pub const WIDTH: usize = 7;
}

/// An item's row in the lent top-up table.
pub mod topup {
    pub const MARGIN: usize = 0;
    pub const LIFT: usize = 1;
    pub const WIDTH: usize = 2;
    /// Document 01's margin and lift.
    pub const USUAL: [i64; WIDTH] = [10, 91];
}

/// Bytes of one customer's names: last name, then first name.
pub const NAMES_WIDTH: usize = 2 * ranges::NAME_BYTES;

/// Bytes of one customer's text, in the lent notes.
pub const TEXT_WIDTH: usize = 500;

const DISTRICTS: usize = ranges::DISTRICTS as usize;

/// The dimensions of a book whose head and lengths are in order.
#[derive(Debug, Clone, Copy, PartialEq, Eq)]
pub struct Layout {
    pub warehouses: usize,
    pub customers: usize,
    pub items: usize,
    pub order_slots: usize,
    pub history_slots: usize,
    pub history_count: usize,
}

impl Layout {
    /// Reads the head; nothing where check 2 refuses the book.
    pub fn of(nums: &[i64], names: &[u8]) -> Option<Layout> {
        let layout = Layout::from_head(nums)?;
        let fits = nums.len() == layout.numbers() && names.len() == layout.name_bytes();
        fits.then_some(layout)
    }

    /// The dimensions that the first six numbers say; nothing where one is out of range.
    pub fn from_head(nums: &[i64]) -> Option<Layout> {
        let head = nums.get(..HEAD)?;
        let history_count = (0, head[4]);
        let ranges = [
            ranges::WAREHOUSES,
            ranges::CUSTOMERS,
            ranges::ITEMS,
            ranges::ORDER_SLOTS,
            ranges::HISTORY_SLOTS,
            history_count,
        ];
        let in_range = head.iter().zip(ranges).all(|(&n, r)| ranges::within(n, r));
        in_range.then(|| Layout {
            warehouses: head[0] as usize,
            customers: head[1] as usize,
            items: head[2] as usize,
            order_slots: head[3] as usize,
            history_slots: head[4] as usize,
            history_count: head[5] as usize,
        })
    }

    /// How many numbers a book of these dimensions has.
    pub fn numbers(&self) -> usize {
        self.history_start() + self.history_slots * history::WIDTH
    }

    /// How many name bytes a book of these dimensions has.
    pub fn name_bytes(&self) -> usize {
        self.warehouses * DISTRICTS * self.customers * NAMES_WIDTH
    }

    /// How many numbers the slice of last orders has: one for each customer.
    pub fn last_orders(&self) -> usize {
        self.warehouses * DISTRICTS * self.customers
    }

    /// How many bytes the notes have: a text for each customer.
    pub fn note_bytes(&self) -> usize {
        self.warehouses * DISTRICTS * self.customers * TEXT_WIDTH
    }

    /// How many numbers the top-up table has: a margin and a lift for each item.
    pub fn topup_numbers(&self) -> usize {
        self.items * topup::WIDTH
    }

    /// A top-up table with document 01's 10 and 91 for each item.
    pub fn usual_topup(&self) -> Vec<i64> {
        topup::USUAL.repeat(self.items)
    }

    fn warehouse_start(&self) -> usize {
        HEAD
    }

    fn district_start(&self) -> usize {
        self.warehouse_start() + self.warehouses * warehouse::WIDTH
    }

    fn customer_start(&self) -> usize {
        self.district_start() + self.warehouses * DISTRICTS * district::WIDTH
    }

    fn item_start(&self) -> usize {
        self.customer_start() + self.warehouses * DISTRICTS * self.customers * customer::WIDTH
    }

    fn stock_start(&self) -> usize {
        self.item_start() + self.items
    }

    fn order_start(&self) -> usize {
        self.stock_start() + self.warehouses * self.items * stock::WIDTH
    }

    fn history_start(&self) -> usize {
        self.order_start() + self.warehouses * DISTRICTS * self.order_slots * order::WIDTH
    }

    /// Districts before this one, over all warehouses.
    fn districts_before(&self, warehouse: usize, district: usize) -> usize {
        (warehouse - 1) * DISTRICTS + district - 1
    }

    /// Customers before this one, over all warehouses and districts.
    fn customers_before(&self, warehouse: usize, district: usize, customer: usize) -> usize {
        self.districts_before(warehouse, district) * self.customers + customer - 1
    }

    pub fn warehouse(&self, warehouse: usize) -> Range<usize> {
        row(self.warehouse_start(), warehouse - 1, warehouse::WIDTH)
    }

    pub fn district(&self, warehouse: usize, district: usize) -> Range<usize> {
        let before = self.districts_before(warehouse, district);
        row(self.district_start(), before, district::WIDTH)
    }

    pub fn customer(&self, warehouse: usize, district: usize, customer: usize) -> Range<usize> {
        let before = self.customers_before(warehouse, district, customer);
        row(self.customer_start(), before, customer::WIDTH)
    }

    /// All customers of one district.
    pub fn customers_of(&self, warehouse: usize, district: usize) -> Range<usize> {
        let before = self.districts_before(warehouse, district);
        row(
            self.customer_start(),
            before,
            self.customers * customer::WIDTH,
        )
    }

    /// The names of all customers of one district, in the lent name bytes.
    pub fn names_of(&self, warehouse: usize, district: usize) -> Range<usize> {
        let before = self.districts_before(warehouse, district);
        row(0, before, self.customers * NAMES_WIDTH)
    }

    /// The numbers of all customers of one district, in the lent last orders.
    pub fn last_orders_of(&self, warehouse: usize, district: usize) -> Range<usize> {
        row(
            0,
            self.districts_before(warehouse, district),
            self.customers,
        )
    }

    /// The place of a customer's number, in the lent last orders.
    pub fn last_order(&self, warehouse: usize, district: usize, customer: usize) -> usize {
        self.last_orders_of(warehouse, district).start + customer - 1
    }

    /// A customer's text, in the lent notes.
    pub fn text(&self, warehouse: usize, district: usize, customer: usize) -> Range<usize> {
        let before = self.customers_before(warehouse, district, customer);
        row(0, before, TEXT_WIDTH)
    }

    /// An item's margin and lift, in the lent top-up table.
    pub fn topup(&self, item: usize) -> Range<usize> {
        row(0, item - 1, topup::WIDTH)
    }

    /// The place of an item's price.
    pub fn price(&self, item: usize) -> usize {
        self.item_start() + item - 1
    }

    pub fn stock(&self, warehouse: usize, item: usize) -> Range<usize> {
        let before = (warehouse - 1) * self.items + item - 1;
        row(self.stock_start(), before, stock::WIDTH)
    }

    /// All stock of one warehouse.
    pub fn stock_of(&self, warehouse: usize) -> Range<usize> {
        row(self.stock_start(), warehouse - 1, self.items * stock::WIDTH)
    }

    pub fn order(&self, warehouse: usize, district: usize, order: usize) -> Range<usize> {
        let before = self.districts_before(warehouse, district) * self.order_slots + order - 1;
        row(self.order_start(), before, order::WIDTH)
    }

    /// The order section of one district, all its slots.
    pub fn orders_of(&self, warehouse: usize, district: usize) -> Range<usize> {
        let before = self.districts_before(warehouse, district);
        row(self.order_start(), before, self.order_slots * order::WIDTH)
    }

    /// The history slot after `before` others.
    pub fn history(&self, before: usize) -> Range<usize> {
        row(self.history_start(), before, history::WIDTH)
    }
}

fn row(start: usize, before: usize, width: usize) -> Range<usize> {
    let first = start + before * width;
    first..first + width
}
