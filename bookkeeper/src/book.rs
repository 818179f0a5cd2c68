//! A book in memory: every slice that the library is lent, and where its rows lie, as the library's own `book_places` says.

use crate::library;

/// How many numbers a row has.
pub const WAREHOUSE_WIDTH: usize = 2;
pub const DISTRICT_WIDTH: usize = 3;
pub const CUSTOMER_WIDTH: usize = 6;
pub const STOCK_WIDTH: usize = 4;
pub const ORDER_WIDTH: usize = 81;
pub const LINE_WIDTH: usize = 5;
pub const HISTORY_WIDTH: usize = 7;
/// Bytes of a last name, and of a first name; of a customer's text.
pub const NAME_BYTES: usize = 16;
pub const NOTE_BYTES: usize = 500;
pub const DISTRICTS: usize = 10;

/// W, C, I, O, H, in ranges that the library accepts, with its places.
#[derive(Clone, Copy, PartialEq, Eq, Debug)]
pub struct Sizes {
    pub warehouses: usize,
    pub customers: usize,
    pub items: usize,
    pub orders: usize,
    pub histories: usize,
    /// How many numbers and name bytes; where the first warehouse, district, customer, item, stock, order and history slot start.
    places: [usize; 9],
}

/// The upper limits of W, C, I, O and H; each starts at 1.
pub const LIMITS: [usize; 5] = [20, 3_000, 100_000, 10_000, 1_000_000];

/// The waiting list, as `struct book_queue` of include/book.h.
#[repr(C)]
#[derive(Clone, Copy, PartialEq, Eq, Debug, Default)]
pub struct Queue {
    pub count: u64,
    pub waiting: [Waiting; 16],
}

#[repr(C)]
#[derive(Clone, Copy, PartialEq, Eq, Debug, Default)]
pub struct Waiting {
    pub date: u64,
    pub warehouse: u64,
    pub carrier: u64,
}

#[derive(Clone, PartialEq, Eq)]
pub struct Book {
    pub sizes: Sizes,
    pub nums: Vec<i64>,
    pub names: Vec<u8>,
    pub last: Vec<i64>,
    pub notes: Vec<u8>,
    pub topup: Vec<i64>,
    pub queue: Queue,
}

impl Sizes {
    /// None where the library refuses them.
    pub fn of(sizes: [usize; 5]) -> Option<Sizes> {
        let places = library::places(sizes)?;
        let [warehouses, customers, items, orders, histories] = sizes;
        Some(Sizes { warehouses, customers, items, orders, histories, places })
    }

    pub fn all(&self) -> [usize; 5] {
        [self.warehouses, self.customers, self.items, self.orders, self.histories]
    }

    pub fn numbers(&self) -> usize {
        self.places[0]
    }

    pub fn name_bytes(&self) -> usize {
        self.places[1]
    }

    pub fn farms(&self) -> usize {
        self.warehouses * DISTRICTS * self.customers
    }

    /// Districts, and farms, before this one, over all warehouses. All places count from 1.
    pub fn district(&self, w: usize, d: usize) -> usize {
        (w - 1) * DISTRICTS + d - 1
    }

    pub fn farm(&self, w: usize, d: usize, c: usize) -> usize {
        self.district(w, d) * self.customers + c - 1
    }

    pub fn warehouse_at(&self, w: usize) -> usize {
        self.places[2] + (w - 1) * WAREHOUSE_WIDTH
    }

    pub fn district_at(&self, w: usize, d: usize) -> usize {
        self.places[3] + self.district(w, d) * DISTRICT_WIDTH
    }

    pub fn customer_at(&self, w: usize, d: usize, c: usize) -> usize {
        self.places[4] + self.farm(w, d, c) * CUSTOMER_WIDTH
    }

    pub fn item_at(&self, i: usize) -> usize {
        self.places[5] + i - 1
    }

    pub fn stock_at(&self, w: usize, i: usize) -> usize {
        self.places[6] + ((w - 1) * self.items + i - 1) * STOCK_WIDTH
    }

    pub fn order_at(&self, w: usize, d: usize, o: usize) -> usize {
        self.places[7] + (self.district(w, d) * self.orders + o - 1) * ORDER_WIDTH
    }

    pub fn history_at(&self, h: usize) -> usize {
        self.places[8] + (h - 1) * HISTORY_WIDTH
    }
}

impl Book {
    /// A new book before its masters are set: the head, every next order number 1, spaces for names and texts, every other number 0, 10 and 91 for
    /// each item.
    pub fn blank(sizes: Sizes) -> Book {
        let mut nums = vec![0; sizes.numbers()];
        for (cell, size) in nums.iter_mut().zip(sizes.all()) {
            *cell = size as i64;
        }
        for w in 1..=sizes.warehouses {
            for d in 1..=DISTRICTS {
                nums[sizes.district_at(w, d) + 2] = 1;
            }
        }
        Book {
            sizes,
            nums,
            names: vec![b' '; sizes.name_bytes()],
            last: vec![0; sizes.farms()],
            notes: vec![b' '; sizes.farms() * NOTE_BYTES],
            topup: [10, 91].repeat(sizes.items),
            queue: Queue::default(),
        }
    }

    /// The row of so many numbers from a place on.
    pub fn row(&self, at: usize, width: usize) -> &[i64] {
        &self.nums[at..at + width]
    }

    /// A farm's last and first name, as they lie, 16 bytes each.
    pub fn name(&self, w: usize, d: usize, c: usize) -> (&[u8], &[u8]) {
        let at = self.sizes.farm(w, d, c) * 2 * NAME_BYTES;
        self.names[at..at + 2 * NAME_BYTES].split_at(NAME_BYTES)
    }

    pub fn note(&self, w: usize, d: usize, c: usize) -> &[u8] {
        let at = self.sizes.farm(w, d, c) * NOTE_BYTES;
        &self.notes[at..at + NOTE_BYTES]
    }
}
