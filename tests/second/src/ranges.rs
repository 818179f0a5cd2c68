//! The ranges of document 01, section "The book", as inclusive pairs.

/// An inclusive range of book numbers.
pub type Range = (i64, i64);

pub const DISTRICTS: u64 = 10;
pub const MAX_LINES: usize = 15;
pub const NAME_BYTES: usize = 16;

pub const WAREHOUSES: Range = (1, 20);
pub const CUSTOMERS: Range = (1, 3_000);
pub const ITEMS: Range = (1, 100_000);
pub const ORDER_SLOTS: Range = (1, 10_000);
pub const HISTORY_SLOTS: Range = (1, 1_000_000);

pub const RATE: Range = (0, 9_999);
pub const MONEY_TO_DATE: Range = (0, 999_999_999_999);
pub const BALANCE: Range = (-999_999_999_999, 999_999_999_999);
pub const COUNT: Range = (0, 999_999_999);
pub const DATE: Range = (1, 6_342_969_600);

pub const CREDIT: Range = (0, 1);
pub const PRICE: Range = (0, 99_999);
pub const ON_HAND: Range = (0, 9_999);
pub const LOTS_TO_DATE: Range = (0, 9_999_999_999);

pub const CARRIER: Range = (1, 10);
pub const CARRIER_OR_NULL: Range = (0, 10);
pub const LINE_COUNT: Range = (1, 15);
pub const FLAG: Range = (0, 1);
pub const QUANTITY: Range = (1, 10);
pub const LINE_AMOUNT: Range = (1, 999_990);
pub const PAYMENT_AMOUNT: Range = (100, 500_000);
pub const THRESHOLD: Range = (10, 20);

/// Of an item's row in the lent top-up table; the two together are at most the last.
pub const MARGIN: Range = (0, 9_990);
pub const LIFT: Range = (10, 9_999);
pub const MARGIN_AND_LIFT: i64 = 10_000;

/// Is a number of the book within the range?
pub fn within(value: i64, (low, high): Range) -> bool {
    low <= value && value <= high
}

/// Is a number of a request within the range? The range has no negative end.
pub fn asks_within(value: u64, range: Range) -> bool {
    i64::try_from(value).is_ok_and(|value| within(value, range))
}
