//! The five requests. Their numbers are unsigned 64-bit and may be anything.

/// One line of an order to be placed; its three numbers lie as a C struct has them, so that a library can be lent the lines as they are.
#[repr(C)]
#[derive(Debug, Clone, Copy, PartialEq, Eq)]
pub struct Line {
    pub item: u64,
    pub supply_warehouse: u64,
    pub quantity: u64,
}

/// A customer of a district, by number or by last name.
#[derive(Debug, Clone, PartialEq, Eq)]
pub enum Who {
    Number(u64),
    LastName(Vec<u8>),
}

#[derive(Debug, Clone, PartialEq, Eq)]
pub struct NewOrder {
    pub warehouse: u64,
    pub district: u64,
    pub customer: u64,
    pub date: u64,
    pub lines: Vec<Line>,
}

/// The terminal's warehouse and district take the money; the customer may live elsewhere.
#[derive(Debug, Clone, PartialEq, Eq)]
pub struct Payment {
    pub warehouse: u64,
    pub district: u64,
    pub customer_warehouse: u64,
    pub customer_district: u64,
    pub who: Who,
    pub date: u64,
    pub amount: u64,
}

#[derive(Debug, Clone, PartialEq, Eq)]
pub struct Delivery {
    pub warehouse: u64,
    pub carrier: u64,
    pub date: u64,
}

#[derive(Debug, Clone, PartialEq, Eq)]
pub struct OrderStatus {
    pub warehouse: u64,
    pub district: u64,
    pub who: Who,
}

#[derive(Debug, Clone, PartialEq, Eq)]
pub struct StockLevel {
    pub warehouse: u64,
    pub district: u64,
    pub threshold: u64,
}

#[derive(Debug, Clone, PartialEq, Eq)]
pub enum Request {
    NewOrder(NewOrder),
    Payment(Payment),
    Delivery(Delivery),
    OrderStatus(OrderStatus),
    StockLevel(StockLevel),
}
