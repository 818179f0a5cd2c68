//! What the calls answer: committed with figures, or refused with number and detail.

/// A refusal: document 01's number, and the detail that goes with it.
#[derive(Debug, Clone, Copy, PartialEq, Eq)]
pub struct Refusal {
    pub number: u64,
    pub detail: u64,
}

impl Refusal {
    /// A refusal whose detail is 0.
    pub fn plain(number: u64) -> Refusal {
        Refusal { number, detail: 0 }
    }

    /// A refusal that names the first offending line of an order, counted from 1.
    pub fn at_line(number: u64, line: u64) -> Refusal {
        Refusal {
            number,
            detail: line,
        }
    }
}

/// The outcome of a call. Committed is document 01's answer 0.
#[derive(Debug, Clone, Copy, PartialEq, Eq)]
pub enum Outcome<F> {
    Committed(F),
    Refused(Refusal),
}

impl<F> From<Result<F, Refusal>> for Outcome<F> {
    fn from(result: Result<F, Refusal>) -> Outcome<F> {
        match result {
            Ok(figures) => Outcome::Committed(figures),
            Err(refusal) => Outcome::Refused(refusal),
        }
    }
}

/// `lifts` is how many of the order's lines were topped up.
#[derive(Debug, Clone, Copy, PartialEq, Eq)]
pub struct NewOrderFigures {
    pub order: u64,
    pub total: u64,
    pub lifts: u64,
}

#[derive(Debug, Clone, Copy, PartialEq, Eq)]
pub struct PaymentFigures {
    pub customer: u64,
    pub balance: i64,
}

/// The mark has bit d - 1 set where district d was skipped; the count is that of its ones.
#[derive(Debug, Clone, Copy, PartialEq, Eq)]
pub struct DeliveryFigures {
    pub skip_count: u64,
    pub skip_mark: u64,
}

/// The ten order numbers stand beside the outcome: 0 where skipped, all 0 when refused.
#[derive(Debug, Clone, Copy, PartialEq, Eq)]
pub struct DeliveryAnswer {
    pub outcome: Outcome<DeliveryFigures>,
    pub orders: [u64; 10],
}

/// Order number, entry date and carrier are 0 where the slice of last orders names none.
#[derive(Debug, Clone, Copy, PartialEq, Eq)]
pub struct OrderStatusFigures {
    pub customer: u64,
    pub balance: i64,
    pub order: u64,
    pub entry_date: u64,
    pub carrier: u64,
}

/// The order's lines are a part of the lent numbers, five for each line; empty when refused.
#[derive(Debug, Clone, Copy, PartialEq, Eq)]
pub struct OrderStatusAnswer<'a> {
    pub outcome: Outcome<OrderStatusFigures>,
    pub lines: &'a [i64],
}

#[derive(Debug, Clone, Copy, PartialEq, Eq)]
pub struct StockLevelFigures {
    pub low_stock: u64,
}

/// How many requests stood before the one that was queued.
#[derive(Debug, Clone, Copy, PartialEq, Eq)]
pub struct QueueFigures {
    pub before: u64,
}
