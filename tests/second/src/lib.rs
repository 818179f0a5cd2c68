//! A second, independently made engine for the TPC-C order book of document 01.
//!
//! A book is two lent slices, numbers (`&mut [i64]`) and names (`&[u8]`). Every call
//! takes both, judges the book and the request in document 01's checking order, and
//! answers either its figures or a refusal with number and detail. A refused call
//! changes nothing. Identifiers use TPC-C's words; document 01's depot is `warehouse`.
//!
//! A further lent slice (R-1 of document 02) has the last order number of each customer:
//! New-Order writes it, Order-Status reads it, no other call takes it. Another, the
//! notes, has a text of 500 bytes for each customer: Payment alone takes and writes it.
//! Deliveries may wait their turn in a record, which a call that queues and a call that
//! runs the oldest change, the latter with a lent buffer for its result line. The top-up table
//! has a margin and a lift for each item: opening and New-Order read it, nobody writes it.

pub mod answer;
pub mod book_program;
pub mod checks;
pub mod delivery;
pub mod layout;
pub mod lines;
pub mod lists;
pub mod new_order;
pub mod note;
pub mod opening;
pub mod order_status;
pub mod payment;
pub mod queue;
pub mod ranges;
pub mod replay;
pub mod request;
pub mod rows;
pub mod stock_level;
pub mod who;

pub use answer::{
    DeliveryAnswer, DeliveryFigures, NewOrderFigures, OrderStatusAnswer, OrderStatusFigures,
    Outcome, PaymentFigures, QueueFigures, Refusal, StockLevelFigures,
};
pub use delivery::delivery;
pub use lines::{read_line, write_line};
pub use new_order::new_order;
pub use opening::open;
pub use order_status::order_status;
pub use payment::payment;
pub use queue::{queue_delivery, run_delivery, Queue, Waiting};
pub use request::{Delivery, Line, NewOrder, OrderStatus, Payment, Request, StockLevel, Who};
pub use stock_level::stock_level;
