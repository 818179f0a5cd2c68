//! The requests that are timed, made as TPC-C 2.4 to 2.8 and 5.2.3 make them.

use crate::book::{self, Size};
use second::layout::customer;
use second::lists::random::Random;
use second::replay::Lent;
use second::{Delivery, Line, NewOrder, OrderStatus, Payment, Request, StockLevel, Who};

const DATE: u64 = 3_900_000_001;

/// A kind of call that has a row of its own.
#[derive(Clone, Copy, PartialEq, Eq)]
pub enum Call {
    NewOrder,
    PaymentByNumber,
    /// By number, of a customer whose credit is 0.
    PaymentGoodCredit,
    /// By number, of one whose credit is 1.
    PaymentBadCredit,
    PaymentByName,
    Delivery,
    StatusByNumber,
    StatusByName,
    StockLevel,
    Mix,
}

/// A row of a table: the call, its name, the requests of a batch, and how many rounds there are.
pub struct Timed {
    pub call: Call,
    pub name: &'static str,
    pub batch: usize,
    pub rounds: usize,
}

const fn timed(call: Call, name: &'static str, batch: usize, rounds: usize) -> Timed {
    Timed {
        call,
        name,
        batch,
        rounds,
    }
}

/// Every row. A batch is short, so that among its rounds some are undisturbed; New-Orders are as many as a nearly full book has room for.
pub const CALLS: [Timed; 10] = [
    timed(Call::NewOrder, "New-Order", 45, 40),
    timed(Call::PaymentByNumber, "Payment by number", 150, 48),
    timed(
        Call::PaymentGoodCredit,
        "Payment by number, credit 0",
        60,
        64,
    ),
    timed(
        Call::PaymentBadCredit,
        "Payment by number, credit 1",
        60,
        64,
    ),
    timed(Call::PaymentByName, "Payment by name", 45, 32),
    timed(Call::Delivery, "Delivery", 2, 64),
    timed(Call::StatusByNumber, "Order-Status by number", 100, 64),
    timed(Call::StatusByName, "Order-Status by name", 45, 64),
    timed(Call::StockLevel, "Stock-Level", 10, 64),
    timed(Call::Mix, "TPC-C's mix", 100, 16),
];

impl Call {
    pub fn pays_by_number(self) -> bool {
        matches!(
            self,
            Call::PaymentByNumber | Call::PaymentGoodCredit | Call::PaymentBadCredit
        )
    }

    pub fn writes(self) -> bool {
        !matches!(
            self,
            Call::StatusByNumber | Call::StatusByName | Call::StockLevel
        )
    }
}

/// Asks about one book; the terminals, one for each district, take turns.
pub struct Asker {
    random: Random,
    size: Size,
    terminal: usize,
    /// Of each customer, by warehouse, district and number.
    credits: Vec<i64>,
}

impl Asker {
    pub fn new(size: &Size, lent: &Lent, seed: u64) -> Asker {
        let layout = size.layout();
        let first = layout.customer(1, 1, 1).start;
        let rows = &lent.nums[first..layout.price(1)];
        let credits = rows.iter().step_by(customer::WIDTH).copied();
        Asker {
            random: Random::new(seed),
            size: *size,
            terminal: 0,
            credits: credits.collect(),
        }
    }

    /// A batch of requests of one kind.
    pub fn batch(&mut self, call: Call, count: usize) -> Vec<Request> {
        if call == Call::Mix {
            return (0..count / 100).flat_map(|_| self.deck()).collect();
        }
        (0..count).map(|_| self.request(call)).collect()
    }

    /// A hundred calls in TPC-C's mix and in a random order; one New-Order in a hundred names an unused item.
    fn deck(&mut self) -> Vec<Request> {
        let counts = [45, 43, 4, 4, 4];
        let mut kinds: Vec<usize> = (0..5).flat_map(|kind| vec![kind; counts[kind]]).collect();
        for place in (1..kinds.len()).rev() {
            kinds.swap(place, self.random.below(place + 1));
        }
        kinds.into_iter().map(|kind| self.mixed(kind)).collect()
    }

    fn mixed(&mut self, kind: usize) -> Request {
        let by_name = self.random.percent(60);
        match (kind, by_name) {
            (0, _) => self.perhaps_unused(),
            (1, false) => self.request(Call::PaymentByNumber),
            (1, true) => self.request(Call::PaymentByName),
            (2, _) => self.request(Call::Delivery),
            (3, false) => self.request(Call::StatusByNumber),
            (3, true) => self.request(Call::StatusByName),
            _ => self.request(Call::StockLevel),
        }
    }

    fn perhaps_unused(&mut self) -> Request {
        let mut order = self.new_order();
        if self.random.percent(1) {
            if let Some(last) = order.lines.last_mut() {
                last.item = self.size.items as u64 + 1;
            }
        }
        Request::NewOrder(order)
    }

    fn request(&mut self, call: Call) -> Request {
        match call {
            Call::NewOrder | Call::Mix => Request::NewOrder(self.new_order()),
            Call::PaymentByNumber
            | Call::PaymentGoodCredit
            | Call::PaymentBadCredit
            | Call::PaymentByName => self.payment(call),
            Call::Delivery => self.delivery(),
            Call::StatusByNumber | Call::StatusByName => self.status(call),
            Call::StockLevel => self.stock_level(),
        }
    }

    /// Warehouse and district of the terminal whose turn it is.
    fn terminal(&mut self) -> (u64, u64) {
        self.terminal += 1;
        let (warehouse, district) = (
            self.terminal / 10 % self.size.warehouses,
            self.terminal % 10,
        );
        (warehouse as u64 + 1, district as u64 + 1)
    }

    fn customer(&mut self) -> u64 {
        book::non_uniform(&mut self.random, 1_023, self.size.customers) as u64
    }

    /// A customer by number, or by a last name that somebody has.
    fn who(&mut self, by_name: bool) -> Who {
        if !by_name {
            return Who::Number(self.customer());
        }
        let names = self.size.customers.min(1_000);
        Who::LastName(book::last_name(
            book::non_uniform(&mut self.random, 255, names) - 1,
        ))
    }

    /// Another warehouse in so many of a hundred cases, where there is another.
    fn warehouse_near(&mut self, home: u64, of_hundred: usize) -> u64 {
        let others = self.size.warehouses - 1;
        if others == 0 || !self.random.percent(of_hundred) {
            return home;
        }
        (home - 1 + 1 + self.random.below(others) as u64) % self.size.warehouses as u64 + 1
    }

    fn new_order(&mut self) -> NewOrder {
        let (warehouse, district) = self.terminal();
        let count = self.random.between(5, 15);
        NewOrder {
            warehouse,
            district,
            customer: self.customer(),
            date: DATE,
            lines: (0..count).map(|_| self.line(warehouse)).collect(),
        }
    }

    fn line(&mut self, warehouse: u64) -> Line {
        Line {
            item: book::non_uniform(&mut self.random, 8_191, self.size.items) as u64,
            supply_warehouse: self.warehouse_near(warehouse, 1),
            quantity: self.random.between(1, 10) as u64,
        }
    }

    fn payment(&mut self, call: Call) -> Request {
        let (warehouse, district) = self.terminal();
        let customer_warehouse = self.warehouse_near(warehouse, 15);
        let away = customer_warehouse != warehouse;
        let customer_district = if away {
            self.random.between(1, 10) as u64
        } else {
            district
        };
        let drawn = self.who(call == Call::PaymentByName);
        Request::Payment(Payment {
            warehouse,
            district,
            customer_warehouse,
            customer_district,
            who: self.with_credit(call, (customer_warehouse, customer_district), drawn),
            date: DATE,
            amount: self.random.between(100, 500_000) as u64,
        })
    }

    /// The customer drawn or, where the call is of one credit, the next of its district that has it, the first following the last.
    fn with_credit(&self, call: Call, (w, d): (u64, u64), drawn: Who) -> Who {
        let (number, credit) = match (drawn, call) {
            (Who::Number(number), Call::PaymentGoodCredit) => (number, 0),
            (Who::Number(number), Call::PaymentBadCredit) => (number, 1),
            (drawn, _) => return drawn,
        };
        let customers = self.size.customers as u64;
        let before = ((w - 1) * 10 + d - 1) * customers;
        let mut from_drawn = (0..customers).map(|step| (number - 1 + step) % customers);
        let found = from_drawn.find(|place| self.credits[(before + place) as usize] == credit);
        Who::Number(found.expect("a customer of this credit") + 1)
    }

    fn delivery(&mut self) -> Request {
        let warehouse = 1 + self.random.below(self.size.warehouses) as u64;
        Request::Delivery(Delivery {
            warehouse,
            carrier: self.random.between(1, 10) as u64,
            date: DATE,
        })
    }

    fn status(&mut self, call: Call) -> Request {
        let (warehouse, district) = self.terminal();
        let who = self.who(call == Call::StatusByName);
        Request::OrderStatus(OrderStatus {
            warehouse,
            district,
            who,
        })
    }

    fn stock_level(&mut self) -> Request {
        let (warehouse, district) = self.terminal();
        Request::StockLevel(StockLevel {
            warehouse,
            district,
            threshold: self.random.between(10, 20) as u64,
        })
    }
}
