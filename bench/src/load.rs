//! A book written into SQLite's tables.

use crate::sqlite::{Database, Statement};
use second::layout::{district, order, order_line, Layout};
use second::replay::Lent;

/// The tables, filled with the rows of a book.
pub fn load(db: &Database, lent: &Lent, layout: &Layout) {
    db.exec("PRAGMA page_size = 4096; PRAGMA temp_store = MEMORY;");
    db.exec(include_str!("tables.sql"));
    db.exec("BEGIN");
    load_items(db, lent, layout);
    for warehouse in 1..=layout.warehouses {
        load_warehouse(db, lent, layout, warehouse);
    }
    load_histories(db, lent, layout);
    db.exec("COMMIT");
}

/// An insert of so many columns.
fn insert(db: &Database, table: &str, columns: usize) -> Statement {
    let places = vec!["?"; columns].join(", ");
    db.prepare(&format!("INSERT INTO {table} VALUES ({places})"))
}

fn row(keys: &[i64], columns: &[i64]) -> Vec<i64> {
    [keys, columns].concat()
}

fn load_items(db: &Database, lent: &Lent, layout: &Layout) {
    let mut items = insert(db, "item", 4);
    for item in 1..=layout.items {
        let price = lent.nums[layout.price(item)];
        items.run(&row(&[item as i64, price], &lent.topup[layout.topup(item)]));
    }
}

fn load_warehouse(db: &Database, lent: &Lent, layout: &Layout, w: usize) {
    insert(db, "warehouse", 3).run(&row(&[w as i64], &lent.nums[layout.warehouse(w)]));
    let mut stocks = insert(db, "stock", 6);
    for item in 1..=layout.items {
        stocks.run(&row(
            &[w as i64, item as i64],
            &lent.nums[layout.stock(w, item)],
        ));
    }
    for d in 1..=10 {
        insert(db, "district", 5).run(&row(
            &[w as i64, d as i64],
            &lent.nums[layout.district(w, d)],
        ));
        load_customers(db, lent, layout, (w, d));
        load_orders(db, lent, layout, (w, d));
    }
}

fn load_customers(db: &Database, lent: &Lent, layout: &Layout, (w, d): (usize, usize)) {
    let mut customers = insert(db, "customer", 11);
    let names = lent.names[layout.names_of(w, d)].chunks_exact(32);
    for (customer, name) in (1..=layout.customers).zip(names) {
        let numbers = row(
            &[w as i64, d as i64, customer as i64],
            &lent.nums[layout.customer(w, d, customer)],
        );
        customers.each_with::<0>(&numbers, &[&name[..16], &name[16..]], |_| ());
    }
}

fn load_orders(db: &Database, lent: &Lent, layout: &Layout, (w, d): (usize, usize)) {
    let (mut orders, mut waiting, mut lines) = (
        insert(db, "orders", 8),
        insert(db, "new_order", 3),
        insert(db, "order_line", 9),
    );
    let next = lent.nums[layout.district(w, d)][district::NEXT_ORDER] as usize;
    for number in 1..next {
        let slot = &lent.nums[layout.order(w, d, number)];
        let key = [w as i64, d as i64, number as i64];
        orders.run(&row(&key, &slot[..order::WAITING]));
        if slot[order::WAITING] == 1 {
            waiting.run(&key);
        }
        let used = second::rows::lines_in_use(slot).chunks_exact(order_line::WIDTH);
        for (place, line) in (1..).zip(used) {
            lines.run(&row(&[key[0], key[1], key[2], place], line));
        }
    }
}

fn load_histories(db: &Database, lent: &Lent, layout: &Layout) {
    let mut histories = insert(db, "history", 8);
    for before in 0..layout.history_count {
        histories.run(&row(
            &[before as i64 + 1],
            &lent.nums[layout.history(before)],
        ));
    }
}
