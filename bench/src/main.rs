//! Measures the proved library beside the second engine, SQLite in memory and, for the calls that scan, a plain sum.
//!
//! Prints Markdown tables and draws one chart: bench ROOT [quick | on-disk | profile CALL WAREHOUSES], ROOT being this repository's folder. Quick
//! leaves out the large books, the books on disk and the chart; on-disk has the books on disk alone; profile carries out one call on the proved
//! library alone, for a profiler to look at.

mod book;
mod by_hand;
mod chart;
mod check;
mod contender;
mod keeper;
mod load;
mod measure;
mod on_disk;
mod requests;
mod sql;
mod sqlite;
mod sums;
mod tables;
mod topup;

use book::Size;
use std::path::Path;

const HALF: usize = 1_500;
const NEARLY: usize = 2_700;

fn main() {
    let arguments: Vec<String> = std::env::args().skip(1).collect();
    let words: Vec<&str> = arguments.iter().map(String::as_str).collect();
    match words[..] {
        [_, "quick"] => {
            measured(1);
        }
        [_, "profile", call, warehouses] => {
            let warehouses = warehouses.parse().expect("a number of warehouses");
            measure::alone(call, &sized(warehouses, NEARLY));
        }
        [root, "on-disk"] => {
            tables::machine();
            kept(Path::new(root));
        }
        [root] => {
            let (root, (title, book)) = (Path::new(root), measured(5));
            let drawn = chart::draw(title, &book.rows);
            std::fs::write(root.join("docs/benchmarks.svg"), drawn)
                .expect("the chart can be written");
            grown();
            kept(root);
        }
        _ => eprintln!("usage: bench ROOT [quick | on-disk | profile CALL WAREHOUSES]"),
    }
}

/// All tables of books up to `most` warehouses; what was measured on the last.
fn measured(most: usize) -> (&'static str, measure::Measured) {
    tables::machine();
    checked();
    let mut books = compared(most);
    tables::passes(&books);
    let table = topup::table(64);
    tables::table(&table);
    tables::searches(&books);
    tables::notes(&books);
    let waiting = measure::waiting(256);
    tables::waiting(&books, &waiting);
    tables::missed(&books, &waiting, &table);
    books.pop().expect("a book")
}

/// The same answers first.
fn checked() {
    let answered = check::random_lists();
    let refusals: Vec<String> = (1..15)
        .filter(|&n| answered[n] > 0)
        .map(|n| format!("{n}: {}", answered[n]))
        .collect();
    println!(
        "\nRequests whose answers were compared before timing: {} committed; refused by number {}.",
        answered[0],
        refusals.join(", ")
    );
}

/// C 3,000, I 100,000, O 3,000, H 100,000, with room for every payment that is timed.
fn sized(warehouses: usize, orders: usize) -> Size {
    let histories = 75_000 * orders / 3_000;
    Size {
        warehouses,
        customers: 3_000,
        items: 100_000,
        order_slots: 3_000,
        history_slots: 100_000,
        orders,
        histories,
    }
}

/// The tables of each book up to `most` warehouses.
fn compared(most: usize) -> Vec<(&'static str, measure::Measured)> {
    println!("\n## Call by call");
    let books = [
        ("W 1, half full", 1, HALF),
        ("W 1, nearly full", 1, NEARLY),
        ("W 5, half full", 5, HALF),
        ("W 5, nearly full", 5, NEARLY),
    ];
    let chosen = books
        .into_iter()
        .filter(|&(_, warehouses, _)| warehouses <= most);
    let measured = chosen.map(|(title, warehouses, orders)| {
        let book = measure::book(&sized(warehouses, orders), 1);
        tables::compared(title, &book.rows);
        (title, book)
    });
    measured.collect()
}

/// A tenth, a third and the whole of the largest book's dimensions, nine tenths full.
fn grown() {
    println!("\n## How cost grows");
    let largest = |parts: usize| Size {
        warehouses: 20_usize.div_ceil(parts),
        customers: 3_000 / parts,
        items: 100_000 / parts,
        order_slots: 10_000 / parts,
        history_slots: 1_000_000 / parts,
        orders: 9_000 / parts,
        histories: 850_000 / parts,
    };
    let sizes = [10, 3, 1].map(|parts| measure::book(&largest(parts), 2));
    tables::growth(&["A tenth", "A third", "The whole"], &sizes);
}

/// Books on disk: of a cooperative's size and with TPC-C's customers and items, each just opened and with 1,500 orders in each district; then the
/// start.
fn kept(root: &Path) {
    let place = on_disk::Place::below(root);
    let kind = |title, customers, items, before| on_disk::Kind {
        title,
        customers,
        items,
        before,
    };
    let kinds = [
        kind("C 300, I 1,000, new", 300, 1_000, 0),
        kind("C 300, I 1,000, half full", 300, 1_000, 66_700),
        kind("C 3,000, I 100,000, new", 3_000, 100_000, 0),
        kind("C 3,000, I 100,000, half full", 3_000, 100_000, 66_700),
    ];
    let books = kinds.map(|kind| on_disk::mixed(&place, &kind, 15));
    tables::on_disk(&books, &on_disk::started(&place, 150_000, 3));
}
