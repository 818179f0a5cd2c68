//! A book's tables as tab-separated text with a header row. Money is cents, rates are ten-thousandths.

use crate::book::{Book, CUSTOMER_WIDTH, DISTRICTS, DISTRICT_WIDTH, HISTORY_WIDTH, LINE_WIDTH, ORDER_WIDTH, STOCK_WIDTH, WAREHOUSE_WIDTH};
use crate::date;
use std::io::{Error, ErrorKind, Result, Write};

type Rows = fn(&Book, &mut dyn Write) -> Result<()>;

/// Each table's name, its columns and what writes its rows.
const ALL: [(&str, &str, Rows); 9] = [
    ("depots", "depot tax paid", depots),
    ("districts", "depot district tax paid next_order", districts),
    ("farms", "depot district farm last first credit discount balance paid payments deliveries last_order", farms),
    ("items", "item price margin lift", items),
    ("stock", "depot item on_hand lots orders remote", stock),
    (
        "orders",
        "depot district order farm entry_date carrier waiting all_local line item supplied_by quantity amount delivery_date",
        orders,
    ),
    ("history", "payment depot district farm paid_depot paid_district date amount", history),
    ("notes", "depot district farm note", notes),
    ("waiting", "place queued depot carrier", waiting),
];

pub const TABLES: [&str; 9] = {
    let (mut names, mut at) = ([""; 9], 0);
    while at < names.len() {
        names[at] = ALL[at].0;
        at += 1;
    }
    names
};

/// The table of a name that is one of TABLES.
pub fn table(book: &Book, name: &str, out: &mut dyn Write) -> Result<()> {
    let Some((_, columns, rows)) = ALL.iter().find(|table| table.0 == name) else {
        return Err(Error::new(ErrorKind::InvalidInput, format!("{name:?} is none of {}", TABLES.join(", "))));
    };
    writeln!(out, "{}", columns.replace(' ', "\t"))?;
    rows(book, out)
}

/// Depot and district of every district; depot, district and number of every farm.
fn each_district(book: &Book) -> impl Iterator<Item = (usize, usize)> {
    (1..=book.sizes.warehouses).flat_map(|w| (1..=DISTRICTS).map(move |d| (w, d)))
}

pub fn each_farm(book: &Book) -> impl Iterator<Item = (usize, usize, usize)> {
    let customers = book.sizes.customers;
    each_district(book).flat_map(move |(w, d)| (1..=customers).map(move |c| (w, d, c)))
}

pub fn each_stock(book: &Book) -> impl Iterator<Item = (usize, usize)> {
    let items = book.sizes.items;
    (1..=book.sizes.warehouses).flat_map(move |w| (1..=items).map(move |i| (w, i)))
}

/// Depot, district and number of every order before the next order number, with its row.
pub fn each_order(book: &Book) -> impl Iterator<Item = (usize, usize, usize, &[i64])> {
    let sizes = book.sizes;
    each_district(book).flat_map(move |(w, d)| {
        let next = book.nums[sizes.district_at(w, d) + 2].clamp(1, sizes.orders as i64 + 1) as usize;
        (1..next).map(move |o| (w, d, o, book.row(sizes.order_at(w, d, o), ORDER_WIDTH)))
    })
}

/// The lines of an order's row that are in use.
pub fn each_line(order: &[i64]) -> impl Iterator<Item = &[i64]> {
    order[6..].chunks_exact(LINE_WIDTH).take(order[3].max(0) as usize)
}

/// The history rows up to the history count.
pub fn each_payment(book: &Book) -> impl Iterator<Item = &[i64]> {
    let count = book.nums[5].clamp(0, book.sizes.histories as i64) as usize;
    (1..=count).map(|h| book.row(book.sizes.history_at(h), HISTORY_WIDTH))
}

/// Bytes without their spaces at the end, '?' for what is no plain character.
pub fn plain(bytes: &[u8]) -> String {
    let text: String = bytes.iter().map(|&byte| if (32..=126).contains(&byte) { char::from(byte) } else { '?' }).collect();
    text.trim_end().to_string()
}

fn depots(book: &Book, out: &mut dyn Write) -> Result<()> {
    (1..=book.sizes.warehouses).try_for_each(|w| {
        let row = book.row(book.sizes.warehouse_at(w), WAREHOUSE_WIDTH);
        writeln!(out, "{w}\t{}\t{}", row[0], row[1])
    })
}

fn districts(book: &Book, out: &mut dyn Write) -> Result<()> {
    each_district(book).try_for_each(|(w, d)| {
        let row = book.row(book.sizes.district_at(w, d), DISTRICT_WIDTH);
        writeln!(out, "{w}\t{d}\t{}\t{}\t{}", row[0], row[1], row[2])
    })
}

fn farms(book: &Book, out: &mut dyn Write) -> Result<()> {
    each_farm(book).try_for_each(|(w, d, c)| {
        let row = book.row(book.sizes.customer_at(w, d, c), CUSTOMER_WIDTH);
        let (last, first) = book.name(w, d, c);
        write!(out, "{w}\t{d}\t{c}\t{}\t{}\t{}", plain(last), plain(first), if row[0] == 0 { "good" } else { "bad" })?;
        row[1..].iter().try_for_each(|number| write!(out, "\t{number}"))?;
        writeln!(out, "\t{}", book.last[book.sizes.farm(w, d, c)])
    })
}

fn items(book: &Book, out: &mut dyn Write) -> Result<()> {
    (1..).zip(book.topup.chunks_exact(2)).try_for_each(|(i, topup)| {
        let price = book.nums[book.sizes.item_at(i)];
        writeln!(out, "{i}\t{price}\t{}\t{}", topup[0], topup[1])
    })
}

fn stock(book: &Book, out: &mut dyn Write) -> Result<()> {
    each_stock(book).try_for_each(|(w, i)| {
        let row = book.row(book.sizes.stock_at(w, i), STOCK_WIDTH);
        writeln!(out, "{w}\t{i}\t{}\t{}\t{}\t{}", row[0], row[1], row[2], row[3])
    })
}

fn orders(book: &Book, out: &mut dyn Write) -> Result<()> {
    each_order(book).try_for_each(|(w, d, o, order)| {
        let (farm, entered, carrier, all_local, waiting) = (order[0], date::text(order[1]), order[2], order[4], order[5]);
        (1..).zip(each_line(order)).try_for_each(|(number, line)| {
            write!(out, "{w}\t{d}\t{o}\t{farm}\t{entered}\t{carrier}\t{waiting}\t{all_local}\t{number}")?;
            writeln!(out, "\t{}\t{}\t{}\t{}\t{}", line[0], line[1], line[2], line[3], date::text(line[4]))
        })
    })
}

fn history(book: &Book, out: &mut dyn Write) -> Result<()> {
    (1..).zip(each_payment(book)).try_for_each(|(payment, row): (usize, _)| {
        writeln!(out, "{payment}\t{}\t{}\t{}\t{}\t{}\t{}\t{}", row[2], row[1], row[0], row[4], row[3], date::text(row[5]), row[6])
    })
}

fn notes(book: &Book, out: &mut dyn Write) -> Result<()> {
    each_farm(book).try_for_each(|(w, d, c)| match plain(book.note(w, d, c)) {
        note if note.is_empty() => Ok(()),
        note => writeln!(out, "{w}\t{d}\t{c}\t{note}"),
    })
}

fn waiting(book: &Book, out: &mut dyn Write) -> Result<()> {
    (1..).zip(book.queue.waiting.iter().take(book.queue.count as usize)).try_for_each(|(place, request): (usize, _)| {
        writeln!(out, "{place}\t{}\t{}\t{}", date::text(request.date as i64), request.warehouse, request.carrier)
    })
}
