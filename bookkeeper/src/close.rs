//! The sheet of a month: lots ordered and delivered by depot and item, and each farm's account; whether it adds up to the book.

use crate::book::Book;
use crate::show::{each_farm, each_line, each_order, each_payment, each_stock, plain};
use std::io::{Result, Write};

/// Two sums, each over what is dated before, within and after the time of the sheet: a stock's lots ordered and lots delivered, in the order of the
/// stock rows; a farm's amounts delivered and payments, in the order of the farms.
type Moved = [[i64; 3]; 2];

struct Sheet<'a> {
    book: &'a Book,
    from: i64,
    until: i64,
    stock: Vec<Moved>,
    farms: Vec<Moved>,
    faults: Vec<String>,
}

/// Writes both tables, for the time from one second to another, both counted and the first not the later one. Answers where they do not add up to
/// the book: a balance that is not what was delivered less what was paid, lots to date that are not those of the order lines.
pub fn close(book: &Book, from: i64, until: i64, out: &mut dyn Write) -> Result<Vec<String>> {
    let nothing = Moved::default();
    let (stock, farms) = (vec![nothing; book.sizes.warehouses * book.sizes.items], vec![nothing; book.sizes.farms()]);
    let mut sheet = Sheet { book, from, until, stock, farms, faults: Vec::new() };
    sheet.add_orders();
    sheet.add_payments();
    sheet.write_stock(out)?;
    writeln!(out)?;
    sheet.write_farms(out)?;
    Ok(sheet.faults)
}

impl Sheet<'_> {
    /// 0 before, 1 within, 2 after.
    fn time(&self, date: i64) -> usize {
        usize::from(date >= self.from) + usize::from(date > self.until)
    }

    fn stock_place(&self, w: i64, i: i64) -> Option<usize> {
        let items = self.book.sizes.items;
        Some(up_to(w, self.book.sizes.warehouses)? * items + up_to(i, items)?)
    }

    fn farm_place(&self, w: i64, d: i64, c: i64) -> Option<usize> {
        let customers = self.book.sizes.customers;
        Some((up_to(w, self.book.sizes.warehouses)? * 10 + up_to(d, 10)?) * customers + up_to(c, customers)?)
    }

    fn add_orders(&mut self) {
        for (w, d, o, order) in each_order(self.book) {
            let farm = self.farm_place(w as i64, d as i64, order[0]);
            let entered = self.time(order[1]);
            for (number, line) in (1..).zip(each_line(order)) {
                let &[item, supply, quantity, amount, delivery] = line else { continue };
                let (Some(stock), Some(farm)) = (self.stock_place(supply, item), farm) else {
                    let names = format!("names farm {}, item {item} and depot {supply}", order[0]);
                    self.faults.push(format!("order {w} {d} {o}: line {number} {names}, one of which the book has not"));
                    continue;
                };
                self.stock[stock][0][entered] += quantity;
                if delivery != 0 {
                    let delivered = self.time(delivery);
                    self.stock[stock][1][delivered] += quantity;
                    self.farms[farm][0][delivered] += amount;
                }
            }
        }
    }

    fn add_payments(&mut self) {
        for (payment, row) in (1..).zip(each_payment(self.book)) {
            let paid = self.time(row[5]);
            match self.farm_place(row[2], row[1], row[0]) {
                Some(farm) => self.farms[farm][1][paid] += row[6],
                None => self.faults.push(format!("payment {payment}: the book has no farm {} {} {}", row[2], row[1], row[0])),
            }
        }
    }

    fn write_stock(&mut self, out: &mut dyn Write) -> Result<()> {
        writeln!(out, "depot\titem\tlots_ordered\tlots_delivered")?;
        let mut total = [0; 2];
        for ((w, i), [ordered, delivered]) in each_stock(self.book).zip(&self.stock) {
            let (lots, to_date) = (ordered.iter().sum::<i64>(), self.book.nums[self.book.sizes.stock_at(w, i) + 1]);
            if lots != to_date {
                self.faults.push(format!("stock {w} {i}: its order lines have {lots} lots, its lots to date are {to_date}"));
            }
            if [ordered[1], delivered[1]] != [0; 2] {
                writeln!(out, "{w}\t{i}\t{}\t{}", ordered[1], delivered[1])?;
            }
            total = [total[0] + ordered[1], total[1] + delivered[1]];
        }
        writeln!(out, "total\t\t{}\t{}", total[0], total[1])
    }

    fn write_farms(&mut self, out: &mut dyn Write) -> Result<()> {
        writeln!(out, "depot\tdistrict\tfarm\tlast\tfirst\tbrought_forward\torders_delivered\tpayments\tcarried_forward")?;
        let mut total = [0; 4];
        for ((w, d, c), [delivered, paid]) in each_farm(self.book).zip(&self.farms) {
            let brought = delivered[0] - paid[0];
            let carried = brought + delivered[1] - paid[1];
            let (now, balance) = (carried + delivered[2] - paid[2], self.book.nums[self.book.sizes.customer_at(w, d, c) + 2]);
            if now != balance {
                self.faults.push(format!("farm {w} {d} {c}: delivered less paid is {now}, its balance is {balance}"));
            }
            let figures = [brought, delivered[1], paid[1], carried];
            if figures != [0; 4] {
                let (last, first) = self.book.name(w, d, c);
                write_figures(out, &format!("{w}\t{d}\t{c}\t{}\t{}", plain(last), plain(first)), figures)?;
            }
            total = std::array::from_fn(|at| total[at] + figures[at]);
        }
        write_figures(out, "total\t\t\t\t", total)
    }
}

fn write_figures(out: &mut dyn Write, whose: &str, [brought, delivered, paid, carried]: [i64; 4]) -> Result<()> {
    writeln!(out, "{whose}\t{brought}\t{delivered}\t{paid}\t{carried}")
}

/// A number from 1 to a limit, counted from 0.
fn up_to(number: i64, limit: usize) -> Option<usize> {
    usize::try_from(number).ok().filter(|number| (1..=limit).contains(number)).map(|number| number - 1)
}
