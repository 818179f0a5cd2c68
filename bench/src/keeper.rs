//! `bookkeeper` as a process: a book made from its master data, and `run` spoken to through pipes.

use second::layout::{customer, district, stock, warehouse, Layout, NAMES_WIDTH};
use second::replay::Lent;
use std::io::{BufRead, BufReader, Read, Write};
use std::path::Path;
use std::process::{Child, ChildStdin, ChildStdout, Command, Stdio};
use std::thread;

/// The master data of a book, as `bookkeeper new` reads it.
pub fn masters(lent: &Lent, layout: &Layout) -> String {
    let Layout {
        warehouses,
        customers,
        items,
        ..
    } = *layout;
    let (orders, histories) = (layout.order_slots, layout.history_slots);
    let mut text = format!("sizes\t{warehouses}\t{customers}\t{items}\t{orders}\t{histories}\n");
    for item in 1..=items {
        let [margin, lift] = lent.topup[layout.topup(item)] else {
            panic!("a margin and a lift");
        };
        let price = lent.nums[layout.price(item)];
        text += &format!("item\t{item}\t{price}\t{margin}\t{lift}\n");
    }
    for w in 1..=warehouses {
        text += &format!(
            "depot\t{w}\t{}\n",
            lent.nums[layout.warehouse(w)][warehouse::TAX]
        );
        for item in 1..=items {
            let on_hand = lent.nums[layout.stock(w, item)][stock::ON_HAND];
            text += &format!("stock\t{w}\t{item}\t{on_hand}\n");
        }
        for d in 1..=10 {
            let tax = lent.nums[layout.district(w, d)][district::TAX];
            text += &format!("district\t{w}\t{d}\t{tax}\n");
            put_farms(&mut text, lent, layout, (w, d));
        }
    }
    text
}

fn put_farms(text: &mut String, lent: &Lent, layout: &Layout, (w, d): (usize, usize)) {
    let names = lent.names[layout.names_of(w, d)].chunks_exact(NAMES_WIDTH);
    for (c, name) in (1..=layout.customers).zip(names) {
        let row = &lent.nums[layout.customer(w, d, c)];
        let [last, first] = [&name[..16], &name[16..]].map(|part| String::from_utf8_lossy(part));
        let (credit, discount) = (row[customer::CREDIT], row[customer::DISCOUNT]);
        *text += &format!(
            "farm\t{w}\t{d}\t{c}\t{}\t{}\t{credit}\t{discount}\n",
            last.trim_end(),
            first.trim_end()
        );
    }
}

/// A new book in a folder that is not there yet.
pub fn new(program: &Path, dir: &Path, masters: &str) {
    let mut child = Command::new(program)
        .arg("new")
        .arg(dir)
        .stdin(Stdio::piped())
        .spawn()
        .expect("bookkeeper starts");
    let mut input = child.stdin.take().expect("its input");
    input
        .write_all(masters.as_bytes())
        .expect("new reads its masters");
    drop(input);
    assert!(
        child.wait().expect("new ends").success(),
        "bookkeeper new fails"
    );
}

/// `bookkeeper run`, with pipes for its input and output.
pub struct Running {
    child: Child,
    input: ChildStdin,
    output: BufReader<ChildStdout>,
}

impl Running {
    pub fn start(program: &Path, dir: &Path, options: &[&str]) -> Running {
        let mut child = Command::new(program)
            .arg("run")
            .args(options)
            .arg(dir)
            .stdin(Stdio::piped())
            .stdout(Stdio::piped())
            .spawn()
            .expect("bookkeeper starts");
        let input = child.stdin.take().expect("its input");
        let output = BufReader::with_capacity(1 << 16, child.stdout.take().expect("its output"));
        Running {
            child,
            input,
            output,
        }
    }

    /// A line written, its answer read, then the next; all answers.
    pub fn one_at_a_time(&mut self, lines: &[Vec<u8>]) -> Vec<u8> {
        let mut answers = Vec::new();
        for line in lines {
            self.input.write_all(line).expect("run reads");
            take_line(&mut self.output, &mut answers);
        }
        answers
    }

    /// So many lines written, as fast as they are taken, and the answers read meanwhile; all answers.
    pub fn piped(&mut self, lines: &[u8], count: usize) -> Vec<u8> {
        let Running { input, output, .. } = self;
        let mut answers = Vec::new();
        thread::scope(|scope| {
            scope.spawn(|| input.write_all(lines).expect("run reads"));
            (0..count).for_each(|_| take_line(output, &mut answers));
        });
        answers
    }

    /// The end of its input; waits for its own.
    pub fn end(mut self) {
        drop(self.input);
        let mut rest = Vec::new();
        self.output.read_to_end(&mut rest).expect("run ends");
        assert!(rest.is_empty(), "more answers than lines");
        assert!(
            self.child.wait().expect("run ends").success(),
            "bookkeeper run fails"
        );
    }

    /// Ends it at once, by SIGKILL.
    pub fn kill(mut self) {
        self.child.kill().expect("run can be killed");
        self.child.wait().expect("run ends");
    }
}

fn take_line(output: &mut BufReader<ChildStdout>, answers: &mut Vec<u8>) {
    let length = output.read_until(b'\n', answers).expect("run answers");
    assert!(length > 0, "bookkeeper run ends too early");
}
