//! What a kept book has to be: the second engine carries out the lines, and the journal that they leave is written here once more.

use bookkeeper::book::Book;
use bookkeeper::checksum::extend;
use bookkeeper::{kept, RULES};
use second::{book_program, Delivery, DeliveryAnswer, Outcome, Queue, Refusal, Request};
use std::path::Path;

pub struct Model {
    book: book_program::Book,
    queue: Queue,
    /// The journal's bytes, and how many of them the first so many records take.
    pub journal: Vec<u8>,
    pub ends: Vec<usize>,
    checksum: u64,
}

impl Clone for Model {
    fn clone(&self) -> Model {
        let (ends, journal) = (self.ends.clone(), self.journal.clone());
        Model { book: copy(&self.book), queue: self.queue, journal, ends, checksum: self.checksum }
    }
}

fn copy(book: &book_program::Book) -> book_program::Book {
    let (nums, names, last) = (book.nums.clone(), book.names.clone(), book.last.clone());
    book_program::Book { nums, names, last, notes: book.notes.clone(), topup: book.topup.clone() }
}

impl Model {
    /// Of a book's folder, as it was opened.
    pub fn of(dir: &Path) -> Model {
        let image = kept::opening(dir).expect("an opening image");
        let Book { nums, names, last, notes, topup, .. } = image.book;
        let book = book_program::Book { nums, names, last, notes, topup };
        Model { book, queue: Queue::default(), journal: Vec::new(), ends: vec![0], checksum: image.checksum }
    }

    pub fn records(&self) -> usize {
        self.ends.len() - 1
    }

    /// The answers to every line of an input.
    pub fn answers(&mut self, input: &[u8]) -> Vec<u8> {
        super::lines::split(input).flat_map(|line| self.answer(line)).collect()
    }

    /// Carries out a line, records it where it changed something, and answers it.
    pub fn answer(&mut self, line: &[u8]) -> Vec<u8> {
        let (answer, lifts) = match line.first() {
            Some(b'Q') => (numbers(line, 3).map(|n| self.queue_delivery(n)), None),
            Some(b'R') => (numbers(line, 1).map(|n| self.run_delivery(n[0])), None),
            Some(b'N') => self.new_order(line),
            _ => (Some(self.book.answer(line)), None),
        };
        let answer = answer.unwrap_or_else(|| "?\t1\t0\n".to_string());
        let changed = match answer.as_bytes() {
            [b'N' | b'P' | b'D' | b'Q', b'\t', b'0', b'\t', ..] => true,
            [b'R', ..] => answer != "R\t16\t0\n",
            _ => false,
        };
        if changed {
            self.record(line, &answer, lifts);
        }
        answer.into_bytes()
    }

    fn new_order(&mut self, line: &[u8]) -> (Option<String>, Option<u64>) {
        let Outcome::Committed(Request::NewOrder(order)) = second::read_line(line) else { return (None, None) };
        let book = &mut self.book;
        match second::new_order(&mut book.nums, &book.names, &mut book.last, &book.topup, &order) {
            Outcome::Committed(f) => (Some(format!("N\t0\t{}\t{}\n", f.order, f.total)), Some(f.lifts)),
            Outcome::Refused(Refusal { number, detail }) => (Some(format!("N\t{number}\t{detail}\n")), None),
        }
    }

    fn queue_delivery(&mut self, numbers: Vec<u64>) -> String {
        let request = Delivery { warehouse: numbers[0], carrier: numbers[1], date: numbers[2] };
        match second::queue_delivery(&mut self.queue, &request) {
            Outcome::Committed(figures) => format!("Q\t0\t{}\n", figures.before),
            Outcome::Refused(Refusal { number, detail }) => format!("Q\t{number}\t{detail}\n"),
        }
    }

    fn run_delivery(&mut self, date: u64) -> String {
        let mut buffer = [0; 400];
        let DeliveryAnswer { outcome, .. } = second::run_delivery(&mut self.book.nums, &self.book.names, &mut self.queue, date, &mut buffer);
        let line = buffer.iter().take_while(|&&byte| byte != 0).map(|&byte| char::from(byte)).collect::<String>();
        match outcome {
            Outcome::Committed(_) => format!("R\t0\t{line}"),
            Outcome::Refused(Refusal { number: 16, detail }) => format!("R\t16\t{detail}\n"),
            Outcome::Refused(Refusal { number, detail }) => format!("R\t{number}\t{detail}\t{line}"),
        }
    }

    fn record(&mut self, line: &[u8], answer: &str, lifts: Option<u64>) {
        if self.journal.is_empty() {
            self.chain(format!("rules\t{RULES}").as_bytes());
        }
        let mut text = format!("{}\t", self.ends.len()).into_bytes();
        text.extend_from_slice(&line[..line.len() - 1]);
        text.extend_from_slice(b"\t>\t");
        text.extend_from_slice(answer.trim_end().as_bytes());
        if let Some(lifts) = lifts {
            text.extend_from_slice(format!("\t{lifts}").as_bytes());
        }
        self.chain(&text);
        self.ends.push(self.journal.len());
    }

    fn chain(&mut self, text: &[u8]) {
        self.checksum = link(self.checksum, text, &mut self.journal);
    }

    /// Says which slice of a book is not as it has to be.
    pub fn difference(&self, book: &Book) -> Option<&'static str> {
        let waiting = |w: &second::Waiting| [w.date, w.warehouse, w.carrier];
        let waits = book.queue.waiting.iter().map(|w| [w.date, w.warehouse, w.carrier]);
        let queue = book.queue.count == self.queue.count && waits.eq(self.queue.waiting.iter().map(waiting));
        let same = [
            ("the numbers differ", book.nums == self.book.nums),
            ("the names differ", book.names == self.book.names),
            ("the last orders differ", book.last == self.book.last),
            ("the notes differ", book.notes == self.book.notes),
            ("the top-up tables differ", book.topup == self.book.topup),
            ("the waiting lists differ", queue),
        ];
        same.into_iter().find(|(_, same)| !same).map(|(what, _)| what)
    }
}

/// Puts a line of the journal behind the others, and gives its checksum.
pub fn link(before: u64, text: &[u8], journal: &mut Vec<u8>) -> u64 {
    let checksum = extend(extend(0, &before.to_le_bytes()), text);
    journal.extend_from_slice(text);
    journal.extend_from_slice(format!("\t{checksum:016x}\n").as_bytes());
    checksum
}

/// A whole journal of these lines.
pub fn chained<'a>(opening: u64, texts: impl IntoIterator<Item = &'a [u8]>) -> Vec<u8> {
    let mut journal = Vec::new();
    texts.into_iter().fold(opening, |before, text| link(before, text, &mut journal));
    journal
}

/// The lines of a journal without their checksums.
pub fn texts(journal: &[u8]) -> Vec<Vec<u8>> {
    super::lines::split(journal).map(|line| line[..line.len() - 18].to_vec()).collect()
}

/// The request lines that a journal has, each with its byte 10.
pub fn requests(journal: &[u8]) -> Vec<Vec<u8>> {
    texts(journal).iter().filter(|text| !text.starts_with(b"rules")).map(|text| request(text)).collect()
}

fn request(text: &[u8]) -> Vec<u8> {
    let start = text.iter().position(|&byte| byte == b'\t').expect("a number") + 1;
    let end = text.windows(3).position(|bytes| bytes == b"\t>\t").expect("an answer");
    [&text[start..end], b"\n"].concat()
}

/// The numbers of a line that has a letter and so many of them, as document 01 writes numbers.
fn numbers(line: &[u8], count: usize) -> Option<Vec<u64>> {
    let text = std::str::from_utf8(line).ok()?.strip_suffix('\n')?;
    let mut fields = text.split('\t');
    let letter = fields.next().is_some_and(|letter| letter.len() == 1);
    let plain = |field: &&str| {
        let digits = field.bytes().all(|byte| byte.is_ascii_digit());
        digits && (1..=10).contains(&field.len()) && (*field == "0" || !field.starts_with('0'))
    };
    let numbers: Option<Vec<u64>> = fields.map(|field| Some(field).filter(plain)?.parse().ok()).collect();
    numbers.filter(|numbers| letter && numbers.len() == count)
}
