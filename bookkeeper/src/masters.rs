//! Master data: an opening book from tab-separated lines, or every mistake that they have.

use crate::book::{Book, Sizes, DISTRICTS, LIMITS, NAME_BYTES};
use std::fmt;

/// What a field may hold.
#[derive(Clone, Copy)]
enum Allowed {
    Number(usize, usize),
    Last,
    First,
    Credit,
}

use Allowed::{Credit, First, Last, Number};

/// A kind of line: its word, then its fields by name. The first `keys` say which row it is, the others what it holds; the last `optional` may be left
/// out together.
struct Kind {
    word: &'static str,
    keys: usize,
    optional: usize,
    fields: Vec<(&'static str, Allowed)>,
}

fn sizes_kind() -> Kind {
    let names = ["depots", "farms", "items", "orders", "payments"];
    Kind { word: "sizes", keys: 0, optional: 0, fields: names.into_iter().zip(LIMITS.map(|limit| Number(1, limit))).collect() }
}

fn kinds(sizes: &Sizes) -> [Kind; 5] {
    let (depot, district) = (("depot", Number(1, sizes.warehouses)), ("district", Number(1, DISTRICTS)));
    let (farm, item) = (("farm", Number(1, sizes.customers)), ("item", Number(1, sizes.items)));
    let (tax, discount) = (("tax", Number(0, 9_999)), ("discount", Number(0, 9_999)));
    let (price, on_hand) = (("price", Number(0, 99_999)), ("on_hand", Number(0, 9_999)));
    let (margin, lift) = (("margin", Number(0, 9_990)), ("lift", Number(10, 9_999)));
    let (last, first, credit) = (("last", Last), ("first", First), ("credit", Credit));
    [
        Kind { word: "depot", keys: 1, optional: 0, fields: vec![depot, tax] },
        Kind { word: "district", keys: 2, optional: 0, fields: vec![depot, district, tax] },
        Kind { word: "farm", keys: 3, optional: 0, fields: vec![depot, district, farm, last, first, credit, discount] },
        Kind { word: "item", keys: 1, optional: 2, fields: vec![item, price, margin, lift] },
        Kind { word: "stock", keys: 2, optional: 0, fields: vec![depot, item, on_hand] },
    ]
}

impl Allowed {
    /// The number that a text stands for, 0 for a name; none where it is not allowed.
    fn value(self, text: &[u8]) -> Option<usize> {
        let plain = text.len() <= NAME_BYTES && text.iter().all(|byte| (32..=126).contains(byte));
        match self {
            Number(low, high) => {
                let digits = std::str::from_utf8(text).ok().filter(|text| text.bytes().all(|byte| byte.is_ascii_digit()));
                digits?.parse().ok().filter(|number| (low..=high).contains(number))
            }
            Last => (plain && !text.is_empty() && text[0] != b' ').then_some(0),
            First => plain.then_some(0),
            Credit => [b"good".as_slice(), b"bad", b"0", b"1"].iter().position(|word| *word == text).map(|at| at % 2),
        }
    }
}

impl fmt::Display for Allowed {
    fn fmt(&self, f: &mut fmt::Formatter) -> fmt::Result {
        match self {
            Number(low, high) => write!(f, "{low} to {high}"),
            Last => write!(f, "1 to {NAME_BYTES} ASCII bytes 32 to 126 (no umlauts), the first no space"),
            First => write!(f, "0 to {NAME_BYTES} ASCII bytes 32 to 126 (no umlauts)"),
            Credit => write!(f, "good, bad, 0 or 1"),
        }
    }
}

/// A field as it is shown in a message, cut where it is long.
fn quoted(text: &[u8]) -> String {
    let (shown, rest) = text.split_at(text.len().min(60));
    format!("{:?}{}", String::from_utf8_lossy(shown), if rest.is_empty() { "" } else { "..." })
}

impl Kind {
    /// The numbers of a line's fields behind the word, none where one is not allowed, which is said.
    fn values(&self, line: usize, fields: &[&[u8]], mistakes: &mut Vec<String>) -> Vec<Option<usize>> {
        let (all, here) = (self.fields.len(), fields.len() - 1);
        if let Some(more) = fields.get(all + 1) {
            let (at, word) = (all + 2, self.word);
            mistakes.push(format!("line {line}, field {at}: {} is too much, {word} has {} fields, here are {}", quoted(more), all + 1, here + 1));
        }
        let expected = if here <= all - self.optional { all - self.optional } else { all };
        let mut value = |at: usize| {
            let ((name, allowed), text) = (self.fields[at], fields.get(at + 1).copied().unwrap_or_default());
            let value = allowed.value(text);
            if value.is_none() {
                let parted = matches!(allowed, Number(..)) && text.iter().any(|byte| b",.' ".contains(byte));
                let digits = if parted { " in digits alone" } else { "" };
                mistakes.push(format!("line {line}, field {} ({name}): {} is not {allowed}{digits}", at + 2, quoted(text)));
            }
            value
        };
        (0..expected).map(&mut value).collect()
    }

    fn key_limits(&self) -> impl DoubleEndedIterator<Item = usize> + '_ {
        self.fields[..self.keys].iter().map(|(_, allowed)| if let Number(_, high) = allowed { *high } else { 1 })
    }

    /// A row's place among those of its kind, from 0, and its name from that.
    fn place(&self, keys: &[usize]) -> usize {
        self.key_limits().zip(keys).fold(0, |place, (limit, key)| place * limit + key - 1)
    }

    fn name(&self, mut place: usize) -> String {
        let mut name = String::new();
        for limit in self.key_limits().rev() {
            name = format!(" {}{name}", place % limit + 1);
            place /= limit;
        }
        self.word.to_string() + &name
    }
}

struct Masters {
    book: Book,
    kinds: [Kind; 5],
    /// Of each kind, the line in which each row was given, 0 for none.
    given: [Vec<usize>; 5],
    mistakes: Vec<String>,
}

impl Masters {
    fn line(&mut self, line: usize, fields: &[&[u8]]) {
        let Some(at) = self.kinds.iter().position(|kind| kind.word.as_bytes() == fields[0]) else {
            let allowed = if fields[0] == b"sizes" { "allowed a second time" } else { "depot, district, farm, item or stock and a tab" };
            return self.mistakes.push(format!("line {line}, field 1: {} is not {allowed}", quoted(fields[0])));
        };
        let kind = &self.kinds[at];
        let values = kind.values(line, fields, &mut self.mistakes);
        if let ("item", [_, _, Some(margin), Some(lift)]) = (kind.word, &values[..]) {
            if margin + lift > 10_000 {
                self.mistakes.push(format!("line {line}, field 5 (lift): {lift} and the margin {margin} are not up to 10000 together"));
            }
        }
        let Some(keys) = values[..kind.keys].iter().copied().collect::<Option<Vec<usize>>>() else { return };
        let place = kind.place(&keys);
        match self.given[at][place] {
            0 => self.given[at][place] = line,
            first => self.mistakes.push(format!("line {line}: {} was given in line {first}", kind.name(place))),
        }
        if let Some(values) = values.into_iter().collect::<Option<Vec<usize>>>() {
            self.set(kind.word, &values, fields);
        }
    }

    fn set(&mut self, word: &str, values: &[usize], fields: &[&[u8]]) {
        let (sizes, nums) = (self.book.sizes, &mut self.book.nums);
        match (word, values) {
            ("depot", &[w, tax]) => nums[sizes.warehouse_at(w)] = tax as i64,
            ("district", &[w, d, tax]) => nums[sizes.district_at(w, d)] = tax as i64,
            ("farm", &[w, d, c, _, _, credit, discount]) => {
                nums[sizes.customer_at(w, d, c)..][..2].copy_from_slice(&[credit as i64, discount as i64]);
                let name = &mut self.book.names[sizes.farm(w, d, c) * 2 * NAME_BYTES..];
                name[..fields[4].len()].copy_from_slice(fields[4]);
                name[NAME_BYTES..][..fields[5].len()].copy_from_slice(fields[5]);
            }
            ("item", &[i, price, ref own @ ..]) => {
                nums[sizes.item_at(i)] = price as i64;
                own.iter().zip(&mut self.book.topup[2 * (i - 1)..]).for_each(|(own, cell)| *cell = *own as i64);
            }
            ("stock", &[w, i, on_hand]) => nums[sizes.stock_at(w, i)] = on_hand as i64,
            _ => unreachable!("a kind of line that is described and not set"),
        }
    }

    /// Says which rows no line gave; rows that follow each other in one message.
    fn missing(&mut self) {
        for (kind, given) in self.kinds.iter().zip(&self.given) {
            let mut start = 0;
            for run in given.chunk_by(|one, next| (*one == 0) == (*next == 0)) {
                let (first, last) = (kind.name(start), kind.name(start + run.len() - 1));
                match (run[0], run.len()) {
                    (0, 1) => self.mistakes.push(format!("{first} is not given")),
                    (0, rows) => self.mistakes.push(format!("{first} to {last} are not given, {rows} lines")),
                    _ => {}
                }
                start += run.len();
            }
        }
    }
}

/// The fields of a line; none of an empty line or a remark.
fn fields(line: &[u8]) -> Vec<&[u8]> {
    let line = line.strip_suffix(b"\r").unwrap_or(line);
    let mut fields: Vec<&[u8]> = if line.starts_with(b"#") { Vec::new() } else { line.split(|&byte| byte == b'\t').collect() };
    fields.truncate(fields.iter().rposition(|field| !field.is_empty()).map_or(0, |last| last + 1));
    fields
}

/// The sizes that the first line gives.
fn sizes(first: Option<(usize, Vec<&[u8]>)>) -> Result<Sizes, Vec<String>> {
    let (line, fields) = first.unwrap_or((1, vec![b""]));
    let mut mistakes = Vec::new();
    if fields[0] != b"sizes" {
        mistakes.push(format!("line {line}, field 1: {} is not sizes and a tab, which come first (tab-separated ASCII text)", quoted(fields[0])));
    } else if let Some(values) = sizes_kind().values(line, &fields, &mut mistakes).into_iter().collect::<Option<Vec<usize>>>() {
        match values.try_into().ok().and_then(Sizes::of) {
            Some(sizes) if mistakes.is_empty() => return Ok(sizes),
            _ if mistakes.is_empty() => mistakes.push(format!("line {line}: the library takes no book of these sizes")),
            _ => {}
        }
    }
    let unjudged = "; the lines behind it were not judged, since what they may hold follows from the sizes";
    mistakes.last_mut().into_iter().for_each(|mistake| mistake.push_str(unjudged));
    Err(mistakes)
}

/// The book, or every mistake in the order of the lines and then what is missing.
pub fn read(text: &[u8]) -> Result<Book, Vec<String>> {
    let text = text.strip_prefix(b"\xef\xbb\xbf").unwrap_or(text);
    let mut lines = (1..).zip(text.split(|&byte| byte == b'\n').map(fields)).filter(|(_, fields)| !fields.is_empty());
    let sizes = sizes(lines.next())?;
    let kinds = kinds(&sizes);
    let given = kinds.each_ref().map(|kind| vec![0; kind.key_limits().product()]);
    let mut masters = Masters { book: Book::blank(sizes), kinds, given, mistakes: Vec::new() };
    lines.for_each(|(line, fields)| masters.line(line, &fields));
    masters.missing();
    if masters.mistakes.is_empty() { Ok(masters.book) } else { Err(masters.mistakes) }
}
