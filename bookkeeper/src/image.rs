//! An image: every slice that is lent, with the sizes, the rules, the place in the journal and a checksum. Its head is text; then come the numbers,
//! the name bytes, the last orders, the notes, the top-up table and the waiting list, numbers as eight bytes, little endian.

use crate::book::{Book, Queue, Sizes, NOTE_BYTES};
use crate::checksum::extend;
use crate::journal::Position;
use crate::{Result, RULES};
use std::fs::File;
use std::io::{self, BufRead, BufReader, Read, Write};
use std::path::Path;

pub struct Image {
    pub book: Book,
    /// Where the journal stood.
    pub at: Position,
    /// The opening image's checksum, 0 in itself.
    pub opening: u64,
    /// Its own.
    pub checksum: u64,
}

const FORMAT: &str = "book image 1";
/// Numbers that are read or written at once.
const CHUNK: usize = 8_192;

/// Writes an image beside its place, and puts it there once it is on disk. Answers its checksum.
pub fn write(path: &Path, book: &Book, at: Position, opening: u64) -> Result<u64> {
    let mut beside = path.as_os_str().to_os_string();
    beside.push(".new");
    let beside = Path::new(&beside);
    let written = write_to(beside, book, at, opening).and_then(|checksum| {
        std::fs::rename(beside, path)?;
        sync_folder(path.parent().unwrap_or(Path::new(".")))?;
        Ok(checksum)
    });
    written.map_err(|error| {
        let _ = std::fs::remove_file(beside);
        format!("{} cannot be written: {error}", path.display())
    })
}

/// Names in a folder are on disk only when the folder is.
pub fn sync_folder(folder: &Path) -> io::Result<()> {
    File::open(if folder.as_os_str().is_empty() { Path::new(".") } else { folder })?.sync_all()
}

fn write_to(path: &Path, book: &Book, at: Position, opening: u64) -> io::Result<u64> {
    let mut out = Summed { inner: File::create(path)?, checksum: 0 };
    let [w, c, i, o, h] = book.sizes.all();
    let head = format!(
        "{FORMAT}\nrules {RULES}\nsizes {w} {c} {i} {o} {h}\nrecords {}\njournal {} {} {:016x}\nopening {opening:016x}\n\n",
        at.records, at.bytes, at.rules, at.checksum
    );
    out.put(head.as_bytes())?;
    out.put_numbers(&book.nums)?;
    out.put(&book.names)?;
    out.put_numbers(&book.last)?;
    out.put(&book.notes)?;
    out.put_numbers(&book.topup)?;
    out.put_numbers(&queue_numbers(&book.queue))?;
    let checksum = out.checksum;
    out.inner.write_all(&checksum.to_le_bytes())?;
    out.inner.sync_all()?;
    Ok(checksum)
}

fn queue_numbers(queue: &Queue) -> Vec<i64> {
    let waiting = queue.waiting.iter().flat_map(|w| [w.date, w.warehouse, w.carrier]);
    std::iter::once(queue.count).chain(waiting).map(|number| number as i64).collect()
}

fn queue_of(numbers: &[i64]) -> Queue {
    let mut queue = Queue { count: numbers[0] as u64, ..Queue::default() };
    for (place, w) in queue.waiting.iter_mut().zip(numbers[1..].chunks(3)) {
        (place.date, place.warehouse, place.carrier) = (w[0] as u64, w[1] as u64, w[2] as u64);
    }
    queue
}

/// Reads an image; an error says what is wrong with it.
pub fn read(path: &Path) -> Result<Image> {
    let read = File::open(path).map_err(|error| error.to_string()).and_then(|file| read_from(BufReader::new(file)));
    read.map_err(|error| format!("{}: {error}", path.display()))
}

fn read_from(file: impl BufRead) -> Result<Image> {
    let mut input = Summed { inner: file, checksum: 0 };
    let (sizes, at, opening) = head(&mut input)?;
    let mut take = || -> io::Result<(Book, u64)> {
        let nums = input.numbers(sizes.numbers())?;
        let names = input.bytes(sizes.name_bytes())?;
        let last = input.numbers(sizes.farms())?;
        let notes = input.bytes(sizes.farms() * NOTE_BYTES)?;
        let topup = input.numbers(2 * sizes.items)?;
        let queue = queue_of(&input.numbers(49)?);
        let checksum = input.checksum;
        if input.numbers(1)? != [checksum as i64] || input.inner.read(&mut [0])? != 0 {
            return Err(io::Error::other("what it holds and its checksum do not go together"));
        }
        Ok((Book { sizes, nums, names, last, notes, topup, queue }, checksum))
    };
    let (book, checksum) = take().map_err(|error| match error.kind() {
        io::ErrorKind::UnexpectedEof => "it is not whole".to_string(),
        _ => format!("it is damaged or cannot be read: {error}"),
    })?;
    Ok(Image { book, at, opening, checksum })
}

/// The lines of the head, each with its name in front.
fn head(input: &mut Summed<impl BufRead>) -> Result<(Sizes, Position, u64)> {
    let no_head = || "it is damaged, or no image of a book: its head cannot be read".to_string();
    if input.line().as_deref() != Some(FORMAT) {
        return Err(no_head());
    }
    let mut fields = |name: &str| -> Option<Vec<String>> {
        let line = input.line()?;
        Some(line.strip_prefix(name)?.strip_prefix(' ')?.split(' ').map(str::to_string).collect())
    };
    let mut lines = || Some((fields("rules")?, fields("sizes")?, fields("records")?, fields("journal")?, fields("opening")?));
    let (rules, sizes, records, journal, opening) = lines().ok_or_else(no_head)?;
    let number = |fields: &[String], place: usize| fields.get(place)?.parse::<u64>().ok();
    let hex = |fields: &[String], place: usize| u64::from_str_radix(fields.get(place)?, 16).ok();
    let mut parsed = || {
        let sizes: Vec<usize> = sizes.iter().map_while(|size| size.parse().ok()).collect();
        let at = Position {
            records: number(&records, 0)?,
            bytes: number(&journal, 0)?,
            rules: number(&journal, 1)?,
            checksum: hex(&journal, 2)?,
        };
        (input.line()?.is_empty()).then_some((number(&rules, 0)?, Sizes::of(sizes.try_into().ok()?)?, at, hex(&opening, 0)?))
    };
    let (rules, sizes, at, opening) = parsed().ok_or_else(no_head)?;
    if rules > RULES {
        return Err(format!("it was written under rules {rules} by a newer program; this one has rules {RULES}"));
    }
    Ok((sizes, at, opening))
}

/// What goes through is summed.
struct Summed<T> {
    inner: T,
    checksum: u64,
}

impl<W: Write> Summed<W> {
    fn put(&mut self, bytes: &[u8]) -> io::Result<()> {
        self.checksum = extend(self.checksum, bytes);
        self.inner.write_all(bytes)
    }

    fn put_numbers(&mut self, numbers: &[i64]) -> io::Result<()> {
        let mut bytes = Vec::with_capacity(8 * CHUNK);
        for chunk in numbers.chunks(CHUNK) {
            bytes.clear();
            chunk.iter().for_each(|number| bytes.extend_from_slice(&number.to_le_bytes()));
            self.put(&bytes)?;
        }
        Ok(())
    }
}

impl<R: BufRead> Summed<R> {
    fn bytes(&mut self, count: usize) -> io::Result<Vec<u8>> {
        let mut bytes = vec![0; count];
        self.inner.read_exact(&mut bytes)?;
        self.checksum = extend(self.checksum, &bytes);
        Ok(bytes)
    }

    fn numbers(&mut self, count: usize) -> io::Result<Vec<i64>> {
        let mut numbers = Vec::with_capacity(count);
        while numbers.len() < count {
            let bytes = self.bytes(8 * CHUNK.min(count - numbers.len()))?;
            numbers.extend(bytes.chunks_exact(8).map(|number| i64::from_le_bytes(number.try_into().expect("eight bytes"))));
        }
        Ok(numbers)
    }

    /// A line of the head, without its byte 10; none where it is none.
    fn line(&mut self) -> Option<String> {
        let mut line = Vec::new();
        (&mut self.inner).take(200).read_until(b'\n', &mut line).ok()?;
        self.checksum = extend(self.checksum, &line);
        String::from_utf8(line).ok()?.strip_suffix('\n').map(str::to_string)
    }
}
