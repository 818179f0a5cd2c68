//! A book's folder: `opening.image`, which is never written again, `journal`, and `image`, the newest one. A start takes the newest whole image and
//! carries out the records behind it once more, each with the answer that was recorded.

use crate::book::Book;
use crate::carry::carry_out;
use crate::image::{self, Image};
use crate::journal::{Position, Reader, Record, Writer};
use crate::{say, Result, RULES};
use std::fs::{File, OpenOptions, TryLockError};
use std::io::{BufReader, ErrorKind, Read, Take};
use std::path::Path;
use std::time::{Duration, Instant};

const OPENING: &str = "opening.image";
const IMAGE: &str = "image";
const JOURNAL: &str = "journal";

/// A book as it stands after the whole records of its journal.
pub struct Kept {
    pub book: Book,
    pub records: u64,
    /// Records that the newest image has.
    pub imaged: u64,
    /// The end of its newest record in the journal.
    pub at: Position,
    /// What was found and mended, or passed over.
    pub warnings: Vec<String>,
    opening: u64,
    torn: u64,
}

/// Makes a book's folder. It must not be there yet, or be empty.
pub fn create(dir: &Path, book: &Book) -> Result<()> {
    let failed = |error: std::io::Error| format!("{} cannot be made: {error}", dir.display());
    match std::fs::read_dir(dir).map(Iterator::count) {
        Ok(0) => {}
        Ok(_) => return Err(format!("{} is not empty; nothing was changed", dir.display())),
        Err(_) => std::fs::create_dir(dir).map_err(failed)?,
    }
    image::write(&dir.join(OPENING), book, Position::start(0), 0)?;
    let finish = || {
        let mut permissions = std::fs::metadata(dir.join(OPENING))?.permissions();
        permissions.set_readonly(true);
        std::fs::set_permissions(dir.join(OPENING), permissions)?;
        // Last: a folder with a journal is a whole book.
        File::create_new(dir.join(JOURNAL))?.sync_all()?;
        image::sync_folder(dir)?;
        image::sync_folder(dir.parent().unwrap_or(dir))
    };
    finish().map_err(failed)
}

/// A mistyped name is said as such.
fn is_folder(dir: &Path) -> Result<()> {
    dir.is_dir().then_some(()).ok_or_else(|| format!("there is no folder {}", dir.display()))
}

/// The book as it was opened.
pub fn opening(dir: &Path) -> Result<Image> {
    is_folder(dir)?;
    image::read(&dir.join(OPENING)).map_err(|error| format!("{error}; the opening image is never written again: put its copy back"))
}

/// Reads so many bytes of the journal from its start; the opening image's checksum leads to it.
pub fn journal(dir: &Path, opening: u64, bytes: u64) -> Result<Reader<BufReader<Take<File>>>> {
    let file = File::open(dir.join(JOURNAL)).map_err(|error| no_journal(dir, &error))?;
    Ok(Reader::new(BufReader::with_capacity(1 << 16, file.take(bytes)), opening))
}

fn no_journal(dir: &Path, error: &std::io::Error) -> String {
    match error.kind() {
        ErrorKind::NotFound => {
            format!("{} is no whole book: it has no journal; where `new` was cut off, make it again, else put its copy back", dir.display())
        }
        _ => format!("{}: its journal cannot be opened: {error}", dir.display()),
    }
}

/// The book as it stands. Changes nothing.
pub fn load(dir: &Path) -> Result<Kept> {
    let mut kept = start(dir)?;
    if kept.torn > 0 {
        kept.warnings.push(format!("the journal ends in a torn record of {} bytes, which is passed over", kept.torn));
    }
    Ok(kept)
}

/// The book as it stands, and its journal for writing; nobody else has it for writing meanwhile. A torn last record is cut off.
pub fn open(dir: &Path) -> Result<(Kept, Writer)> {
    is_folder(dir)?;
    let path = dir.join(JOURNAL);
    let file = OpenOptions::new().read(true).append(true).open(path).map_err(|error| no_journal(dir, &error))?;
    file.try_lock().map_err(|error| match error {
        TryLockError::WouldBlock => format!("{} is in use: another process has it open for writing", dir.display()),
        TryLockError::Error(error) => format!("{} cannot be locked: {error}", dir.display()),
    })?;
    let mut kept = start(dir)?;
    if kept.torn > 0 {
        file.set_len(kept.at.bytes).map_err(|error| format!("the torn last record of the journal cannot be cut off: {error}"))?;
        kept.warnings.push(format!("a torn last record of {} bytes was cut off the journal; its request was never answered", kept.torn));
    }
    // A process that was killed may have written records and not synced them. From here on they are answered for.
    file.sync_all().map_err(|error| format!("the journal cannot be put on disk: {error}"))?;
    let writer = Writer::new(file, kept.at);
    Ok((kept, writer))
}

impl Kept {
    /// Writes an image of the book at this place of the journal.
    pub fn write_image(&mut self, dir: &Path, at: Position) -> Result<()> {
        image::write(&dir.join(IMAGE), &self.book, at, self.opening)?;
        self.imaged = at.records;
        Ok(())
    }
}

/// The newest whole image of the book with this opening, and what is to be said of one that is not whole.
fn newest(dir: &Path, opening: Image) -> Result<(Image, Vec<String>)> {
    let path = dir.join(IMAGE);
    if !path.try_exists().map_err(|error| format!("{}: {error}", path.display()))? {
        return Ok((opening, Vec::new()));
    }
    match image::read(&path) {
        Ok(image) if image.opening == opening.checksum && image.book.sizes == opening.book.sizes => Ok((image, Vec::new())),
        Ok(_) => Err(format!("{} is of another book than {OPENING}; nothing was changed", path.display())),
        Err(error) => {
            let warning = format!("{error}; it is passed over, and the whole journal is carried out from the opening image");
            Ok((opening, vec![warning]))
        }
    }
}

fn start(dir: &Path) -> Result<Kept> {
    let first = opening(dir)?;
    let opening = first.checksum;
    let (mut image, warnings) = newest(dir, first)?;
    if image.opening == 0 {
        image.at = Position::start(opening);
    }
    let (imaged, mut book) = (image.at, image.book);
    let mut journal = journal(dir, opening, u64::MAX)?;
    let mut progress = Progress::new(&dir.join(JOURNAL));
    let mut met = imaged.records == 0;
    while let Some(record) = journal.next()? {
        let number = record.number;
        if number > imaged.records {
            again(&mut book, &record, imaged.records).map_err(|error| [&warnings[..], &[error]].concat().join("\n"))?;
        }
        met |= number == imaged.records && journal.position() == imaged;
        progress.tell(journal.position());
    }
    let at = journal.position();
    if !met {
        let (has, records) = (imaged.records, at.records);
        return Err(format!("the image has {has} records, the journal {records}: it has lost some, or is not the image's; nothing was changed"));
    }
    Ok(Kept { book, records: at.records, imaged: imaged.records, at, warnings, opening, torn: journal.torn() })
}

/// Carries out a record once more. Its answer has to be the recorded one.
fn again(book: &mut Book, record: &Record, imaged: u64) -> Result<()> {
    let Record { number, rules, request, answer } = record;
    if *rules != RULES {
        return Err(format!(
            "record {number} was written under rules {rules}, this program has rules {RULES}, and the newest image has only {imaged} records: \
             start and end the book once with the program that wrote them, so that there is an image with all; nothing was changed"
        ));
    }
    let mut said = Vec::with_capacity(answer.len() + 1);
    let carried = carry_out(book, &[request, &b"\n"[..]].concat(), &mut said);
    said.pop();
    if let Some(lifts) = carried.lifts {
        said.extend_from_slice(format!("\t{lifts}").as_bytes());
    }
    if said != *answer || !carried.changed {
        let (now, then) = (String::from_utf8_lossy(&said), String::from_utf8_lossy(answer));
        return Err(format!("record {number}, carried out again, is answered '{now}', and '{then}' was recorded; nothing was changed"));
    }
    Ok(())
}

/// Says how far a start is, where it takes over a second.
struct Progress {
    next: Instant,
    bytes: u64,
}

impl Progress {
    fn new(journal: &Path) -> Progress {
        let bytes = std::fs::metadata(journal).map_or(0, |found| found.len());
        Progress { next: Instant::now() + Duration::from_secs(1), bytes }
    }

    fn tell(&mut self, at: Position) {
        if at.records.is_multiple_of(1_024) && Instant::now() >= self.next {
            say(&format!("{} records, {} % of the journal", at.records, 100 * at.bytes / self.bytes.max(1)));
            self.next = Instant::now() + Duration::from_secs(1);
        }
    }
}
