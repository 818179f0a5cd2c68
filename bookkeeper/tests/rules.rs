//! A kept book's journal under the rules of this program: every record of it is carried out and answered as it was when it was written. Where this
//! fails although nothing is damaged, the rules have changed: raise RULES in src/lib.rs and make the kept journal anew, by
//!
//!     BOOKKEEPER_KEEP=1 cargo test --release --offline --test rules
//!
//! which writes tests/kept/masters.tsv and tests/kept/journal.

mod common;

use bookkeeper::kept;
use common::lines::Lines;
use common::model::{requests, Model};
use common::{masters, put, run, run_book, with_dir, Temp};
use std::collections::BTreeMap;
use std::fs;
use std::path::{Path, PathBuf};
use std::sync::Once;

const SIZES: [usize; 5] = [2, 3, 7, 12, 60];

fn folder() -> PathBuf {
    Path::new(env!("CARGO_MANIFEST_DIR")).join("tests/kept")
}

fn new(dir: &Path, masters: &[u8]) {
    run(&["new".as_ref(), dir.as_os_str()], masters).well();
}

/// A file of the kept book, which is first written anew where that is asked for.
fn kept_file(name: &str) -> Vec<u8> {
    static KEEP: Once = Once::new();
    KEEP.call_once(|| {
        if std::env::var_os("BOOKKEEPER_KEEP").is_some() {
            keep();
        }
    });
    fs::read(folder().join(name)).expect("the kept book")
}

fn keep() {
    let temp = Temp::new();
    let dir = temp.book();
    let text = masters(SIZES);
    new(&dir, text.as_bytes());
    run_book(&dir, &Lines::new(2_026, SIZES).text(420)).well();
    fs::create_dir_all(folder()).expect("a folder");
    fs::write(folder().join("masters.tsv"), text).expect("masters");
    fs::copy(dir.join("journal"), folder().join("journal")).expect("a journal");
}

#[test]
fn the_kept_journal_is_carried_out_as_it_was() {
    let [masters, journal] = ["masters.tsv", "journal"].map(kept_file);
    let temp = Temp::new();
    let dir = temp.book();
    new(&dir, &masters);
    put(&dir.join("journal"), &journal);
    let started = run_book(&dir, b"");
    assert_eq!(
        (started.status, started.err.as_str()),
        (Some(0), ""),
        "the rules have changed: raise RULES in src/lib.rs and make the kept journal anew (tests/rules.rs says how)"
    );
    assert!(fs::read(dir.join("journal")).expect("a journal") == journal);
    assert!(with_dir("verify", &dir).well().ends_with(b"; 0 differences\n"));
    let (mut model, mut letters) = (Model::of(&dir), BTreeMap::new());
    for request in requests(&journal) {
        model.answer(&request);
        *letters.entry(char::from(request[0])).or_insert(0) += 1;
    }
    assert_eq!(model.difference(&kept::load(&dir).expect("a book").book), None);
    assert_eq!(letters.keys().collect::<String>(), "DNPQR", "every letter that is recorded");
    println!("{} records: {letters:?}", model.records());
}

/// Under every kind of answer that is recorded: runs that were refused, orders with lifts and without, payments by name and by number.
#[test]
fn the_kept_journal_has_every_kind_of_record() {
    let journal = String::from_utf8(kept_file("journal")).expect("text");
    let has = |what: &dyn Fn(&[&str], &[&str]) -> bool| {
        journal.lines().filter_map(|line| line.split_once("\t>\t")).any(|(request, answer)| {
            what(&request.split('\t').collect::<Vec<_>>()[1..], &answer.split('\t').collect::<Vec<_>>())
        })
    };
    assert!(has(&|request, answer| request[0] == "N" && answer[4] == "0"), "an order without lifts");
    assert!(has(&|request, answer| request[0] == "N" && answer[4] != "0"), "an order with lifts");
    assert!(has(&|request, _| request[0] == "N" && request.len() == 50), "an order of fifteen lines");
    assert!(has(&|request, _| request[0] == "P" && request[5].starts_with('=')), "a payment by name");
    assert!(has(&|request, _| request[0] == "P" && request[5].starts_with('#')), "a payment by number");
    assert!(has(&|request, answer| request[0] == "D" && answer[2] != "10"), "a Delivery that delivers");
    assert!(has(&|request, answer| request[0] == "R" && answer[1] == "0" && answer[6] != "10"), "a run that delivers");
    assert!(has(&|request, answer| request[0] == "R" && answer[1] != "0"), "a run that was refused");
}
