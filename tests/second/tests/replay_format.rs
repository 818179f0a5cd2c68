//! The replay format: commands, answers and fingerprints.

mod common;

use common::*;
use second::replay::{hex, sha256, Lent, Replay, SecondEngine};
use second::{Queue, Waiting};

#[test]
fn digests() {
    let digest = |message: &[u8]| hex::write(&sha256::digest(message));
    let empty = "e3b0c44298fc1c149afbf4c8996fb92427ae41e4649b934ca495991b7852b855";
    assert_eq!(digest(b""), empty);
    let abc = "ba7816bf8f01cfea414140de5dae2223b00361a396177a9cb410ff61f20015ad";
    assert_eq!(digest(b"abc"), abc);
    let two_blocks = "248d6a61d20638b8e5c026930c3e6039a33ce45964ff2167f6ecedd419db06c1";
    let message = b"abcdbcdecdefdefgefghfghighijhijkijkljklmklmnlmnomnopnopq";
    assert_eq!(digest(message), two_blocks);
    let million = "cdc76e5c9914fb9281a1c7e284d73e67f1809a48a497200e046d39ccc7112cd0";
    assert_eq!(digest(&vec![b'a'; 1_000_000]), million);
}

/// The hashed text of document REPLAY's example, nums 1, 2, 3 and names ALM; of nothing; and of the ends of the ranges. It has no line for the top-up
/// table.
#[test]
fn fingerprints() {
    let of = |text: String| hex::write(&sha256::digest(text.as_bytes())[..6]);
    let free = ",0,0,0";
    let lent = Lent {
        nums: vec![1, 2, 3],
        names: b"ALM".to_vec(),
        last: vec![0, 1],
        notes: b" ;".to_vec(),
        buffer: b"\t\n".to_vec(),
        queue: record(1, &[[100, 1, 3]]),
        topup: vec![10, 91],
    };
    let text = "nums=1,2,3\nnames=414c4d\nlast=0,1\nnotes=203b\nbuffer=090a\nqueue=1,100,1,3";
    assert_eq!(
        lent.fingerprint(),
        of(format!("{text}{}\n", free.repeat(15)))
    );
    let empty = "nums=\nnames=\nlast=\nnotes=\nbuffer=\nqueue=0";
    let empty = of(format!("{empty}{}\n", free.repeat(16)));
    assert_eq!(Lent::default().fingerprint(), empty);
    let most = u64::MAX;
    let lent = Lent {
        nums: vec![-1, i64::MIN, 10],
        names: vec![0, 255],
        last: vec![-1],
        notes: vec![255, 10],
        buffer: vec![0],
        queue: record(most, &[[most; 3]; 16]),
        topup: vec![],
    };
    let text = "nums=-1,-9223372036854775808,10\nnames=00ff\nlast=-1\nnotes=ff0a\nbuffer=00\nqueue=18446744073709551615";
    let places = ",18446744073709551615".repeat(48);
    assert_eq!(lent.fingerprint(), of(format!("{text}{places}\n")));
}

/// A record of this count with these places, date, warehouse and carrier each; the others are 0.
fn record(count: u64, places: &[[u64; 3]]) -> Queue {
    let mut queue = Queue {
        count,
        ..Queue::default()
    };
    for (place, &[date, warehouse, carrier]) in queue.waiting.iter_mut().zip(places) {
        *place = Waiting {
            date,
            warehouse,
            carrier,
        };
    }
    queue
}

/// A waiting list and a buffer stand as commands set them, whatever is lent beside; a malformed command leaves them.
#[test]
fn queues_and_buffers() {
    let mut engine = SecondEngine;
    let mut replay = Replay::new(&mut engine);
    let mut after = |command: &str| {
        let answer = replay.step(command.as_bytes());
        let lent = &replay.slices.lent;
        (answer, lent.queue, lent.buffer.clone())
    };
    let none = Queue::default();
    assert_eq!(after("SLICE nums 1 1 1 1 1 0"), (None, none, vec![]));
    let two = record(1, &[[5, 6, 7], [8, 9, 10]]);
    assert_eq!(after("QUEUE 1 5 6 7 8 9 10"), (None, two, vec![]));
    let bad = |word: &str| Some(format!("BAD {word}"));
    assert_eq!(after("QUEUE 1 5 6"), (bad("QUEUE"), two, vec![]));
    assert_eq!(after("BYTES buffer 2eFf"), (None, two, vec![46, 255]));
    assert_eq!(after("BYTES buffer x"), (bad("BYTES"), two, vec![46, 255]));
    assert_eq!(after("SLICE nums 1 1 1 1 1 0"), (None, two, vec![46, 255]));
    let full = record(u64::MAX, &[[1, 2, 3]; 16]);
    let command = format!("QUEUE {}{}", u64::MAX, " 1 2 3".repeat(16));
    assert_eq!(after(&command), (None, full, vec![46, 255]));
    let command = format!("QUEUE 0{}", " 1 2 3".repeat(17));
    assert_eq!(after(&command), (bad("QUEUE"), full, vec![46, 255]));
    assert_eq!(after("QUEUE 017"), (None, record(17, &[]), vec![46, 255]));
    assert_eq!(after("BYTES buffer -"), (None, record(17, &[]), vec![]));
}

/// A fingerprint follows the slices, also when they change between two answers.
#[test]
fn fingerprints_follow_the_slices() {
    let mut engine = SecondEngine;
    let mut replay = Replay::new(&mut engine);
    let open = |replay: &mut Replay<_>, command: &str| {
        assert_eq!(replay.step(command.as_bytes()), None);
        let answer = replay.step(b"OPEN").unwrap();
        assert_eq!(
            answer,
            format!("OPEN 2 0 | {}", replay.slices.lent.fingerprint())
        );
        answer
    };
    let first = open(&mut replay, "SLICE nums 1 2 3");
    let second = open(&mut replay, "BYTES names 414c4d");
    let third = open(&mut replay, "SLICE nums 1 2 3");
    let fourth = open(&mut replay, "SLICE last 0");
    let fifth = open(&mut replay, "BYTES notes 20");
    let sixth = open(&mut replay, "BYTES buffer 20");
    let seventh = open(&mut replay, "QUEUE 0 0 0 1");
    let eighth = open(&mut replay, "QUEUE 1 0 0 1");
    let ninth = open(&mut replay, "SLICE topup 0 10");
    assert_ne!(first, second);
    assert_eq!(second, third);
    assert_ne!(third, fourth);
    assert_ne!(fourth, fifth);
    assert_ne!(fifth, sixth);
    assert_ne!(sixth, seventh);
    assert_ne!(seventh, eighth);
    assert_eq!(eighth, ninth);
}

/// Last orders that no command has set are made anew at each head in range; others stay as they are.
#[test]
fn last_orders_made_anew() {
    let mut engine = SecondEngine;
    let mut replay = Replay::new(&mut engine);
    let mut after = |command: &str| {
        let answer = replay.step(command.as_bytes());
        (answer, replay.slices.lent.last.clone())
    };
    let bad = Some("BAD SLICE".to_string());
    assert_eq!(after("BYTES names 41"), (None, vec![]));
    assert_eq!(after("SLICE nums 1 2 1 1 1"), (None, vec![])); // five numbers
    assert_eq!(after("SLICE nums 0 2 1 1 1 0"), (None, vec![]));
    assert_eq!(after("SLICE nums 1 2 1 1 1 2"), (None, vec![])); // history count above H
    assert_eq!(after("SLICE nums 1 2 1 1 1 0"), (None, vec![0; 20]));
    assert_eq!(after("SLICE nums 2 3 1 1 1 1 77"), (None, vec![0; 60]));
    assert_eq!(after("SLICE nums 21 1 1 1 1 0"), (None, vec![0; 60]));
    assert_eq!(after("SLICE last x"), (bad.clone(), vec![0; 60]));
    assert_eq!(after("SLICE nums 1 1 1 1 1 0"), (None, vec![0; 10]));
    assert_eq!(after("SLICE nums 1 2 1 1 1 x"), (bad, vec![0; 10]));
    assert_eq!(after("SLICE last 1 -2"), (None, vec![1, -2]));
    assert_eq!(after("SLICE nums 1 1 1 1 1 0"), (None, vec![1, -2]));
    assert_eq!(after("SLICE last"), (None, vec![]));
    assert_eq!(after("SLICE nums 1 1 1 1 1 0"), (None, vec![]));
}

/// Notes are made anew in the same way, as spaces, whether or not last orders are set.
#[test]
fn notes_made_anew() {
    let mut engine = SecondEngine;
    let mut replay = Replay::new(&mut engine);
    let mut after = |command: &str| {
        let answer = replay.step(command.as_bytes());
        (answer, replay.slices.lent.notes.clone())
    };
    let bad = Some("BAD BYTES".to_string());
    assert_eq!(after("BYTES names 41"), (None, vec![]));
    assert_eq!(after("SLICE nums 1 2 1 1 1"), (None, vec![])); // five numbers
    assert_eq!(after("SLICE nums 1 3001 1 1 1 0"), (None, vec![]));
    assert_eq!(after("SLICE nums 1 2 1 1 1 0"), (None, vec![b' '; 10_000]));
    assert_eq!(after("SLICE last 7"), (None, vec![b' '; 10_000]));
    assert_eq!(after("SLICE nums 2 3 1 1 1 1"), (None, vec![b' '; 30_000]));
    assert_eq!(after("BYTES notes 2g"), (bad.clone(), vec![b' '; 30_000]));
    assert_eq!(after("SLICE nums 1 1 1 1 1 0"), (None, vec![b' '; 5_000]));
    assert_eq!(after("BYTES notes"), (bad, vec![b' '; 5_000]));
    assert_eq!(after("BYTES notes 00fF"), (None, vec![0, 255]));
    assert_eq!(after("SLICE nums 1 1 1 1 1 0"), (None, vec![0, 255]));
    assert_eq!(after("BYTES notes -"), (None, vec![]));
    assert_eq!(after("SLICE nums 1 1 1 1 1 0"), (None, vec![]));
}

/// So is a top-up table, as 10 and 91 for each item, whether or not last orders and notes are set.
#[test]
fn topup_made_anew() {
    let mut engine = SecondEngine;
    let mut replay = Replay::new(&mut engine);
    let mut after = |command: &str| {
        let answer = replay.step(command.as_bytes());
        (answer, replay.slices.lent.topup.clone())
    };
    let bad = Some("BAD SLICE".to_string());
    let usual = |items: usize| [10, 91].repeat(items);
    assert_eq!(after("BYTES names 41"), (None, vec![]));
    assert_eq!(after("SLICE nums 1 2 3 1 1"), (None, vec![])); // five numbers
    assert_eq!(after("SLICE nums 1 2 100001 1 1 0"), (None, vec![]));
    assert_eq!(after("SLICE nums 1 2 3 1 1 0"), (None, usual(3)));
    assert_eq!(after("SLICE last 7"), (None, usual(3)));
    assert_eq!(after("BYTES notes -"), (None, usual(3)));
    assert_eq!(after("SLICE nums 2 3 1 1 1 1 77"), (None, usual(1)));
    assert_eq!(after("SLICE topup 10 +91"), (bad.clone(), usual(1)));
    assert_eq!(after("SLICE nums 1 1 5 1 1 0"), (None, usual(5)));
    assert_eq!(after("SLICE nums 1 1 5 1 1 2"), (None, usual(5))); // history count above H
    assert_eq!(after("SLICE nums 1 1 4 1 1 x"), (bad, usual(5)));
    assert_eq!(after("SLICE topup -1 9999"), (None, vec![-1, 9_999]));
    assert_eq!(after("SLICE nums 1 1 5 1 1 0"), (None, vec![-1, 9_999]));
    assert_eq!(after("SLICE topup"), (None, vec![]));
    assert_eq!(after("SLICE nums 1 1 5 1 1 0"), (None, vec![]));
}

/// The commands that lend a book's numbers and names alone.
fn lend_book(lent: &Lent) -> Vec<String> {
    let lend = second::lists::lend(lent);
    lend.lines().take(2).map(String::from).collect()
}

/// What a call leaves in last orders that no command has set stays until the next book.
#[test]
fn last_orders_of_calls() {
    let mut engine = SecondEngine;
    let mut replay = Replay::new(&mut engine);
    let lend = lend_book(&fresh());
    for command in &lend {
        replay.step(command.as_bytes());
    }
    let answer = replay.step(b"N 2 3 2 100 1 1 1 1").unwrap();
    assert!(answer.starts_with("N 0 1 115 0 | "));
    assert_eq!(replay.slices.lent.topup, TOPUP);
    let mut expected = vec![0; LAST_ORDERS];
    expected[last(2, 3, 2)] = 1;
    assert_eq!(replay.slices.lent.last, expected);
    replay.step(b"SLICE nums 1 1 1 1 1");
    assert_eq!(replay.slices.lent.last, expected);
    replay.step(lend[0].as_bytes());
    assert_eq!(replay.slices.lent.last, [0; LAST_ORDERS]);
}

/// So does what a payment leaves in such notes.
#[test]
fn notes_of_calls() {
    let mut engine = SecondEngine;
    let mut replay = Replay::new(&mut engine);
    let mut book = fresh();
    book.nums[customer(2, 3, 2)] = 1;
    let lend = lend_book(&book);
    for command in &lend {
        replay.step(command.as_bytes());
    }
    let answer = replay.step(b"P 1 1 2 3 #2 100 500").unwrap();
    assert!(answer.starts_with("P 0 2 -500 | "));
    let mut expected = vec![b' '; NOTE_BYTES];
    expected[text(2, 3, 2)..][..14].copy_from_slice(b"2 3 2 1 1 500;");
    assert_eq!(replay.slices.lent.notes, expected);
    replay.step(b"SLICE nums 1 1 1 1 1");
    assert_eq!(replay.slices.lent.notes, expected);
    replay.step(lend[0].as_bytes());
    assert_eq!(replay.slices.lent.notes, [b' '; NOTE_BYTES]);
}

#[test]
fn answers_without_a_book() {
    let text = "OPEN\nN 1 1 1 1 0\nP 1 1 1 1 =- 1 1\nD 1 1 1\nS 1 1 #1\nL 1 1 10\n";
    let expected = ["OPEN 2 0", "N 2 0", "P 2 0", "D 2 0", "S 2 0", "L 2 0"];
    assert_eq!(replayed(text), expected);
    assert_eq!(replayed(text.trim_end()), expected);
    let text = format!(
        "RD 1\nQD 1 1 1\nQD 5 6 7\nQD 5 6 0\nRD 1\nBYTES buffer {}\nRD 1\nRD 1\nRD 1\n",
        "2e".repeat(400)
    );
    let expected = [
        "RD 16 0", "QD 0 0", "QD 0 1", "QD 7 0", "RD 16 0", "RD 2 0", "RD 2 0", "RD 16 0",
    ];
    assert_eq!(replayed(&text), expected);
}

#[test]
fn passed_over() {
    let text = "LEVEL 3\nLEVEL\nSLICE bands x\nSLICE archive\nBYTES other x\n\n";
    assert_eq!(replayed(text), [""; 0]);
}

const MALFORMED: &[&str] = &[
    "SLICE",
    "SLICE nums x",
    "SLICE nums 1  2",
    "SLICE nums 9223372036854775808",
    "SLICE nums +1",
    "SLICE nums -",
    "SLICE last x",
    "SLICE last 1  2",
    "SLICE last -9223372036854775809",
    "SLICE topup x",
    "SLICE topup 10  91",
    "SLICE topup 10 9223372036854775808",
    "BYTES",
    "BYTES names",
    "BYTES names 4",
    "BYTES names 4g",
    "BYTES names 41 42",
    "BYTES notes",
    "BYTES notes 4",
    "BYTES notes 4g",
    "BYTES notes 41 42",
    "BYTES buffer",
    "BYTES buffer 4",
    "BYTES buffer 4g",
    "BYTES buffer 41 42",
    "QUEUE",
    "QUEUE x",
    "QUEUE -1",
    "QUEUE +1",
    "QUEUE 18446744073709551616",
    "QUEUE 1 2",
    "QUEUE 1 2 3",
    "QUEUE 1 2 3 4 5",
    "QUEUE 1 2 3 -4",
    "QUEUE 1 2 3 18446744073709551616",
    "QUEUE 1  2 3 4",
    "OPEN 1",
    "OPENING",
    "open",
    "N",
    "N 1 1 1 1",
    "N 1 1 1 1 1 1 1",
    "N 1 1 1 1 1 1 1 1 1",
    "N 1 1 1 1 18446744073709551615",
    "N 1 1 1 -1 0",
    "D 1 1",
    "D 1 1 18446744073709551616",
    "D 1 1 +1",
    "P 1 1 1 1 1 1 1",
    "S 1 1 =",
    "S 1 1 =4",
    "S 1 1 #",
    "S 1 1 ALM",
    "L 1 1",
    "L 1 1 1 1",
    "READ",
    "READ 4",
    "READ 41 42",
    "WRITE",
    "WRITE 10",
    "WRITE x D 1 1 1",
    "WRITE 10 D 1 1",
    "WRITE 10 OPEN",
    "WRITE 20 QD 1 1 1",
    "QD",
    "QD 1 1",
    "QD 1 1 1 1",
    "QD 1 1 -1",
    "QD 1 1 18446744073709551616",
    "RD",
    "RD 1 1",
    "RD -1",
    "RD 18446744073709551616",
    "RD #1",
    "WRITE 18446744073709551615 D 1 1 1",
    " OPEN",
];

#[test]
fn malformed_commands() {
    for text in MALFORMED {
        let word = text.split(' ').next().unwrap();
        assert_eq!(replayed(text), [format!("BAD {word}")], "{text:?}");
    }
}

#[test]
fn any_bytes_for_a_command() {
    let mut engine = SecondEngine;
    let mut replay = Replay::new(&mut engine);
    for byte in 0..=255_u8 {
        replay.step(&[byte]);
        replay.step(&[b'N', b' ', byte]);
        replay.step(&[byte, b' ', byte, 0xff]);
    }
}

#[test]
fn reading_and_writing() {
    let text = "READ 440931093109310a\nREAD 44093109310931\nREAD -\nREAD 5309310931093d4\n\
                READ 5309310931093d414c4d0a\nREAD 4e09300931 0a\n\
                READ 4e09300931093209330934093509360a\n\
                WRITE 10 D 1 1 1\nWRITE 7 D 1 1 1\nWRITE 8 S 1 2 =-\nWRITE 12 S 1 2 =41\n\
                WRITE 9 S 1 2 #3\nWRITE 99 N 1 1 1 1 0\nWRITE 0 D 1 1 1\n";
    let expected = [
        "READ 0 D 1 1 1",
        "READ 1 0",
        "READ 1 0",
        "BAD READ",
        "READ 0 S 1 1 =414c4d",
        "BAD READ",
        "READ 0 N 0 1 2 3 1 4 5 6",
        "WRITE 0 8 440931093109310aeeee",
        "WRITE 1 0",
        "WRITE 1 0",
        "WRITE 0 9 5309310932093d410aeeeeee",
        "WRITE 0 9 53093109320923330a",
        "WRITE 1 0",
        "WRITE 1 0",
    ];
    assert_eq!(replayed(text), expected);
}

/// The example of tests/REPLAY.md: its commands, then their answers, each block indented by four spaces.
#[test]
fn the_page_s_example() {
    let page = include_str!("../../REPLAY.md");
    let (_, example) = page.split_once("## An example").unwrap();
    let (commands, answers) = example.split_once("answers").unwrap();
    let block = |text: &str| {
        text.lines()
            .filter_map(|line| line.strip_prefix("    ").map(|l| format!("{l}\n")))
            .collect::<String>()
    };
    let mut output = Vec::new();
    second::replay::run(
        &mut SecondEngine,
        &mut block(commands).as_bytes(),
        &mut output,
    )
    .unwrap();
    assert_eq!(String::from_utf8(output).unwrap(), block(answers));
}
