//! R-5 of document 02, sentence by sentence: Deliveries that wait their turn.

mod common;

use common::*;
use second::queue::PLACES;
use second::replay::{print, Engine, Lent, Replay, SecondEngine};
use second::*;

/// What the places beyond those that are set hold, so that it is seen whether they are kept.
const UNUSED: [u64; 3] = [7, 8, 9];
const LAST_DATE: u64 = 6_342_969_600;
const MOST: u64 = u64::MAX;

/// A record of this count with these places: queuing date, warehouse, carrier.
fn record(count: u64, places: &[[u64; 3]]) -> Queue {
    let mut queue = Queue {
        count,
        ..Queue::default()
    };
    let all = places.iter().chain([UNUSED].iter().cycle());
    for (place, &[date, warehouse, carrier]) in queue.waiting.iter_mut().zip(all) {
        *place = Waiting {
            date,
            warehouse,
            carrier,
        };
    }
    queue
}

fn request(warehouse: u64, carrier: u64, date: u64) -> Delivery {
    Delivery {
        warehouse,
        carrier,
        date,
    }
}

/// Places 0, 1, .. that are told apart by their numbers.
fn numbered(count: u64) -> Vec<[u64; 3]> {
    (0..count).map(|n| [n, n, n]).collect()
}

/// W 1, C 1, I 1, O 2, H 2: an order waits in district 1 and two in district 3. Its positions are worked out by hand.
fn three_orders() -> Lent {
    let mut nums = vec![1, 1, 1, 2, 2, 0, 1_000, 0];
    for d in 1..=10 {
        nums.extend([
            500,
            0,
            match d {
                1 => 2,
                3 => 3,
                _ => 1,
            },
        ]);
    }
    nums.extend([0; 60]);
    nums.extend([100, 14, 6, 3, 0]);
    nums.resize(1_737, 0);
    for slot in [103, 427, 508] {
        nums[slot..slot + 10].copy_from_slice(&[1, 50, 0, 1, 1, 1, 1, 1, 2, 200]);
    }
    let mut last = vec![0; 10];
    (last[0], last[2]) = (1, 2);
    Lent {
        nums,
        names: format!("{:16}{:16}", "AB", "C").repeat(10).into_bytes(),
        last,
        notes: vec![b' '; 5_000],
        topup: vec![10, 91],
        ..Lent::default()
    }
}

/// A run of the book of three orders: the record and the date, and what is to be answered, written and left.
struct Run {
    queue: Queue,
    date: u64,
    answer: &'static str,
    /// MOST stands for 2^64 - 1.
    line: &'static str,
    left: Queue,
}

/// What the oldest of three in the book of three orders answers and writes.
const OF_THREE: &str = "RD 0 8 1018 1 0 1 0 0 0 0 0 0 0";
const LINE_OF_THREE: &str = "100\t1\t3\t200\t8\t1\t0\t1\t0\t0\t0\t0\t0\t0\t0\n";

fn three() -> Queue {
    record(3, &[[100, 1, 3], [90, 1, 4], [110, 1, 5]])
}

fn three_less_one() -> Queue {
    record(2, &[[90, 1, 4], [110, 1, 5], [0, 0, 0]])
}

fn full() -> Vec<[u64; 3]> {
    let mut places = vec![[100, 1, 3], [90, 1, 4], [110, 1, 5]];
    places.extend((0..13).map(|n| [n, 1, 1]));
    places
}

/// Committed, with one, three and sixteen waiting.
fn committed_runs() -> [Run; 3] {
    let mut full_less_one = full();
    full_less_one.remove(0);
    full_less_one.push([0, 0, 0]);
    [
        Run {
            queue: three(),
            date: 200,
            answer: OF_THREE,
            line: LINE_OF_THREE,
            left: three_less_one(),
        },
        Run {
            queue: record(1, &[[MOST, 1, 10]]),
            date: 200,
            answer: OF_THREE,
            line: "MOST\t1\t10\t200\t8\t1\t0\t1\t0\t0\t0\t0\t0\t0\t0\n",
            left: record(0, &[[0, 0, 0]]),
        },
        Run {
            queue: record(16, &full()),
            date: 200,
            answer: OF_THREE,
            line: LINE_OF_THREE,
            left: record(15, &full_less_one),
        },
    ]
}

/// Refused, the last two with the longest numbers.
fn refused_runs() -> [Run; 4] {
    let run = |oldest, date, answer, line| Run {
        queue: record(2, &[oldest, [1, 1, 1]]),
        date,
        answer,
        line,
        left: record(1, &[[1, 1, 1], [0, 0, 0]]),
    };
    [
        run([100, 1, 3], 0, "RD 7 0", "100\t1\t3\t0\t7\n"),
        run([100, 2, 11], 200, "RD 4 0", "100\t2\t11\t200\t4\n"),
        run(
            [MOST, 1, MOST],
            LAST_DATE,
            "RD 8 0",
            "MOST\t1\tMOST\t6342969600\t8\n",
        ),
        run([MOST; 3], MOST, "RD 4 0", "MOST\tMOST\tMOST\tMOST\t4\n"),
    ]
}

/// The line at the front of a buffer of so many dots.
fn on_dots(line: &str, length: usize) -> Vec<u8> {
    let line = line.replace("MOST", "18446744073709551615");
    format!("{line:.<length$}").into_bytes()
}

/// "Running takes the oldest, carries it out and writes one result line .. the rest of the buffer kept", committed and refused; the others move one
/// place forward, the freed place is 0, 0, 0, and those beyond the count stay.
#[test]
fn computed_runs() {
    for run in committed_runs().into_iter().chain(refused_runs()) {
        for length in [400, 401, 410, 5_000] {
            let mut lent = three_orders();
            (lent.queue, lent.buffer) = (run.queue, vec![b'.'; length]);
            let answer = common::run(&mut lent, run.date);
            assert_eq!(print::delivery("RD", &answer), run.answer);
            assert_eq!(lent.buffer, on_dots(run.line, length));
            assert_eq!(lent.queue, run.left);
        }
    }
}

/// Every number that the first of those runs changes.
#[test]
fn book_of_a_run() {
    let mut lent = three_orders();
    (lent.queue, lent.buffer) = (three(), vec![b'.'; 400]);
    common::run(&mut lent, 200);
    let mut expected = three_orders().nums;
    for customer in [38, 50] {
        (expected[customer + 2], expected[customer + 5]) = (200, 1);
    }
    for slot in [103, 427] {
        (expected[slot + 2], expected[slot + 5], expected[slot + 10]) = (3, 0, 200);
    }
    assert_eq!(lent.nums, expected);
}

/// "16 when a run finds a count of 0 or above 16, or a result buffer under 400 bytes": nothing changes, `common::run` sees to that.
#[test]
fn refused_by_16() {
    for (count, length) in [
        (0, 410),
        (17, 410),
        (18, 410),
        ((1 << 32) + 1, 410),
        (1 << 63, 410),
        (MOST, 410),
        (3, 399),
        (3, 398),
        (3, 315),
        (3, 1),
        (3, 0),
        (16, 399),
        (0, 0),
        (MOST, 0),
    ] {
        let mut lent = three_orders();
        lent.queue = Queue { count, ..three() };
        lent.buffer = vec![b'.'; length];
        let answer = common::run(&mut lent, 200);
        assert_eq!(print::delivery("RD", &answer), "RD 16 0");
    }
}

/// "before any other check of the run": of 16 and a fault of the Delivery 16 is answered; without it the fault is, and leaves the list.
#[test]
fn sixteen_before_the_others() {
    let sound = request(1, 3, 200);
    let faults: [(u64, Delivery); 5] = [
        (2, sound.clone()),
        (4, request(3, 3, 200)),
        (7, request(1, 3, 0)),
        (8, request(1, 11, 200)),
        (9, sound),
    ];
    for (number, fault) in faults {
        let mut lent = in_use();
        match number {
            2 => lent.nums.push(0),
            9 => lent.nums[district(1, 1)] = 10_000,
            _ => {}
        }
        let oldest = [100, fault.warehouse, fault.carrier];
        for (count, length) in [(0, 400), (17, 400), (1, 399), (0, 0)] {
            (lent.queue, lent.buffer) = (record(count, &[oldest]), vec![b'.'; length]);
            assert_eq!(ends(run(&mut lent, fault.date).outcome), (16, 0));
        }
        (lent.queue, lent.buffer) = (record(1, &[oldest]), vec![b'.'; 400]);
        assert_eq!(ends(run(&mut lent, fault.date).outcome), (number, 0));
        assert_eq!(lent.queue, record(0, &[[0, 0, 0]]));
        let line = format!(
            "100\t{}\t{}\t{}\t{number}\n",
            fault.warehouse, fault.carrier, fault.date
        );
        assert_eq!(lent.buffer, on_dots(&line, 400));
    }
}

/// "15 when the record counts 16 or more, before 7 for the queuing date, the queuing call's one other check": the answer and the count after it.
#[test]
fn queuing_refusals() {
    for (count, date, answer) in [
        (0, 1, "QD 0 0"),
        (0, 100, "QD 0 0"),
        (0, LAST_DATE, "QD 0 0"),
        (0, 0, "QD 7 0"),
        (0, LAST_DATE + 1, "QD 7 0"),
        (3, 0, "QD 7 0"),
        (15, LAST_DATE, "QD 0 15"),
        (15, LAST_DATE + 1, "QD 7 0"),
        (15, MOST, "QD 7 0"),
        (16, 1, "QD 15 0"),
        (16, 0, "QD 15 0"),
        (16, MOST, "QD 15 0"),
        (17, 5, "QD 15 0"),
        (17, 0, "QD 15 0"),
        ((1 << 32) + 1, 5, "QD 15 0"),
        (1 << 63, 5, "QD 15 0"),
        (MOST, 5, "QD 15 0"),
    ] {
        let mut lent = Lent {
            queue: record(count, &[]),
            ..Lent::default()
        };
        let mut again = lent.clone();
        let outcome = SecondEngine.queue_delivery(&mut again, &request(1, 3, date));
        assert_eq!(print::queue_delivery(outcome), answer, "{count} {date}");
        queue(&mut lent, &request(1, 3, date)); // which sees that a refused one changes nothing
        assert_eq!(lent, again);
    }
}

/// A request is put behind the others as it is given: no depot or carrier is refused, and no book is taken.
#[test]
fn queued_as_given() {
    for (warehouse, carrier) in [
        (1, 3),
        (0, 0),
        (77, 0),
        (21, 11),
        (MOST, MOST),
        (1 << 63, 1),
    ] {
        for count in 0..16 {
            let mut places = numbered(count);
            let mut lent = Lent {
                queue: record(count, &places),
                ..Lent::default()
            };
            assert_eq!(queue(&mut lent, &request(warehouse, carrier, 100)), (0, 0));
            places.push([100, warehouse, carrier]);
            assert_eq!(lent.queue, record(count + 1, &places));
        }
    }
}

/// The other places stay as they are with every count, free ones too; the freed one is 0, 0, 0.
#[test]
fn places_after_a_run() {
    for count in 1..=16 {
        let mut lent = three_orders();
        let mut places = numbered(16);
        (lent.queue, lent.buffer) = (record(count, &places), vec![b'.'; 400]);
        run(&mut lent, 200);
        places.remove(0);
        places.insert(count as usize - 1, [0, 0, 0]);
        assert_eq!(lent.queue, record(count - 1, &places), "{count}");
    }
}

/// Whatever bytes the buffer holds, those behind the line stay.
#[test]
fn rest_of_the_buffer() {
    let mut lent = three_orders();
    lent.queue = three();
    lent.buffer = (0..=255).cycle().take(1_000).collect();
    let mut expected = lent.buffer.clone();
    run(&mut lent, 200);
    expected[..LINE_OF_THREE.len()].copy_from_slice(LINE_OF_THREE.as_bytes());
    assert_eq!(lent.buffer, expected);
    run(&mut lent, 0); // a shorter line leaves the end of the longer one
    let line = "90\t1\t4\t0\t7\n";
    expected[..line.len()].copy_from_slice(line.as_bytes());
    assert_eq!(lent.buffer, expected);
}

/// "Only the run counts as a Delivery, on the finishing date": it answers and leaves the book as a Delivery of the request on that date, and the
/// queuing changes nothing of it.
#[test]
fn a_run_is_a_delivery_on_its_date() {
    for (queued, finished) in [(100, 200), (200, 100), (1, LAST_DATE), (LAST_DATE, 1)] {
        let (mut later, mut at_once) = (in_use(), in_use());
        later.buffer = vec![b'.'; 400];
        assert_eq!(queue(&mut later, &request(2, 4, queued)), (0, 0));
        assert!(later.nums == at_once.nums);
        let answer = run(&mut later, finished);
        assert_eq!(
            answer,
            SecondEngine.delivery(&mut at_once, &request(2, 4, finished))
        );
        assert!(later.nums == at_once.nums);
        assert_eq!(later.nums[order(2, 1, 1) + 10] as u64, finished);
    }
}

/// "changed where it is by the call that queues and the call that runs, by nobody else": the buffer too.
#[test]
fn other_calls_leave_them() {
    let mut lent = in_use();
    lent.queue = record(5, &numbered(16));
    lent.buffer = (0..=255).cycle().take(450).collect();
    let (queue, buffer) = (lent.queue, lent.buffer.clone());
    for request in [
        Request::NewOrder(new_order_of(&[line(1, 1, 1)])),
        Request::Payment(payment_by(Who::Number(1))),
        Request::Delivery(delivery_at(1)),
        Request::OrderStatus(status_of(Who::Number(1))),
        Request::StockLevel(stock_level_below(15)),
    ] {
        assert_eq!(call(&mut lent, &request), (0, 0));
        assert!(lent.queue == queue && lent.buffer == buffer);
    }
}

/// Commands with another call between, a 7 and two runs refused by 16, and what they answer.
const INTERLEAVED: [(&str, &str); 14] = [
    ("QD 1 3 100", "QD 0 1"),
    ("RD 200", "RD 0 8 1018 1 0 1 0 0 0 0 0 0 0"),
    ("QD 1 4 101", "QD 0 1"),
    ("QD 1 9 0", "QD 7 0"),
    ("QD 5 5 102", "QD 0 2"),
    ("N 1 2 1 60 1 1 1 1", "N 0 1 115 0"),
    ("RD 201", "RD 16 0"),
    ("RD 201", "RD 0 8 1017 0 1 2 0 0 0 0 0 0 0"),
    ("QD 1 6 103", "QD 0 2"),
    ("RD 202", "RD 0 10 1023 0 0 0 0 0 0 0 0 0 0"),
    ("RD 203", "RD 4 0"),
    ("RD 204", "RD 0 10 1023 0 0 0 0 0 0 0 0 0 0"),
    ("RD 205", "RD 16 0"),
    ("QD 1 7 104", "QD 0 0"),
];

/// The lines of its runs.
const ITS_LINES: [&str; 5] = [
    "99 1 2 200 8 1 0 1 0 0 0 0 0 0 0\n",
    "100 1 3 201 8 0 1 2 0 0 0 0 0 0 0\n",
    "101 1 4 202 10 0 0 0 0 0 0 0 0 0 0\n",
    "102 5 5 203 4\n",
    "103 1 6 204 10 0 0 0 0 0 0 0 0 0 0\n",
];

/// An interleaving: its answers, each run's line, and the record and the customers at the end.
#[test]
fn interleaved() {
    let mut engine = SecondEngine;
    let mut replay = Replay::new(&mut engine);
    replay.slices.lent = three_orders();
    replay.slices.lent.queue = record(1, &[[99, 1, 2]]);
    let mut lines = ITS_LINES.iter().map(|line| line.replace(' ', "\t"));
    for (place, (command, expected)) in INTERLEAVED.into_iter().enumerate() {
        let length = if place == 6 { 10 } else { 410 };
        replay.slices.lent.buffer = vec![b'.'; length];
        let answer = replay.step(command.as_bytes()).unwrap();
        assert_eq!(answer.split(" | ").next(), Some(expected), "{command}");
        let runs = command.starts_with("RD") && expected != "RD 16 0";
        let line = if runs { lines.next() } else { None };
        let expected = on_dots(&line.unwrap_or_default(), length);
        assert_eq!(replay.slices.lent.buffer, expected, "{command}");
    }
    assert_eq!(lines.next(), None);
    let lent = &replay.slices.lent;
    assert_eq!(lent.queue, record(1, &[[104, 1, 7], [0; 3], [0; 3]]));
    let customers = [
        [0, 0, 200, 0, 0, 1],
        [0, 0, 100, 0, 0, 1],
        [0, 0, 400, 0, 0, 2],
    ];
    assert_eq!(lent.nums[38..56], customers.concat());
}

/// "A request queued behind j others is run by run number j + 1 after it .. however many more are queued meanwhile": 100 go through a list that
/// is kept as full as said.
#[test]
fn in_turn_with_any_number_waiting() {
    for kept in 1..=PLACES as u64 {
        let mut lent = three_orders();
        lent.buffer = vec![b'.'; 400];
        let (mut next, mut ran) = (1, 0);
        while ran < 100 {
            while lent.queue.count < kept {
                assert_eq!(queue(&mut lent, &request(1, 1, next)), (0, 0));
                next += 1;
            }
            lent.buffer.fill(b'.');
            run(&mut lent, 500);
            ran += 1;
            let line = String::from_utf8_lossy(&lent.buffer).into_owned();
            assert!(line.starts_with(&format!("{ran}\t1\t1\t500\t")), "{line}");
        }
        assert_eq!(next, 100 + kept);
    }
}
