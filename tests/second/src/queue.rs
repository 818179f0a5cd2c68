//! Deliveries that wait their turn (TPC-C 2.7.2): a list of up to 16 requests, the call that queues one and the call that runs the oldest.

use crate::answer::{DeliveryAnswer, Outcome, QueueFigures, Refusal};
use crate::checks::{self, demand};
use crate::delivery::delivery;
use crate::request::Delivery;

/// How many requests may wait.
pub const PLACES: usize = 16;

/// A run is refused where its buffer has fewer bytes.
pub const RESULT_BYTES: usize = 400;

/// A Delivery request that waits, with the date of its queuing; the three numbers lie as a C struct has them.
#[repr(C)]
#[derive(Debug, Clone, Copy, Default, PartialEq, Eq)]
pub struct Waiting {
    pub date: u64,
    pub warehouse: u64,
    pub carrier: u64,
}

/// The waiting list, the oldest first. A record that is lent may hold anything.
#[repr(C)]
#[derive(Debug, Clone, Copy, Default, PartialEq, Eq)]
pub struct Queue {
    pub count: u64,
    pub waiting: [Waiting; PLACES],
}

/// Puts a request, whose date is that of the queuing, behind those that wait. Warehouse and carrier are not judged here.
pub fn queue_delivery(queue: &mut Queue, request: &Delivery) -> Outcome<QueueFigures> {
    judge(queue, request)
        .map(|()| {
            let before = queue.count;
            queue.waiting[before as usize] = Waiting {
                date: request.date,
                warehouse: request.warehouse,
                carrier: request.carrier,
            };
            queue.count += 1;
            QueueFigures { before }
        })
        .into()
}

fn judge(queue: &Queue, request: &Delivery) -> Result<(), Refusal> {
    demand(queue.count < PLACES as u64, 15)?;
    checks::date(request.date)
}

/// Takes the oldest request off the list, carries it out on this date and writes its line to the buffer's front, whatever the Delivery answers.
/// Refused by 16 it changes nothing.
pub fn run_delivery(
    nums: &mut [i64],
    names: &[u8],
    queue: &mut Queue,
    date: u64,
    buffer: &mut [u8],
) -> DeliveryAnswer {
    let some_wait = 1 <= queue.count && queue.count <= PLACES as u64;
    if !some_wait || buffer.len() < RESULT_BYTES {
        return DeliveryAnswer {
            outcome: Outcome::Refused(Refusal::plain(16)),
            orders: [0; 10],
        };
    }
    let oldest = take_oldest(queue);
    let request = Delivery {
        warehouse: oldest.warehouse,
        carrier: oldest.carrier,
        date,
    };
    let answer = delivery(nums, names, &request);
    let line = result_line(&oldest, date, &answer);
    buffer[..line.len()].copy_from_slice(line.as_bytes());
    answer
}

/// The others move one place forward, the last place in use becomes free.
fn take_oldest(queue: &mut Queue) -> Waiting {
    let in_use = &mut queue.waiting[..queue.count as usize];
    let oldest = std::mem::take(&mut in_use[0]);
    in_use.rotate_left(1);
    queue.count -= 1;
    oldest
}

/// Queuing date, warehouse, carrier, finishing date, then skip count and orders or, where the Delivery was refused, the number alone.
fn result_line(oldest: &Waiting, date: u64, answer: &DeliveryAnswer) -> String {
    let mut fields = vec![oldest.date, oldest.warehouse, oldest.carrier, date];
    match answer.outcome {
        Outcome::Committed(figures) => {
            fields.push(figures.skip_count);
            fields.extend(answer.orders);
        }
        Outcome::Refused(refusal) => fields.push(refusal.number),
    }
    let fields: Vec<String> = fields.iter().map(u64::to_string).collect();
    format!("{}\n", fields.join("\t"))
}
