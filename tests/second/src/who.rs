//! Finding a customer of a district by last name.

use crate::layout::NAMES_WIDTH;
use crate::ranges::NAME_BYTES;
use crate::request::Who;

/// A customer's number, or nobody.
#[derive(Debug, Clone, Copy, PartialEq, Eq)]
pub enum Found {
    Customer(usize),
    Nobody,
}

/// Finds who is meant among the names of one district. A number was checked before.
pub fn find(names: &[u8], who: &Who) -> Found {
    match who {
        Who::Number(number) => Found::Customer(*number as usize),
        Who::LastName(last_name) => by_last_name(names, last_name),
    }
}

/// Among the equal last names, sorted by first name and then number, the one in the middle.
fn by_last_name(names: &[u8], last_name: &[u8]) -> Found {
    let Some(wanted) = padded(last_name) else {
        return Found::Nobody;
    };
    let mut equal: Vec<(&[u8], usize)> = names
        .chunks_exact(NAMES_WIDTH)
        .zip(1..)
        .filter(|(name, _)| name[..NAME_BYTES] == wanted)
        .map(|(name, number)| (&name[NAME_BYTES..], number))
        .collect();
    if equal.is_empty() {
        return Found::Nobody;
    }
    equal.sort_unstable();
    let (_, number) = equal[place(equal.len()) - 1];
    Found::Customer(number)
}

/// A last name padded with spaces; none where it is empty or too long.
pub fn padded(last_name: &[u8]) -> Option<[u8; NAME_BYTES]> {
    if last_name.is_empty() || last_name.len() > NAME_BYTES {
        return None;
    }
    let mut wanted = [b' '; NAME_BYTES];
    wanted[..last_name.len()].copy_from_slice(last_name);
    Some(wanted)
}

/// The place, from 1, taken among n: n/2 rounded up.
pub fn place(n: usize) -> usize {
    n.div_ceil(2)
}
