//! The note of a payment by a customer with bad credit (TPC-C 2.5.2.2): put at the left of the customer's text.

/// A customer of four digits, four places of two, an amount of six, five spaces and a semicolon.
const LONGEST: usize = 24;

/// Puts the numbers, a space between and a semicolon behind, at the text's left. The old text moves right, and what passes its end is lost.
pub fn put(text: &mut [u8], numbers: [u64; 6]) {
    let mut room = [0; LONGEST];
    let mut start = LONGEST;
    let mut behind = b';';
    for number in numbers.into_iter().rev() {
        start -= 1;
        room[start] = behind;
        start = put_decimal(&mut room, start, number);
        behind = b' ';
    }
    let note = &room[start..];
    text.copy_within(..text.len() - note.len(), note.len());
    text[..note.len()].copy_from_slice(note);
}

/// Puts a number's digits before `end`; gives where they start.
fn put_decimal(room: &mut [u8; LONGEST], end: usize, number: u64) -> usize {
    let (mut start, mut left) = (end, number);
    loop {
        start -= 1;
        room[start] = b'0' + (left % 10) as u8;
        left /= 10;
        if left == 0 {
            return start;
        }
    }
}
