//! Random request lines on the program's book: most are in range, some are out of it, some are damaged.

use super::random::Random;

/// A line with its byte 10, or without one where it is damaged.
pub fn line(random: &mut Random) -> Vec<u8> {
    let mut fields = match random.below(12) {
        0..=4 => new_order(random),
        5..=6 => payment(random),
        7 => delivery(random),
        8..=9 => order_status(random),
        _ => stock_level(random),
    };
    if random.percent(8) {
        let place = random.below(fields.len());
        match random.below(4) {
            0 => drop(fields.remove(place)),
            1 => fields.insert(place, fields[place].clone()),
            2 => fields[place] = number(random),
            _ => fields[place].clear(),
        }
    }
    let mut line = fields.join(&b'\t');
    line.push(b'\n');
    if random.percent(8) {
        damage(random, &mut line);
    }
    line
}

fn new_order(random: &mut Random) -> Vec<Vec<u8>> {
    let mut fields = vec![
        b"N".to_vec(),
        low(random, 1),
        low(random, 10),
        low(random, 2),
        date(random),
    ];
    for _ in 0..*random.pick(&[1, 1, 1, 2, 2, 3, 5, 14, 15, 16]) {
        let items = if random.percent(5) {
            [0, 4, 6]
        } else {
            [1, 2, 5]
        };
        fields.push(text(*random.pick(&items)));
        fields.push(low(random, 1));
        fields.push(low(random, 10));
    }
    fields
}

fn payment(random: &mut Random) -> Vec<Vec<u8>> {
    let amount = *random.pick(&[99, 100, 101, 5_000, 499_999, 500_000, 500_001]);
    vec![
        b"P".to_vec(),
        low(random, 1),
        low(random, 10),
        low(random, 1),
        low(random, 10),
        who(random),
        date(random),
        text(amount),
    ]
}

fn delivery(random: &mut Random) -> Vec<Vec<u8>> {
    vec![b"D".to_vec(), low(random, 1), low(random, 10), date(random)]
}

fn order_status(random: &mut Random) -> Vec<Vec<u8>> {
    vec![b"S".to_vec(), low(random, 1), low(random, 10), who(random)]
}

fn stock_level(random: &mut Random) -> Vec<Vec<u8>> {
    let threshold = *random.pick(&[9, 10, 11, 15, 18, 19, 20, 20, 21]);
    vec![
        b"L".to_vec(),
        low(random, 1),
        low(random, 10),
        text(threshold),
    ]
}

/// A number of 1 to `most`, now and then just outside.
fn low(random: &mut Random, most: usize) -> Vec<u8> {
    match random.below(100) {
        0 => text(0),
        1 => text(most + 1),
        _ => text(1 + random.below(most)),
    }
}

fn date(random: &mut Random) -> Vec<u8> {
    match random.below(60) {
        0 => text(0),
        1 => text(6_342_969_601),
        2 => text(6_342_969_600),
        _ => text(1 + random.below(100_000)),
    }
}

fn who(random: &mut Random) -> Vec<u8> {
    let names: [&[u8]; 6] = [b"=ALM", b"=ALM", b"=ALM", b"=AL", b"=ALMA", b"=ALM EVA"];
    if random.percent(50) {
        return random.pick(&names).to_vec();
    }
    [b"#", &low(random, 2)[..]].concat()
}

/// A number of any size, also one that no line may have.
fn number(random: &mut Random) -> Vec<u8> {
    let odd: [&[u8]; 6] = [
        b"9999999999",
        b"10000000000",
        b"00",
        b"01",
        b"-1",
        b"18446744073709551616",
    ];
    random.pick(&odd).to_vec()
}

fn text(number: usize) -> Vec<u8> {
    number.to_string().into_bytes()
}

fn damage(random: &mut Random, line: &mut Vec<u8>) {
    let place = random.below(line.len());
    let byte = *random.pick(&[0, 9, 10, 13, 32, 35, 48, 61, 127, 128, 255]);
    match random.below(6) {
        0 => line[place] = byte,
        1 => line.insert(place, byte),
        2 => drop(line.remove(place)),
        3 => line.insert(line.len() - 1, 13),
        4 => drop(line.splice(place..place, vec![b'7'; random.below(5_000)])),
        _ => line.truncate(place),
    }
}
