//! Random request lines of all seven letters: most are in range, some are out of it, some are damaged.

use second::lists::random::Random;

/// Last names of the farms.
pub const NAMES: [&str; 4] = ["ALM", "JENSEN", "O*NEIL J", "DE LA CRUZ SANTO"];

pub struct Lines {
    random: Random,
    sizes: [usize; 5],
    /// Of a hundred lines, how many are damaged.
    pub damaged: usize,
    date: usize,
}

impl Lines {
    pub fn new(seed: u64, sizes: [usize; 5]) -> Lines {
        Lines { random: Random::new(seed), sizes, damaged: 12, date: 1_000 }
    }

    /// So many lines behind each other; a damaged one may have lost its end, or have two.
    pub fn text(&mut self, count: usize) -> Vec<u8> {
        (0..count).flat_map(|_| self.line()).collect()
    }

    pub fn line(&mut self) -> Vec<u8> {
        let mut fields = match self.random.below(20) {
            0..=7 => self.new_order(),
            8..=11 => self.payment(),
            12 => self.delivery("D"),
            13..=14 => self.delivery("Q"),
            15..=16 => vec!["R".to_string(), self.date()],
            17..=18 => vec!["S".to_string(), self.depot(), self.near(10), self.who()],
            _ => vec!["L".to_string(), self.depot(), self.near(10), (9 + self.random.below(13)).to_string()],
        };
        let damaged = self.random.percent(self.damaged);
        if damaged && self.random.percent(50) {
            self.damage_field(&mut fields);
        }
        let mut line = fields.join("\t").into_bytes();
        line.push(b'\n');
        if damaged && self.random.percent(60) {
            self.damage(&mut line);
        }
        line
    }

    fn new_order(&mut self) -> Vec<String> {
        let mut fields = vec!["N".to_string(), self.depot(), self.near(10), self.near(self.sizes[1]), self.date()];
        for _ in 0..*self.random.pick(&[1, 1, 1, 2, 2, 3, 5, 15]) {
            fields.extend([self.near(self.sizes[2]), self.depot(), self.near(10)]);
        }
        fields
    }

    fn payment(&mut self) -> Vec<String> {
        let amount = *self.random.pick(&[99, 100, 101, 5_000, 5_001, 77_777, 499_999, 500_000, 500_001]);
        let (paying, of) = ([self.depot(), self.near(10)], [self.depot(), self.near(10)]);
        let [depot, district, cust_depot, cust_district] = [&paying[0], &paying[1], &of[0], &of[1]].map(String::clone);
        vec!["P".to_string(), depot, district, cust_depot, cust_district, self.who(), self.date(), amount.to_string()]
    }

    fn delivery(&mut self, letter: &str) -> Vec<String> {
        vec![letter.to_string(), self.depot(), self.near(10), self.date()]
    }

    fn depot(&mut self) -> String {
        self.near(self.sizes[0])
    }

    /// A number of 1 to `most`, now and then just outside.
    fn near(&mut self, most: usize) -> String {
        let number = match self.random.below(250) {
            0 => 0,
            1 => most + 1,
            _ => 1 + self.random.below(most),
        };
        number.to_string()
    }

    /// Mostly later than the one before.
    fn date(&mut self) -> String {
        self.date += self.random.below(50);
        let date = match self.random.below(120) {
            0 => 0,
            1 => 6_342_969_601,
            2 => 6_342_969_600,
            3 => self.date / 2,
            _ => self.date,
        };
        date.to_string()
    }

    fn who(&mut self) -> String {
        match self.random.below(10) {
            0..=4 => format!("={}", self.random.pick(&NAMES)),
            5 => ["=NOBODY", "=AL", "=>", "=ALM JENSEN"][self.random.below(4)].to_string(),
            _ => format!("#{}", self.near(self.sizes[1])),
        }
    }

    fn damage_field(&mut self, fields: &mut Vec<String>) {
        let place = self.random.below(fields.len());
        let odd = ["9999999999", "10000000000", "00", "01", "-1", "18446744073709551616", ">", "", "N", "R"];
        match self.random.below(3) {
            0 => drop(fields.remove(place)),
            1 => fields.insert(place, fields[place].clone()),
            _ => fields[place] = self.random.pick(&odd).to_string(),
        }
    }

    fn damage(&mut self, line: &mut Vec<u8>) {
        let (random, place) = (&mut self.random, line.len());
        let place = random.below(place);
        let byte = *random.pick(&[0, 9, 10, 13, 32, 35, 48, 61, 62, 127, 128, 255]);
        match random.below(6) {
            0 => line[place] = byte,
            1 => line.insert(place, byte),
            2 => drop(line.remove(place)),
            3 => line.insert(line.len() - 1, 13),
            4 => drop(line.splice(place..place, vec![b'7'; random.below(5_000)])),
            _ => line.truncate(place),
        }
    }
}

/// The lines of an input as a program takes them: each with its byte 10, the last perhaps without.
pub fn split(input: &[u8]) -> impl Iterator<Item = &[u8]> {
    input.split_inclusive(|&byte| byte == b'\n')
}
