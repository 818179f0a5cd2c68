//! Dates: seconds, 1 for 1900-01-01 00:00:00, and the same as people write them. No time zone.

use crate::Result;

/// 2100-12-31 23:59:59.
pub const LAST: i64 = 6_342_969_600;
const DAY: i64 = 86_400;

/// The days from 1900-01-01 to the first day of a year.
fn days_before(year: i64) -> i64 {
    let leap_days = |years: i64| years / 4 - years / 100 + years / 400;
    (year - 1900) * 365 + leap_days(year - 1) - leap_days(1899)
}

fn month_days(year: i64) -> [i64; 12] {
    let february = days_before(year + 1) - days_before(year) - 337;
    [31, february, 31, 30, 31, 30, 31, 31, 30, 31, 30, 31]
}

/// "2026-11-17 22:10:03"; "" for 0; the number itself where it is no date.
pub fn text(date: i64) -> String {
    match date {
        0 => return String::new(),
        1..=LAST => {}
        _ => return date.to_string(),
    }
    let (days, seconds) = ((date - 1) / DAY, (date - 1) % DAY);
    let mut year = 1900 + days / 366;
    while days_before(year + 1) <= days {
        year += 1;
    }
    let (mut day, mut month) = (days - days_before(year), 1);
    for length in month_days(year) {
        if day < length {
            break;
        }
        (day, month) = (day - length, month + 1);
    }
    format!("{year}-{month:02}-{:02} {:02}:{:02}:{:02}", day + 1, seconds / 3600, seconds / 60 % 60, seconds % 60)
}

/// A number of seconds, or 2026-11-01 (its first second), or "2026-11-01 12:00:00".
pub fn from(text: &str) -> Result<i64> {
    read(text, 0)
}

/// The same, but that a day means its last second.
pub fn until(text: &str) -> Result<i64> {
    read(text, DAY - 1)
}

fn read(text: &str, second: i64) -> Result<i64> {
    let date = if digits(text) { text.parse().ok() } else { civil(text, second) };
    date.filter(|date| (1..=LAST).contains(date)).ok_or_else(|| {
        format!("{text:?} is no date: 1900-01-01 to 2100-12-31 as 2026-11-01 or as \"2026-11-01 12:00:00\", or seconds from 1 to {LAST}")
    })
}

fn digits(text: &str) -> bool {
    !text.is_empty() && text.bytes().all(|byte| byte.is_ascii_digit())
}

/// The second of the day is the given one where the text names none. Years outside the range give numbers outside it.
fn civil(text: &str, second: i64) -> Option<i64> {
    let (date, time) = match text.split_once(' ') {
        Some((date, time)) => (date, Some(time)),
        None => (text, None),
    };
    let [year, month, day] = three(date, '-', [4, 2, 2])?;
    let lengths = month_days(year);
    let length = *lengths.get(usize::try_from(month - 1).ok()?)?;
    let second = match time.map(|time| three(time, ':', [2, 2, 2])) {
        None => second,
        Some(time) => {
            let [hour, minute, second] = time.filter(|time| time[0] < 24 && time[1] < 60 && time[2] < 60)?;
            hour * 3600 + minute * 60 + second
        }
    };
    let before: i64 = lengths[..month as usize - 1].iter().sum();
    (1..=length).contains(&day).then(|| (days_before(year) + before + day - 1) * DAY + second + 1)
}

/// Three numbers of so many digits each.
fn three(text: &str, between: char, widths: [usize; 3]) -> Option<[i64; 3]> {
    let parts: Vec<&str> = text.split(between).collect();
    let fit = parts.len() == 3 && parts.iter().zip(widths).all(|(part, width)| part.len() == width && digits(part));
    let number = |part: usize| parts[part].parse().ok();
    if fit { Some([number(0)?, number(1)?, number(2)?]) } else { None }
}

#[cfg(test)]
mod tests {
    use super::*;

    #[test]
    fn known_dates() {
        for (date, written) in [
            (1, "1900-01-01 00:00:00"),
            (DAY, "1900-01-01 23:59:59"),
            (58 * DAY + 1, "1900-02-28 00:00:00"),
            (59 * DAY + 1, "1900-03-01 00:00:00"),
            (2_208_988_801, "1970-01-01 00:00:00"),
            (2_208_988_801 + 951_782_400, "2000-02-29 00:00:00"),
            (2_208_988_801 + 1_763_417_403, "2025-11-17 22:10:03"),
            (2_208_988_801 + 4_107_542_400, "2100-03-01 00:00:00"),
            (LAST, "2100-12-31 23:59:59"),
        ] {
            assert_eq!(text(date), written);
            assert_eq!((from(written), until(written)), (Ok(date), Ok(date)));
            assert_eq!((from(&date.to_string()), until(&date.to_string())), (Ok(date), Ok(date)));
        }
        assert_eq!(text(0), "");
        assert_eq!((text(-1), text(LAST + 1)), ("-1".to_string(), "6342969601".to_string()));
    }

    /// Every day of the range, counted on by the calendar's rules alone, with its first and last second.
    #[test]
    fn every_day_there_and_back() {
        let (mut year, mut month, mut day, mut first) = (1900, 1, 1, 1);
        while year <= 2100 {
            let written = format!("{year}-{month:02}-{day:02}");
            assert_eq!(from(&written), Ok(first));
            assert_eq!(until(&written), Ok(first + 86_399));
            assert_eq!(text(first), written.clone() + " 00:00:00");
            assert_eq!(text(first + 86_399), written + " 23:59:59");
            let leap = year % 4 == 0 && year != 1900 && year != 2100;
            let length = match month {
                2 => 28 + i32::from(leap),
                4 | 6 | 9 | 11 => 30,
                _ => 31,
            };
            (day, first) = (day + 1, first + 86_400);
            if day > length {
                (month, day) = (month + 1, 1);
            }
            if month > 12 {
                (year, month) = (year + 1, 1);
            }
        }
        assert_eq!(first, 6_342_969_601);
    }

    #[test]
    fn every_second_of_a_day_there_and_back() {
        let first = from("2000-02-29").unwrap();
        for date in first..=until("2000-02-29").unwrap() {
            assert_eq!(from(&text(date)), Ok(date));
        }
    }

    #[test]
    fn no_dates() {
        for wrong in [
            "", " ", "0", "-1", "+1", "6342969601", "99999999999999999999", "1899-12-31", "2101-01-01", "1900-02-29", "2100-02-29", "2026-02-29",
            "2000-02-30", "2026-04-31", "2026-00-01", "2026-13-01", "2026-01-00", "2026-01-32", "2026-1-1", "26-01-01", "2026-01", "2026-01-01-01",
            "2026/01/01", "01.11.2026", "2026-01-01 ", "2026-01-01 24:00:00", "2026-01-01 12:60:00", "2026-01-01 12:00:60", "2026-01-01 12:00",
            "2026-01-01T12:00:00", "2026-01-01  12:00:00", "+026-01-01", "２０２６-01-01", "12x",
        ] {
            let said = from(wrong).unwrap_err();
            assert!(said.starts_with(&format!("{wrong:?} is no date")), "{said}");
            assert!(until(wrong).is_err(), "{wrong}");
        }
    }
}
