//! Timestamps: the letters behind t, the length of each text, and where days begin. The calendar is counted day by day, without a formula.

use std::sync::LazyLock;

/// The letters behind t and T; `h` is read as `b`.
pub const COMPONENTS: &[u8] = b"HIklMSLNpzZsQBbhAaCYyjmdeRTrDFc";

pub const SECOND: i64 = 1_000_000_000;
pub const DAY: i64 = 86_400 * SECOND;

/// The days of the least and of the largest timestamp, counted from 1970-01-01.
pub const FIRST_DAY: i64 = i64::MIN.div_euclid(DAY);
pub const LAST_DAY: i64 = i64::MAX.div_euclid(DAY);

const MONTHS: [&str; 12] = [
    "January",
    "February",
    "March",
    "April",
    "May",
    "June",
    "July",
    "August",
    "September",
    "October",
    "November",
    "December",
];
const WEEKDAYS: [&str; 7] = ["Sunday", "Monday", "Tuesday", "Wednesday", "Thursday", "Friday", "Saturday"];

#[derive(Debug, Clone, Copy, PartialEq)]
pub struct Date {
    pub year: u16,
    pub month: u8,
    pub day: u8,
}

/// The date of each day from `FIRST_DAY` to `LAST_DAY`.
static DATES: LazyLock<Vec<Date>> = LazyLock::new(|| {
    let mut date = Date { year: 1677, month: 1, day: 1 };
    let mut number: i64 = (1677..1970).map(|year| if is_leap(year) { -366 } else { -365 }).sum();
    let mut dates = Vec::new();
    while number <= LAST_DAY {
        if number >= FIRST_DAY {
            dates.push(date);
        }
        date = next(date);
        number += 1;
    }
    dates
});

/// The date of a day, counted from 1970-01-01.
pub fn date(day: i64) -> Date {
    DATES[(day - FIRST_DAY) as usize]
}

fn next(Date { year, month, day }: Date) -> Date {
    let last = match month {
        4 | 6 | 9 | 11 => 30,
        2 if is_leap(year) => 29,
        2 => 28,
        _ => 31,
    };
    match (day == last, month) {
        (false, _) => Date { year, month, day: day + 1 },
        (true, 12) => Date { year: year + 1, month: 1, day: 1 },
        (true, _) => Date { year, month: month + 1, day: 1 },
    }
}

fn is_leap(year: u16) -> bool {
    year % 4 == 0 && (year % 100 != 0 || year % 400 == 0)
}

/// Whether it is negative and not a whole second: the library does not print it.
pub fn is_broken(nanos: i64) -> bool {
    nanos < 0 && nanos % SECOND != 0
}

/// The last moment before a second's beginning that the library prints.
pub fn before(nanos: i64) -> i64 {
    if nanos > 0 { nanos - 1 } else { nanos - SECOND }
}

/// The length of a component's text.
pub fn text_len(component: u8, nanos: i64) -> usize {
    let day = nanos.div_euclid(DAY);
    let hour = nanos.rem_euclid(DAY) / (3600 * SECOND);
    match component {
        b'H' | b'I' | b'M' | b'S' | b'p' | b'C' | b'y' | b'm' | b'd' => 2,
        b'L' | b'Z' | b'b' | b'h' | b'a' | b'j' => 3,
        b'Y' => 4,
        b'z' | b'R' => 5,
        b'T' | b'D' => 8,
        b'N' => 9,
        b'F' => 10,
        b'r' => 11,
        b'c' => 28,
        b'k' => digits(hour),
        b'l' => digits((hour + 11) % 12 + 1),
        b'e' => digits(i64::from(date(day).day)),
        b's' => digits(nanos.div_euclid(SECOND)),
        b'Q' => digits(nanos.div_euclid(SECOND / 1000)),
        b'B' => MONTHS[usize::from(date(day).month) - 1].len(),
        b'A' => WEEKDAYS[(day + 4).rem_euclid(7) as usize].len(),
        _ => unreachable!("no such component"),
    }
}

fn digits(number: i64) -> usize {
    number.to_string().len()
}
