//! Timestamps: all at which a part of the date changes, those beside them, and others from a seed.

use crate::dates::SECOND;
use crate::prng::Prng;

pub const MINUTE: i64 = 60;
pub const HOUR: i64 = 60 * MINUTE;
pub const DAY: i64 = 24 * HOUR;

/// The years that have a timestamp.
pub const FIRST_YEAR: i64 = 1677;
pub const LAST_YEAR: i64 = 2262;
/// The first and the last second that are timestamps.
pub const FIRST_SECOND: i64 = i64::MIN / SECOND;
pub const LAST_SECOND: i64 = i64::MAX / SECOND;

/// Century years, of which 2000 alone is a leap year; leap years and others; the first, the last and those around 1970.
const YEARS: [i64; 20] = [
    1677, 1678, 1699, 1700, 1800, 1899, 1900, 1904, 1968, 1969, 1970, 1971, 1972, 1999, 2000, 2001, 2024, 2100, 2200,
    2262,
];

/// The timestamp, or the nearest there is.
pub fn timestamp_at(second: i64, nanoseconds: i64) -> i64 {
    let exact = i128::from(second) * i128::from(SECOND) + i128::from(nanoseconds);
    exact.clamp(i64::MIN.into(), i64::MAX.into()) as i64
}

/// The second at which a day begins; days of a month are counted from 1.
pub fn day_start(year: i64, month: i64, day: i64) -> i64 {
    const BEFORE_MONTH: [i64; 12] = [0, 31, 59, 90, 120, 151, 181, 212, 243, 273, 304, 334];
    let is_leap = year % 4 == 0 && (year % 100 != 0 || year % 400 == 0);
    let leap_day = i64::from(is_leap && month > 2);
    DAY * (days_before(year) - days_before(1970) + BEFORE_MONTH[month as usize - 1] + leap_day + day - 1)
}

/// The days of all years from 1 on before this one.
fn days_before(year: i64) -> i64 {
    let years = year - 1;
    365 * years + years / 4 - years / 100 + years / 400
}

pub fn timestamp(prng: &mut Prng) -> i64 {
    match prng.below(16) {
        0 => limit(prng),
        1 => prng.next() as i64,
        2 => (prng.next() >> 1) as i64,
        3 => whole(prng.next() as i64),
        4 => (prng.next() as i64) >> prng.below(64),
        5 => whole((prng.next() as i64) >> prng.below(40)),
        6 => whole((prng.below(400) as i64 - 200) * SECOND),
        _ => beside_change(prng),
    }
}

/// The whole second, towards 1970.
fn whole(timestamp: i64) -> i64 {
    timestamp - timestamp % SECOND
}

fn limit(prng: &mut Prng) -> i64 {
    let near = prng.below(3) as i64;
    match prng.below(6) {
        0 => i64::MIN + near,
        1 => i64::MAX - near,
        2 => timestamp_at(FIRST_SECOND + near, 0),
        3 => timestamp_at(LAST_SECOND - near, 0),
        4 => near - 1,
        _ => timestamp_at(near - 1, 0),
    }
}

/// A timestamp where a part of the date changes, or just before or behind it. Below 1970 most are made whole seconds,
/// since others do not print.
fn beside_change(prng: &mut Prng) -> i64 {
    let second = day(prng) + time(prng);
    let distance = match prng.below(8) {
        0..3 => 0,
        3 => prng.pick(&[-SECOND, SECOND]),
        4 => prng.pick(&[-1, 1]),
        5 => prng.pick(&[-1_000_000, 999_999, 1_000_000, 9_999_999, 100_000_000]),
        6 => SECOND - 1 - prng.pick(&[0, 999_999]),
        _ => prng.below(SECOND as usize) as i64,
    };
    let found = timestamp_at(second, distance);
    if found < 0 && prng.chance(7, 8) { whole(found) } else { found }
}

/// The second at which a day begins.
fn day(prng: &mut Prng) -> i64 {
    let year = match prng.below(2) {
        0 => prng.pick(&YEARS),
        _ => prng.between(FIRST_YEAR as usize, LAST_YEAR as usize) as i64,
    };
    let month = prng.between(1, 12) as i64;
    match prng.below(4) {
        0 => day_start(year, 1, 1),
        1 => day_start(year, month, 1),
        2 => day_start(year, 2, 28) + DAY * prng.below(3) as i64,
        _ => day_start(year, month, prng.between(1, 31) as i64),
    }
}

/// The seconds of a day up to a change.
fn time(prng: &mut Prng) -> i64 {
    let hour = prng.below(24) as i64 * HOUR;
    let minute = prng.below(60) as i64 * MINUTE;
    match prng.below(8) {
        0..3 => 0,
        3 => 12 * HOUR,
        4 => hour,
        5 => hour + minute,
        6 => DAY - 1,
        _ => prng.below(DAY as usize) as i64,
    }
}

#[cfg(test)]
mod tests {
    use super::*;

    #[test]
    fn days_begin_where_they_should() {
        assert_eq!(day_start(1970, 1, 1), 0);
        assert_eq!(day_start(1969, 12, 31), -DAY);
        assert_eq!(day_start(2000, 3, 1), 951_868_800);
        assert_eq!(day_start(1900, 3, 1) - day_start(1900, 2, 28), DAY);
        assert_eq!(day_start(2262, 4, 11), LAST_SECOND / DAY * DAY);
        assert_eq!(day_start(1677, 9, 22), FIRST_SECOND / DAY * DAY);
    }

    #[test]
    fn signs_and_fractions_are_drawn() {
        let mut prng = Prng::new(5);
        let drawn: Vec<i64> = (0..4000).map(|_| timestamp(&mut prng)).collect();
        let count = |wanted: fn(i64) -> bool| drawn.iter().filter(|&&t| wanted(t)).count();
        assert!(count(|t| t < 0 && t % SECOND == 0) > 400);
        assert!(count(|t| t < 0 && t % SECOND != 0) > 200);
        assert!(count(|t| t > 0 && t % SECOND == 0) > 400);
        assert!(count(|t| t > 0 && t % SECOND != 0) > 400);
        assert!(drawn.contains(&i64::MIN) && drawn.contains(&i64::MAX));
    }
}
