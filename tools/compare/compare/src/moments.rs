//! Listed cases of dates: answers by the words of E1, every letter against every kind, every component at every change.

use crate::dates::SECOND;
use crate::fixed::Answer;
use crate::formats::TIME_LETTERS;
use crate::generate::{Case, Room};
use crate::row::{Row, Value};
use crate::timestamps::{DAY, FIRST_SECOND, FIRST_YEAR, HOUR, LAST_SECOND, LAST_YEAR, MINUTE, day_start, timestamp_at};

fn case(format: &str, value: Value) -> Case {
    Case {
        format: format.as_bytes().to_vec(),
        row: Row { values: vec![value], text: b"t".to_vec() },
        room: Room::Spare { output: 3, ends: 1, bytes: 1 },
    }
}

type Listed = (&'static str, i64, Answer);

/// Cases whose answers were written by hand.
pub fn cases() -> Vec<(Case, Answer)> {
    let whole = AT_SECONDS.map(|(format, second, answer)| (format, timestamp_at(second, 0), answer));
    let all = AT_NANOSECONDS.into_iter().chain(whole);
    all.map(|(format, at, answer)| (case(format, Value::Timestamp(Some(at))), answer)).collect()
}

const AT_NANOSECONDS: [Listed; 22] = [
    ("%tc", 0, Ok("Thu Jan 01 00:00:00 UTC 1970")),
    ("%Tc", 0, Ok("THU JAN 01 00:00:00 UTC 1970")),
    ("%tr", 0, Ok("12:00:00 AM")),
    ("%tl:%<tk:%<tI:%<tH", 0, Ok("12:0:12:00")),
    ("%tL %<tN %<tQ %<ts", 1_234_567_890, Ok("234 234567890 1234 1")),
    ("%tc", i64::MAX, Ok("Fri Apr 11 23:47:16 UTC 2262")),
    ("%tL %<tN %<tQ", i64::MAX, Ok("854 854775807 9223372036854")),
    ("%+-,(#20.3tH", 0, Ok("00")),
    ("%2147483647tz", 0, Ok("+0000")),
    ("%th", 0, Ok("Jan")),
    ("%tH", i64::MIN, Err(18)),
    ("%tZ", -1, Err(18)),
    ("%Tp", -SECOND - 1, Err(18)),
    ("%s%1$tZ", -1, Err(15)),
    ("%tZ%1$s", -1, Err(18)),
    ("%H", 0, Err(15)),
    ("%d", 0, Err(12)),
    ("%-0tH", 0, Err(8)),
    ("%+ tH", 0, Err(9)),
    ("%2147483648tH", 0, Err(6)),
    ("%tq", 0, Err(11)),
    ("%t", 0, Err(11)),
];

const AT_SECONDS: [Listed; 9] = [
    ("%ts %<tQ %<tL %<tN", -1, Ok("-1 -1000 000 000000000")),
    ("%tc", -1, Ok("Wed Dec 31 23:59:59 UTC 1969")),
    ("%tr %<tp %<Tp", 12 * HOUR, Ok("12:00:00 PM pm PM")),
    ("%tc", FIRST_SECOND, Ok("Tue Sep 21 00:12:44 UTC 1677")),
    ("%tB %<TB %<tb %<tA %<Ta %<tj", FIRST_SECOND, Ok("September SEPTEMBER Sep Tuesday TUE 264")),
    ("%tF %<tD %<tC %<ty", 951_782_400, Ok("2000-02-29 02/29/00 20 00")),
    ("%tF %<tC", -2_203_891_201, Ok("1900-02-28 19")),
    ("%tF %<te %<td %<tm %<tY", -2_203_891_200, Ok("1900-03-01 1 01 03 1900")),
    ("%tR %<tT %<tM %<tS", DAY - 1, Ok("23:59 23:59:59 59 59")),
];

/// Every ASCII character as a letter, and behind t and T, against every kind.
pub fn letters() -> impl Iterator<Item = Case> {
    let values = [
        Value::Int8(Some(65)),
        Value::Int16(Some(65)),
        Value::Int32(Some(65)),
        Value::Int64(Some(65)),
        Value::Float(1.5),
        Value::Boolean(Some(true)),
        Value::Text { offset: 0, length: 1 },
        Value::Timestamp(Some(0)),
    ];
    let formats = (0..128).flat_map(|letter: u8| ["%", "x%t", "xy%T"].map(|head| format!("{head}{}", letter as char)));
    formats.flat_map(move |format| values.map(|value| case(&format, value)))
}

/// The timestamp under t and T with every letter of a component.
fn all_components(timestamp: i64) -> Case {
    let mut format = "at %1$tH".to_owned();
    for letter in TIME_LETTERS.chars() {
        format.push_str(&format!("%<t{letter}%<T{letter}"));
    }
    case(&format, Value::Timestamp(Some(timestamp)))
}

/// What begins a stored sample of dates: the cases with written answers, and every component at some timestamps.
pub fn stored() -> Vec<Case> {
    let centuries = [1700, 1800, 1900, 2000, 2100, 2200].map(|year| (year, 3, 1));
    let days = [(1968, 2, 29), (1970, 1, 1), (1972, 2, 29), (1999, 11, 30), (2000, 1, 1), (2024, 12, 31), (2101, 5, 9)];
    let starts = centuries.into_iter().chain(days).map(|(year, month, day)| day_start(year, month, day));
    let seconds = starts.flat_map(|start| [start - 1, start, start + 12 * HOUR - 1, start + 12 * HOUR]);
    let whole = seconds.chain([FIRST_SECOND, FIRST_SECOND + 1, LAST_SECOND]).map(|second| timestamp_at(second, 0));
    let others = [i64::MIN, i64::MAX, -SECOND - 1, -1, 1, 999_999, 1_000_000, SECOND - 1];
    let answered = cases().into_iter().map(|(case, _)| case);
    answered.chain(whole.chain(others).map(all_components)).collect()
}

/// Every component around each change of a month and of a leap day in all years, and of hours, minutes and seconds on
/// some days.
pub fn changes() -> impl Iterator<Item = Case> {
    let limits = [i64::MIN, i64::MAX, -SECOND - 1, -SECOND + 1];
    let months = (FIRST_YEAR..=LAST_YEAR).flat_map(|year| (1..=12).map(move |month| day_start(year, month, 1)));
    let leap_days = (FIRST_YEAR..=LAST_YEAR).map(|year| day_start(year, 2, 29));
    let seconds = months.chain(leap_days).chain([FIRST_SECOND, LAST_SECOND]).chain(times());
    limits.into_iter().chain(seconds.flat_map(around)).map(all_components)
}

/// Seconds at which hours, minutes and seconds change.
fn times() -> impl Iterator<Item = i64> {
    let hours = (0..24).map(|hour| hour * HOUR);
    let minutes = (0..60).flat_map(|minute| [0, 11, 12, 23].map(|hour| hour * HOUR + minute * MINUTE));
    let seconds = (0..60).map(|second| 12 * HOUR + 34 * MINUTE + second);
    let in_day: Vec<i64> = hours.chain(minutes).chain(seconds).collect();
    let days =
        [(1969, 12, 31), (1970, 1, 1), (1972, 2, 29), (2000, 2, 29), (1900, 2, 28), (2262, 4, 10), (1677, 9, 22)];
    let starts = days.map(|(year, month, day)| day_start(year, month, day));
    starts.into_iter().flat_map(move |start| in_day.clone().into_iter().map(move |second| start + second))
}

/// A second, those beside it, and fractions, which below 1970 do not print.
fn around(second: i64) -> impl Iterator<Item = i64> {
    const DISTANCES: [i64; 8] = [0, -SECOND, SECOND, -1, 1, 999_999, 1_000_000, SECOND - 1];
    let distances = if second < 0 { &DISTANCES[..4] } else { &DISTANCES };
    distances.iter().map(move |&distance| timestamp_at(second, distance))
}

/// Every component at the first and the last second of all days that have a timestamp, and at all seconds of the last
/// day before 1970 and the first in it.
pub fn days() -> impl Iterator<Item = Case> {
    let starts = (FIRST_SECOND.div_euclid(DAY)..=LAST_SECOND.div_euclid(DAY)).map(|day| day * DAY);
    let ends = starts.flat_map(|start| [start.max(FIRST_SECOND), (start + DAY - 1).min(LAST_SECOND)]);
    ends.chain(-DAY..DAY).map(|second| all_components(timestamp_at(second, 0)))
}
