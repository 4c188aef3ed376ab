//! The cases of timestamps under t and T, and of letters against kinds where one of them came with timestamps.

use crate::case::{Case, Value};
use crate::clock::{COMPONENTS, DAY, Date, FIRST_DAY, LAST_DAY, SECOND, before, date, is_broken};
use crate::format::{FLAGS, UNPRINTED};
use crate::generate::{between, flags_and_numbers, one_short, some_values};
use crate::prng::Prng;
use crate::question::MARK;
use crate::values::value;

pub fn all(prng: &mut Prng, give: &mut dyn FnMut(Case)) {
    letters_and_kinds(give);
    short(give);
    sets_of_flags(prng, give);
    widths(give);
    alone(give);
    times_of_day(give);
    fractions(give);
    days(give);
}

/// `t` or `T` with each letter behind it.
fn conversions() -> impl Iterator<Item = String> {
    "tT".chars().flat_map(|letter| COMPONENTS.iter().map(move |&component| format!("{letter}{}", component as char)))
}

/// Formats of one value under all components, with t and with T.
fn joined() -> [String; 2] {
    ["t", "T"].map(|letter| {
        let elements = COMPONENTS.iter().map(|&component| format!("%1${letter}{}", component as char));
        elements.collect::<Vec<_>>().join(MARK)
    })
}

fn one(conversion: &str, nanos: i64) -> Case {
    Case::new(&format!("%{conversion}"), &[Value::Time(nanos)])
}

/// Every t and h against every kind; what is not printed for any kind against timestamps.
fn letters_and_kinds(give: &mut dyn FnMut(Case)) {
    let values = some_values();
    for value in &values {
        for conversion in conversions() {
            give(Case::new(&format!("%{conversion}"), std::slice::from_ref(value)));
        }
        for between in (0..2).flat_map(between) {
            for conversion in ["tH", "TB", "h", "H"] {
                one_short(&format!("%{between}{conversion}"), value, give);
            }
        }
    }
    for letter in (0..=127).map(char::from) {
        give(Case::new(&format!("%t{letter}"), &[Value::Time(0)]));
        give(Case::new(&format!("%T{letter}"), &[Value::Time(0)]));
    }
    for between in (0..3).flat_map(between) {
        for &letter in UNPRINTED {
            one_short(&format!("%{between}{}", letter as char), &Value::Time(0), give);
        }
    }
}

/// As `generate::short`; with three characters between, one in eight of the letters.
fn short(give: &mut dyn FnMut(Case)) {
    let values = [1_234_567_890_123_456_789, -SECOND, -1].map(Value::Time);
    let conversions: Vec<String> = conversions().collect();
    for between in (0..3).flat_map(between) {
        for conversion in &conversions {
            for value in &values {
                one_short(&format!("%{between}{conversion}"), value, give);
            }
        }
    }
    for (at, between) in between(3).into_iter().enumerate() {
        for number in (at % 8..conversions.len()).step_by(8) {
            one_short(&format!("%{between}{}", conversions[number]), &values[(at + number) % 3], give);
        }
    }
}

fn sets_of_flags(prng: &mut Prng, give: &mut dyn FnMut(Case)) {
    for conversion in conversions() {
        for set in 0..1 << FLAGS.len() {
            for form in 0..4 {
                let between = flags_and_numbers(prng, set, form);
                let value = value(prng, 8, b't');
                give(Case::new(&format!("%{between}{conversion}"), &[value]));
            }
        }
    }
}

/// Widths below, at and above the length of every text.
fn widths(give: &mut dyn FnMut(Case)) {
    for conversion in conversions() {
        for width in 1..=30 {
            for nanos in [0, -SECOND, 1_694_865_599 * SECOND] {
                give(one(&format!("{width}{conversion}"), nanos));
                give(one(&format!("-{width}{conversion}"), nanos));
            }
        }
    }
}

/// Each component alone, at some moments.
fn alone(give: &mut dyn FnMut(Case)) {
    for nanos in ends_of_range().into_iter().chain(changes_of_century()) {
        for conversion in conversions() {
            give(one(&conversion, nanos));
        }
    }
}

/// For the stored sample: each component alone at the ends of the range and around 0, all together around changes of the calendar, with t and T in
/// turns.
pub fn sample(give: &mut dyn FnMut(Case)) {
    for nanos in ends_of_range().into_iter().filter(|&nanos| !is_broken(nanos)) {
        for conversion in conversions() {
            give(one(&conversion, nanos));
        }
    }
    let formats = joined();
    let moments = changes_of_century().into_iter().filter(|&nanos| !is_broken(nanos));
    for (nanos, format) in moments.zip(formats.iter().cycle()) {
        give(Case::new(format, &[Value::Time(nanos)]));
    }
}

/// Moments at the ends of the range and around 0.
fn ends_of_range() -> Vec<i64> {
    let least = i64::MIN / SECOND * SECOND;
    let largest = i64::MAX / SECOND * SECOND;
    let mut moments = vec![i64::MIN, i64::MIN + 1, least - 1, least, least + 1, i64::MAX, i64::MAX - 1];
    moments.extend([largest - 1, largest, largest + 1, 0, 1, -1, -SECOND, SECOND, 1 - SECOND, -1 - SECOND]);
    moments
}

/// Moments around the beginnings of centuries and the ends of some Februaries.
fn changes_of_century() -> Vec<i64> {
    let days = (FIRST_DAY + 1..=LAST_DAY).filter(|&day| turns_century(date(day)));
    days.flat_map(|day| [before(day * DAY), day * DAY - 1, day * DAY, day * DAY + 1]).collect()
}

/// The first days of centuries, and the days around the end of February in the years 0, 4 and 96 of centuries.
fn turns_century(Date { year, month, day }: Date) -> bool {
    match (year % 100, month, day) {
        (0, 1, 1) => true,
        (0 | 4 | 96, 2, 29) | (0 | 4 | 96, 3, 1) => true,
        _ => false,
    }
}

/// Both ends of each minute of a day, each second of an hour.
fn times_of_day(give: &mut dyn FnMut(Case)) {
    let formats = joined();
    for (at, day) in [-3000 * DAY, 20_000 * DAY].into_iter().enumerate() {
        for minute in 1..=1440 {
            let end = day + 60 * SECOND * minute;
            give(Case::new(&formats[minute as usize % 2], &[Value::Time(before(end))]));
            give(Case::new(&formats[(minute as usize + 1) % 2], &[Value::Time(end)]));
        }
        for second in 0..3600 {
            give(Case::new(&formats[at], &[Value::Time(day + DAY / 2 + SECOND * second)]));
        }
    }
}

/// Fractions of a second around each power of ten; those behind a negative second are not printed here.
fn fractions(give: &mut dyn FnMut(Case)) {
    let powers = (0..=9).map(|exponent| 10_i64.pow(exponent));
    for fraction in powers.flat_map(|power| [power - 1, power, power + 1, 5 * power, 9 * power]) {
        for second in [0, 1_700_000_000, -1, -1_700_000_000] {
            let nanos = second * SECOND + fraction % SECOND;
            for conversion in ["tL", "tN", "tS", "ts", "tQ", "TQ"] {
                give(one(conversion, nanos));
            }
        }
    }
}

/// All components on both sides of every change of day: under t and T where the month changes or a leap day begins, elsewhere under one of them, by
/// turns.
fn days(give: &mut dyn FnMut(Case)) {
    let formats = joined();
    for day in FIRST_DAY + 1..=LAST_DAY {
        let Date { month, day: number, .. } = date(day);
        let turns = number == 1 || (month, number) == (2, 29);
        let at = day.rem_euclid(2) as usize;
        for format in if turns { &formats[..] } else { &formats[at..=at] } {
            give(Case::new(format, &[Value::Time(before(day * DAY))]));
            give(Case::new(format, &[Value::Time(day * DAY)]));
        }
    }
}
