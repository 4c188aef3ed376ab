//! A failing case made smaller, step by step, as long as the same comparison fails.

use crate::dates::SECOND;
use crate::generate::{Case, Room};
use crate::row::{Row, Value};

const MOST_TRIALS: usize = 200_000;

pub fn shrink(case: &Case, mut fails: impl FnMut(&Case) -> bool) -> Case {
    let mut smallest = case.clone();
    let mut trials = 0;
    'again: loop {
        for candidate in candidates(&smallest) {
            trials += 1;
            if trials > MOST_TRIALS {
                return smallest;
            }
            if fails(&candidate) {
                smallest = candidate;
                continue 'again;
            }
        }
        return smallest;
    }
}

/// Smaller cases, the greatest steps first. Each is below the given one in an order without endless descent.
fn candidates(case: &Case) -> Vec<Case> {
    let mut found = Vec::new();
    let with_row = |row| Case { row, ..case.clone() };
    let with_format = |format| Case { format, ..case.clone() };
    found.extend(shorter_formats(&case.format).into_iter().map(with_format));
    for at in 0..case.row.values.len() {
        let mut row = case.row.clone();
        row.values.remove(at);
        found.push(with_row(row));
    }
    let compact = compact(&case.row);
    if compact.text.len() < case.row.text.len() {
        found.push(with_row(compact));
    }
    for at in 0..case.row.values.len() {
        let value = case.row.values[at];
        for value in simpler_kinds(value).into_iter().chain(simpler_values(value, &case.row)) {
            let mut row = case.row.clone();
            row.values[at] = value;
            found.push(with_row(row));
        }
    }
    found.extend(smaller_digits(&case.format).into_iter().map(with_format));
    found.extend(without_argument(case));
    let plain = Room::Spare { output: 0, ends: 0, bytes: 0 };
    if case.room != plain {
        found.push(Case { room: plain, ..case.clone() });
    }
    found
}

/// The format without one stretch, for each place and for lengths that halve.
fn shorter_formats(format: &[u8]) -> Vec<Vec<u8>> {
    let mut found = Vec::new();
    let mut length = format.len();
    while length > 0 {
        for start in (0..=format.len() - length).step_by(length.div_ceil(4)) {
            found.push([&format[..start], &format[start + length..]].concat());
        }
        length /= 2;
    }
    found
}

fn smaller_digits(format: &[u8]) -> Vec<Vec<u8>> {
    let mut found = Vec::new();
    for (at, &byte) in format.iter().enumerate() {
        for smaller in b'0'..byte.min(b'9' + 1) {
            if byte.is_ascii_digit() {
                let mut smaller_format = format.to_vec();
                smaller_format[at] = smaller;
                found.push(smaller_format);
            }
        }
    }
    found
}

/// One value gone, together with one piece of the format or with one taken off a digit, which may be an index.
fn without_argument(case: &Case) -> Vec<Case> {
    let format = &case.format;
    let mut formats = Vec::new();
    let percents: Vec<usize> = (0..format.len()).filter(|&at| format[at] == b'%').collect();
    for (number, &start) in percents.iter().enumerate() {
        let end = percents.get(number + 1).copied().unwrap_or(format.len());
        formats.push([&format[..start], &format[end..]].concat());
    }
    for at in (0..format.len()).filter(|&at| (b'1'..=b'9').contains(&format[at])) {
        let mut smaller = format.clone();
        smaller[at] -= 1;
        formats.push(smaller);
    }
    let mut found = Vec::new();
    for at in 0..case.row.values.len() {
        let mut row = case.row.clone();
        row.values.remove(at);
        found.extend(formats.iter().map(|format| Case { format: format.clone(), row: row.clone(), room: case.room }));
    }
    found
}

const SIMPLEST: Value = Value::Int8(Some(0));

/// The simplest value of all, or the same integer in the next narrower kind.
fn simpler_kinds(value: Value) -> Vec<Value> {
    let mut found = Vec::new();
    if value != SIMPLEST {
        found.push(SIMPLEST);
    }
    if let (2..=4, Some(integer)) = (value.kind(), value.integer()) {
        let narrower = Value::of_integer(value.kind() - 1, Some(integer));
        found.extend((narrower.integer() == Some(integer)).then_some(narrower));
    }
    found
}

fn simpler_values(value: Value, row: &Row) -> Vec<Value> {
    match value {
        Value::Float(float) => simpler_floats(float).into_iter().map(Value::Float).collect(),
        Value::Boolean(Some(true)) => vec![Value::Boolean(Some(false))],
        Value::Text { offset, length } => shorter_texts(row, offset, length),
        Value::Timestamp(timestamp) => {
            timestamp.map_or(Vec::new(), simpler_timestamps).into_iter().map(|t| Value::Timestamp(Some(t))).collect()
        }
        _ => {
            let Some(integer) = value.integer() else { return Vec::new() };
            let nearer = [0, integer / 1000, integer / 10, integer / 2, integer - integer.signum()];
            let smaller = nearer.into_iter().filter(|n| n.unsigned_abs() < integer.unsigned_abs());
            smaller.map(|n| Value::of_integer(value.kind(), Some(n))).collect()
        }
    }
}

/// Timestamps nearer to 1970: whole days, hours, minutes and seconds, then those with one digit lowered by one.
fn simpler_timestamps(timestamp: i64) -> Vec<i64> {
    let whole = [86_400, 3_600, 60, 1].map(|seconds| timestamp - timestamp % (seconds * SECOND));
    let halves = whole.map(|t| t / 2);
    let lower = (0..19).rev().map(|digits| timestamp.saturating_sub(timestamp.signum() * 10_i64.pow(digits)));
    let all = [0].into_iter().chain(whole).chain(halves).chain(lower);
    all.filter(|t| t.unsigned_abs() < timestamp.unsigned_abs()).collect()
}

/// Floats with fewer bits set: 0, a smaller exponent's distance, a fraction with its last set bit gone.
fn simpler_floats(float: f64) -> Vec<f64> {
    let bits = float.to_bits();
    let mut found = vec![0, 1.0_f64.to_bits(), bits & !(1 << 63)];
    let fraction = bits & ((1 << 52) - 1);
    if fraction != 0 {
        found.push(bits & !(1 << fraction.trailing_zeros()));
    }
    if float.is_normal() {
        found.push(fraction | 1.0_f64.to_bits());
    }
    found.retain(|simpler| rank(*simpler) < rank(bits));
    found.into_iter().map(f64::from_bits).collect()
}

/// An order of floats by the number of set bits, 0 and 1.0 first.
fn rank(bits: u64) -> u32 {
    match bits {
        0 => 0,
        _ if bits == 1.0_f64.to_bits() => 1,
        _ => 2 + bits.count_ones() + if bits >> 52 == 1023 { 0 } else { 64 },
    }
}

fn shorter_texts(row: &Row, offset: u32, length: u32) -> Vec<Value> {
    let text = row.text_at(offset, length);
    let mut found = Vec::new();
    for (at, _) in text.char_indices() {
        let at = at as u32;
        found.push(Value::Text { offset, length: at });
        if at > 0 {
            found.push(Value::Text { offset: offset + at, length: length - at });
        }
    }
    found
}

/// The same values over a text area with nothing else in it.
fn compact(row: &Row) -> Row {
    let mut packed = Row::default();
    for value in &row.values {
        let mut value = *value;
        if let Value::Text { offset, length } = value {
            value = Value::Text { offset: packed.text.len() as u32, length };
            packed.text.extend(row.text_at(offset, length).as_bytes());
        }
        packed.values.push(value);
    }
    packed
}

#[cfg(test)]
mod tests {
    use super::*;

    #[test]
    fn only_what_fails_is_left() {
        let case = Case {
            format: b"abc%-,20d%%%+05d%s".to_vec(),
            row: Row {
                values: vec![Value::Int32(Some(7)), Value::Int64(Some(-123_456)), Value::Text { offset: 0, length: 3 }],
                text: b"xyz".to_vec(),
            },
            room: Room::ShortEnds,
        };
        let negative = |c: &Case| c.row.values.iter().any(|v| v.integer().is_some_and(|i| i < 0));
        let small = shrink(&case, |c| c.format.contains(&b'+') && negative(c));
        assert_eq!(small.format, b"+");
        assert_eq!(small.row, Row { values: vec![Value::Int8(Some(-1))], text: Vec::new() });
        assert_eq!(small.room, Room::Spare { output: 0, ends: 0, bytes: 0 });
    }

    #[test]
    fn a_timestamp_comes_near_to_1970() {
        let case = Case {
            format: b"%tH".to_vec(),
            row: Row { values: vec![Value::Timestamp(Some(-9_223_372_036_854_775_807))], text: Vec::new() },
            room: Room::ShortEnds,
        };
        let below = |c: &Case| matches!(c.row.values[..], [Value::Timestamp(Some(t))] if t < -3 * SECOND);
        let small = shrink(&case, below);
        assert_eq!(small.row.values, [Value::Timestamp(Some(-3 * SECOND - 1))]);
    }
}
