//! Random values.

use crate::case::Value;
use crate::clock::{DAY, FIRST_DAY, LAST_DAY, SECOND};
use crate::prng::Prng;

/// A value of the kind, with 128 for null.
pub fn value(prng: &mut Prng, kind: u8, letter: u8) -> Value {
    match kind {
        1..=4 if letter.eq_ignore_ascii_case(&b'c') && prng.chance(7, 8) => {
            Value::Integer(kind, Some(code_point(prng) << (64 - (4 << kind)) >> (64 - (4 << kind))))
        }
        1..=4 => Value::Integer(kind, Some(integer(prng) << (64 - (4 << kind)) >> (64 - (4 << kind)))),
        5 => Value::Float(float(prng)),
        6 => Value::Boolean(Some(prng.chance(1, 2))),
        7 => Value::Text(string(prng)),
        8 => Value::Time(timestamp(prng)),
        134 => Value::Boolean(None),
        _ => Value::Integer(kind - 128, None),
    }
}

/// Over the whole range, near its ends, near 0, near a day's beginning. Half of the negative ones are whole seconds.
fn timestamp(prng: &mut Prng) -> i64 {
    let nanos = match prng.below(8) {
        0 => i64::MIN + prng.below(1 << 40) as i64,
        1 => i64::MAX - prng.below(1 << 40) as i64,
        2 => (prng.next() as i64) >> prng.below(64),
        3 => {
            let midnight = DAY * (FIRST_DAY + 1 + prng.below((LAST_DAY - FIRST_DAY) as usize) as i64);
            let apart = prng.pick(&[1, SECOND, 60 * SECOND, 3600 * SECOND, DAY / 2]);
            midnight + prng.pick(&[0, -1, 1, -apart, apart])
        }
        _ => prng.next() as i64,
    };
    if nanos < 0 && prng.chance(1, 2) { nanos / SECOND * SECOND } else { nanos }
}

fn integer(prng: &mut Prng) -> i64 {
    match prng.below(8) {
        0 => prng.pick(&[0, 1, -1, 5, -5, 9, 10, -10, 99, 100, 999, 1000, -999, -1000]),
        1 => (i64::MIN >> prng.pick(&[0, 32, 48, 56])).wrapping_add(prng.below(3) as i64 - 1),
        2 => (i64::MAX >> prng.pick(&[0, 32, 48, 56])).wrapping_add(prng.below(3) as i64 - 1),
        3 => {
            let power = 10_i64.pow(prng.below(19) as u32);
            near(prng, power)
        }
        4 => {
            let power = 1 << prng.below(64);
            near(prng, power)
        }
        _ => (prng.next() as i64) >> prng.below(64),
    }
}

/// The number or its neighbours, of either sign.
fn near(prng: &mut Prng, value: i64) -> i64 {
    let near = value.wrapping_add(prng.below(3) as i64 - 1);
    if prng.chance(1, 2) { near.wrapping_neg() } else { near }
}

fn code_point(prng: &mut Prng) -> i64 {
    match prng.below(6) {
        0 => prng.between(0x20, 0x7e) as i64,
        1 => prng.below(0x0011_0000) as i64,
        2 => prng.below(0x2500) as i64,
        3 => i64::from(u32::from(character(prng))),
        4 => prng.between(0xd7f0, 0xe00f) as i64,
        _ => prng.pick(&[
            0, 0x41, 0x61, 0x7a, 0x7b, 0x7f, 0x80, 0xe9, 0xdf, 0x7ff, 0x800, 0xd7ff, 0xd800, 0xdfff, 0xe000, 0xffff,
            0x1_0000, 0x10_ffff, 0x11_0000, -1,
        ]),
    }
}

const FRACTION: u64 = (1 << 52) - 1;

fn float(prng: &mut Prng) -> f64 {
    let sign = u64::from(prng.chance(1, 3)) << 63;
    let magnitude = match prng.below(16) {
        0 => 0,
        1 => f64::INFINITY.to_bits(),
        2 => f64::INFINITY.to_bits() | 1 << prng.below(52) | prng.next() & FRACTION,
        3 => prng.pick(&[1, 2, 3, FRACTION, 1 << 51, 1 << 52, f64::MAX.to_bits(), f64::MAX.to_bits() - 1]),
        4 => (prng.next() & FRACTION) >> prng.below(52),
        5 => (tie(prng) | 1 << 52) >> prng.between(1, 52),
        6 => (prng.between(1, 10_000) as f64 / prng.pick(&[1.0, 2.0, 8.0, 10.0, 64.0])).to_bits(),
        7 => prng.next() & (u64::MAX >> 1),
        _ => exponent(prng) << 52 | tie(prng),
    };
    f64::from_bits(sign | magnitude)
}

fn exponent(prng: &mut Prng) -> u64 {
    match prng.below(4) {
        0 => prng.pick(&[1, 2, 54, 55, 1022, 1023, 1024, 2045, 2046]),
        1 => prng.between(1000, 1046) as u64,
        _ => prng.between(1, 2046) as u64,
    }
}

/// A fraction whose first digits are random, all 0 or all f, with a half of the next digit or a neighbour of that behind them.
fn tie(prng: &mut Prng) -> u64 {
    let kept = 4 * prng.below(14) as u32;
    let head = match prng.below(8) {
        0 => 0,
        1 => FRACTION,
        2 => 1 << prng.below(52),
        _ => prng.next() & FRACTION,
    };
    if kept == 52 {
        return head;
    }
    let rest = 52 - kept;
    let half = 1_u64 << (rest - 1);
    (head >> rest << rest) + (half + prng.below(3) as u64 - 1)
}

/// Characters with capitals of other lengths, and around the bounds of UTF-8 and UTF-16.
const SOME: [char; 34] = [
    'ß',
    'é',
    'É',
    'ÿ',
    'µ',
    'ı',
    'İ',
    'ŉ',
    'ǆ',
    'ǅ',
    'ǰ',
    'ς',
    'σ',
    'Σ',
    'я',
    'և',
    'ა',
    'ẖ',
    'ᾳ',
    'ﬁ',
    'ﬃ',
    'ⅷ',
    'ⓐ',
    '日',
    '€',
    '\u{301}',
    '\u{d7ff}',
    '\u{e000}',
    '\u{fffd}',
    '\u{ffff}',
    '\u{10000}',
    '𐐨',
    '😀',
    '\u{10ffff}',
];

fn character(prng: &mut Prng) -> char {
    match prng.below(8) {
        0..4 => prng.between(0x20, 0x7e) as u8 as char,
        4..6 => prng.pick(&SOME),
        6 => char::from_u32(prng.below(0x2500) as u32).expect("below the surrogates"),
        _ => char::from_u32(prng.below(0x11_0000) as u32).unwrap_or('\u{7f}'),
    }
}

fn string(prng: &mut Prng) -> String {
    let length = match prng.below(8) {
        0 => 0,
        1 => 1,
        2 => prng.between(20, 50),
        _ => prng.between(2, 12),
    };
    if prng.chance(1, 3) {
        return (0..length).map(|_| prng.between(0x20, 0x7e) as u8 as char).collect();
    }
    (0..length).map(|_| character(prng)).collect()
}
