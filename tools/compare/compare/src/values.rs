//! Values from a seed, at the limits of their kinds.

use crate::prng::Prng;
use crate::row::Value;
use crate::timestamps::timestamp;

pub fn value(prng: &mut Prng, kind: u8, text: &mut Vec<u8>) -> Value {
    let null = prng.chance(1, 8);
    match kind {
        1..=4 => Value::of_integer(kind, (!null).then(|| integer(prng, kind))),
        5 => Value::Float(float(prng)),
        6 => Value::Boolean((!null).then(|| prng.chance(1, 2))),
        8 => Value::Timestamp(prng.chance(499, 500).then(|| timestamp(prng))),
        _ => text_value(prng, text),
    }
}

fn integer(prng: &mut Prng, kind: u8) -> i64 {
    let width = 4 << kind;
    match prng.below(8) {
        0 => prng.pick(&[0, 1, -1, 5, -5, 9, 10, -10, 99, 100]),
        1 => (i64::MIN >> (64 - width)) + prng.below(2) as i64,
        2 => (i64::MAX >> (64 - width)) - prng.below(2) as i64,
        3 => {
            let power = 10_i64.pow(prng.below(19) as u32);
            near(prng, power)
        }
        4 => {
            let power = 1 << prng.below(64);
            near(prng, power)
        }
        5 => code_point(prng),
        _ => (prng.next() as i64) >> prng.below(64),
    }
}

/// The number or its neighbours, of either sign.
fn near(prng: &mut Prng, value: i64) -> i64 {
    let near = value.wrapping_add(prng.below(3) as i64 - 1);
    if prng.chance(1, 2) { near.wrapping_neg() } else { near }
}

fn code_point(prng: &mut Prng) -> i64 {
    match prng.below(4) {
        0 => prng.between(0x20, 0x7e) as i64,
        1 => prng.below(0x0011_0000) as i64,
        _ => prng.pick(&[
            0, 0x41, 0x61, 0x7a, 0x7b, 0x7f, 0x80, 0xe9, 0x7ff, 0x800, 0xd7ff, 0xd800, 0xdfff, 0xe000, 0xffff,
            0x1_0000, 0x10_ffff, 0x11_0000, -1,
        ]),
    }
}

pub const FRACTION: u64 = (1 << 52) - 1;

fn float(prng: &mut Prng) -> f64 {
    let sign = u64::from(prng.chance(1, 3)) << 63;
    let magnitude = match prng.below(16) {
        0 => 0,
        1 => f64::INFINITY.to_bits(),
        2 => f64::NAN.to_bits() | (prng.next() & FRACTION),
        3 => prng.pick(&[1, 2, 3, FRACTION, 1 << 51, f64::MIN_POSITIVE.to_bits(), f64::MAX.to_bits()]),
        4 => (prng.next() & FRACTION) >> prng.below(52),
        5 => subnormal_tie(prng),
        6 => (prng.between(1, 10_000) as f64 / prng.pick(&[1.0, 2.0, 8.0, 10.0, 64.0])).to_bits(),
        7 => prng.next() & (u64::MAX >> 1),
        _ => exponent(prng) << 52 | tie_fraction(prng),
    };
    f64::from_bits(sign | magnitude)
}

fn exponent(prng: &mut Prng) -> u64 {
    match prng.below(4) {
        0 => prng.pick(&[1, 2, 54, 55, 1022, 1023, 1024, 2045, 2046]),
        1 => prng.between(1000, 1046) as u64,
        _ => prng.between(1, 2046) as u64,
    }
}

/// A fraction at, just above or just below the middle between two numbers of some precision.
fn tie_fraction(prng: &mut Prng) -> u64 {
    let kept = 4 * prng.below(14) as u32;
    let mut head = match prng.below(8) {
        0 => u64::MAX,
        1 => 0,
        _ => prng.next(),
    };
    // The first digit is seldom 0: the original drops it.
    if prng.chance(7, 8) {
        head |= 1 << (48 + prng.below(4));
    }
    let kept_digits = head & FRACTION & !(FRACTION >> kept);
    let half: u64 = if kept < 52 { 1 << (51 - kept) } else { 0 };
    let tail = match prng.below(8) {
        0..3 => half,
        3 => half + 1,
        4 => half.saturating_sub(1),
        5 => 0,
        6 => FRACTION >> kept,
        _ => prng.next() & (FRACTION >> kept),
    };
    (kept_digits | tail) & FRACTION
}

/// A subnormal number whose scaled fraction is such a middle, where the bits suffice.
fn subnormal_tie(prng: &mut Prng) -> u64 {
    let scaled = 1 << 52 | tie_fraction(prng);
    (scaled >> prng.between(1, 52)).max(1)
}

const CHARACTERS: [&str; 32] = [
    "a",
    "b",
    "k",
    "z",
    "A",
    "Z",
    "m",
    "n",
    "0",
    "7",
    "9",
    " ",
    "  ",
    ",",
    "-",
    "+",
    "(",
    ")",
    "%",
    ".",
    "x",
    "\0",
    "\n",
    "~",
    "é",
    "ß",
    "ÿ",
    "€",
    "\u{301}",
    "\u{ffff}",
    "😀",
    "\u{10ffff}",
];

pub fn characters(prng: &mut Prng) -> String {
    let count = match prng.below(64) {
        0 => prng.between(20, 300),
        1..8 => 0,
        8..30 => prng.between(1, 3),
        _ => prng.between(3, 12),
    };
    (0..count).map(|_| prng.pick(&CHARACTERS)).collect()
}

/// A text of its own, or a part of an earlier one; sometimes behind bytes that no value names.
fn text_value(prng: &mut Prng, area: &mut Vec<u8>) -> Value {
    if prng.chance(1, 6)
        && let Some(part) = earlier_part(prng, area)
    {
        return part;
    }
    if prng.chance(1, 8) {
        area.push(prng.next() as u8);
    }
    let text = if area.len() < 30_000 { characters(prng) } else { String::new() };
    let offset = area.len() as u32;
    area.extend(text.as_bytes());
    Value::Text { offset, length: text.len() as u32 }
}

fn earlier_part(prng: &mut Prng, area: &[u8]) -> Option<Value> {
    let start = prng.between(0, area.len());
    let end = prng.between(start, area.len());
    std::str::from_utf8(&area[start..end]).ok()?;
    Some(Value::Text { offset: start as u32, length: (end - start) as u32 })
}
