//! Formats from a seed: elements that fit the row, and elements drawn without regard to it.

use crate::prng::Prng;
use crate::row::{Row, Value};
use crate::values::{FRACTION, characters};

/// What the next element takes, as the reader of formats counts.
struct Arguments {
    running: usize,
    last: Option<usize>,
    count: usize,
}

pub fn format(prng: &mut Prng, row: &Row) -> Vec<u8> {
    let pieces = match prng.below(400) {
        0 => prng.between(500, 640),
        1..8 => 0,
        8..40 => prng.between(6, 20),
        _ => prng.between(1, 5),
    };
    let careless = prng.chance(1, 4);
    let mut arguments = Arguments { running: 0, last: None, count: row.values.len() };
    let mut format = String::new();
    for _ in 0..pieces {
        match prng.below(16) {
            0 => format.push_str("%%"),
            1 => format.push_str("%n"),
            2..5 => format.push_str(&plain_text(prng, pieces > 100)),
            _ if careless && prng.chance(1, 3) => careless_element(prng, &mut format, &mut arguments),
            _ if arguments.count > 0 => fitting_element(prng, &mut format, &mut arguments, row, pieces > 100),
            _ => {}
        }
    }
    if prng.chance(1, 3000) {
        let missing = 4_090 + prng.below(12);
        format.extend((format.len()..missing).map(|_| 'x'));
    }
    format.into_bytes()
}

fn plain_text(prng: &mut Prng, short: bool) -> String {
    if short {
        return "t".to_owned();
    }
    if prng.chance(1, 50) {
        return "2147483648 99999999999".to_owned();
    }
    characters(prng).replace('%', "p")
}

/// An element that is accepted and in most cases printed here.
fn fitting_element(prng: &mut Prng, format: &mut String, arguments: &mut Arguments, row: &Row, short: bool) {
    format.push('%');
    let argument = name_argument(prng, format, arguments);
    let value = row.values[argument - 1];
    let kind = value.kind();
    let letter = match kind {
        8 => date_letters(prng),
        _ if prng.chance(1, 60) => accepted_letter(prng, kind).into(),
        _ => printed_letter(prng, kind).into(),
    };
    if !short {
        fitting_flags(prng, format);
        width(prng, format);
        match tie_precision(value) {
            Some(tie) if prng.chance(1, 2) => format.push_str(&format!(".{tie}")),
            _ => precision(prng, format),
        }
    }
    format.push_str(&letter);
}

/// What a timestamp is accepted under: mostly t or T and a component, which print it.
fn date_letters(prng: &mut Prng) -> String {
    if prng.chance(1, 60) {
        return prng.pick(&['s', 'S', 'h', 'H']).into();
    }
    let component = TIME_LETTERS.as_bytes()[prng.below(TIME_LETTERS.len())] as char;
    [prng.pick(&['t', 't', 'T']), component].iter().collect()
}

/// The number of digits under which the float lies in the middle between two others.
fn tie_precision(value: Value) -> Option<usize> {
    let Value::Float(float) = value else { return None };
    let significand = float.to_bits() & FRACTION;
    let leading = if float.is_subnormal() { 63 - significand.leading_zeros() } else { 52 };
    let below_leading = leading.checked_sub(significand.trailing_zeros())?;
    (below_leading % 4 == 1).then_some(below_leading as usize / 4)
}

fn name_argument(prng: &mut Prng, format: &mut String, arguments: &mut Arguments) -> usize {
    match (prng.below(10), arguments.last) {
        (0..2, Some(last)) if last <= arguments.count => {
            format.push('<');
            return last;
        }
        (4.., _) if arguments.running < arguments.count => {
            arguments.running += 1;
            arguments.last = Some(arguments.running);
        }
        _ => {
            let index = prng.between(1, arguments.count);
            format.push_str(&format!("{index}$"));
            arguments.last = Some(index);
        }
    }
    arguments.last.expect("set above")
}

fn printed_letter(prng: &mut Prng, kind: u8) -> char {
    match kind {
        1..=4 => prng.pick(&['d', 'd', 'd', 'd', 'x', 'x', 'X', 'o', 'o', 'c', 'C', 's', 'S']),
        5 => prng.pick(&['a', 'a', 'A']),
        6 => prng.pick(&['b', 'B']),
        _ => prng.pick(&['s', 's', 'S']),
    }
}

fn accepted_letter(prng: &mut Prng, kind: u8) -> char {
    match kind {
        1..=4 => prng.pick(&['h', 'H', 'e', 'E', 'f', 'g', 'G', 'a', 'A']),
        5 => prng.pick(&['h', 'H', 's', 'S', 'e', 'E', 'f', 'g', 'G']),
        6 => prng.pick(&['h', 'H', 's', 'S']),
        _ => prng.pick(&['h', 'H']),
    }
}

const FLAGS: [char; 7] = ['#', '0', '-', ' ', '+', ',', '('];

/// Flags in any number and order, without `0` after `-` and without both `+` and space.
fn fitting_flags(prng: &mut Prng, format: &mut String) {
    let count = match prng.below(16) {
        0..5 => 0,
        5..9 => 1,
        9..12 => 2,
        12..15 => 3,
        _ => prng.between(4, 10),
    };
    let mut seen = String::new();
    for _ in 0..count {
        let flag = prng.pick(&FLAGS);
        let fault = match flag {
            '0' => seen.contains('-'),
            '+' => seen.contains(' '),
            ' ' => seen.contains('+'),
            _ => false,
        };
        if !fault {
            seen.push(flag);
        }
    }
    format.push_str(&seen);
}

fn width(prng: &mut Prng, format: &mut String) {
    let width = match prng.below(32) {
        0..12 => return,
        12..16 => prng.between(1, 3),
        16..26 => prng.between(1, 30),
        26..31 => prng.between(1, 200),
        _ => match prng.below(40) {
            0 => prng.between(1, 30_000),
            1 => prng.pick(&[40_001, 65_536, 1_000_000, 2_147_483_647]),
            _ => prng.between(1, 1_000),
        },
    };
    format.push_str(&width.to_string());
}

fn precision(prng: &mut Prng, format: &mut String) {
    let precision = match prng.below(64) {
        0..34 => return,
        34..36 => return format.push('.'),
        36..46 => prng.between(0, 3),
        46..62 => prng.between(0, 20),
        62 => prng.between(0, 300),
        _ => match prng.below(10) {
            0 => prng.pick(&[65_534, 65_535, 65_536, 100_000, 2_147_483_647]),
            1 => prng.between(0, 20_000),
            _ => return format.push_str(&format!(".{:04}", prng.below(20))),
        },
    };
    format.push_str(&format!(".{precision}"));
}

const LETTERS: [char; 19] =
    ['b', 'B', 'h', 'H', 's', 'S', 'c', 'C', 'd', 'o', 'x', 'X', 'e', 'E', 'f', 'g', 'G', 'a', 'A'];
/// The 30 letters of components, and `h`, which is read as `b`.
pub const TIME_LETTERS: &str = "HIklMSLNpzZsQBbhAaCYyjmdeRTrDFc";

/// An element whose parts are drawn without regard to fit.
fn careless_element(prng: &mut Prng, format: &mut String, arguments: &mut Arguments) {
    format.push('%');
    careless_argument(prng, format, arguments);
    for _ in 0..prng.below(4) {
        format.push(prng.pick(&FLAGS));
    }
    match prng.below(16) {
        0 => format.push_str(prng.pick(&["2147483647", "2147483648", "4294967297", "18446744073709551617"])),
        1..8 => format.push_str(&prng.between(1, 40).to_string()),
        _ => {}
    }
    match prng.below(24) {
        0 => format.push_str(prng.pick(&[
            ".2147483647",
            ".2147483648",
            ".0000000000005",
            ".00000002147483648",
            "..",
            ".-1",
        ])),
        1..8 => format.push_str(&format!(".{}", prng.below(20))),
        _ => {}
    }
    careless_letter(prng, format);
}

fn careless_argument(prng: &mut Prng, format: &mut String, arguments: &mut Arguments) {
    match prng.below(16) {
        0..3 => format.push('<'),
        3..6 => {
            let index = prng.between(1, arguments.count + 1);
            format.push_str(&format!("{index}$"));
            arguments.last = Some(index);
        }
        6 => format.push_str(prng.pick(&[
            "$",
            "0$",
            "1$$",
            "<1$",
            "2147483647$",
            "2147483648$",
            "99999999999999999999$",
        ])),
        _ => {
            arguments.running += 1;
            arguments.last = Some(arguments.running);
        }
    }
}

fn careless_letter(prng: &mut Prng, format: &mut String) {
    match prng.below(16) {
        0..4 => {
            format.push(prng.pick(&['t', 'T']));
            let letter = TIME_LETTERS.as_bytes()[prng.below(TIME_LETTERS.len())];
            format.push(letter as char);
        }
        4 => format.push_str(prng.pick(&["t", "T", "tq", "tn", "té", "T\0"])),
        5 => format.push_str(prng.pick(&["", "n", "%", "i", "u", "F", "D", "é", "\u{7f}", "l", "$", "<", "5"])),
        _ => format.push(prng.pick(&LETTERS)),
    }
}
