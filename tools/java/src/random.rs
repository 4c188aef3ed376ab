//! Random cases from a seed.

use crate::case::{Case, Value};
use crate::clock::COMPONENTS;
use crate::format::{FLAGS, LETTERS};
use crate::prng::Prng;
use crate::values::value;

/// Kinds 1 to 8, and 128 added for null.
pub const KINDS: [u8; 13] = [1, 2, 3, 4, 5, 6, 7, 8, 129, 130, 131, 132, 134];

/// One element.
pub fn single(prng: &mut Prng) -> Case {
    let letter = random_letter(prng);
    let kind = if prng.chance(15, 16) { fitting(prng, letter) } else { prng.pick(&KINDS) };
    let mut format = String::from("%");
    if prng.chance(1, 16) {
        format.push_str(prng.pick(&["1$", "1$", "2$", "01$", "<", "0$"]));
    }
    let allowed = prng.chance(1, 2);
    element(prng, letter, allowed, &mut format);
    let mut values = vec![value(prng, kind, letter)];
    if prng.chance(1, 16) {
        values.push(value(prng, kind, letter));
    }
    Case { format: format.into(), values }
}

/// Up to 8 pieces.
pub fn several(prng: &mut Prng) -> Case {
    let values: Vec<(u8, Value)> = (0..prng.between(1, 5)).map(|_| letter_and_value(prng)).collect();
    let mut format = String::new();
    let (mut running, mut last) = (0, None);
    let allowed = prng.chance(2, 3);
    for _ in 0..prng.between(2, 8) {
        match prng.below(12) {
            0 | 1 => format.push_str(prng.pick(&["x", " = ", "é", "\u{1f600} ", "\n", "\\", "a\tb", "1$d"])),
            2 => format.push_str("%%"),
            3 => format.push_str("%n"),
            4 if prng.chance(1, 8) => {
                format.push_str(prng.pick(&["%5%", "%-3%", "%1$n", "%9$%", "%5n", "%", "%q", "%é", "%tq", "%1$t"]))
            }
            _ => {
                format.push('%');
                let argument = argument(prng, values.len(), &mut running, last, &mut format);
                last = Some(argument);
                let (letter, value) = &values[argument.min(values.len() - 1)];
                let letter = if prng.chance(1, 3) { other_letter(prng, value) } else { *letter };
                element(prng, letter, allowed, &mut format);
            }
        }
    }
    Case { format: format.into(), values: values.into_iter().map(|(_, value)| value).collect() }
}

fn letter_and_value(prng: &mut Prng) -> (u8, Value) {
    let letter = random_letter(prng);
    let kind = fitting(prng, letter);
    (letter, value(prng, kind, letter))
}

/// How the next element names its value, and which one that is.
fn argument(prng: &mut Prng, count: usize, running: &mut usize, last: Option<usize>, format: &mut String) -> usize {
    match (prng.below(4), last) {
        (0, Some(last)) => {
            format.push_str(if prng.chance(1, 32) { "#<" } else { "<" });
            last
        }
        (1, _) => {
            let argument = prng.below(count);
            format.push_str(&format!("{}$", argument + 1));
            argument
        }
        _ if *running < count || prng.chance(1, 32) => {
            *running += 1;
            *running - 1
        }
        _ => {
            format.push_str("1$");
            0
        }
    }
}

fn random_letter(prng: &mut Prng) -> u8 {
    match prng.below(64) {
        0 => prng.pick(b"hH"),
        1..8 => prng.pick(b"tT"),
        _ => prng.pick(LETTERS),
    }
}

/// A kind that the library prints under the letter; any for h.
fn fitting(prng: &mut Prng, letter: u8) -> u8 {
    match letter.to_ascii_lowercase() {
        b'b' => prng.pick(&[6, 6, 6, 134]),
        b's' => prng.pick(&[1, 2, 3, 4, 7, 7, 7, 7, 7, 7, 131, 132]),
        b'a' => 5,
        b't' => 8,
        b'h' => prng.pick(&KINDS),
        _ => prng.pick(&[1, 2, 3, 4, 1, 2, 3, 4, 1, 2, 3, 4, 129, 130, 131, 132]),
    }
}

fn other_letter(prng: &mut Prng, value: &Value) -> u8 {
    match value {
        Value::Integer(..) => prng.pick(b"dddxXosSc"),
        Value::Float(_) => prng.pick(b"aA"),
        Value::Boolean(_) => prng.pick(b"bB"),
        Value::Text(_) => prng.pick(b"sS"),
        Value::Time(_) => prng.pick(b"tT"),
    }
}

/// The element from its flags on; `allowed` keeps to what Java allows.
fn element(prng: &mut Prng, letter: u8, allowed: bool, format: &mut String) {
    let small = letter.to_ascii_lowercase();
    let wide = if small == b't' { 2 } else { 4 };
    let width = prng.chance(wide, 6).then(|| prng.between(1, 40));
    let flags = if allowed { allowed_flags(prng, small, width.is_some()) } else { any_flags(prng) };
    format.push_str(&String::from_utf8_lossy(&flags));
    if let Some(width) = width {
        format.push_str(&width.to_string());
    }
    if !(allowed && b"cdoxt".contains(&small)) && prng.chance(1, 2) {
        match prng.below(20) {
            0 if !allowed => format.push('.'),
            1 => format.push_str(&format!(".{}", prng.between(21, 300))),
            2 => format.push_str(&format!(".00{}", prng.below(21))),
            _ => format.push_str(&format!(".{}", prng.below(21))),
        }
    }
    format.push(letter as char);
    if small == b't' {
        format.push(prng.pick(COMPONENTS) as char);
    }
}

fn allowed_flags(prng: &mut Prng, small: u8, has_width: bool) -> Vec<u8> {
    let from: &[u8] = match small {
        b'd' => b"0- +,(",
        b'o' | b'x' => b"#0-",
        b'a' => b"#0- +",
        _ => b"-",
    };
    let mut flags: Vec<u8> = from.iter().copied().filter(|_| prng.chance(1, 3)).collect();
    let drop = |flags: &mut Vec<u8>, flag: u8| flags.retain(|&f| f != flag);
    if !has_width {
        drop(&mut flags, b'-');
        drop(&mut flags, b'0');
    }
    if flags.contains(&b'-') {
        let less = prng.pick(b"-0");
        if flags.contains(&b'0') {
            drop(&mut flags, less);
        }
    }
    if flags.contains(&b'+') {
        drop(&mut flags, b' ');
    }
    for at in (1..flags.len()).rev() {
        flags.swap(at, prng.below(at + 1));
    }
    flags
}

fn any_flags(prng: &mut Prng) -> Vec<u8> {
    let mut flags: Vec<u8> = FLAGS.iter().copied().filter(|_| prng.chance(1, 3)).collect();
    mix(prng, &mut flags);
    if prng.chance(3, 4) {
        // What both sides refuse is left out.
        let less = prng.pick(b"+ ");
        flags.retain(|&flag| flag != less);
        flags.sort_by_key(|&flag| flag == b'-');
    }
    flags
}

/// The flags in another order, and some of them again.
pub fn mix(prng: &mut Prng, flags: &mut Vec<u8>) {
    if !flags.is_empty() && prng.chance(1, 6) {
        for _ in 0..prng.between(1, 3) {
            let flag = prng.pick(flags);
            flags.push(flag);
        }
    }
    for at in (1..flags.len()).rev() {
        flags.swap(at, prng.below(at + 1));
    }
}
