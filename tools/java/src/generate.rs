//! The cases: fixed ones, all short formats, all sets of flags, all characters, timestamps, then random ones from a seed.

use crate::capitals::has_capital;
use crate::case::{Case, Value};
use crate::format::{FLAGS, LETTERS};
use crate::moments;
use crate::prng::Prng;
use crate::random::{KINDS, mix, several, single};
use crate::values::value;

pub fn all(seed: u64, count: u64, give: &mut dyn FnMut(Case)) {
    let mut prng = Prng::new(seed);
    fixed(give);
    short(give);
    sets_of_flags(&mut prng, give);
    characters(give);
    moments::all(&mut prng, give);
    for _ in 0..count {
        let case = if prng.chance(3, 4) { single(&mut prng) } else { several(&mut prng) };
        give(case);
    }
}

/// The cases of the stored sample.
pub fn sample(seed: u64, count: u64, give: &mut dyn FnMut(Case)) {
    let mut prng = Prng::new(seed);
    moments::sample(give);
    for _ in 0..count {
        give(several(&mut prng));
    }
}

fn int(kind: u8, value: i64) -> Value {
    Value::Integer(kind, Some(value))
}

fn text(text: &str) -> Value {
    Value::Text(text.into())
}

// Fixed cases.

fn fixed(give: &mut dyn FnMut(Case)) {
    give(Case::new("", &[]));
    give(Case::new("%n%%%n", &[]));
    give(Case::new("%1$d", &[]));
    give(Case::new("%2147483648$d", &[int(3, 5)]));
    give(Case::new("%2147483648d", &[int(3, 5)]));
    give(Case::new("%.2147483648s", &[text("a")]));
    give(Case::new("%3c", &[int(3, 233)]));
    give(Case::new("%d", &[int(4, i64::MIN)]));
    give(Case::new("%,(d", &[int(4, i64::MIN)]));
    give(Case::new("%-,(40d", &[int(4, i64::MIN)]));
    give(Case::new("%0-2d", &[int(3, 5)]));
    give(Case::new("%01$d", &[int(3, 5)]));
    give(Case::new("%d%-<5d", &[int(3, 5), int(3, 5)]));
    for width in 3..=6 {
        give(Case::new(&format!("%-({width}d"), &[int(3, -5)]));
        give(Case::new(&format!("%-(,{width}d"), &[int(3, -1000)]));
    }
    for value in [0.0, 1.0, -1.0, 1.5, 0.1, 3e-320] {
        for width in 5..=24 {
            for precision in 0..=15 {
                give(Case::new(&format!("%0{width}.{precision}a"), &[Value::Float(value)]));
            }
        }
    }
    for precision in 0..=15 {
        give(Case::new(&format!("%.{precision}a"), &[Value::Float(0.0)]));
        give(Case::new(&format!("%.{precision}a"), &[Value::Float(f64::from_bits(1))]));
    }
    limits(give);
}

fn limits(give: &mut dyn FnMut(Case)) {
    for length in [4095, 4096, 4097] {
        give(Case::new(&"x".repeat(length), &[]));
    }
    for pieces in [511, 512, 513] {
        give(Case::new(&"%n".repeat(pieces), &[]));
    }
    for values in [63, 64, 65] {
        give(Case::new("%d", &vec![int(3, 5); values]));
    }
}

/// What may stand between `%` and the letter: each text of this many characters.
pub fn between(length: usize) -> Vec<String> {
    const CHARACTERS: &str = "#0- +,(129.$<";
    let mut texts = vec![String::new()];
    for _ in 0..length {
        texts = texts.iter().flat_map(|text| CHARACTERS.chars().map(move |more| format!("{text}{more}"))).collect();
    }
    texts
}

/// Values of every kind and null, few of each.
pub fn some_values() -> Vec<Value> {
    let integers = [
        (1, 5),
        (2, -5),
        (3, 5),
        (3, -5),
        (3, 97),
        (3, 233),
        (3, 0xd800),
        (3, 0x11_0000),
        (4, 97),
        (4, 1000),
        (4, 0xd800),
    ];
    let bits = [1, 1 << 51, 0xffff_ffff_ffff];
    let floats = [1.0, -0.0, 0.1, f64::INFINITY, f64::NAN].into_iter().chain(bits.map(f64::from_bits));
    let mut values: Vec<Value> = integers.into_iter().map(|(kind, value)| int(kind, value)).collect();
    values.extend([Value::Integer(3, None), Value::Integer(4, None)]);
    values.extend(floats.map(Value::Float));
    values.extend([Value::Boolean(Some(true)), Value::Boolean(None)]);
    values.extend(["", "ab", "é", "ß", "€", "\u{1f600}"].map(text));
    values.extend([Value::Time(0), Value::Time(-1)]);
    values
}

/// Every format of one element with up to three characters between `%` and the letter; up to two with each of some values.
fn short(give: &mut dyn FnMut(Case)) {
    let values = some_values();
    let letters: Vec<char> = LETTERS.iter().chain(b"n%").map(|&letter| letter as char).collect();
    for between in (0..3).flat_map(between) {
        for letter in &letters {
            for value in &values {
                one_short(&format!("%{between}{letter}"), value, give);
            }
        }
    }
    for (at, between) in between(3).into_iter().enumerate() {
        for (number, letter) in letters.iter().enumerate() {
            one_short(&format!("%{between}{letter}"), &values[(at + number) % values.len()], give);
        }
    }
}

/// The format, and where it has `<` also behind an element that prints the value.
pub fn one_short(format: &str, value: &Value, give: &mut dyn FnMut(Case)) {
    give(Case::new(format, std::slice::from_ref(value)));
    if format.ends_with(['%', 'n']) {
        give(Case::new(format, &[]));
    }
    if format.contains('<') {
        let first = match value {
            Value::Integer(..) => "%d",
            Value::Float(_) => "%a",
            Value::Boolean(_) => "%b",
            Value::Text(_) => "%s",
            Value::Time(_) => "%te",
        };
        give(Case::new(&format!("{first}{format}"), std::slice::from_ref(value)));
        give(Case::new(&format!("{first}{format}"), &[value.clone(), value.clone()]));
    }
}

/// Every letter with every set of flags, with and without width and precision, for every kind and null.
fn sets_of_flags(prng: &mut Prng, give: &mut dyn FnMut(Case)) {
    for &letter in LETTERS {
        for set in 0..1 << FLAGS.len() {
            for kind in KINDS {
                for form in 0..4 {
                    let between = flags_and_numbers(prng, set, form);
                    let value = value(prng, kind, letter);
                    give(Case::new(&format!("%{between}{}", letter as char), &[value]));
                }
            }
        }
    }
}

/// The flags of the set in any order, some repeated; a width in forms 1 and 3, a precision in forms 2 and 3.
pub fn flags_and_numbers(prng: &mut Prng, set: usize, form: u8) -> String {
    let mut flags: Vec<u8> = (0..FLAGS.len()).filter(|at| set >> at & 1 == 1).map(|at| FLAGS[at]).collect();
    mix(prng, &mut flags);
    let width = if form & 1 == 1 { prng.between(1, 40).to_string() } else { String::new() };
    let precision = if form & 2 == 2 { format!(".{}", prng.below(21)) } else { String::new() };
    format!("{}{width}{precision}", String::from_utf8_lossy(&flags))
}

/// Every character under %C and %S: alone where Java has another capital, else in texts of many.
fn characters(give: &mut dyn FnMut(Case)) {
    let mut many = String::new();
    for character in '\0'..=char::MAX {
        if has_capital(character) {
            give(Case::new("%C", &[int(3, i64::from(u32::from(character)))]));
            give(Case::new("%S", &[text(&character.to_string())]));
            give(Case::new("%6.4S", &[text(&character.to_string())]));
        } else {
            many.push(character);
            if many.len() > 1000 {
                give(Case::new("%S", &[text(&many)]));
                many.clear();
            }
        }
    }
    give(Case::new("%S", &[text(&many)]));
}
