//! The classes that one element falls into, by its letter, flags, width, precision and value.

use crate::capitals::has_capital;
use crate::case::Value;
use crate::classes::{Class, Side};
use crate::clock;
use crate::format::Element;

/// The classes that an element falls into, or nothing where both sides refuse it for one reason.
pub fn element_classes(element: &Element, value: Option<&Value>) -> Option<Vec<Class>> {
    if both_refuse(element) {
        return None;
    }
    if element.is_fixed() {
        return fixed_passes(element).then(|| vec![Class::PercentOrLine]);
    }
    let mut classes = Vec::new();
    if element.has(b'<') && (element.flags[0] != b'<' || element.index.is_some()) {
        classes.push(Class::LaterPrevious);
    }
    if element.index.as_ref().is_some_and(|index| index.starts_with('0')) {
        classes.push(Class::IndexZeros);
    }
    let value = value?;
    flag_classes(element, value, &mut classes);
    classes.extend(kind_classes(element, value)?);
    if classes.iter().all(|class| class.side() == Side::Texts) {
        text_classes(element, value, &mut classes);
    }
    Some(classes)
}

/// Whether index and flags are such that both sides refuse them, whatever the letter.
fn both_refuse(element: &Element) -> bool {
    let zero_after_minus =
        element.flags.iter().position(|&f| f == b'-').is_some_and(|at| element.flags[at..].contains(&b'0'));
    zero_after_minus
        || element.has(b'+') && element.has(b' ')
        || element.flags.iter().filter(|&&f| f == b'<').count() > 1
        || element.index.as_ref().is_some_and(|i| zeros(i))
}

/// Whether Java takes what stands between `%` and the letter `%` or `n`.
fn fixed_passes(element: &Element) -> bool {
    let flags_pass =
        element.flags.is_empty() || element.letter == b'%' && element.flags == b"-" && element.width.is_some();
    let width_passes = element.width.is_none() || element.letter == b'%';
    flags_pass && width_passes && !element.point
}

/// The classes of flags and precisions that Java refuses for the letter.
fn flag_classes(element: &Element, value: &Value, classes: &mut Vec<Class>) {
    let letter = element.small();
    let numeric = b"doxa".contains(&letter);
    if (1..element.flags.len()).any(|at| element.flags[..at].contains(&element.flags[at])) {
        classes.push(Class::RepeatedFlag);
    }
    if numeric && element.has(b'-') && element.has(b'0') {
        classes.push(Class::MinusAndZero);
    }
    if element.width.is_none() && (element.has(b'-') || numeric && element.has(b'0')) {
        classes.push(Class::NoWidth);
    }
    let not_allowed: &[u8] = match letter {
        b'd' => b"#",
        b'o' | b'x' if value.is_null() => b",",
        b'o' | b'x' => b",+ (",
        b'a' => b",(",
        _ => b"#+ 0,(",
    };
    if not_allowed.iter().any(|&flag| element.has(flag)) {
        classes.push(if letter == b't' { Class::TimeFlag } else { Class::Flag });
    }
    if element.precision.is_some() && b"cdox".contains(&letter) {
        classes.push(Class::Precision);
    }
    if element.precision.is_some() && letter == b't' {
        classes.push(Class::TimePrecision);
    }
    if element.point && element.precision.is_none() {
        classes.push(Class::PointAlone);
    }
}

/// The class of a letter and a value that one side refuses, if there is one; nothing where both refuse them.
fn kind_classes(element: &Element, value: &Value) -> Option<Option<Class>> {
    match (element.small(), value) {
        (b'b', Value::Boolean(_)) => Some(None),
        (b'b', _) => Some(Some(Class::BooleanOfOther)),
        (b's', Value::Integer(..) | Value::Text(_)) => Some(None),
        (b's', Value::Time(_)) => Some(Some(Class::StringOfTime)),
        (b's', _) => Some(Some(Class::StringOfOther)),
        (b'h', _) => Some(Some(Class::Hash)),
        (b'c' | b'd' | b'o' | b'x', Value::Integer(_, None)) => Some(None),
        (b'c' | b'd' | b'o' | b'x', Value::Boolean(None))
        | (b'a' | b't', Value::Integer(_, None) | Value::Boolean(None)) => Some(Some(Class::NullOfOther)),
        (b'c', Value::Integer(kind, Some(value))) => character_class(*kind, *value),
        (b'd' | b'o' | b'x', Value::Integer(_, Some(_))) | (b'a', Value::Float(_)) => Some(None),
        (b't', Value::Integer(4, Some(_))) => Some(Some(Class::TimeOfLong)),
        (b't', Value::Time(nanos)) => Some(clock::is_broken(*nanos).then_some(Class::TimeFraction)),
        _ => None,
    }
}

/// The same of %c.
fn character_class(kind: u8, value: i64) -> Option<Option<Class>> {
    match (u32::try_from(value), kind) {
        (Ok(0..=0xd7ff | 0xe000..=0x10_ffff), 4) => Some(Some(Class::LongCharacter)),
        (Ok(0..=0xd7ff | 0xe000..=0x10_ffff), _) => Some(None),
        (Ok(0xd800..=0xdfff), 1..4) => Some(Some(Class::Surrogate)),
        _ => None,
    }
}

fn zeros(digits: &str) -> bool {
    digits.bytes().all(|digit| digit == b'0')
}

/// The classes of an element that both sides print.
fn text_classes(element: &Element, value: &Value, classes: &mut Vec<Class>) {
    match value {
        Value::Integer(_, Some(value)) if element.small() == b'c' => {
            let character = u32::try_from(*value).ok().and_then(char::from_u32).expect("a scalar value");
            string_classes(element, &character.to_string(), classes);
        }
        Value::Text(text) => string_classes(element, text, classes),
        Value::Float(value) if value.is_finite() => float_classes(element, *value, classes),
        Value::Time(nanos) if element.width() > Some(clock::text_len(element.component, *nanos)) => {
            classes.push(Class::TimeWidth);
        }
        _ => {}
    }
}

fn string_classes(element: &Element, text: &str, classes: &mut Vec<Class>) {
    let units: Vec<u16> = text.encode_utf16().collect();
    let precision = element.precision().unwrap_or(usize::MAX);
    let cut_units = &units[..units.len().min(precision)];
    let cut_bytes = &text[..start_at(text, precision)];
    let width = element.width().unwrap_or(0);
    let room = |length: usize| width.saturating_sub(length);
    let cut_is_same = cut_bytes.encode_utf16().eq(cut_units.iter().copied());
    if !cut_is_same || room(cut_bytes.len()) != room(cut_units.len()) {
        classes.push(Class::Bytes);
    }
    let whole = char::decode_utf16(cut_units.iter().copied()).filter_map(Result::ok);
    if element.capital() && whole.into_iter().any(|character| !character.is_ascii() && has_capital(character)) {
        classes.push(Class::Capitals);
    }
}

/// The start of the character in which the byte `at` lies, at most the text's length.
pub fn start_at(text: &str, at: usize) -> usize {
    (0..=at.min(text.len())).rev().find(|&at| text.is_char_boundary(at)).expect("0 is one")
}

fn float_classes(element: &Element, value: f64, classes: &mut Vec<Class>) {
    let bits = value.to_bits() & (u64::MAX >> 1);
    let subnormal = bits < 1 << 52;
    if bits == 0 {
        if element.precision() > Some(1) {
            classes.push(Class::ZeroPrecision);
        }
        return;
    }
    let without_precision = subnormal && element.precision.is_none() && bits & 15 == 0;
    if without_precision || subnormal && element.precision() > Some(13) {
        classes.push(Class::SubnormalDigits);
    }
    let (Some(precision), Some(width)) = (element.precision(), element.width()) else { return };
    let precision = precision.max(1);
    let (digits, exponent) = java_digits(bits, precision);
    let marks = usize::from(value.is_sign_negative() || element.has(b'+') || element.has(b' ')) + 2;
    let length = marks + 2 + digits + 1 + exponent.to_string().len();
    if element.has(b'0') && digits < precision && length < width {
        classes.push(Class::ZerosTwice);
    }
}

/// The digits of the fraction that Java has before it adds zeros up to the precision, and the exponent.
fn java_digits(bits: u64, precision: usize) -> (usize, i64) {
    let (mut exponent, mut fraction) = ((bits >> 52) as i64 - 1023, bits & ((1 << 52) - 1));
    if exponent == -1023 {
        exponent = -1022;
        if precision < 13 {
            // The leading 1 is moved to bit 52 and taken off.
            let shift = fraction.leading_zeros() - 11;
            exponent -= i64::from(shift);
            fraction = (fraction << shift) & ((1 << 52) - 1);
        }
    }
    if precision < 13 {
        let dropped = 52 - 4 * precision;
        let (kept, rest, half) = (fraction >> dropped, fraction & ((1 << dropped) - 1), 1 << (dropped - 1));
        let kept = kept + u64::from(rest > half || rest == half && kept & 1 == 1);
        exponent += (kept >> (4 * precision)) as i64;
        fraction = kept << dropped & ((1 << 52) - 1);
    }
    (13_usize.saturating_sub(fraction.trailing_zeros() as usize / 4).max(1), exponent)
}
