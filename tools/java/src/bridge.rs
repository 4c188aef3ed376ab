//! What Java is asked in place of an element where the two differ, so that its answer must be the library's text.
//!
//! | Class | Java is asked |
//! |---|---|
//! | flags, widths and precisions that Java refuses | the element without what does nothing here |
//! | null | the same with the letter s |
//! | width and precision beyond ASCII, capitals beyond ASCII | a text with one character for each byte, precision lowered to a character's start |
//! | %a of zero | without precision |
//! | %a of a subnormal, no precision or above 13 | precision 13 |
//! | %a with `0` and precision | without `0` and width; zeros are put behind `0x` afterwards |
//! | %t with flags, width or precision | without them |

use crate::case::{Value, escape};
use crate::elements::start_at;
use crate::format::Element;

#[derive(Debug, Clone)]
pub struct Bridge {
    /// The request to Java, a line without its end.
    pub request: String,
    after: After,
}

#[derive(Debug, Clone, Copy)]
enum After {
    Nothing,
    /// The text has one character for each byte.
    BytesBack,
    /// Zeros behind `0x` up to this length.
    ZerosTo(usize),
}

impl Bridge {
    /// For an element that the library prints.
    pub fn of(element: &Element, value: &Value) -> Self {
        let letter = element.letter as char;
        match (element.small(), value) {
            (_, Value::Integer(_, None)) => {
                plain(format!("%{}{}{}\tn", minus(element), cut(element.precision()), string_letter(element)))
            }
            (b'd', _) => plain(format!("%{}{}d\t{}", kept(element, b"+ ,("), padding(element), value.request())),
            (b'o' | b'x', _) => {
                plain(format!("%{}{}{letter}\t{}", kept(element, b"#"), padding(element), value.request()))
            }
            (b'c', Value::Integer(_, Some(value))) => character(element, *value),
            (b's', Value::Text(text)) if !text.is_ascii() => {
                let precision = element.precision().map(|precision| start_at(text, precision));
                let request = format!("%{}{}{letter}\ty{}", minus(element), cut(precision), escape(text.as_bytes()));
                Bridge { request, after: After::BytesBack }
            }
            (b's' | b'b', _) => {
                plain(format!("%{}{}{letter}\t{}", minus(element), cut(element.precision()), value.request()))
            }
            (b'a', Value::Float(number)) => float(element, *number),
            (b't', Value::Time(_)) => plain(format!("%{letter}{}\t{}", element.component as char, value.request())),
            _ => unreachable!("the library refuses it"),
        }
    }

    /// The text wanted of the library, from Java's.
    pub fn text(&self, java: &[u8]) -> Vec<u8> {
        match self.after {
            After::Nothing => java.to_vec(),
            After::BytesBack => {
                let text = std::str::from_utf8(java).expect("Java writes UTF-8");
                text.chars().map(|c| if c.is_ascii() { c as u8 } else { (c as u32 - 0xe000) as u8 }).collect()
            }
            After::ZerosTo(width) => {
                let at = 1 + java.iter().position(|b| b.eq_ignore_ascii_case(&b'x')).expect("finite");
                let zeros = width.saturating_sub(java.len());
                [&java[..at], &vec![b'0'; zeros], &java[at..]].concat()
            }
        }
    }
}

fn plain(request: String) -> Bridge {
    Bridge { request, after: After::Nothing }
}

fn character(element: &Element, value: i64) -> Bridge {
    let character = u32::try_from(value).ok().and_then(char::from_u32).expect("a scalar value");
    if character.is_ascii() {
        return plain(format!("%{}{}\ti{value}", minus(element), element.letter as char));
    }
    let bytes = escape(character.to_string().as_bytes());
    let request = format!("%{}{}\ty{bytes}", minus(element), string_letter(element));
    Bridge { request, after: After::BytesBack }
}

fn float(element: &Element, number: f64) -> Bridge {
    let (letter, value) = (element.letter as char, Value::Float(number).request());
    let bits = number.to_bits() & (u64::MAX >> 1);
    let precision = match element.precision() {
        _ if bits == 0 => None,
        None if bits < 1 << 52 => Some(13),
        Some(14..) if bits < 1 << 52 => Some(13),
        precision => precision,
    };
    let marks = kept(element, b"+ ");
    let zeros = element.has(b'0') && !element.has(b'-') && number.is_finite();
    match (element.width(), precision) {
        (Some(width), Some(_)) if zeros => {
            Bridge { request: format!("%{marks}{}{letter}\t{value}", cut(precision)), after: After::ZerosTo(width) }
        }
        _ => plain(format!("%{marks}{}{}{letter}\t{value}", padding(element), cut(precision))),
    }
}

fn string_letter(element: &Element) -> char {
    if element.capital() { 'S' } else { 's' }
}

/// Those of the flags that the element has, each once.
fn kept(element: &Element, flags: &[u8]) -> String {
    flags.iter().filter(|&&flag| element.has(flag)).map(|&flag| flag as char).collect()
}

/// `-` and the width, if there is a width.
fn minus(element: &Element) -> String {
    let minus = if element.has(b'-') { "-" } else { "" };
    element.width().map_or(String::new(), |width| format!("{minus}{width}"))
}

/// `-` or `0` and the width, if there is a width.
fn padding(element: &Element) -> String {
    if element.has(b'0') && !element.has(b'-') && element.width.is_some() {
        format!("0{}", minus(element))
    } else {
        minus(element)
    }
}

fn cut(precision: Option<usize>) -> String {
    precision.map_or(String::new(), |precision| format!(".{precision}"))
}
