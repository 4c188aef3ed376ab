//! Reads a format by a grammar that holds Java's and the library's:
//! `%`, digits and `$`, flags and `<` in any order, digits, `.` and digits or none, a letter, and a second one behind t and T.

use crate::clock::COMPONENTS;

#[derive(Debug, Clone)]
pub enum Piece {
    /// The bytes that fixed text, `%%` and `%n` print.
    Fixed(Vec<u8>),
    Element(Element),
    /// A `%` that begins no element in either grammar. Nothing is read behind it.
    Fault,
}

#[derive(Debug, Clone, Default)]
pub struct Element {
    /// The digits before `$`.
    pub index: Option<String>,
    /// Flags and `<`, as written.
    pub flags: Vec<u8>,
    pub width: Option<String>,
    pub point: bool,
    pub precision: Option<String>,
    pub letter: u8,
    /// The letter behind t or T, else 0.
    pub component: u8,
    /// The position of the value that it takes, if there is one.
    pub argument: Option<usize>,
}

/// The letters that are printed for kinds 1 to 7.
pub const LETTERS: &[u8] = b"bBsScCdoxXaA";
/// Those that are not printed for any kind.
pub const UNPRINTED: &[u8] = b"hHeEfgG";
pub const FLAGS: &[u8] = b"#0- +,(";

impl Element {
    pub fn has(&self, flag: u8) -> bool {
        self.flags.contains(&flag)
    }

    /// The letter is `%` or `n`: Java takes no value then.
    pub fn is_fixed(&self) -> bool {
        self.letter == b'%' || self.letter == b'n'
    }

    pub fn capital(&self) -> bool {
        self.letter.is_ascii_uppercase()
    }

    pub fn small(&self) -> u8 {
        self.letter.to_ascii_lowercase()
    }

    pub fn width(&self) -> Option<usize> {
        self.width.as_ref().map(|digits| digits.parse().expect("checked"))
    }

    pub fn precision(&self) -> Option<usize> {
        self.precision.as_ref().map(|digits| digits.parse().expect("checked"))
    }
}

/// The pieces of a format, each element with the value that it takes out of `count`.
pub fn read(format: &[u8], count: usize) -> Vec<Piece> {
    let mut pieces = Vec::new();
    let mut running = 0;
    let mut last = None;
    let mut at = 0;
    while at < format.len() {
        if format[at] != b'%' {
            let end = (at..format.len()).find(|&i| format[i] == b'%').unwrap_or(format.len());
            pieces.push(Piece::Fixed(format[at..end].to_vec()));
            at = end;
            continue;
        }
        match format.get(at + 1) {
            Some(b'%') => pieces.push(Piece::Fixed(b"%".to_vec())),
            Some(b'n') => pieces.push(Piece::Fixed(b"\n".to_vec())),
            _ => {
                let Some((mut element, end)) = element(format, at + 1) else {
                    pieces.push(Piece::Fault);
                    return pieces;
                };
                if !element.is_fixed() {
                    last = wanted(&element, &mut running, last);
                    element.argument = last.filter(|&argument| argument < count);
                }
                pieces.push(Piece::Element(element));
                at = end;
                continue;
            }
        }
        at += 2;
    }
    pieces
}

/// The position that the element names, perhaps one without a value; nothing for `<` before any element.
fn wanted(element: &Element, running: &mut usize, last: Option<usize>) -> Option<usize> {
    if element.has(b'<') {
        return last;
    }
    if let Some(digits) = &element.index {
        return Some(digits.parse::<usize>().map_or(usize::MAX, |index| index.wrapping_sub(1)));
    }
    *running += 1;
    Some(*running - 1)
}

fn element(format: &[u8], start: usize) -> Option<(Element, usize)> {
    let mut element = Element::default();
    let mut at = start;
    let digits = digits_at(format, at);
    if !digits.is_empty() && format.get(at + digits.len()) == Some(&b'$') {
        at += digits.len() + 1;
        element.index = Some(digits);
    }
    while format.get(at).is_some_and(|flag| FLAGS.contains(flag) || *flag == b'<') {
        element.flags.push(format[at]);
        at += 1;
    }
    let digits = digits_at(format, at);
    if !digits.is_empty() {
        at += digits.len();
        element.width = Some(digits);
    }
    if format.get(at) == Some(&b'.') {
        element.point = true;
        let digits = digits_at(format, at + 1);
        at += 1 + digits.len();
        if !digits.is_empty() {
            element.precision = Some(digits);
        }
    }
    element.letter = *format.get(at)?;
    if element.small() == b't' {
        at += 1;
        element.component = *format.get(at).filter(|component| COMPONENTS.contains(component))?;
    } else if !LETTERS.contains(&element.letter) && !UNPRINTED.contains(&element.letter) && !element.is_fixed() {
        return None;
    }
    let small = |digits: &Option<String>| digits.as_ref().is_none_or(|digits| digits.parse::<i32>().is_ok());
    if !small(&element.index) || !small(&element.width) || !small(&element.precision) {
        return None;
    }
    Some((element, at + 1))
}

fn digits_at(format: &[u8], at: usize) -> String {
    format[at.min(format.len())..].iter().take_while(|b| b.is_ascii_digit()).map(|&b| b as char).collect()
}
