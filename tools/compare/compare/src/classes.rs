//! The classes of inputs on which the original is not the judge, or not the only one. Each is counted and named.

#[derive(Debug, Clone, Copy, PartialEq, Eq)]
pub enum Class {
    LongFormat,
    NotUtf8,
    NullTimestamp,
    LargeNumber,
    ManyPieces,
    LetterNotPrinted,
    BracketWidthOne,
    BracketByDigits,
    LargePrecision,
    LeadingZero,
    Carry,
    WidePiece,
    ShortRoom,
    NoChrono,
}

pub const CLASSES: [(Class, &str); 14] = [
    (Class::LongFormat, "format over 4,096 bytes: 1 expected, not sent to the original"),
    (Class::NotUtf8, "format not UTF-8: 2 expected, cannot be sent to the original"),
    (Class::NullTimestamp, "kind byte 136: 14 expected, 3 in checking; the original has null timestamps"),
    (Class::LargeNumber, "number above 2,147,483,647: 6 expected, the original judges only what stands before it"),
    (Class::ManyPieces, "a 513th piece: 13 expected, the original has no bound"),
    (Class::LetterNotPrinted, "accepted letter that is not printed here: 15 expected, the original's text not used"),
    (Class::BracketWidthOne, "`(` with width 1 on a negative: compared with the original's text without width"),
    (Class::BracketByDigits, "`-` and `(` on a negative, room left: the original's text without width, then spaces"),
    (Class::LargePrecision, "%a precision above 65,535: compared with this tool's own text"),
    (Class::LeadingZero, "%a fraction not zero that begins with digit 0: compared with this tool's own text"),
    (Class::Carry, "%a rounding into the leading 1: compared with this tool's own text"),
    (Class::WidePiece, "width above 40,000 or %a precision above 100,000: length compared, text not compared"),
    (Class::ShortRoom, "output or ends too short: 17 expected, the original has no bound"),
    (Class::NoChrono, "a date without chrono: 18 and the number of pieces compared, the text not compared"),
];

/// How many cases met each class.
#[derive(Default)]
pub struct Tally([u64; CLASSES.len()]);

impl Tally {
    pub fn count(&mut self, met: &[Class]) {
        for (counted, (class, _)) in self.0.iter_mut().zip(CLASSES) {
            *counted += u64::from(met.contains(&class));
        }
    }

    pub fn print(&self) {
        for (counted, (_, name)) in self.0.iter().zip(CLASSES) {
            println!("{counted:>10}  {name}");
        }
    }
}
