//! The classes of difference between Java and the library, each recognised from format, kind and value alone.

use crate::case::Case;
use crate::elements::element_classes;
use crate::format::{Piece, read};

#[derive(Debug, Clone, Copy, PartialEq, Eq, PartialOrd, Ord)]
pub enum Class {
    RepeatedFlag,
    MinusAndZero,
    NoWidth,
    Flag,
    Precision,
    PointAlone,
    TimeFlag,
    TimePrecision,
    LongCharacter,
    PercentOrLine,
    LaterPrevious,
    IndexZeros,
    BooleanOfOther,
    StringOfOther,
    StringOfTime,
    NullOfOther,
    TimeOfLong,
    Hash,
    Surrogate,
    TimeFraction,
    Bounds,
    Bytes,
    Capitals,
    ZeroPrecision,
    SubnormalDigits,
    ZerosTwice,
    TimeWidth,
}

/// Who refuses the cases of a class.
#[derive(Debug, Clone, Copy, PartialEq, Eq)]
pub enum Side {
    /// Java alone, with this exception.
    Java(&'static str),
    /// The library alone, with one of these numbers.
    Here(&'static [u64]),
    /// Neither, but the texts differ.
    Texts,
}

pub const ALL: [Class; 27] = [
    Class::RepeatedFlag,
    Class::MinusAndZero,
    Class::NoWidth,
    Class::Flag,
    Class::Precision,
    Class::PointAlone,
    Class::TimeFlag,
    Class::TimePrecision,
    Class::LongCharacter,
    Class::PercentOrLine,
    Class::LaterPrevious,
    Class::IndexZeros,
    Class::BooleanOfOther,
    Class::StringOfOther,
    Class::StringOfTime,
    Class::NullOfOther,
    Class::TimeOfLong,
    Class::Hash,
    Class::Surrogate,
    Class::TimeFraction,
    Class::Bounds,
    Class::Bytes,
    Class::Capitals,
    Class::ZeroPrecision,
    Class::SubnormalDigits,
    Class::ZerosTwice,
    Class::TimeWidth,
];

impl Class {
    pub fn name(self) -> &'static str {
        match self {
            Class::RepeatedFlag => "a flag twice",
            Class::MinusAndZero => "`-` behind `0` on d o x a",
            Class::NoWidth => "`-`, or `0` on d o x a, without width",
            Class::Flag => "a flag that Java does not allow for the letter, but for t",
            Class::Precision => "precision on c d o x",
            Class::PointAlone => "`.` without digits",
            Class::TimeFlag => "a flag other than `-` on %t",
            Class::TimePrecision => "precision on %t",
            Class::LongCharacter => "%c of Int64",
            Class::PercentOrLine => "`%` with width or index, `n` with index",
            Class::LaterPrevious => "`<` not directly behind `%`",
            Class::IndexZeros => "index with leading zeros",
            Class::BooleanOfOther => "%b of another kind than Boolean",
            Class::StringOfOther => "%s of Float64 or Boolean",
            Class::StringOfTime => "%s of a timestamp",
            Class::NullOfOther => "null under a letter for another kind",
            Class::TimeOfLong => "%t of Int64",
            Class::Hash => "%h",
            Class::Surrogate => "%c of a surrogate",
            Class::TimeFraction => "%t of a negative timestamp, not a whole second",
            Class::Bounds => "over 4,096 bytes, 512 pieces or 64 values",
            Class::Bytes => "width and precision beyond ASCII",
            Class::Capitals => "capitals beyond ASCII",
            Class::ZeroPrecision => "%a of zero, precision above 1",
            Class::SubnormalDigits => "%a of a subnormal, no precision or above 13",
            Class::ZerosTwice => "%a, `0`, width and a precision that adds zeros",
            Class::TimeWidth => "%t, width above the text's length",
        }
    }

    pub fn side(self) -> Side {
        match self {
            Class::RepeatedFlag => Side::Java("DuplicateFormatFlagsException"),
            Class::MinusAndZero => Side::Java("IllegalFormatFlagsException"),
            Class::NoWidth => Side::Java("MissingFormatWidthException"),
            Class::Flag => Side::Java("FormatFlagsConversionMismatchException"),
            Class::Precision => Side::Java("IllegalFormatPrecisionException"),
            Class::PointAlone => Side::Java("UnknownFormatConversionException"),
            Class::TimeFlag => Side::Java("FormatFlagsConversionMismatchException"),
            Class::TimePrecision => Side::Java("IllegalFormatPrecisionException"),
            Class::LongCharacter => Side::Java("IllegalFormatConversionException"),
            Class::PercentOrLine => Side::Here(&[7, 10]),
            Class::LaterPrevious => Side::Here(&[7, 10]),
            Class::IndexZeros => Side::Here(&[7, 10]),
            Class::BooleanOfOther => Side::Here(&[12]),
            Class::StringOfOther | Class::StringOfTime => Side::Here(&[15]),
            Class::NullOfOther => Side::Here(&[12, 15]),
            Class::TimeOfLong => Side::Here(&[12]),
            Class::Hash => Side::Here(&[15]),
            Class::Surrogate => Side::Here(&[16]),
            Class::TimeFraction => Side::Here(&[18]),
            Class::Bounds => Side::Here(&[1, 13, 14]),
            _ => Side::Texts,
        }
    }
}

/// What is predicted of a case.
#[derive(Debug, Clone, Default)]
pub struct Prediction {
    /// Both refuse for one and the same reason.
    pub both: bool,
    /// The classes, in order, each once.
    pub classes: Vec<Class>,
    pub pieces: Vec<Piece>,
}

#[derive(Debug, Clone, Copy, PartialEq, Eq)]
pub enum Outcome {
    BothRefuse,
    JavaRefuses,
    HereRefuses,
    TextsDiffer,
    Equal,
}

impl Prediction {
    pub fn of(case: &Case) -> Self {
        let mut told = Prediction { pieces: read(&case.format, case.values.len()), ..Prediction::default() };
        if case.format.len() > 4096 || told.pieces.len() > 512 || case.values.len() > 64 {
            told.classes.push(Class::Bounds);
        }
        for piece in &told.pieces {
            match piece {
                Piece::Fixed(_) => {}
                Piece::Fault => told.both = true,
                Piece::Element(element) => {
                    let value = element.argument.map(|argument| &case.values[argument]);
                    match element_classes(element, value) {
                        Some(classes) => told.classes.extend(classes),
                        None => told.both = true,
                    }
                }
            }
        }
        told.classes.sort();
        told.classes.dedup();
        told
    }

    /// Whether an element has the letter t or T.
    pub fn has_time(&self) -> bool {
        self.pieces.iter().any(|piece| matches!(piece, Piece::Element(element) if element.small() == b't'))
    }

    pub fn java_refuses(&self) -> bool {
        self.both || self.classes.iter().any(|class| matches!(class.side(), Side::Java(_)))
    }

    pub fn here_refuses(&self) -> bool {
        self.both || self.classes.iter().any(|class| matches!(class.side(), Side::Here(_)))
    }

    pub fn outcome(&self) -> Outcome {
        match (self.java_refuses(), self.here_refuses()) {
            (true, true) => Outcome::BothRefuse,
            (true, false) => Outcome::JavaRefuses,
            (false, true) => Outcome::HereRefuses,
            (false, false) if self.classes.is_empty() => Outcome::Equal,
            (false, false) => Outcome::TextsDiffer,
        }
    }
}
