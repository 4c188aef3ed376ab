//! What the library must answer to a case: the original's answer, or the stated one where a class takes it out of the
//! original's hands.

use arrow::datatypes::DataType;
use datafusion_common::{DataFusionError, ScalarValue};
use original::{ConversionSpecifier, ConversionType, FormatElement, Formatter, NumericParam};

use crate::classes::Class;
use crate::generate::Case;
use crate::row::{Row, Value};
use crate::{dates, hex_float};

/// 01's number and the place of the piece at fault.
#[derive(Debug, Clone, Copy, PartialEq, Eq)]
pub struct Refusal {
    pub number: u64,
    pub place: u64,
}

#[derive(Debug, Clone, PartialEq)]
pub enum PieceText {
    Text(String),
    /// Too long for the original: the length alone.
    Length(u64),
    /// A date, where chrono is not installed.
    Unknown,
}

impl PieceText {
    pub fn length(&self) -> u64 {
        match self {
            PieceText::Text(text) => text.len() as u64,
            PieceText::Length(length) => *length,
            PieceText::Unknown => 0,
        }
    }
}

#[derive(Debug, Clone, PartialEq)]
pub struct Accepted {
    pub pieces: u64,
    pub largest: u64,
    /// Each piece's text, or the refusal 15, 16 or 18.
    pub printed: Result<Vec<PieceText>, Refusal>,
}

pub struct Expectation {
    pub answer: Result<Accepted, Refusal>,
    pub classes: Vec<Class>,
}

const LONGEST_FORMAT: usize = 4_096;
const MOST_PIECES: usize = 512;
const LARGEST_NUMBER: u64 = 2_147_483_647;
/// The original's padding costs the square of the width.
const WIDEST: i32 = 40_000;
const LARGEST_PRECISION_SENT: i32 = 65_535;
const LARGEST_PRECISION_SHOWN: usize = 100_000;

/// An error tells that a rule of this tool, not the library, is wrong.
pub fn expect(case: &Case) -> Result<Expectation, String> {
    let mut classes = Vec::new();
    let answer = answer(case, &mut classes)?;
    Ok(Expectation { answer, classes })
}

fn answer(case: &Case, classes: &mut Vec<Class>) -> Result<Result<Accepted, Refusal>, String> {
    if case.format.len() > LONGEST_FORMAT {
        classes.push(Class::LongFormat);
        return Ok(Err(Refusal { number: 1, place: 0 }));
    }
    let Ok(format) = std::str::from_utf8(&case.format) else {
        classes.push(Class::NotUtf8);
        return Ok(Err(Refusal { number: 2, place: 0 }));
    };
    if case.row.has_null_timestamp() {
        classes.push(Class::NullTimestamp);
        return Ok(Err(Refusal { number: 14, place: 0 }));
    }
    let reader = Reader { format, types: case.row.data_types() };
    if let Some(refusal) = reader.large_number()? {
        if refusal.number == 6 {
            classes.push(Class::LargeNumber);
        }
        return Ok(Err(reader.unless_many_pieces(refusal, classes)));
    }
    let formatter = match reader.parse(format.len()) {
        Ok(formatter) => formatter,
        Err(error) => {
            let refusal = Refusal { number: number_of(&error)?, place: reader.last_accepted_percent() };
            return Ok(Err(reader.unless_many_pieces(refusal, classes)));
        }
    };
    if formatter.elements.len() > MOST_PIECES {
        classes.push(Class::ManyPieces);
        return Ok(Err(Refusal { number: 13, place: reader.start_of_piece_513() }));
    }
    Ok(Ok(Accepted {
        pieces: formatter.elements.len() as u64,
        largest: formatter.arg_num as u64,
        printed: printed(&reader, &formatter, &case.row, classes)?,
    }))
}

/// 01's number for the original's message. An error met behind an element's argument is told inside another message.
fn number_of(error: &DataFusionError) -> Result<u64, String> {
    const NUMBERS: [(&str, u64); 8] = [
        ("No previous argument to reference", 4),
        ("Invalid numeric parameter", 5),
        ("Argument index ", 7),
        ("Invalid flag combination: '0' and '-'", 8),
        ("Invalid flag combination: '+' and ' '", 9),
        ("Invalid conversion type: ", 10),
        ("Invalid time format: ", 11),
        ("Invalid argument type for ", 12),
    ];
    let message = error.to_string();
    let inner = ["Execution(\"", "Plan(\""].iter().find_map(|wrapper| message.strip_prefix(wrapper));
    let told = inner.unwrap_or(&message);
    let found = NUMBERS.iter().find(|(start, _)| told.starts_with(start));
    found.map(|(_, number)| *number).ok_or(format!("the original's message is not known: {message}"))
}

/// The original's reading of the format and of its prefixes.
struct Reader<'a> {
    format: &'a str,
    types: Vec<DataType>,
}

impl<'a> Reader<'a> {
    fn parse(&self, end: usize) -> Result<Formatter<'a>, DataFusionError> {
        Formatter::parse(&self.format[..end], &self.types)
    }

    fn pieces_before(&self, end: usize) -> Option<usize> {
        self.parse(end).ok().map(|formatter| formatter.elements.len())
    }

    fn percents(&self) -> impl DoubleEndedIterator<Item = usize> {
        self.format.match_indices('%').map(|(at, _)| at)
    }

    /// Where a refused format has its fault: the original accepts what stands before that element's `%`, and nothing
    /// that reaches further to a `%`.
    fn last_accepted_percent(&self) -> u64 {
        let place = self.percents().rev().find(|&at| self.parse(at).is_ok());
        place.expect("a format that is refused has a first %") as u64
    }

    /// The `%` of the piece with this number, counted from 0, in an accepted format.
    fn place_of_element(&self, piece: usize) -> u64 {
        let place = self.percents().find(|&at| self.pieces_before(at) == Some(piece));
        place.expect("an element begins with %") as u64
    }

    /// The longest prefix with 512 pieces ends where the next piece begins.
    fn start_of_piece_513(&self) -> u64 {
        let ends = (0..=self.format.len()).rev().filter(|&end| self.format.is_char_boundary(end));
        let mut full = ends.filter(|&end| self.pieces_before(end) == Some(MOST_PIECES));
        full.next().expect("the format has over 512 pieces") as u64
    }

    /// A refusal behind 512 pieces is 13.
    fn unless_many_pieces(&self, refusal: Refusal, classes: &mut Vec<Class>) -> Refusal {
        let before = self.pieces_before(refusal.place as usize).expect("accepted before the fault");
        if before < MOST_PIECES {
            return refusal;
        }
        classes.clear();
        classes.push(Class::ManyPieces);
        Refusal { number: 13, place: self.start_of_piece_513() }
    }

    /// The refusal of the first element that holds a number too large for the original. Such a number counts only if
    /// the original accepts what stands before the element; what stands in the element before the number, with the
    /// letter s, shows whether the original refuses it earlier.
    fn large_number(&self) -> Result<Option<Refusal>, String> {
        for (start, end) in large_numbers(self.format) {
            let Some(percent) = self.format[..start].rfind('%') else { continue };
            let head = &self.format[percent + 1..start];
            let in_element = head.bytes().all(|b| b"<$.#- +,(0123456789".contains(&b));
            if !in_element || self.parse(percent).is_err() {
                continue;
            }
            let place = percent as u64;
            if head.is_empty() && self.format[end..].starts_with('$') {
                return Ok(Some(Refusal { number: 6, place }));
            }
            let number = match Formatter::parse(&format!("{}s", &self.format[..start]), &self.types) {
                Ok(_) => 6,
                Err(error) => number_of(&error)?,
            };
            return Ok(Some(Refusal { number, place }));
        }
        Ok(None)
    }
}

/// Start and end of every run of digits above 2,147,483,647, without its leading zeros.
fn large_numbers(format: &str) -> Vec<(usize, usize)> {
    let mut found = Vec::new();
    let mut at = 0;
    for run in format.split(|c: char| !c.is_ascii_digit()) {
        let end = at + run.len();
        let digits = run.trim_start_matches('0');
        if digits.len() > 10 || digits.parse::<u64>().is_ok_and(|n| n > LARGEST_NUMBER) {
            found.push((end - digits.len(), end));
        }
        at = end + format[end..].chars().next().map_or(0, char::len_utf8);
    }
    found
}

fn printed(
    reader: &Reader,
    formatter: &Formatter,
    row: &Row,
    classes: &mut Vec<Class>,
) -> Result<Result<Vec<PieceText>, Refusal>, String> {
    let mut texts = Vec::new();
    let mut met = Vec::new();
    for (piece, element) in formatter.elements.iter().enumerate() {
        let spec = match element {
            FormatElement::Verbatim(text) => {
                texts.push(PieceText::Text((*text).to_owned()));
                continue;
            }
            FormatElement::Format(spec) => spec,
        };
        let argument = spec.argument_index - 1;
        let value = row.values[argument];
        if !is_printed_here(value.kind(), spec.conversion_type) {
            classes.push(Class::LetterNotPrinted);
            return Ok(Err(Refusal { number: 15, place: reader.place_of_element(piece) }));
        }
        match element_text(spec, value, &row.scalar(argument), &mut met)? {
            Ok(text) => texts.push(text),
            Err(number) => {
                classes.extend(dates::class_of_refusal(number));
                return Ok(Err(Refusal { number, place: reader.place_of_element(piece) }));
            }
        }
    }
    if met.is_empty() {
        compare_with_whole(formatter, row, &texts)?;
    }
    classes.append(&mut met);
    Ok(Ok(texts))
}

/// The original's own joining of all elements gives the same text as its elements one by one.
fn compare_with_whole(formatter: &Formatter, row: &Row, texts: &[PieceText]) -> Result<(), String> {
    let scalars: Vec<ScalarValue> = (0..row.values.len()).map(|i| row.scalar(i)).collect();
    let whole = formatter.format(&scalars).map_err(|e| format!("the original refuses the whole: {e}"))?;
    let mut rest = whole.as_str();
    for text in texts {
        let PieceText::Text(text) = text else { return Err("a length without its class".to_owned()) };
        rest = rest.strip_prefix(text.as_str()).ok_or("the original's elements do not make its text")?;
    }
    if rest.is_empty() { Ok(()) } else { Err("the original's text is longer than its elements".to_owned()) }
}

fn is_printed_here(kind: u8, letter: ConversionType) -> bool {
    use ConversionType::*;
    match kind {
        1..=4 => {
            matches!(
                letter,
                DecInt | OctInt | HexIntLower | HexIntUpper | CharLower | CharUpper | StringLower | StringUpper
            )
        }
        5 => matches!(letter, HexFloatLower | HexFloatUpper),
        6 => matches!(letter, BooleanLower | BooleanUpper),
        8 => matches!(letter, TimeLower(_) | TimeUpper(_)),
        _ => matches!(letter, StringLower | StringUpper),
    }
}

/// The text of an element, or the number of its refusal in printing.
pub type Outcome = Result<PieceText, u64>;

fn element_text(
    spec: &ConversionSpecifier,
    value: Value,
    scalar: &ScalarValue,
    met: &mut Vec<Class>,
) -> Result<Outcome, String> {
    if let Value::Timestamp(Some(timestamp)) = value {
        return dates::text(spec, timestamp, scalar, met);
    }
    let width = match spec.width {
        NumericParam::Literal(width) => width,
        NumericParam::FromArgument => 0,
    };
    let unpadded = ConversionSpecifier { width: NumericParam::FromArgument, ..*spec };
    if width > WIDEST {
        met.push(Class::WidePiece);
        let text = element_text(&unpadded, value, scalar, met)?;
        return Ok(text.map(|text| PieceText::Length(text.length().max(width as u64))));
    }
    if let Value::Float(float) = value {
        return float_text(spec, float, scalar, met).map(Ok);
    }
    let negative_decimal = spec.conversion_type == ConversionType::DecInt && value.integer().is_some_and(|i| i < 0);
    let in_brackets = spec.negative_in_parentheses && negative_decimal;
    if in_brackets && width == 1 {
        met.push(Class::BracketWidthOne);
        return original_text(&unpadded, scalar);
    }
    if in_brackets && spec.left_adj {
        return bracketed_text(spec, &unpadded, width as usize, scalar, met).map(Ok);
    }
    original_text(spec, scalar)
}

/// %d of a negative with `-` and `(`: E2 has the spaces behind the bracket, the original before it. That the two differ
/// where the width leaves room, and agree elsewhere, is checked on each number that comes here.
fn bracketed_text(
    spec: &ConversionSpecifier,
    unpadded: &ConversionSpecifier,
    width: usize,
    scalar: &ScalarValue,
    met: &mut Vec<Class>,
) -> Result<PieceText, String> {
    let original = original_text(spec, scalar)?.map_err(refused_number)?;
    let PieceText::Text(number) = original_text(unpadded, scalar)?.map_err(refused_number)? else {
        return Err("the original's text is not known".to_owned());
    };
    let has_room = number.len() < width;
    met.extend(has_room.then_some(Class::BracketByDigits));
    let own = PieceText::Text(format!("{number:<width$}"));
    if has_room == (original == own) || original.length() != own.length() {
        return Err(format!("room left does not tell the original's {original:?} from {own:?}"));
    }
    Ok(own)
}

/// The original's messages in printing that stand for a number of 01's table.
const NUMBERS_IN_PRINTING: [(&str, u64); 2] =
    [("invalid Unicode scalar value for %c: ", 16), ("Invalid timestamp: ", 18)];

pub fn original_text(spec: &ConversionSpecifier, scalar: &ScalarValue) -> Result<Outcome, String> {
    let mut text = String::new();
    let Err(error) = spec.format(&mut text, scalar) else { return Ok(Ok(PieceText::Text(text))) };
    let message = error.to_string();
    let found = NUMBERS_IN_PRINTING.iter().find(|(start, _)| message.starts_with(start));
    found.map(|(_, number)| Err(*number)).ok_or(format!("the original refuses to print: {message}"))
}

/// %a: the original's text, or this tool's own where 01 lists an exception. That the two agree elsewhere, and differ on
/// each exception, is checked on every float.
fn float_text(
    spec: &ConversionSpecifier,
    float: f64,
    scalar: &ScalarValue,
    met: &mut Vec<Class>,
) -> Result<PieceText, String> {
    let precision = match spec.precision {
        NumericParam::Literal(precision) => Some(precision as usize),
        NumericParam::FromArgument => None,
    };
    let large = precision.is_some_and(|p| p > LARGEST_PRECISION_SENT as usize);
    if !hex_float::covers(float, precision) {
        // Such a float prints the same at every precision from 13 on.
        let mut sent = *spec;
        if large {
            met.push(Class::LargePrecision);
            sent.precision = NumericParam::Literal(LARGEST_PRECISION_SENT);
        }
        return original_text(&sent, scalar)?.map_err(refused_number);
    }
    let shown = precision.map(|p| p.min(LARGEST_PRECISION_SHOWN));
    let own = hex_float::unmarked(float, shown);
    let own_text = hex_float::padded(spec, float, own.text);
    if large {
        met.push(Class::LargePrecision);
        let missing = precision.unwrap_or(0) - shown.unwrap_or(0);
        if missing == 0 {
            return Ok(PieceText::Text(own_text));
        }
        met.push(Class::WidePiece);
        return Ok(PieceText::Length((own_text.len() + missing) as u64));
    }
    let original = original_text(spec, scalar)?.map_err(refused_number)?;
    met.extend(own.class);
    let own_text = PieceText::Text(own_text);
    if own.class.is_some() != (original != own_text) {
        return Err(format!("the listed exceptions do not tell the original's {original:?} from {own_text:?}"));
    }
    Ok(own_text)
}

fn refused_number(number: u64) -> String {
    format!("the original refuses to print a number, with {number}")
}

#[cfg(test)]
mod tests {
    use super::*;

    fn original_answer(format: &str, value: Value) -> String {
        let row = Row { values: vec![value], text: Vec::new() };
        let formatter = Formatter::parse(format, &row.data_types()).expect("accepted");
        formatter.format(&[row.scalar(0)]).expect("printed")
    }

    /// The original's answers in docs/DIFFERENCES.md that can be asked for.
    #[test]
    fn listed_differences() {
        assert_eq!(original_answer("%-(4d", Value::Int32(Some(-5))), "(5 )");
        assert_eq!(original_answer("%a", Value::Float(1.03125)), "0x1.8p0");
        assert_eq!(original_answer("%.1a", Value::Float(1.96875)), "0x1.1p0");
        assert_eq!(original_answer("%d", Value::Int64(Some(i64::MIN))), "-9223372036854775808");
        assert_eq!(original_answer("%.65535a", Value::Float(1.0)).len(), "0x1.p0".len() + 65_535);
        assert!(std::panic::catch_unwind(|| original_answer("%.65536a", Value::Float(1.0))).is_err());
    }
}
