//! The rows of 01's table of cases, `%-(8d` by E2, and its cases run by a program.

use crate::generate::{Case, Room};
use crate::row::{Row, Value};

/// The text printed, or the number of the refusal.
pub type Answer = Result<&'static str, u64>;

pub fn cases() -> Vec<(Case, Answer)> {
    let int = |v| Value::Int64(Some(v));
    let with_value = [
        ("%d", int(5), Ok("5")),
        ("%05d", int(-5), Ok("-0005")),
        ("%,d", int(1_234_567), Ok("1,234,567")),
        ("%-(8d", int(-5), Ok("(5)     ")),
        ("%(1d", int(-5), Ok("(5)")),
        ("%d", int(i64::MIN), Ok("-9223372036854775808")),
        ("%#06x", Value::Int8(Some(-1)), Ok("0x00ff")),
        ("%a", Value::Float(1.0), Ok("0x1.0p0")),
        ("%010a", Value::Float(1.0), Ok("0x0001.0p0")),
        ("%a", Value::Float(1.03125), Ok("0x1.08p0")),
        ("%.1a", Value::Float(1.96875), Ok("0x1.0p1")),
        ("%.1a", Value::Float(f64::from_bits(1)), Ok("0x1.0p-1074")),
        ("%a", Value::Float(f64::from_bits(1)), Ok("0x0.0000000000001p-1022")),
        ("%.1s", Value::Text { offset: 0, length: 2 }, Ok("")),
        ("%3c", int(233), Ok(" é")),
        ("%.2d", Value::Int32(None), Ok("nu")),
        ("A%03d%%", Value::Int8(Some(7)), Ok("A007%")),
        ("%0$d", int(5), Err(10)),
        ("%", int(5), Err(10)),
        ("%0-5d", int(5), Ok("5    ")),
        ("%-05d", int(5), Err(8)),
        ("%2147483648d", int(5), Err(6)),
        ("%tH", int(5), Err(12)),
        ("%tq", int(5), Err(11)),
        ("%h", Value::Text { offset: 0, length: 2 }, Err(15)),
        ("%c", int(0xd7ff), Ok("\u{d7ff}")),
        ("%c", int(0xe000), Ok("\u{e000}")),
        ("%c", int(0x10_ffff), Ok("\u{10ffff}")),
        ("%c", int(0xd800), Err(16)),
        ("%c", int(0x11_0000), Err(16)),
        ("%c", int(-1), Err(16)),
    ];
    let with_none = [
        ("%0$d", Err(7)),
        ("%", Err(7)),
        ("%2147483648$d", Err(6)),
        ("%2147483648d", Err(7)),
        ("%<d", Err(4)),
        ("%$d", Err(5)),
        ("", Ok("")),
    ];
    let fixed = |format: &str, values| Case {
        format: format.as_bytes().to_vec(),
        row: Row { values, text: "é".as_bytes().to_vec() },
        room: Room::Spare { output: 3, ends: 1, bytes: 1 },
    };
    let first = with_value.into_iter().map(|(format, value, answer)| (fixed(format, vec![value]), answer));
    let second = with_none.into_iter().map(|(format, answer)| (fixed(format, Vec::new()), answer));
    first.chain(second).collect()
}
