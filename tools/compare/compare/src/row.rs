//! The row of values: its kinds, its bytes, and the original's types and values for it.

use std::fmt::Write;

use arrow::datatypes::{DataType, TimeUnit};
use datafusion_common::ScalarValue;

#[derive(Debug, Clone, Copy, PartialEq)]
pub enum Value {
    Int8(Option<i8>),
    Int16(Option<i16>),
    Int32(Option<i32>),
    Int64(Option<i64>),
    Float(f64),
    Boolean(Option<bool>),
    /// A part of the row's text, well-formed UTF-8.
    Text {
        offset: u32,
        length: u32,
    },
    /// Nanoseconds since 1970. Without them it is kind byte 136, which breaks the row's layout.
    Timestamp(Option<i64>),
}

const NULL_MARK: u8 = 128;

impl Value {
    /// The kind, 1 to 8, without its null mark.
    pub fn kind(self) -> u8 {
        match self {
            Value::Int8(_) => 1,
            Value::Int16(_) => 2,
            Value::Int32(_) => 3,
            Value::Int64(_) => 4,
            Value::Float(_) => 5,
            Value::Boolean(_) => 6,
            Value::Text { .. } => 7,
            Value::Timestamp(_) => 8,
        }
    }

    /// The 8 bytes of the value as a number, or nothing for null.
    fn bits(self) -> Option<u64> {
        match self {
            Value::Int8(v) => v.map(|v| i64::from(v) as u64),
            Value::Int16(v) => v.map(|v| i64::from(v) as u64),
            Value::Int32(v) => v.map(|v| i64::from(v) as u64),
            Value::Int64(v) => v.map(|v| v as u64),
            Value::Float(v) => Some(v.to_bits()),
            Value::Boolean(v) => v.map(u64::from),
            Value::Text { offset, length } => Some(u64::from(offset) | u64::from(length) << 32),
            Value::Timestamp(v) => v.map(|v| v as u64),
        }
    }

    /// The integer of kinds 1 to 4, where it is one and not null.
    pub fn integer(self) -> Option<i64> {
        match self {
            Value::Int8(v) => v.map(i64::from),
            Value::Int16(v) => v.map(i64::from),
            Value::Int32(v) => v.map(i64::from),
            Value::Int64(v) => v,
            _ => None,
        }
    }

    /// The integer as a value of kind 1 to 4, cut to the kind's width.
    pub fn of_integer(kind: u8, value: Option<i64>) -> Value {
        match kind {
            1 => Value::Int8(value.map(|v| v as i8)),
            2 => Value::Int16(value.map(|v| v as i16)),
            3 => Value::Int32(value.map(|v| v as i32)),
            _ => Value::Int64(value),
        }
    }

    /// The byte of the value's kind in a row.
    fn kind_byte(self) -> u8 {
        match self.bits() {
            Some(_) => self.kind(),
            None => self.kind() | NULL_MARK,
        }
    }

    fn data_type(self) -> DataType {
        match self {
            Value::Int8(_) => DataType::Int8,
            Value::Int16(_) => DataType::Int16,
            Value::Int32(_) => DataType::Int32,
            Value::Int64(_) => DataType::Int64,
            Value::Float(_) => DataType::Float64,
            Value::Boolean(_) => DataType::Boolean,
            Value::Text { .. } => DataType::Utf8,
            Value::Timestamp(_) => DataType::Timestamp(TimeUnit::Nanosecond, Some("UTC".into())),
        }
    }
}

#[derive(Debug, Clone, Default, PartialEq)]
pub struct Row {
    pub values: Vec<Value>,
    /// The text area; bytes that no value names may be anything.
    pub text: Vec<u8>,
}

impl Row {
    /// The kinds for checking: without null marks, but with the one that breaks the layout.
    pub fn kinds(&self) -> Vec<u8> {
        let kind = |v: &Value| if *v == Value::Timestamp(None) { v.kind_byte() } else { v.kind() };
        self.values.iter().map(kind).collect()
    }

    pub fn has_null_timestamp(&self) -> bool {
        self.values.contains(&Value::Timestamp(None))
    }

    /// The row in its layout: count, text length, kinds, values, text.
    pub fn pack(&self) -> Vec<u8> {
        let mut bytes = Vec::with_capacity(6 + 9 * self.values.len() + self.text.len());
        bytes.extend((self.values.len() as u16).to_le_bytes());
        bytes.extend((self.text.len() as u32).to_le_bytes());
        bytes.extend(self.values.iter().map(|v| v.kind_byte()));
        for value in &self.values {
            bytes.extend(value.bits().unwrap_or(0).to_le_bytes());
        }
        bytes.extend(&self.text);
        bytes
    }

    /// The text of a value of kind 7.
    pub fn text_at(&self, offset: u32, length: u32) -> &str {
        let part = &self.text[offset as usize..][..length as usize];
        std::str::from_utf8(part).expect("a text value is well-formed")
    }

    pub fn data_types(&self) -> Vec<DataType> {
        self.values.iter().map(|v| v.data_type()).collect()
    }

    pub fn scalar(&self, index: usize) -> ScalarValue {
        match self.values[index] {
            Value::Int8(v) => ScalarValue::Int8(v),
            Value::Int16(v) => ScalarValue::Int16(v),
            Value::Int32(v) => ScalarValue::Int32(v),
            Value::Int64(v) => ScalarValue::Int64(v),
            Value::Float(v) => ScalarValue::Float64(Some(v)),
            Value::Boolean(v) => ScalarValue::Boolean(v),
            Value::Text { offset, length } => ScalarValue::Utf8(Some(self.text_at(offset, length).to_owned())),
            Value::Timestamp(v) => ScalarValue::TimestampNanosecond(v, Some("UTC".into())),
        }
    }

    /// The values as a reader sees them, separated by commas.
    pub fn show(&self) -> String {
        let mut shown = String::new();
        for (i, value) in self.values.iter().enumerate() {
            let separator = if i == 0 { "" } else { ", " };
            shown.push_str(separator);
            match *value {
                Value::Int8(v) => show_option(&mut shown, "Int8", v),
                Value::Int16(v) => show_option(&mut shown, "Int16", v),
                Value::Int32(v) => show_option(&mut shown, "Int32", v),
                Value::Int64(v) => show_option(&mut shown, "Int64", v),
                Value::Float(v) => write!(shown, "Float64 {v:e} (bits {:#018x})", v.to_bits()).expect("a String"),
                Value::Boolean(v) => show_option(&mut shown, "Boolean", v),
                Value::Text { offset, length } => {
                    let text = self.text_at(offset, length);
                    write!(shown, "text {text:?} (at {offset})").expect("a String");
                }
                Value::Timestamp(v) => show_option(&mut shown, "timestamp", v),
            }
        }
        shown
    }
}

fn show_option<T: ToString>(shown: &mut String, kind: &str, value: Option<T>) {
    let value = value.map_or("null".to_owned(), |v| v.to_string());
    write!(shown, "{kind} {value}").expect("a String");
}

#[cfg(test)]
mod tests {
    use super::*;

    #[test]
    fn empty_row() {
        assert_eq!(Row::default().pack(), [0; 6]);
    }

    #[test]
    fn every_kind_in_its_place() {
        let row = Row {
            values: vec![
                Value::Int8(Some(-2)),
                Value::Int32(None),
                Value::Float(1.0),
                Value::Boolean(Some(true)),
                Value::Text { offset: 1, length: 2 },
                Value::Timestamp(Some(-2)),
                Value::Timestamp(None),
            ],
            text: b"x\xc3\xa9".to_vec(),
        };
        let mut expected = vec![7, 0, 3, 0, 0, 0, 1, 131, 5, 6, 7, 8, 136];
        expected.extend([0xfe, 255, 255, 255, 255, 255, 255, 255]);
        expected.extend([0; 8]);
        expected.extend([0, 0, 0, 0, 0, 0, 0xf0, 0x3f]);
        expected.extend([1, 0, 0, 0, 0, 0, 0, 0]);
        expected.extend([1, 0, 0, 0, 2, 0, 0, 0]);
        expected.extend([0xfe, 255, 255, 255, 255, 255, 255, 255]);
        expected.extend([0; 8]);
        expected.extend(b"x\xc3\xa9");
        assert_eq!(row.pack(), expected);
        assert_eq!(row.kinds(), [1, 3, 5, 6, 7, 8, 136]);
        assert_eq!(row.text_at(1, 2), "é");
    }
}
