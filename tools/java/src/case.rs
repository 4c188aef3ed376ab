//! A case: a format and the values of a row, as the library and as Java are given it.

use std::fmt::Write;

#[derive(Debug, Clone, PartialEq)]
pub enum Value {
    /// Kinds 1 to 4, the value or null.
    Integer(u8, Option<i64>),
    /// Kind 5.
    Float(f64),
    /// Kind 6, the value or null.
    Boolean(Option<bool>),
    /// Kind 7.
    Text(String),
    /// Kind 8, in nanoseconds.
    Time(i64),
}

impl Value {
    pub fn is_null(&self) -> bool {
        matches!(self, Value::Integer(_, None) | Value::Boolean(None))
    }

    /// The value for a reader of the table.
    pub fn show(&self) -> String {
        match self {
            Value::Integer(kind, Some(value)) => format!("Int{} {value}", 4 << kind),
            Value::Integer(kind, None) => format!("Int{} null", 4 << kind),
            Value::Float(value) => match value.to_bits() & (u64::MAX >> 1) {
                bits if bits < 1 << 52 && bits != 0 => {
                    format!("Float64 {} times 2 to the -1074", show_subnormal(*value))
                }
                _ => format!("Float64 {value:?}"),
            },
            Value::Boolean(Some(value)) => format!("Boolean {value}"),
            Value::Boolean(None) => "Boolean null".into(),
            Value::Text(text) if text.len() > 300 => format!("text of {} bytes", text.len()),
            Value::Text(text) => format!("text {text:?}"),
            Value::Time(nanos) => format!("timestamp {nanos}"),
        }
    }

    /// How much there is to read in the value.
    fn weight(&self) -> u64 {
        match self {
            Value::Integer(kind, None) => 1 + u64::from(*kind != 3),
            Value::Integer(kind, Some(5)) => u64::from(*kind != 3),
            Value::Integer(kind, Some(value)) => {
                2 * digits(*value) + u64::from(*value < 0) + u64::from(value.abs_diff(0) != 5) + u64::from(*kind != 3)
            }
            Value::Float(value) => {
                let rare = value.abs() != 1.0 && *value != 0.0;
                3 + u64::from(
                    (value.to_bits() << 12).count_ones() + u32::from(value.is_sign_negative()) + u32::from(rare),
                )
            }
            Value::Boolean(value) => u64::from(value.is_none()),
            Value::Text(text) => 2 * text.len() as u64 + u64::from(text.chars().any(char::is_control)),
            Value::Time(nanos) => 2 * digits(*nanos) + u64::from(*nanos < 0),
        }
    }

    /// The value in a request to Java.
    pub fn request(&self) -> String {
        match self {
            Value::Integer(kind, Some(value)) => format!("{}{value}", ["b", "s", "i", "l"][usize::from(*kind) - 1]),
            Value::Integer(_, None) | Value::Boolean(None) => "n".into(),
            Value::Float(value) => format!("d{:016x}", value.to_bits()),
            Value::Boolean(Some(value)) => if *value { "zt" } else { "zf" }.into(),
            Value::Text(text) => format!("x{}", escape(text.as_bytes())),
            Value::Time(nanos) => format!("u{nanos}"),
        }
    }
}

fn digits(value: i64) -> u64 {
    value.unsigned_abs().to_string().len() as u64
}

fn show_subnormal(value: f64) -> String {
    let count = (value.to_bits() & (u64::MAX >> 1)).to_string();
    if value.is_sign_negative() { format!("-{count}") } else { count }
}

#[derive(Debug, Clone, PartialEq)]
pub struct Case {
    pub format: Vec<u8>,
    pub values: Vec<Value>,
}

impl Case {
    pub fn new(format: &str, values: &[Value]) -> Self {
        Case { format: format.into(), values: values.to_vec() }
    }

    pub fn show(&self) -> String {
        let format = match std::str::from_utf8(&self.format) {
            Ok(_) if self.format.len() > 300 => format!("a format of {} bytes", self.format.len()),
            Ok(text) if text.bytes().all(|b| b >= 0x20) => format!("`{text}`"),
            _ => format!("`{}`", escape(&self.format)),
        };
        let values: Vec<String> = self.values.iter().map(Value::show).collect();
        match self.values.len() {
            0 => format,
            1..=8 => format!("{format}, {}", values.join("; ")),
            count => format!("{format}, {count} values: {}; ...", values[0]),
        }
    }

    /// The smaller of two cases has the smaller key: the shorter format, no capitals and spaces, then the simpler values.
    pub fn key(&self) -> (usize, u64, Vec<u8>) {
        let capitals = self.format.iter().filter(|byte| byte.is_ascii_uppercase() || **byte == b' ').count() as u64;
        let control = |value: &Value| matches!(value, Value::Integer(_, Some(0..32))) && self.format.ends_with(b"c");
        let controls = self.values.iter().filter(|value| control(value)).count() as u64;
        let values: u64 = self.values.iter().map(Value::weight).sum();
        let length = self.format.len() + 2 * self.values.len().saturating_sub(1);
        (length, values + 1000 * (capitals + controls), self.format.clone())
    }

    /// The row of the library.
    pub fn row(&self) -> Vec<u8> {
        let mut kinds = Vec::new();
        let mut words = Vec::new();
        let mut text = Vec::new();
        for value in &self.values {
            let (kind, word) = match value {
                Value::Integer(kind, Some(value)) => (*kind, *value as u64),
                Value::Integer(kind, None) => (kind | 128, 0),
                Value::Float(value) => (5, value.to_bits()),
                Value::Boolean(Some(value)) => (6, u64::from(*value)),
                Value::Boolean(None) => (6 | 128, 0),
                Value::Time(nanos) => (8, *nanos as u64),
                Value::Text(part) => {
                    let offset = text.len() as u64;
                    text.extend_from_slice(part.as_bytes());
                    (7, offset | (part.len() as u64) << 32)
                }
            };
            kinds.push(kind);
            words.extend_from_slice(&word.to_le_bytes());
        }
        let mut row = Vec::new();
        row.extend_from_slice(&(self.values.len() as u16).to_le_bytes());
        row.extend_from_slice(&(text.len() as u32).to_le_bytes());
        row.extend_from_slice(&kinds);
        row.extend_from_slice(&words);
        row.extend_from_slice(&text);
        row
    }

    /// The request to Java, a line without its end.
    pub fn request(&self) -> String {
        let mut line = escape(&self.format);
        for value in &self.values {
            line.push('\t');
            line.push_str(&value.request());
        }
        line
    }
}

pub fn escape(bytes: &[u8]) -> String {
    let mut line = String::new();
    for &byte in bytes {
        match byte {
            b'\\' => line.push_str("\\5c"),
            0x20..=0x7e => line.push(byte as char),
            _ => write!(line, "\\{byte:02x}").expect("a string takes all"),
        }
    }
    line
}

pub fn unescape(line: &[u8]) -> Vec<u8> {
    let digit = |byte: u8| (byte as char).to_digit(16).expect("a hexadecimal digit") as u8;
    let mut bytes = Vec::new();
    let mut at = 0;
    while at < line.len() {
        if line[at] == b'\\' {
            bytes.push(16 * digit(line[at + 1]) + digit(line[at + 2]));
            at += 3;
        } else {
            bytes.push(line[at]);
            at += 1;
        }
    }
    bytes
}
