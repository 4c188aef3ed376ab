//! The rows that are timed: formats, values, and what snprintf and {fmt} are given for them.

use arrow::datatypes::DataType;
use datafusion_common::ScalarValue;

#[derive(Clone, Copy)]
pub enum Value {
    Int8(i8),
    Int32(i32),
    Float(f64),
    Boolean(bool),
    Text(&'static str),
    /// Nanoseconds since 1970.
    Time(i64),
}

impl Value {
    fn kind(self) -> u8 {
        match self {
            Value::Int8(_) => 1,
            Value::Int32(_) => 3,
            Value::Float(_) => 5,
            Value::Boolean(_) => 6,
            Value::Text(_) => 7,
            Value::Time(_) => 8,
        }
    }

    /// As the original takes it; nothing for a time, since its calendar is chrono's, for which there is a stand-in here.
    fn in_original(self) -> Option<(DataType, ScalarValue)> {
        Some(match self {
            Value::Int8(v) => (DataType::Int8, ScalarValue::Int8(Some(v))),
            Value::Int32(v) => (DataType::Int32, ScalarValue::Int32(Some(v))),
            Value::Float(v) => (DataType::Float64, ScalarValue::Float64(Some(v))),
            Value::Boolean(v) => (DataType::Boolean, ScalarValue::Boolean(Some(v))),
            Value::Text(v) => (DataType::Utf8, ScalarValue::Utf8(Some(v.to_owned()))),
            Value::Time(_) => return None,
        })
    }

    fn show(self) -> String {
        match self {
            Value::Int8(v) => format!("Int8 {v}"),
            Value::Int32(v) => format!("Int32 {v}"),
            Value::Float(v) => format!("Float64 {v:?}"),
            Value::Boolean(v) => format!("{v}"),
            Value::Text(v) => format!("text `{v}`"),
            Value::Time(v) => format!("time {v}"),
        }
    }

    /// As an argument of Bench.java.
    fn java(self) -> String {
        match self {
            Value::Int8(v) => format!("b{v}"),
            Value::Int32(v) => format!("i{v}"),
            Value::Float(v) => format!("d{v:?}"),
            Value::Boolean(v) => format!("z{v}"),
            Value::Text(v) => format!("x{v}"),
            Value::Time(v) => format!("t{v}"),
        }
    }
}

/// What snprintf and {fmt} take besides the format; the order is that of calls.c and calls_fmt.cpp.
#[derive(Clone, Copy)]
pub enum Shape {
    Nothing,
    Integer,
    Floating,
    Text,
    Sheet,
    Four,
    Fifteen,
    Thirty,
    /// To gmtime_r and strftime in the place of snprintf.
    Moment,
}

/// What snprintf and {fmt} are given.
pub struct InC {
    pub shape: Shape,
    pub format: String,
    /// {fmt}'s format, where it is given the row.
    pub fmt: Option<String>,
    /// Whether their text is the same as this library's.
    pub same: bool,
}

#[derive(Clone, Copy, PartialEq)]
pub enum Call {
    Print,
    Measure,
}

/// A format with its values, and the call of this library that is timed.
pub struct Row {
    /// In Markdown.
    pub name: String,
    pub call: Call,
    pub format: String,
    pub values: Vec<Value>,
    /// Absent where the row is timed for this library alone.
    pub in_c: Option<InC>,
}

impl Row {
    pub fn alone(name: &str, call: Call, format: String, values: Vec<Value>) -> Row {
        Row { name: name.to_owned(), call, format, values, in_c: None }
    }

    fn compared(name: &str, format: &str, fmt: &str, values: Vec<Value>, shape: Shape) -> Row {
        let in_c = InC { shape, format: format.to_owned(), fmt: Some(fmt.to_owned()), same: true };
        Row { in_c: Some(in_c), ..Row::alone(name, Call::Print, format.to_owned(), values) }
    }

    /// A moment: the format of strftime is another, and {fmt} is not asked.
    fn moment(name: &str, format: &str, strftime: &str, nanoseconds: i64) -> Row {
        let in_c = InC { shape: Shape::Moment, format: strftime.to_owned(), fmt: None, same: true };
        Row { in_c: Some(in_c), ..Row::alone(name, Call::Print, format.to_owned(), vec![Value::Time(nanoseconds)]) }
    }

    /// With another format for snprintf, or the same one, and another text from it and from {fmt}.
    fn differing(mut self, format: &str) -> Row {
        let in_c = self.in_c.as_mut().expect("a compared row");
        in_c.format = format.to_owned();
        in_c.same = false;
        self
    }

    /// The row in its layout: count, text length, kinds, values, text.
    pub fn pack(&self) -> Vec<u8> {
        let mut text: Vec<u8> = Vec::new();
        let mut words = Vec::new();
        for value in &self.values {
            words.push(match *value {
                Value::Int8(v) => i64::from(v) as u64,
                Value::Int32(v) => i64::from(v) as u64,
                Value::Float(v) => v.to_bits(),
                Value::Boolean(v) => u64::from(v),
                Value::Text(v) => {
                    let word = text.len() as u64 | (v.len() as u64) << 32;
                    text.extend(v.as_bytes());
                    word
                }
                Value::Time(v) => v as u64,
            });
        }
        let mut bytes = Vec::new();
        bytes.extend((self.values.len() as u16).to_le_bytes());
        bytes.extend((text.len() as u32).to_le_bytes());
        bytes.extend(self.values.iter().map(|v| v.kind()));
        bytes.extend(words.iter().flat_map(|w| w.to_le_bytes()));
        bytes.extend(text);
        bytes
    }

    /// The types and values that the original is given, where it is given the row.
    pub fn in_original(&self) -> Option<(Vec<DataType>, Vec<ScalarValue>)> {
        self.values.iter().map(|v| v.in_original()).collect()
    }

    pub fn java(&self) -> Vec<String> {
        self.values.iter().map(|v| v.java()).collect()
    }

    /// The values for a reader; of many, the first and the last.
    pub fn show(&self) -> String {
        let shown: Vec<String> = self.values.iter().map(|v| v.show()).collect();
        match &shown[..] {
            [] => "no value".to_owned(),
            [first, .., last] if shown.len() > 5 => format!("{first} to {last}"),
            _ => shown.join(", "),
        }
    }

    pub fn integers(&self) -> Vec<i32> {
        let integer = |v: &Value| match *v {
            Value::Int8(v) => Some(i32::from(v)),
            Value::Int32(v) => Some(v),
            _ => None,
        };
        self.values.iter().filter_map(integer).collect()
    }

    pub fn float(&self) -> f64 {
        let float = |v: &Value| if let Value::Float(v) = *v { Some(v) } else { None };
        self.values.iter().find_map(float).unwrap_or(0.0)
    }

    pub fn boolean(&self) -> bool {
        self.values.iter().any(|v| matches!(v, Value::Boolean(true)))
    }

    pub fn text(&self) -> &'static str {
        let text = |v: &Value| if let Value::Text(v) = *v { Some(v) } else { None };
        self.values.iter().find_map(text).unwrap_or("")
    }

    /// The whole seconds of its moment.
    pub fn seconds(&self) -> i64 {
        let seconds = |v: &Value| if let Value::Time(v) = *v { Some(v.div_euclid(1_000_000_000)) } else { None };
        self.values.iter().find_map(seconds).unwrap_or(0)
    }
}

pub const SHEET_LINE: &str = "sheet line";
const NUMBER: Value = Value::Int32(1_234_567);
const POSITION: Value = Value::Int32(0x1a2b3c);
const PI: Value = Value::Float(std::f64::consts::PI);
/// 2026-11-15T07:05:09.025Z.
const MOMENT: i64 = 1_794_726_309_025_000_000;

/// The rows of the first table; the last is measured and timed for this library alone.
pub fn compared() -> Vec<Row> {
    let integers = |count: i32| (0..count).map(|i| Value::Int32(1_234_567 + i)).collect::<Vec<_>>();
    let sheet = vec![Value::Int8(7), POSITION, NUMBER, Value::Boolean(true), Value::Text("North weir")];
    let columns = vec![NUMBER, NUMBER, POSITION, POSITION];
    vec![
        Row::compared(
            SHEET_LINE,
            "gate %d pos %08x delay %,d open %b name %-12s",
            "gate {:d} pos {:08x} delay {:d} open {} name {:<12s}",
            sheet,
            Shape::Sheet,
        )
        .differing("gate %d pos %08x delay %d open %s name %-12s"),
        Row::compared(
            "`%-20d\\|%10d\\|%#x\\|%o`",
            "%-20d|%10d|%#x|%o",
            "{:<20d}|{:10d}|{:#x}|{:o}",
            columns,
            Shape::Four,
        ),
        Row::compared("`%d`", "%d", "{}", vec![NUMBER], Shape::Integer),
        Row::compared("`%x`", "%x", "{:x}", vec![POSITION], Shape::Integer),
        Row::compared("`%a`", "%a", "{:a}", vec![PI], Shape::Floating).differing("%a"),
        Row::compared("`%.6a`", "%.6a", "{:.6a}", vec![PI], Shape::Floating).differing("%.6a"),
        Row::compared("`%20.8s`", "%20.8s", "{:>20.8s}", vec![Value::Text("North weir, left gate")], Shape::Text),
        Row::moment("`%tF %<tT`", "%tF %<tT", "%F %T", MOMENT),
        Row::compared("15 times `%d` and a space", &"%d ".repeat(15), &"{} ".repeat(15), integers(15), Shape::Fifteen),
        Row::compared("30 times `%d`", &"%d".repeat(30), &"{}".repeat(30), integers(30), Shape::Thirty),
        Row::compared("200 bytes of text", &plain(200), &plain(200), vec![], Shape::Nothing),
        Row::compared("`%10000d`", "%10000d", "{:10000d}", vec![NUMBER], Shape::Integer),
        Row::alone("`%2147483647d`, measured", Call::Measure, "%2147483647d".to_owned(), vec![NUMBER]),
    ]
}

/// Rows of one form and rising size, for this library alone.
pub struct Series {
    pub name: &'static str,
    /// Size and row.
    pub rows: Vec<(u64, Row)>,
}

pub fn series() -> Vec<Series> {
    let series = |name, sizes: &[u64], call, format: &dyn Fn(u64) -> String, values: &[Value]| Series {
        name,
        rows: sizes.iter().map(|&size| (size, Row::alone(name, call, format(size), values.to_vec()))).collect(),
    };
    let pieces = [64, 128, 256, 512];
    let width = |size| format!("%{size}d");
    vec![
        series("bytes of plain text", &[500, 1000, 2000, 4000], Call::Print, &|size| plain(size as usize), &[]),
        series(
            "pieces, `%1$d` and a space in turn",
            &pieces,
            Call::Print,
            &|size| "%1$d ".repeat(size as usize / 2),
            &[NUMBER],
        ),
        series("pieces, all `%1$d`", &pieces, Call::Print, &|size| "%1$d".repeat(size as usize), &[NUMBER]),
        series("width of `%d`, printed", &[1000, 10_000, 100_000], Call::Print, &width, &[NUMBER]),
        series(
            "width of `%d`, measured",
            &[10, 10_000, 1_000_000_000, 2_147_483_647],
            Call::Measure,
            &width,
            &[NUMBER],
        ),
    ]
}

/// More than a processor remembers of the jumps of earlier calls.
pub const VALUES: u64 = 65_536;

/// Rows under one format whose digits differ from call to call, for this library alone. As long as those of the first table, but for `%a`, where one
/// in 16 has fewer digits.
pub fn in_turn() -> Vec<Vec<Row>> {
    let rows = |format: &str, value: &dyn Fn(u64) -> Value| {
        let row = |i| Row::alone(&format!("`{format}`"), Call::Print, format.to_owned(), vec![value(mixed(i))]);
        (0..VALUES).map(row).collect()
    };
    vec![
        rows("%d", &|bits| Value::Int32(1_000_000 + (bits % 9_000_000) as i32)),
        rows("%x", &|bits| Value::Int32(0x10_0000 + (bits % 0xf0_0000) as i32)),
        rows("%a", &|bits| Value::Float(f64::from_bits(2f64.to_bits() | bits >> 12))),
    ]
}

/// The bits that splitmix64 makes of a number.
fn mixed(i: u64) -> u64 {
    let z = (i + 1).wrapping_mul(0x9e37_79b9_7f4a_7c15);
    let z = (z ^ z >> 30).wrapping_mul(0xbf58_476d_1ce4_e5b9);
    let z = (z ^ z >> 27).wrapping_mul(0x94d0_49bb_1331_11eb);
    z ^ z >> 31
}

/// Text without `%` and braces.
fn plain(length: usize) -> String {
    "gate position text ".chars().cycle().take(length).collect()
}
