//! The original's calls, Java's, and the counts of instructions.

use std::hint::black_box;
use std::path::Path;
use std::process::{Command, Stdio};

use arrow::datatypes::DataType;
use datafusion_common::ScalarValue;
use original::Formatter;

use crate::rows::{Call, Row};
use crate::timing::Calls;

/// The original on one row.
pub struct Original<'a> {
    format: &'a str,
    types: Vec<DataType>,
    values: Vec<ScalarValue>,
}

impl<'a> Original<'a> {
    /// Nothing where the original is not given the row.
    pub fn new(row: &'a Row) -> Option<Original<'a>> {
        let (types, values) = row.in_original()?;
        Some(Original { format: &row.format, types, values })
    }

    pub fn text(&self) -> String {
        self.parsed().format(&self.values).expect("printed")
    }

    fn parsed(&self) -> Formatter<'_> {
        Formatter::parse(black_box(self.format), black_box(&self.types)).expect("accepted")
    }

    fn parse_and_format(&self, calls: u64) -> u64 {
        let mut sum = 0;
        for _ in 0..calls {
            let text = self.parsed().format(black_box(&self.values)).expect("printed");
            sum += black_box(text).len() as u64;
        }
        sum
    }

    fn format_only(&self, formatter: &Formatter, calls: u64) -> u64 {
        let mut sum = 0;
        for _ in 0..calls {
            let text = black_box(formatter).format(black_box(&self.values)).expect("printed");
            sum += black_box(text).len() as u64;
        }
        sum
    }

    /// Parsing and formatting in each call, and formatting what was parsed before.
    pub fn both(&self) -> [Calls<'_>; 2] {
        let formatter = self.parsed();
        [Box::new(|calls| self.parse_and_format(calls)), Box::new(move |calls| self.format_only(&formatter, calls))]
    }
}

pub struct Java {
    pub ns: f64,
    pub version: String,
    pub text: String,
}

/// Java on one row, in a process of its own; nothing where there is no Java.
pub fn java(folder: &Path, row: &Row) -> Option<Java> {
    let output = Command::new("java")
        .arg("-cp")
        .arg(folder)
        .arg("Bench")
        .arg(&row.format)
        .args(row.java())
        .stderr(Stdio::inherit())
        .output()
        .ok()
        .filter(|output| output.status.success())?;
    let said = String::from_utf8(output.stdout).ok()?;
    let mut lines = said.splitn(3, '\n');
    let ns = lines.next()?.parse().ok()?;
    let version = lines.next()?.to_owned();
    let text = lines.next()?.strip_suffix('\n')?.to_owned();
    Some(Java { ns, version, text })
}

const COUNTED_CALLS: u64 = 20;

/// The instructions of one call of this library on the row of this index; nothing where there is no valgrind.
pub fn instructions(folder: &Path, index: usize, call: Call) -> Option<u64> {
    let function = match call {
        Call::Print => "panel_print",
        Call::Measure => "panel_measure",
    };
    let collected =
        collected(folder, &format!("callgrind.{index}"), function, ["calls", &index.to_string()], COUNTED_CALLS)?;
    Some(collected / COUNTED_CALLS)
}

/// The same for a function of the live list and the list of this index; what making the list takes is counted apart and taken off.
pub fn list_instructions(folder: &Path, index: usize, function: &str) -> Option<u64> {
    let name = format!("callgrind.{function}.{index}");
    let of = |calls| collected(folder, &name, function, ["list", &index.to_string()], calls);
    let before = of(0)?;
    Some((of(COUNTED_CALLS)? - before) / COUNTED_CALLS)
}

/// The instructions within a function while this program runs with these arguments; the file of callgrind is left under the name.
fn collected(folder: &Path, name: &str, function: &str, arguments: [&str; 2], calls: u64) -> Option<u64> {
    let output = Command::new("valgrind")
        .arg("--tool=callgrind")
        .arg(format!("--toggle-collect={function}"))
        .arg(format!("--callgrind-out-file={}", folder.join(name).display()))
        .arg(std::env::current_exe().ok()?)
        .args(arguments)
        .arg(calls.to_string())
        .output()
        .ok()
        .filter(|output| output.status.success())?;
    let said = String::from_utf8_lossy(&output.stderr);
    let collected = said.lines().find_map(|line| line.split_once("Collected :"))?.1;
    collected.trim().parse().ok()
}
