//! The calls of {fmt} (calls_fmt.cpp), where it is installed.

use std::ffi::{CStr, c_int};

use crate::panel::ROOM;
use crate::rows::{InC, Row};

/// A row's values as calls_fmt.cpp takes them.
#[repr(C)]
struct Values {
    integers: *const c_int,
    float: f64,
    text: *const u8,
    text_len: usize,
    boolean: bool,
}

// Linked where `has_fmt` is set.
unsafe extern "C" {
    fn bench_fmt(
        shape: c_int,
        format: *const u8,
        format_len: usize,
        values: *const Values,
        out: *mut u8,
        calls: u64,
    ) -> u64;
    fn bench_fmt_compiled(format: *const u8, format_len: usize, values: *const Values, out: *mut u8, calls: u64)
    -> u64;
    fn bench_fmt_version() -> c_int;
}

#[derive(Clone, Copy)]
enum Way {
    Runtime,
    Compiled,
}

/// {fmt} on one row.
pub struct Fmt {
    way: Way,
    shape: c_int,
    format: String,
    integers: Vec<c_int>,
    float: f64,
    text: &'static str,
    boolean: bool,
    out: Vec<u8>,
}

impl Fmt {
    /// With the format read in each call, and with the compiled one; neither where {fmt} is not installed, or not given the row.
    pub fn both(row: &Row, in_c: &InC) -> Vec<Fmt> {
        let Some(format) = in_c.fmt.as_ref().filter(|_| cfg!(has_fmt)) else { return vec![] };
        let fmt = |way| Fmt {
            way,
            shape: in_c.shape as c_int,
            format: format.clone(),
            integers: row.integers(),
            float: row.float(),
            text: row.text(),
            boolean: row.boolean(),
            out: vec![0; ROOM],
        };
        vec![fmt(Way::Runtime), fmt(Way::Compiled)]
    }

    pub fn run(&mut self, calls: u64) -> u64 {
        if !cfg!(has_fmt) {
            unreachable!("made without {{fmt}}");
        }
        let values = Values {
            integers: self.integers.as_ptr(),
            float: self.float,
            text: self.text.as_ptr(),
            text_len: self.text.len(),
            boolean: self.boolean,
        };
        let (format, out) = (&self.format, self.out.as_mut_ptr());
        // The shape, or the compiled format, says how many integers are read; rows.rs gives as many. No row's text is longer than ROOM.
        let sum = match self.way {
            Way::Runtime => unsafe { bench_fmt(self.shape, format.as_ptr(), format.len(), &values, out, calls) },
            Way::Compiled => unsafe { bench_fmt_compiled(format.as_ptr(), format.len(), &values, out, calls) },
        };
        assert_ne!(sum, 0, "calls_fmt.cpp has no {format}");
        sum
    }

    pub fn format(&self) -> &str {
        &self.format
    }

    pub fn text(&self) -> &[u8] {
        CStr::from_bytes_until_nul(&self.out).expect("shorter than ROOM").to_bytes()
    }
}

/// As "9.1.0"; "none" where {fmt} is not installed.
pub fn version() -> String {
    if !cfg!(has_fmt) {
        return "none".to_owned();
    }
    // It reads a constant.
    let version = unsafe { bench_fmt_version() };
    format!("{}.{}.{}", version / 10_000, version / 100 % 100, version % 100)
}
