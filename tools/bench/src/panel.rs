//! The calls made in C (calls.c): this library and snprintf.

use std::ffi::{CStr, CString, c_char, c_int};

use crate::rows::{Call, InC, Row};

/// `struct rows` of calls.c.
#[repr(C)]
struct Rows {
    bytes: *const u8,
    bytes_len: usize,
    row_len: usize,
    next: usize,
}

unsafe extern "C" {
    fn bench_print(
        fmt: *const u8,
        fmt_len: usize,
        rows: *mut Rows,
        out: *mut u8,
        out_len: usize,
        ends: *mut u8,
        ends_len: usize,
        calls: u64,
    ) -> u64;
    fn bench_measure(fmt: *const u8, fmt_len: usize, row: *const u8, row_len: usize, calls: u64) -> u64;
    fn bench_snprintf(
        shape: c_int,
        fmt: *const c_char,
        n: *const c_int,
        f: f64,
        s: *const c_char,
        t: i64,
        out: *mut c_char,
        out_len: usize,
        calls: u64,
    ) -> u64;
    fn bench_compiler() -> *const c_char;
    fn bench_c_library() -> *const c_char;
}

/// Bytes lent for the longest text of any row.
pub const ROOM: usize = 131_072;
const ENDS: usize = 512;

/// This library on one row, or on several in turn.
pub struct Panel {
    call: Call,
    format: Vec<u8>,
    /// The rows one behind the other.
    bytes: Vec<u8>,
    row_len: usize,
    next: usize,
    out: Vec<u8>,
    ends: Vec<u8>,
}

impl Panel {
    pub fn new(row: &Row) -> Panel {
        Panel::in_turn(std::slice::from_ref(row))
    }

    /// Rows under one format, each of the same number of bytes.
    pub fn in_turn(rows: &[Row]) -> Panel {
        let first = &rows[0];
        let packed: Vec<Vec<u8>> = rows.iter().map(|row| row.pack()).collect();
        assert!(packed.iter().all(|bytes| bytes.len() == packed[0].len()), "{}: rows of other lengths", first.name);
        assert!(rows.len() == 1 || first.call == Call::Print, "{}: one row is measured", first.name);
        Panel {
            call: first.call,
            format: first.format.clone().into_bytes(),
            row_len: packed[0].len(),
            bytes: packed.concat(),
            next: 0,
            out: vec![0; ROOM],
            ends: vec![0; 4 * ENDS],
        }
    }

    pub fn run(&mut self, calls: u64) -> u64 {
        let (format, row_len) = (&self.format, self.row_len);
        match self.call {
            // Each pointer and length come from one vector that lives through the call; a row ends where the next one, or the vector's end, is.
            Call::Print => {
                let mut rows =
                    Rows { bytes: self.bytes.as_ptr(), bytes_len: self.bytes.len(), row_len, next: self.next };
                let sum = unsafe {
                    bench_print(
                        format.as_ptr(),
                        format.len(),
                        &mut rows,
                        self.out.as_mut_ptr(),
                        self.out.len(),
                        self.ends.as_mut_ptr(),
                        self.ends.len(),
                        calls,
                    )
                };
                self.next = rows.next;
                sum
            }
            Call::Measure => unsafe {
                bench_measure(format.as_ptr(), format.len(), self.bytes.as_ptr(), row_len, calls)
            },
        }
    }

    /// The text left by the calls before: no row's text has a byte 0, and the memory had nothing else.
    pub fn text(&self) -> &[u8] {
        CStr::from_bytes_until_nul(&self.out).expect("shorter than ROOM").to_bytes()
    }

    /// What the rows print, or how long it is, in one number: equal for two libraries that print the same.
    pub fn digest(&mut self) -> u64 {
        let mut sum = 0_u64;
        for _ in 0..self.bytes.len() / self.row_len {
            let printed = self.text().len();
            self.out[..printed].fill(0);
            sum = sum.wrapping_mul(31).wrapping_add(self.run(1));
            assert!(self.call == Call::Measure || self.out[0] != 0, "refused");
            sum = self.text().iter().fold(sum, |sum, &byte| sum.wrapping_mul(31).wrapping_add(u64::from(byte)));
        }
        sum
    }
}

/// snprintf on one row; of a moment gmtime_r and strftime.
pub struct Snprintf {
    shape: c_int,
    format: CString,
    integers: Vec<c_int>,
    float: f64,
    text: CString,
    seconds: i64,
    out: Vec<u8>,
}

impl Snprintf {
    pub fn new(row: &Row, in_c: &InC) -> Snprintf {
        Snprintf {
            shape: in_c.shape as c_int,
            format: CString::new(in_c.format.clone()).expect("no byte 0"),
            integers: row.integers(),
            float: row.float(),
            text: CString::new(row.text()).expect("no byte 0"),
            seconds: row.seconds(),
            out: vec![0; ROOM],
        }
    }

    pub fn run(&mut self, calls: u64) -> u64 {
        // The shape says how many integers are read; rows.rs gives as many. Text and format end with byte 0.
        unsafe {
            bench_snprintf(
                self.shape,
                self.format.as_ptr(),
                self.integers.as_ptr(),
                self.float,
                self.text.as_ptr(),
                self.seconds,
                self.out.as_mut_ptr().cast(),
                self.out.len(),
                calls,
            )
        }
    }

    pub fn text(&self) -> &[u8] {
        CStr::from_bytes_until_nul(&self.out).expect("ends with byte 0").to_bytes()
    }
}

pub fn compiler() -> &'static str {
    // Both functions return texts that live as long as the program.
    unsafe { CStr::from_ptr(bench_compiler()) }.to_str().expect("ASCII")
}

pub fn c_library() -> &'static str {
    unsafe { CStr::from_ptr(bench_c_library()) }.to_str().expect("ASCII")
}
