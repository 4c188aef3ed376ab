//! Stand-in for chrono: the names that format_string.rs uses. No date is ever formatted.

use std::marker::PhantomData;

/// No release of chrono: this crate stands where chrono is not installed.
pub const RELEASE: Option<&str> = None;

pub struct Utc;

pub struct DateTime<Zone>(PhantomData<Zone>);

impl<Zone> DateTime<Zone> {
    pub fn from_timestamp(_seconds: i64, _nanoseconds: u32) -> Option<Self> {
        unimplemented!()
    }

    pub fn timestamp(&self) -> i64 {
        unimplemented!()
    }

    pub fn timestamp_millis(&self) -> i64 {
        unimplemented!()
    }

    pub fn format(&self, _pattern: &str) -> String {
        unimplemented!()
    }
}

pub trait Datelike {
    fn year(&self) -> i32 {
        unimplemented!()
    }

    fn month(&self) -> u32 {
        unimplemented!()
    }

    fn day(&self) -> u32 {
        unimplemented!()
    }

    fn ordinal(&self) -> u32 {
        unimplemented!()
    }
}

pub trait Timelike {
    fn hour(&self) -> u32 {
        unimplemented!()
    }

    fn hour12(&self) -> (bool, u32) {
        unimplemented!()
    }

    fn minute(&self) -> u32 {
        unimplemented!()
    }

    fn second(&self) -> u32 {
        unimplemented!()
    }

    fn nanosecond(&self) -> u32 {
        unimplemented!()
    }
}

impl<Zone> Datelike for DateTime<Zone> {}
impl<Zone> Timelike for DateTime<Zone> {}
