//! The installed chrono, put by `run` in the place of its stand-in. `DateTime` is chrono's own, with the function
//! `from_timestamp`, which the original calls and release 0.4.23 does not have yet.

use std::ops::Deref;

use installed::TimeZone;
pub use installed::{Datelike, Timelike, Utc};

/// The release that dates come from.
pub const RELEASE: Option<&str> = Some(env!("CHRONO", "tools/compare/run sets CHRONO to the release of chrono"));

pub struct DateTime<Zone: TimeZone>(installed::DateTime<Zone>);

impl DateTime<Utc> {
    pub fn from_timestamp(seconds: i64, nanoseconds: u32) -> Option<Self> {
        Utc.timestamp_opt(seconds, nanoseconds).single().map(Self)
    }
}

impl<Zone: TimeZone> Deref for DateTime<Zone> {
    type Target = installed::DateTime<Zone>;

    fn deref(&self) -> &Self::Target {
        &self.0
    }
}
