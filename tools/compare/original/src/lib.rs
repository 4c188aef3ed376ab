//! format_string.rs of datafusion-spark 55.2.0, compiled as it is; build.rs copies it at build time.
#![allow(warnings, clippy::all)]

include!(concat!(env!("OUT_DIR"), "/format_string.rs"));
