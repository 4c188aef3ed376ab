//! Stand-in for datafusion_common: errors with their message, and the values that format_string.rs names. The comparison
//! makes Boolean, Int8 to Int64, Float64, Utf8 and TimestampNanosecond values only.

use std::fmt;
use std::sync::Arc;

use arrow::array::ArrayRef;
use bigdecimal::ToPrimitive;

#[derive(Debug)]
pub enum DataFusionError {
    Execution(String),
    Internal(String),
    Plan(String),
}

pub type Result<T, E = DataFusionError> = std::result::Result<T, E>;

impl fmt::Display for DataFusionError {
    fn fmt(&self, f: &mut fmt::Formatter<'_>) -> fmt::Result {
        match self {
            Self::Execution(message) | Self::Internal(message) | Self::Plan(message) => f.write_str(message),
        }
    }
}

impl std::error::Error for DataFusionError {}

impl From<fmt::Error> for DataFusionError {
    fn from(error: fmt::Error) -> Self {
        Self::Execution(error.to_string())
    }
}

#[macro_export]
macro_rules! exec_datafusion_err {
    ($($part:tt)*) => { $crate::DataFusionError::Execution(format!($($part)*)) };
}

#[macro_export]
macro_rules! exec_err {
    ($($part:tt)*) => { Err($crate::DataFusionError::Execution(format!($($part)*))) };
}

#[macro_export]
macro_rules! plan_err {
    ($($part:tt)*) => { Err($crate::DataFusionError::Plan(format!($($part)*))) };
}

#[macro_export]
macro_rules! internal_err {
    ($($part:tt)*) => { Err($crate::DataFusionError::Internal(format!($($part)*))) };
}

/// 16-bit floats are never made.
#[derive(Debug, Clone, PartialEq)]
pub enum Half {}

impl ToPrimitive for Half {
    fn to_f32(&self) -> Option<f32> {
        match *self {}
    }

    fn to_f64(&self) -> Option<f64> {
        match *self {}
    }
}

type Zone = Option<Arc<str>>;

#[derive(Debug, Clone, PartialEq)]
pub enum ScalarValue {
    Null,
    Boolean(Option<bool>),
    Int8(Option<i8>),
    Int16(Option<i16>),
    Int32(Option<i32>),
    Int64(Option<i64>),
    UInt8(Option<u8>),
    UInt16(Option<u16>),
    UInt32(Option<u32>),
    UInt64(Option<u64>),
    Float16(Option<Half>),
    Float32(Option<f32>),
    Float64(Option<f64>),
    Decimal128(Option<i128>, u8, i8),
    Decimal256(Option<i128>, u8, i8),
    Utf8(Option<String>),
    LargeUtf8(Option<String>),
    Utf8View(Option<String>),
    Date32(Option<i32>),
    Date64(Option<i64>),
    Time32Second(Option<i32>),
    Time32Millisecond(Option<i32>),
    Time64Microsecond(Option<i64>),
    Time64Nanosecond(Option<i64>),
    TimestampSecond(Option<i64>, Zone),
    TimestampMillisecond(Option<i64>, Zone),
    TimestampMicrosecond(Option<i64>, Zone),
    TimestampNanosecond(Option<i64>, Zone),
}

impl ScalarValue {
    pub fn try_from_array(_array: &ArrayRef, _index: usize) -> Result<Self> {
        unimplemented!()
    }

    pub fn try_as_str(&self) -> Option<Option<&str>> {
        unimplemented!()
    }
}

impl fmt::Display for ScalarValue {
    fn fmt(&self, f: &mut fmt::Formatter<'_>) -> fmt::Result {
        write!(f, "{self:?}")
    }
}
