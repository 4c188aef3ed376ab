//! Stand-in for bigdecimal: the names that format_string.rs uses. No decimal is ever formatted.

use std::fmt;

use num_bigint::{BigInt, Sign};

pub trait ToPrimitive {
    fn to_f32(&self) -> Option<f32>;
    fn to_f64(&self) -> Option<f64>;
}

#[derive(Debug, Clone)]
pub struct BigDecimal;

impl BigDecimal {
    pub fn from_bigint(_digits: BigInt, _scale: i64) -> Self {
        unimplemented!()
    }

    pub fn sign(&self) -> Sign {
        unimplemented!()
    }

    pub fn abs(&self) -> Self {
        unimplemented!()
    }

    pub fn round(&self, _digits: i64) -> Self {
        unimplemented!()
    }
}

impl ToPrimitive for BigDecimal {
    fn to_f32(&self) -> Option<f32> {
        unimplemented!()
    }

    fn to_f64(&self) -> Option<f64> {
        unimplemented!()
    }
}

impl fmt::Display for BigDecimal {
    fn fmt(&self, _f: &mut fmt::Formatter<'_>) -> fmt::Result {
        unimplemented!()
    }
}

pub mod num_bigint {
    use std::fmt;
    use std::str::FromStr;

    #[derive(Debug, Clone)]
    pub struct BigInt;

    #[derive(Debug, Clone, Copy, PartialEq, Eq)]
    pub enum Sign {
        Minus,
        Plus,
    }

    impl FromStr for BigInt {
        type Err = fmt::Error;

        fn from_str(_digits: &str) -> Result<Self, fmt::Error> {
            unimplemented!()
        }
    }
}
