//! %a by 01's words, over whole numbers: the judge where the original drops a zero or turns a carry into a digit, and
//! a check of the original elsewhere. It covers normal floats, and subnormal ones with a precision below 13.

use original::{ConversionSpecifier, ConversionType, NumericParam};

use crate::classes::Class;

pub struct HexFloat {
    pub text: String,
    /// The exception of the original that this float meets.
    pub class: Option<Class>,
}

const FRACTION_BITS: u32 = 52;
const FULL_DIGITS: usize = 13;

/// Whether this file tells of the float under the precision: not of NaN, infinity, zero, nor of `0x0.` with 13 digits.
pub fn covers(value: f64, precision: Option<usize>) -> bool {
    value.is_normal() || (value.is_subnormal() && precision.is_some_and(|p| p < FULL_DIGITS))
}

/// `0x1.`, fraction, `p`, exponent: without mark, capitals and padding.
pub fn unmarked(value: f64, precision: Option<usize>) -> HexFloat {
    let (mut significand, mut exponent) = normalised(value.to_bits());
    let precision = precision.map(|p| p.max(1));
    let digits = precision.map_or(FULL_DIGITS, |p| p.min(FULL_DIGITS));
    significand = round_to_even(significand, 4 * (FULL_DIGITS - digits) as u32);
    let carried = significand == 2 << (4 * digits);
    if carried {
        significand /= 2;
        exponent += 1;
    }
    let fraction = significand - (1 << (4 * digits));
    let mut shown = format!("{fraction:0digits$x}");
    let leading_zero = fraction != 0 && shown.starts_with('0');
    match precision {
        Some(p) => shown.extend((digits..p).map(|_| '0')),
        None => {
            let kept = shown.trim_end_matches('0').len().max(1);
            shown.truncate(kept);
        }
    }
    let class = if carried {
        Some(Class::Carry)
    } else if leading_zero {
        Some(Class::LeadingZero)
    } else {
        None
    };
    HexFloat { text: format!("0x1.{shown}p{exponent}"), class }
}

/// The significand with its leading 1 at bit 52, and its power of two.
fn normalised(bits: u64) -> (u64, i32) {
    let fraction = bits & ((1 << FRACTION_BITS) - 1);
    let exponent = (bits >> FRACTION_BITS & 0x7ff) as i32;
    if exponent == 0 {
        let shift = fraction.leading_zeros() - (63 - FRACTION_BITS);
        (fraction << shift, -1022 - shift as i32)
    } else {
        (1 << FRACTION_BITS | fraction, exponent - 1023)
    }
}

/// The value without its last `dropped` bits, to nearest, ties to even.
fn round_to_even(value: u64, dropped: u32) -> u64 {
    if dropped == 0 {
        return value;
    }
    let kept = value >> dropped;
    let rest = value & ((1 << dropped) - 1);
    let half = 1 << (dropped - 1);
    kept + u64::from(rest > half || (rest == half && kept % 2 == 1))
}

/// The mark, capitals and padding of a finite float.
pub fn padded(spec: &ConversionSpecifier, float: f64, unmarked: String) -> String {
    let mark = match () {
        () if float.is_sign_negative() => "-",
        () if spec.force_sign => "+",
        () if spec.space_sign => " ",
        () => "",
    };
    let width = match spec.width {
        NumericParam::Literal(width) => width as usize,
        NumericParam::FromArgument => 0,
    };
    let fill = width.saturating_sub(mark.len() + unmarked.len());
    let text = if spec.left_adj {
        format!("{mark}{unmarked}{}", " ".repeat(fill))
    } else if spec.zero_pad {
        format!("{mark}0x{}{}", "0".repeat(fill), &unmarked[2..])
    } else {
        format!("{}{mark}{unmarked}", " ".repeat(fill))
    };
    match spec.conversion_type {
        ConversionType::HexFloatUpper => text.to_ascii_uppercase(),
        _ => text,
    }
}

#[cfg(test)]
mod tests {
    use super::*;

    fn text(value: f64, precision: Option<usize>) -> String {
        unmarked(value, precision).text
    }

    #[test]
    fn cases_of_01() {
        assert_eq!(text(1.0, None), "0x1.0p0");
        assert_eq!(text(1.03125, None), "0x1.08p0");
        assert_eq!(text(1.96875, Some(1)), "0x1.0p1");
        assert_eq!(text(f64::from_bits(1), Some(1)), "0x1.0p-1074");
        assert_eq!(text(f64::MAX, Some(1)), "0x1.0p1024");
        assert_eq!(text(1.5, Some(15)), "0x1.800000000000000p0");
    }

    #[test]
    fn ties_go_to_even() {
        assert_eq!(text(1.0 + 0.5 / 16.0, Some(1)), "0x1.0p0");
        assert_eq!(text(1.0 + 1.5 / 16.0, Some(1)), "0x1.2p0");
        assert_eq!(text(1.0 + 2.5 / 16.0, Some(0)), "0x1.2p0");
    }
}
