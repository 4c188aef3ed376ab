//! What is expected of a date: chrono's text, by the original, or 18.

use datafusion_common::ScalarValue;
use original::ConversionSpecifier;

use crate::classes::Class;
use crate::expect::{Outcome, PieceText, original_text};

pub const SECOND: i64 = 1_000_000_000;

/// Whether E1 refuses the timestamp under t and T.
fn is_refused(timestamp: i64) -> bool {
    timestamp < 0 && timestamp % SECOND != 0
}

/// The text of a t or T element, or 18. That the original refuses exactly what E1 refuses is checked on each timestamp.
pub fn text(
    spec: &ConversionSpecifier,
    timestamp: i64,
    scalar: &ScalarValue,
    met: &mut Vec<Class>,
) -> Result<Outcome, String> {
    let refused = is_refused(timestamp);
    if chrono::RELEASE.is_none() {
        met.push(Class::NoChrono);
        return Ok(if refused { Err(18) } else { Ok(PieceText::Unknown) });
    }
    let outcome = original_text(spec, scalar)?;
    if outcome.is_err() != refused {
        return Err(format!("the original's {outcome:?} of timestamp {timestamp} is not E1's"));
    }
    Ok(outcome)
}

/// 18 is E1's word alone where the original cannot be asked for dates.
pub fn class_of_refusal(number: u64) -> Option<Class> {
    (number == 18 && chrono::RELEASE.is_none()).then_some(Class::NoChrono)
}

#[cfg(test)]
mod tests {
    use super::*;
    use crate::row::{Row, Value};
    use original::Formatter;

    fn original_answer(format: &str, timestamp: Option<i64>) -> Result<String, String> {
        let row = Row { values: vec![Value::Timestamp(timestamp)], text: Vec::new() };
        let formatter = Formatter::parse(format, &row.data_types()).expect("accepted");
        formatter.format(&[row.scalar(0)]).map_err(|error| error.to_string())
    }

    /// What the original does where E1 leaves it, as README.md says.
    #[test]
    fn listed_differences() {
        assert_eq!(original_answer("%s", Some(-1)), Ok("-1".to_owned()));
        assert_eq!(original_answer("%.2tH", None), Ok("nu".to_owned()));
        assert!(original_answer("%h", Some(0)).is_err_and(|e| e.starts_with("Invalid conversion type: ")));
    }

    #[test]
    fn negative_fractions_are_errors_of_the_original() {
        if chrono::RELEASE.is_none() {
            return;
        }
        for timestamp in [-1, -999_999_999, -SECOND - 1, i64::MIN] {
            for format in ["%tH", "%TZ", "%ts"] {
                assert_eq!(original_answer(format, Some(timestamp)), Err(format!("Invalid timestamp: {timestamp}")));
            }
        }
        assert_eq!(original_answer("%ts", Some(-SECOND)), Ok("-1".to_owned()));
    }
}
