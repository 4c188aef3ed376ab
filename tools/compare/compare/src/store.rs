//! A sample of the original's answers, for replay. One record after another, numbers little-endian: format length (2
//! bytes), format, row length (2), row; then 2, text length (2), text, piece count (2), one end of 4 bytes for each
//! piece; or 3, number (1), place (2), where the original refuses.

use std::io::{self, Write};

use crate::expect::{Accepted, Expectation, PieceText, Refusal};
use crate::generate::Case;

const LONGEST_TEXT: usize = 2_000;
const LONGEST_ROW: usize = 1_000;
/// What a record of printing begins its answer with.
const PRINTED: u8 = 2;
const REFUSED: u8 = 3;

/// Writes the case where the original alone gives its answer and the sizes are small; tells whether it did.
pub fn store(file: &mut impl Write, case: &Case, expectation: &Expectation) -> io::Result<bool> {
    let row = case.row.pack();
    if !expectation.classes.is_empty() || row.len() > LONGEST_ROW {
        return Ok(false);
    }
    let Some(answer) = stored_answer(expectation) else { return Ok(false) };
    write_counted(file, &case.format)?;
    write_counted(file, &row)?;
    file.write_all(&answer)?;
    Ok(true)
}

fn stored_answer(expectation: &Expectation) -> Option<Vec<u8>> {
    let texts = match &expectation.answer {
        Ok(Accepted { printed: Ok(texts), .. }) => texts,
        Ok(Accepted { printed: Err(refusal), .. }) | Err(refusal) => return Some(stored_refusal(refusal)),
    };
    let mut joined = Vec::new();
    let mut ends = Vec::new();
    for text in texts {
        let PieceText::Text(text) = text else { return None };
        joined.extend(text.as_bytes());
        ends.extend((joined.len() as u32).to_le_bytes());
    }
    if joined.len() > LONGEST_TEXT {
        return None;
    }
    let mut answer = vec![PRINTED];
    write_counted(&mut answer, &joined).expect("a Vec");
    answer.extend((texts.len() as u16).to_le_bytes());
    answer.extend(ends);
    Some(answer)
}

fn stored_refusal(refusal: &Refusal) -> Vec<u8> {
    let mut answer = vec![REFUSED, refusal.number as u8];
    answer.extend((refusal.place as u16).to_le_bytes());
    answer
}

fn write_counted(file: &mut impl Write, bytes: &[u8]) -> io::Result<()> {
    file.write_all(&(bytes.len() as u16).to_le_bytes())?;
    file.write_all(bytes)
}
