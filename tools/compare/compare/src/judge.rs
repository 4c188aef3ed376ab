//! One case through the library, against what is expected of it.

use crate::classes::Class;
use crate::expect::{Accepted, Expectation, PieceText, Refusal};
use crate::generate::{Case, Room};
use crate::library::{Checked, Library, Printed};

#[derive(Debug, Clone, PartialEq)]
pub struct Difference {
    pub what: &'static str,
    /// The numbers expected and answered, 0 for none: a smaller case must show the same.
    pub numbers: (u64, u64),
    pub expected: String,
    pub answered: String,
}

/// What memory held before the call.
const FILLER: u8 = 0xa5;
/// Output lent where the text is too long to be printed for a comparison.
const SMALL_OUTPUT: usize = 64;

/// Bytes that stand in memory before others that look like a format's.
struct Followed(Vec<u8>, usize);

impl Followed {
    fn new(bytes: &[u8]) -> Self {
        Self([bytes, b"7$9d%s"].concat(), bytes.len())
    }

    fn lent(&self) -> &[u8] {
        &self.0[..self.1]
    }
}

#[derive(Clone, Copy)]
struct Input<'a> {
    format: &'a [u8],
    row: &'a [u8],
}

/// Compares checking, measuring and printing; adds the class of a room that is too short.
pub fn judge(library: &dyn Library, case: &Case, expectation: &mut Expectation) -> Result<(), Difference> {
    let (format, row) = (Followed::new(&case.format), Followed::new(&case.row.pack()));
    let input = Input { format: format.lent(), row: row.lent() };
    let checked = library.check(input.format, Followed::new(&case.row.kinds()).lent());
    judge_check(&expectation.answer, checked)?;
    let measured = library.measure(input.format, input.row);
    let texts = match &expectation.answer {
        Ok(Accepted { printed: Ok(texts), .. }) => texts,
        Ok(Accepted { printed: Err(refusal), .. }) | Err(refusal) => {
            judge_refusal("measuring", *refusal, measured)?;
            return judge_refused_print(library, input, *refusal);
        }
    };
    if texts.contains(&PieceText::Unknown) {
        return judge_unknown(library, input, texts, measured);
    }
    let length = texts.iter().map(PieceText::length).sum();
    let expected = Printed { number: 0, place: 0, length, pieces: texts.len() as u64 };
    if (measured.number, measured.length, measured.pieces) != (0, length, expected.pieces) {
        return differ("measuring", (0, measured.number), expected, measured);
    }
    let lent = Lent::new(case.room, texts);
    if !lent.fits {
        expectation.classes.push(Class::ShortRoom);
    }
    judge_print(library, input, texts, measured, &lent)
}

fn differ<T>(
    what: &'static str,
    numbers: (u64, u64),
    expected: impl std::fmt::Debug,
    answered: impl std::fmt::Debug,
) -> Result<T, Difference> {
    let (expected, answered) = (shorten(format!("{expected:?}")), shorten(format!("{answered:?}")));
    Err(Difference { what, numbers, expected, answered })
}

/// At most 600 bytes of a message.
pub fn shorten(mut shown: String) -> String {
    const LONGEST: usize = 600;
    if shown.len() > LONGEST {
        let end = (0..LONGEST).rev().find(|&end| shown.is_char_boundary(end)).unwrap_or(0);
        let length = shown.len();
        shown.truncate(end);
        shown.push_str(&format!(" ... ({length} bytes)"));
    }
    shown
}

fn judge_check(expected: &Result<Accepted, Refusal>, checked: Checked) -> Result<(), Difference> {
    match expected {
        Ok(a) if (checked.number, checked.pieces, checked.largest) == (0, a.pieces, a.largest) => Ok(()),
        Ok(a) => {
            let expected = Checked { number: 0, place: 0, pieces: a.pieces, largest: a.largest };
            differ("checking", (0, checked.number), expected, checked)
        }
        Err(refusal) => {
            let refusal = in_checking(*refusal);
            if (checked.number, checked.place) == (refusal.number, refusal.place) {
                return Ok(());
            }
            differ("checking", (refusal.number, checked.number), refusal, checked)
        }
    }
}

/// Checking is given no row: a kind byte that breaks the layout is there a kind that does not exist.
fn in_checking(refusal: Refusal) -> Refusal {
    if refusal.number == 14 { Refusal { number: 3, place: 0 } } else { refusal }
}

/// The longest text of a date, that of %tc.
const LONGEST_DATE: u64 = 28;

/// Dates whose texts are not known: that they are printed, how many pieces there are, the length as far as it is known,
/// and that printing says what measuring said.
fn judge_unknown(
    library: &dyn Library,
    input: Input,
    texts: &[PieceText],
    measured: Printed,
) -> Result<(), Difference> {
    let unknown = texts.iter().filter(|text| **text == PieceText::Unknown).count() as u64;
    let known: u64 = texts.iter().map(PieceText::length).sum();
    let lengths = known..=known + unknown * LONGEST_DATE;
    if (measured.number, measured.pieces) != (0, texts.len() as u64) || !lengths.contains(&measured.length) {
        let expected = format!("{} pieces, length in {lengths:?}", texts.len());
        return differ("measuring", (0, measured.number), expected, measured);
    }
    if texts.iter().any(|text| matches!(text, PieceText::Length(_))) {
        return Ok(());
    }
    let mut output = vec![FILLER; measured.length as usize];
    let mut ends = vec![FILLER; 4 * texts.len()];
    let printed = library.print(input.format, input.row, &mut output, &mut ends);
    if (printed.number, printed.length, printed.pieces) != (0, measured.length, measured.pieces) {
        return differ("printing", (0, printed.number), measured, printed);
    }
    Ok(())
}

fn judge_refusal(what: &'static str, expected: Refusal, answered: Printed) -> Result<(), Difference> {
    if (answered.number, answered.place) == (expected.number, expected.place) {
        return Ok(());
    }
    differ(what, (expected.number, answered.number), expected, answered)
}

fn judge_refused_print(library: &dyn Library, input: Input, refusal: Refusal) -> Result<(), Difference> {
    let (mut output, mut ends) = ([FILLER; SMALL_OUTPUT], [FILLER; SMALL_OUTPUT]);
    let printed = library.print(input.format, input.row, &mut output, &mut ends);
    judge_refusal("printing", refusal, printed)?;
    judge_untouched("output of a refusal", &output)?;
    judge_untouched("ends of a refusal", &ends)
}

fn judge_untouched(what: &'static str, bytes: &[u8]) -> Result<(), Difference> {
    match bytes.iter().position(|&b| b != FILLER) {
        None => Ok(()),
        Some(at) => differ(what, (0, 0), "unchanged", format!("byte {at} of {} is {:#04x}", bytes.len(), bytes[at])),
    }
}

/// The sizes of output and ends, in bytes, and whether text and ends fit into them.
struct Lent {
    output: usize,
    ends: usize,
    fits: bool,
}

impl Lent {
    fn new(room: Room, texts: &[PieceText]) -> Self {
        let pieces = texts.len();
        if texts.iter().any(|text| matches!(text, PieceText::Length(_))) {
            return Self { output: SMALL_OUTPUT, ends: 4 * pieces, fits: false };
        }
        let length = texts.iter().map(PieceText::length).sum::<u64>() as usize;
        match room {
            Room::Spare { output, ends, bytes } => {
                Self { output: length + output, ends: 4 * (pieces + ends) + bytes, fits: true }
            }
            Room::ShortOutput if length > 0 => Self { output: length - 1, ends: 4 * pieces, fits: false },
            Room::ShortEnds if pieces > 0 => Self { output: length, ends: 4 * (pieces - 1) + 3, fits: false },
            Room::ShortOutput | Room::ShortEnds => Self { output: length, ends: 4 * pieces, fits: true },
        }
    }
}

fn judge_print(
    library: &dyn Library,
    input: Input,
    texts: &[PieceText],
    measured: Printed,
    lent: &Lent,
) -> Result<(), Difference> {
    let mut output = vec![FILLER; lent.output];
    let mut ends = vec![FILLER; lent.ends];
    let printed = library.print(input.format, input.row, &mut output, &mut ends);
    if !lent.fits {
        judge_refusal("printing into little room", Refusal { number: 17, place: 0 }, printed)?;
        judge_untouched("output of a refusal", &output)?;
        return judge_untouched("ends of a refusal", &ends);
    }
    if (printed.number, printed.length, printed.pieces) != (0, measured.length, measured.pieces) {
        return differ("printing", (0, printed.number), measured, printed);
    }
    judge_pieces(&output, &ends, texts)?;
    judge_untouched("output past the text", &output[measured.length as usize..])?;
    judge_untouched("ends past the last piece", &ends[4 * texts.len()..])
}

/// The ends as returned cut the output into the pieces' texts.
fn judge_pieces(output: &[u8], ends: &[u8], texts: &[PieceText]) -> Result<(), Difference> {
    let mut start = 0;
    for (text, end) in texts.iter().zip(ends.chunks_exact(4)) {
        let PieceText::Text(text) = text else { continue };
        let end = u32::from_le_bytes(end.try_into().expect("4 bytes")) as usize;
        if end != start + text.len() {
            return differ("an end", (0, 0), start + text.len(), end);
        }
        if output[start..end] != *text.as_bytes() {
            return differ("a piece's text", (0, 0), text, String::from_utf8_lossy(&output[start..end]));
        }
        start = end;
    }
    Ok(())
}

#[cfg(test)]
mod tests {
    use super::*;
    use crate::expect::expect;
    use crate::generate;
    use crate::prng::Prng;

    /// Answers what is expected of one case, with at most one fault.
    struct Mirror<'a> {
        answer: &'a Result<Accepted, Refusal>,
        fault: Fault,
    }

    #[derive(Clone, Copy, PartialEq)]
    enum Fault {
        None,
        Number,
        Largest,
        Length,
        Text,
        End,
        Spill,
    }

    impl Mirror<'_> {
        fn texts(&self) -> Result<&Vec<PieceText>, Refusal> {
            match self.answer {
                Ok(Accepted { printed, .. }) => printed.as_ref().map_err(|refusal| *refusal),
                Err(refusal) => Err(*refusal),
            }
        }

        fn refuse(&self, refusal: Refusal) -> Printed {
            let wrong = u64::from(self.fault == Fault::Number);
            Printed { number: refusal.number + wrong, place: refusal.place, length: 0, pieces: 0 }
        }
    }

    impl Library for Mirror<'_> {
        fn check(&self, _format: &[u8], _kinds: &[u8]) -> Checked {
            let wrong = u64::from(self.fault == Fault::Largest);
            match self.answer {
                Ok(a) => Checked { number: 0, place: 0, pieces: a.pieces, largest: a.largest + wrong },
                Err(r) => {
                    let r = in_checking(*r);
                    Checked { number: r.number, place: r.place, pieces: 0, largest: 0 }
                }
            }
        }

        fn measure(&self, _format: &[u8], _row: &[u8]) -> Printed {
            let wrong = u64::from(self.fault == Fault::Length);
            match self.texts() {
                Err(refusal) => self.refuse(refusal),
                Ok(texts) => {
                    let length = texts.iter().map(PieceText::length).sum::<u64>() + wrong;
                    Printed { number: 0, place: 0, length, pieces: texts.len() as u64 }
                }
            }
        }

        fn print(&self, _format: &[u8], _row: &[u8], output: &mut [u8], ends: &mut [u8]) -> Printed {
            let texts = match self.texts() {
                Err(refusal) => return self.refuse(refusal),
                Ok(texts) => texts,
            };
            let length: u64 = texts.iter().map(PieceText::length).sum();
            if length > output.len() as u64 || texts.len() > ends.len() / 4 {
                return self.refuse(Refusal { number: 17, place: 0 });
            }
            let mut at = 0;
            for (text, end) in texts.iter().zip(ends.chunks_exact_mut(4)) {
                let text = if let PieceText::Text(text) = text { text.as_str() } else { "" };
                output[at..at + text.len()].copy_from_slice(text.as_bytes());
                at += text.len();
                end.copy_from_slice(&(at as u32 + u32::from(self.fault == Fault::End)).to_le_bytes());
            }
            if self.fault == Fault::Text && at > 0 {
                output[at - 1] ^= 1;
            }
            if self.fault == Fault::Spill && at < output.len() {
                output[at] = 0;
            }
            Printed { number: 0, place: 0, length, pieces: texts.len() as u64 }
        }
    }

    fn differences(fault: Fault) -> usize {
        let mut prng = Prng::new(11);
        let mut count = 0;
        for _ in 0..400 {
            let case = generate::case(&mut prng, generate::Dates::Some);
            let mut expectation = expect(&case).expect("the rules of this tool hold");
            let answer = expectation.answer.clone();
            count += usize::from(judge(&Mirror { answer: &answer, fault }, &case, &mut expectation).is_err());
        }
        count
    }

    #[test]
    fn a_true_library_passes() {
        assert_eq!(differences(Fault::None), 0);
    }

    #[test]
    fn each_fault_is_found() {
        for fault in [Fault::Number, Fault::Largest, Fault::Length, Fault::Text, Fault::End, Fault::Spill] {
            assert!(differences(fault) > 50);
        }
    }
}
