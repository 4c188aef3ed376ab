//! A case with its prediction, and what Java is asked for each piece of the text.

use std::error::Error;

use crate::bridge::Bridge;
use crate::case::Case;
use crate::classes::Prediction;
use crate::format::Piece;
use crate::java::{Answers, Java};

/// Text between elements none of whose texts has it: they need not be asked alone where the whole is to be the same, since wrong ends are seen.
pub const MARK: &str = "|";

pub struct Question {
    pub case: Case,
    pub told: Prediction,
    pub parts: Vec<Part>,
}

pub enum Part {
    Fixed(Vec<u8>),
    Asked(Bridge),
    /// An element between marks.
    Left,
}

impl Question {
    pub fn new(case: Case) -> Self {
        let told = Prediction::of(&case);
        let plain = told.pieces.len() < 2 && told.classes.is_empty();
        let marked = |piece: &Piece| matches!(piece, Piece::Fixed(text) if text == MARK.as_bytes());
        let asked = !told.classes.is_empty() || !told.pieces.iter().any(marked);
        let pieces = if told.here_refuses() || plain { &[] } else { &told.pieces[..] };
        let parts = pieces.iter().map(|piece| Part::of(piece, &case, asked)).collect();
        Question { case, told, parts }
    }

    pub fn requests(&self) -> impl Iterator<Item = String> {
        let asked = self.parts.iter().filter_map(|part| match part {
            Part::Fixed(_) | Part::Left => None,
            Part::Asked(bridge) => Some(bridge.request.clone()),
        });
        std::iter::once(self.case.request()).chain(asked)
    }
}

impl Part {
    fn of(piece: &Piece, case: &Case, asked: bool) -> Self {
        match piece {
            Piece::Fixed(text) => Part::Fixed(text.clone()),
            Piece::Element(element) if asked => {
                Part::Asked(Bridge::of(element, &case.values[element.argument.expect("accepted")]))
            }
            Piece::Element(_) => Part::Left,
            Piece::Fault => unreachable!("refused"),
        }
    }

    /// The text wanted of the library, if it is known apart from the whole.
    pub fn wanted(&self, answers: &mut Answers) -> Result<Option<Vec<u8>>, Box<dyn Error>> {
        Ok(match self {
            Part::Fixed(text) => Some(text.clone()),
            Part::Asked(bridge) => Some(match answers.next()? {
                Java::Text(text) => bridge.text(&text),
                Java::Refused(name) => format!("[{} refused, {name}]", bridge.request).into_bytes(),
            }),
            Part::Left => None,
        })
    }
}
