//! Cases from a seed: rows with values at their limits, formats from a grammar that fits them, and damage.

use crate::formats::format;
use crate::prng::Prng;
use crate::row::Row;
use crate::values::value;

/// The room lent for printing.
#[derive(Debug, Clone, Copy, PartialEq)]
pub enum Room {
    /// This many output bytes, whole ends and further end bytes (0 to 3) beyond what is needed.
    Spare { output: usize, ends: usize, bytes: usize },
    /// One output byte less than the text has.
    ShortOutput,
    /// One end less than there are pieces, and 3 bytes.
    ShortEnds,
}

#[derive(Debug, Clone, PartialEq)]
pub struct Case {
    pub format: Vec<u8>,
    pub row: Row,
    pub room: Room,
}

impl Case {
    pub fn show(&self) -> String {
        let format = match std::str::from_utf8(&self.format) {
            Ok(text) => format!("{text:?}"),
            Err(_) => format!("bytes {}", self.format.escape_ascii()),
        };
        format!("format {format}, row [{}], {:?}", self.row.show(), self.room)
    }
}

/// Which rows have timestamps.
#[derive(Debug, Clone, Copy, PartialEq)]
pub enum Dates {
    No,
    /// One row of three.
    Some,
    All,
}

/// A case; without dates the draws, and so the cases of a seed, are those from which the stored sample was taken.
pub fn case(prng: &mut Prng, dates: Dates) -> Case {
    let row = row(prng, dates);
    let mut format = format(prng, &row);
    if prng.chance(1, 8) {
        for _ in 0..prng.between(1, 3) {
            damage(prng, &mut format);
        }
    }
    Case { format, row, room: room(prng) }
}

fn room(prng: &mut Prng) -> Room {
    match prng.below(16) {
        0 => Room::ShortOutput,
        1 => Room::ShortEnds,
        2..8 => Room::Spare { output: 0, ends: 0, bytes: 0 },
        _ => Room::Spare { output: prng.below(40), ends: prng.below(4), bytes: prng.below(4) },
    }
}

fn row(prng: &mut Prng, dates: Dates) -> Row {
    let count = match prng.below(40) {
        0 => 0,
        1 => prng.between(9, 64),
        2..6 => prng.between(5, 8),
        _ => prng.between(1, 4),
    };
    let (dated, count) = match dates {
        Dates::No => (false, count),
        Dates::Some => (count > 0 && prng.chance(1, 3), count),
        Dates::All => (true, count.max(1)),
    };
    let date = if dated { prng.below(count) } else { count };
    let mut row = Row::default();
    for at in 0..count {
        let kind = if at == date || dated && prng.chance(1, 3) { 8 } else { prng.between(1, 7) as u8 };
        let value = value(prng, kind, &mut row.text);
        row.values.push(value);
    }
    if prng.chance(1, 500) {
        row.text.resize(32_768, 0xff);
    }
    row
}

const FORMAT_BYTES: &[u8] = b"%%%%<$0123456789.-+ ,(#bBhHsScCdoxXeEfgGaAtTn";

fn damage(prng: &mut Prng, format: &mut Vec<u8>) {
    let byte = if prng.chance(1, 20) { prng.next() as u8 } else { prng.pick(FORMAT_BYTES) };
    let place = prng.between(0, format.len());
    match prng.below(8) {
        0 => format.truncate(place),
        1..4 => format.insert(place, byte),
        4..6 if place < format.len() => format[place] = byte,
        _ if place < format.len() => {
            format.remove(place);
        }
        _ => format.push(byte),
    }
}

#[cfg(test)]
mod tests {
    use super::*;

    #[test]
    fn a_seed_gives_the_same_cases() {
        let draw = |seed| {
            (0..50).map(|_| 0).scan(Prng::new(seed), |prng, _| Some(case(prng, Dates::Some).show())).collect::<Vec<_>>()
        };
        assert_eq!(draw(7), draw(7));
        assert_ne!(draw(7), draw(8));
    }

    #[test]
    fn rows_keep_their_layout() {
        let mut prng = Prng::new(3);
        for _ in 0..2000 {
            let row = case(&mut prng, Dates::Some).row;
            assert!(row.values.len() <= 64 && row.text.len() <= 32_768);
            assert_eq!(row.pack().len(), 6 + 9 * row.values.len() + row.text.len());
            row.show(); // Reads every text value.
        }
    }
}
