//! A sample of Java's answers, for replay. One record after another, numbers little-endian: format length (2 bytes), format, row length (2), row; then
//! 2, text length (2), text, piece count (2), one end of 4 bytes for each piece.

use std::fs::File;
use std::io::{self, BufWriter, Write};

use crate::case::Case;

/// What a record of printing begins its answer with.
const PRINTED: u8 = 2;

pub struct Store {
    file: BufWriter<File>,
    records: u64,
}

impl Store {
    pub fn create(name: &str) -> io::Result<Self> {
        Ok(Store { file: BufWriter::new(File::create(name)?), records: 0 })
    }

    /// A case with the text and the ends in which Java and the library agree.
    pub fn write(&mut self, case: &Case, text: &[u8], ends: &[usize]) -> io::Result<()> {
        self.write_counted(&case.format)?;
        self.write_counted(&case.row())?;
        self.file.write_all(&[PRINTED])?;
        self.write_counted(text)?;
        self.file.write_all(&(ends.len() as u16).to_le_bytes())?;
        for &end in ends {
            self.file.write_all(&(end as u32).to_le_bytes())?;
        }
        self.records += 1;
        Ok(())
    }

    fn write_counted(&mut self, bytes: &[u8]) -> io::Result<()> {
        self.file.write_all(&(bytes.len() as u16).to_le_bytes())?;
        self.file.write_all(bytes)
    }

    /// The number of records, all of them written.
    pub fn finish(&mut self) -> io::Result<u64> {
        self.file.flush()?;
        Ok(self.records)
    }
}
