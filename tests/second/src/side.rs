//! The eight calls as a comparison sees them: each side is given the same lent memory,
//! filled with the same pattern, and answers with all of it.

use crate::gen::{CodesCase, FileCase, InverseCase, LookCase, PictureCase, WriteCase};
use crate::halves::{codes, rows, Codes, Rows};
use crate::inverse::{inverse, Inverse};
use crate::look::{look, Look};
use crate::paper::Description;
use crate::picture::picture;
use crate::reading::{check, read_into, Check};
use crate::writing::write_into;

/// All that reading leaves behind.
#[derive(Clone, PartialEq, Eq, Debug)]
pub struct ReadAnswer {
    pub number: u32,
    pub line: u64,
    pub description: Description,
    pub table: Vec<i64>,
}

/// All that picture leaves behind.
#[derive(Clone, PartialEq, Eq, Debug)]
pub struct PictureAnswer {
    pub number: u32,
    pub output: Vec<u16>,
}

/// All that writing leaves behind.
#[derive(Clone, PartialEq, Eq, Debug)]
pub struct WriteAnswer {
    pub number: u32,
    pub length: u64,
    pub out: Vec<u8>,
}

/// A program that answers the eight calls. An error tells of memory changed that was not
/// lent, or lent for reading only.
pub trait Side {
    fn read(&self, case: &FileCase) -> Result<ReadAnswer, String>;
    fn check(&self, case: &FileCase) -> Result<Check, String>;
    fn look(&self, case: &LookCase) -> Result<Look, String>;
    fn picture(&self, case: &PictureCase) -> Result<PictureAnswer, String>;
    fn write(&self, case: &WriteCase) -> Result<WriteAnswer, String>;
    /// The first half of a look, which takes its raw depth alone.
    fn rows(&self, case: &LookCase) -> Result<Rows, String>;
    fn codes(&self, case: &CodesCase) -> Result<Codes, String>;
    fn inverse(&self, case: &InverseCase) -> Result<Inverse, String>;
}

/// What a lent table holds beforehand: no number that reading writes, each place its own.
pub fn pattern(place: usize) -> i64 {
    -0x5A5A_0000_0000_0000 + place as i64
}

/// What a lent output holds beforehand.
pub fn code_pattern(place: usize) -> u16 {
    0xA5C3u16.wrapping_add((place as u16).wrapping_mul(77))
}

/// What lent bytes hold beforehand: none that writing writes.
pub fn byte_pattern(place: usize) -> u8 {
    0x80 | (place as u8).wrapping_mul(37)
}

/// This program.
pub struct Second;

impl Side for Second {
    fn read(&self, case: &FileCase) -> Result<ReadAnswer, String> {
        let mut table: Vec<i64> = (0..case.table_len).map(pattern).collect();
        let reading = read_into(&case.file, &mut table);
        let (number, line, description) = (reading.number, reading.line, reading.description);
        Ok(ReadAnswer { number, line, description, table })
    }

    fn check(&self, case: &FileCase) -> Result<Check, String> {
        Ok(check(&case.file))
    }

    fn look(&self, case: &LookCase) -> Result<Look, String> {
        Ok(look(&case.description, &case.table, case.bits, case.pixel))
    }

    fn picture(&self, case: &PictureCase) -> Result<PictureAnswer, String> {
        let mut output: Vec<u16> = (0..case.output_len).map(code_pattern).collect();
        let number = picture(&case.description, &case.table, case.bits, &case.source, &mut output);
        Ok(PictureAnswer { number, output })
    }

    fn write(&self, case: &WriteCase) -> Result<WriteAnswer, String> {
        let mut out: Vec<u8> = (0..case.out_len).map(byte_pattern).collect();
        let writing = write_into(&case.description, &case.table, &case.title, &mut out);
        Ok(WriteAnswer { number: writing.number, length: writing.text.len() as u64, out })
    }

    fn rows(&self, case: &LookCase) -> Result<Rows, String> {
        Ok(rows(&case.description, &case.table, case.bits.raw, case.pixel))
    }

    fn codes(&self, case: &CodesCase) -> Result<Codes, String> {
        Ok(codes(&case.description, &case.table, case.bits, &case.rows, &case.weights))
    }

    fn inverse(&self, case: &InverseCase) -> Result<Inverse, String> {
        Ok(inverse(&case.description, &case.table, case.bits, case.aim))
    }
}
