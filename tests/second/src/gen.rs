//! Inputs made from a seed: files, looks, pictures, writes, rows and weights, and inverses.
//!
//! Each case is drawn from the seed, its call and its own number, so one case can
//! be made again without those before it.

pub mod damage;
pub mod draws;
pub mod files;
pub mod inverses;
pub mod lookups;
pub mod pictures;
pub mod plain;
pub mod shares;
pub mod words;
pub mod writes;

use crate::inverse::Aim;
use crate::paper::{Bits, Description, REPORT_BYTES, REPORT_PLACES};
use draws::Draws;

/// A file and the length of the table lent for it.
#[derive(Clone, Debug)]
pub struct FileCase {
    pub file: Vec<u8>,
    pub table_len: usize,
    /// How it was made, for people.
    pub made: Vec<&'static str>,
}

/// What look is given.
#[derive(Clone, Debug)]
pub struct LookCase {
    pub description: Description,
    pub table: Vec<i64>,
    pub bits: Bits,
    pub pixel: [u16; 3],
    pub made: Vec<&'static str>,
}

/// What picture is given, and the length of its output.
#[derive(Clone, Debug)]
pub struct PictureCase {
    pub description: Description,
    pub table: Vec<i64>,
    pub bits: Bits,
    pub source: Vec<u16>,
    pub output_len: usize,
    pub made: Vec<&'static str>,
}

/// What the second half of a look is given.
#[derive(Clone, Debug)]
pub struct CodesCase {
    pub description: Description,
    pub table: Vec<i64>,
    pub bits: Bits,
    pub rows: [u32; 6],
    pub weights: [i64; 6],
    pub made: Vec<&'static str>,
}

/// What the inverse is given.
#[derive(Clone, Debug)]
pub struct InverseCase {
    pub description: Description,
    pub table: Vec<i64>,
    pub bits: Bits,
    pub aim: Aim,
    pub made: Vec<&'static str>,
}

/// What write is given, and how many bytes are lent for the text.
#[derive(Clone, Debug)]
pub struct WriteCase {
    pub description: Description,
    pub table: Vec<i64>,
    pub title: Vec<u8>,
    pub out_len: usize,
    pub made: Vec<&'static str>,
}

pub fn file_case(seed: u64, index: u64) -> FileCase {
    files::case(&mut Draws::of(seed, 1, index))
}

pub fn look_case(seed: u64, index: u64) -> LookCase {
    lookups::look(&mut Draws::of(seed, 2, index))
}

pub fn picture_case(seed: u64, index: u64) -> PictureCase {
    pictures::picture(&mut Draws::of(seed, 3, index))
}

pub fn write_case(seed: u64, index: u64) -> WriteCase {
    writes::write(&mut Draws::of(seed, 5, index))
}

/// What the first half of a look is given, with the corrected depth of the look that it is a half
/// of.
pub fn rows_case(seed: u64, index: u64) -> LookCase {
    lookups::look(&mut Draws::of(seed, 6, index))
}

pub fn codes_case(seed: u64, index: u64) -> CodesCase {
    shares::codes(&mut Draws::of(seed, 7, index))
}

pub fn inverse_case(seed: u64, index: u64) -> InverseCase {
    inverses::inverse(&mut Draws::of(seed, 8, index))
}

/// A report's input: a file of any sort, or one about the report's limits of bytes or of
/// places.
pub fn report_input(seed: u64, index: u64) -> Vec<u8> {
    let mut draws = Draws::of(seed, 4, index);
    let mut file = files::case(&mut draws).file;
    match draws.below(20) {
        0 => {
            let length = REPORT_BYTES - 2 + draws.below(5);
            file.resize(length.max(file.len()), b'\n');
            file
        }
        1 => zeros_about_places(&mut draws),
        _ => file,
    }
}

/// Rows of zeros, so many that they need about as many places as the report has.
fn zeros_about_places(draws: &mut Draws) -> Vec<u8> {
    let most = REPORT_PLACES / 3;
    let (size, rows) = match draws.below(3) {
        0 => ("LUT_3D_SIZE 13".to_string(), 13 * 13 * 13),
        1 => ("LUT_3D_SIZE 14".to_string(), 14 * 14 * 14),
        _ => {
            let rows = most - 1 + draws.below(3);
            (format!("LUT_1D_SIZE {rows}"), rows)
        }
    };
    (size + "\n" + &"0 0 0\n".repeat(rows)).into_bytes()
}
