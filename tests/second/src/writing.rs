//! Writing: the bytes of a file from a description, a table and a title's bytes.
//!
//! Document 02, Req 02. No number is divided digit by digit: its units are printed as one whole
//! number, the point is put among the digits, and what need not be there is taken off.

use crate::look::Cube;
use crate::paper::{number, place, Description};
use crate::paper::{BOUND_PLACES, LONGEST_TITLE, SAMPLE_PLACES};
use crate::show::list;

/// The complete answer of writing. The text is what the output begins with afterwards, and the
/// answer's length is its length; a refusal has "length 0, nothing written".
#[derive(Clone, PartialEq, Eq, Debug)]
pub struct Writing {
    pub number: u32,
    pub text: Vec<u8>,
}

/// Writes for an output of so many bytes. "Refusals: 24; 27 [...]; 13 exactly if the output buffer
/// is shorter than the text; in that order".
pub fn write(description: &Description, table: &[i64], title: &[u8], out_len: usize) -> Writing {
    let Some(cube) = Cube::of(description, table) else {
        return refused(number::NOT_FROM_READING);
    };
    // "Without the mark the title's bytes are neither written nor judged."
    let title = is_marked(description).then_some(title);
    if title.is_some_and(|title| !is_plain(title)) {
        return refused(number::TITLE_NOT_PLAIN);
    }
    let text = text(&cube, title);
    if text.len() > out_len {
        return refused(number::TOO_LITTLE_ROOM);
    }
    Writing { number: number::ACCEPTED, text }
}

/// Writes into an output: "later bytes are kept".
pub fn write_into(
    description: &Description,
    table: &[i64],
    title: &[u8],
    out: &mut [u8],
) -> Writing {
    let writing = write(description, table, title, out.len());
    out[..writing.text.len()].copy_from_slice(&writing.text);
    writing
}

fn refused(number: u32) -> Writing {
    Writing { number, text: Vec::new() }
}

/// Whether "the description marks" a title.
pub fn is_marked(description: &Description) -> bool {
    description[place::TITLE] != 0
}

/// Not 27: "for a title over 242 bytes, with a quote, or with a byte not 0x20 to 0x7E".
pub fn is_plain(title: &[u8]) -> bool {
    title.len() <= LONGEST_TITLE
        && title.iter().all(|byte| *byte != b'"' && (0x20..=0x7E).contains(byte))
}

/// "Order: title if the description marks one, size, both domain lines, then the rows; one space
/// between words, one newline after each line, the last too."
fn text(cube: &Cube, title: Option<&[u8]>) -> Vec<u8> {
    let title = title.map(|title| format!("TITLE \"{}\"", String::from_utf8_lossy(title)));
    let mut lines: Vec<String> = title.into_iter().collect();
    lines.push(format!("{} {}", cube.kind.size_word(), cube.n));
    lines.push(format!("DOMAIN_MIN {}", numbers(&cube.lower, BOUND_PLACES)));
    lines.push(format!("DOMAIN_MAX {}", numbers(&cube.upper, BOUND_PLACES)));
    lines.extend(cube.samples.chunks_exact(3).map(|row| numbers(row, SAMPLE_PLACES)));
    (lines.join("\n") + "\n").into_bytes()
}

/// The bytes of the longest text with so many rows: a title line of 250 bytes, `LUT_1D_SIZE 65536`,
/// the domain lines with three words as `-9.999` each, and rows of three words as `-999.9999999`;
/// and a newline after each line.
pub fn longest_text(rows: usize) -> usize {
    (250 + 1) + (17 + 1) + 2 * (31 + 1) + rows * (38 + 1)
}

fn numbers(units: &[i64], places: usize) -> String {
    let words: Vec<String> = units.iter().map(|units| shortest(*units, places)).collect();
    list(&words, " ")
}

/// "the fewest characters without an exponent, with a 0 before the point", of so many units of ten
/// to the power of minus `places`.
pub fn shortest(units: i64, places: usize) -> String {
    // zeros in front, so that a digit is left before the point
    let digits = format!("{:0width$}", units.unsigned_abs(), width = places + 1);
    let (whole, fraction) = digits.split_at(digits.len() - places);
    let pointed = format!("{whole}.{fraction}");
    let size = pointed.trim_end_matches('0').trim_end_matches('.');
    let sign = if units < 0 { "-" } else { "" };
    format!("{sign}{size}")
}
