//! The report program: the exact bytes that it prints for an input.

use crate::paper::{colours, number, place, Description, Kind, REPORT_BYTES, REPORT_PLACES};
use crate::reading;

/// What is printed for all the bytes of standard input. Every line ends with a newline.
pub fn report(input: &[u8]) -> Vec<u8> {
    // "for 30 the line is 0"
    if input.len() > REPORT_BYTES {
        return refusal(number::INPUT_TOO_LONG, 0);
    }
    let reading = reading::read(input, REPORT_PLACES);
    if reading.number != number::ACCEPTED {
        return refusal(reading.number, reading.line);
    }
    acceptance(&reading.description, input)
}

/// "A refusal prints one line: refused, number, line."
fn refusal(number: u32, line: u64) -> Vec<u8> {
    format!("refused\t{number}\t{line}\n").into_bytes()
}

/// "First line: kind, N, rows. Domain lines: colour, lower, upper in thousandths. With a
/// title the last line is title, yes, the text."
fn acceptance(description: &Description, input: &[u8]) -> Vec<u8> {
    let mut printed = first_line(description);
    let lower = colours(description, place::LOWER);
    let upper = colours(description, place::UPPER);
    for (c, colour) in ["red", "green", "blue"].into_iter().enumerate() {
        printed += &format!("domain\t{colour}\t{}\t{}\n", lower[c], upper[c]);
    }
    let mut printed = printed.into_bytes();
    match title(description, input) {
        Some(text) => printed.extend([b"title\tyes\t", text, b"\n"].concat()),
        None => printed.extend(b"title\tno\n"),
    }
    printed
}

fn first_line(description: &Description) -> String {
    let n = description[place::N];
    let (kind, rows) = match Kind::of_mark(description[place::KIND]) {
        Some(Kind::ThreeD) => ("3D", Kind::ThreeD.rows(n)),
        _ => ("1D", Kind::OneD.rows(n)),
    };
    format!("cube\t{kind}\t{n}\t{rows}\n")
}

/// The text of the title in the file, if there is a title.
pub fn title<'a>(description: &Description, input: &'a [u8]) -> Option<&'a [u8]> {
    let first = description[place::TITLE_PLACE] as usize;
    let length = description[place::TITLE_LENGTH] as usize;
    (description[place::TITLE] != 0).then(|| &input[first..first + length])
}
