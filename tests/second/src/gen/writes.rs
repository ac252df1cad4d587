//! Writes: samples with every count of digits, descriptions and tables that reading could not have
//! given, titles at the edges of what may be written, marks of any value, and outputs about as long
//! as the text.

use super::draws::Draws;
use super::files::some_sample;
use super::lookups::{broken, kept, Lent, EXTREMES};
use super::WriteCase;
use crate::paper::{place, Kind, GREATEST_SAMPLE, LONGEST_TITLE, SAMPLE_PLACES};
use crate::writing;

pub fn write(draws: &mut Draws) -> WriteCase {
    let mut lent = kept(draws);
    if draws.one_in(1000) {
        lengthen(&mut lent);
    }
    if !draws.one_in(4) {
        lent.table.fill_with(|| sample_of_some_digits(draws));
    }
    let made = broken(draws, &mut lent);
    mark(draws, &mut lent);
    let Lent { description, table } = lent;
    let title = some_title(draws);
    let text = writing::write(&description, &table, &title, usize::MAX).text;
    let out_len = some_out_len(draws, text.len(), table.len() / 3);
    WriteCase { description, table, title, out_len, made }
}

/// Makes a 1D table of the least N with five digits.
fn lengthen(lent: &mut Lent) {
    lent.description[place::KIND] = Kind::OneD.mark();
    lent.description[place::N] = 10_000;
    lent.table.resize(3 * 10_000, -1);
}

/// A sample at an edge, or one with any counts of digits before and after its point.
fn sample_of_some_digits(draws: &mut Draws) -> i64 {
    if draws.one_in(4) {
        return some_sample(draws, 2);
    }
    let fewer_in_front = 10i64.pow(draws.below(11) as u32);
    let fewer_behind = 10i64.pow(draws.below(SAMPLE_PLACES + 1) as u32);
    let size = draws.between(0, GREATEST_SAMPLE) / fewer_in_front;
    size / fewer_behind * fewer_behind * draws.pick(&[1, -1])
}

/// Marks a title or none, by any number that does; its place and length are whatever they are.
fn mark(draws: &mut Draws, lent: &mut Lent) {
    lent.description[place::TITLE] = match draws.below(6) {
        0 | 1 => 0,
        2 | 3 => 1,
        _ => draws.pick(&[-1, 2, 256, 1 << 32, i64::MIN, i64::MAX]),
    };
    if draws.one_in(2) {
        lent.description[place::TITLE_PLACE] = draws.pick(EXTREMES);
        lent.description[place::TITLE_LENGTH] = draws.pick(EXTREMES);
    }
}

/// A title about the greatest length or of any other, often with a byte that it may not have.
fn some_title(draws: &mut Draws) -> Vec<u8> {
    // the last two would pass if their length were cut to 16 bits
    const LONG: &[usize] = &[244, 255, 256, 300, 65_536, 65_536 + LONGEST_TITLE];
    let length = match draws.below(12) {
        0 => 0,
        1 => 1,
        2 => LONGEST_TITLE - 1,
        3 | 4 => LONGEST_TITLE,
        5 => LONGEST_TITLE + 1,
        6 => draws.pick(LONG),
        _ => draws.below(40),
    };
    let mut title = draws.printable(length, b"\"").into_bytes();
    if draws.one_in(4) {
        put_byte(draws, &mut title);
    }
    title
}

/// Puts one byte for another: a quote, one beside what is allowed, or any.
fn put_byte(draws: &mut Draws, title: &mut [u8]) {
    const BESIDE: &[u8] = b"\"\"\x1F\x7F\t\n\r\0\x80\xFF";
    if title.is_empty() {
        return;
    }
    let anywhere = draws.below(title.len());
    let at = draws.pick(&[0, title.len() - 1, anywhere]);
    title[at] = if draws.one_in(3) { draws.number() as u8 } else { draws.pick(BESIDE) };
}

/// As long as the text, a byte more or fewer, as long as any text with so many rows, or far from it.
fn some_out_len(draws: &mut Draws, text: usize, rows: usize) -> usize {
    match draws.below(10) {
        0 | 1 => text.saturating_sub(1),
        2 => text + 1,
        3 => writing::longest_text(rows),
        4 => 0,
        5 => draws.below(text + 1),
        6 => text + draws.below(1_000),
        _ => text,
    }
}
