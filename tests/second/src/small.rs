//! Makes a case on which two programs differ smaller, while they still differ.

use crate::gen::{CodesCase, FileCase, InverseCase, LookCase, PictureCase, WriteCase};
use crate::met::has_bounds;
use crate::paper::{place, Bits};
use crate::side::{Second, Side};
use crate::writing::write;

/// So often a table is tried with more zeros: of a large one not every place is.
const TABLE_TRIES: usize = 10_000;

/// Bytes without the lines, and then without the bytes, that the difference does not need.
pub fn fewer_bytes(file: &[u8], tries: usize, differs: impl Fn(&[u8]) -> bool) -> Vec<u8> {
    let mut lines: Vec<Vec<u8>> = file.split(|byte| *byte == b'\n').map(<[u8]>::to_vec).collect();
    // One domain line cannot be left out without the other.
    let unbounded: Vec<Vec<u8>> = lines.iter().filter(|line| !has_bounds(line)).cloned().collect();
    if differs(&unbounded.join(&b'\n')) {
        lines = unbounded;
    }
    let lines = fewer(lines, tries, |lines| differs(&lines.join(&b'\n')));
    fewer(lines.join(&b'\n'), tries, differs)
}

/// A file without the lines, bytes and table places that the difference does not need.
/// Long files are tried fewer times.
pub fn smaller_file(case: &FileCase, differs: impl Fn(&FileCase) -> bool) -> FileCase {
    let tries = 200 + 20_000_000 / (case.file.len() + 1);
    let with_file = |file: Vec<u8>| FileCase { file, ..case.clone() };
    let bytes = fewer_bytes(&case.file, tries, |bytes| differs(&with_file(bytes.to_vec())));
    let case = with_file(bytes);
    let with_places = |table_len: usize| FileCase { table_len, ..case.clone() };
    let places = (0..case.table_len.min(100)).find(|few| differs(&with_places(*few)));
    with_places(places.unwrap_or(case.table_len))
}

/// A look at one depth, if the difference allows, with a table of as many zeros as it allows.
pub fn smaller_look(case: &LookCase, differs: impl Fn(&LookCase) -> bool) -> LookCase {
    let with_bits = |bits: Bits| LookCase { bits, ..case.clone() };
    let case = with_bits(fewer_depths(case.bits, |bits| differs(&with_bits(bits))));
    let with_table = |table: Vec<i64>| LookCase { table, ..case.clone() };
    with_table(with_zeros(&case.table, TABLE_TRIES, |table| differs(&with_table(table.to_vec()))))
}

/// A picture at one depth, if the difference allows, without the pixels that it does not need,
/// and with zeros for codes and in its table. The output keeps as many places more or fewer than the
/// source as it had. Long pictures are tried fewer times.
pub fn smaller_picture(case: &PictureCase, side: &dyn Side) -> PictureCase {
    let differs = |case: &PictureCase| side.picture(case) != Second.picture(case);
    let with_bits = |bits: Bits| PictureCase { bits, ..case.clone() };
    let case = with_bits(fewer_depths(case.bits, |bits| differs(&with_bits(bits))));
    let with_pixels = |pixels: &[Vec<u16>]| {
        let source = pixels.concat();
        let output_len = (case.output_len + source.len()).saturating_sub(case.source.len());
        PictureCase { source, output_len, ..case.clone() }
    };
    let pixels: Vec<Vec<u16>> = case.source.chunks(3).map(<[u16]>::to_vec).collect();
    let tries = 200 + 100_000 / (pixels.len() + 1);
    let case = with_pixels(&fewer(pixels, tries, |pixels| differs(&with_pixels(pixels))));
    let tries = 200 + 1_000_000 / (case.source.len() + 1);
    let with_source = |source: &[u16]| PictureCase { source: source.to_vec(), ..case.clone() };
    let zeros = with_zeros(&case.source, tries, |source| differs(&with_source(source)));
    let case = with_source(&zeros);
    let with_table = |table: &[i64]| PictureCase { table: table.to_vec(), ..case.clone() };
    with_table(&with_zeros(&case.table, tries, |table| differs(&with_table(table))))
}

/// Rows and weights at one depth, if the difference allows, with zeros in their table and in the
/// places that 3D does not use.
pub fn smaller_codes(case: &CodesCase, differs: impl Fn(&CodesCase) -> bool) -> CodesCase {
    let with_bits = |bits: Bits| CodesCase { bits, ..case.clone() };
    let mut case = with_bits(fewer_depths(case.bits, |bits| differs(&with_bits(bits))));
    for at in 4..6 {
        let mut plain = case.clone();
        (plain.rows[at], plain.weights[at]) = (0, 0);
        if differs(&plain) {
            case = plain;
        }
    }
    let with_table = |table: Vec<i64>| CodesCase { table, ..case.clone() };
    with_table(with_zeros(&case.table, TABLE_TRIES, |table| differs(&with_table(table.to_vec()))))
}

/// An inverse at one depth, if the difference allows, with a tolerance of 0 or of one code, and with
/// zeros in its table.
pub fn smaller_inverse(case: &InverseCase, differs: impl Fn(&InverseCase) -> bool) -> InverseCase {
    let with_bits = |bits: Bits| InverseCase { bits, ..case.clone() };
    let mut case = with_bits(fewer_depths(case.bits, |bits| differs(&with_bits(bits))));
    for tolerance in [1, 0] {
        let mut less = case.clone();
        less.aim.tolerance = tolerance;
        if differs(&less) {
            case = less;
        }
    }
    let with_table = |table: Vec<i64>| InverseCase { table, ..case.clone() };
    with_table(with_zeros(&case.table, TABLE_TRIES, |table| differs(&with_table(table.to_vec()))))
}

/// A write of a 1D table of two rows, if the difference allows, with the title's bytes and the
/// samples that it needs. The output keeps as many bytes more or fewer than the text as it had.
pub fn smaller_write(case: &WriteCase, differs: impl Fn(&WriteCase) -> bool) -> WriteCase {
    let mut description = case.description;
    description[..=place::N].copy_from_slice(&[1, 2]);
    let table = case.table.iter().copied().take(6).collect();
    let two_rows = with_room(case, WriteCase { description, table, ..case.clone() });
    let case = if differs(&two_rows) { &two_rows } else { case };
    let with_title =
        |title: &[u8]| with_room(case, WriteCase { title: title.to_vec(), ..case.clone() });
    let title = fewer(case.title.clone(), 1_000, |title| differs(&with_title(title)));
    let case = &with_title(&title);
    let with_table =
        |table: &[i64]| with_room(case, WriteCase { table: table.to_vec(), ..case.clone() });
    with_table(&with_zeros(&case.table, TABLE_TRIES, |table| differs(&with_table(table))))
}

/// A changed case with as much room more or less than its text as there was.
fn with_room(before: &WriteCase, after: WriteCase) -> WriteCase {
    let length = |case: &WriteCase| {
        write(&case.description, &case.table, &case.title, usize::MAX).text.len()
    };
    let out_len = (before.out_len + length(&after)).saturating_sub(length(before));
    WriteCase { out_len, ..after }
}

/// One depth for both, if what is left still differs.
fn fewer_depths(bits: Bits, differs: impl Fn(Bits) -> bool) -> Bits {
    let one = [bits.raw, bits.corrected].map(Bits::same).into_iter().find(|one| differs(*one));
    one.unwrap_or(bits)
}

/// Leaves out runs of a list, long ones first, as long as what is left still differs and
/// tries are left.
fn fewer<T: Clone>(mut list: Vec<T>, tries: usize, differs: impl Fn(&[T]) -> bool) -> Vec<T> {
    let (mut run, mut at) = (list.len(), 0);
    for _ in 0..tries {
        if at >= list.len() {
            (run, at) = (run / 2, 0);
        }
        if run == 0 {
            break;
        }
        let mut left = list.clone();
        left.drain(at..(at + run).min(list.len()));
        if differs(&left) {
            list = left;
        } else {
            at += run;
        }
    }
    list
}

/// Sets runs of a table or of other numbers to 0, long ones first, as long as the difference stays
/// and tries are left.
fn with_zeros<T: Copy + Default + PartialEq>(
    numbers: &[T],
    mut tries: usize,
    differs: impl Fn(&[T]) -> bool,
) -> Vec<T> {
    let mut numbers = numbers.to_vec();
    let mut run = numbers.len();
    while run > 0 && tries > 0 {
        for start in (0..numbers.len()).step_by(run) {
            let places = start..(start + run).min(numbers.len());
            if tries == 0 || numbers[places.clone()].iter().all(|one| *one == T::default()) {
                continue;
            }
            tries -= 1;
            let mut zeros = numbers.clone();
            zeros[places].fill(T::default());
            if differs(&zeros) {
                numbers = zeros;
            }
        }
        run /= 2;
    }
    numbers
}
