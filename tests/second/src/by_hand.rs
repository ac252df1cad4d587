//! Document 01, "Checked by hand": every case, marked P or not; the order of the checks that
//! document 02 adds to; looks through its mixed domains, worked by hand; the files that it writes;
//! the halves of a look; and the inverse.

use crate::cases::{CUBE, SAMPLE_A2, SAMPLE_A3, SAMPLE_A4, SMALL};
use crate::decimal::{value, Value, TEN_MILLIONTHS, THOUSANDTHS};
use crate::halves::{codes, rows, Codes, Rows};
use crate::inverse::{inverse, Aim, Inverse};
use crate::look::{look, Look};
use crate::paper::{Bits, Description, BOUND_PLACES, REFUSED_DESCRIPTION, SAMPLE_PLACES};
use crate::picture::picture;
use crate::reading::{check, read, read_into};
use crate::report::report;
use crate::show::list;
use crate::writing::{longest_text, shortest, write, write_into, Writing};

/// The number for a file whose first sample is the word, and that sample if accepted.
fn first_sample(word: &str) -> Result<i64, u32> {
    let file = format!("LUT_1D_SIZE 2\n{word} 0 0\n0 0 0\n");
    let reading = read(file.as_bytes(), 6);
    match reading.number {
        0 => Ok(reading.samples[0]),
        refused => {
            assert_eq!(reading.line, 2);
            assert_eq!(reading.description, REFUSED_DESCRIPTION);
            assert!(reading.samples.is_empty());
            Err(refused)
        }
    }
}

#[test]
fn words() {
    let nines = "9".repeat(30);
    assert_eq!(first_sample("1e-7"), Ok(1));
    assert_eq!(first_sample("1e-8"), Err(17));
    assert_eq!(first_sample("0e999"), Ok(0));
    assert_eq!(first_sample("-.5"), Ok(-5_000_000));
    assert_eq!(first_sample("10000e-1"), Ok(10_000_000_000));
    assert_eq!(first_sample("1000.00000001"), Err(16));
    assert_eq!(first_sample(&format!("1e{nines}")), Err(16));
    assert_eq!(first_sample(&format!("1e-{nines}")), Err(17));
    // document 02, Req 01: "Document 01's number rule and its case 5. change: it is 5."
    assert_eq!(first_sample("5."), Ok(50_000_000));
    assert_eq!(first_sample("."), Err(15));
    assert_eq!(first_sample("+"), Err(15));
}

fn number_and_line(file: &str, places: usize) -> (u32, u64) {
    let reading = read(file.as_bytes(), places);
    (reading.number, reading.line)
}

/// Number and line for a first line before a table that keeps the rules.
fn with_first_line(first: &str) -> (u32, u64) {
    number_and_line(&format!("{first}\n{SMALL}"), 6)
}

#[test]
fn lines() {
    let comment = |length: usize| format!("#{}", "x".repeat(length - 1));
    assert_eq!(with_first_line(&comment(250)), (0, 0));
    assert_eq!(with_first_line(&comment(251)), (1, 1));
    assert_eq!(with_first_line(&(comment(250) + "\r")), (1, 1));
    assert_eq!(with_first_line(&comment(251).replacen('x', "\r", 1)), (1, 1));
    for length in 1..=249 {
        assert_eq!(with_first_line(&(comment(length) + "\r")), (2, 1));
    }
    assert_eq!(with_first_line("\r"), (2, 1));
    assert_eq!(with_first_line(" #"), (3, 1));
}

fn number_for(file: &str, places: usize) -> u32 {
    number_and_line(file, places).0
}

#[test]
fn sizes() {
    assert_eq!(number_for("LUT_1D_SIZE 1\n", 3), 7);
    assert_eq!(number_for("LUT_3D_SIZE 1\n", 3), 7);
    let whole = "LUT_1D_SIZE 65536\n".to_string() + &"0 0 0\n".repeat(65_536);
    assert_eq!(number_for(&whole, 3 * 65_536), 0);
    assert_eq!(number_for(&whole, 3 * 65_536 - 1), 13);
    assert_eq!(number_for("LUT_1D_SIZE 65537\n", 0), 7);
    assert_eq!(number_for("LUT_3D_SIZE 256\n", 0), 13);
    assert_eq!(number_for("LUT_3D_SIZE 257\n", 0), 7);
    assert_eq!(number_for("LUT_1D_SIZE +2\n", 6), 6);
    assert_eq!(number_for(CUBE, 24), 0);
    assert_eq!(number_for(CUBE, 23), 13);
    assert_eq!(number_and_line("", 0), (9, 1));
}

/// Document 02, Req 05: "after 9 and before 10", on the first data line and at the end of a file
/// with none. Behind each domain line stand the other's default and what the two are answered
/// where there is no place for a table.
#[test]
fn half_a_domain_before_10_to_13() {
    for (half, default, whole_number) in [
        ("DOMAIN_MIN -10 2 0", "DOMAIN_MAX 1 1 1", 10),
        ("DOMAIN_MAX 0 0 0", "DOMAIN_MIN 0 0 0", 10),
        ("DOMAIN_MIN -10 0 0", "DOMAIN_MAX 1 1 1", 11),
        ("DOMAIN_MAX 1 1.5 1", "DOMAIN_MIN 0 0 0", 12),
        ("DOMAIN_MAX 1 2 1", "DOMAIN_MIN 0 0 0", 13),
        ("DOMAIN_MIN -1 -1 -1", "DOMAIN_MAX 1 1 1", 13),
        ("DOMAIN_MIN 0 0 0", "DOMAIN_MAX 1 1 1", 13),
        ("DOMAIN_MAX 1 1 1", "DOMAIN_MIN 0 0 0", 13),
    ] {
        for rest in ["0 0 0\n1 1 1\n", "0 0 0", "0 x\n", ""] {
            let alone = format!("LUT_3D_SIZE 2\n{half}\n{rest}");
            assert_eq!(number_and_line(&alone, 0), (19, 3), "{alone}");
            assert_eq!(number_and_line(&alone, 24), (19, 3), "{alone}");
            assert_eq!(checked(&alone), (19, 3, 0), "{alone}");
            let whole = format!("LUT_3D_SIZE 2\n{half}\n{default}\n{rest}");
            assert_eq!(number_and_line(&whole, 0), (whole_number, 4), "{whole}");
            let without_size = format!("{half}\n{rest}");
            assert_eq!(number_and_line(&without_size, 0), (9, 2), "{without_size}");
        }
    }
}

/// A keyword line that is wrong decides before the first data line does, one after data does not.
#[test]
fn half_a_domain_among_other_lines() {
    let after_lower = |line: &str| format!("DOMAIN_MIN -1 -1 -1\n{line}\n{SMALL}");
    assert_eq!(number_and_line(&after_lower("DOMAIN_MIN 0 0 0"), 6), (5, 2));
    assert_eq!(number_and_line(&after_lower("DOMAIN_MAX 1 1"), 6), (6, 2));
    assert_eq!(number_and_line(&after_lower("DOMAIN_MAX 11 1 1"), 6), (8, 2));
    assert_eq!(number_and_line(&after_lower("# DOMAIN_MAX 1 1 1"), 6), (19, 4));
    assert_eq!(number_and_line(&(after_lower("") + "DOMAIN_MAX 1 1 1\n"), 6), (19, 4));
    let both = read(after_lower("DOMAIN_MAX 1 2 3").as_bytes(), 6);
    assert_eq!(both.description, [1, 2, -1000, -1000, -1000, 1000, 2000, 3000, 0, 0, 0]);
    let neither = read(SMALL.as_bytes(), 6);
    assert_eq!(neither.description, [1, 2, 0, 0, 0, 1000, 1000, 1000, 0, 0, 0]);
}

/// Document 02, Req 07: "12 only where domains differ and some bound isn't whole; 24 likewise."
/// Bounds in thousandths, and what a 3D file that writes them so is answered.
#[test]
fn domains_that_differ() {
    for (lower, upper, number) in [
        ([0, 0, 0], [2000, 1000, 1000], 0),
        ([0, 1000, 0], [1000, 2000, 1000], 0),
        ([-1000, -10_000, 9000], [1000, -1000, 10_000], 0),
        ([-10_000, -5000, 0], [0, 5000, 10_000], 0),
        // one domain, whole or not
        ([0; 3], [2000; 3], 0),
        ([250; 3], [750; 3], 0),
        ([-1; 3], [1000; 3], 0),
        // one bound of six, as near to a whole number as can be
        ([-1, 0, 0], [1000, 1000, 1000], 12),
        ([0, 0, 0], [1000, 1000, 1001], 12),
        ([0, 999, 0], [2000, 2000, 1000], 12),
        ([0, 0, 0], [2000, 9999, 1000], 12),
        // a bound that is another colour's too, and whole widths beside bounds that are not
        ([0, 0, 0], [1000, 1500, 1500], 12),
        ([500, 500, 0], [1000, 1000, 1000], 12),
        ([0, 500, 0], [1000, 1500, 1000], 12),
        // 10 and 11 go first
        ([0, 0, 500], [1000, 2000, 500], 10),
        ([-9001, 0, 0], [1000, 1000, 1000], 11),
    ] {
        expect_bounds(lower, upper, number);
    }
}

/// A file with these bounds is answered the number: in 3D on its first data line or at its end,
/// with 13 and 18 behind it; by a look it is 24, and in 1D there is no 12.
fn expect_bounds(lower: [i64; 3], upper: [i64; 3], number: u32) {
    let words = |bounds: [i64; 3]| list(&bounds.map(|bound| format!("{bound}e-3")), " ");
    let lines = format!("DOMAIN_MIN {}\nDOMAIN_MAX {}\n", words(lower), words(upper));
    let or = |otherwise: u32| if number == 0 { otherwise } else { number };
    let file = format!("{lines}{CUBE}");
    assert_eq!(number_and_line(&file, 24), (number, if number == 0 { 0 } else { 4 }), "{lines}");
    assert_eq!(number_and_line(&file, 23), (or(13), 4), "{lines}");
    assert_eq!(number_and_line(&format!("{lines}LUT_3D_SIZE 2"), 24), (or(18), 3), "{lines}");
    let looked = look(&domained(2, lower, upper), &[0; 24], Bits::same(8), [0; 3]);
    assert_eq!(looked.number, if number == 0 { 0 } else { 24 }, "{lines}");
    let in_1d = number_for(&format!("{lines}{SMALL}"), 6);
    assert_eq!(in_1d, if number == 12 { 0 } else { number }, "{lines}");
}

/// Judged with no table: number, line and places.
fn checked(file: &str) -> (u32, u64, u64) {
    let check = check(file.as_bytes());
    assert_eq!(check.description == REFUSED_DESCRIPTION, check.number != 0);
    (check.number, check.line, check.places)
}

#[test]
fn with_no_table() {
    assert_eq!(checked("LUT_1D_SIZE 65536\n"), (18, 2, 0));
    assert_eq!(checked("LUT_1D_SIZE 65537\n"), (7, 1, 0));
    assert_eq!(checked("LUT_3D_SIZE 256\n"), (18, 2, 0));
    assert_eq!(checked("LUT_3D_SIZE 257\n"), (7, 1, 0));
    assert_eq!(checked(""), (9, 1, 0));
    assert_eq!(checked("LUT_1D_SIZE 2\n0 0 0\n0 0 x\n"), (15, 3, 0));
    assert_eq!(checked(CUBE), (0, 0, 24));
    assert_eq!(checked(SAMPLE_A3), (0, 0, 9));
    assert_eq!(check(SAMPLE_A3.as_bytes()).description, [1, 3, 0, 0, 0, 1000, 2000, 3000, 1, 7, 4]);
}

/// 1D, N = 2, all colours alike.
fn code_of_two_rows(bits: Bits, rows: [i64; 2], code: u16) -> u16 {
    let description = [1, 2, 0, 0, 0, 1000, 1000, 1000, 0, 0, 0];
    let table = rows.map(|row| [row; 3]).concat();
    let look = look(&description, &table, bits, [code; 3]);
    assert_eq!(look.number, 0);
    assert_eq!(look.codes, [look.codes[0]; 3]);
    look.codes[0]
}

#[test]
fn one_dimensional_codes() {
    let eight = Bits::same(8);
    assert_eq!(code_of_two_rows(eight, [0, 5_000_000], 1), 1);
    assert_eq!(code_of_two_rows(eight, [0, 5_000_000], 3), 2);
    assert_eq!(code_of_two_rows(eight, [-5_000_000, 5_000_000], 127), 0);
    assert_eq!(code_of_two_rows(eight, [-5_000_000, 5_000_000], 128), 1);
    assert_eq!(code_of_two_rows(eight, [0, 20_000_000], 200), 255);
}

/// Document 02, Req 06: the position by the raw M, the code by the corrected one.
#[test]
fn codes_of_another_depth() {
    let to = |raw, corrected| Bits { raw, corrected };
    // 51/255 is a fifth, and so is 819/4095
    assert_eq!(code_of_two_rows(to(8, 16), [0, 10_000_000], 51), 13_107);
    assert_eq!(code_of_two_rows(to(12, 16), [0, 10_000_000], 819), 13_107);
    assert_eq!(code_of_two_rows(to(16, 12), [0, 10_000_000], 13_107), 819);
    // 273/8190 of 65535 is 2184 and a half, and a code less is not yet 2176 and a half
    assert_eq!(code_of_two_rows(to(12, 16), [0, 5_000_000], 273), 2185);
    assert_eq!(code_of_two_rows(to(12, 16), [0, 5_000_000], 272), 2176);
    // 257/131070 of 255 is a half
    assert_eq!(code_of_two_rows(to(16, 8), [0, 5_000_000], 257), 1);
    assert_eq!(code_of_two_rows(to(16, 8), [0, 5_000_000], 256), 0);
    // beyond 0 and 1
    assert_eq!(code_of_two_rows(to(8, 16), [0, 20_000_000], 200), 65_535);
    assert_eq!(code_of_two_rows(to(16, 8), [0, 10_000_000_000], 65_535), 255);
    assert_eq!(code_of_two_rows(to(12, 10), [-10_000_000, 0], 4094), 0);
}

/// Rows and weights are those of the raw depth, whatever the corrected one.
#[test]
fn rows_and_weights_by_the_raw_depth() {
    let (description, table) = cube();
    for corrected in [8, 10, 12, 16] {
        let seen = look(&description, &table, Bits { raw: 8, corrected }, [51, 102, 204]);
        assert_eq!(seen.rows, [0, 4, 6, 7, 0, 0]);
        assert_eq!(seen.weights, [51_000, 102_000, 51_000, 51_000, 0, 0]);
    }
}

#[test]
fn sixteen_bits() {
    let description = [1, 3, 0, 0, 0, 1000, 1000, 1000, 0, 0, 0];
    let look = look(&description, &[0; 9], Bits::same(16), [32768; 3]);
    assert_eq!(look.rows, [1, 2, 1, 2, 1, 2]);
    assert_eq!(look.weights, [65_534_000, 1_000, 65_534_000, 1_000, 65_534_000, 1_000]);
}

#[test]
fn sample_a3_blue() {
    let reading = read(SAMPLE_A3.as_bytes(), 9);
    let look = look(&reading.description, &reading.samples, Bits::same(8), [0, 0, 255]);
    assert_eq!(look.rows[4..], [0, 1]);
    assert_eq!(look.weights[4..], [255_000, 510_000]);
    assert_eq!(look.codes[2], 255);
}

#[test]
fn narrow_domain() {
    let description = [1, 2, 250, 250, 250, 750, 750, 750, 0, 0, 0];
    let look = look(&description, &[0; 6], Bits::same(8), [255; 3]);
    assert_eq!(look.weights[..2], [0, 127_500]);
}

fn cube() -> (Description, Vec<i64>) {
    let reading = read(CUBE.as_bytes(), 24);
    (reading.description, reading.samples)
}

#[test]
fn three_dimensional() {
    let (description, table) = cube();
    let expected = Look {
        number: 0,
        codes: [51; 3],
        rows: [0, 4, 6, 7, 0, 0],
        weights: [51_000, 102_000, 51_000, 51_000, 0, 0],
    };
    assert_eq!(look(&description, &table, Bits::same(8), [51, 102, 204]), expected);
    let mut output = [9; 7];
    let source = [51, 102, 204, 255, 255, 255];
    assert_eq!(picture(&description, &table, Bits::same(8), &source, &mut output), 0);
    assert_eq!(output, [51, 51, 51, 255, 255, 255, 9]);
}

/// The description of a 3D table with these bounds.
fn domained(n: i64, [r, g, b]: [i64; 3], [to_r, to_g, to_b]: [i64; 3]) -> Description {
    [3, n, r, g, b, to_r, to_g, to_b, 0, 0, 0]
}

/// A look at 8 bits through a table in which each sample is its colour's index, as a part of N - 1.
/// So a colour's value is how far its index and fraction are along its axis.
fn along(n: i64, lower: [i64; 3], upper: [i64; 3], pixel: [u16; 3]) -> Look {
    let mut table = Vec::new();
    for row in 0..n * n * n {
        let index = [row % n, row / n % n, row / (n * n)];
        table.extend(index.map(|i| i * 10_000_000 / (n - 1)));
    }
    look(&domained(n, lower, upper), &table, Bits::same(8), pixel)
}

/// Document 02, Req 07: "Our ultraviolet-filtered head uses red 0 to 2 while the others use 0 to
/// 1." N = 2, so every i is 0, and D is 255·2·1·1 = 510.
#[test]
fn red_to_2_beside_1() {
    // Red is 200 of its own 255·2, so 200 of 510; green 120 of 255, so 240; blue 60, so 120. The
    // order is green, red, blue, though 200 is the greatest of the three numerators.
    let expected = Look {
        number: 0,
        // 200/510, 240/510 and 120/510 of 255
        codes: [100, 120, 60],
        rows: [0, 2, 3, 7, 0, 0],
        // 510 - 240, 240 - 200, 200 - 120, 120
        weights: [270, 40, 80, 120, 0, 0],
    };
    assert_eq!(along(2, [0; 3], [2000, 1000, 1000], [200, 120, 60]), expected);
    // Red and green are 204 of 510, and stand in that order; blue is 510, all of it.
    let expected = Look {
        number: 0,
        codes: [102, 102, 255],
        rows: [0, 4, 5, 7, 0, 0],
        weights: [0, 306, 0, 204, 0, 0],
    };
    assert_eq!(along(2, [0; 3], [2000, 1000, 1000], [204, 102, 255]), expected);
    // Document 01's 3D file and pixel: 51, 204 and 408 of 510. Row 7 alone is not 0, and 51/510 of
    // 255 is 25 and a half.
    let (mut description, table) = cube();
    description[5] = 2000;
    let expected = Look {
        number: 0,
        codes: [26; 3],
        rows: [0, 4, 6, 7, 0, 0],
        weights: [102, 204, 153, 51, 0, 0],
    };
    assert_eq!(look(&description, &table, Bits::same(8), [51, 102, 204]), expected);
    // The same at 16 bits: 25.5/255 of 65535 is 6553 and a half.
    let to_16 = look(&description, &table, Bits { raw: 8, corrected: 16 }, [51, 102, 204]);
    assert_eq!(to_16, Look { codes: [6554; 3], ..expected });
}

/// Widths of 1 alone, yet the domains differ: D is 255·1·1·1, and not 255·1000.
#[test]
fn equal_widths_of_domains_that_differ() {
    // Red from 0 to 1 is 51 of 255. Green from 1 to 2 is at or below its lower bound, whatever its
    // code, so 0. Blue from -1 to 0 is above its upper bound, so all of 255.
    let expected = Look {
        number: 0,
        codes: [51, 0, 255],
        rows: [0, 4, 5, 7, 0, 0],
        // 255 - 255, 255 - 51, 51 - 0, 0
        weights: [0, 204, 51, 0, 0, 0],
    };
    let (lower, upper) = ([0, 1000, -1000], [1000, 2000, 0]);
    assert_eq!(along(2, lower, upper, [51, 102, 204]), expected);
    // At 255 green is at its lower bound, which is no other place.
    assert_eq!(along(2, lower, upper, [51, 255, 204]), expected);
    // One domain from 0 to 1 for all has thousandths, as before.
    let one = along(2, [0; 3], [1000; 3], [51, 102, 204]);
    assert_eq!(one.weights, [51_000, 102_000, 51_000, 51_000, 0, 0]);
}

/// N = 3, red from -1 to 1 beside 0 to 1: D is 255·2·1·1 = 510.
#[test]
fn mixed_domains_of_three_rows() {
    // Red: a = 85 + 255 = 340 and p = 680, so i = 1 and f = 170 of 510. Green: p = 256, so i = 1
    // and f = 1 of 255, or 2 of 510. Blue: p = 170, so i = 0 and f = 170 of 255, or 340 of 510.
    // Red and blue have the same numerator, and blue the greater fraction.
    let expected = Look {
        number: 0,
        // (1 + 170/510)/2, (1 + 2/510)/2 and 340/510/2 of 255
        codes: [170, 128, 85],
        // from 1 + 3·1 + 9·0 along blue, red, green
        rows: [4, 13, 14, 17, 0, 0],
        // 510 - 340, 340 - 170, 170 - 2, 2
        weights: [170, 170, 168, 2, 0, 0],
    };
    assert_eq!(along(3, [-1000, 0, 0], [1000, 1000, 1000], [85, 128, 85]), expected);
    // Red at 0 is on the border of its two cells, in the upper one; the others are within cells.
    let border = along(3, [-1000, 0, 0], [1000, 1000, 1000], [0, 128, 85]);
    assert_eq!(border.rows, [4, 13, 16, 17, 0, 0]);
    assert_eq!(border.weights, [170, 338, 2, 0, 0, 0]);
    assert_eq!(border.codes, [128, 128, 85]);
}

/// Widths of 2, 1 and 4: D is 255·8 = 2040, and 40 of 510, 20 of 255 and 80 of 1020 are each 160
/// of it. Equal ones stand red, green, blue.
#[test]
fn equal_fractions_of_unlike_numerators() {
    let three = along(2, [0; 3], [2000, 1000, 4000], [40, 20, 80]);
    assert_eq!(three.rows, [0, 1, 3, 7, 0, 0]);
    assert_eq!(three.weights, [1880, 0, 0, 160, 0, 0]);
    assert_eq!(three.codes, [20; 3]);
    // Blue one code more is 162, and stands first; green and blue one more are 168 and 162.
    let two = along(2, [0; 3], [2000, 1000, 4000], [40, 20, 81]);
    assert_eq!(two.rows, [0, 4, 5, 7, 0, 0]);
    assert_eq!(two.weights, [1878, 2, 0, 160, 0, 0]);
    let none = along(2, [0; 3], [2000, 1000, 4000], [40, 21, 81]);
    assert_eq!(none.rows, [0, 2, 6, 7, 0, 0]);
    assert_eq!(none.weights, [1872, 6, 2, 160, 0, 0]);
}

/// The greatest D of mixed domains, 65535·10·10·10, and the greatest S: every sample is 1000.
#[test]
fn widest_mixed_domains() {
    let description = domained(2, [-10_000, -5000, 0], [0, 5000, 10_000]);
    // Red is above its domain, so all of D; green is 5/10 of its width and a tenth of 32768/65535
    // more; blue is a tenth of 1/65535 of its width.
    let seen = look(&description, &[10_000_000_000; 24], Bits::same(16), [1, 32_768, 1]);
    assert_eq!(seen.rows, [0, 1, 3, 7, 0, 0]);
    let (green, blue) = ((5 * 65_535 + 32_768) * 100, 100);
    assert_eq!(seen.weights, [0, 65_535_000 - green, green - blue, blue, 0, 0]);
    assert_eq!(seen.codes, [65_535; 3]);
}

#[test]
fn the_report() {
    let expected = "cube\t3D\t2\t8\ndomain\tred\t0\t1000\ndomain\tgreen\t0\t1000\n\
                    domain\tblue\t0\t1000\ntitle\tno\n";
    assert_eq!(report(CUBE.as_bytes()), expected.as_bytes());
    assert_eq!(report(b""), b"refused\t9\t1\n");
    assert_eq!(report(&[b'\n'; 65_536]), b"refused\t9\t65537\n");
    assert_eq!(report(&[b'\n'; 65_537]), b"refused\t30\t0\n");
    let titled = report(b"TITLE \"a b\"\nLUT_1D_SIZE 2\n0 0 0\n0 0 0");
    assert!(titled.ends_with(b"title\tyes\ta b\n"));
    assert_eq!(report(b"LUT_1D_SIZE 2731\n"), b"refused\t13\t2\n");
    assert_eq!(report(b"LUT_1D_SIZE 2730\n"), b"refused\t18\t2\n");
}

#[test]
fn the_samples() {
    let a2 = read(SAMPLE_A2.as_bytes(), 96);
    assert_eq!((a2.number, a2.line), (0, 0));
    assert_eq!(a2.description, [1, 32, 0, 0, 0, 1000, 1000, 1000, 1, 7, 21]);
    assert_eq!(a2.samples[..6], [4883, 4883, 4883, 7714, 7714, 7714]);
    assert_eq!(a2.samples[93..], [7_043_000_000; 3]);
    let a3 = read(SAMPLE_A3.as_bytes(), 9);
    assert_eq!(a3.description, [1, 3, 0, 0, 0, 1000, 2000, 3000, 1, 7, 4]);
    let unit = 10_000_000;
    assert_eq!(a3.samples, [0, 0, 0, unit / 2, unit, unit * 3 / 2, unit, unit, unit]);
    let a4 = read(SAMPLE_A4.as_bytes(), 24);
    let mut stated = Vec::new();
    for row in 0..8 {
        let (r, g, b) = (row & 1, row >> 1 & 1, row >> 2);
        stated.extend([r * unit, (3 * g + b) * unit / 4, b * unit]);
    }
    assert_eq!(a4.samples, stated);
}

#[test]
fn refusals_keep_the_table_and_acceptance_keeps_later_places() {
    let mut table = [7; 8];
    assert_eq!(read_into(b"LUT_1D_SIZE 2\n1 1 1\n1 1 .\n", &mut table).number, 15);
    assert_eq!(table, [7; 8]);
    assert_eq!(read_into(b"LUT_1D_SIZE 2\n0 0 0\n0 0 0\n", &mut table).number, 0);
    assert_eq!(table, [0, 0, 0, 0, 0, 0, 7, 7]);
}

#[test]
fn title_places() {
    let place_and_length = |line: &str| {
        let file = format!("{line}\nLUT_1D_SIZE 2\n0 0 0\n0 0 0\n");
        let d = read(file.as_bytes(), 6).description;
        (d[8], d[9], d[10])
    };
    assert_eq!(place_and_length("TITLE \"abc\""), (1, 7, 3));
    assert_eq!(place_and_length("\n\tTITLE \t\"\"  "), (1, 10, 0));
    assert_eq!(place_and_length("# none"), (0, 0, 0));
    assert_eq!(place_and_length("TITLE \" # \""), (1, 7, 3));
}

/// The table of document 01's 3D file with its description, and a description that is 24.
fn cube_and_none() -> (Description, Description, Vec<i64>) {
    let (good, table) = cube();
    let mut bad = good;
    bad[0] = 2;
    (good, bad, table)
}

/// Document 01's order, and document 02's in it: "20 is tried for the raw depth, then the
/// corrected; 23 goes by the raw M".
#[test]
fn order_of_checks_in_picture() {
    let (good, bad, table) = cube_and_none();
    let mut output = [9; 1];
    let mut number = |d: &Description, raw, corrected, source: &[u16]| {
        let number = picture(d, &table, Bits { raw, corrected }, source, &mut output);
        assert_eq!(output, [9]);
        number
    };
    for (raw, corrected) in [(9, 9), (9, 8), (8, 9)] {
        assert_eq!(number(&bad, raw, corrected, &[256, 0, 0, 0]), 24);
        assert_eq!(number(&good, raw, corrected, &[256, 0, 0, 0]), 20);
        assert_eq!(number(&good, raw, corrected, &[256, 0, 0]), 20);
        assert_eq!(number(&good, raw, corrected, &[]), 20);
    }
    for corrected in [8, 16] {
        assert_eq!(number(&good, 8, corrected, &[256, 0, 0, 0]), 21);
        assert_eq!(number(&good, 8, corrected, &[256, 0, 0]), 22);
        assert_eq!(number(&good, 8, corrected, &[]), 0);
        let bits = Bits { raw: 8, corrected };
        assert_eq!(picture(&good, &table, bits, &[0, 0, 256], &mut [0; 3]), 23);
    }
    assert_eq!(number(&good, 16, 8, &[]), 0);
    let bits = Bits { raw: 16, corrected: 8 };
    assert_eq!(picture(&good, &table, bits, &[0, 0, 256], &mut [0; 3]), 0);
}

#[test]
fn order_of_checks_in_look() {
    let (good, bad, table) = cube_and_none();
    let number = |d: &Description, raw, corrected| {
        look(d, &table, Bits { raw, corrected }, [256, 0, 0]).number
    };
    for (raw, corrected) in [(9, 9), (9, 8), (8, 9), (9, 16), (16, 9)] {
        assert_eq!(number(&bad, raw, corrected), 24);
        assert_eq!(number(&good, raw, corrected), 20);
    }
    assert_eq!(number(&bad, 8, 8), 24);
    assert_eq!(number(&good, 8, 8), 23);
    assert_eq!(number(&good, 8, 16), 23);
    assert_eq!(number(&good, 16, 8), 0);
}

/// Document 02, Req 02: "Numbers use the fewest characters without an exponent, with a 0 before the
/// point."
#[test]
fn words_that_are_written() {
    for (units, word) in [
        (0, "0"),
        (-5_000_000, "-0.5"),
        (10_000_000, "1"),
        (-10_000_000, "-1"),
        (100_000_000, "10"),
        (1, "0.0000001"),
        (-1, "-0.0000001"),
        (10, "0.000001"),
        (10_000_001, "1.0000001"),
        (10_100_000, "1.01"),
        (1_234_567_890, "123.456789"),
        (9_999_999_999, "999.9999999"),
        (-9_999_999_999, "-999.9999999"),
        (10_000_000_000, "1000"),
        (-10_000_000_000, "-1000"),
    ] {
        assert_eq!(shortest(units, SAMPLE_PLACES), word);
    }
    for (units, word) in [(10_000, "10"), (-9_999, "-9.999"), (250, "0.25"), (-1, "-0.001")] {
        assert_eq!(shortest(units, BOUND_PLACES), word);
    }
}

/// Every word of up to five bytes of digits, points and signs that is a number with a digit before
/// its point: what is written for its value has fewer bytes, or is this word.
#[test]
fn no_word_has_fewer_characters() {
    const BYTES: &[u8] = b"0123456789.-+";
    let mut words = vec![Vec::new()];
    let mut written_as_they_are = 0;
    for _ in 0..5 {
        words = words
            .iter()
            .flat_map(|word| BYTES.iter().map(move |byte| [word, &[*byte][..]].concat()))
            .collect();
        for word in words.iter().filter(|word| has_digit_before_point(word)) {
            for (unit, places) in [(&TEN_MILLIONTHS, SAMPLE_PLACES), (&THOUSANDTHS, BOUND_PLACES)] {
                if let Value::Units(units) = value(word, unit) {
                    let written = shortest(units, places).into_bytes();
                    assert!(written == *word || written.len() < word.len(), "{word:?}");
                    written_as_they_are += usize::from(written == *word);
                }
            }
        }
    }
    // samples from 0 on, those below 0, and bounds likewise
    assert_eq!(written_as_they_are, 28_001 + 2_800 + 10_001 + 1_000);
}

fn has_digit_before_point(word: &[u8]) -> bool {
    let unsigned = word.strip_prefix(b"-").or(word.strip_prefix(b"+")).unwrap_or(word);
    unsigned.first() != Some(&b'.')
}

/// Every bound, and samples that are far apart, are what is read of their words.
#[test]
fn words_have_their_values() {
    for bound in -10_000..=10_000 {
        let word = shortest(bound, BOUND_PLACES);
        assert_eq!(value(word.as_bytes(), &THOUSANDTHS), Value::Units(bound), "{word}");
    }
    for sample in (-10_000_000_000..=10_000_000_000).step_by(99_991) {
        let word = shortest(sample, SAMPLE_PLACES);
        assert_eq!(value(word.as_bytes(), &TEN_MILLIONTHS), Value::Units(sample), "{word}");
    }
}

/// The head of a 1D table of N = 2 and one domain, with this mark for a title.
fn marked(mark: i64) -> Description {
    [1, 2, 0, 0, 0, 1000, 1000, 1000, mark, 0, 0]
}

/// Two rows, as numbers and as lines.
const ROWS: [i64; 6] = [0, -5_000_000, 10_000_000, 1, -10_000_000_000, 9_999_999_999];
const ROW_LINES: &str = "0 -0.5 1\n0.0000001 -1000 999.9999999\n";

/// The text for a description and title with those rows, or the number that refuses it.
fn text_of(description: Description, title: &[u8]) -> Result<String, u32> {
    let Writing { number, text } = write(&description, &ROWS, title, 1_000);
    assert_eq!(number != 0, text.is_empty());
    match number {
        0 => Ok(String::from_utf8_lossy(&text).into_owned()),
        refused => Err(refused),
    }
}

#[test]
fn files_that_are_written() {
    let plain = format!("LUT_1D_SIZE 2\nDOMAIN_MIN 0 0 0\nDOMAIN_MAX 1 1 1\n{ROW_LINES}");
    for mark in [1, -1, 2, 256, 1 << 32, i64::MIN] {
        let titled = text_of(marked(mark), b" a 'b' ");
        assert_eq!(titled, Ok(format!("TITLE \" a 'b' \"\n{plain}")), "{mark}");
    }
    assert_eq!(text_of(marked(1), b""), Ok(format!("TITLE \"\"\n{plain}")));
    // "Without the mark the title's bytes are neither written nor judged."
    for title in [&b"a"[..], b"", b"\"", b"\n\x80", &[b'x'; 1_000]] {
        assert_eq!(text_of(marked(0), title), Ok(plain.clone()));
    }
    let bounds = [1, 2, -10_000, 250, 9999, -9999, 750, 10_000, 0, i64::MIN, -1];
    let lines = "LUT_1D_SIZE 2\nDOMAIN_MIN -10 0.25 9.999\nDOMAIN_MAX -9.999 0.75 10\n";
    assert_eq!(text_of(bounds, b""), Ok(format!("{lines}{ROW_LINES}")));
    let (description, table) = cube();
    let cube_text = write(&description, &table, b"", 1_000).text;
    let rows = CUBE.split_once('\n').map_or("", |(_, rows)| rows);
    let head = "LUT_3D_SIZE 2\nDOMAIN_MIN 0 0 0\nDOMAIN_MAX 1 1 1\n";
    assert_eq!(cube_text, format!("{head}{rows}").into_bytes());
}

/// "27 for a title over 242 bytes, with a quote, or with a byte not 0x20 to 0x7E".
#[test]
fn titles_that_are_refused() {
    for byte in 0..=255 {
        let plain = (0x20..=0x7E).contains(&byte) && byte != b'"';
        for title in [
            vec![byte],
            vec![b'a', byte],
            vec![byte, b'a'],
            [[b'a'; 241].to_vec(), vec![byte]].concat(),
        ] {
            assert_eq!(text_of(marked(1), &title).err(), if plain { None } else { Some(27) });
            assert_eq!(text_of(marked(0), &title).err(), None);
        }
    }
    for (length, number) in [(241, None), (242, None), (243, Some(27)), (70_000, Some(27))] {
        assert_eq!(text_of(marked(1), &vec![b'x'; length]).err(), number);
    }
}

/// "24; 27 [...]; 13 exactly if the output buffer is shorter than the text; in that order, length 0,
/// nothing written", and "later bytes are kept".
#[test]
fn order_of_checks_in_write() {
    let number = |description: &Description, title: &[u8], places: usize| {
        let mut out = vec![7; places];
        let writing = write_into(description, &ROWS, title, &mut out);
        let (text, later) = out.split_at(writing.text.len());
        assert_eq!(text, writing.text);
        assert!(later.iter().all(|byte| *byte == 7));
        writing.number
    };
    let bad = [2, 2, 0, 0, 0, 1000, 1000, 1000, 1, 0, 0];
    assert_eq!(number(&bad, b"\"", 0), 24);
    assert_eq!(number(&bad, b"", 1_000), 24);
    assert_eq!(number(&marked(1), b"\"", 0), 27);
    assert_eq!(number(&marked(1), b"\"", 1_000), 27);
    // 10 bytes of title, 14, 17 and 17 of the other lines of the head, 9 and 28 of rows
    for (description, text) in [(marked(1), 95), (marked(0), 85)] {
        for places in [0, 1, text - 1] {
            assert_eq!(number(&description, b"t", places), 13);
        }
        for places in [text, text + 1, 1_000] {
            assert_eq!(number(&description, b"t", places), 0);
        }
    }
}

/// Places past 3·rows, and a title's own place and length, play no part.
#[test]
fn what_plays_no_part_in_write() {
    let expected = write(&marked(1), &ROWS, b"t", 1_000);
    let mut description = marked(1);
    description[9..].copy_from_slice(&[i64::MAX, i64::MIN]);
    let longer = [&ROWS[..], &[i64::MAX, i64::MIN, 10_000_000_001]].concat();
    assert_eq!(write(&description, &longer, b"t", 1_000), expected);
    assert_eq!(write(&description, &longer[..5], b"t", 1_000).number, 24);
}

/// The longest text has every line as long as can be, a row's of 38 bytes and a title's of 250, and
/// is read back.
#[test]
fn the_longest_text() {
    let description = [1, 65_536, -9999, -9999, -9999, -9998, -9998, -9998, 1, 0, 0];
    let table = vec![-9_999_999_999; 3 * 65_536];
    let text = write(&description, &table, &[b'x'; 242], longest_text(65_536)).text;
    assert_eq!(text.len(), longest_text(65_536));
    assert_eq!(longest_text(65_536), 333 + 39 * 65_536);
    let lengths: Vec<usize> = text.split(|byte| *byte == b'\n').map(<[u8]>::len).collect();
    assert_eq!(lengths[..5], [250, 17, 31, 31, 38]);
    let reading = read(&text, table.len());
    assert_eq!(reading.samples, table);
    assert_eq!(reading.description[8..], [1, 7, 242]);
}

/// Document 02, Req 09: "joined they equal the present look".
#[test]
fn halves_of_a_look() {
    let (description, table) = cube();
    let found = rows(&description, &table, 8, [51, 102, 204]);
    let weights = [51_000, 102_000, 51_000, 51_000, 0, 0];
    assert_eq!(found, Rows { number: 0, rows: [0, 4, 6, 7, 0, 0], weights });
    for (corrected, code) in [(8, 51), (10, 205), (12, 819), (16, 13_107)] {
        let given = codes(&description, &table, Bits { raw: 8, corrected }, &found.rows, &weights);
        assert_eq!(given, Codes { number: 0, codes: [code; 3] });
    }
}

/// A 1D table of the rows 0, 1 and 2 (and another that is not its own), where the weights of red add
/// up to 255000, of green to 510000 and of blue to 765000; at 8 bits.
fn line_codes(rows: [u32; 6], weights: [i64; 6]) -> Codes {
    let description = [1, 3, 0, 0, 0, 1000, 2000, 3000, 0, 0, 0];
    let table = [0, 1, 2, 3].map(|row| [row * 10_000_000; 3]).concat();
    codes(&description, &table, Bits::same(8), &rows, &weights)
}

/// A 3D table whose rows are their own numbers, as parts of 10; at 8 bits.
fn cube_codes(rows: [u32; 6], weights: [i64; 6]) -> Codes {
    let description = domained(2, [0; 3], [1000; 3]);
    let table = [0, 1, 2, 3, 4, 5, 6, 7].map(|row| [row * 1_000_000; 3]).concat();
    codes(&description, &table, Bits::same(8), &rows, &weights)
}

const REFUSED_26: Codes = Codes { number: 26, codes: [0; 3] };

/// The rows need not lie as a pixel's do, nor the weights.
#[test]
fn rows_and_weights_of_anybody() {
    let given = line_codes([2, 0, 1, 1, 0, 1], [51_000, 204_000, 510_000, 0, 765_000, 0]);
    // a fifth of 2, all of 1, all of 0
    assert_eq!(given, Codes { number: 0, codes: [102, 255, 0] });
    // 255000 in all: 7 twice and 0 twice, 0.7 and 0 by halves is 89.25
    let given = cube_codes([7, 0, 0, 7, 0, 0], [127_500, 0, 127_500, 0, 0, 0]);
    assert_eq!(given, Codes { number: 0, codes: [89; 3] });
    // 0.3 of 255 is 76 and a half
    assert_eq!(cube_codes([3; 6], [0, 255_000, 0, 0, 0, 0]).codes, [77; 3]);
}

/// "unused places aren't judged"
#[test]
fn unused_places_of_3d() {
    for (row, weight) in [(8, 1), (u32::MAX, i64::MIN), (0, i64::MAX), (7, -1)] {
        let given = cube_codes([7, 7, 7, 7, row, row], [255_000, 0, 0, 0, weight, weight]);
        assert_eq!(given, Codes { number: 0, codes: [179; 3] });
    }
    // and do not make up for what is missing
    assert_eq!(cube_codes([7; 6], [254_999, 0, 0, 0, 1, 0]), REFUSED_26);
}

/// "26 for a row number not below the description's count of rows (also with weight 0), a negative
/// weight, or weights that don't add up to the denominator"
#[test]
fn rows_and_weights_that_are_refused() {
    let (line, line_weights) = ([0, 1, 1, 2, 0, 2], [255_000, 0, 255_000, 255_000, 0, 765_000]);
    let cube_weights = [51_000, 102_000, 51_000, 51_000, 0, 0];
    assert_eq!(line_codes(line, line_weights).number, 0);
    for at in 0..6 {
        for row in [3, 4, u32::MAX, 1 << 31] {
            let mut rows = line;
            rows[at] = row;
            assert_eq!(line_codes(rows, line_weights), REFUSED_26, "row {row} at {at}");
        }
        for by in [-1, 1, i64::from(i32::MIN), 1 << 32] {
            let mut weights = line_weights;
            weights[at] += by;
            assert_eq!(line_codes(line, weights), REFUSED_26, "{by} at {at}");
        }
        for end in [i64::MIN, i64::MAX] {
            let mut weights = line_weights;
            weights[at] = end;
            assert_eq!(line_codes(line, weights), REFUSED_26, "{end} at {at}");
            assert_eq!(line_codes(line, [end; 6]), REFUSED_26);
            assert_eq!(cube_codes([0; 6], [end; 6]), REFUSED_26);
        }
    }
    for at in 0..4 {
        let mut rows = [0; 6];
        rows[at] = 8;
        assert_eq!(cube_codes(rows, cube_weights), REFUSED_26);
        // the sum is kept
        let mut weights = [0, 0, 0, 0, 0, 0];
        weights[at] = -1;
        weights[(at + 1) % 4] = 255_001;
        assert_eq!(cube_codes([0; 6], weights), REFUSED_26);
    }
    // 2 to the 64th more than the denominator, of weights that are not negative
    assert_eq!(cube_codes([0; 6], [i64::MAX, i64::MAX, 2, 255_000, 0, 0]), REFUSED_26);
    assert_eq!(
        line_codes(line, [i64::MIN, i64::MIN + 255_000, 0, 510_000, 0, 765_000]),
        REFUSED_26
    );
    // what other colours' weights add up to
    assert_eq!(line_codes(line, [510_000, 0, 255_000, 0, 0, 765_000]), REFUSED_26);
}

/// Document 02, Req 07: the common denominator is 255·2·1·1.
#[test]
fn weights_of_mixed_domains() {
    let description = domained(2, [0; 3], [2000, 1000, 1000]);
    let (_, table) = cube();
    let given = |weights| codes(&description, &table, Bits::same(8), &[0, 4, 6, 7, 0, 0], &weights);
    assert_eq!(given([102, 204, 153, 51, 0, 0]), Codes { number: 0, codes: [26; 3] });
    assert_eq!(given([102, 204, 153, 52, 0, 0]), REFUSED_26);
    assert_eq!(given([51_000, 102_000, 51_000, 51_000, 0, 0]), REFUSED_26);
}

/// "the first half 24, 20, 23; the second 24, 20 for the raw depth and then the corrected, then 26
/// [...]; zeros each time"
#[test]
fn order_of_checks_in_halves() {
    let (good, bad, table) = cube_and_none();
    let first = |description: &Description, raw, pixel| {
        let found = rows(description, &table, raw, pixel);
        assert!(found.number == 0 || (found.rows, found.weights) == ([0; 6], [0; 6]));
        found.number
    };
    assert_eq!(first(&bad, 9, [256, 0, 0]), 24);
    assert_eq!(first(&bad, 8, [256, 0, 0]), 24);
    assert_eq!(first(&good, 9, [256, 0, 0]), 20);
    assert_eq!(first(&good, 8, [256, 0, 0]), 23);
    assert_eq!(first(&good, 10, [256, 0, 0]), 0);
    let second = |description: &Description, raw, corrected, last: i64| {
        let weights = [0, 0, 0, last, 0, 0];
        let given = codes(description, &table, Bits { raw, corrected }, &[0; 6], &weights);
        assert!(given.number == 0 || given.codes == [0; 3]);
        given.number
    };
    for (raw, corrected) in [(9, 9), (9, 8), (8, 9)] {
        assert_eq!(second(&bad, raw, corrected, -1), 24);
        assert_eq!(second(&good, raw, corrected, -1), 20);
        assert_eq!(second(&good, raw, corrected, 255_000), 20);
    }
    assert_eq!(second(&bad, 8, 8, 255_000), 24);
    assert_eq!(second(&good, 8, 16, -1), 26);
    assert_eq!(second(&good, 8, 16, 255_000), 0);
    assert_eq!(second(&good, 16, 8, 255_000), 26);
}

/// Red rises from 0 to 1, green falls from 1 to 0, and blue rises to 0.5, stays and rises to 1.
fn three_lines() -> (Description, Vec<i64>) {
    let thirds = [0, 3_333_333, 6_666_667, 10_000_000];
    let half = [0, 5_000_000, 5_000_000, 10_000_000];
    let rows = [0, 1, 2, 3].map(|row| [thirds[row], thirds[3 - row], half[row]]);
    ([1, 4, 0, 0, 0, 1000, 1000, 1000, 0, 0, 0], rows.concat())
}

/// What the inverse answers through those lines: number, code, count.
fn inverted(bits: [u32; 2], colour: u32, wanted: u16, tolerance: u32) -> (u32, u16, u64) {
    let (description, table) = three_lines();
    let [raw, corrected] = bits;
    let aim = Aim { colour, wanted, tolerance };
    let Inverse { number, code, count } =
        inverse(&description, &table, Bits { raw, corrected }, aim);
    (number, code, count)
}

/// Document 02, Req 04: "the count of codes tried is part of the answer: the hit plus 1, or M plus 1".
#[test]
fn raw_codes_of_corrected_codes() {
    for wanted in [0, 1, 51, 254, 255] {
        let hit = (0, wanted, u64::from(wanted) + 1);
        assert_eq!(inverted([8, 8], 0, wanted, 0), hit);
        // a code within the tolerance does not end the search
        assert_eq!(inverted([8, 8], 0, wanted, 255), hit);
    }
    assert_eq!(inverted([8, 8], 1, 51, 0), (0, 204, 205));
    // 0.5 of 255 is 127 and a half, so 128, from code 85 on, and is not reached by 84
    assert_eq!(inverted([8, 8], 2, 128, 0), (0, 85, 86));
    // 0.5 of 84 / 85 of 255 is 126, so that 127 is not reached
    assert_eq!(inverted([8, 8], 2, 127, 0), (28, 0, 256));
    // 126 at 84 comes before 128 at 85
    assert_eq!(inverted([8, 8], 2, 127, 1), (0, 84, 256));
    assert_eq!(inverted([16, 16], 0, 65_535, 0), (0, 65_535, 65_536));
}

/// Document 02, Req 06: "the inverse's tries and count, use the raw M".
#[test]
fn raw_codes_at_two_depths() {
    // 257 codes of 16 bits to one of 8
    assert_eq!(inverted([8, 16], 0, 13_107, 0), (0, 51, 52));
    assert_eq!(inverted([8, 16], 0, 13_108, 0), (28, 0, 256));
    assert_eq!(inverted([8, 16], 0, 13_108, 1), (0, 51, 256));
    assert_eq!(inverted([8, 16], 0, 65_534, 1), (0, 255, 256));
    // of 10 bits the first codes are 0 and 4, and 2 is as far from either
    assert_eq!(inverted([8, 10], 0, 2, 1), (28, 0, 256));
    assert_eq!(inverted([8, 10], 0, 2, 2), (0, 0, 256));
    // 254 and a half times 257 is 65406 and a half
    assert_eq!(inverted([16, 8], 0, 255, 0), (0, 65_407, 65_408));
    assert_eq!(inverted([16, 8], 1, 255, 0), (0, 0, 1));
}

/// "24, 20, 23 for the wanted code, then 28 [...]; 28 still gives the true count, with code 0, and the
/// earlier ones give zeros. For a 3D table the answer is 24."
#[test]
fn order_of_checks_in_the_inverse() {
    for colour in [3, 4, 256, u32::MAX] {
        assert_eq!(inverted([8, 8], colour, 51, 0), (24, 0, 0));
        assert_eq!(inverted([9, 9], colour, 256, 0), (24, 0, 0));
    }
    for bits in [[9, 9], [9, 8], [8, 9]] {
        assert_eq!(inverted(bits, 0, 256, 0), (20, 0, 0));
        assert_eq!(inverted(bits, 0, 0, u32::MAX), (20, 0, 0));
    }
    assert_eq!(inverted([8, 8], 0, 256, u32::MAX), (23, 0, 0));
    assert_eq!(inverted([16, 8], 0, 256, u32::MAX), (23, 0, 0));
    assert_eq!(inverted([8, 16], 0, 256, 0), (28, 0, 256));
    let aim = Aim { colour: 0, wanted: 51, tolerance: u32::MAX };
    let (good, bad, table) = cube_and_none();
    for description in [good, bad] {
        let refused = Inverse { number: 24, code: 0, count: 0 };
        assert_eq!(inverse(&description, &table, Bits::same(8), aim), refused);
        assert_eq!(inverse(&description, &table, Bits::same(9), aim), refused);
    }
    // a sample of another colour
    let (description, mut table) = three_lines();
    table[1] = 10_000_000_001;
    assert_eq!(inverse(&description, &table, Bits::same(8), aim).number, 24);
    assert_eq!(inverse(&description, &table[..11], Bits::same(8), aim).number, 24);
}
