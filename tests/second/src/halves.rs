//! The two halves of a look: one pixel to rows and weights, and rows and weights to codes.
//!
//! Document 02, Req 09. The first half is what a look shows beside its codes. The second works
//! otherwise than look does, so that the two joined say something of either: what the weights add
//! up to comes from the bounds in thousandths alone, and the nearest code by a division instead of
//! a search. Sums are 128 bits wide, so that any weights can be added.

use crate::look::{look, Cube};
use crate::paper::{differ_in_3d, greatest_code, number, Bits, Description, Kind};
use crate::paper::{BOUND_UNITS, SAMPLE_UNITS};
use std::ops::Range;

/// The complete answer of the first half.
#[derive(Clone, PartialEq, Eq, Debug)]
pub struct Rows {
    pub number: u32,
    pub rows: [u32; 6],
    pub weights: [i64; 6],
}

/// The complete answer of the second half.
#[derive(Clone, PartialEq, Eq, Debug)]
pub struct Codes {
    pub number: u32,
    pub codes: [u16; 3],
}

/// "one call from pixel to rows and weights [...]. The first half takes the raw depth". "Refusals:
/// the first half 24, 20, 23 [...]; zeros each time." All of this is a look's whose corrected depth
/// is the raw one.
pub fn rows(description: &Description, table: &[i64], raw: u32, pixel: [u16; 3]) -> Rows {
    let seen = look(description, table, Bits::same(raw), pixel);
    Rows { number: seen.number, rows: seen.rows, weights: seen.weights }
}

/// "another from rows and weights to codes [...], the second both depths, raw and corrected". "the
/// second 24, 20 for the raw depth and then the corrected, then 26".
pub fn codes(
    description: &Description,
    table: &[i64],
    bits: Bits,
    rows: &[u32; 6],
    weights: &[i64; 6],
) -> Codes {
    let Some(cube) = Cube::of(description, table) else {
        return refused(number::NOT_FROM_READING);
    };
    let (Some(raw), Some(corrected)) = (greatest_code(bits.raw), greatest_code(bits.corrected))
    else {
        return refused(number::DEPTH_UNKNOWN);
    };
    let shares = [0, 1, 2].map(|colour| {
        let places = used(cube.kind, colour);
        Shares {
            rows: &rows[places.clone()],
            weights: &weights[places],
            den: denominator(&cube, raw, colour),
        }
    });
    if !shares.iter().all(|of_colour| of_colour.fit(cube.kind.rows(cube.n))) {
        return refused(number::ROWS_OR_WEIGHTS_WRONG);
    }
    let codes = [0, 1, 2].map(|colour| shares[colour].code(&cube, colour, corrected));
    Codes { number: number::ACCEPTED, codes }
}

/// "zeros each time"
fn refused(number: u32) -> Codes {
    Codes { number, codes: [0; 3] }
}

/// Of the six places those of a colour: "two rows and weights for each colour in 1D, four for the
/// pixel in 3D" (document 01).
pub fn used(kind: Kind, colour: usize) -> Range<usize> {
    match kind {
        Kind::OneD => 2 * colour..2 * colour + 2,
        Kind::ThreeD => 0..4,
    }
}

/// What a colour's weights have to add up to, with this M of raw codes: M·w, and where the domains
/// of a 3D table differ "M times the three widths in whole units" (Req 07).
pub fn denominator(cube: &Cube, m: u16, colour: usize) -> i128 {
    let width = |colour: usize| i128::from(cube.upper[colour] - cube.lower[colour]);
    let whole = i128::from(BOUND_UNITS);
    let widths = if differ_in_3d(cube.kind, &cube.lower, &cube.upper) {
        width(0) * width(1) * width(2) / (whole * whole * whole)
    } else {
        width(colour)
    };
    i128::from(m) * widths
}

/// A colour's rows and weights, and what the weights have to add up to.
struct Shares<'a> {
    rows: &'a [u32],
    weights: &'a [i64],
    den: i128,
}

impl Shares<'_> {
    /// Not 26: "a row number not below the description's count of rows (also with weight 0), a
    /// negative weight, or weights that don't add up to the denominator".
    fn fit(&self, count: usize) -> bool {
        let sum: i128 = self.weights.iter().copied().map(i128::from).sum();
        self.rows.iter().all(|row| (*row as usize) < count)
            && self.weights.iter().all(|weight| *weight >= 0)
            && sum == self.den
    }

    /// The nearest code from 0 to M of S / (D·10,000,000), the greater of two equally near: half a
    /// code is added, and what is less than a code is cut.
    fn code(&self, cube: &Cube, colour: usize, m: u16) -> u16 {
        let m = i128::from(m);
        let weighed = |(row, weight): (&u32, &i64)| {
            i128::from(*weight) * i128::from(cube.samples[3 * *row as usize + colour])
        };
        let s: i128 = self.rows.iter().zip(self.weights).map(weighed).sum();
        let den = self.den * i128::from(SAMPLE_UNITS);
        (2 * m * s + den).div_euclid(2 * den).clamp(0, m) as u16
    }
}
