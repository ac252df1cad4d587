//! Look: one pixel to three corrected codes, with the rows and weights used.
//!
//! Document 01, "Interpolation", with document 02's two depths: "The position [...] use[s] the raw
//! M; nearest, and the range of corrected codes, use the corrected M." All numbers are 128 bits wide, so that nothing
//! depends on how far the paper's "fits 64 signed bits" goes.
//!
//! Where the domains of a 3D table differ (Req 07), every bound is whole, and bounds are counted in
//! whole units from the start: so a fraction's own denominator is M times its own width in them,
//! and goes into the common one as often as the product of the other two widths.

use crate::paper::{colours, number, place, Bits, Description, Greatest, Kind};
use crate::paper::{differ_and_not_whole, differ_in_3d, some_lower_not_below, some_too_wide};
use crate::paper::{BOUND_UNITS, GREATEST_BOUND, GREATEST_SAMPLE, SAMPLE_UNITS};
use std::cmp::Ordering;

/// The complete answer of look.
#[derive(Clone, PartialEq, Eq, Debug)]
pub struct Look {
    pub number: u32,
    pub codes: [u16; 3],
    pub rows: [u32; 6],
    pub weights: [i64; 6],
}

/// Looks one pixel up. "Look and picture check 24, 20, 21, 22, 23 in that order (look has
/// no 21, 22)." "23 goes by the raw M."
pub fn look(description: &Description, table: &[i64], bits: Bits, pixel: [u16; 3]) -> Look {
    let Some(cube) = Cube::of(description, table) else {
        return refused(number::NOT_FROM_READING);
    };
    let Some(m) = bits.greatest() else {
        return refused(number::DEPTH_UNKNOWN);
    };
    if pixel.iter().any(|code| *code > m.raw) {
        return refused(number::CODE_ABOVE_M);
    }
    cube.correct(m, pixel)
}

/// "A refused look gives zeros for all codes, rows and weights."
fn refused(number: u32) -> Look {
    Look { number, codes: [0; 3], rows: [0; 6], weights: [0; 6] }
}

/// A description and table that reading could have given.
pub struct Cube<'a> {
    pub kind: Kind,
    pub n: i64,
    pub lower: [i64; 3],
    pub upper: [i64; 3],
    /// The 3·rows numbers alone.
    pub samples: &'a [i64],
}

impl<'a> Cube<'a> {
    /// None for 24: "N or a bound out of the ranges above, 10, 11 or 12 true of the
    /// description, the table short, or one of its 3·rows numbers beyond ±10,000,000,000".
    /// "The title's fields are not judged."
    pub fn of(description: &Description, table: &'a [i64]) -> Option<Cube<'a>> {
        let kind = Kind::of_mark(description[place::KIND])?;
        let n = description[place::N];
        let lower = colours(description, place::LOWER);
        let upper = colours(description, place::UPPER);
        let in_range = |bound: &i64| (-GREATEST_BOUND..=GREATEST_BOUND).contains(bound);
        if !kind.has_n(n) || !lower.iter().chain(&upper).all(in_range) {
            return None;
        }
        if some_lower_not_below(&lower, &upper)
            || some_too_wide(&lower, &upper)
            || differ_and_not_whole(kind, &lower, &upper)
        {
            return None;
        }
        let samples = table.get(..3 * kind.rows(n))?;
        let measured = |sample: &i64| (-GREATEST_SAMPLE..=GREATEST_SAMPLE).contains(sample);
        samples.iter().all(measured).then_some(Cube { kind, n, lower, upper, samples })
    }

    /// The accepted look at a pixel whose codes are at most the raw M.
    pub fn correct(&self, m: Greatest, pixel: [u16; 3]) -> Look {
        let positions = [0, 1, 2].map(|colour| self.position(m.raw, colour, pixel[colour]));
        match self.kind {
            Kind::OneD => self.correct_1d(m.corrected, &positions),
            Kind::ThreeD => self.correct_3d(m.corrected, self.common_den(m.raw), &positions),
        }
    }

    /// Whether the three fractions have to be brought to a common denominator.
    fn is_mixed(&self) -> bool {
        differ_in_3d(self.kind, &self.lower, &self.upper)
    }

    /// How many parts a whole of a domain has: a thousand, or of mixed domains one, since their
    /// widths are "in whole units".
    fn parts(&self) -> i64 {
        if self.is_mixed() {
            1
        } else {
            BOUND_UNITS
        }
    }

    /// The lower bound and the width of a colour's domain, in those parts.
    fn domain(&self, colour: usize) -> (i128, i128) {
        let in_parts = |bound: i64| i128::from(bound * self.parts() / BOUND_UNITS);
        let (lo, up) = (in_parts(self.lower[colour]), in_parts(self.upper[colour]));
        (lo, up - lo)
    }

    /// "the common denominator M times the three widths in whole units, and weights add up to
    /// that; tables with equal domains keep their present weights" (document 02, Req 07).
    fn common_den(&self, m: u16) -> i128 {
        let widths = [0, 1, 2].map(|colour| self.domain(colour).1);
        let width = if self.is_mixed() { widths.iter().product() } else { widths[0] };
        i128::from(m) * width
    }

    /// "D = M·w. Let a be 1000·c - lo·M, moved to 0 if less and to D if more. Let p =
    /// a·(N-1), i the smaller of p div D and N-2, and f = p - i·D." In whole units 1000 is 1.
    fn position(&self, m: u16, colour: usize, code: u16) -> Position {
        let (m, c, n) = (i128::from(m), i128::from(code), i128::from(self.n));
        let (lo, w) = self.domain(colour);
        let den = m * w;
        let a = (i128::from(self.parts()) * c - lo * m).clamp(0, den);
        let p = a * (n - 1);
        let i = (p / den).min(n - 2);
        Position { i, f: p - i * den, den }
    }

    /// "1D: each colour has its own D, rows i and i+1, weights D-f and f."
    fn correct_1d(&self, m: u16, positions: &[Position; 3]) -> Look {
        let mut look = refused(number::ACCEPTED);
        for (colour, at) in positions.iter().enumerate() {
            let path = at.path_1d();
            look.codes[colour] = nearest(self.value(&path, colour, at.den), m);
            show(&path, &mut look, 2 * colour);
        }
        look
    }

    /// What one colour's raw code is corrected to in a 1D table, with these two M.
    pub fn code_1d(&self, raw: u16, corrected: u16, colour: usize, code: u16) -> u16 {
        let at = self.position(raw, colour, code);
        nearest(self.value(&at.path_1d(), colour, at.den), corrected)
    }

    /// "3D: sort the three f, greatest first; equal ones stand red, green, blue. Start at
    /// the row of the three i; step one index up along each axis in that order. The four
    /// rows met have weights D - f1, f1 - f2, f2 - f3, f3." Of each f it is asked how many parts
    /// of the common D it is.
    fn correct_3d(&self, m: u16, den: i128, positions: &[Position; 3]) -> Look {
        let axes = greatest_first(positions);
        let mut index = [0, 1, 2].map(|colour| positions[colour].i);
        let mut path = vec![(self.row(&index), den - positions[axes[0]].over(den))];
        for (step, axis) in axes.iter().enumerate() {
            index[*axis] += 1;
            let next = axes.get(step + 1).map_or(0, |after| positions[*after].over(den));
            path.push((self.row(&index), positions[*axis].over(den) - next));
        }
        let mut look = refused(number::ACCEPTED);
        look.codes = [0, 1, 2].map(|colour| nearest(self.value(&path, colour, den), m));
        show(&path, &mut look, 0);
        look
    }

    /// "red index r, green g, blue b is row r + N·g + N·N·b"
    fn row(&self, index: &[i128; 3]) -> i128 {
        let n = i128::from(self.n);
        index[0] + n * index[1] + n * n * index[2]
    }

    /// "Let S be the sum of weight times sample in ten-millionths. The exact value is
    /// S / (D·10,000,000)." "The numbers of row n begin at place 3n."
    fn value(&self, path: &[(i128, i128)], colour: usize, den: i128) -> Fraction {
        let sample = |row: i128| i128::from(self.samples[3 * row as usize + colour]);
        let s = path.iter().map(|(row, weight)| weight * sample(*row)).sum();
        Fraction { num: s, den: den * i128::from(SAMPLE_UNITS) }
    }
}

/// A place between row i and the next: i and f / D, in one colour.
#[derive(Clone, Copy, Debug)]
struct Position {
    i: i128,
    f: i128,
    den: i128,
}

impl Position {
    /// "rows i and i+1, weights D-f and f".
    fn path_1d(&self) -> [(i128, i128); 2] {
        [(self.i, self.den - self.f), (self.i + 1, self.f)]
    }

    /// f as so many parts of another D, into which its own goes.
    fn over(&self, den: i128) -> i128 {
        self.f * (den / self.den)
    }

    /// Two fractions f / D are compared crosswise, whatever each D is.
    fn compare(&self, other: &Position) -> Ordering {
        (self.f * other.den).cmp(&(other.f * self.den))
    }
}

/// The axes by falling f / D; a stable sort, so that "equal ones stand red, green, blue".
fn greatest_first(positions: &[Position; 3]) -> [usize; 3] {
    let mut axes = [0, 1, 2];
    axes.sort_by(|one, other| positions[*other].compare(&positions[*one]));
    axes
}

/// Puts a path's rows and weights in the answer, from a place on; "places a kind does not
/// use are zero".
fn show(path: &[(i128, i128)], look: &mut Look, first: usize) {
    for (step, (row, weight)) in path.iter().enumerate() {
        look.rows[first + step] = *row as u32;
        look.weights[first + step] = *weight as i64;
    }
}

/// A value, exactly; the denominator is above 0.
#[derive(Clone, Copy, Debug)]
struct Fraction {
    num: i128,
    den: i128,
}

impl Fraction {
    /// How far the value times M is from a code, in parts of the denominator (000, 8:
    /// "shall scale the output range 0.0 to 1.0 to the integer encoding range").
    fn distance(&self, m: u16, code: i128) -> i128 {
        (self.num * i128::from(m) - code * self.den).abs()
    }
}

/// "The code given is the nearest from 0 to M, the greater of two equally near." Farther
/// codes on either side are farther from the value, so those about it are tried.
fn nearest(value: Fraction, m: u16) -> u16 {
    let greatest = i128::from(m);
    let about = (value.num * greatest / value.den).clamp(0, greatest);
    nearest_of((about - 1).max(0)..=(about + 1).min(greatest), value, m)
}

/// The nearest of a rising run of codes: a later one takes the place of an equally near.
fn nearest_of(codes: impl Iterator<Item = i128>, value: Fraction, m: u16) -> u16 {
    let nearer = |best: i128, code: i128| {
        if value.distance(m, code) <= value.distance(m, best) {
            code
        } else {
            best
        }
    };
    codes.reduce(nearer).unwrap_or(0) as u16
}

#[cfg(test)]
mod tests {
    use super::*;

    #[test]
    fn nearest_is_nearest_of_all_codes() {
        let dens = [1, 2, 3, 7, 255, 510, 1000, 2_550_000];
        for den in dens {
            for num in (-3 * den..=3 * den).step_by((den / 400 + 1) as usize) {
                for m in [255u16, 1023] {
                    let value = Fraction { num, den };
                    let all = nearest_of(0..=i128::from(m), value, m);
                    assert_eq!(nearest(value, m), all, "{num}/{den} of {m}");
                }
            }
        }
    }

    #[test]
    fn of_two_equally_near_the_greater() {
        // 1/510 of 255 is a half; 3/510 is one and a half; -1/510 is minus a half.
        assert_eq!(nearest(Fraction { num: 1, den: 510 }, 255), 1);
        assert_eq!(nearest(Fraction { num: 3, den: 510 }, 255), 2);
        assert_eq!(nearest(Fraction { num: -1, den: 510 }, 255), 0);
        assert_eq!(nearest(Fraction { num: 509, den: 510 }, 255), 255);
        assert_eq!(nearest(Fraction { num: 511, den: 510 }, 255), 255);
    }

    #[test]
    fn equal_fractions_stand_red_green_blue() {
        let at = |f| Position { i: 0, f, den: 10 };
        assert_eq!(greatest_first(&[at(1), at(1), at(1)]), [0, 1, 2]);
        assert_eq!(greatest_first(&[at(1), at(2), at(2)]), [1, 2, 0]);
        assert_eq!(greatest_first(&[at(2), at(1), at(2)]), [0, 2, 1]);
        assert_eq!(greatest_first(&[at(1), at(2), at(3)]), [2, 1, 0]);
    }

    #[test]
    fn fractions_stand_by_what_they_are_and_not_by_their_numerators() {
        let at = |f, den| Position { i: 0, f, den };
        assert_eq!(greatest_first(&[at(4, 20), at(3, 10), at(9, 90)]), [1, 0, 2]);
        assert_eq!(greatest_first(&[at(6, 60), at(1, 10), at(3, 30)]), [0, 1, 2]);
        assert_eq!(greatest_first(&[at(5, 60), at(1, 10), at(3, 30)]), [1, 2, 0]);
    }

    #[test]
    fn no_row_beyond_the_last_is_read() {
        let table: Vec<i64> = (0..27 * 3).collect();
        let cube = [3, 3, 0, 0, 0, 1000, 1000, 1000, 0, 0, 0];
        let top = look(&cube, &table, Bits::same(16), [65535; 3]);
        assert_eq!(top.rows, [13, 14, 17, 26, 0, 0]);
        assert_eq!(top.weights, [0, 0, 0, 65_535_000, 0, 0]);
    }
}
