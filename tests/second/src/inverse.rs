//! The inverse: which raw code gives a wanted corrected code, in one colour of a 1D table.
//!
//! Document 02, Req 04, with Req 06's two depths. The paper tells it as a search from 0 upward. Here
//! nothing is searched: all raw codes are corrected into a list, whether or not one is a hit; the
//! least of all pairs of distance and code is the nearest code, the lowest if several; and how many
//! codes would have been tried comes from where the list first has the wanted code.

use crate::look::Cube;
use crate::paper::{greatest_code, number, Bits, Description, Kind};

/// "a wanted code and a tolerance of 0 or more codes", on one colour as a number.
#[derive(Clone, Copy, PartialEq, Eq, Debug)]
pub struct Aim {
    pub colour: u32,
    pub wanted: u16,
    pub tolerance: u32,
}

/// The complete answer of the inverse.
#[derive(Clone, PartialEq, Eq, Debug)]
pub struct Inverse {
    pub number: u32,
    pub code: u16,
    pub count: u64,
}

/// "Refusals: 24, 20, 23 for the wanted code, then 28 exactly if no raw code comes within the
/// tolerance; 28 still gives the true count, with code 0, and the earlier ones give zeros." "For a 3D
/// table the answer is 24." "23 goes by the raw M, for the inverse's wanted code by the corrected M."
pub fn inverse(description: &Description, table: &[i64], bits: Bits, aim: Aim) -> Inverse {
    let line = Cube::of(description, table).filter(|cube| cube.kind == Kind::OneD);
    let (Some(line), Some(colour)) = (line, colour(aim)) else {
        return refused(number::NOT_FROM_READING, 0);
    };
    let (Some(raw), Some(corrected)) = (greatest_code(bits.raw), greatest_code(bits.corrected))
    else {
        return refused(number::DEPTH_UNKNOWN, 0);
    };
    if aim.wanted > corrected {
        return refused(number::CODE_ABOVE_M, 0);
    }
    found(&all_corrected(&line, raw, corrected, colour), aim)
}

fn refused(number: u32, count: u64) -> Inverse {
    Inverse { number, code: 0, count }
}

/// "one colour, a kind of three values": 0, 1 and 2, and any other number is none.
pub fn colour(aim: Aim) -> Option<usize> {
    [0, 1, 2].into_iter().find(|colour| *colour == aim.colour as usize)
}

/// What each raw code from 0 to M is corrected to.
pub fn all_corrected(line: &Cube, raw: u16, corrected: u16, colour: usize) -> Vec<u16> {
    (0..=raw).map(|code| line.code_1d(raw, corrected, colour, code)).collect()
}

/// The answer of a list of corrected codes. "the count of codes tried is part of the answer: the hit
/// plus 1, or M plus 1".
pub fn found(corrected: &[u16], aim: Aim) -> Inverse {
    let distances = corrected.iter().map(|code| u32::from(code.abs_diff(aim.wanted)));
    let nearest = distances.zip(0u16..=u16::MAX).min();
    let hit = corrected.iter().position(|code| *code == aim.wanted);
    let count = hit.map_or(corrected.len(), |hit| hit + 1) as u64;
    match nearest {
        Some((distance, code)) if distance <= aim.tolerance => {
            Inverse { number: number::ACCEPTED, code, count }
        }
        _ => refused(number::NONE_WITHIN_TOLERANCE, count),
    }
}

#[cfg(test)]
mod tests {
    use super::*;

    /// What a list of corrected codes gives: number, code, count.
    fn of(corrected: &[u16], wanted: u16, tolerance: u32) -> (u32, u16, u64) {
        let found = found(corrected, Aim { colour: 0, wanted, tolerance });
        (found.number, found.code, found.count)
    }

    #[test]
    fn the_first_exact_hit_ends_the_count() {
        assert_eq!(of(&[5, 7, 9, 7], 7, 0), (0, 1, 2));
        assert_eq!(of(&[7, 7, 7, 7], 7, 0), (0, 0, 1));
        assert_eq!(of(&[5, 6, 8, 7], 7, 9), (0, 3, 4));
        // not one that is within the tolerance
        assert_eq!(of(&[6, 8, 7, 9], 7, 1), (0, 2, 3));
    }

    #[test]
    fn the_nearest_is_the_lowest_of_several() {
        assert_eq!(of(&[9, 8, 6, 8], 7, 1), (0, 1, 4));
        assert_eq!(of(&[0, 6, 8, 6], 7, 1), (0, 1, 4));
        assert_eq!(of(&[3, 3, 3, 3], 7, 4), (0, 0, 4));
    }

    #[test]
    fn none_within_the_tolerance_has_its_count() {
        assert_eq!(of(&[9, 8, 6, 8], 7, 0), (28, 0, 4));
        assert_eq!(of(&[0, 0, 0, 0], u16::MAX, 65_534), (28, 0, 4));
        assert_eq!(of(&[0, 0, 0, 0], u16::MAX, 65_535), (0, 0, 4));
        assert_eq!(of(&[0, 0, 0, 0], u16::MAX, u32::MAX), (0, 0, 4));
    }

    #[test]
    fn colours_are_three() {
        let of = |colour| super::colour(Aim { colour, wanted: 0, tolerance: 0 });
        assert_eq!([0, 1, 2].map(of), [0, 1, 2].map(Some));
        assert_eq!([3, 4, 256, 1 << 16, u32::MAX].map(of), [None; 5]);
    }
}
