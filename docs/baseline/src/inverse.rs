//! Which raw code gives a wanted corrected code: judged once, then tried from 0 upward.

use crate::picture::{axes, greatest_code, Axis, Bits};
use crate::{Description, Kind};

/// A code of one colour, 0 red, 1 green, 2 blue, and how far from it a corrected code may lie.
#[derive(Clone, Copy, PartialEq, Eq, Debug)]
pub struct Aim {
    pub colour: usize,
    pub wanted: u16,
    pub tolerance: u32,
}

/// A raw code, and how many were tried.
#[derive(Clone, Copy, PartialEq, Eq, Debug)]
pub struct Found {
    pub code: u16,
    pub count: u64,
}

/// Document 02's number, and for 28 how many codes were tried.
#[derive(Clone, Copy, PartialEq, Eq, Debug)]
pub struct Refused {
    pub number: u32,
    pub count: u64,
}

pub fn inverse(
    description: &Description,
    table: &[i64],
    bits: Bits,
    aim: Aim,
) -> Result<Found, Refused> {
    let refused = |number: u32| Refused { number, count: 0 };
    if description.kind == Kind::ThreeD || aim.colour > 2 {
        return Err(refused(24));
    }
    description.samples_of(table).ok_or(refused(24))?;
    let raw = greatest_code(bits.raw).map_err(refused)?;
    let corrected = greatest_code(bits.corrected).map_err(refused)?;
    if aim.wanted > corrected {
        return Err(refused(23));
    }
    let axis = &axes(description, [raw, corrected])[aim.colour];
    if raw == corrected {
        search::<false>(axis, table, raw, aim)
    } else {
        search::<true>(axis, table, raw, aim)
    }
}

/// Tries every code up to the raw M, or up to the first exact hit. SCALED is as for a picture.
fn search<const SCALED: bool>(
    axis: &Axis,
    table: &[i64],
    raw: u16,
    aim: Aim,
) -> Result<Found, Refused> {
    let (mut nearest, mut least) = (0, u16::MAX);
    let mut count = u64::from(raw) + 1;
    for code in 0..=raw {
        let off = axis.corrected::<SCALED>(table, aim.colour, code).abs_diff(aim.wanted);
        if off < least {
            (nearest, least) = (code, off);
        }
        if off == 0 {
            count = u64::from(code) + 1;
            break;
        }
    }
    if u32::from(least) <= aim.tolerance {
        Ok(Found { code: nearest, count })
    } else {
        Err(Refused { number: 28, count })
    }
}
