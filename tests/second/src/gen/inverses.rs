//! Inverses: 1D tables whose colours rise, fall, stay, turn or jump; wanted codes that are hit at
//! either end of the raw codes, between them or nowhere; tolerances about the distance of the
//! nearest code, and the greatest; every pair of depths; colours that are none, and 3D tables.

use super::draws::Draws;
use super::files::{some_bounds, some_sample};
use super::lookups::{above, broken, kept, set_bounds, some_n, Lent, UNKNOWN};
use super::InverseCase;
use crate::inverse::{all_corrected, colour, Aim};
use crate::look::Cube;
use crate::paper::{greatest_code, Bits, Greatest, Kind};
use crate::paper::{DEFAULT_LOWER, DEFAULT_UPPER, DEPTHS, SAMPLE_UNITS};

/// The sample of a row that stands so far along, in ten-millionths of the line.
type Shape = fn(i64) -> i64;

const ONE: i64 = SAMPLE_UNITS;

/// What one colour of a table can be, from 0 to 1 or beyond. Steps are flat stretches with jumps
/// between them, and what is outside 0 to 1 is one more.
const WIDE: &[(&str, Shape)] = &[
    ("rising", |along| along),
    ("falling", |along| ONE - along),
    ("rising beyond 0 and 1", |along| 2 * along - ONE / 2),
    ("falling beyond 0 and 1", |along| 3 * ONE / 2 - 2 * along),
    ("rising in steps", |along| along * 3 / ONE * (ONE / 3)),
    ("falling in steps", |along| ONE - along * 3 / ONE * (ONE / 3)),
    ("rising and falling", |along| ONE - (2 * along - ONE).abs()),
    ("falling and rising", |along| (2 * along - ONE).abs()),
];

/// Those that leave codes out of reach.
const NARROW: &[(&str, Shape)] = &[
    ("rising from 0.25 to 0.75", |along| ONE / 4 + along / 2),
    ("falling from 0.75 to 0.5", |along| 3 * ONE / 4 - along / 4),
    ("rising a little", |along| along / 1_000),
    ("0 throughout", |_| 0),
    ("1 throughout", |_| ONE),
    ("a third throughout", |_| ONE / 3),
];

pub fn inverse(draws: &mut Draws) -> InverseCase {
    let narrow = draws.one_in(2);
    let shapes = if narrow { NARROW } else { WIDE };
    let (mut lent, mut made) =
        if draws.one_in(8) { (kept(draws), Vec::new()) } else { lines(draws, shapes) };
    made.extend(broken(draws, &mut lent));
    let bits = some_bits(draws);
    let colour = some_colour(draws);
    let mut aim = Aim { colour, wanted: 0, tolerance: 0 };
    aim.wanted = some_wanted(draws, &lent, bits, aim, narrow);
    aim.tolerance = some_tolerance(draws, &lent, bits, aim);
    InverseCase { description: lent.description, table: lent.table, bits, aim, made }
}

/// A 1D table, each colour with a shape of its own or with any samples.
fn lines(draws: &mut Draws, shapes: &[(&'static str, Shape)]) -> (Lent, Vec<&'static str>) {
    let n = some_n(draws, Kind::OneD);
    let mut description = [Kind::OneD.mark(), n, 0, 0, 0, 0, 0, 0, 0, 0, 0];
    let plain = (DEFAULT_LOWER, DEFAULT_UPPER);
    let bounds = if draws.one_in(2) { plain } else { some_bounds(draws, Kind::OneD) };
    set_bounds(&mut description, bounds);
    let spare = draws.pick(&[0, 0, 0, 1, 3]);
    let mut table = vec![0; 3 * Kind::OneD.rows(n) + spare];
    let mut made = Vec::new();
    for colour in 0..3 {
        let any = draws.one_in(4);
        let (name, shape) = draws.pick(shapes);
        let style = draws.below(4);
        for row in 0..n {
            let sample = if any { some_sample(draws, style) } else { shape(ONE * row / (n - 1)) };
            table[3 * row as usize + colour] = sample;
        }
        made.push(if any { "any samples" } else { name });
    }
    (Lent { description, table }, made)
}

/// Two depths, and now and then one of them unknown, or both. Raw codes of 16 bits are many to try,
/// so they are fewer.
fn some_bits(draws: &mut Draws) -> Bits {
    let mut bits = Bits { raw: draws.pick(&DEPTHS).0, corrected: draws.pick(&DEPTHS).0 };
    if bits.raw == 16 && draws.one_in(2) {
        bits.raw = draws.pick(&DEPTHS).0;
    }
    if draws.one_in(8) {
        let which = draws.below(3);
        bits.raw = if which == 0 { bits.raw } else { draws.pick(UNKNOWN) };
        bits.corrected = if which == 1 { bits.corrected } else { draws.pick(UNKNOWN) };
    }
    bits
}

/// Red, green or blue, and now and then none: also those that are one of them in fewer bits.
fn some_colour(draws: &mut Draws) -> u32 {
    const NONE: &[u32] = &[3, 3, 4, 255, 256, 257, 258, 1 << 16, (1 << 16) + 2, 1 << 31, u32::MAX];
    if draws.one_in(10) {
        draws.pick(NONE)
    } else {
        draws.below(3) as u32
    }
}

/// The line of a colour, if there is one that can be searched, and the two M.
fn searched(lent: &Lent, bits: Bits, aim: Aim) -> Option<(Cube<'_>, Greatest, usize)> {
    let line = Cube::of(&lent.description, &lent.table).filter(|cube| cube.kind == Kind::OneD)?;
    Some((line, bits.greatest()?, colour(aim)?))
}

/// A code from 0 to M: an end, any, or one that is hit, is beside one that is or half way to the
/// next; and now and then one above. Of lines that leave codes out of reach it is an end more often.
fn some_wanted(draws: &mut Draws, lent: &Lent, bits: Bits, aim: Aim, narrow: bool) -> u16 {
    let m = greatest_code(bits.corrected).unwrap_or(255);
    if draws.one_in(if bits.greatest().is_some() { 8 } else { 3 }) {
        return above(draws, m);
    }
    let ways = if narrow { 3 } else { 8 };
    match (draws.below(ways), searched(lent, bits, aim)) {
        (0, _) => 0,
        (1, _) => m,
        (2.., Some((line, m, colour))) => {
            let any = draws.between(0, i64::from(m.raw)) as u16;
            let raw = draws.pick(&[0, m.raw, m.raw, any, any]);
            let code = |raw| i64::from(line.code_1d(m.raw, m.corrected, colour, raw));
            let half_way = (code(raw) + code(raw.saturating_add(1).min(m.raw))) / 2;
            let hit = code(raw);
            let wanted = draws.pick(&[hit, hit, hit - 1, hit + 1, half_way, half_way]);
            wanted.clamp(0, i64::from(m.corrected)) as u16
        }
        _ => draws.between(0, i64::from(m)) as u16,
    }
}

/// None, a few codes, some, more than there are; or as many as the nearest code needs, or one more
/// or fewer, which at 16 bits is long to find.
fn some_tolerance(draws: &mut Draws, lent: &Lent, bits: Bits, aim: Aim) -> u32 {
    const MANY: &[u32] = &[254, 255, 65_534, 65_535, 65_536, 65_537, 1 << 31, u32::MAX, u32::MAX];
    match draws.below(8) {
        0..=2 => 0,
        3 => draws.between(1, 5) as u32,
        4 => draws.pick(MANY),
        5 => draws.between(0, i64::from(greatest_code(bits.corrected).unwrap_or(255))) as u32,
        _ if bits.raw == 16 && !draws.one_in(8) => draws.pick(MANY),
        _ => about_distance(draws, lent, bits, aim),
    }
}

fn about_distance(draws: &mut Draws, lent: &Lent, bits: Bits, aim: Aim) -> u32 {
    let by = draws.between(-1, 1);
    let nearest = searched(lent, bits, aim).and_then(|(line, m, colour)| {
        let codes = all_corrected(&line, m.raw, m.corrected, colour);
        codes.iter().map(|code| code.abs_diff(aim.wanted)).min()
    });
    (i64::from(nearest.unwrap_or(2)) + by).max(0) as u32
}

#[cfg(test)]
mod tests {
    use super::*;

    #[test]
    fn shapes_end_where_their_names_say() {
        let ends = |wanted: &str| {
            let mut shapes = WIDE.iter().chain(NARROW);
            let shape = shapes.find(|(name, _)| *name == wanted).map(|(_, shape)| shape);
            shape.map(|shape| [shape(0), shape(ONE)])
        };
        assert_eq!(ends("rising"), Some([0, ONE]));
        assert_eq!(ends("falling"), Some([ONE, 0]));
        assert_eq!(ends("rising beyond 0 and 1"), Some([-ONE / 2, 3 * ONE / 2]));
        assert_eq!(ends("rising from 0.25 to 0.75"), Some([ONE / 4, 3 * ONE / 4]));
        assert_eq!(ends("falling from 0.75 to 0.5"), Some([3 * ONE / 4, ONE / 2]));
        assert_eq!(ends("rising and falling"), Some([0, 0]));
    }

    #[test]
    fn lines_are_of_1d() {
        for index in 0..200 {
            let shapes = if index % 2 == 0 { WIDE } else { NARROW };
            let (lent, _) = lines(&mut Draws::of(1, 8, index), shapes);
            assert_eq!(lent.description[0], 1);
            assert!(Cube::of(&lent.description, &lent.table).is_some());
        }
    }
}
