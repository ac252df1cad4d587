//! Looks, and what pictures are made of too: descriptions and tables that reading could and could not
//! have given, pixels on the borders of cells and with equal fractions, values on and beside the ties
//! of two codes, and every pair of depths.

use super::draws::Draws;
use super::files::{one_bound_not_whole, some_bounds, some_sample, two_colours_not_whole, Bounds};
use super::LookCase;
use crate::halves::used;
use crate::look::look as looked;
use crate::paper::{greatest_code, number, place, Bits, Description, Greatest, Kind};
use crate::paper::{BOUND_UNITS, DEPTHS, GREATEST_BOUND, GREATEST_SAMPLE, SAMPLE_UNITS};
use std::cmp::Reverse;

/// A description and a table.
pub struct Lent {
    pub description: Description,
    pub table: Vec<i64>,
}

type Break = fn(&mut Lent, &mut Draws);

/// Each clause of 24 alone and at its edge. Some keep the rules: the title's fields are
/// not judged, nor are places after the table's 3·rows.
const BREAKS: &[(&str, Break)] = &[
    ("kind unknown", kind_unknown),
    ("the other kind", other_kind),
    ("N below 2", n_below),
    ("N about its greatest", n_above),
    ("N another", n_another),
    ("a bound about its limit", bound_at_limit),
    ("a bound extreme", bound_extreme),
    ("a lower bound about its upper", lower_about_upper),
    ("a domain about 10 wide", domain_wide),
    ("domains that differ", domains_differ),
    ("a bound a whole away", bound_a_whole_away),
    ("one bound of mixed domains not whole", mixed_but_for_one),
    ("bounds of two colours not whole", mixed_but_for_two),
    ("the table one place short", table_one_short),
    ("the table empty", table_empty),
    ("the table shorter", table_shorter),
    ("a sample about its limit", sample_at_limit),
    ("a sample extreme", sample_extreme),
    ("the last sample beyond", last_sample_beyond),
    ("a later place extreme", later_place_extreme),
    ("title fields extreme", title_extreme),
    ("numbers at random", at_random),
];

pub fn look(draws: &mut Draws) -> LookCase {
    let (mut lent, bits, made) = lent_and_bits(draws);
    let mut pixel = some_pixel(draws, &lent.description, some_m(bits));
    aim(draws, &mut lent, bits, pixel);
    if draws.one_in(too_great(bits, 12)) {
        pixel[draws.below(3)] = above(draws, some_m(bits));
    }
    LookCase { description: lent.description, table: lent.table, bits, pixel, made }
}

pub fn lent_and_bits(draws: &mut Draws) -> (Lent, Bits, Vec<&'static str>) {
    let mut lent = kept(draws);
    let made = broken(draws, &mut lent);
    (lent, some_bits(draws), made)
}

/// Breaks a description and table in ways that are told, or leaves them.
pub fn broken(draws: &mut Draws, lent: &mut Lent) -> Vec<&'static str> {
    let mut made = Vec::new();
    let breaks = draws.pick(&[0, 0, 0, 0, 1, 1, 2]);
    for _ in 0..breaks {
        let (name, change) = draws.pick(BREAKS);
        change(lent, draws);
        made.push(name);
    }
    made
}

/// Two depths, often the same.
pub fn some_bits(draws: &mut Draws) -> Bits {
    let raw = some_depth(draws);
    let corrected = if draws.one_in(4) { raw } else { some_depth(draws) };
    Bits { raw, corrected }
}

pub const UNKNOWN: &[u32] = &[0, 1, 7, 9, 11, 13, 14, 15, 17, 24, 32, 64, 264, u32::MAX, 1 << 31];

fn some_depth(draws: &mut Draws) -> u32 {
    if draws.one_in(16) {
        draws.pick(UNKNOWN)
    } else {
        draws.pick(&DEPTHS).0
    }
}

/// The raw M, or one to draw codes by if there is none.
pub fn some_m(bits: Bits) -> u16 {
    greatest_code(bits.raw).unwrap_or(255)
}

/// Of how many cases one has a code above M: of few where an unknown depth has to go first.
pub fn too_great(bits: Bits, many: usize) -> usize {
    if bits.greatest().is_some() {
        many
    } else {
        2
    }
}

/// A code above M if there is one of 16 bits, often by one.
pub fn above(draws: &mut Draws, m: u16) -> u16 {
    match draws.below(3) {
        0 => m.saturating_add(1),
        1 => u16::MAX,
        _ => draws.between(i64::from(m), 65_535) as u16,
    }
}

/// Now and then the samples that a look weighs are set as `aim_at` sets them.
pub fn aim(draws: &mut Draws, lent: &mut Lent, bits: Bits, pixel: [u16; 3]) {
    let seen = looked(&lent.description, &lent.table, bits, pixel);
    if seen.number == number::ACCEPTED && draws.one_in(4) {
        aim_at(draws, lent, bits, &seen.rows, &seen.weights);
    }
}

/// Of a table that reading could have given, sets the two samples that weigh most for a colour so
/// that its value is that of a tie of two corrected codes, or as near to one as the weights allow,
/// from below or from above. Its other samples are set from 0 to 1, so that these two can make up
/// for them.
pub fn aim_at(draws: &mut Draws, lent: &mut Lent, bits: Bits, rows: &[u32; 6], weights: &[i64; 6]) {
    let (Some(m), Some(kind)) = (bits.greatest(), Kind::of_mark(lent.description[place::KIND]))
    else {
        return;
    };
    let colour = draws.below(3);
    // the greatest weight first
    let mut shares: Vec<usize> = used(kind, colour).collect();
    shares.sort_by_key(|share| Reverse(weights[*share]));
    let at = |share: &usize| 3 * rows[*share] as usize + colour;
    let weight = |share: &usize| i128::from(weights[*share]);
    let (heavy, light) = shares.split_at(2);
    let mut rest = 0;
    for share in light {
        lent.table[at(share)] = some_sample(draws, 1);
        rest += weight(share) * i128::from(lent.table[at(share)]);
    }
    let weights = [weight(&heavy[0]), weight(&heavy[1])];
    let sum = sum_near_tie(draws, m, shares.iter().map(weight).sum(), weights, rest);
    for (share, sample) in heavy.iter().zip(weighing(weights, sum)) {
        lent.table[at(share)] = sample as i64;
    }
}

/// Of the sums that can be made with the weights, the one that makes with the rest the half
/// between two corrected codes, or the next below or above it. Half of the ties are those that a
/// whole sum can meet. `den` is what all weights add up to.
fn sum_near_tie(draws: &mut Draws, m: Greatest, den: i128, weights: [i128; 2], rest: i128) -> i128 {
    let (common, _) = common_divisor(m.corrected.into(), m.raw.into());
    let (step, _) = common_divisor(weights[0], weights[1]);
    let m = i64::from(m.corrected);
    let unit = if draws.one_in(2) { m / common as i64 } else { 1 };
    let halves = unit * (2 * draws.between(0, m / unit - 1) + 1);
    let twice = i128::from(2 * m);
    let wanted = i128::from(halves) * den * i128::from(SAMPLE_UNITS) - rest * twice;
    let steps = wanted.div_euclid(twice * step);
    step * (steps + i128::from(draws.between(0, 1)))
}

/// Two samples that make the sum with their weights; what divides both weights divides it.
fn weighing([here, next]: [i128; 2], sum: i128) -> [i128; 2] {
    let (step, inverse) = common_divisor(next, here + next);
    let (sum, next, den) = (sum / step, next / step, (here + next) / step);
    let rise = (sum % den * inverse).rem_euclid(den);
    let first = (sum - next * rise) / den;
    [first, first + rise]
}

/// The greatest common divisor of two numbers, and what the first is multiplied by to make it,
/// but for a multiple of the second.
pub fn common_divisor(one: i128, other: i128) -> (i128, i128) {
    let (mut now, mut after) = ((one, 1), (other, 0));
    while after.0 != 0 {
        let times = now.0 / after.0;
        (now, after) = (after, (now.0 - times * after.0, now.1 - times * after.1));
    }
    now
}

/// A description and table that reading could have given.
pub fn kept(draws: &mut Draws) -> Lent {
    let kind = draws.pick(&[Kind::OneD, Kind::ThreeD]);
    let n = some_n(draws, kind);
    let mut description = [kind.mark(), n, 0, 0, 0, 0, 0, 0, 0, 0, 0];
    set_bounds(&mut description, some_bounds(draws, kind));
    if draws.one_in(4) {
        description[place::TITLE] = 1;
        description[place::TITLE_PLACE] = draws.between(7, 5_000);
        description[place::TITLE_LENGTH] = draws.between(0, 240);
    }
    let style = draws.below(5);
    let spare = draws.pick(&[0, 0, 0, 1, 3, 10]);
    let length = 3 * kind.rows(n) + spare;
    Lent { description, table: (0..length).map(|_| some_sample(draws, style)).collect() }
}

pub fn set_bounds(description: &mut Description, (lower, upper): Bounds) {
    description[place::LOWER..place::LOWER + 3].copy_from_slice(&lower);
    description[place::UPPER..place::UPPER + 3].copy_from_slice(&upper);
}

/// N, mostly small; often one more than a divisor of M, so that borders fall on codes.
pub fn some_n(draws: &mut Draws, kind: Kind) -> i64 {
    let rank = draws.below(1000);
    match (kind, rank) {
        (Kind::OneD, 0) => draws.pick(&[65_535, 65_536, 4096]),
        (Kind::OneD, 1..=20) => draws.pick(&[256, 1024, 1025, 257, 64]),
        (Kind::OneD, 21..=300) => draws.pick(&[4, 6, 16, 18, 32, 52]),
        (Kind::OneD, _) => draws.between(2, 9),
        (Kind::ThreeD, 0..=2) => draws.pick(&[17, 33, 16]),
        (Kind::ThreeD, 3..=40) => draws.between(5, 9),
        (Kind::ThreeD, 41..=300) => draws.pick(&[4, 6, 3]),
        (Kind::ThreeD, _) => draws.between(2, 3),
    }
}

/// Three codes: apart, all alike, two alike, whole cells apart, or equally far along their domains.
pub fn some_pixel(draws: &mut Draws, description: &Description, m: u16) -> [u16; 3] {
    let mut pixel = [0, 1, 2].map(|colour| some_code(draws, description, colour, m));
    match draws.below(6) {
        0 => pixel = [pixel[0]; 3],
        1 => pixel[draws.below(3)] = pixel[draws.below(3)],
        2 => {
            let cell = i64::from(m) / (description[place::N].clamp(2, 300) - 1);
            let moved = i64::from(pixel[0]) + cell * draws.between(-3, 3);
            pixel[1 + draws.below(2)] = moved.clamp(0, i64::from(m)) as u16;
        }
        3 => equally_far(draws, description, m, &mut pixel),
        _ => {}
    }
    pixel
}

/// Moves codes as far along their domains as one of them is, by whole parts of M, or a whole cell
/// further or less far: then their fractions are equal, whatever the widths. Some stay, and so
/// does one for which there is no such code.
fn equally_far(draws: &mut Draws, description: &Description, m: u16, pixel: &mut [u16; 3]) {
    let wide = |index: usize| i128::from(description[index]);
    let (m, whole) = (i128::from(m), i128::from(BOUND_UNITS));
    let domains = [0, 1, 2].map(|colour| {
        let lo = wide(place::LOWER + colour);
        (lo * m, (wide(place::UPPER + colour) - lo).max(1))
    });
    let one = draws.below(3);
    let (start, width) = domains[one];
    let along = ((whole * i128::from(pixel[one]) - start) / width).clamp(0, m);
    let cells = wide(place::N).clamp(2, 65_536) - 1;
    let cell = if m % cells == 0 { m / cells } else { 0 };
    for (code, (start, width)) in pixel.iter_mut().zip(domains) {
        let there = start + width * (along + cell * i128::from(draws.between(-1, 1)));
        if there % whole == 0 && (0..=whole * m).contains(&there) && !draws.one_in(4) {
            *code = (there / whole) as u16;
        }
    }
}

/// A code from 0 to M: an end, any, or one at or beside the border of a cell.
fn some_code(draws: &mut Draws, description: &Description, colour: usize, m: u16) -> u16 {
    match draws.below(8) {
        0 => 0,
        1 => m,
        2 | 3 => draws.between(0, i64::from(m)) as u16,
        _ => border_code(draws, description, colour, m),
    }
}

/// The code at or beside the place of a row (or of a bound).
fn border_code(draws: &mut Draws, description: &Description, colour: usize, m: u16) -> u16 {
    let wide = |index: usize| i128::from(description[index]);
    let (m, lo) = (i128::from(m), wide(place::LOWER + colour));
    let cells = wide(place::N).clamp(2, 65_536) - 1;
    let row = i128::from(draws.between(0, cells as i64));
    let thousandths = lo * cells + row * (wide(place::UPPER + colour) - lo);
    let code = m * thousandths / (1000 * cells) + i128::from(draws.between(-1, 1));
    code.clamp(0, m) as u16
}

// Breaking a description or a table.

pub const EXTREMES: &[i64] = &[
    i64::MIN,
    i64::MAX,
    i64::MIN + 1,
    -1,
    0,
    1 << 32,
    -(1 << 32),
    1 << 62,
    -(1 << 62),
    (1 << 32) + 2,
];

fn any_bound(draws: &mut Draws) -> usize {
    place::LOWER + draws.below(6)
}

fn kind_unknown(lent: &mut Lent, draws: &mut Draws) {
    let near = draws.pick(&[0, 2, 4, -1, -3, 257, 259, (1 << 32) + 1, (1 << 32) + 3]);
    lent.description[place::KIND] = if draws.one_in(3) { draws.pick(EXTREMES) } else { near };
}

fn other_kind(lent: &mut Lent, _: &mut Draws) {
    lent.description[place::KIND] = 4 - lent.description[place::KIND].clamp(1, 3);
}

fn n_below(lent: &mut Lent, draws: &mut Draws) {
    lent.description[place::N] = draws.pick(&[1, 0, -1, -2, i64::MIN]);
}

fn n_above(lent: &mut Lent, draws: &mut Draws) {
    let edges = [256, 257, 65_536, 65_537, 1 << 21, 2_642_246, 1 << 32, i64::MAX, (1 << 32) + 2];
    lent.description[place::N] = draws.pick(&edges);
}

fn n_another(lent: &mut Lent, draws: &mut Draws) {
    let n = lent.description[place::N];
    lent.description[place::N] = n.saturating_add(draws.between(-2, 2));
}

fn bound_at_limit(lent: &mut Lent, draws: &mut Draws) {
    let limits = [GREATEST_BOUND, GREATEST_BOUND + 1, -GREATEST_BOUND, -GREATEST_BOUND - 1];
    let (limit, at) = (draws.pick(&limits), draws.below(3));
    // The other bound goes along, so that only the limit may be broken.
    let towards = if limit > 0 { -1 } else { 1 };
    let (kept, moved) =
        if limit > 0 { (place::UPPER, place::LOWER) } else { (place::LOWER, place::UPPER) };
    let alike = lent.description[place::KIND] == 3 || draws.one_in(2);
    for colour in (0..3).filter(|colour| alike || *colour == at) {
        lent.description[kept + colour] = limit;
        lent.description[moved + colour] = limit + 500 * towards;
    }
}

fn bound_extreme(lent: &mut Lent, draws: &mut Draws) {
    lent.description[any_bound(draws)] = draws.pick(EXTREMES);
    if draws.one_in(2) {
        lent.description[any_bound(draws)] = draws.pick(EXTREMES);
    }
}

/// Sets a colour's domain, or every colour's in 3D.
fn set_domain(lent: &mut Lent, draws: &mut Draws, lower: i64, upper: i64) {
    let at = draws.below(3);
    let all = lent.description[place::KIND] == 3;
    for colour in (0..3).filter(|colour| all || *colour == at) {
        lent.description[place::LOWER + colour] = lower;
        lent.description[place::UPPER + colour] = upper;
    }
}

fn lower_about_upper(lent: &mut Lent, draws: &mut Draws) {
    let lower = draws.between(-GREATEST_BOUND + 1, GREATEST_BOUND - 1);
    let upper = lower + draws.between(-1, 1);
    set_domain(lent, draws, lower, upper);
}

fn domain_wide(lent: &mut Lent, draws: &mut Draws) {
    let lower = draws.between(-GREATEST_BOUND, -1);
    let upper = lower + draws.pick(&[9_999, 10_000, 10_001]);
    set_domain(lent, draws, lower, upper);
}

fn domains_differ(lent: &mut Lent, draws: &mut Draws) {
    let at = any_bound(draws);
    lent.description[at] = lent.description[at].saturating_add(draws.pick(&[-1, 1]));
}

fn bound_a_whole_away(lent: &mut Lent, draws: &mut Draws) {
    let at = any_bound(draws);
    let by = draws.pick(&[-BOUND_UNITS, BOUND_UNITS]);
    lent.description[at] = lent.description[at].saturating_add(by);
}

fn mixed_but_for_one(lent: &mut Lent, draws: &mut Draws) {
    set_bounds(&mut lent.description, one_bound_not_whole(draws));
}

fn mixed_but_for_two(lent: &mut Lent, draws: &mut Draws) {
    set_bounds(&mut lent.description, two_colours_not_whole(draws));
}

/// The places that the description asks for, if they are within what is there.
fn needed(lent: &Lent) -> usize {
    let n = lent.description[place::N].clamp(0, 300_000) as usize;
    let rows = if lent.description[place::KIND] == 3 { n.min(256).pow(3) } else { n };
    (3 * rows).min(lent.table.len())
}

fn table_one_short(lent: &mut Lent, _: &mut Draws) {
    lent.table.truncate(needed(lent).saturating_sub(1));
}

fn table_empty(lent: &mut Lent, _: &mut Draws) {
    lent.table.clear();
}

fn table_shorter(lent: &mut Lent, draws: &mut Draws) {
    let keep = draws.below(lent.table.len() + 1);
    lent.table.truncate(keep);
}

fn set_sample(lent: &mut Lent, draws: &mut Draws, sample: i64) {
    if !lent.table.is_empty() {
        let at = draws.below(lent.table.len());
        lent.table[at] = sample;
    }
}

fn sample_at_limit(lent: &mut Lent, draws: &mut Draws) {
    let size = GREATEST_SAMPLE + draws.between(-1, 1);
    let sample = size * draws.pick(&[1, -1]);
    set_sample(lent, draws, sample);
}

fn sample_extreme(lent: &mut Lent, draws: &mut Draws) {
    let sample = draws.pick(EXTREMES);
    set_sample(lent, draws, sample);
}

fn last_sample_beyond(lent: &mut Lent, draws: &mut Draws) {
    if let Some(last) = needed(lent).checked_sub(1) {
        lent.table[last] = (GREATEST_SAMPLE + 1) * draws.pick(&[1, -1]);
    }
}

fn later_place_extreme(lent: &mut Lent, draws: &mut Draws) {
    lent.table.push(draws.pick(&[i64::MIN, i64::MAX, GREATEST_SAMPLE + 1]));
}

fn title_extreme(lent: &mut Lent, draws: &mut Draws) {
    for index in [place::TITLE, place::TITLE_PLACE, place::TITLE_LENGTH] {
        lent.description[index] = draws.pick(EXTREMES);
    }
}

fn at_random(lent: &mut Lent, draws: &mut Draws) {
    for _ in 0..draws.below(4) + 1 {
        let at = draws.below(11);
        lent.description[at] = match draws.below(3) {
            0 => draws.number() as i64,
            1 => draws.between(-20_000, 20_000),
            _ => draws.between(0, 4),
        };
    }
}

#[cfg(test)]
mod tests {
    use super::*;

    #[test]
    fn samples_that_make_a_sum() {
        for (weights, sum) in [([3, 4], 100), ([4, 6], 32), ([0, 5], 15), ([5, 0], 15)] {
            let [first, second] = weighing(weights, sum);
            assert_eq!(weights[0] * first + weights[1] * second, sum, "{weights:?}");
        }
    }

    #[test]
    fn divisors() {
        assert_eq!(common_divisor(65_535, 4095).0, 15);
        assert_eq!(common_divisor(1023, 255).0, 3);
        assert_eq!(common_divisor(0, 9), (9, 0));
    }
}
