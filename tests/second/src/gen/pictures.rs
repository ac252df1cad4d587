//! Pictures: short ones, and long ones about the lengths at which a program may go another way. The
//! proved one corrects 3D a block of pixels at a time; in 1D it finds what each raw code is corrected
//! to beforehand where there are more pixels than raw codes, and else a piece for each cell where
//! there are not too many. A long picture is made of stretches that are drawn in unlike ways; codes
//! of 0, M and above M stand on either side of the ends of blocks too.

use super::draws::Draws;
use super::files::{bounds_of, some_sample, Bounds};
use super::lookups::{above, aim, broken, kept, set_bounds, some_bits, some_m, some_pixel};
use super::lookups::{too_great, Lent};
use super::PictureCase;
use crate::paper::{place, Bits, Description, Kind};
use crate::paper::{BOUND_UNITS, DEFAULT_LOWER, DEFAULT_UPPER, GREATEST_SAMPLE, SAMPLE_UNITS};

/// The pixels of a block.
pub const BLOCK: usize = 64;

/// The codes of a block.
pub const BLOCK_CODES: usize = 3 * BLOCK;

/// The rows of a 1D table that has about 1,024 cells.
pub const MANY_ROWS: [i64; 4] = [1_023, 1_024, 1_025, 1_026];

/// The least sample that has more than 33 bits, in ten-millionths.
pub const BEYOND_33_BITS: i64 = 1 << 33;

pub fn picture(draws: &mut Draws) -> PictureCase {
    let mut lent = lent(draws);
    let many_rows = MANY_ROWS.contains(&lent.description[place::N]);
    let made = broken(draws, &mut lent);
    let bits = if many_rows && draws.one_in(3) { Bits::same(16) } else { some_bits(draws) };
    let pixels = some_pixels(draws, bits);
    let mut source = some_source(draws, &lent.description, some_m(bits), pixels);
    if let Some(first) = source.first_chunk() {
        aim(draws, &mut lent, bits, *first);
    }
    if draws.one_in(8) {
        wrong_length(draws, &mut source);
    }
    if draws.one_in(too_great(bits, 8)) && !source.is_empty() {
        let at = some_place(draws, source.len());
        source[at] = above(draws, some_m(bits));
    }
    let output_len = some_output_len(draws, source.len());
    PictureCase { description: lent.description, table: lent.table, bits, source, output_len, made }
}

// ---- the description and the table

/// A description and table that reading could have given, at times with domains that all codes lie
/// in, with about 1,024 cells in 1D, or with samples that all have few bits but for one.
fn lent(draws: &mut Draws) -> Lent {
    let mut lent = kept(draws);
    let kind = Kind::of_mark(lent.description[place::KIND]).unwrap_or(Kind::OneD);
    if draws.one_in(4) {
        set_bounds(&mut lent.description, bounds_around(draws, kind));
    }
    if kind == Kind::OneD && draws.one_in(3) {
        lent = many_rows(draws, lent);
    }
    set_samples(draws, &mut lent);
    lent
}

/// Domains that all codes lie in, from 0 to 1 or wider, up to 10: often one for all colours, and in
/// 3D whole ones if they are to differ.
fn bounds_around(draws: &mut Draws, kind: Kind) -> Bounds {
    let step = draws.pick(&[1, BOUND_UNITS]);
    let domains = [0; 3].map(|_| {
        let below = draws.between(0, 5 * BOUND_UNITS / step) * step;
        let above = draws.between(0, 4 * BOUND_UNITS / step) * step;
        (-below, BOUND_UNITS + above)
    });
    let not_whole = kind == Kind::ThreeD && step != BOUND_UNITS;
    bounds_of(if not_whole || draws.one_in(2) { [domains[0]; 3] } else { domains })
}

/// A 1D table of about 1,024 cells, mostly with domains from 0 to 1.
fn many_rows(draws: &mut Draws, mut lent: Lent) -> Lent {
    let rows = draws.pick(&MANY_ROWS);
    lent.description[place::N] = rows;
    if !draws.one_in(4) {
        set_bounds(&mut lent.description, (DEFAULT_LOWER, DEFAULT_UPPER));
    }
    let style = draws.below(4);
    lent.table = (0..3 * rows).map(|_| some_sample(draws, style)).collect();
    lent
}

/// Sets all samples of some tables anew: from 0 to 1, or up to 33 bits, one of them the greatest of
/// those, and then at times one to a number beyond them on either side.
fn set_samples(draws: &mut Draws, lent: &mut Lent) {
    let most = match draws.below(6) {
        0 | 1 => SAMPLE_UNITS,
        2 => BEYOND_33_BITS - 1,
        _ => return,
    };
    lent.table.fill_with(|| draws.between(0, most));
    let places = [0; 2].map(|_| draws.below(lent.table.len()));
    lent.table[places[0]] = most;
    if !draws.one_in(3) {
        lent.table[places[1]] =
            draws.pick(&[BEYOND_33_BITS, GREATEST_SAMPLE, -1, -GREATEST_SAMPLE]);
    }
}

// ---- the pixels

/// How many pixels: few, about the end of a block, about as many as there are raw codes, or more.
fn some_pixels(draws: &mut Draws, bits: Bits) -> usize {
    let beside = draws.between(-1, 1);
    let about = |pixels: usize| pixels.saturating_add_signed(beside as isize);
    match draws.below(20) {
        0..=5 => draws.pick(&[0, 1, 1, 2, 3, 5, 8, 13, 40]),
        6..=11 => about(BLOCK * draws.pick(&[1, 1, 2, 2, 3])),
        12 => 200,
        13..=16 => about(some_codes(draws, bits)),
        17 | 18 => about(some_codes(draws, bits)) + draws.below(3 * BLOCK),
        _ => draws.below(1_000),
    }
}

/// As many as the raw depth has codes; where it is the greatest, mostly as many as another has,
/// since such a picture takes long.
fn some_codes(draws: &mut Draws, bits: Bits) -> usize {
    match usize::from(some_m(bits)) + 1 {
        0x1_0000 if !draws.one_in(5) => draws.pick(&[256, 1_024, 4_096]),
        codes => codes,
    }
}

/// The codes of so many pixels, in stretches or in one.
fn some_source(draws: &mut Draws, description: &Description, m: u16, pixels: usize) -> Vec<u16> {
    let mut source = Vec::with_capacity(3 * pixels);
    if draws.one_in(4) {
        sweep(draws, m, pixels, &mut source);
    }
    while source.len() < 3 * pixels {
        let left = pixels - source.len() / 3;
        let length = draws.pick(&[1, 5, 40, BLOCK, 300]).min(left);
        match draws.below(4) {
            0 => slope(draws, description, m, length, &mut source),
            1 => source.extend(some_pixel(draws, description, m).repeat(length)),
            _ => (0..length).for_each(|_| source.extend(some_pixel(draws, description, m))),
        }
    }
    if draws.one_in(2) {
        set_ends(draws, m, &mut source);
    }
    source
}

/// Each raw code in turn, in every colour from a code of its own and in steps of its own. Steps are
/// odd, and so leave no code out, since the count of codes is a power of 2.
fn sweep(draws: &mut Draws, m: u16, pixels: usize, source: &mut Vec<u16>) {
    let m = usize::from(m);
    let starts = [0; 3].map(|_| draws.pick(&[0, m]));
    // M codes up are one down
    let steps = [0; 3].map(|_| {
        let odd = 2 * draws.below(100) + 1;
        draws.pick(&[1, m, odd])
    });
    for pixel in 0..pixels {
        source.extend([0, 1, 2].map(|c| ((starts[c] + pixel * steps[c]) % (m + 1)) as u16));
    }
}

/// From one pixel to another in even steps.
fn slope(
    draws: &mut Draws,
    description: &Description,
    m: u16,
    length: usize,
    source: &mut Vec<u16>,
) {
    let [from, to] = [0; 2].map(|_| some_pixel(draws, description, m).map(usize::from));
    let steps = (length - 1).max(1);
    for step in 0..length {
        let at = |c: usize| (from[c] * (steps - step) + to[c] * step) / steps;
        source.extend([0, 1, 2].map(|c| at(c) as u16));
    }
}

/// Sets codes on either side of the ends of blocks to 0 or to M.
fn set_ends(draws: &mut Draws, m: u16, source: &mut [u16]) {
    for end in (BLOCK_CODES..=source.len()).step_by(BLOCK_CODES) {
        for at in [end - 1, end] {
            if let (true, Some(code)) = (draws.one_in(2), source.get_mut(at)) {
                *code = draws.pick(&[0, m]);
            }
        }
    }
}

// ---- what is refused

/// One code or two more or fewer.
fn wrong_length(draws: &mut Draws, source: &mut Vec<u16>) {
    let extra = draws.below(2) + 1;
    if draws.one_in(2) {
        source.extend((0..extra).map(|_| draws.number() as u16 & 0xFF));
    } else {
        source.truncate(source.len().saturating_sub(extra));
    }
}

/// The first place, the last or any, often one on either side of the end of a block.
fn some_place(draws: &mut Draws, length: usize) -> usize {
    let anywhere = draws.below(length);
    let blocks = length / BLOCK_CODES;
    if blocks == 0 {
        return draws.pick(&[0, length - 1, anywhere]);
    }
    let end = BLOCK_CODES * (draws.below(blocks) + 1);
    draws.pick(&[0, length - 1, anywhere, end - 1, end.min(length - 1)])
}

fn some_output_len(draws: &mut Draws, length: usize) -> usize {
    match draws.below(8) {
        0 => length.saturating_sub(1),
        1 => draws.below(length + 1),
        2 | 3 => length + draws.below(7),
        _ => length,
    }
}

#[cfg(test)]
mod tests {
    use super::*;

    #[test]
    fn a_sweep_leaves_no_code_out() {
        for (_, m) in crate::paper::DEPTHS {
            let mut source = Vec::new();
            sweep(&mut Draws::of(1, 0, m.into()), m, usize::from(m) + 1, &mut source);
            for colour in 0..3 {
                let mut codes: Vec<u16> = source.iter().skip(colour).step_by(3).copied().collect();
                codes.sort_unstable();
                assert_eq!(codes, (0..=m).collect::<Vec<_>>());
            }
        }
    }

    #[test]
    fn a_slope_goes_from_one_pixel_to_another() {
        let description = [3, 2, 0, 0, 0, 1000, 1000, 1000, 0, 0, 0];
        for length in [1, 2, 64, 300] {
            let mut draws = Draws::of(1, 0, length);
            let [from, to] = [0; 2].map(|_| some_pixel(&mut draws, &description, 255));
            let mut source = Vec::new();
            slope(&mut Draws::of(1, 0, length), &description, 255, length as usize, &mut source);
            assert_eq!(source.len(), 3 * length as usize);
            assert_eq!(source.first_chunk(), Some(&from));
            assert!(length == 1 || source.last_chunk() == Some(&to));
        }
    }

    #[test]
    fn domains_around_all_codes_could_be_read() {
        for index in 0..1_000 {
            let mut draws = Draws::of(1, 0, index);
            let mut lent = lent(&mut draws);
            let kind = if index % 2 == 0 { Kind::OneD } else { Kind::ThreeD };
            lent.description[..=place::N].copy_from_slice(&[kind.mark(), 2]);
            lent.table.resize(24, 0);
            set_bounds(&mut lent.description, bounds_around(&mut draws, kind));
            assert!(crate::look::Cube::of(&lent.description, &lent.table).is_some());
        }
    }
}
