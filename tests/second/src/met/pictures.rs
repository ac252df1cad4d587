//! What pictures met: of accepted ones how many pixels they have to a block and to the raw codes,
//! what stands at the ends of blocks, where codes lie to their domains, and what samples and rows
//! the table has; of refused long ones what was wrong, and where.

use super::shares::Groups;
use super::{pair_met, PAIRS};
use crate::gen::pictures::{BEYOND_33_BITS, BLOCK, BLOCK_CODES, MANY_ROWS};
use crate::gen::PictureCase;
use crate::look::Cube;
use crate::paper::{greatest_code, number, Greatest, Kind};
use crate::paper::{BOUND_UNITS, DEFAULT_LOWER, DEFAULT_UPPER, GREATEST_SAMPLE, SAMPLE_UNITS};

/// Each group of names, behind its title.
pub const PICTURES_GROUPS: Groups<21> = [
    ("pictures in 1D accepted, of pixels", &TO_BLOCKS),
    ("pictures in 3D accepted, of pixels", &TO_BLOCKS),
    ("pictures in 1D accepted, of pixels to raw codes", &TO_CODES),
    ("pictures in 3D accepted, of pixels to raw codes", &TO_CODES),
    ("pictures in 1D of more than a block accepted", &PAIRS),
    ("pictures in 3D of more than a block, all codes in their domains, accepted", &PAIRS),
    ("pictures in 1D met at the end of a block", &ENDS),
    ("pictures in 3D met at the end of a block", &ENDS),
    ("pictures in 1D of more pixels than raw codes met", &DOMAINS),
    ("pictures in 1D of no more pixels than raw codes, at one depth, met", &DOMAINS),
    ("pictures in 1D of no more pixels than raw codes, at two depths, met", &DOMAINS),
    ("pictures in 3D of more than a block, at one depth, met", &DOMAINS),
    ("pictures in 3D of more than a block, at two depths, met", &DOMAINS),
    ("pictures in 1D of more pixels than raw codes met samples", &SAMPLES),
    ("pictures in 1D of no more pixels than raw codes met samples", &SAMPLES),
    ("pictures in 3D of more than a block, all codes in their domains, met samples", &SAMPLES),
    ("pictures in 1D at 16 bits, from 0 to 1 and with the raw M, met rows", &ROWS),
    ("pictures in 1D at two depths, from 0 to 1 and with the raw M, met rows", &ROWS),
    ("pictures of more than a block accepted, the output", &OUTPUTS),
    ("pictures of more than a block refused with", &REFUSALS),
    ("pictures of a block or more refused with 23 by one code", &ABOVE),
];

/// For each group and each of its names, whether the picture met it.
pub fn pictures_met(case: &PictureCase, number: u32) -> [Vec<bool>; PICTURES_GROUPS.len()] {
    let accepted = Accepted::of(case, number);
    let of = |kind: Kind| accepted.as_ref().filter(|seen| seen.cube.kind == kind);
    let (line, solid) = (of(Kind::OneD), of(Kind::ThreeD));
    let more = line.filter(|seen| seen.pixels() > seen.raw_codes());
    let no_more = line.filter(|seen| seen.pixels() <= seen.raw_codes());
    let long = solid.filter(|seen| seen.is_long());
    let inside = long.filter(|seen| seen.outside() == [false; 2]);
    let pair = |_: &Accepted| pair_met(case.bits);
    let one_depth = |seen: &&Accepted| seen.m.raw == seen.m.corrected;
    let two_depths = |seen: &&Accepted| seen.m.raw != seen.m.corrected;
    let plain = no_more.filter(|seen| seen.is_plain() && case.source.contains(&seen.m.raw));
    let of_16_bits = |seen: &&Accepted| one_depth(seen) && case.bits.raw == 16;
    [
        met(line, Accepted::to_blocks),
        met(solid, Accepted::to_blocks),
        met(line, Accepted::to_codes),
        met(solid, Accepted::to_codes),
        met(line.filter(|seen| seen.is_long()), pair),
        met(inside, pair),
        met(line, Accepted::ends),
        met(solid, Accepted::ends),
        met(more, Accepted::domains),
        met(no_more.filter(one_depth), Accepted::domains),
        met(no_more.filter(two_depths), Accepted::domains),
        met(long.filter(one_depth), Accepted::domains),
        met(long.filter(two_depths), Accepted::domains),
        met(more, Accepted::samples),
        met(no_more, Accepted::samples),
        met(inside, Accepted::samples),
        met(plain.filter(of_16_bits), Accepted::rows),
        met(plain.filter(two_depths), Accepted::rows),
        met(accepted.as_ref().filter(|seen| seen.is_long()), |_| outputs(case)),
        refusals(case, number).to_vec(),
        above(case, number).to_vec(),
    ]
}

/// What is met of an accepted picture, if it is one of those that are asked for.
fn met<'a, const COUNT: usize>(
    accepted: Option<&'a Accepted<'a>>,
    names: impl FnOnce(&'a Accepted<'a>) -> [bool; COUNT],
) -> Vec<bool> {
    accepted.map_or([false; COUNT], names).to_vec()
}

// ---- accepted ones

/// A picture that was accepted and has a pixel.
struct Accepted<'a> {
    cube: Cube<'a>,
    m: Greatest,
    source: &'a [u16],
}

impl<'a> Accepted<'a> {
    fn of(case: &'a PictureCase, number: u32) -> Option<Accepted<'a>> {
        if number != number::ACCEPTED || case.source.is_empty() {
            return None;
        }
        let cube = Cube::of(&case.description, &case.table)?;
        Some(Accepted { cube, m: case.bits.greatest()?, source: &case.source })
    }

    fn pixels(&self) -> usize {
        self.source.len() / 3
    }

    fn raw_codes(&self) -> usize {
        usize::from(self.m.raw) + 1
    }

    fn is_long(&self) -> bool {
        self.pixels() > BLOCK
    }

    /// Whether every domain is from 0 to 1.
    fn is_plain(&self) -> bool {
        (self.cube.lower, self.cube.upper) == (DEFAULT_LOWER, DEFAULT_UPPER)
    }

    fn to_blocks(&self) -> [bool; TO_BLOCKS.len()] {
        let pixels = self.pixels();
        let beyond = pixels > 2 * BLOCK + 1;
        [
            pixels == BLOCK - 1,
            pixels == BLOCK,
            pixels == BLOCK + 1,
            pixels == 2 * BLOCK - 1,
            pixels == 2 * BLOCK,
            pixels == 2 * BLOCK + 1,
            beyond && pixels % BLOCK == 0,
            beyond && pixels % BLOCK != 0,
        ]
    }

    fn to_codes(&self) -> [bool; TO_CODES.len()] {
        let (pixels, codes) = (self.pixels(), self.raw_codes());
        let fewer = |depth: usize| codes == depth && pixels == depth - 1;
        let as_many = |depth: usize| codes == depth && pixels == depth;
        let one_more = |depth: usize| codes == depth && pixels == depth + 1;
        let yet_more = |depth: usize| codes == depth && pixels > depth + 1;
        [
            fewer(256),
            as_many(256),
            one_more(256),
            yet_more(256),
            fewer(1_024),
            as_many(1_024),
            one_more(1_024),
            yet_more(1_024),
            fewer(4_096),
            as_many(4_096),
            one_more(4_096),
            yet_more(4_096),
            codes == 65_536 && pixels > 4_096,
            codes == 65_536 && pixels >= codes,
            self.has_every_code(),
        ]
    }

    /// Whether every raw code is there, in every colour.
    fn has_every_code(&self) -> bool {
        let all_of = |colour: usize| {
            let mut there = vec![false; self.raw_codes()];
            let codes = self.source.iter().skip(colour).step_by(3);
            codes.for_each(|code| there[usize::from(*code)] = true);
            there.iter().all(|on| *on)
        };
        self.pixels() >= self.raw_codes() && (0..3).all(all_of)
    }

    fn ends(&self) -> [bool; ENDS.len()] {
        let ends = || (BLOCK_CODES..self.source.len()).step_by(BLOCK_CODES);
        let before = |code: u16| ends().any(|end| self.source[end - 1] == code);
        let after = |code: u16| ends().any(|end| self.source[end] == code);
        [before(0), before(self.m.raw), after(0), after(self.m.raw)]
    }

    /// Whether some code is below its domain, and whether some is above it.
    fn outside(&self) -> [bool; 2] {
        let m = i64::from(self.m.raw);
        let mut outside = [false; 2];
        for (at, code) in self.source.iter().enumerate() {
            let value = BOUND_UNITS * i64::from(*code);
            outside[0] |= value < self.cube.lower[at % 3] * m;
            outside[1] |= value > self.cube.upper[at % 3] * m;
        }
        outside
    }

    fn domains(&self) -> [bool; DOMAINS.len()] {
        let (lower, upper) = (&self.cube.lower, &self.cube.upper);
        let around = (0..3).all(|c| lower[c] <= 0 && upper[c] >= BOUND_UNITS);
        let differ = *lower != [lower[0]; 3] || *upper != [upper[0]; 3];
        let [below, above] = self.outside();
        [
            self.is_plain(),
            around && !self.is_plain() && !differ,
            around && differ,
            below && !above,
            above && !below,
            below && above,
            differ && (below || above),
        ]
    }

    fn samples(&self) -> [bool; SAMPLES.len()] {
        let samples = self.cube.samples;
        let count = |is: fn(i64) -> bool| samples.iter().filter(|sample| is(**sample)).count();
        let below_0 = count(|sample| sample < 0);
        let beyond = count(|sample| sample >= BEYOND_33_BITS);
        let greatest = samples.iter().max().copied().unwrap_or(0);
        [
            below_0 == 0 && greatest <= SAMPLE_UNITS,
            below_0 == 0 && greatest > SAMPLE_UNITS && greatest < BEYOND_33_BITS,
            greatest == BEYOND_33_BITS - 1,
            greatest == BEYOND_33_BITS,
            below_0 == 0 && beyond == 1,
            below_0 == 1 && beyond == 0,
            below_0 > 1 && beyond > 1,
            samples.contains(&GREATEST_SAMPLE),
            samples.contains(&-GREATEST_SAMPLE),
        ]
    }

    fn rows(&self) -> [bool; ROWS.len()] {
        MANY_ROWS.map(|rows| self.cube.n == rows)
    }
}

/// How many pixels there are to a block, which has 64.
const TO_BLOCKS: [&str; 8] = [
    "one fewer than a block", "a block", "one more", "one fewer than two blocks", "two blocks",
    "two blocks and one more", "more whole blocks", "more, and no whole blocks",
];

/// How many pixels there are to the raw codes. More than 4,096 are as many as only 16 bits have.
const TO_CODES: [&str; 15] = [
    "one fewer at 8 bits", "as many at 8 bits", "one more at 8 bits", "yet more at 8 bits",
    "one fewer at 10 bits", "as many at 10 bits", "one more at 10 bits", "yet more at 10 bits",
    "one fewer at 12 bits", "as many at 12 bits", "one more at 12 bits", "yet more at 12 bits",
    "more than 4096 at 16 bits", "as many or more at 16 bits", "every raw code in every colour",
];

/// The codes on either side of the end of a block, where another follows.
const ENDS: [&str; 4] = ["0 before it", "the raw M before it", "0 after it", "the raw M after it"];

/// Where the codes of a picture lie to its domains.
const DOMAINS: [&str; 7] = [
    "domains from 0 to 1",
    "one domain wider than all codes",
    "domains that differ and hold all codes",
    "codes below their domain",
    "codes above it",
    "codes on both sides",
    "domains that differ and do not hold all codes",
];

/// The samples of the table, where one has to be alone in what it is.
const SAMPLES: [&str; 9] = [
    "from 0 to 1",
    "from 0 up to 33 bits",
    "2^33 - 1 as the greatest",
    "2^33 as the greatest",
    "one of 2^33 or more, all others less and none below 0",
    "one below 0, all less than 2^33",
    "some of 2^33 or more, and some below 0",
    "1000",
    "-1000",
];

/// Those of `MANY_ROWS`.
const ROWS: [&str; 4] = ["1023", "1024", "1025", "1026"];

const OUTPUTS: [&str; 3] = ["as long as the source", "one place longer", "longer than that"];

fn outputs(case: &PictureCase) -> [bool; OUTPUTS.len()] {
    let more = case.output_len - case.source.len();
    [more == 0, more == 1, more > 1]
}

// ---- refused ones

const REFUSALS: [&str; 7] =
    ["20", "21 by one code over", "21 by two", "22 by one place", "22 by more places", "23", "24"];

fn refusals(case: &PictureCase, number: u32) -> [bool; REFUSALS.len()] {
    let is = |wanted: u32| number == wanted && case.source.len() > BLOCK_CODES;
    let over = case.source.len() % 3;
    let short = case.source.len().saturating_sub(case.output_len);
    [
        is(number::DEPTH_UNKNOWN),
        is(number::PICTURE_LENGTH) && over == 1,
        is(number::PICTURE_LENGTH) && over == 2,
        is(number::OUTPUT_SHORT) && short == 1,
        is(number::OUTPUT_SHORT) && short > 1,
        is(number::CODE_ABOVE_M),
        is(number::NOT_FROM_READING),
    ]
}

/// Where the one code is that is above M.
const ABOVE: [&str; 5] = [
    "in the first place", "in the last place of a block", "in the first place after a block",
    "in the last place, after a block", "in any other place after a block",
];

fn above(case: &PictureCase, number: u32) -> [bool; ABOVE.len()] {
    let m = greatest_code(case.bits.raw).unwrap_or(0);
    let mut wrong = case.source.iter().enumerate().filter(|(_, code)| **code > m);
    let first = wrong.next().map(|(at, _)| at);
    let (number::CODE_ABOVE_M, Some(at), None) = (number, first, wrong.next()) else {
        return [false; ABOVE.len()];
    };
    let last = at + 1 == case.source.len();
    let past = at >= BLOCK_CODES;
    let met = [
        at == 0,
        (at + 1) % BLOCK_CODES == 0,
        past && at % BLOCK_CODES == 0,
        past && last,
        past && !last && (1..BLOCK_CODES - 1).contains(&(at % BLOCK_CODES)),
    ];
    met.map(|on| on && case.source.len() >= BLOCK_CODES)
}

/// The most names of a group.
pub const MOST_NAMES: usize = PAIRS.len();

#[cfg(test)]
mod tests {
    use super::*;
    use crate::paper::Bits;
    use crate::side::{Second, Side};

    /// What names are met in the group with this title.
    fn named(title: &str, case: &PictureCase) -> Vec<&'static str> {
        let number = Second.picture(case).map_or(0, |answer| answer.number);
        let groups = PICTURES_GROUPS.into_iter().zip(pictures_met(case, number));
        let group = groups.filter(|((of, _), _)| *of == format!("pictures {title}"));
        let named = |((_, names), met): ((_, &'static [&'static str]), Vec<bool>)| {
            assert_eq!(names.len(), met.len());
            assert!(names.len() <= MOST_NAMES);
            names.iter().zip(met).filter(|(_, on)| *on).map(|(name, _)| *name)
        };
        group.flat_map(named).collect()
    }

    /// So many pixels of one code, through a table of zeros, at 8 bits.
    fn case(kind: Kind, pixels: usize, code: u16) -> PictureCase {
        PictureCase {
            description: [kind.mark(), 2, 0, 0, 0, 1000, 1000, 1000, 0, 0, 0],
            table: vec![0; 24],
            bits: Bits::same(8),
            source: vec![code; 3 * pixels],
            output_len: 3 * pixels,
            made: Vec::new(),
        }
    }

    fn changed(mut case: PictureCase, change: impl FnOnce(&mut PictureCase)) -> PictureCase {
        change(&mut case);
        case
    }

    #[test]
    fn pixels_are_those_to_a_block() {
        let of = |pixels| named("in 3D accepted, of pixels", &case(Kind::ThreeD, pixels, 1));
        for (pixels, name) in [63, 64, 65, 127, 128, 129, 192, 193].into_iter().zip(TO_BLOCKS) {
            assert_eq!(of(pixels), [name], "{pixels}");
        }
        assert_eq!(of(62), [""; 0]);
        assert_eq!(of(66), [""; 0]);
        assert_eq!(named("in 1D accepted, of pixels", &case(Kind::OneD, 65, 1)), ["one more"]);
        let refused = case(Kind::ThreeD, 65, 256);
        assert_eq!(named("in 3D accepted, of pixels", &refused), [""; 0]);
    }

    #[test]
    fn pixels_are_those_to_the_raw_codes() {
        let of = |bits, pixels| {
            let case = changed(case(Kind::OneD, pixels, 1), |case| case.bits.raw = bits);
            named("in 1D accepted, of pixels to raw codes", &case)
        };
        assert_eq!(of(8, 255), ["one fewer at 8 bits"]);
        assert_eq!(of(8, 256), ["as many at 8 bits"]);
        assert_eq!(of(8, 257), ["one more at 8 bits"]);
        assert_eq!(of(8, 1_024), ["yet more at 8 bits"]);
        assert_eq!(of(10, 257), [""; 0]);
        assert_eq!(of(10, 1_024), ["as many at 10 bits"]);
        assert_eq!(of(12, 4_097), ["one more at 12 bits"]);
        assert_eq!(of(16, 4_097), ["more than 4096 at 16 bits"]);
        assert_eq!(of(16, 65_536), ["more than 4096 at 16 bits", "as many or more at 16 bits"]);
        let every = changed(case(Kind::OneD, 256, 0), |case| {
            let codes = case.source.iter_mut().enumerate();
            codes.for_each(|(at, code)| *code = (at / 3) as u16);
        });
        let title = "in 1D accepted, of pixels to raw codes";
        assert_eq!(named(title, &every), ["as many at 8 bits", "every raw code in every colour"]);
        let one_left_out = changed(every, |case| case.source[3 * 200 + 1] = 0);
        assert_eq!(named(title, &one_left_out), ["as many at 8 bits"]);
    }

    #[test]
    fn ends_are_those_of_blocks() {
        let at = |place, code| {
            let case = changed(case(Kind::ThreeD, 65, 1), |case| case.source[place] = code);
            named("in 3D met at the end of a block", &case)
        };
        assert_eq!(at(191, 0), ["0 before it"]);
        assert_eq!(at(191, 255), ["the raw M before it"]);
        assert_eq!(at(192, 0), ["0 after it"]);
        assert_eq!(at(192, 255), ["the raw M after it"]);
        assert_eq!(at(190, 0), [""; 0]);
        let one_block = case(Kind::ThreeD, 64, 0);
        assert_eq!(named("in 3D met at the end of a block", &one_block), [""; 0]);
    }

    #[test]
    fn domains_are_where_the_codes_lie() {
        let of = |lower: [i64; 3], upper: [i64; 3], codes: [u16; 2]| {
            let case = changed(case(Kind::ThreeD, 65, codes[0]), |case| {
                case.description[2..5].copy_from_slice(&lower);
                case.description[5..8].copy_from_slice(&upper);
                case.source[0] = codes[1];
            });
            named("in 3D of more than a block, at one depth, met", &case)
        };
        assert_eq!(of([0; 3], [1000; 3], [0, 255]), ["domains from 0 to 1"]);
        assert_eq!(of([-1; 3], [1000; 3], [0, 255]), ["one domain wider than all codes"]);
        let differ = "domains that differ and hold all codes";
        assert_eq!(of([0, 0, -1000], [1000; 3], [0, 255]), [differ]);
        assert_eq!(of([0; 3], [999; 3], [0, 255]), ["codes above it"]);
        assert_eq!(of([1; 3], [1000; 3], [0, 255]), ["codes below their domain"]);
        assert_eq!(of([1; 3], [999; 3], [0, 255]), ["codes on both sides"]);
        assert_eq!(of([1; 3], [999; 3], [100, 100]), [""; 0]);
        let outside = "domains that differ and do not hold all codes";
        assert_eq!(of([1000, 0, 0], [2000; 3], [0, 0]), ["codes below their domain", outside]);
        let in_1d = changed(case(Kind::OneD, 257, 1), |case| case.description[7] = 2000);
        assert_eq!(named("in 1D of more pixels than raw codes met", &in_1d), [differ]);
        let fewer = "in 1D of no more pixels than raw codes, at one depth, met";
        assert_eq!(named(fewer, &in_1d), [""; 0]);
    }

    #[test]
    fn samples_are_those_of_the_rows() {
        let of = |samples: &[i64]| {
            let case = changed(case(Kind::ThreeD, 65, 1), |case| {
                case.table[..samples.len()].copy_from_slice(samples);
                case.table.push(GREATEST_SAMPLE);
            });
            named("in 3D of more than a block, all codes in their domains, met samples", &case)
        };
        let beyond = 1 << 33;
        let alone = "one of 2^33 or more, all others less and none below 0";
        assert_eq!(of(&[SAMPLE_UNITS]), ["from 0 to 1"]);
        assert_eq!(of(&[SAMPLE_UNITS + 1]), ["from 0 up to 33 bits"]);
        assert_eq!(of(&[beyond - 1]), ["from 0 up to 33 bits", "2^33 - 1 as the greatest"]);
        assert_eq!(of(&[beyond]), ["2^33 as the greatest", alone]);
        assert_eq!(of(&[GREATEST_SAMPLE]), [alone, "1000"]);
        assert_eq!(of(&[-1]), ["one below 0, all less than 2^33"]);
        let both = "some of 2^33 or more, and some below 0";
        assert_eq!(of(&[beyond + 1, beyond, -1, -GREATEST_SAMPLE]), [both, "-1000"]);
    }

    #[test]
    fn rows_are_those_of_plain_lines() {
        let of = |rows: i64, corrected: u32, code: u16| {
            let case = changed(case(Kind::OneD, 3, code), |case| {
                case.description[1] = rows;
                case.table.resize(3 * rows as usize, 0);
                case.bits = Bits { raw: 16, corrected };
            });
            let title =
                |depths| format!("in 1D at {depths}, from 0 to 1 and with the raw M, met rows");
            [named(&title("16 bits"), &case), named(&title("two depths"), &case)].concat()
        };
        for (rows, name) in MANY_ROWS.into_iter().zip(ROWS) {
            assert_eq!(name, rows.to_string());
            assert_eq!(of(rows, 16, 65_535), [name]);
            assert_eq!(of(rows, 8, 65_535), [name]);
            assert_eq!(of(rows, 16, 65_534), [""; 0]);
        }
        assert_eq!(of(1_022, 16, 65_535), [""; 0]);
    }

    #[test]
    fn refusals_are_those_of_long_pictures() {
        let of = |change: fn(&mut PictureCase)| {
            let case = changed(case(Kind::ThreeD, 65, 1), change);
            named("of more than a block refused with", &case)
        };
        assert_eq!(of(|case| case.source.push(1)), ["21 by one code over"]);
        assert_eq!(of(|case| case.source.truncate(194)), ["21 by two"]);
        assert_eq!(of(|case| case.output_len -= 1), ["22 by one place"]);
        assert_eq!(of(|case| case.output_len -= 2), ["22 by more places"]);
        assert_eq!(of(|case| case.source[0] = 256), ["23"]);
        assert_eq!(of(|case| case.source.truncate(191)), [""; 0]);
        let longer = changed(case(Kind::OneD, 65, 1), |case| case.output_len += 1);
        let title = "of more than a block accepted, the output";
        assert_eq!(named(title, &longer), ["one place longer"]);
    }

    #[test]
    fn a_code_above_m_is_where_it_stands() {
        let of = |places: &[usize]| {
            let case = changed(case(Kind::ThreeD, 66, 1), |case| {
                places.iter().for_each(|place| case.source[*place] = 256);
            });
            named("of a block or more refused with 23 by one code", &case)
        };
        assert_eq!(of(&[0]), ["in the first place"]);
        assert_eq!(of(&[191]), ["in the last place of a block"]);
        assert_eq!(of(&[192]), ["in the first place after a block"]);
        assert_eq!(of(&[193]), ["in any other place after a block"]);
        let last = "in the last place, after a block";
        assert_eq!(of(&[197]), [last]);
        assert_eq!(of(&[0, 197]), [""; 0]);
        assert_eq!(of(&[]), [""; 0]);
    }
}
