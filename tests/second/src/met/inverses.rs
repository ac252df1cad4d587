//! What inverses met: of exact hits where they are and what comes before and after them, of codes
//! that are only near what makes them the nearest, of tables how they run; and of refusals what was
//! wrong, by itself and behind an earlier refusal.

use super::shares::Groups;
use super::{pair_met, PAIRS};
use crate::gen::InverseCase;
use crate::inverse::{all_corrected, colour, inverse, Aim, Inverse};
use crate::look::Cube;
use crate::paper::{greatest_code, number, Bits, Greatest, Kind};

/// Each group of names, behind its title.
pub const INVERSES_GROUPS: Groups<10> = [
    ("inverses met an exact hit", &HITS),
    ("inverses met no hit, and a code near enough", &MISSES),
    ("inverses met corrected codes", &RUNS),
    ("inverses met where other colours answer otherwise", &COLOURS),
    ("inverses met a hit at depths", &PAIRS),
    ("inverses met no hit at depths", &PAIRS),
    ("inverses refused with 28 at depths", &PAIRS),
    ("inverses refused with 28", &NONE),
    ("inverses refused with 24 by a colour alone", &NO_COLOURS),
    ("inverses refused with", &ORDER),
];

/// For each group and each of its names, whether the inverse met it.
pub fn inverses_met(case: &InverseCase, answer: &Inverse) -> [Vec<bool>; INVERSES_GROUPS.len()] {
    let searched = Searched::of(case, answer);
    let seen = searched.as_ref();
    let pair = pair_met(case.bits);
    let at_pair = |met: bool| pair.map(|on| on && met).to_vec();
    let accepted = answer.number == number::ACCEPTED;
    let hit = seen.is_some_and(|seen| seen.least == 0);
    [
        met(seen.filter(|_| accepted && hit), Searched::hits),
        met(seen.filter(|_| accepted && !hit), Searched::misses),
        met(seen.filter(|_| accepted), Searched::runs),
        colours(case, answer).to_vec(),
        at_pair(accepted && hit),
        at_pair(accepted && !hit),
        at_pair(answer.number == number::NONE_WITHIN_TOLERANCE),
        met(seen.filter(|_| !accepted), Searched::none),
        no_colours(case, answer).to_vec(),
        order(case, answer).to_vec(),
    ]
}

/// What is met of a search, if there was one.
fn met<'a, const COUNT: usize>(
    searched: Option<&'a Searched>,
    names: impl FnOnce(&'a Searched) -> [bool; COUNT],
) -> Vec<bool> {
    searched.map_or([false; COUNT], names).to_vec()
}

/// A search that was made, with all that it had to go by.
struct Searched {
    aim: Aim,
    /// What each raw code is corrected to.
    codes: Vec<u16>,
    /// How far the nearest of them is off.
    least: u16,
    m: Greatest,
    code: usize,
}

impl Searched {
    fn of(case: &InverseCase, answer: &Inverse) -> Option<Searched> {
        let made = [number::ACCEPTED, number::NONE_WITHIN_TOLERANCE].contains(&answer.number);
        let line = Cube::of(&case.description, &case.table).filter(|_| made)?;
        let m = case.bits.greatest()?;
        let codes = all_corrected(&line, m.raw, m.corrected, colour(case.aim)?);
        let least = codes.iter().map(|code| code.abs_diff(case.aim.wanted)).min()?;
        Some(Searched { aim: case.aim, codes, least, m, code: answer.code.into() })
    }

    fn off(&self, code: usize) -> u16 {
        self.codes[code].abs_diff(self.aim.wanted)
    }

    /// The raw codes that come nearest.
    fn nearest(&self) -> impl Iterator<Item = usize> + '_ {
        (0..self.codes.len()).filter(|code| self.off(*code) == self.least)
    }

    fn hits(&self) -> [bool; HITS.len()] {
        let (first, last) = (self.code, self.codes.len() - 1);
        let after = |code: usize| self.codes.get(code).map(|_| self.off(code) == 0);
        let within = |code: usize| u32::from(self.off(code)) <= self.aim.tolerance;
        let again = |from: usize| (from..=last).any(|code| self.off(code) == 0);
        [
            first == 0,
            first == last,
            0 < first && first < last,
            after(first + 1) == Some(true),
            after(first + 1) == Some(false) && again(first + 1),
            after(first + 1) == Some(false) && !again(first + 1),
            (0..first).any(within),
            self.aim.tolerance == 0,
            self.aim.tolerance == u32::MAX,
            self.aim.wanted > self.m.raw,
            self.code > self.m.corrected.into(),
        ]
    }

    fn misses(&self) -> [bool; MISSES.len()] {
        let (first, last) = (self.code, self.codes.len() - 1);
        let above = |code: usize| self.codes[code] > self.aim.wanted;
        let sides = [true, false].map(|side| self.nearest().any(|code| above(code) == side));
        let tolerance = self.aim.tolerance;
        [
            first == 0,
            first == last,
            0 < first && first < last,
            self.nearest().nth(1).is_some(),
            sides == [true, true] && above(first),
            sides == [true, true] && !above(first),
            (0..=last).all(above),
            !(0..=last).any(above),
            u32::from(self.least) == tolerance,
            u32::from(self.least) + 1 == tolerance,
            tolerance == u32::MAX,
            tolerance & 0xFFFF < u32::from(self.least),
        ]
    }

    fn runs(&self) -> [bool; RUNS.len()] {
        let steps = || self.codes.windows(2).map(|pair| pair[0].cmp(&pair[1]));
        let [rises, falls] = [true, false]
            .map(|up| steps().any(|step| if up { step.is_lt() } else { step.is_gt() }));
        let stays = steps().any(|step| step.is_eq());
        [
            rises && !falls,
            falls && !rises,
            !rises && !falls,
            rises && falls,
            stays && (rises || falls),
            !stays,
            self.codes.windows(2).any(|pair| pair[0].abs_diff(pair[1]) > self.m.corrected / 4),
        ]
    }

    fn none(&self) -> [bool; NONE.len()] {
        let above = |code: &u16| *code > self.aim.wanted;
        let [all, any] = [self.codes.iter().all(above), self.codes.iter().any(above)];
        [
            self.aim.tolerance == 0,
            u32::from(self.least) == self.aim.tolerance + 1,
            all,
            !any,
            any && !all,
            self.least == self.m.corrected,
        ]
    }
}

/// Where an exact hit is; whether the next raw code is one too, or only a later one, or none;
/// whether an earlier code would have done; and its tolerance and depths.
const HITS: [&str; 11] = [
    "at raw 0", "at the raw M", "between them", "on a flat stretch", "that comes again later",
    "that is the only one", "after a code within the tolerance", "with the tolerance 0",
    "with the greatest tolerance", "of a code above the raw M", "at a code above the corrected M",
];

/// Where the nearest code is that is no hit; what else comes as near; where the wanted code lies;
/// and how the tolerance is to the distance. In 16 bits the last would not do.
const MISSES: [&str; 12] = [
    "at raw 0",
    "at the raw M",
    "between them",
    "several equally near",
    "one above before one below",
    "one below before one above",
    "all above the wanted code",
    "all below it",
    "just within the tolerance",
    "one code more than needed",
    "the greatest tolerance",
    "a tolerance that is too small in 16 bits",
];

/// How corrected codes run from raw 0 to the raw M.
const RUNS: [&str; 7] = [
    "that rise alone", "that fall alone", "that are all one", "that rise and fall",
    "with a flat stretch", "without one", "with a jump",
];

/// Why no code is within the tolerance.
const NONE: [&str; 6] = [
    "with the tolerance 0", "by one code", "below all corrected codes", "above them all",
    "between them", "as far off as codes can be",
];

const COLOURS: [&str; 3] = ["red", "green", "blue"];

/// What a case answers on another colour, if it is one that is quick to search.
fn colours(case: &InverseCase, answer: &Inverse) -> [bool; COLOURS.len()] {
    let quick = case.bits.raw <= 10 && answer.number == number::ACCEPTED;
    let otherwise = |other: u32| {
        let aim = Aim { colour: other, ..case.aim };
        inverse(&case.description, &case.table, case.bits, aim) != *answer
    };
    [0, 1, 2].map(|own| {
        quick && case.aim.colour == own && (0..3).all(|other| other == own || otherwise(other))
    })
}

const NO_COLOURS: [&str; 4] = ["3", "above 3", "that is one in 8 bits", "that is one in 16 bits"];

/// The colours that are none, where all else is accepted or is refused with 28.
fn no_colours(case: &InverseCase, answer: &Inverse) -> [bool; NO_COLOURS.len()] {
    let number = case.aim.colour;
    let alone = answer.number == number::NOT_FROM_READING && number > 2 && is_line(case);
    [number == 3, number > 3, number & 0xFF < 3, number & 0xFFFF < 3]
        .map(|on| on && alone && depths_and_wanted(case) == [true; 3])
}

/// Whether a 1D table is lent that reading could have given.
fn is_line(case: &InverseCase) -> bool {
    Cube::of(&case.description, &case.table).is_some_and(|cube| cube.kind == Kind::OneD)
}

/// Whether the raw depth, the corrected depth and the wanted code are not to be refused. With an
/// unknown corrected depth the wanted code is judged by none.
fn depths_and_wanted(case: &InverseCase) -> [bool; 3] {
    let Bits { raw, corrected } = case.bits;
    let m = greatest_code(corrected);
    [greatest_code(raw).is_some(), m.is_some(), m.is_none_or(|m| case.aim.wanted <= m)]
}

/// A refusal where a later one would be due too, and what each is by.
const ORDER: [&str; 11] = [
    "24 by a 3D table alone", "24 by a 3D table before 20", "24 by a 3D table before 23",
    "24 by a colour before 20", "24 by a colour before 23", "20 by the raw depth alone",
    "20 by the corrected depth alone", "20 by both depths", "20 by the raw depth before 23",
    "23 within the raw M", "23 by one code",
];

fn order(case: &InverseCase, answer: &Inverse) -> [bool; ORDER.len()] {
    let is = |number: u32| answer.number == number;
    let cube = Cube::of(&case.description, &case.table);
    let known = colour(case.aim).is_some();
    let solid = cube.is_some_and(|cube| cube.kind == Kind::ThreeD) && known;
    let colour = is_line(case) && !known;
    let [raw, corrected, wanted] = depths_and_wanted(case);
    let above = is(number::CODE_ABOVE_M);
    let m = |bits: u32| greatest_code(bits).unwrap_or(0);
    [
        is(number::NOT_FROM_READING) && solid && raw && corrected && wanted,
        is(number::NOT_FROM_READING) && solid && !(raw && corrected),
        is(number::NOT_FROM_READING) && solid && raw && corrected && !wanted,
        is(number::NOT_FROM_READING) && colour && !(raw && corrected),
        is(number::NOT_FROM_READING) && colour && raw && corrected && !wanted,
        is(number::DEPTH_UNKNOWN) && !raw && corrected && wanted,
        is(number::DEPTH_UNKNOWN) && raw && !corrected,
        is(number::DEPTH_UNKNOWN) && !raw && !corrected,
        is(number::DEPTH_UNKNOWN) && !raw && corrected && !wanted,
        above && case.aim.wanted <= m(case.bits.raw),
        above && case.aim.wanted == m(case.bits.corrected) + 1,
    ]
}

/// The most names of a group.
pub const MOST_NAMES: usize = PAIRS.len();

#[cfg(test)]
mod tests {
    use super::*;

    /// What names are met in the group with this title.
    fn named(title: &str, case: &InverseCase) -> Vec<&'static str> {
        let answer = inverse(&case.description, &case.table, case.bits, case.aim);
        let met = inverses_met(case, &answer);
        let group = INVERSES_GROUPS.into_iter().zip(met);
        let group = group.filter(|((of, _), _)| *of == format!("inverses {title}"));
        let named = |((_, names), met): ((_, &'static [&'static str]), Vec<bool>)| {
            assert_eq!(names.len(), met.len());
            assert!(names.len() <= MOST_NAMES);
            names.iter().zip(met).filter(|(_, on)| *on).map(|(name, _)| *name)
        };
        group.flat_map(named).collect()
    }

    /// Red rises, green falls, blue is half throughout, at 8 bits.
    fn lines(colour: u32, wanted: u16, tolerance: u32) -> InverseCase {
        let half = 5_000_000;
        InverseCase {
            description: [1, 2, 0, 0, 0, 1000, 1000, 1000, 0, 0, 0],
            table: vec![0, 10_000_000, half, 10_000_000, 0, half],
            bits: Bits::same(8),
            aim: Aim { colour, wanted, tolerance },
            made: Vec::new(),
        }
    }

    fn changed(mut case: InverseCase, change: impl FnOnce(&mut InverseCase)) -> InverseCase {
        change(&mut case);
        case
    }

    #[test]
    fn hits_are_named() {
        let hit = |case: &InverseCase| named("met an exact hit", case);
        assert_eq!(
            hit(&lines(0, 0, 0)),
            ["at raw 0", "that is the only one", "with the tolerance 0"]
        );
        assert_eq!(
            hit(&lines(0, 255, u32::MAX)),
            ["at the raw M", "after a code within the tolerance", "with the greatest tolerance"]
        );
        assert_eq!(
            hit(&lines(1, 51, 3)),
            ["between them", "that is the only one", "after a code within the tolerance"]
        );
        assert_eq!(hit(&lines(2, 128, 1)), ["at raw 0", "on a flat stretch"]);
        assert_eq!(hit(&lines(2, 127, 1)), [""; 0]);
        let deeper = changed(lines(0, 65_535, 0), |case| case.bits.corrected = 16);
        assert_eq!(
            hit(&deeper),
            ["at the raw M", "with the tolerance 0", "of a code above the raw M"]
        );
        assert_eq!(named("met a hit at depths", &deeper), ["8 to 16"]);
        assert_eq!(named("met no hit at depths", &deeper), [""; 0]);
    }

    #[test]
    fn codes_that_are_only_near_are_named() {
        let near = |case: &InverseCase| named("met no hit, and a code near enough", case);
        assert_eq!(
            near(&lines(2, 127, 1)),
            [
                "at raw 0", "several equally near", "all above the wanted code",
                "just within the tolerance"
            ]
        );
        // the first codes are 0 and 4
        let of_10 = |tolerance| changed(lines(0, 2, tolerance), |case| case.bits.corrected = 10);
        assert_eq!(
            near(&of_10(2)),
            [
                "at raw 0", "several equally near", "one below before one above",
                "just within the tolerance"
            ]
        );
        assert_eq!(
            near(&of_10(65_536)),
            [
                "at raw 0",
                "several equally near",
                "one below before one above",
                "a tolerance that is too small in 16 bits"
            ]
        );
        assert_eq!(near(&lines(0, 2, 2)), [""; 0]);
    }

    #[test]
    fn runs_and_colours_are_named() {
        let runs = |case: &InverseCase| named("met corrected codes", case);
        assert_eq!(runs(&lines(0, 1, 0)), ["that rise alone", "without one"]);
        assert_eq!(runs(&lines(1, 1, 0)), ["that fall alone", "without one"]);
        assert_eq!(runs(&lines(2, 128, 0)), ["that are all one"]);
        let other = |case: &InverseCase| named("met where other colours answer otherwise", case);
        assert_eq!(other(&lines(1, 51, 0)), ["green"]);
        assert_eq!(other(&lines(2, 128, 0)), ["blue"]);
        let red = changed(lines(0, 51, 0), |case| case.table[1] = 0);
        assert_eq!(other(&red), ["red"]);
    }

    #[test]
    fn refusals_are_named() {
        let none = |case: &InverseCase| named("refused with 28", case);
        assert_eq!(
            none(&lines(2, 127, 0)),
            ["with the tolerance 0", "by one code", "below all corrected codes"]
        );
        assert_eq!(none(&lines(2, 255, 3)), ["above them all"]);
        let alone = |case: &InverseCase| named("refused with 24 by a colour alone", case);
        assert_eq!(alone(&lines(3, 0, 0)), ["3"]);
        assert_eq!(alone(&lines(257, 0, 0)), ["above 3", "that is one in 8 bits"]);
        assert_eq!(
            alone(&lines(1 << 16, 0, 0)),
            ["above 3", "that is one in 8 bits", "that is one in 16 bits"]
        );
        assert_eq!(alone(&lines(3, 256, 0)), [""; 0]);
        let order = |case: InverseCase| named("refused with", &case);
        assert_eq!(order(lines(3, 256, 0)), ["24 by a colour before 23"]);
        assert_eq!(order(lines(0, 256, 0)), ["23 by one code"]);
        let from_9 = |case: &mut InverseCase| case.bits.raw = 9;
        assert_eq!(order(changed(lines(0, 256, 0), from_9)), ["20 by the raw depth before 23"]);
        assert_eq!(order(changed(lines(0, 255, 0), from_9)), ["20 by the raw depth alone"]);
        assert_eq!(order(changed(lines(4, 255, 0), from_9)), ["24 by a colour before 20"]);
        let solid = |case: &mut InverseCase| {
            case.description[0] = 3;
            case.table = vec![0; 24];
        };
        assert_eq!(order(changed(lines(0, 0, 0), solid)), ["24 by a 3D table alone"]);
        assert_eq!(order(changed(lines(0, 256, 0), solid)), ["24 by a 3D table before 23"]);
        assert_eq!(order(changed(lines(7, 256, 0), solid)), [""; 0]);
        let from_16 = changed(lines(0, 300, 0), |case| case.bits.raw = 16);
        assert_eq!(order(from_16), ["23 within the raw M"]);
    }
}
