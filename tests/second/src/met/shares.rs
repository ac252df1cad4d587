//! What the two halves of a look met: of the first the orders, the depths and the refusals; of the
//! second, of accepted rows and weights what they are and what they give, of refused ones what was
//! wrong with them, by itself and behind an earlier refusal.

use super::{bound_of_24_met, bounds_of, is_mixed, order_met, pair_met, value_met};
use super::{BOUNDS, DIVIDED, ORDERS, PAIRS};
use crate::gen::{CodesCase, LookCase};
use crate::halves::{codes, denominator, used, Codes, Rows};
use crate::look::{Cube, Look};
use crate::paper::{greatest_code, not_whole, number, place, Bits, Greatest, Kind};

/// Each group of names, behind its title.
pub type Groups<const COUNT: usize> = [(&'static str, &'static [&'static str]); COUNT];

// ---- the first half

pub const ROWS_GROUPS: Groups<6> = [
    ("rows met with raw codes of bits", &DEPTHS),
    ("rows met in 3D", &ORDERS),
    ("rows met in 3D with mixed domains", &ORDERS),
    ("rows and codes met joined, accepted", &PAIRS),
    ("rows refused with 24 by one bound", &BOUNDS),
    ("rows refused with", &ROWS_ORDER),
];

const DEPTHS: [&str; 4] = ["8", "10", "12", "16"];

/// A refusal where a later one would be due too.
const ROWS_ORDER: [&str; 3] = ["24 before 20", "24 before 23", "20 with a code above 4095"];

/// For each group and each of its names, whether the first half met it.
pub fn rows_met(case: &LookCase, answer: &Rows) -> [Vec<bool>; ROWS_GROUPS.len()] {
    let accepted = answer.number == number::ACCEPTED;
    let unread = answer.number == number::NOT_FROM_READING;
    let m = greatest_code(case.bits.raw);
    let seen = Look { number: 0, codes: [0; 3], rows: answer.rows, weights: answer.weights };
    let order = if accepted { order_met(case, &seen) } else { [false; ORDERS.len()] };
    let mixed = is_mixed(&case.description);
    let greatest = case.pixel.iter().max().copied();
    [
        DEPTHS.map(|bits| accepted && bits == case.bits.raw.to_string()).to_vec(),
        order.to_vec(),
        order.map(|on| on && mixed).to_vec(),
        pair_met(case.bits).map(|on| on && accepted).to_vec(),
        bound_of_24_met(&case.description, &case.table, answer.number).to_vec(),
        vec![
            unread && m.is_none(),
            unread && m.is_some() && greatest > m,
            answer.number == number::DEPTH_UNKNOWN && greatest > Some(4095),
        ],
    ]
}

// ---- the second half

pub const CODES_GROUPS: Groups<22> = [
    ("codes met", &TABLES),
    ("codes met at depths", &PAIRS),
    ("codes met with mixed domains at depths", &PAIRS),
    ("codes met two codes equally near", &PAIRS),
    ("codes met all but equally near", &PAIRS),
    ("codes met a value below 0", &PAIRS),
    ("codes met a value above 1", &PAIRS),
    ("codes met in a place that 3D does not use", &UNUSED),
    ("codes refused with 26 in 1D by one row at place", &PLACES),
    ("codes refused with 26 in 3D by one row at place", &PLACES_IN_3D),
    ("codes refused with 26 by one row that is", &ROWS),
    ("codes refused with 26 in 1D by one negative weight at place", &PLACES),
    ("codes refused with 26 in 3D by one negative weight at place", &PLACES_IN_3D),
    ("codes refused with 26 by one sum that is", &SUMS),
    ("codes refused with 26 by one sum that is right", &SUMS_OTHERWISE_RIGHT),
    ("codes refused with 26 in 1D, the greatest weight at place", &PLACES),
    ("codes refused with 26 in 1D, the least weight at place", &PLACES),
    ("codes refused with 26 in 3D, the greatest weight at place", &PLACES_IN_3D),
    ("codes refused with 26 in 3D, the least weight at place", &PLACES_IN_3D),
    ("codes refused with 26, at all places", &ENDS),
    ("codes refused with 24 by one bound", &BOUNDS),
    ("codes refused with", &CODES_ORDER),
];

/// The names of the group that has most, of either half.
pub const MOST_NAMES: usize = PAIRS.len();

/// For each group and each of its names, whether the second half met it.
pub fn codes_met(case: &CodesCase, answer: &Codes) -> [Vec<bool>; CODES_GROUPS.len()] {
    let wrong = wrong_met(case, answer);
    let [tie, nearly, below, above] = values(case, answer);
    let [greatest, least] = [i64::MAX, i64::MIN].map(|end| at_end(case, answer, end));
    let accepted = answer.number == number::ACCEPTED;
    let pair = pair_met(case.bits).map(|on| on && accepted);
    let mixed = is_mixed(&case.description);
    let at_pair = |met: bool| pair.map(|on| on && met).to_vec();
    let three_d = is_3d(case);
    let in_kind = |met: [bool; 6], wanted: bool| met.map(|on| on && three_d == wanted);
    let in_1d = |met: [bool; 6]| in_kind(met, false).to_vec();
    let in_3d = |met: [bool; 6]| in_kind(met, true)[..4].to_vec();
    [
        tables(case, answer).to_vec(),
        at_pair(true),
        at_pair(mixed),
        at_pair(tie),
        at_pair(nearly),
        at_pair(below),
        at_pair(above),
        unused(case, answer).to_vec(),
        in_1d(wrong.rows),
        in_3d(wrong.rows),
        wrong.of_row.to_vec(),
        in_1d(wrong.negative),
        in_3d(wrong.negative),
        wrong.of_sum.to_vec(),
        wrong.otherwise_right.to_vec(),
        in_1d(greatest),
        in_1d(least),
        in_3d(greatest),
        in_3d(least),
        ends(case, answer).to_vec(),
        bound_of_24_met(&case.description, &case.table, answer.number).to_vec(),
        order(case, answer).to_vec(),
    ]
}

fn is_3d(case: &CodesCase) -> bool {
    case.description[place::KIND] == Kind::ThreeD.mark()
}

/// The places that the case's kind uses.
fn places(case: &CodesCase) -> std::ops::Range<usize> {
    if is_3d(case) {
        0..4
    } else {
        0..6
    }
}

const TABLES: [&str; 9] = [
    "a 1D table", "a 3D table", "one domain of 3D that is not whole", "one row at all places",
    "a row before the one before it", "the last row", "all the weight at one place",
    "some weight at every place", "a place past the table's rows",
];

fn tables(case: &CodesCase, answer: &Codes) -> [bool; TABLES.len()] {
    let (three_d, places) = (is_3d(case), places(case));
    let (lower, upper) = bounds_of(&case.description);
    let (rows, weights) = (&case.rows[places.clone()], &case.weights[places]);
    let kind = if three_d { Kind::ThreeD } else { Kind::OneD };
    let met = |count: usize| {
        [
            !three_d,
            three_d,
            three_d && not_whole(&lower, &upper).contains(&true),
            rows.iter().all(|row| *row == rows[0]),
            rows.chunks(2).any(|pair| pair[1] < pair[0]),
            rows.iter().any(|row| *row as usize + 1 == count),
            weights.iter().filter(|weight| **weight > 0).count() == if three_d { 1 } else { 3 },
            weights.iter().all(|weight| *weight > 0),
            case.table.len() > 3 * count,
        ]
    };
    match answer.number {
        number::ACCEPTED => met(kind.rows(case.description[place::N])),
        _ => [false; TABLES.len()],
    }
}

/// What the values of an accepted case are to codes, for some colour.
fn values(case: &CodesCase, answer: &Codes) -> [bool; DIVIDED] {
    let mut met = [false; DIVIDED];
    let (number::ACCEPTED, Some(m)) = (answer.number, case.bits.greatest()) else {
        return met;
    };
    let kind = if is_3d(case) { Kind::ThreeD } else { Kind::OneD };
    for colour in 0..3 {
        let shares: Vec<(u32, i64)> =
            used(kind, colour).map(|at| (case.rows[at], case.weights[at])).collect();
        let on = value_met(m.corrected, &case.table, colour, &shares);
        met = [0, 1, 2, 3].map(|at| met[at] || on[at]);
    }
    met
}

const UNUSED: [&str; 6] = [
    "a row beyond the count",
    "the greatest row",
    "a negative weight",
    "the least weight",
    "the greatest weight",
    "a weight with which the sum would be wrong",
];

fn unused(case: &CodesCase, answer: &Codes) -> [bool; UNUSED.len()] {
    let some_row = |is: &dyn Fn(u32) -> bool| case.rows[4..].iter().any(|row| is(*row));
    let some_weight = |is: &dyn Fn(i64) -> bool| case.weights[4..].iter().any(|w| is(*w));
    let met = [
        some_row(&|row| row as usize >= case.table.len()),
        some_row(&|row| row == u32::MAX),
        some_weight(&|weight| weight < 0),
        some_weight(&|weight| weight == i64::MIN),
        some_weight(&|weight| weight == i64::MAX),
        case.weights[4].wrapping_add(case.weights[5]) != 0,
    ];
    met.map(|on| on && is_3d(case) && answer.number == number::ACCEPTED)
}

const PLACES: [&str; 6] = ["0", "1", "2", "3", "4", "5"];

const PLACES_IN_3D: [&str; 4] = ["0", "1", "2", "3"];

/// What is wrong with rows and weights.
#[derive(Clone, Copy)]
enum Fault {
    Row(usize),
    Negative(usize),
    /// By how much a colour's sum is too great.
    Sum(usize, i128),
}

/// What one fault is, where it is the only one.
#[derive(Default)]
struct Wrong {
    rows: [bool; 6],
    of_row: [bool; ROWS.len()],
    negative: [bool; 6],
    of_sum: [bool; SUMS.len()],
    otherwise_right: [bool; SUMS_OTHERWISE_RIGHT.len()],
}

const ROWS: [&str; 6] = [
    "the count", "above it", "the count, without weight", "the greatest, without weight",
    "within a longer table", "within the table in 32 bits",
];

const SUMS: [&str; 9] = [
    "red's, one below", "green's, one below", "blue's, one below", "3D's, one below",
    "red's, one above", "green's, one above", "blue's, one above", "3D's, one above", "0",
];

const SUMS_OTHERWISE_RIGHT: [&str; 4] =
    ["in 32 bits", "in 64 bits", "at the corrected depth", "for another colour"];

fn wrong_met(case: &CodesCase, answer: &Codes) -> Wrong {
    let mut wrong = Wrong::default();
    let (number::ROWS_OR_WEIGHTS_WRONG, Some(cube), Some(m)) =
        (answer.number, Cube::of(&case.description, &case.table), case.bits.greatest())
    else {
        return wrong;
    };
    match faults(case, &cube, m)[..] {
        [Fault::Row(at)] => {
            wrong.rows[at] = true;
            wrong.of_row = of_row(case, &cube, at);
        }
        [Fault::Negative(at)] => wrong.negative[at] = true,
        [Fault::Sum(colour, by)] => {
            let sum = denominator(&cube, m.raw, colour) + by;
            let which = if cube.kind == Kind::ThreeD { 3 } else { colour };
            wrong.of_sum[which] = by == -1;
            wrong.of_sum[4 + which] = by == 1;
            wrong.of_sum[8] = sum == 0;
            let other = |c| cube.kind == Kind::OneD && denominator(&cube, m.raw, c) == sum;
            wrong.otherwise_right = [
                by % (1 << 32) == 0 && by % (1 << 64) != 0,
                by % (1 << 64) == 0,
                denominator(&cube, m.corrected, colour) == sum,
                (0..3).any(other),
            ];
        }
        _ => {}
    }
    wrong
}

/// All that is wrong with a case's rows and weights. In 3D all colours have one sum.
fn faults(case: &CodesCase, cube: &Cube, m: Greatest) -> Vec<Fault> {
    let count = cube.kind.rows(cube.n);
    let rows = places(case).filter(|at| case.rows[*at] as usize >= count).map(Fault::Row);
    let negative = places(case).filter(|at| case.weights[*at] < 0).map(Fault::Negative);
    let colours = if is_3d(case) { 1 } else { 3 };
    let sums = (0..colours).filter_map(|colour| {
        let weights = &case.weights[used(cube.kind, colour)];
        let sum: i128 = weights.iter().map(|weight| i128::from(*weight)).sum();
        let by = sum - denominator(cube, m.raw, colour);
        (by != 0).then_some(Fault::Sum(colour, by))
    });
    rows.chain(negative).chain(sums).collect()
}

fn of_row(case: &CodesCase, cube: &Cube, at: usize) -> [bool; ROWS.len()] {
    let (row, count) = (case.rows[at] as usize, cube.kind.rows(cube.n));
    let idle = case.weights[at] == 0;
    [
        row == count,
        row > count,
        row == count && idle,
        case.rows[at] == u32::MAX && idle,
        3 * row + 2 < case.table.len(),
        (case.rows[at].wrapping_mul(3) as usize) < 3 * count,
    ]
}

/// The places whose weight is an end of 64 bits.
fn at_end(case: &CodesCase, answer: &Codes, end: i64) -> [bool; 6] {
    let refused = answer.number == number::ROWS_OR_WEIGHTS_WRONG;
    [0, 1, 2, 3, 4, 5].map(|at| refused && case.weights[at] == end)
}

const ENDS: [&str; 4] = [
    "the greatest weight in 1D", "the least weight in 1D", "the greatest weight in 3D",
    "the least weight in 3D",
];

fn ends(case: &CodesCase, answer: &Codes) -> [bool; ENDS.len()] {
    let all = |end| at_end(case, answer, end)[places(case)].iter().all(|on| *on);
    let (greatest, least) = (all(i64::MAX), all(i64::MIN));
    let three_d = is_3d(case);
    [greatest && !three_d, least && !three_d, greatest && three_d, least && three_d]
}

/// An earlier refusal where a later one would be due too; with 20, 26 is due at every depth.
const CODES_ORDER: [&str; 5] = [
    "24 before 20",
    "24 before 26",
    "20 by the raw depth alone before 26",
    "20 by the corrected depth alone before 26",
    "20 by both depths before 26",
];

fn order(case: &CodesCase, answer: &Codes) -> [bool; CODES_ORDER.len()] {
    let unread = answer.number == number::NOT_FROM_READING;
    let unknown = answer.number == number::DEPTH_UNKNOWN;
    let at_all = DEPTHS.iter().filter_map(|bits| bits.parse().ok()).all(|raw| {
        let at = |bits: Bits| {
            codes(&case.description, &case.table, bits, &case.rows, &case.weights).number
        };
        at(Bits::same(raw)) == number::ROWS_OR_WEIGHTS_WRONG
    });
    let [raw, corrected] = [case.bits.raw, case.bits.corrected].map(greatest_code);
    let depths = [raw.is_none(), corrected.is_none()];
    [
        unread && depths.contains(&true),
        unread && case.rows[0] == u32::MAX,
        unknown && at_all && depths == [true, false],
        unknown && at_all && depths == [false, true],
        unknown && at_all && depths == [true, true],
    ]
}

#[cfg(test)]
mod tests {
    use super::*;
    use crate::side::{Second, Side};

    /// What names are met in the group with this title.
    fn named<const COUNT: usize>(
        groups: Groups<COUNT>,
        title: &str,
        met: [Vec<bool>; COUNT],
    ) -> Vec<&'static str> {
        let group = groups.into_iter().zip(met).filter(|((of, _), _)| *of == title);
        let named = |((_, names), met): ((_, &'static [&'static str]), Vec<bool>)| {
            assert_eq!(names.len(), met.len());
            assert!(names.len() <= MOST_NAMES);
            names.iter().zip(met).filter(|(_, on)| *on).map(|(name, _)| *name)
        };
        group.flat_map(named).collect()
    }

    fn met(title: &str, case: &CodesCase) -> Vec<&'static str> {
        let answer = Second.codes(case);
        let met = answer.map(|answer| codes_met(case, &answer)).unwrap_or_default();
        named(CODES_GROUPS, &format!("codes {title}"), met)
    }

    /// Three rows in 1D, where a blue code has three times the weights; one more stands in the
    /// table.
    fn line() -> CodesCase {
        CodesCase {
            description: [1, 3, 0, 0, 0, 1000, 1000, 3000, 0, 0, 0],
            table: vec![0; 12],
            bits: Bits::same(8),
            rows: [0, 1, 2, 0, 1, 2],
            weights: [255_000, 0, 1000, 254_000, 765_000, 0],
            made: Vec::new(),
        }
    }

    /// Eight rows in 3D.
    fn cube() -> CodesCase {
        CodesCase {
            description: [3, 2, 0, 0, 0, 1000, 1000, 1000, 0, 0, 0],
            table: vec![0; 24],
            bits: Bits { raw: 8, corrected: 16 },
            rows: [0, 4, 6, 7, 9, 0],
            weights: [51_000, 102_000, 51_000, 51_000, 0, -1],
            made: Vec::new(),
        }
    }

    fn changed(mut case: CodesCase, change: fn(&mut CodesCase)) -> CodesCase {
        change(&mut case);
        case
    }

    #[test]
    fn what_is_accepted_is_named() {
        let (line, cube) = (line(), cube());
        assert_eq!(
            met("met", &line),
            [
                "a 1D table", "a row before the one before it", "the last row",
                "a place past the table's rows"
            ]
        );
        assert_eq!(met("met", &cube), ["a 3D table", "the last row", "some weight at every place"]);
        assert_eq!(met("met at depths", &line), ["8 to 8"]);
        assert_eq!(met("met at depths", &cube), ["8 to 16"]);
        let unused = "met in a place that 3D does not use";
        assert_eq!(
            met(unused, &cube),
            ["a negative weight", "a weight with which the sum would be wrong"]
        );
        assert_eq!(met(unused, &line), [""; 0]);
    }

    #[test]
    fn what_is_refused_is_named_where_it_stands_alone() {
        let row = |change| {
            let case = changed(line(), change);
            let mut names = met("refused with 26 in 1D by one row at place", &case);
            names.extend(met("refused with 26 by one row that is", &case));
            names
        };
        assert_eq!(
            row(|case| case.rows[5] = 3),
            ["5", "the count", "the count, without weight", "within a longer table"]
        );
        assert_eq!(
            row(|case| case.rows[1] = u32::MAX),
            ["1", "above it", "the greatest, without weight"]
        );
        assert_eq!(
            row(|case| case.rows[0] = 0x5555_5556),
            ["0", "above it", "within the table in 32 bits"]
        );
        assert_eq!(row(|case| case.rows = [3; 6]), [""; 0]);
        let cube =
            |title, change| met(&format!("refused with 26 {title}"), &changed(cube(), change));
        assert_eq!(cube("in 3D by one row at place", |case| case.rows[3] = 8), ["3"]);
        let negative = |case: &mut CodesCase| case.weights[..2].copy_from_slice(&[-1, 153_001]);
        assert_eq!(cube("in 3D by one negative weight at place", negative), ["0"]);
        assert_eq!(cube("by one sum that is", |case| case.weights[3] += 1), ["3D's, one above"]);
        let wraps = |case: &mut CodesCase| case.weights = [i64::MAX, i64::MAX, 2, 255_000, 0, 0];
        assert_eq!(cube("by one sum that is right", wraps), ["in 64 bits"]);
        assert_eq!(cube("in 3D, the greatest weight at place", wraps), ["0", "1"]);
        let at_16 = |case: &mut CodesCase| case.weights = [65_535_000, 0, 0, 0, 0, 0];
        assert_eq!(cube("by one sum that is right", at_16), ["at the corrected depth"]);
    }

    #[test]
    fn sums_are_those_of_one_colour() {
        let sum = |change| {
            let case = changed(line(), change);
            let mut names = met("refused with 26 by one sum that is", &case);
            names.extend(met("refused with 26 by one sum that is right", &case));
            names
        };
        assert_eq!(sum(|case| case.weights[0] -= 1), ["red's, one below"]);
        assert_eq!(sum(|case| case.weights[5] += 1), ["blue's, one above"]);
        assert_eq!(sum(|case| case.weights[4] = 255_000), ["for another colour"]);
        assert_eq!(sum(|case| case.weights[4] = 0), ["0"]);
        assert_eq!(sum(|case| case.weights[1] = 1 << 32), ["in 32 bits"]);
    }

    #[test]
    fn orders_are_those_of_two_refusals() {
        let order = |change| met("refused with", &changed(cube(), change));
        assert_eq!(order(|case| case.description[0] = 2), [""; 0]);
        assert_eq!(
            order(|case| {
                case.description[0] = 2;
                case.bits.raw = 9;
                case.rows[0] = u32::MAX;
            }),
            ["24 before 20", "24 before 26"]
        );
        // at another depth these weights are right
        assert_eq!(order(|case| case.bits.raw = 9), [""; 0]);
        assert_eq!(
            order(|case| {
                case.bits.corrected = 9;
                case.weights[0] = -1;
            }),
            ["20 by the corrected depth alone before 26"]
        );
    }

    #[test]
    fn first_halves_are_named() {
        let met = |title: &str, raw: u32, kind: i64, pixel: [u16; 3]| {
            let CodesCase { mut description, table, made, .. } = cube();
            description[0] = kind;
            let case = LookCase { description, table, bits: Bits::same(raw), pixel, made };
            let answer = Second.rows(&case);
            let met = answer.map(|answer| rows_met(&case, &answer)).unwrap_or_default();
            named(ROWS_GROUPS, &format!("rows {title}"), met)
        };
        assert_eq!(met("met in 3D", 8, 3, [51, 102, 204]), ["b > g > r"]);
        assert_eq!(met("met with raw codes of bits", 10, 3, [51, 102, 204]), ["10"]);
        assert_eq!(met("refused with", 8, 2, [0, 0, 256]), ["24 before 23"]);
        assert_eq!(met("refused with", 9, 2, [0; 3]), ["24 before 20"]);
        assert_eq!(met("refused with", 8, 3, [0, 0, 256]), [""; 0]);
    }
}
