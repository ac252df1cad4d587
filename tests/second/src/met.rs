//! What an accepted look met, in 3D also which order of the three fractions; what files did by the
//! points of their numbers, by one domain line without the other and by the domains of 3D; and what
//! looks and pictures did by their two depths and by mixed domains; and what plain rows, pictures by
//! their length, writes, the halves of looks and inverses did. A stream has to come to each of these
//! places, since they are where a mistake would show.

pub mod inverses;
pub mod pictures;
pub mod plain;
pub mod shares;
pub mod writes;

use crate::gen::lookups::common_divisor;
use crate::gen::{FileCase, LookCase};
use crate::look::{Cube, Look};
use crate::paper::{colours, greatest_code, number, place, Bits, Description, Kind};
use crate::paper::{differ_in_3d, not_whole, some_too_wide};
use crate::paper::{BOUND_UNITS, GREATEST_BOUND, SAMPLE_UNITS};
use crate::reading::{bounds, is_data, read, words};
use crate::side::ReadAnswer;

/// A point that has no digit after it, where the file is accepted; one that has no digit on
/// either side, where it is why the file is refused.
pub const POINTS: [&str; 6] = [
    "a bare point in a sample", "in a bound", "before a sample's exponent",
    "before a bound's exponent", "a lone point for a sample", "for a bound",
];

/// For each of those names, whether the file met it.
pub fn points_met(case: &FileCase, answer: &ReadAnswer) -> [bool; POINTS.len()] {
    let refused = taken(case, answer).last();
    let lone =
        |wanted| answer.number == wanted && refused.is_some_and(|line| words(line).any(is_lone));
    let bare = |bounds, is: fn(&[u8]) -> bool| {
        let met = |line: &[u8]| {
            !line.starts_with(b"#") && has_bounds(line) == bounds && words(line).any(is)
        };
        answer.number == number::ACCEPTED && lines(case).any(met)
    };
    [
        bare(false, is_bare),
        bare(true, is_bare),
        bare(false, is_bare_before_exponent),
        bare(true, is_bare_before_exponent),
        lone(number::NOT_THREE_NUMBERS),
        lone(number::PARAMETERS_WRONG),
    ]
}

/// One domain line without the other: why a file is refused with 19, whether or not a later
/// check of the keywords would refuse it too, and what hides behind 9.
pub const HALVES: [&str; 8] = [
    "DOMAIN_MIN alone", "DOMAIN_MAX alone", "19 where 10 to 13 pass", "19 before 10",
    "19 before 11", "19 before 12", "19 before 13", "9 before 19",
];

/// Where the keywords are judged, and where each of those names has to be met.
pub const JUDGED: [&str; 2] = ["at a data line", "at the end"];

/// For each of these two and each of those names, whether the file met it there.
pub fn halves_met(case: &FileCase, answer: &ReadAnswer) -> [[bool; HALVES.len()]; JUDGED.len()] {
    let has = |keyword: &[u8]| taken(case, answer).any(|l| words(l).next() == Some(keyword));
    let (lower, upper) = (has(b"DOMAIN_MIN"), has(b"DOMAIN_MAX"));
    let given = answer.number == number::HALF_A_DOMAIN;
    // What the file is answered where the absent line's default is written out.
    let absent: &[u8] = if lower { b"DOMAIN_MAX 1 1 1\n" } else { b"DOMAIN_MIN 0 0 0\n" };
    let hidden = given.then(|| read(&[absent, &case.file].concat(), case.table_len).number);
    let hides = |number| hidden == Some(number);
    let later = number::LOWER_NOT_BELOW_UPPER..=number::TOO_LITTLE_ROOM;
    let met = [
        given && lower && !upper,
        given && upper && !lower,
        given && !later.into_iter().any(hides),
        hides(number::LOWER_NOT_BELOW_UPPER),
        hides(number::DOMAIN_TOO_WIDE),
        hides(number::DOMAINS_DIFFER),
        hides(number::TOO_LITTLE_ROOM),
        answer.number == number::NO_SIZE && lower != upper,
    ];
    let at_data = taken(case, answer).last().is_some_and(is_data);
    [at_data, !at_data].map(|here| met.map(|on| on && here))
}

/// 3D files by their domains: accepted where document 02 allows them to differ, and as before
/// where they are one; refused with 12 where more than one bound is why, or no width is.
pub const DOMAINS: [&str; 5] = [
    "mixed domains", "mixed domains of one width", "one domain that is not whole",
    "12 by a domain of two colours", "12 by domains of one width",
];

/// For each of those names, whether the file met it.
pub fn domains_met(case: &FileCase, answer: &ReadAnswer) -> [bool; DOMAINS.len()] {
    let Some((lower, upper)) = bounds_in_3d(case, answer) else {
        return [false; DOMAINS.len()];
    };
    let accepted = answer.number == number::ACCEPTED;
    let differ = differ_in_3d(Kind::ThreeD, &lower, &upper);
    let widths = [0, 1, 2].map(|colour| upper[colour] - lower[colour]);
    let one_width = widths == [widths[0]; 3];
    let broken = not_whole(&lower, &upper);
    let shared = |one: usize, other: usize| {
        (lower[one], upper[one]) == (lower[other], upper[other]) && (broken[one] || broken[3 + one])
    };
    [
        accepted && differ,
        accepted && differ && one_width,
        accepted && !differ && broken.contains(&true),
        !accepted && (shared(0, 1) || shared(0, 2) || shared(1, 2)),
        !accepted && one_width,
    ]
}

/// The six bounds as they stand in a description: each has to be the one that is not whole.
pub const BOUNDS: [&str; 6] = [
    "red's lower", "green's lower", "blue's lower", "red's upper", "green's upper", "blue's upper",
];

/// For each of those, whether the file is refused with 12 for this bound alone.
pub fn bound_of_12_met(case: &FileCase, answer: &ReadAnswer) -> [bool; BOUNDS.len()] {
    let bounds = bounds_in_3d(case, answer).filter(|_| answer.number == number::DOMAINS_DIFFER);
    bounds.map_or([false; BOUNDS.len()], |(lower, upper)| alone(not_whole(&lower, &upper)))
}

/// For each of those, whether a description and table are 24 for this bound alone: it is in range
/// and no domain is too wide as it is, and were it the whole number below it or above, they would
/// do.
pub fn bound_of_24_met(
    description: &Description,
    table: &[i64],
    number: u32,
) -> [bool; BOUNDS.len()] {
    let (lower, upper) = bounds_of(description);
    let broken = alone(not_whole(&lower, &upper));
    let would_do = |at: usize| {
        let bound = description[place::LOWER + at];
        let would_do_at = |whole: i64| {
            let mut mended = *description;
            mended[place::LOWER + at] = whole * BOUND_UNITS;
            Cube::of(&mended, table).is_some()
        };
        let below = bound.div_euclid(BOUND_UNITS);
        bound.unsigned_abs() <= GREATEST_BOUND.unsigned_abs()
            && (would_do_at(below) || would_do_at(below + 1))
    };
    let fits = number == number::NOT_FROM_READING && !some_too_wide(&lower, &upper);
    [0, 1, 2, 3, 4, 5].map(|at| fits && broken[at] && would_do(at))
}

/// The lower and the upper bounds of a description.
fn bounds_of(description: &Description) -> ([i64; 3], [i64; 3]) {
    (colours(description, place::LOWER), colours(description, place::UPPER))
}

/// The one of several that is so, if one alone is.
fn alone<const COUNT: usize>(several: [bool; COUNT]) -> [bool; COUNT] {
    let one = several.iter().filter(|on| **on).count() == 1;
    several.map(|on| on && one)
}

/// The bounds of a 3D file that was accepted, or that was refused with 12.
fn bounds_in_3d(case: &FileCase, answer: &ReadAnswer) -> Option<([i64; 3], [i64; 3])> {
    let of_line = |keyword: &[u8]| {
        let line = taken(case, answer).find(|line| words(line).next() == Some(keyword));
        line.and_then(|line| bounds(line).ok())
    };
    match answer.number {
        number::ACCEPTED if answer.description[place::KIND] == Kind::ThreeD.mark() => {
            Some(bounds_of(&answer.description))
        }
        number::DOMAINS_DIFFER => of_line(b"DOMAIN_MIN").zip(of_line(b"DOMAIN_MAX")),
        _ => None,
    }
}

fn lines(case: &FileCase) -> impl Iterator<Item = &[u8]> {
    case.file.split(|byte| *byte == b'\n')
}

/// The lines up to the one that decided; none of an accepted file.
fn taken<'a>(case: &'a FileCase, answer: &ReadAnswer) -> impl Iterator<Item = &'a [u8]> {
    lines(case).take(answer.line as usize)
}

/// Whether a domain line's keyword is on the line.
pub fn has_bounds(line: &[u8]) -> bool {
    line.windows(7).any(|bytes| bytes == b"DOMAIN_")
}

/// What a word has before its first point, without a sign, and after it.
fn parted(word: &[u8]) -> Option<(&[u8], &[u8])> {
    let point = word.iter().position(|byte| *byte == b'.')?;
    let sign = usize::from(matches!(word[0], b'+' | b'-'));
    Some((&word[sign..point], &word[point + 1..]))
}

fn is_lone(word: &[u8]) -> bool {
    parted(word)
        .is_some_and(|(before, after)| before.is_empty() && matches!(after, [] | [b'e' | b'E', ..]))
}

/// What follows a point with digits before it.
fn after_digits(word: &[u8]) -> Option<&[u8]> {
    let digits = |before: &[u8]| !before.is_empty() && before.iter().all(u8::is_ascii_digit);
    parted(word).filter(|(before, _)| digits(before)).map(|(_, after)| after)
}

fn is_bare(word: &[u8]) -> bool {
    after_digits(word).is_some_and(<[u8]>::is_empty)
}

fn is_bare_before_exponent(word: &[u8]) -> bool {
    after_digits(word).is_some_and(|after| matches!(after, [b'e' | b'E', ..]))
}

/// Each pair of known depths, raw to corrected.
pub const PAIRS: [&str; 16] = [
    "8 to 8", "8 to 10", "8 to 12", "8 to 16", "10 to 8", "10 to 10", "10 to 12", "10 to 16",
    "12 to 8", "12 to 10", "12 to 12", "12 to 16", "16 to 8", "16 to 10", "16 to 12", "16 to 16",
];

/// For each of those, whether these are the depths.
pub fn pair_met(bits: Bits) -> [bool; PAIRS.len()] {
    let pair = format!("{} to {}", bits.raw, bits.corrected);
    PAIRS.map(|name| name == pair)
}

/// Refusals by the depths: which was unknown; which later check would have refused, had the
/// corrected depth alone not been unknown; and a code that only the raw M has refused.
pub const DEPTH_REFUSALS: [&str; 7] = [
    "20 by the raw depth alone", "20 by both depths", "20 by the corrected depth alone",
    "20 by it before 23", "23 within the corrected M", "20 by it before 21", "20 by it before 22",
];

/// How many of those a look can come to, which has no 21 and no 22.
pub const DEPTH_REFUSALS_OF_LOOK: usize = 5;

/// For each of those, whether a call met it that was given these depths and codes and answered
/// the number, and that would answer another at other depths.
pub fn depth_refusals_met(
    bits: Bits,
    codes: &[u16],
    number: u32,
    answer: impl FnOnce(Bits) -> u32,
) -> [bool; DEPTH_REFUSALS.len()] {
    let unknown = number == number::DEPTH_UNKNOWN;
    let [raw, corrected] = [bits.raw, bits.corrected].map(greatest_code);
    let alone = unknown && raw.is_some();
    let hidden = alone.then(|| answer(Bits::same(bits.raw)));
    let within = codes.iter().all(|code| Some(*code) <= corrected);
    [
        unknown && corrected.is_some(),
        unknown && raw.is_none() && corrected.is_none(),
        alone,
        hidden == Some(number::CODE_ABOVE_M),
        number == number::CODE_ABOVE_M && within,
        hidden == Some(number::PICTURE_LENGTH),
        hidden == Some(number::OUTPUT_SHORT),
    ]
}

pub const NAMES: [&str; 10] = [
    "two codes equally near", "all but equally near", "a value below 0", "a value above 1",
    "equal fractions", "a row's own point", "a code below its domain", "a code above its domain",
    "a raw code above the corrected M", "a corrected code above the raw M",
];

/// How many of those the last division is about; each has to be met at each pair of depths.
pub const DIVIDED: usize = 4;

/// For each name, whether the look met it, by its own rows and weights.
pub fn met(case: &LookCase, look: &Look) -> [bool; NAMES.len()] {
    let three_d = case.description[place::KIND] == 3;
    let mut met = [false; NAMES.len()];
    // weights 1 and 2 of a 3D look are differences of neighbouring fractions
    met[4] = three_d && (look.weights[1] == 0 || look.weights[2] == 0);
    for colour in 0..3 {
        let used = if three_d { 0..4 } else { 2 * colour..2 * colour + 2 };
        let on = colour_met(case, look, colour, used);
        for (met, on) in met.iter_mut().zip(on) {
            *met |= on;
        }
    }
    met
}

/// The orders that three fractions can stand in, as document 02's wall chart has them: the
/// greatest first, equal ones red, green, blue.
pub const ORDERS: [&str; 13] = [
    "r > g > b", "r = g > b", "r > g = b", "r = g = b", "r > b > g", "r = b > g", "g > r > b",
    "g > r = b", "g > b > r", "g = b > r", "b > r > g", "b > r = g", "b > g > r",
];

/// For each of those, whether the look met it, by its own rows and weights: a weight between two
/// steps is the difference of their fractions.
pub fn order_met(case: &LookCase, look: &Look) -> [bool; ORDERS.len()] {
    if case.description[place::KIND] != 3 {
        return [false; ORDERS.len()];
    }
    let axis = |step: usize| ['r', 'g', 'b'][axes(case, look)[step]];
    let sign = |weight: usize| if look.weights[weight] == 0 { '=' } else { '>' };
    let order = format!("{} {} {} {} {}", axis(0), sign(1), axis(1), sign(2), axis(2));
    ORDERS.map(|name| name == order)
}

/// The axes in the order of a 3D look's steps: each step from row to row is along one.
fn axes(case: &LookCase, look: &Look) -> [usize; 3] {
    let n = case.description[place::N];
    [0, 1, 2].map(|step| match i64::from(look.rows[step + 1]) - i64::from(look.rows[step]) {
        1 => 0,
        rows if rows == n => 1,
        _ => 2,
    })
}

/// Whether the domains of a 3D description differ.
pub fn is_mixed(description: &Description) -> bool {
    let (lower, upper) = bounds_of(description);
    description[place::KIND] == 3 && differ_in_3d(Kind::ThreeD, &lower, &upper)
}

/// The widths that mixed domains can have, in whole units.
pub const WIDTHS: [&str; 10] = ["1", "2", "3", "4", "5", "6", "7", "8", "9", "10"];

/// For each of those, whether some colour's domain is so wide.
pub fn widths_met(description: &Description) -> [bool; WIDTHS.len()] {
    let widths = widths(description).map(|width| width.to_string());
    WIDTHS.map(|name| widths.iter().any(|width| width == name))
}

fn widths(description: &Description) -> [i64; 3] {
    let width = |c| (description[place::UPPER + c] - description[place::LOWER + c]) / BOUND_UNITS;
    [0, 1, 2].map(width)
}

/// What mixed domains can be to one another, and where they can lie.
pub const SHAPES: [&str; 6] = [
    "a lower bound below 0", "a lower bound above 0", "one width", "three widths of 10",
    "three unlike widths", "one domain for two colours",
];

/// For each of those, whether the mixed domains of a description are so.
pub fn shapes_met(description: &Description) -> [bool; SHAPES.len()] {
    let (lower, upper) = bounds_of(description);
    let widths = widths(description);
    let alike = |one: usize, other: usize| lower[one] == lower[other] && upper[one] == upper[other];
    [
        lower.iter().any(|bound| *bound < 0),
        lower.iter().any(|bound| *bound > 0),
        widths == [widths[0]; 3],
        widths == [10; 3],
        COLOUR_PAIRS.iter().all(|(one, other)| widths[*one] != widths[*other]),
        COLOUR_PAIRS.iter().any(|(one, other)| alike(*one, *other)),
    ]
}

const COLOUR_PAIRS: [(usize, usize); 3] = [(0, 1), (0, 2), (1, 2)];

/// Looks through mixed domains. A numerator is what a colour's fraction is over its own D, before
/// it is brought to the common one. A border is one between two cells.
pub const MIXED: [&str; 8] = [
    "two equal fractions of unlike numerators",
    "three equal fractions of unlike numerators",
    "an order that the numerators do not have",
    "a border in red alone",
    "a border in green alone",
    "a border in blue alone",
    "a code at its lower bound",
    "a code at its upper bound",
];

/// For each of those, whether a look through mixed domains met it, by its own rows and weights.
pub fn mixed_met(case: &LookCase, look: &Look) -> [bool; MIXED.len()] {
    let (fractions, widths) = (fractions(case, look), widths(&case.description));
    let three = fractions == [fractions[0]; 3];
    let unlike = COLOUR_PAIRS.iter().any(|(one, other)| {
        let equal = fractions[*one] == fractions[*other] && fractions[*one] > 0;
        equal && widths[*one] != widths[*other]
    });
    let m = greatest_code(case.bits.raw).map_or(0, i64::from);
    let at = |first: usize| {
        let bounds = colours(&case.description, first);
        (0..3).any(|c| BOUND_UNITS * i64::from(case.pixel[c]) == bounds[c] * m)
    };
    let border = |colour| on_border(case, look, colour);
    [
        unlike && !three,
        unlike && three,
        axes(case, look) != by_numerators(fractions, widths),
        border(0),
        border(1),
        border(2),
        at(place::LOWER),
        at(place::UPPER),
    ]
}

/// The fractions of the three colours over the common D: each is the sum of the weights of the rows
/// after its step.
fn fractions(case: &LookCase, look: &Look) -> [i64; 3] {
    let mut fractions = [0; 3];
    for (step, axis) in axes(case, look).into_iter().enumerate() {
        fractions[axis] = look.weights[step + 1..4].iter().sum();
    }
    fractions
}

/// The order that the axes would have by numerators alone, which are to one another as fraction
/// times width.
fn by_numerators(fractions: [i64; 3], widths: [i64; 3]) -> [usize; 3] {
    let mut axes = [0, 1, 2];
    axes.sort_by_key(|axis| std::cmp::Reverse(fractions[*axis] * widths[*axis]));
    axes
}

/// Whether a colour alone is between two cells, and the others are within theirs.
fn on_border(case: &LookCase, look: &Look, colour: usize) -> bool {
    let (n, row) = (case.description[place::N], i64::from(look.rows[0]));
    let index = [row % n, row / n % n, row / (n * n)];
    let (fractions, den) = (fractions(case, look), look.weights.iter().sum::<i64>());
    (0..3).all(|c| match c == colour {
        true => fractions[c] == 0 && index[c] > 0,
        false => 0 < fractions[c] && fractions[c] < den,
    })
}

fn colour_met(
    case: &LookCase,
    look: &Look,
    colour: usize,
    used: std::ops::Range<usize>,
) -> [bool; NAMES.len()] {
    let wide = |index: usize| i128::from(case.description[index]);
    let Some(m) = case.bits.greatest() else {
        return [false; NAMES.len()];
    };
    let (lower, upper) = (wide(place::LOWER + colour), wide(place::UPPER + colour));
    let (raw, corrected) = (case.pixel[colour], look.codes[colour]);
    let at = 1000 * i128::from(raw);
    let shares: Vec<(u32, i64)> = used.map(|at| (look.rows[at], look.weights[at])).collect();
    let [tie, nearly, below, above] = value_met(m.corrected, &case.table, colour, &shares);
    [
        tie,
        nearly,
        below,
        above,
        false,
        shares.iter().filter(|(_, weight)| *weight != 0).count() == 1,
        at < lower * i128::from(m.raw),
        at > upper * i128::from(m.raw),
        raw > m.corrected,
        corrected > m.raw,
    ]
}

/// For the first four of the names, whether a colour's rows and weights meet it.
fn value_met(m: u16, table: &[i64], colour: usize, shares: &[(u32, i64)]) -> [bool; DIVIDED] {
    let weighed = |(row, weight): &(u32, i64)| {
        i128::from(*weight) * i128::from(table[3 * *row as usize + colour])
    };
    let sum: i128 = shares.iter().map(weighed).sum();
    let weights = shares.iter().map(|(_, weight)| i128::from(*weight));
    let one = weights.clone().sum::<i128>() * i128::from(SAMPLE_UNITS);
    let step = weights.fold(0, |step, weight| common_divisor(step, weight).0);
    let [tie, nearly] = tie_met(m, sum, one, step);
    [tie, nearly, sum < 0, sum > one]
}

/// Whether the value of a sum is half way between two codes, or not but at most one step of the
/// sum from there; `one` is the sum of the value 1.
fn tie_met(m: u16, sum: i128, one: i128, step: i128) -> [bool; 2] {
    let twice = 2 * i128::from(m);
    // from an odd number of half codes, in parts of `one`
    let away = ((twice * sum).rem_euclid(2 * one) - one).abs();
    let within = 0 < sum && sum < one;
    [within && away == 0, within && 0 < away && away <= twice * step]
}

#[cfg(test)]
mod tests {
    use super::*;
    use crate::look::look;
    use crate::paper::DEPTHS;
    use crate::side::{Second, Side};

    const HALF: i64 = 5_000_000;

    /// What a function says of a file that is read into 24 places.
    fn of_file<T: Default>(file: &str, met: fn(&FileCase, &ReadAnswer) -> T) -> T {
        let case = FileCase { file: file.as_bytes().to_vec(), table_len: 24, made: Vec::new() };
        Second.read(&case).map(|answer| met(&case, &answer)).unwrap_or_default()
    }

    /// The names that a file meets, each behind where it meets it.
    fn halves(file: &str) -> Vec<String> {
        let met = of_file(file, halves_met);
        let named = |(judged, met): (&'static str, [bool; HALVES.len()])| {
            let on = HALVES.into_iter().zip(met).filter(|(_, on)| *on);
            on.map(move |(name, _)| format!("{judged}: {name}"))
        };
        JUDGED.into_iter().zip(met).flat_map(named).collect()
    }

    /// The order that a look at these codes of 8 bits meets, in a table of 27 rows.
    fn order(pixel: [u16; 3]) -> Vec<&'static str> {
        let case = LookCase {
            description: [3, 3, 0, 0, 0, 1000, 1000, 1000, 0, 0, 0],
            table: vec![0; 81],
            bits: Bits::same(8),
            pixel,
            made: Vec::new(),
        };
        let met = Second.look(&case).map(|look| order_met(&case, &look)).unwrap_or_default();
        named(&ORDERS, &met)
    }

    #[test]
    fn orders_are_those_of_the_fractions() {
        assert_eq!(order([3, 2, 1]), ["r > g > b"]);
        assert_eq!(order([2, 2, 1]), ["r = g > b"]);
        assert_eq!(order([2, 1, 1]), ["r > g = b"]);
        assert_eq!(order([0, 0, 0]), ["r = g = b"]);
        assert_eq!(order([3, 1, 2]), ["r > b > g"]);
        assert_eq!(order([2, 1, 2]), ["r = b > g"]);
        assert_eq!(order([2, 3, 1]), ["g > r > b"]);
        assert_eq!(order([1, 2, 1]), ["g > r = b"]);
        assert_eq!(order([1, 3, 2]), ["g > b > r"]);
        assert_eq!(order([1, 2, 2]), ["g = b > r"]);
        assert_eq!(order([2, 1, 3]), ["b > r > g"]);
        assert_eq!(order([1, 1, 2]), ["b > r = g"]);
        assert_eq!(order([1, 2, 3]), ["b > g > r"]);
        // the second cell begins between 127 and 128: codes that rise, fractions that fall
        assert_eq!(order([127, 129, 128]), ["r > g > b"]);
    }

    #[test]
    fn pairs_are_those_of_the_known_depths() {
        let known = DEPTHS.map(|(raw, _)| DEPTHS.map(|(corrected, _)| Bits { raw, corrected }));
        for (place, bits) in known.concat().into_iter().enumerate() {
            let at = pair_met(bits).iter().position(|on| *on);
            assert_eq!(at, Some(place), "{bits:?}");
        }
        assert_eq!(pair_met(Bits { raw: 8, corrected: 9 }), [false; PAIRS.len()]);
    }

    /// What a look at a pixel of one code meets, in a 1D table from 0 to a number.
    fn looked(raw: u32, corrected: u32, last: i64, code: u16) -> Vec<&'static str> {
        let case = LookCase {
            description: [1, 2, 0, 0, 0, 1000, 1000, 1000, 0, 0, 0],
            table: vec![0, 0, 0, last, last, last],
            bits: Bits { raw, corrected },
            pixel: [code; 3],
            made: Vec::new(),
        };
        let number = |bits| look(&case.description, &case.table, bits, case.pixel).number;
        let seen = look(&case.description, &case.table, case.bits, case.pixel);
        let refusals = depth_refusals_met(case.bits, &case.pixel, seen.number, number);
        let mut names = named(&DEPTH_REFUSALS, &refusals);
        if seen.number == number::ACCEPTED {
            names.extend(named(&NAMES, &met(&case, &seen)));
        }
        names
    }

    fn named(names: &[&'static str], met: &[bool]) -> Vec<&'static str> {
        names.iter().zip(met).filter(|(_, on)| **on).map(|(name, _)| *name).collect()
    }

    #[test]
    fn ties_are_those_of_the_corrected_codes() {
        assert_eq!(looked(8, 8, HALF, 3), ["two codes equally near"]);
        assert_eq!(looked(8, 8, HALF - 1, 3), ["all but equally near"]);
        assert!(looked(8, 12, HALF, 3).is_empty());
        assert_eq!(looked(8, 16, HALF, 2), ["a corrected code above the raw M"]);
        assert_eq!(looked(12, 16, HALF, 273), ["two codes equally near"]);
        assert_eq!(looked(12, 16, HALF + 1, 273), ["all but equally near"]);
        assert!(looked(12, 16, HALF, 272).is_empty());
        let raw_above = "a raw code above the corrected M";
        assert_eq!(looked(16, 8, HALF, 257), ["two codes equally near", raw_above]);
    }

    #[test]
    fn refusals_are_those_of_the_depths() {
        let refused = |raw, corrected, code| looked(raw, corrected, HALF, code);
        assert_eq!(refused(9, 8, 256), ["20 by the raw depth alone"]);
        assert_eq!(refused(9, 11, 256), ["20 by both depths"]);
        assert_eq!(refused(8, 9, 255), ["20 by the corrected depth alone"]);
        assert_eq!(refused(8, 9, 256), ["20 by the corrected depth alone", "20 by it before 23"]);
        assert_eq!(refused(8, 16, 256), ["23 within the corrected M"]);
        assert!(refused(8, 8, 256).is_empty());
        assert!(refused(10, 8, 1024).is_empty());
    }

    #[test]
    fn halves_are_met_where_they_are_judged() {
        let none: [&str; 0] = [];
        assert_eq!(
            halves("DOMAIN_MIN -1 -1 -1\nLUT_1D_SIZE 2\n0 0 0\n1 1 1\n"),
            ["at a data line: DOMAIN_MIN alone", "at a data line: 19 where 10 to 13 pass"]
        );
        assert_eq!(
            halves("DOMAIN_MIN -10 0 0\nLUT_1D_SIZE 2\n0 0 0\nDOMAIN_MAX 0 1 1\n"),
            ["at a data line: DOMAIN_MIN alone", "at a data line: 19 before 11"]
        );
        assert_eq!(
            halves("LUT_3D_SIZE 2\n DOMAIN_MAX 1 1 2.5\n# none\n0 x\n"),
            ["at a data line: DOMAIN_MAX alone", "at a data line: 19 before 12"]
        );
        assert_eq!(
            halves("LUT_1D_SIZE 2\nDOMAIN_MAX 0 0 0"),
            ["at the end: DOMAIN_MAX alone", "at the end: 19 before 10"]
        );
        assert_eq!(
            halves("LUT_1D_SIZE 9\nDOMAIN_MIN 0 0 0\n"),
            ["at the end: DOMAIN_MIN alone", "at the end: 19 before 13"]
        );
        assert_eq!(halves("DOMAIN_MAX 2 2 2\n0 0 0\n"), ["at a data line: 9 before 19"]);
        assert_eq!(halves("DOMAIN_MIN 0 0 0\n"), ["at the end: 9 before 19"]);
        assert_eq!(halves("DOMAIN_MIN 0 0 0\nDOMAIN_MAX 1 1 1\n"), none);
        assert_eq!(halves("#\n0 0 0\n"), none);
        assert_eq!(halves("LUT_1D_SIZE 2\n0 0 0\nDOMAIN_MIN 0 0 0\n"), none);
        assert_eq!(halves("LUT_1D_SIZE 2\n0 0 0\n1 1 1\n"), none);
    }

    /// What the domains of a 3D file with these bounds are, and the bound that is why it is 12.
    fn domains(lower: &str, upper: &str) -> Vec<&'static str> {
        let rows = "0 0 0\n".repeat(8);
        let file = format!("LUT_3D_SIZE 2\nDOMAIN_MIN {lower}\nDOMAIN_MAX {upper}\n{rows}");
        let mut names = named(&DOMAINS, &of_file(&file, domains_met));
        names.extend(named(&BOUNDS, &of_file(&file, bound_of_12_met)));
        names
    }

    #[test]
    fn domains_are_those_of_3d_files() {
        assert_eq!(domains("0 0 0", "2 1 1"), ["mixed domains"]);
        assert_eq!(domains("0 1 0", "1 2 1"), ["mixed domains", "mixed domains of one width"]);
        assert_eq!(domains("0 0 0", "1 1 1.0"), [""; 0]);
        assert_eq!(domains("0 0 0", "1.5 1.5 1.5"), ["one domain that is not whole"]);
        assert_eq!(domains("0 0 0", "1 1.5 1.5"), ["12 by a domain of two colours"]);
        assert_eq!(domains("0 .5 0", "1 1.5 1"), ["12 by domains of one width"]);
        assert_eq!(domains("0 0.001 0", "1 1 1"), ["green's lower"]);
        assert_eq!(domains("0 0 0", "2 1 1.001"), ["blue's upper"]);
        assert_eq!(domains("0 0 0", "2 1.5 1.001"), [""; 0]);
        assert_eq!(domains("0 0 0.5", "2 1 0.5"), [""; 0]);
        let in_1d = "DOMAIN_MIN 0 0 0\nDOMAIN_MAX 2 1 1.001\nLUT_1D_SIZE 2\n0 0 0\n1 1 1\n";
        assert_eq!(of_file(in_1d, domains_met), [false; DOMAINS.len()]);
    }

    /// The bound that is why a description with these bounds and so many places is 24.
    fn refused_bound(lower: [i64; 3], upper: [i64; 3], places: usize) -> Vec<&'static str> {
        let [[r, g, b], [to_r, to_g, to_b]] = [lower, upper];
        let description = [3, 2, r, g, b, to_r, to_g, to_b, 0, 0, 0];
        let table = vec![0; places];
        let number = look(&description, &table, Bits::same(8), [0; 3]).number;
        named(&BOUNDS, &bound_of_24_met(&description, &table, number))
    }

    #[test]
    fn bounds_are_those_that_24_is_for() {
        assert_eq!(refused_bound([0; 3], [2000, 1001, 1000], 24), ["green's upper"]);
        assert_eq!(refused_bound([-1, 0, 0], [1000; 3], 24), ["red's lower"]);
        assert_eq!(refused_bound([0; 3], [2000, 1001, 1001], 24), [""; 0]);
        assert_eq!(refused_bound([0; 3], [2000, 1001, 1000], 23), [""; 0]);
        assert_eq!(refused_bound([-9001, 0, 0], [1000; 3], 24), [""; 0]);
        assert_eq!(refused_bound([1000, 0, 0], [10_001, 1000, 1000], 24), [""; 0]);
        assert_eq!(refused_bound([i64::MIN + 1, 0, 0], [1000; 3], 24), [""; 0]);
        assert_eq!(refused_bound([0; 3], [2000, 1000, 1000], 24), [""; 0]);
    }

    /// What a look of 8 bits meets by its mixed domains, with these bounds in whole units.
    fn mixed(n: i64, lower: [i64; 3], upper: [i64; 3], pixel: [u16; 3]) -> Vec<&'static str> {
        let [[r, g, b], [to_r, to_g, to_b]] = [lower, upper].map(|six| six.map(|at| at * 1000));
        let case = LookCase {
            description: [3, n, r, g, b, to_r, to_g, to_b, 0, 0, 0],
            table: vec![0; 81],
            bits: Bits::same(8),
            pixel,
            made: Vec::new(),
        };
        let met = Second.look(&case).map(|look| mixed_met(&case, &look)).unwrap_or_default();
        named(&MIXED, &met)
    }

    #[test]
    fn mixed_domains_are_met_by_fractions() {
        let two_equal = "two equal fractions of unlike numerators";
        let three_equal = "three equal fractions of unlike numerators";
        let order = "an order that the numerators do not have";
        // widths 2, 1 and 4: a code counts 4, 8 and 2 times
        let looked = |pixel| mixed(2, [0; 3], [2, 1, 4], pixel);
        assert_eq!(looked([40, 20, 80]), [three_equal, order]);
        assert_eq!(looked([40, 20, 79]), [two_equal, order]);
        assert_eq!(looked([90, 20, 10]), [""; 0]);
        assert_eq!(looked([30, 20, 10]), [order]);
        assert_eq!(looked([0, 20, 10]), ["a code at its lower bound"]);
        assert_eq!(looked([90, 255, 10]), ["a code at its upper bound"]);
        // red from -1 to 1 in three rows: the code 0 is the middle one
        let looked = |pixel| mixed(3, [-1, 0, 0], [1, 1, 1], pixel);
        assert_eq!(looked([0, 20, 10]), ["a border in red alone"]);
        assert_eq!(looked([1, 20, 10]), [""; 0]);
        assert_eq!(looked([0, 0, 10]), ["a code at its lower bound"]);
    }

    #[test]
    fn shapes_are_those_of_mixed_domains() {
        let shapes = |description| named(&SHAPES, &shapes_met(&description));
        let wide = [3, 2, -10_000, -5_000, 0, 0, 5_000, 10_000, 0, 0, 0];
        assert_eq!(shapes(wide), ["a lower bound below 0", "one width", "three widths of 10"]);
        let above = [3, 2, 0, 1_000, 0, 1_000, 2_000, 1_000, 0, 0, 0];
        let above_0 = "a lower bound above 0";
        assert_eq!(shapes(above), [above_0, "one width", "one domain for two colours"]);
        let unlike = [3, 2, 0, 0, 0, 1_000, 2_000, 10_000, 0, 0, 0];
        assert_eq!(shapes(unlike), ["three unlike widths"]);
        assert_eq!(named(&WIDTHS, &widths_met(&unlike)), ["1", "2", "10"]);
        assert!(is_mixed(&unlike) && !is_mixed(&[1, 2, 0, 0, 0, 1_000, 2_000, 3_000, 0, 0, 0]));
    }
}
