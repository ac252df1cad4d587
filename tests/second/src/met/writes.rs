//! What writes met: of accepted ones the words, the titles, the marks and the room that there was;
//! of refused ones what was wrong, by itself and before something else.

use super::{alone, bound_of_24_met, bounds_of, is_mixed, BOUNDS};
use crate::gen::WriteCase;
use crate::paper::{differ_and_not_whole, not_whole, some_lower_not_below, some_too_wide};
use crate::paper::{number, place, Kind, GREATEST_BOUND, GREATEST_SAMPLE, LONGEST_TITLE};
use crate::reading::{is_data, words};
use crate::side::WriteAnswer;
use crate::writing::{is_marked, is_plain, write};

/// Each group of names, behind its title.
pub const GROUPS: [(&str, &[&str]); 13] = [
    ("writes met the samples", &SAMPLES),
    ("writes met samples with so many decimals", &DECIMALS),
    ("writes met samples below 0 with so many decimals", &DECIMALS),
    ("writes met the bounds", &BOUND_WORDS),
    ("writes met", &TABLES),
    ("writes met a title of", &TITLES),
    ("writes met a title marked by", &MARKS),
    ("writes met, not marked, a title of", &UNMARKED),
    ("writes met room for", &ROOM),
    ("writes refused with 24 by", &CLAUSES),
    ("writes refused with 24 by one bound", &BOUNDS),
    ("writes refused with 27 by", &UNFIT),
    ("writes refused with", &ORDER),
];

/// The names of the group that has most.
pub const MOST_NAMES: usize = {
    let (mut most, mut at) = (0, 0);
    while at < GROUPS.len() {
        let many = GROUPS[at].1.len();
        most = if many > most { many } else { most };
        at += 1;
    }
    most
};

/// For each group and each of its names, whether the write met it.
pub fn writes_met(case: &WriteCase, answer: &WriteAnswer) -> [Vec<bool>; GROUPS.len()] {
    let text = &answer.out[..answer.length as usize];
    let lines: Vec<&[u8]> = text.split(|byte| *byte == b'\n').collect();
    let samples: Vec<&[u8]> =
        lines.iter().filter(|line| is_data(line)).flat_map(|line| words(line)).collect();
    let is_bounds = |line: &&&[u8]| line.starts_with(b"DOMAIN_");
    let bounds: Vec<&[u8]> = lines.iter().filter(is_bounds).flat_map(|line| words(line)).collect();
    [
        SAMPLES.map(|word| samples.contains(&word.as_bytes())).to_vec(),
        decimals(&samples, false).to_vec(),
        decimals(&samples, true).to_vec(),
        BOUND_WORDS.map(|word| bounds.contains(&word.as_bytes())).to_vec(),
        tables(case, answer, &lines).to_vec(),
        titles(case, answer).to_vec(),
        marks(case, answer).to_vec(),
        unmarked(case, answer).to_vec(),
        room(case, answer).to_vec(),
        clauses(case, answer).to_vec(),
        bound_of_24_met(&case.description, &case.table, answer.number).to_vec(),
        unfit(case, answer).to_vec(),
        order(case, answer).to_vec(),
    ]
}

const SAMPLES: [&str; 11] = [
    "0", "1", "-1", "0.5", "-0.5", "0.0000001", "-0.0000001", "999.9999999", "-999.9999999",
    "1000", "-1000",
];

const DECIMALS: [&str; 8] = ["0", "1", "2", "3", "4", "5", "6", "7"];

fn decimals(samples: &[&[u8]], below_0: bool) -> [bool; DECIMALS.len()] {
    let mut met = [false; DECIMALS.len()];
    for word in samples.iter().filter(|word| word.starts_with(b"-") == below_0) {
        let after_point = word.iter().rev().position(|byte| *byte == b'.').unwrap_or(0);
        if let Some(on) = met.get_mut(after_point) {
            *on = true;
        }
    }
    met
}

const BOUND_WORDS: [&str; 9] =
    ["0", "1", "10", "-10", "0.001", "-0.001", "0.25", "9.999", "-9.999"];

const TABLES: [&str; 12] = [
    "a 1D table",
    "a 3D table",
    "mixed domains",
    "one domain of 3D that is not whole",
    "N of one digit",
    "N of two",
    "N of three",
    "N of four",
    "N of five",
    "a row of 38 bytes",
    "a later place beyond 1000",
    "any numbers for the title's place and length",
];

fn tables(case: &WriteCase, answer: &WriteAnswer, lines: &[&[u8]]) -> [bool; TABLES.len()] {
    let description = &case.description;
    let three_d = description[place::KIND] == Kind::ThreeD.mark();
    let (lower, upper) = bounds_of(description);
    let digits = description[place::N].to_string().len();
    let beyond = |sample: &i64| sample.unsigned_abs() > GREATEST_SAMPLE.unsigned_abs();
    let met = [
        !three_d,
        three_d,
        is_mixed(description),
        three_d && not_whole(&lower, &upper).contains(&true),
        digits == 1,
        digits == 2,
        digits == 3,
        digits == 4,
        digits == 5,
        lines.iter().any(|line| is_data(line) && line.len() == 38),
        case.table.iter().any(beyond),
        description[place::TITLE_PLACE] < 0 && description[place::TITLE_LENGTH] > 1 << 32,
    ];
    met.map(|on| on && answer.number == number::ACCEPTED)
}

const TITLES: [&str; 10] = [
    "no byte", "one byte", "241 bytes", "242 bytes", "a space first", "a space last", "0x20",
    "0x21", "0x23", "0x7E",
];

fn titles(case: &WriteCase, answer: &WriteAnswer) -> [bool; TITLES.len()] {
    let title = &case.title;
    let met = [
        title.is_empty(),
        title.len() == 1,
        title.len() == LONGEST_TITLE - 1,
        title.len() == LONGEST_TITLE,
        title.starts_with(b" "),
        title.ends_with(b" "),
        title.contains(&0x20),
        title.contains(&0x21),
        title.contains(&0x23),
        title.contains(&0x7E),
    ];
    met.map(|on| on && answer.number == number::ACCEPTED && is_marked(&case.description))
}

const MARKS: [&str; 7] =
    ["1", "-1", "2", "256", "2 to the 32nd", "the least number", "the greatest number"];

fn marks(case: &WriteCase, answer: &WriteAnswer) -> [bool; MARKS.len()] {
    let mark = case.description[place::TITLE];
    let marks = [1, -1, 2, 256, 1 << 32, i64::MIN, i64::MAX];
    marks.map(|one| mark == one && answer.number == number::ACCEPTED)
}

const UNMARKED: [&str; 5] =
    ["no byte", "plain bytes", "more than 242 bytes", "a quote", "another byte that is 27"];

fn unmarked(case: &WriteCase, answer: &WriteAnswer) -> [bool; UNMARKED.len()] {
    let title = &case.title;
    let met = [
        title.is_empty(),
        !title.is_empty() && is_plain(title),
        title.len() > LONGEST_TITLE,
        title.contains(&b'"'),
        title.iter().any(|byte| *byte != b'"' && !is_plain(&[*byte])),
    ];
    met.map(|on| on && answer.number == number::ACCEPTED && !is_marked(&case.description))
}

const ROOM: [&str; 6] = [
    "just the text", "one byte more", "more than that", "one byte too little", "less than that",
    "no byte",
];

fn room(case: &WriteCase, answer: &WriteAnswer) -> [bool; ROOM.len()] {
    let (accepted, short) =
        (answer.number == number::ACCEPTED, answer.number == number::TOO_LITTLE_ROOM);
    let places = case.out_len;
    let text = if short { text_len(case) } else { answer.length as usize };
    [
        accepted && places == text,
        accepted && places == text + 1,
        accepted && places > text + 1,
        short && places + 1 == text,
        short && places + 1 < text,
        short && places == 0,
    ]
}

/// How long the text is where there is room for any; 0 where there is none.
fn text_len(case: &WriteCase) -> usize {
    write(&case.description, &case.table, &case.title, usize::MAX).text.len()
}

/// What 24 is for, each by itself.
const CLAUSES: [&str; 12] = [
    "the kind", "N below 2", "N above its greatest", "a bound beyond 10",
    "a lower bound not below its upper", "a domain wider than 10",
    "domains that differ and are not whole", "a table one place short",
    "a table shorter than that", "a sample beyond 1000", "a sample beyond 1000 by one unit",
    "the last sample",
];

fn clauses(case: &WriteCase, answer: &WriteAnswer) -> [bool; CLAUSES.len()] {
    let mut met = [false; CLAUSES.len()];
    if answer.number != number::NOT_FROM_READING {
        return met;
    }
    let Some(kind) = Kind::of_mark(case.description[place::KIND]) else {
        met[0] = true;
        return met;
    };
    let (n, (lower, upper)) = (case.description[place::N], bounds_of(&case.description));
    let needed = if kind.has_n(n) { 3 * kind.rows(n) } else { 0 };
    let beyond = |number: &i64, limit: i64| number.unsigned_abs() > limit.unsigned_abs();
    let samples = case.table.iter().take(needed).enumerate();
    let wrong: Vec<(usize, &i64)> =
        samples.filter(|(_, sample)| beyond(sample, GREATEST_SAMPLE)).collect();
    let [size, bound, order, width, domains, short, sample] = alone([
        !kind.has_n(n),
        lower.iter().chain(&upper).any(|bound| beyond(bound, GREATEST_BOUND)),
        some_lower_not_below(&lower, &upper),
        some_too_wide(&lower, &upper),
        differ_and_not_whole(kind, &lower, &upper),
        case.table.len() < needed,
        !wrong.is_empty(),
    ]);
    let by_one = |(_, sample): &(usize, &i64)| sample.unsigned_abs() == GREATEST_SAMPLE as u64 + 1;
    let is_last = |(at, _): &(usize, &i64)| at + 1 == needed;
    met = [
        false,
        size && n < 2,
        size && n > kind.greatest_n(),
        bound,
        order,
        width,
        domains,
        short && case.table.len() + 1 == needed,
        short && case.table.len() + 1 < needed,
        sample,
        sample && wrong.iter().all(by_one),
        sample && wrong.iter().all(is_last),
    ];
    met
}

/// What 27 is for: the length alone, or one byte alone.
const UNFIT: [&str; 11] = [
    "243 bytes", "more bytes", "a quote", "0x1F", "0x7F", "a tab", "a newline", "0x80", "0xFF",
    "the first byte", "the last byte",
];

fn unfit(case: &WriteCase, answer: &WriteAnswer) -> [bool; UNFIT.len()] {
    let title = &case.title;
    let wrong: Vec<usize> = (0..title.len()).filter(|at| !is_plain(&[title[*at]])).collect();
    let long = title.len() > LONGEST_TITLE;
    let by_length = long && wrong.is_empty();
    let by_one = if wrong.len() == 1 && !long { wrong.first().copied() } else { None };
    let by_byte = |byte: u8| by_one.is_some_and(|at| title[at] == byte);
    let met = [
        by_length && title.len() == LONGEST_TITLE + 1,
        by_length && title.len() > LONGEST_TITLE + 1,
        by_byte(b'"'),
        by_byte(0x1F),
        by_byte(0x7F),
        by_byte(b'\t'),
        by_byte(b'\n'),
        by_byte(0x80),
        by_byte(0xFF),
        by_one == Some(0) && title.len() > 1,
        by_one == title.len().checked_sub(1) && title.len() > 1,
    ];
    met.map(|on| on && answer.number == number::TITLE_NOT_PLAIN)
}

/// A refusal where a later one would be due too.
const ORDER: [&str; 3] = ["24 before 27", "24 before 13", "27 before 13"];

fn order(case: &WriteCase, answer: &WriteAnswer) -> [bool; ORDER.len()] {
    let unread = answer.number == number::NOT_FROM_READING;
    let plain = || WriteCase { title: Vec::new(), ..case.clone() };
    [
        unread && is_marked(&case.description) && !is_plain(&case.title),
        unread && case.out_len == 0,
        // with no title the text is shorter still
        answer.number == number::TITLE_NOT_PLAIN && case.out_len < text_len(&plain()),
    ]
}

#[cfg(test)]
mod tests {
    use super::*;
    use crate::side::{Second, Side};

    /// A write of two rows in 1D, whose text has 61 bytes without a title and 71 with `t`.
    fn two_rows(mark: i64, title: &[u8], out_len: usize) -> WriteCase {
        WriteCase {
            description: [1, 2, 0, 0, 0, 1000, 1000, 1000, mark, 0, 0],
            table: vec![0, 0, 0, 10_000_000, -1, 5_000_000],
            title: title.to_vec(),
            out_len,
            made: Vec::new(),
        }
    }

    /// The names that a write meets in the group with this title.
    fn met(title: &str, case: &WriteCase) -> Vec<&'static str> {
        let all = Second.write(case).map(|answer| writes_met(case, &answer)).unwrap_or_default();
        let group = GROUPS.into_iter().zip(all).filter(|((of, _), _)| *of == title);
        let named = |((_, names), met): ((_, &'static [&'static str]), Vec<bool>)| {
            assert_eq!(names.len(), met.len());
            names.iter().zip(met).filter(|(_, on)| *on).map(|(name, _)| *name)
        };
        group.flat_map(named).collect()
    }

    #[test]
    fn words_are_those_of_the_text() {
        let case = two_rows(1, b"-0.5 DOMAIN_MIN 10", 1_000);
        assert_eq!(met("writes met the samples", &case), ["0", "1", "0.5", "-0.0000001"]);
        assert_eq!(met("writes met samples with so many decimals", &case), ["0", "1"]);
        assert_eq!(met("writes met samples below 0 with so many decimals", &case), ["7"]);
        assert_eq!(met("writes met the bounds", &case), ["0", "1"]);
        assert_eq!(met("writes met the samples", &two_rows(1, b"\"", 1_000)), [""; 0]);
    }

    #[test]
    fn titles_are_met_with_and_without_the_mark() {
        let (with, without) = ("writes met a title of", "writes met, not marked, a title of");
        assert_eq!(met(with, &two_rows(1, b"", 1_000)), ["no byte"]);
        assert_eq!(
            met(with, &two_rows(-5, b" ", 1_000)),
            ["one byte", "a space first", "a space last", "0x20"]
        );
        assert_eq!(met(with, &two_rows(0, b" ", 1_000)), [""; 0]);
        assert_eq!(met(without, &two_rows(0, b" ", 1_000)), ["plain bytes"]);
        assert_eq!(
            met(without, &two_rows(0, &[b'"'; 243], 1_000)),
            ["more than 242 bytes", "a quote"]
        );
        assert_eq!(met(without, &two_rows(1, b" ", 1_000)), [""; 0]);
        assert_eq!(met("writes met a title marked by", &two_rows(256, b"", 1_000)), ["256"]);
    }

    #[test]
    fn room_is_that_of_the_text() {
        let room = |places| met("writes met room for", &two_rows(1, b"t", places));
        let text = text_len(&two_rows(1, b"t", 0));
        assert_eq!(room(text), ["just the text"]);
        assert_eq!(room(text + 1), ["one byte more"]);
        assert_eq!(room(text + 2), ["more than that"]);
        assert_eq!(room(text - 1), ["one byte too little"]);
        assert_eq!(room(text - 2), ["less than that"]);
        assert_eq!(room(0), ["less than that", "no byte"]);
    }

    #[test]
    fn refusals_are_those_that_stand_alone() {
        let refused =
            |title: &str, case: &WriteCase| met(&format!("writes refused with{title}"), case);
        let unfit = |title: &[u8]| refused(" 27 by", &two_rows(1, title, 1_000));
        assert_eq!(unfit(&[b'x'; 243]), ["243 bytes"]);
        assert_eq!(unfit(&[b'x'; 244]), ["more bytes"]);
        assert_eq!(unfit(b"a\"a"), ["a quote"]);
        assert_eq!(unfit(b"\x1Fa"), ["0x1F", "the first byte"]);
        assert_eq!(unfit(b"a\n"), ["a newline", "the last byte"]);
        assert_eq!(unfit(b"\"\n"), [""; 0]);
        let clause = |change: fn(&mut WriteCase)| {
            let mut case = two_rows(1, b"", 1_000);
            change(&mut case);
            refused(" 24 by", &case)
        };
        assert_eq!(clause(|case| case.description[0] = 2), ["the kind"]);
        assert_eq!(clause(|case| case.description[1] = 1), ["N below 2"]);
        assert_eq!(clause(|case| case.description[1] = 65_537), ["N above its greatest"]);
        assert_eq!(clause(|case| case.description[1] = 3), ["a table shorter than that"]);
        assert_eq!(clause(|case| case.table.truncate(5)), ["a table one place short"]);
        let beyond =
            ["a sample beyond 1000", "a sample beyond 1000 by one unit", "the last sample"];
        assert_eq!(clause(|case| case.table[5] = -10_000_000_001), beyond);
        assert_eq!(clause(|case| case.description[5] = 0), ["a lower bound not below its upper"]);
        assert_eq!(clause(|case| case.description[2] = -9_001), ["a domain wider than 10"]);
        assert_eq!(clause(|case| case.description[7] = i64::MAX), [""; 0]);
    }

    #[test]
    fn orders_are_those_of_two_refusals() {
        let order = |kind: i64, title: &[u8], places: usize| {
            let mut case = two_rows(1, title, places);
            case.description[place::KIND] = kind;
            met("writes refused with", &case)
        };
        assert_eq!(order(2, b"\"", 0), ["24 before 27", "24 before 13"]);
        assert_eq!(order(2, b"", 1_000), [""; 0]);
        assert_eq!(order(1, b"\"", 60), ["27 before 13"]);
        assert_eq!(order(1, b"\"", 1_000), [""; 0]);
    }
}
