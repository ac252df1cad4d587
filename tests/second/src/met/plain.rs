//! What files met by their plain rows: the lines among them, how far apart these stand, where the
//! rows break off or have another byte, and how they end.
//!
//! The proved program looks for plain rows only after the first data line, only where a row is
//! still to come and the longest one would have its bytes, and makes a pause where it finds none:
//! of one line at first, and of twice as many and one more each time that it finds none again.
//! What these files meet counts where its first pass looks.

use super::shares::Groups;
use super::{is_lone, lines};
use crate::decimal::{value, Value, TEN_MILLIONTHS};
use crate::gen::FileCase;
use crate::paper::{number, Kind, LONGEST_LINE};
use crate::reading::{is_data, words};
use crate::side::ReadAnswer;

/// `-123.1234567`, three times, with the two spaces and the newline.
const LONGEST_ROW: usize = 39;

/// The longest pause, in lines.
const LONGEST_PAUSE: usize = 63;

pub const PLAIN_GROUPS: Groups<12> = [
    ("files met in plain rows numbers with", &NUMBERS),
    ("files met in plain rows numbers after a minus with", &NUMBERS),
    ("files met among plain rows", &LINES),
    ("files met before plain rows a pause of so many lines", &PAUSES),
    ("files met a plain row with so many bytes left", &LEFT),
    ("files met by the count of plain rows", &ENDS),
    ("files met plain rows that break off before red's", &PLACES),
    ("files met plain rows that break off before green's", &PLACES),
    ("files met plain rows that break off before blue's", &PLACES),
    ("files met a plain row with another byte for red's", &PLACES),
    ("files met a plain row with another byte for green's", &PLACES),
    ("files met a plain row with another byte for blue's", &PLACES),
];

/// The names of the group that has most.
pub const MOST_NAMES: usize = LINES.len();

/// For each group and each of its names, whether the file met it.
pub fn plain_met(case: &FileCase, answer: &ReadAnswer) -> [Vec<bool>; PLAIN_GROUPS.len()] {
    let after = after_first_row(case);
    let reached = match answer.number {
        number::ACCEPTED => &after[..],
        _ => &after[..after.iter().take_while(|line| line.number <= answer.line).count()],
    };
    let [above, below] = [false, true].map(|minus| numbers_met(reached, answer, minus).to_vec());
    let [red_off, green_off, blue_off] = by_colour(&broken_off(reached));
    let [red, green, blue] = by_colour(&exchanged(reached));
    [
        above,
        below,
        lines_met(reached, answer).to_vec(),
        pauses_met(reached, answer).to_vec(),
        left_met(reached).to_vec(),
        ends_met(case, answer, &after).to_vec(),
        red_off,
        green_off,
        blue_off,
        red,
        green,
        blue,
    ]
}

/// A line after the first data line.
#[derive(Debug)]
pub struct After<'a> {
    pub text: &'a [u8],
    pub number: u64,
    /// The bytes from its start to the end of the file.
    pub left: usize,
    /// The rows that are still to come, with its own.
    pub to_come: usize,
    /// Whether it is a plain row, with its newline.
    pub is_row: bool,
    /// Whether a plain row is looked for here.
    pub looked_at: bool,
    /// How long the pause was that ended just before it.
    pub pause: usize,
}

/// All lines after the first data line, also those after one that is refused.
pub fn after_first_row(case: &FileCase) -> Vec<After<'_>> {
    let (mut start, mut to_come, mut is_after) = (0, rows(case), false);
    let (mut looks, mut found) = (Looks::default(), 0);
    let mut after: Vec<After> = Vec::new();
    for (number, text) in (1..).zip(lines(case)) {
        let left = case.file.len() - start;
        start += text.len() + 1;
        let is_row = left > text.len() && is_plain_row(text);
        let may_look = found > 0 || looks.pause == 0;
        let looked_at = may_look && is_after && to_come > 0 && left >= LONGEST_ROW;
        let pause = if found == 0 && looked_at { looks.last } else { 0 };
        if looked_at && is_row {
            found += 1;
        } else {
            looks.go_on(found);
            found = 0;
        }
        if is_after {
            after.push(After { text, number, left, to_come, is_row, looked_at, pause });
        }
        if is_data(text) {
            is_after = true;
            to_come = to_come.saturating_sub(1);
        }
    }
    after
}

/// How many lines go by before plain rows are looked for again, and how long the last pause was.
#[derive(Default)]
struct Looks {
    pause: usize,
    last: usize,
}

impl Looks {
    /// Past a line behind so many plain rows.
    fn go_on(&mut self, found: usize) {
        if found > 0 {
            *self = Looks::default();
        } else if self.pause > 0 {
            self.pause -= 1;
        } else {
            self.last = LONGEST_PAUSE.min(2 * self.last + 1);
            self.pause = self.last;
        }
    }
}

/// The rows that the file says it has; 0 where it does not.
fn rows(case: &FileCase) -> usize {
    let of_kind = |line: &[u8], kind: Kind| {
        let mut words = words(line);
        let is_size = words.next() == Some(kind.size_word().as_bytes());
        let n = words.next().filter(|_| is_size).and_then(|word| std::str::from_utf8(word).ok());
        n.and_then(|n| n.parse().ok()).filter(|n| kind.has_n(*n)).map(|n| kind.rows(n))
    };
    let size = |line| of_kind(line, Kind::OneD).or(of_kind(line, Kind::ThreeD));
    lines(case).find_map(size).unwrap_or(0)
}

/// Whether a line has the bytes of a plain row before its newline.
pub fn is_plain_row(line: &[u8]) -> bool {
    let is_number = |word: &[u8]| {
        let word = word.strip_prefix(b"-").unwrap_or(word);
        let whole = word.iter().take_while(|byte| **byte != b'.').count();
        let decimals = word.get(whole + 1..).unwrap_or_default();
        let digits = |word: &[u8]| word.iter().all(u8::is_ascii_digit);
        (1..=3).contains(&whole)
            && decimals.len() <= 7
            && digits(&word[..whole])
            && digits(decimals)
    };
    line.split(|byte| *byte == b' ').count() == 3 && line.split(|byte| *byte == b' ').all(is_number)
}

const NUMBERS: [&str; 13] = [
    "one whole digit", "two", "three", "no point", "a point last", "one decimal", "two decimals",
    "three decimals", "four decimals", "five decimals", "six decimals", "seven decimals",
    "noughts alone",
];

/// For each of those, whether a plain row that is looked at has such a number, with or without a
/// minus, in a file that is accepted.
fn numbers_met(reached: &[After], answer: &ReadAnswer, minus: bool) -> [bool; NUMBERS.len()] {
    let mut met = [false; NUMBERS.len()];
    let accepted = answer.number == number::ACCEPTED;
    let rows = reached.iter().filter(|line| accepted && line.looked_at && line.is_row);
    for word in rows.flat_map(|line| words(line.text)) {
        if word.starts_with(b"-") == minus {
            met[whole_digits(word) - 1] = true;
            met[3 + decimals(word).map_or(0, |digits| digits.len() + 1)] = true;
            met[12] |= !word.iter().any(|byte| (b'1'..=b'9').contains(byte));
        }
    }
    met
}

/// Lines that are no plain row; those that a file is refused for stand behind its number.
const LINES: [&str; 25] = [
    "a plus sign", "an exponent", "a tab", "two spaces", "a blank first", "a blank last",
    "1000 of four digits", "16 by a fourth digit", "eight decimals, the last 0",
    "17 by an eighth decimal", "15 by a lone point", "a point first", "15 by a letter",
    "15 by a fourth number", "15 by two numbers", "15 by one", "2 by a carriage return",
    "2 by another byte", "an empty line", "a comment", "4 by a keyword", "3 by blanks alone",
    "3 by a word", "a line of 250 bytes", "1 by a longer one",
];

/// For each of those, the number that its file is answered, and whether a line is one.
fn line_met(line: &[u8]) -> [(u32, bool); LINES.len()] {
    let any = |is: fn(&[u8]) -> bool| words(line).any(is);
    let is_number = |word: &[u8]| value(word, &TEN_MILLIONTHS) != Value::NotANumber;
    let numbers = if words(line).all(is_number) { words(line).count() } else { 0 };
    let inner = line.trim_ascii();
    let permitted = |byte: &u8| matches!(byte, b'\t' | b'\r' | 0x20..=0x7E);
    [
        (0, any(|word| word.starts_with(b"+"))),
        (0, is_data(line) && any(|word| word.contains(&b'e') || word.contains(&b'E'))),
        (0, is_data(line) && inner.contains(&b'\t')),
        (0, is_data(line) && inner.windows(2).any(|two| two == b"  ")),
        (0, is_data(line) && line.first().is_some_and(u8::is_ascii_whitespace)),
        (0, is_data(line) && line.last().is_some_and(u8::is_ascii_whitespace)),
        (0, any(|word| word.starts_with(b"1000") || word.starts_with(b"-1000"))),
        (16, any(|word| whole_digits(word) == 4)),
        (0, any(|word| decimals(word).is_some_and(|digits| digits.len() == 8))),
        (17, any(|word| decimals(word).is_some_and(|digits| digits.len() == 8))),
        (15, any(is_lone)),
        (0, any(|word| matches!(word, [b'.', b'0'..=b'9', ..] | [b'-', b'.', b'0'..=b'9', ..]))),
        (15, is_data(line) && line.iter().any(u8::is_ascii_alphabetic)),
        (15, numbers == 4),
        (15, numbers == 2),
        (15, numbers == 1),
        (2, line.contains(&b'\r')),
        (2, !line.iter().all(permitted)),
        (0, line.is_empty()),
        (0, line.starts_with(b"#")),
        (4, true),
        (3, words(line).count() == 0),
        (3, words(line).count() > 0),
        (0, line.len() == LONGEST_LINE),
        (1, true),
    ]
}

fn whole_digits(word: &[u8]) -> usize {
    let word = word.strip_prefix(b"-").unwrap_or(word);
    word.iter().take_while(|byte| byte.is_ascii_digit()).count()
}

/// What stands after a word's point where these are digits alone.
fn decimals(word: &[u8]) -> Option<&[u8]> {
    let point = word.iter().position(|byte| *byte == b'.')?;
    Some(&word[point + 1..]).filter(|after| after.iter().all(u8::is_ascii_digit))
}

/// For each of those, whether such a line is looked at behind a plain row that was, in a file that
/// is accepted or refused by it.
fn lines_met(reached: &[After], answer: &ReadAnswer) -> [bool; LINES.len()] {
    let mut met = [false; LINES.len()];
    let behind = |two: &&[After]| two[0].is_row && two[0].looked_at && two[1].looked_at;
    for line in reached.windows(2).filter(behind).map(|two| &two[1]) {
        let decides = answer.number == number::ACCEPTED || answer.line == line.number;
        for (met, (number, is)) in met.iter_mut().zip(line_met(line.text)) {
            *met |= is && decides && number == answer.number;
        }
    }
    met
}

/// How many lines a pause has.
const PAUSES: [&str; 6] = ["1", "3", "7", "15", "31", "63"];

/// For each of those, whether the file is accepted and a plain row is found at once behind such a
/// pause, which another line after the first data line began.
fn pauses_met(reached: &[After], answer: &ReadAnswer) -> [bool; PAUSES.len()] {
    let accepted = answer.number == number::ACCEPTED;
    let found = (0..).zip(reached).filter(|(at, line)| accepted && line.is_row && *at > line.pause);
    let pauses: Vec<String> = found.map(|(_, line)| line.pause.to_string()).collect();
    PAUSES.map(|lines| pauses.iter().any(|pause| pause == lines))
}

/// The bytes from a row's start to the end of the file: the shortest row, and about the longest.
const LEFT: [&str; 7] = ["6", "37", "38", "39", "40", "41", "78"];

/// For each of those, whether the file has such a plain row that is no row too many.
fn left_met(reached: &[After]) -> [bool; LEFT.len()] {
    let last = reached.iter().rev().take_while(|line| line.left <= 2 * LONGEST_ROW);
    let rows = last.filter(|line| line.is_row && line.to_come > 0);
    let left: Vec<String> = rows.map(|line| line.left.to_string()).collect();
    LEFT.map(|bytes| left.iter().any(|left| left == bytes))
}

/// The bytes of a longest number, and the blank or the newline behind it.
const PLACES: [&str; LONGEST_ROW / 3] = [
    "minus", "first digit", "second digit", "third digit", "point", "first decimal",
    "second decimal", "third decimal", "fourth decimal", "fifth decimal", "sixth decimal",
    "seventh decimal", "end",
];

/// For each colour and each of those, whether its place in a longest row is one of these.
fn by_colour(places: &[usize]) -> [Vec<bool>; 3] {
    let first = |colour: usize| colour * PLACES.len();
    [0, 1, 2].map(|colour| {
        let own = first(colour)..first(colour + 1);
        own.map(|place| places.contains(&place)).collect()
    })
}

/// The places of a line, among those of a longest row, that have another byte than such a row.
fn unlike_longest(line: &[u8]) -> Vec<usize> {
    const LONGEST: &[u8; LONGEST_ROW] = b"-000.0000000 -000.0000000 -000.0000000\n";
    let unlike = |(wanted, byte): (&u8, &u8)| match wanted {
        b'0' => !byte.is_ascii_digit(),
        _ => wanted != byte,
    };
    let pairs = LONGEST.iter().zip(line).enumerate();
    pairs.filter(|(_, pair)| unlike(*pair)).map(|(place, _)| place).collect()
}

/// The place before which the file ends in a longest row, behind one that is whole and looked at.
fn broken_off(reached: &[After]) -> Vec<usize> {
    let [.., before, last] = reached else {
        return Vec::new();
    };
    let whole = before.looked_at && before.text.len() == LONGEST_ROW - 1;
    let cut = last.left == last.text.len() && last.left < LONGEST_ROW;
    let alike = [before.text, last.text].map(unlike_longest).concat().is_empty();
    (whole && cut && alike).then_some(last.left).into_iter().collect()
}

/// The places of longest rows that are looked at, each where the row has another byte just there.
/// Without its newline the row goes on with the next.
fn exchanged(reached: &[After]) -> Vec<usize> {
    let looked_at = reached.iter().filter(|line| line.looked_at && line.left > line.text.len());
    let one_place = |line: &After| match unlike_longest(line.text)[..] {
        [place] if place == LONGEST_ROW - 1 => (line.text.len() > place).then_some(place),
        [place] => (line.text.len() == LONGEST_ROW - 1).then_some(place),
        _ => None,
    };
    looked_at.filter_map(one_place).collect()
}

const ENDS: [&str; 12] = [
    "one too few", "one too few without a last newline", "one too few before 39 bytes",
    "just as many", "just as many without a last newline", "just as many before a comment",
    "before a comment without a newline", "before empty lines", "before 39 bytes", "one too many",
    "one too many without a newline", "one too many before 39 bytes",
];

/// For each of those, whether the file met it: by rows that are all plain but perhaps the first,
/// and by what stands behind the last of them.
fn ends_met(case: &FileCase, answer: &ReadAnswer, after: &[After]) -> [bool; ENDS.len()] {
    let Some(last) = after.iter().rposition(|line| is_data(line.text)) else {
        return [false; ENDS.len()];
    };
    let (row, behind) = (&after[last], &after[last + 1..]);
    let all_plain =
        after.iter().filter(|line| is_data(line.text)).all(|line| is_plain_row(line.text));
    let few = all_plain && answer.number == number::TOO_FEW_ROWS && row.to_come == 2;
    let many = all_plain && answer.number == number::MORE_LINES_THAN_ROWS && row.to_come == 0;
    let many = many && answer.line == row.number;
    let just = all_plain && answer.number == number::ACCEPTED;
    let newline = case.file.ends_with(b"\n");
    let alone = row.left - row.text.len() <= 1;
    let comment = behind.iter().any(|line| line.text.starts_with(b"#"));
    let empty_lines = case.file.ends_with(b"\n\n");
    let before_39 = row.left - row.text.len() > LONGEST_ROW;
    [
        few && newline && alone,
        few && !newline && alone,
        few && before_39,
        just && newline && alone,
        just && !newline && alone,
        just && newline && comment,
        just && !newline && comment,
        just && empty_lines,
        just && before_39,
        many && newline && alone,
        many && !newline && alone,
        many && before_39,
    ]
}

#[cfg(test)]
mod tests {
    use super::*;
    use crate::side::{Second, Side};

    #[test]
    fn plain_rows_have_the_plain_shape() {
        for line in ["0 0 0", "1. -0 007", "-123.1234567 -123.1234567 -123.1234567", "0.5 1 999"] {
            assert!(is_plain_row(line.as_bytes()), "{line}");
        }
        for line in [
            "", "0 0", "0 0 0 0", "0  0 0", " 0 0 0", "0 0 0 ", "0\t0 0", "+0 0 0", "1e0 0 0",
            "0000 0 0", "0 0.12345678 0", "0 .5 0", "0 . 0", "- 0 0", "--0 0 0", "0 0 0\r",
            "1x 0 0", "1.2.3 0 0", "0 0 -.5", "#",
        ] {
            assert!(!is_plain_row(line.as_bytes()), "{line}");
        }
    }

    /// The names of a group that a 1D file of so many rows meets.
    fn met(title: &str, rows: usize, lines: &str) -> Vec<&'static str> {
        let file = format!("LUT_1D_SIZE {rows}\n{lines}").into_bytes();
        let case = FileCase { file, table_len: 3 * rows, made: Vec::new() };
        let met = Second.read(&case).map(|answer| plain_met(&case, &answer)).unwrap_or_default();
        let groups = PLAIN_GROUPS.iter().zip(met);
        let own = groups.filter(|((of_group, _), _)| *of_group == format!("files met {title}"));
        let names = own.flat_map(|((_, names), met)| names.iter().zip(met));
        names.filter(|(_, on)| *on).map(|(name, _)| *name).collect()
    }

    const NONE: [&str; 0] = [];
    const LONGEST: &str = "-123.1234567 -123.1234567 -123.1234567\n";

    #[test]
    fn numbers_are_those_of_rows_that_are_looked_at() {
        let rows = format!("0. 0. 0.\n12 0.1234 12\n{LONGEST}1 -1 1\n");
        let numbers = |title| met(title, 4, &rows);
        let above = ["one whole digit", "two", "no point", "four decimals"];
        assert_eq!(numbers("in plain rows numbers with"), above);
        let below = ["three", "seven decimals"];
        assert_eq!(numbers("in plain rows numbers after a minus with"), below);
        let noughts = met("in plain rows numbers with", 4, &format!("0 0 0\n00. 00. 00.\n{rows}"));
        assert_eq!(noughts, NONE);
        let noughts = format!("0 0 0\n00. 00. 00.\n{LONGEST}");
        let names = ["two", "a point last", "noughts alone"];
        assert_eq!(met("in plain rows numbers with", 3, &noughts), names);
    }

    #[test]
    fn lines_are_met_where_a_row_is_looked_for() {
        let (two, six) = (LONGEST.repeat(2), LONGEST.repeat(6));
        let among = |rows, lines: &str| met("among plain rows", rows, lines);
        assert_eq!(among(5, &format!("{two}+1 0 0\n{two}")), ["a plus sign"]);
        assert_eq!(among(5, &format!("{two}0 0 1234\n{two}")), ["16 by a fourth digit"]);
        let both = format!("{two}1e0 0 0\n{six}+1 0 0\n{LONGEST}");
        assert_eq!(among(11, &both), ["a plus sign", "an exponent"]);
        // too few bytes left, behind the first data line, and in a pause
        assert_eq!(among(3, &format!("{two}+1 0 0\n")), NONE);
        assert_eq!(among(4, &format!("{LONGEST}+1 0 0\n{two}")), NONE);
        let paused = format!("{two}1e0 0 0\n1e0 0 0\n{LONGEST}+1 0 0\n{two}");
        assert_eq!(among(8, &paused), ["an exponent"]);
    }

    #[test]
    fn pauses_are_twice_as_long_each_time() {
        let pauses = |others: usize| {
            let (rows, last) = ("\t0 0 0\n".repeat(others), "1 1 1\n".repeat(140));
            let lines = format!("0 0 0\n0 0 0\n{rows}{last}");
            met("before plain rows a pause of so many lines", 142 + others, &lines)
        };
        assert_eq!([0, 1].map(pauses), [NONE, NONE]);
        assert_eq!([2, 3, 4, 7].map(pauses), [["1"], ["1"], ["3"], ["3"]]);
        assert_eq!([8, 31, 32, 63].map(pauses), [["7"], ["15"], ["31"], ["31"]]);
        assert_eq!([64, 127, 128].map(pauses), [["63"], ["63"], ["63"]]);
    }

    #[test]
    fn rows_are_met_by_the_bytes_that_are_left() {
        let left = |lines: &str| met("a plain row with so many bytes left", 9, lines);
        assert_eq!(left(&LONGEST.repeat(3)), ["39", "78"]);
        assert_eq!(left(&format!("0 0 0\n{LONGEST}#")), ["40"]);
        assert_eq!(left("0 0 0\n0 0 0\n"), ["6"]);
        assert_eq!(left("0 0 0\n0 0 0"), NONE);
    }

    #[test]
    fn rows_are_met_where_they_break_off() {
        let cut = |colour: &str, bytes: usize| {
            let lines = LONGEST.repeat(3) + &LONGEST[..bytes];
            met(&format!("plain rows that break off before {colour}'s"), 9, &lines)
        };
        assert_eq!(cut("red", 0), ["minus"]);
        assert_eq!(cut("green", 17), ["point"]);
        assert_eq!(cut("blue", 17), NONE);
        assert_eq!(cut("blue", 38), ["end"]);
        // too few bytes for the row before
        let short = met("plain rows that break off before red's", 9, "0 0 0\n0 0 0\n-");
        assert_eq!(short, NONE);
    }

    #[test]
    fn bytes_are_met_where_they_are_exchanged() {
        let exchanged = |colour: &str, place: usize, by: &str| {
            let mut row = LONGEST.to_string();
            row.replace_range(place..=place, by);
            let lines = format!("{LONGEST}{row}{LONGEST}");
            met(&format!("a plain row with another byte for {colour}'s"), 9, &lines)
        };
        assert_eq!(exchanged("red", 0, "x"), ["minus"]);
        assert_eq!(exchanged("red", 12, "x"), ["end"]);
        assert_eq!(exchanged("green", 17, "x"), ["point"]);
        assert_eq!(exchanged("blue", 37, "x"), ["seventh decimal"]);
        assert_eq!(exchanged("blue", 38, "x"), ["end"]);
        assert_eq!(exchanged("blue", 37, "9"), NONE);
    }

    #[test]
    fn ends_are_those_of_plain_rows() {
        let ends = |rows, lines: &str| met("by the count of plain rows", rows, lines);
        let comment = "#".repeat(40);
        assert_eq!(ends(3, "0 0 0\n1 1 1\n"), ["one too few"]);
        assert_eq!(ends(3, "0 0 0\n1 1 1"), ["one too few without a last newline"]);
        assert_eq!(ends(3, &format!("0 0 0\n1 1 1\n{comment}")), ["one too few before 39 bytes"]);
        assert_eq!(ends(2, "0 0 0\n1 1 1\n"), ["just as many"]);
        assert_eq!(ends(2, "0 0 0\n1 1 1"), ["just as many without a last newline"]);
        assert_eq!(ends(2, "0 0 0\n1 1 1\n#\n"), ["just as many before a comment"]);
        assert_eq!(ends(2, "0 0 0\n1 1 1\n#"), ["before a comment without a newline"]);
        assert_eq!(ends(2, "0 0 0\n1 1 1\n\n"), ["before empty lines"]);
        let before_39 = ["before a comment without a newline", "before 39 bytes"];
        assert_eq!(ends(2, &format!("0 0 0\n1 1 1\n{comment}")), before_39);
        assert_eq!(ends(2, "0 0 0\n1 1 1\n2 2 2\n"), ["one too many"]);
        assert_eq!(ends(2, "0 0 0\n1 1 1\n2 2 2"), ["one too many without a newline"]);
        let many = format!("0 0 0\n1 1 1\n2 2 2\n{comment}");
        assert_eq!(ends(2, &many), ["one too many before 39 bytes"]);
        assert_eq!(ends(2, "0 0 0\n1  1 1\n"), NONE);
    }
}
