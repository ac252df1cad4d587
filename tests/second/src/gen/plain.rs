//! Files of plain rows. Such a row has three numbers with one space between them and a newline
//! behind; a number is an optional minus, one to three digits, and perhaps a point with at most
//! seven digits after it.
//!
//! The proved program takes these rows by a shorter way than all others. So here they stand beside
//! lines of every other shape, break off at every byte, and end before, at and after the last row.

use super::draws::Draws;
use super::files::{comment, finished, size_line, Draft, Line, Part};
use super::FileCase;
use crate::paper::{Kind, LONGEST_LINE};

/// A file of plain rows of any sort, and a table length.
pub fn case(draws: &mut Draws) -> FileCase {
    match draws.below(10) {
        0..=2 => among_others(draws),
        3 => spaced(draws),
        4 | 5 => broken_off(draws),
        6..=8 => byte_exchanged(draws),
        _ => ended(draws),
    }
}

// Plain rows.

/// How a number is written.
type Style = fn(&mut Draws) -> String;

const STYLES: &[Style] = &[any, seven_decimals, longest, one_digit];

fn any(draws: &mut Draws) -> String {
    let sign = draws.pick(&["", "", "-"]);
    let whole = draws.below(3) + 1;
    let decimals = draws.below(9).checked_sub(1);
    written(draws, sign, whole, decimals)
}

fn seven_decimals(draws: &mut Draws) -> String {
    written(draws, "", 1, Some(7))
}

fn longest(draws: &mut Draws) -> String {
    written(draws, "-", 3, Some(7))
}

fn one_digit(draws: &mut Draws) -> String {
    written(draws, "", 1, None)
}

/// A number of so many digits; without a count of decimals it has no point.
fn written(draws: &mut Draws, sign: &str, whole: usize, decimals: Option<usize>) -> String {
    const DIGITS: &[u8] = b"0123456789";
    let whole = draws.text(DIGITS, whole);
    let after = decimals.map(|many| ".".to_string() + &draws.text(DIGITS, many));
    format!("{sign}{whole}{}", after.unwrap_or_default())
}

fn row(draws: &mut Draws, style: Style) -> Vec<u8> {
    [0; 3].map(|_| style(draws)).join(" ").into_bytes()
}

/// A size line and then plain rows alone, so many or some more.
fn rows_alone(draws: &mut Draws, least: i64, style: Style) -> Draft {
    let kind = draws.pick(&[Kind::OneD, Kind::OneD, Kind::ThreeD]);
    let n = match kind {
        Kind::OneD => draws.between(least, least + 12),
        Kind::ThreeD => (2..).find(|n| n * n * n >= least).unwrap_or(2),
    };
    let rows = kind.rows(n);
    let mut lines = vec![size_line(draws, kind, &n.to_string())];
    lines.extend((0..rows).map(|_| Line { part: Part::Data, text: row(draws, style) }));
    let table_len = 3 * rows + draws.pick(&[0, 0, 0, 1, 3]);
    Draft { kind, n, lines, table_len, newline_last: true }
}

// Other lines.

/// Words for one of a row's numbers that keep the rules, of other shapes or just of the plain one.
const WORDS: &[(&str, &[&str])] = &[
    ("a plus sign", &["+0", "+1.5", "+999.9999999"]),
    ("an exponent", &["1e0", "2.5E-1", "1.234e+00", "12e-7"]),
    ("four whole digits", &["1000", "-1000", "0999.5", "0000", "1000.0000000"]),
    ("eight decimals, the last 0", &["0.12345670", "-0.00000010", "999.99999990"]),
    ("a point first", &[".5", "-.25", ".0000001"]),
    ("a point last", &["1.", "-0.", "999."]),
    ("nought with a minus", &["-0", "-0.0", "-000.0000000"]),
    ("three whole digits", &["999", "-100", "007"]),
];

/// Words that break the rule of the number that stands first.
const WRONG_WORDS: &[(&str, &[&str])] = &[
    ("16: four whole digits", &["1001", "-1000.0000001", "1234.5", "9999"]),
    ("17: eight decimals", &["0.12345678", "-0.00000001", "999.99999999"]),
    ("15: a lone point", &[".", "-."]),
    ("15: a letter", &["1x", "0.5f", "1e", "0x10", "1.2a", "-a"]),
    ("15: no number", &["-", "--1", "1-", "1.2.3", "1,5", "1/2", "0:5", "0.:"]),
];

/// Lines that keep the rules, R, G and B standing for a row's numbers.
const LAYOUTS: &[(&str, &[&str])] = &[
    ("a tab", &["R\tG B", "R G\tB", "R\tG\tB"]),
    ("two spaces", &["R  G B", "R G  B", "R  G  B"]),
    ("a blank first", &[" R G B", "\tR G B"]),
    ("a blank last", &["R G B ", "R G B\t", "R G B  "]),
];

/// Lines that break the rule of the number that stands first.
const WRONG_LAYOUTS: &[(&str, &[&str])] = &[
    ("2: a carriage return", &["R G B\r", "R G\rB", "R\r G B", "\r"]),
    ("2: a byte not permitted", &["R G B\0", "R\x0BG B", "R G\x7F B", "\u{80}R G B", "R G B\x1F"]),
    ("3: neither data nor keyword", &["x G B", " ", "\t", " # R G B", ",R G B", "/ G B", ": G B"]),
    ("4: a keyword", &["TITLE \"late\"", "LUT_1D_SIZE 2", "DOMAIN_MIN 0 0 0", "DOMAIN_MAX"]),
    ("15: a fourth number", &["R G B 0", "R G B -1.5", "R G B\t9"]),
    ("15: two numbers", &["R G", "R B ", "R\tB"]),
    ("15: one number", &["R", "R ", "RGB"]),
];

/// A line that keeps the rules: a row of another shape, a comment or an empty line.
fn other_line(draws: &mut Draws, style: Style) -> (&'static str, Line) {
    let (part, name, text) = match draws.below(16) {
        0 => (Part::Aside, "a comment", comment(draws)),
        1 => (Part::Aside, "an empty line", Vec::new()),
        2 => (Part::Data, "a line of 250 bytes", padded(draws, style, LONGEST_LINE)),
        3..=6 => with_layout(draws, style, LAYOUTS),
        _ => with_word(draws, style, WORDS),
    };
    (name, Line { part, text })
}

/// A line that breaks a rule.
fn wrong_line(draws: &mut Draws, style: Style) -> (&'static str, Line) {
    let length = LONGEST_LINE + 1 + draws.below(60);
    let (part, name, text) = match draws.below(12) {
        0 => (Part::Data, "1: a line too long", padded(draws, style, length)),
        1..=6 => with_layout(draws, style, WRONG_LAYOUTS),
        _ => with_word(draws, style, WRONG_WORDS),
    };
    (name, Line { part, text })
}

type Named = (Part, &'static str, Vec<u8>);

fn with_word(draws: &mut Draws, style: Style, words: &[(&'static str, &[&str])]) -> Named {
    let mut numbers = [0; 3].map(|_| style(draws));
    let (name, words) = draws.pick(words);
    numbers[draws.below(3)] = draws.pick(words).to_string();
    (Part::Data, name, numbers.join(" ").into_bytes())
}

fn with_layout(draws: &mut Draws, style: Style, layouts: &[(&'static str, &[&str])]) -> Named {
    let (name, lines) = draws.pick(layouts);
    let mut text = String::new();
    // no keyword has one of these letters
    for sign in draws.pick(lines).chars() {
        match sign {
            'R' | 'G' | 'B' => text += &style(draws),
            _ => text.push(sign),
        }
    }
    (Part::Data, name, text.into_bytes())
}

/// A plain row with blanks behind it, so many bytes in all.
fn padded(draws: &mut Draws, style: Style, length: usize) -> Vec<u8> {
    let mut text = row(draws, style);
    text.resize(length, b' ');
    text
}

/// Puts a line in a row's place; a comment or an empty line goes before the row.
fn put(draft: &mut Draft, at: usize, (name, line): (&'static str, Line)) -> &'static str {
    if line.part == Part::Data {
        draft.lines[at] = line;
    } else {
        draft.lines.insert(at, line);
    }
    name
}

// The sorts of files.

/// Plain rows with other lines anywhere among them, and at times one that breaks a rule.
fn among_others(draws: &mut Draws) -> FileCase {
    let style = draws.pick(STYLES);
    let mut draft = rows_alone(draws, 6, style);
    let mut made = vec!["plain rows among others"];
    for _ in 0..draws.below(4) {
        let at = 1 + draws.below(draft.lines.len() - 1);
        made.push(put(&mut draft, at, other_line(draws, style)));
    }
    if draws.one_in(2) {
        let at = 1 + draws.below(draft.lines.len() - 1);
        made.push(put(&mut draft, at, wrong_line(draws, style)));
    }
    finished(draft, made)
}

/// Plain rows with other lines in a row among them, few or many, so that the pauses between two
/// looks for a plain row have every length.
fn spaced(draws: &mut Draws) -> FileCase {
    let style = draws.pick(STYLES);
    let others = draws.pick(&[1, 1, 1, 2, 2, 4, 8, 16, 32, 64]);
    let mut draft = rows_alone(draws, 12 + 3 * others as i64, style);
    let mut made = vec!["plain rows between others"];
    let mut at = 2 + draws.below(8);
    while at + others < draft.lines.len() {
        for place in at..at + others {
            made.push(put(&mut draft, place, other_line(draws, style)));
        }
        at += others + draws.below(4) + others;
    }
    if draws.one_in(4) {
        let last = draft.lines.len() - 1;
        made.push(put(&mut draft, last, wrong_line(draws, style)));
    }
    finished(draft, made)
}

/// Plain rows that end at any byte of the last three. At times the table has a row or two fewer, so
/// that the last one there is too many.
fn broken_off(draws: &mut Draws) -> FileCase {
    let style = draws.pick(&[longest, longest, longest, any]);
    let mut draft = rows_alone(draws, 4, style);
    for _ in 0..draws.pick(&[0, 0, 0, 1, 2]) {
        draft.lines.push(Line { part: Part::Data, text: row(draws, style) });
    }
    let last_rows = &draft.lines[draft.lines.len() - 3..];
    let bytes: usize = last_rows.iter().map(|line| line.text.len() + 1).sum();
    let mut case = finished(draft, vec!["plain rows broken off"]);
    case.file.truncate(case.file.len() - draws.below(bytes + 1));
    case
}

/// Plain rows with one byte of one of them exchanged, or its newline: for bytes that could be taken
/// for a digit, a sign, a point or a blank, and for others.
fn byte_exchanged(draws: &mut Draws) -> FileCase {
    const BYTES: &[u8] = b"/:.-+eE, \t\r\n#x0\0\x7F\x80\xB0";
    let style = draws.pick(&[longest, longest, longest, any]);
    let draft = rows_alone(draws, 4, style);
    let at = 1 + draws.below(draft.lines.len() - 1);
    let before: usize = draft.lines[..at].iter().map(|line| line.text.len() + 1).sum();
    let place = before + draws.below(draft.lines[at].text.len() + 1);
    let mut case = finished(draft, vec!["a byte of a plain row exchanged"]);
    case.file[place] = draws.pick(BYTES);
    case
}

/// Plain rows that are one too few, just as many or one too many, with comments and empty lines
/// behind them or not.
fn ended(draws: &mut Draws) -> FileCase {
    let style = draws.pick(STYLES);
    let mut draft = rows_alone(draws, 3, style);
    let made = match draws.below(3) {
        0 => {
            draft.lines.pop();
            "one plain row too few"
        }
        1 => "just as many plain rows",
        _ => {
            draft.lines.push(Line { part: Part::Data, text: row(draws, style) });
            "one plain row too many"
        }
    };
    for _ in 0..draws.pick(&[0, 0, 1, 2]) {
        let text = if draws.one_in(2) { Vec::new() } else { comment(draws) };
        draft.lines.push(Line { part: Part::Aside, text });
    }
    draft.newline_last = draws.one_in(2);
    finished(draft, vec![made])
}

#[cfg(test)]
mod tests {
    use super::*;
    use crate::met::plain::is_plain_row;
    use crate::reading::read;

    fn answer(draft: &Draft) -> (u32, u64) {
        let reading = read(&draft.bytes(), draft.table_len);
        (reading.number, reading.line)
    }

    #[test]
    fn plain_rows_are_plain_and_accepted() {
        for index in 0..400 {
            let mut draws = Draws::of(1, 0, index);
            let style = draws.pick(STYLES);
            let draft = rows_alone(&mut draws, 4, style);
            assert_eq!(answer(&draft), (0, 0));
            assert!(draft.lines[1..].iter().all(|line| is_plain_row(&line.text)), "{draft:?}");
        }
    }

    #[test]
    fn other_lines_keep_the_rules_and_wrong_ones_break_theirs() {
        for index in 0..4_000 {
            let mut draws = Draws::of(2, 0, index);
            let style = draws.pick(STYLES);
            let mut draft = rows_alone(&mut draws, 4, style);
            let at = 2 + draws.below(3);
            let name = put(&mut draft, at, other_line(&mut draws, style));
            assert_eq!(answer(&draft), (0, 0), "{name}");
            let name = put(&mut draft, at, wrong_line(&mut draws, style));
            let number = name.split(':').next().and_then(|word| word.parse().ok());
            assert_eq!(
                Some(answer(&draft)),
                number.map(|number| (number, at as u64 + 1)),
                "{name}"
            );
        }
    }
}
