//! Files that keep the rules, in odd layouts.

use super::damage;
use super::draws::Draws;
use super::plain;
use super::words;
use super::FileCase;
use crate::paper::{Kind, BOUND_UNITS, DEFAULT_LOWER, DEFAULT_UPPER, GREATEST_BOUND};
use crate::paper::{GREATEST_SAMPLE, GREATEST_WIDTH, LONGEST_LINE, SAMPLE_PLACES};
use crate::writing::shortest;

/// What a line of a draft is there for.
#[derive(Clone, Copy, PartialEq, Eq, Debug)]
pub enum Part {
    Title,
    Lower,
    Upper,
    Size,
    Data,
    /// A comment or an empty line.
    Aside,
}

#[derive(Clone, Debug)]
pub struct Line {
    pub part: Part,
    pub text: Vec<u8>,
}

/// A file line by line, which damage may still change.
#[derive(Clone, Debug)]
pub struct Draft {
    pub kind: Kind,
    pub n: i64,
    pub lines: Vec<Line>,
    pub table_len: usize,
    pub newline_last: bool,
}

/// A file of any sort, and a table length.
pub fn case(draws: &mut Draws) -> FileCase {
    match draws.below(24) {
        0 => soup(draws),
        1 | 2 => edge_words(draws),
        3..=7 => finished(kept(draws), vec!["kept"]),
        8 => damage::blind_alone(draws),
        9..=12 => plain::case(draws),
        _ => damage::case(draws),
    }
}

pub fn finished(draft: Draft, made: Vec<&'static str>) -> FileCase {
    FileCase { file: draft.bytes(), table_len: draft.table_len, made }
}

/// A draft that keeps every rule.
pub fn kept(draws: &mut Draws) -> Draft {
    let kind = draws.pick(&[Kind::OneD, Kind::OneD, Kind::ThreeD]);
    let n = some_n(draws, kind);
    let rows = kind.rows(n);
    let mut lines = keyword_lines(draws, kind, n);
    draws.shuffle(&mut lines);
    let style = draws.below(4);
    lines.extend((0..rows).map(|_| data_line(draws, style)));
    put_asides(draws, &mut lines);
    let spare = draws.pick(&[0, 0, 1, 2, 3, 30]);
    let newline_last = !draws.one_in(4);
    Draft { kind, n, lines, table_len: 3 * rows + spare, newline_last }
}

/// N, mostly small.
fn some_n(draws: &mut Draws, kind: Kind) -> i64 {
    let rank = draws.below(10_000);
    match (kind, rank) {
        (Kind::OneD, 0) => draws.pick(&[65_535, 65_536, 4096, 20_000]),
        (Kind::OneD, 1..=19) => draws.between(100, 3000),
        (Kind::OneD, 20..=599) => draws.between(8, 64),
        (Kind::OneD, _) => draws.between(2, 7),
        (Kind::ThreeD, 0) => draws.pick(&[17, 20, 32]),
        (Kind::ThreeD, 1..=99) => draws.between(5, 9),
        (Kind::ThreeD, 100..=999) => draws.between(3, 4),
        (Kind::ThreeD, _) => 2,
    }
}

fn keyword_lines(draws: &mut Draws, kind: Kind, n: i64) -> Vec<Line> {
    let mut lines = vec![size_line(draws, kind, &n.to_string())];
    if draws.one_in(2) {
        lines.push(title_line(draws));
    }
    let (lower, upper) = some_bounds(draws, kind);
    // Both lines or neither: one without the other is 19.
    if (lower, upper) != (DEFAULT_LOWER, DEFAULT_UPPER) || draws.one_in(3) {
        lines.push(bounds_line(draws, Part::Lower, &lower));
        lines.push(bounds_line(draws, Part::Upper, &upper));
    }
    lines
}

/// Lower and upper bounds of the three colours, in thousandths.
pub type Bounds = ([i64; 3], [i64; 3]);

pub fn bounds_of(domains: [(i64, i64); 3]) -> Bounds {
    (domains.map(|domain| domain.0), domains.map(|domain| domain.1))
}

/// Bounds that keep 8, 10, 11 and 12.
pub fn some_bounds(draws: &mut Draws, kind: Kind) -> Bounds {
    let first = some_domain(draws);
    bounds_of(match kind {
        Kind::OneD => [first, some_domain(draws), some_domain(draws)],
        Kind::ThreeD if draws.one_in(2) => mixed_domains(draws),
        Kind::ThreeD => [first; 3],
    })
}

/// Domains of whole bounds that differ. At times all widths are alike, all lower bounds are 0, or
/// two colours have one domain.
fn mixed_domains(draws: &mut Draws) -> [(i64, i64); 3] {
    let mut domains = [(0, 0); 3];
    while domains[0] == domains[1] && domains[1] == domains[2] {
        let alike = draws.pick(&[1, 2, 3, 10]);
        let same_width = draws.one_in(4);
        let from_0 = draws.one_in(3);
        domains = [0; 3].map(|_| {
            let width = if same_width { alike } else { draws.between(1, 10) };
            let lower = if from_0 { 0 } else { whole_lower(draws, width) };
            (lower * BOUND_UNITS, (lower + width) * BOUND_UNITS)
        });
        if draws.one_in(5) {
            domains[draws.below(3)] = domains[draws.below(3)];
        }
    }
    domains
}

/// A lower bound in whole units: mostly one with which some raw code, from 0 to 1, is within the
/// domain or at its end.
fn whole_lower(draws: &mut Draws, width: i64) -> i64 {
    let greatest = 10 - width;
    if draws.one_in(4) {
        draws.between(-10, greatest)
    } else {
        draws.between(-width, greatest.min(1))
    }
}

/// Mixed domains with one bound that is not whole: it is moved inwards, by as little as can be or
/// by nearly a whole.
pub fn one_bound_not_whole(draws: &mut Draws) -> Bounds {
    let mut domains = mixed_domains(draws);
    let (lower, upper) = &mut domains[draws.below(3)];
    let by = draws.pick(&[1, 500, BOUND_UNITS - 1]);
    if draws.one_in(2) {
        *lower += by;
    } else {
        *upper -= by;
    }
    bounds_of(domains)
}

/// A domain that two colours have and that is not whole, and a whole one, at times as wide.
pub fn two_colours_not_whole(draws: &mut Draws) -> Bounds {
    let shared = draws.pick(&[(0, 1_500), (500, 1_000), (500, 1_500), (-1, 999), (-2_001, 9)]);
    let whole = mixed_domains(draws)[0];
    let whole = draws.pick(&[(0, 1_000), whole]);
    let mut domains = [shared; 3];
    domains[draws.below(3)] = whole;
    bounds_of(domains)
}

fn some_domain(draws: &mut Draws) -> (i64, i64) {
    const AT_LIMITS: &[(i64, i64)] = &[
        (0, GREATEST_BOUND),
        (-GREATEST_BOUND, 0),
        (-5_000, 5_000),
        (-GREATEST_BOUND, -9_999),
        (9_999, GREATEST_BOUND),
        (0, 1),
        (999, 1_000),
        (-1, 0),
        (-1_000, 2_000),
        (250, 750),
    ];
    match draws.below(4) {
        0 | 1 => (0, 1_000),
        2 => draws.pick(AT_LIMITS),
        _ => {
            let lower = draws.between(-GREATEST_BOUND, GREATEST_BOUND - 1);
            let room = GREATEST_WIDTH.min(GREATEST_BOUND - lower);
            (lower, lower + draws.between(1, room))
        }
    }
}

/// The size line with this word as N, zeros before it at times.
pub fn size_line(draws: &mut Draws, kind: Kind, n: &str) -> Line {
    let zeros = if draws.one_in(8) { draws.below(100) + 1 } else { 0 };
    line_of(draws, Part::Size, &[kind.size_word().to_string(), "0".repeat(zeros) + n])
}

pub fn bounds_line(draws: &mut Draws, part: Part, bounds: &[i64; 3]) -> Line {
    let words = bounds.map(|bound| words::odd(draws, bound, 3));
    domain_line(draws, part, words)
}

/// The lower or the upper domain line with these words as its bounds.
pub fn domain_line(draws: &mut Draws, part: Part, words: [String; 3]) -> Line {
    let keyword = if part == Part::Lower { "DOMAIN_MIN" } else { "DOMAIN_MAX" };
    let [red, green, blue] = words;
    line_of(draws, part, &[keyword.to_string(), red, green, blue])
}

fn title_line(draws: &mut Draws) -> Line {
    let length = match draws.below(6) {
        0 => 0,
        1 => 1,
        2 => draws.below(225),
        _ => draws.below(30),
    };
    let text = draws.printable(length, b"\"");
    line_of(draws, Part::Title, &["TITLE".to_string(), format!("\"{text}\"")])
}

fn data_line(draws: &mut Draws, style: usize) -> Line {
    let fields = [0; 3].map(|_| {
        let units = some_sample(draws, style);
        if style == 0 {
            shortest(units, SAMPLE_PLACES)
        } else {
            words::odd(draws, units, 7)
        }
    });
    line_of(draws, Part::Data, &fields)
}

/// A sample in ten-millionths; the style says how wild.
pub fn some_sample(draws: &mut Draws, style: usize) -> i64 {
    const EDGES: &[i64] = &[
        GREATEST_SAMPLE,
        GREATEST_SAMPLE - 1,
        -GREATEST_SAMPLE,
        1 - GREATEST_SAMPLE,
        0,
        1,
        -1,
        10_000_000,
        9_999_999,
        5_000_000,
    ];
    match style {
        0 => draws.between(-5, 15) * 1_000_000,
        1 => draws.between(0, 10_000_000),
        2 => draws.pick(EDGES),
        _ => draws.between(-GREATEST_SAMPLE, GREATEST_SAMPLE),
    }
}

/// Words with blanks between them, before and after; on one line of at most 250 bytes.
pub fn line_of(draws: &mut Draws, part: Part, words: &[String]) -> Line {
    let mut text = if draws.one_in(8) { blanks(draws) } else { String::new() };
    for (index, word) in words.iter().enumerate() {
        if index > 0 {
            text += &if draws.one_in(6) { blanks(draws) } else { " ".to_string() };
        }
        text += word;
    }
    if draws.one_in(8) {
        text += &blanks(draws);
    }
    if text.len() > LONGEST_LINE {
        text = words.join(" ");
    }
    Line { part, text: text.into_bytes() }
}

/// One blank or more.
fn blanks(draws: &mut Draws) -> String {
    let length = if draws.one_in(4) { draws.below(20) + 1 } else { draws.below(3) + 1 };
    draws.text(b" \t", length)
}

/// Comments and empty lines anywhere.
fn put_asides(draws: &mut Draws, lines: &mut Vec<Line>) {
    if draws.one_in(2) {
        return;
    }
    for _ in 0..draws.below(5) {
        let text = if draws.one_in(2) { Vec::new() } else { comment(draws) };
        let at = draws.below(lines.len() + 1);
        lines.insert(at, Line { part: Part::Aside, text });
    }
}

pub fn comment(draws: &mut Draws) -> Vec<u8> {
    let length = if draws.one_in(6) { LONGEST_LINE - 1 } else { draws.below(40) };
    let mut text = ("#".to_string() + &draws.printable(length, b"")).into_bytes();
    for byte in text.iter_mut().skip(1) {
        if draws.one_in(16) {
            *byte = b'\t';
        }
    }
    text
}

/// Two rows of words about the edges of range and unit.
fn edge_words(draws: &mut Draws) -> FileCase {
    let mut draft = kept(draws);
    draft.kind = Kind::OneD;
    draft.n = 2;
    draft.table_len = 6;
    draft.lines.clear();
    draft.lines.push(size_line(draws, Kind::OneD, "2"));
    if draws.one_in(4) {
        // Any positive bound has its place between 0 and 10.
        let sides = [(Part::Lower, Part::Upper, GREATEST_BOUND), (Part::Upper, Part::Lower, 0)];
        let (part, other, bound) = draws.pick(&sides);
        let words = [0; 3].map(|_| words::near(draws, 3, 1));
        draft.lines.push(domain_line(draws, part, words));
        draft.lines.push(bounds_line(draws, other, &[bound; 3]));
    }
    for _ in 0..2 {
        let fields = [0; 3].map(|_| match draws.below(8) {
            0 => words::wrong(draws),
            1 => words::odd(draws, 1, 7),
            _ => words::near(draws, 7, 3),
        });
        draft.lines.push(line_of(draws, Part::Data, &fields));
    }
    finished(draft, vec!["words at the edges"])
}

/// Scraps of the format in any order.
fn soup(draws: &mut Draws) -> FileCase {
    const SCRAPS: &[&str] = &[
        "LUT_1D_SIZE", "LUT_3D_SIZE", "TITLE", "DOMAIN_MIN", "DOMAIN_MAX", "LUT_1D_SIZE 2\n", "\n",
        "\n", "\n", " ", " ", " ", "\t", "0", "1", "2", "0 0 0\n", "1 1 1\n", "0 0 0\n", "\"", "#",
        "-", "+", ".", "e", "\r\n", "\r", "a", "TITLE \"\"\n", "DOMAIN_MIN 0 0 0\n",
        "DOMAIN_MAX 1 1 1\n", "LUT_3D_SIZE 2\n", "\x7f", "\0",
    ];
    let mut file = Vec::new();
    if draws.one_in(2) {
        file.extend(b"LUT_1D_SIZE 2\n");
    }
    for _ in 0..draws.below(14) {
        file.extend(draws.pick(SCRAPS).as_bytes());
    }
    FileCase { file, table_len: draws.pick(&[6, 6, 24, 0, 5, 23]), made: vec!["soup"] }
}

impl Draft {
    pub fn bytes(&self) -> Vec<u8> {
        let texts: Vec<&[u8]> = self.lines.iter().map(|line| line.text.as_slice()).collect();
        let mut file = texts.join(&b'\n');
        if self.newline_last && !self.lines.is_empty() {
            file.push(b'\n');
        }
        file
    }
}

#[cfg(test)]
mod tests {
    use super::*;
    use crate::reading::read;

    #[test]
    fn kept_files_are_accepted() {
        for index in 0..3_000 {
            let mut draws = Draws::of(5, 0, index);
            let draft = kept(&mut draws);
            let reading = read(&draft.bytes(), draft.table_len);
            let file = crate::show::escaped(&draft.bytes());
            assert_eq!((reading.number, reading.line), (0, 0), "{file}");
            assert_eq!(reading.description[1], draft.n);
            assert_eq!(reading.samples.len(), 3 * draft.kind.rows(draft.n));
        }
    }
}
