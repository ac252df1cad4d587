//! Files with a rule broken: each rule alone, several at once, and blind damage.
//!
//! A damage is a named change of a draft that kept every rule. It mostly breaks the
//! rule it is named for; at its edge it may keep it. The second program decides.

use super::draws::Draws;
use super::files::{bounds_line, comment, domain_line, finished, kept, line_of, size_line};
use super::files::{one_bound_not_whole, two_colours_not_whole};
use super::files::{Bounds, Draft, Line, Part};
use super::words;
use super::FileCase;
use crate::paper::{Kind, BOUND_PLACES, DEFAULT_LOWER, DEFAULT_UPPER, LONGEST_LINE};
use crate::writing::shortest;

type Change = fn(&mut Draft, &mut Draws);

/// One damage, or several at once.
pub fn case(draws: &mut Draws) -> FileCase {
    let mut draft = kept(draws);
    let many = draws.pick(&[1, 1, 1, 1, 2, 2, 3]);
    let mut made = Vec::new();
    for _ in 0..many {
        let (name, change) = draws.pick(DAMAGES);
        change(&mut draft, draws);
        made.push(name);
    }
    let mut case = finished(draft, made);
    if draws.one_in(12) {
        blind(&mut case, draws);
    }
    case
}

/// A file that kept every rule, with nothing but bytes damaged.
pub fn blind_alone(draws: &mut Draws) -> FileCase {
    let mut case = finished(kept(draws), Vec::new());
    for _ in 0..draws.pick(&[1, 1, 2, 4]) {
        blind(&mut case, draws);
    }
    case
}

const DAMAGES: &[(&str, Change)] = &[
    ("a line of 250 bytes", line_of_250),
    ("1: a line of 251 bytes", line_of_251),
    ("1: a long line", long_line),
    ("1 before 2: a carriage return on a line about 250 bytes", carriage_return_near_250),
    ("2: a byte not permitted", byte_not_permitted),
    ("2: CR LF on one line", cr_lf_once),
    ("2: CR LF on all lines", cr_lf_everywhere),
    ("3: an unknown line", unknown_line),
    ("3: a line of blanks", line_of_blanks),
    ("3: a blank before #", blank_before_comment),
    ("3: a keyword spoilt", keyword_spoilt),
    ("4: a keyword after data", keyword_after_data),
    ("4: a keyword moved after data", keyword_moved_after_data),
    ("5: a keyword doubled", keyword_doubled),
    ("5: both size words", both_size_words),
    ("6: a parameter too few", parameter_too_few),
    ("6: a parameter too many", parameter_too_many),
    ("6: a parameter of wrong form", parameter_wrong),
    ("6: a title of wrong form", title_wrong),
    ("6: N of wrong form", n_wrong_form),
    ("7: N out of range", n_out_of_range),
    ("7: N at its edge", n_at_edge),
    ("8: a bound beyond", bound_beyond),
    ("8: a bound too fine", bound_finer),
    ("9: no size", no_size),
    ("9 before 19: one domain line alone and no size", one_domain_line_no_size),
    ("19: one domain line alone", one_domain_line),
    ("19: one domain line alone and no rows", one_domain_line_no_rows),
    ("10: bounds not in order", bounds_not_in_order),
    ("11: a domain about 10 wide", domain_wide),
    ("12: domains that differ", domains_differ),
    ("12: one bound of mixed domains not whole", mixed_but_for_one),
    ("12: bounds of two colours not whole", mixed_but_for_two),
    ("13: the table one place short", table_one_short),
    ("13: a table of any length", table_any_length),
    ("14: a row too many", row_too_many),
    ("15: a field too few", field_too_few),
    ("15: a field too many", field_too_many),
    ("15: a field of wrong form", field_wrong),
    ("16: a sample beyond", sample_beyond),
    ("17: a sample too fine", sample_finer),
    ("16 and 17 on one line", sample_beyond_and_finer),
    ("18: the last row missing", last_row_missing),
    ("18: some rows missing", some_rows_missing),
    ("18: no rows", no_rows),
    ("a line doubled", line_doubled),
    ("two lines exchanged", lines_exchanged),
    ("a line left out", line_left_out),
    ("a line cut", line_cut),
    ("a line broken in two", line_broken),
    ("two lines joined", lines_joined),
    ("nothing at all", nothing_left),
];

/// Bytes flipped, put in or taken out anywhere, or the file cut off.
fn blind(case: &mut FileCase, draws: &mut Draws) {
    if case.file.is_empty() {
        return;
    }
    let at = draws.below(case.file.len());
    case.made.push("blind");
    match draws.below(4) {
        0 => case.file[at] ^= 1 << draws.below(8),
        1 => case.file.insert(at, draws.number() as u8),
        2 => case.file.truncate(at),
        _ => {
            case.file.remove(at);
        }
    }
}

// Choosing and changing lines.

fn any_line(draft: &Draft, draws: &mut Draws) -> Option<usize> {
    (!draft.lines.is_empty()).then(|| draws.below(draft.lines.len()))
}

fn line_with(draft: &Draft, draws: &mut Draws, wanted: impl Fn(Part) -> bool) -> Option<usize> {
    let found: Vec<usize> =
        (0..draft.lines.len()).filter(|at| wanted(draft.lines[*at].part)).collect();
    (!found.is_empty()).then(|| draws.pick(&found))
}

fn is_keyword(part: Part) -> bool {
    !matches!(part, Part::Data | Part::Aside)
}

fn first_data(draft: &Draft) -> usize {
    draft.lines.iter().position(|line| line.part == Part::Data).unwrap_or(draft.lines.len())
}

fn put_before_data(draft: &mut Draft, draws: &mut Draws, line: Line) {
    let at = draws.below(first_data(draft) + 1);
    draft.lines.insert(at, line);
}

fn put_after_data(draft: &mut Draft, draws: &mut Draws, line: Line) {
    let first = first_data(draft);
    let at = (first + 1 + draws.below(draft.lines.len() - first + 1)).min(draft.lines.len());
    draft.lines.insert(at, line);
}

fn put_anywhere(draft: &mut Draft, draws: &mut Draws, text: Vec<u8>) {
    let at = draws.below(draft.lines.len() + 1);
    draft.lines.insert(at, Line { part: Part::Aside, text });
}

/// Takes out the lines of a part and puts this one in their place.
fn exchange(draft: &mut Draft, draws: &mut Draws, line: Line) {
    draft.lines.retain(|old| old.part != line.part);
    put_before_data(draft, draws, line);
}

fn split(text: &[u8]) -> Vec<String> {
    let words = text.split(|byte| *byte == b' ' || *byte == b'\t').filter(|word| !word.is_empty());
    words.map(|word| String::from_utf8_lossy(word).into_owned()).collect()
}

/// Changes the words of a line and writes it anew.
fn rewrite(
    draft: &mut Draft,
    draws: &mut Draws,
    at: usize,
    change: impl Fn(&mut Vec<String>, &mut Draws),
) {
    let mut words = split(&draft.lines[at].text);
    change(&mut words, draws);
    draft.lines[at] = line_of(draws, draft.lines[at].part, &words);
}

// 1 and 2.

/// Pads a line with blanks, a comment with anything, to a length.
fn pad(draft: &mut Draft, draws: &mut Draws, length: usize) -> Option<usize> {
    if draws.one_in(3) {
        let text = comment(draws);
        put_anywhere(draft, draws, text);
    }
    let at = any_line(draft, draws)?;
    let text = &mut draft.lines[at].text;
    while text.len() < length {
        text.push(if text.first() == Some(&b'#') { b'x' } else { b' ' });
    }
    Some(at)
}

fn line_of_250(draft: &mut Draft, draws: &mut Draws) {
    pad(draft, draws, LONGEST_LINE);
}

fn line_of_251(draft: &mut Draft, draws: &mut Draws) {
    pad(draft, draws, LONGEST_LINE + 1);
}

fn long_line(draft: &mut Draft, draws: &mut Draws) {
    let length = LONGEST_LINE + 2 + draws.below(300);
    pad(draft, draws, length);
}

fn carriage_return_near_250(draft: &mut Draft, draws: &mut Draws) {
    let length = LONGEST_LINE - 1 + draws.below(3);
    if let Some(at) = pad(draft, draws, length) {
        let last = draft.lines[at].text.len() - 1;
        draft.lines[at].text[last] = b'\r';
    }
}

fn byte_not_permitted(draft: &mut Draft, draws: &mut Draws) {
    const BYTES: &[u8] =
        &[0x00, 0x01, 0x08, 0x0B, 0x0C, 0x0D, 0x1B, 0x1F, 0x7F, 0x80, 0xA0, 0xC3, 0xFF];
    let byte = if draws.one_in(2) { draws.pick(BYTES) } else { draws.number() as u8 };
    if let Some(at) = any_line(draft, draws) {
        let text = &mut draft.lines[at].text;
        let place = draws.below(text.len() + 1);
        text.insert(place, byte);
    }
}

fn cr_lf_once(draft: &mut Draft, draws: &mut Draws) {
    if let Some(at) = any_line(draft, draws) {
        draft.lines[at].text.push(b'\r');
    }
}

fn cr_lf_everywhere(draft: &mut Draft, _: &mut Draws) {
    for line in &mut draft.lines {
        line.text.push(b'\r');
    }
}

// 3 to 5.

fn unknown_line(draft: &mut Draft, draws: &mut Draws) {
    const LINES: &[&str] = &[
        "LUT_2D_SIZE 2", "LUT_1D_INPUT_RANGE 0 1", "title \"x\"", "Title \"x\"", "TITLE\"x\"",
        "TITLE:", "DOMAIN_MIN,0 0 0", "DOMAIN_MIN_ 0 0 0", "DOMAIN 0 1", "LUT_1D_SIZE2",
        "LUT_3D_SIZE=2", "x", "\"", ",5 0 0", "!", "/ 0 0", ": 0 0", "e5 0 0", "inf 0 0",
        "( 0 0 0 )", "~", "*", "_", "'", "lut_1d_size 2",
    ];
    let text = one_of(LINES, draws);
    put_anywhere(draft, draws, text);
}

fn one_of(lines: &[&str], draws: &mut Draws) -> Vec<u8> {
    draws.pick(lines).as_bytes().to_vec()
}

fn line_of_blanks(draft: &mut Draft, draws: &mut Draws) {
    let length = if draws.one_in(4) { LONGEST_LINE } else { draws.below(4) + 1 };
    let text = draws.text(b" \t", length).into_bytes();
    put_anywhere(draft, draws, text);
}

fn blank_before_comment(draft: &mut Draft, draws: &mut Draws) {
    let text = draws.pick(&["", "x", " 0 0 0", "\t"]);
    let blank = draws.pick(&[" #", "\t#", "  \t#"]);
    put_anywhere(draft, draws, format!("{blank}{text}").into_bytes());
}

fn keyword_spoilt(draft: &mut Draft, draws: &mut Draws) {
    let Some(at) = line_with(draft, draws, is_keyword) else {
        return;
    };
    let text = &mut draft.lines[at].text;
    let Some(start) = text.iter().position(|byte| byte.is_ascii_uppercase()) else {
        return;
    };
    let place = (start + draws.below(5)).min(text.len() - 1);
    match draws.below(4) {
        0 => text[place] = text[place].to_ascii_lowercase(),
        1 => text[place] = draws.number() as u8 & 0x7F,
        2 => text.insert(place, b'_'),
        _ => {
            text.remove(place);
        }
    }
}

fn keyword_after_data(draft: &mut Draft, draws: &mut Draws) {
    const LINES: &[&str] = &[
        "TITLE \"late\"", "TITLE", "DOMAIN_MIN 0 0 0", "DOMAIN_MAX 1 1 1", "DOMAIN_MAX",
        "LUT_1D_SIZE 2", "LUT_3D_SIZE 2", "LUT_1D_SIZE x", "DOMAIN_MIN 11 0 0", "\tTITLE \"\"",
        "LUT_3D_SIZE 1",
    ];
    let text = one_of(LINES, draws);
    put_after_data(draft, draws, Line { part: Part::Aside, text });
}

fn keyword_moved_after_data(draft: &mut Draft, draws: &mut Draws) {
    if let Some(at) = line_with(draft, draws, is_keyword) {
        let line = draft.lines.remove(at);
        put_after_data(draft, draws, line);
    }
}

fn keyword_doubled(draft: &mut Draft, draws: &mut Draws) {
    if let Some(at) = line_with(draft, draws, is_keyword) {
        let line = draft.lines[at].clone();
        put_before_data(draft, draws, line);
    }
}

fn both_size_words(draft: &mut Draft, draws: &mut Draws) {
    let other = if draft.kind == Kind::OneD { Kind::ThreeD } else { Kind::OneD };
    let n = draws.pick(&["2", "2", "0", "x", "999999"]);
    let line = size_line(draws, other, n);
    put_before_data(draft, draws, line);
}

// 6 to 8.

/// A keyword line with words as parameters, put in if the draft has none.
fn line_with_parameters(draft: &mut Draft, draws: &mut Draws) -> usize {
    let part = draws.pick(&[Part::Size, Part::Lower, Part::Upper]);
    if part != Part::Size && draws.one_in(2) {
        let line = bounds_line(draws, part, &default_of(part));
        exchange(draft, draws, line);
    }
    let found = line_with(draft, draws, |found| found == part);
    found.or_else(|| line_with(draft, draws, is_keyword)).unwrap_or(0)
}

fn parameter_too_few(draft: &mut Draft, draws: &mut Draws) {
    let at = line_with_parameters(draft, draws);
    if at < draft.lines.len() {
        rewrite(draft, draws, at, |words, draws| {
            let keep = if draws.one_in(3) { 1 } else { words.len().saturating_sub(1) };
            words.truncate(keep);
        });
    }
}

fn parameter_too_many(draft: &mut Draft, draws: &mut Draws) {
    let at = line_with_parameters(draft, draws);
    if at < draft.lines.len() {
        rewrite(draft, draws, at, |words, draws| {
            let extra = draws.pick(&["0", "1", "#", "x", "\"", "2.0", "#comment"]);
            words.push(extra.to_string());
        });
    }
}

fn parameter_wrong(draft: &mut Draft, draws: &mut Draws) {
    let at = line_with_parameters(draft, draws);
    if at < draft.lines.len() {
        rewrite(draft, draws, at, |words, draws| {
            if words.len() > 1 {
                let index = 1 + draws.below(words.len() - 1);
                words[index] = words::wrong(draws);
            }
        });
    }
}

fn title_wrong(draft: &mut Draft, draws: &mut Draws) {
    const LINES: &[&str] = &[
        "TITLE", "TITLE ", "TITLE\t", "TITLE \"", "TITLE x", "TITLE 5", "TITLE \"x", "TITLE x\"",
        "TITLE \"x\" y", "TITLE \"x\"y", "TITLE \"x\"\"", "TITLE \"x\" \"y\"", "TITLE \"\"\"",
        "TITLE \"a\tb\"", "TITLE \"\t\"", "TITLE 'x'", "TITLE x \"y\"", "TITLE x\"y\"",
        "TITLE \"x\" #", "TITLE \"x\" \t", "TITLE\t \"  x  \"", "TITLE \"\"", "TITLE \" \"",
        " TITLE \"#\"", "TITLE \"x\t\"", "TITLE \"\" \"\"", "TITLE # \"x\"",
        "TITLE \"LUT_1D_SIZE 2\"",
    ];
    let text = one_of(LINES, draws);
    exchange(draft, draws, Line { part: Part::Title, text });
}

fn n_wrong_form(draft: &mut Draft, draws: &mut Draws) {
    const WORDS: &[&str] = &[
        "+2", "-2", "2.0", "2.", "2e0", "0x2", "two", "2,", "\"2\"", "2#", "2 2", "", "+", ".",
        "2e", "-0", "1e1", "٢",
    ];
    let n = draws.pick(WORDS);
    let line = size_line(draws, draft.kind, n);
    exchange(draft, draws, line);
}

fn n_out_of_range(draft: &mut Draft, draws: &mut Draws) {
    let long = draws.text(b"0123456789", 100);
    let n = match draws.below(6) {
        0 => "0".to_string(),
        1 => "1".to_string(),
        2 => (draft.kind.greatest_n() + 1).to_string(),
        3 => draws.between(draft.kind.greatest_n() + 1, 1 << 40).to_string(),
        // Numbers that would be in range if 32 or 64 bits wrapped.
        4 => draws.pick(&["4294967298", "18446744073709551618", "65538", "131074"]).to_string(),
        _ => long,
    };
    let line = size_line(draws, draft.kind, &n);
    exchange(draft, draws, line);
}

fn n_at_edge(draft: &mut Draft, draws: &mut Draws) {
    let kind = draws.pick(&[Kind::OneD, Kind::ThreeD]);
    let n = draws.pick(&["2", "256", "257", "65536", "65537", "1", "0", "3", "255"]);
    let line = size_line(draws, kind, n);
    exchange(draft, draws, line);
}

/// What a domain line stands for that is absent.
fn default_of(part: Part) -> [i64; 3] {
    if part == Part::Lower {
        DEFAULT_LOWER
    } else {
        DEFAULT_UPPER
    }
}

/// A domain line with one bound written so.
fn bound_word(draft: &mut Draft, draws: &mut Draws, word: String) {
    let part = draws.pick(&[Part::Lower, Part::Upper]);
    let mut words = default_of(part).map(|bound| shortest(bound, BOUND_PLACES));
    words[draws.below(3)] = word;
    let line = domain_line(draws, part, words);
    exchange(draft, draws, line);
}

fn bound_beyond(draft: &mut Draft, draws: &mut Draws) {
    let word = words::beyond(draws, 1);
    bound_word(draft, draws, word);
}

fn bound_finer(draft: &mut Draft, draws: &mut Draws) {
    let word = words::finer(draws, 3);
    bound_word(draft, draws, word);
}

// 9 to 13, and 19.

fn no_size(draft: &mut Draft, _: &mut Draws) {
    draft.lines.retain(|line| line.part != Part::Size);
}

/// Takes one domain line out, and puts the other in where there is none. At times 13 holds too.
fn one_domain_line(draft: &mut Draft, draws: &mut Draws) {
    let (part, absent) = draws.pick(&[(Part::Lower, Part::Upper), (Part::Upper, Part::Lower)]);
    draft.lines.retain(|line| line.part != absent);
    let has_own = draft.lines.iter().any(|line| line.part == part);
    if !has_own || draws.one_in(2) {
        let bounds = bounds_alone(draws, part);
        let line = bounds_line(draws, part, &bounds);
        exchange(draft, draws, line);
    }
    if draws.one_in(6) {
        table_one_short(draft, draws);
    }
}

/// Bounds with which 10, 11, 12 or none of them holds by the absent line's default. As the
/// default of the lower bounds is 0, no upper bounds alone make a domain too wide.
fn bounds_alone(draws: &mut Draws, part: Part) -> [i64; 3] {
    let bound = match part {
        Part::Lower => {
            draws.pick(&[0, -1_000, 999, -1, -8_999, 1_000, 2_000, -9_000, -9_001, -10_000])
        }
        _ => draws.pick(&[1_000, 2_000, 10_000, 1, 1_001, 9_999, 0, -1_000]),
    };
    if draws.one_in(3) {
        return [bound; 3];
    }
    let mut bounds = default_of(part);
    bounds[draws.below(3)] = bound;
    bounds
}

fn one_domain_line_no_rows(draft: &mut Draft, draws: &mut Draws) {
    one_domain_line(draft, draws);
    no_rows(draft, draws);
}

fn one_domain_line_no_size(draft: &mut Draft, draws: &mut Draws) {
    one_domain_line(draft, draws);
    no_size(draft, draws);
    if draws.one_in(2) {
        no_rows(draft, draws);
    }
}

fn set_bounds(draft: &mut Draft, draws: &mut Draws, (lower, upper): Bounds) {
    let line = bounds_line(draws, Part::Lower, &lower);
    exchange(draft, draws, line);
    let line = bounds_line(draws, Part::Upper, &upper);
    exchange(draft, draws, line);
}

fn bounds_not_in_order(draft: &mut Draft, draws: &mut Draws) {
    let (mut lower, mut upper) = ([0; 3], [1000; 3]);
    let colour = draws.below(3);
    lower[colour] = draws.between(-10_000, 10_000);
    upper[colour] = match draws.below(3) {
        0 => lower[colour],
        1 => draws.between(-10_000, lower[colour]),
        _ => (lower[colour] + draws.between(-1, 1)).clamp(-10_000, 10_000),
    };
    if draws.one_in(2) {
        (lower, upper) = ([lower[colour]; 3], [upper[colour]; 3]);
    }
    set_bounds(draft, draws, (lower, upper));
}

fn domain_wide(draft: &mut Draft, draws: &mut Draws) {
    let (mut lower, mut upper) = ([0; 3], [1000; 3]);
    let colour = draws.below(3);
    lower[colour] = draws.between(-10_000, -1);
    let width = draws.pick(&[9_999, 10_000, 10_001, 10_001, 20_000]);
    upper[colour] = (lower[colour] + width).min(10_000);
    if draws.one_in(2) {
        (lower, upper) = ([lower[colour]; 3], [upper[colour]; 3]);
    }
    set_bounds(draft, draws, (lower, upper));
}

fn domains_differ(draft: &mut Draft, draws: &mut Draws) {
    let (mut lower, mut upper) = ([0; 3], [1000; 3]);
    let colour = draws.below(3);
    let by = draws.pick(&[1, -1, 100, -100]);
    if draws.one_in(2) {
        lower[colour] += by;
    } else {
        upper[colour] += by;
    }
    set_bounds(draft, draws, (lower, upper));
}

fn mixed_but_for_one(draft: &mut Draft, draws: &mut Draws) {
    let bounds = one_bound_not_whole(draws);
    set_bounds(draft, draws, bounds);
}

fn mixed_but_for_two(draft: &mut Draft, draws: &mut Draws) {
    let bounds = two_colours_not_whole(draws);
    set_bounds(draft, draws, bounds);
}

fn table_one_short(draft: &mut Draft, _: &mut Draws) {
    draft.table_len = 3 * draft.kind.rows(draft.n) - 1;
}

fn table_any_length(draft: &mut Draft, draws: &mut Draws) {
    let needed = 3 * draft.kind.rows(draft.n);
    draft.table_len =
        draws.pick(&[0, 1, 2, needed / 3, needed - 3, needed, needed + 1, needed - 2]);
}

// 14 to 18.

fn row_too_many(draft: &mut Draft, draws: &mut Draws) {
    const LINES: &[&str] = &["0 0 0", "1 1 1", ". 0 0", "0", "1e9 0 0", "+", "1e-9 0 0", "0 0 0 0"];
    for _ in 0..draws.pick(&[1, 1, 2]) {
        let text = one_of(LINES, draws);
        put_after_data(draft, draws, Line { part: Part::Data, text });
    }
}

fn change_row(draft: &mut Draft, draws: &mut Draws, change: impl Fn(&mut Vec<String>, &mut Draws)) {
    if let Some(at) = line_with(draft, draws, |part| part == Part::Data) {
        rewrite(draft, draws, at, change);
    }
}

fn field_too_few(draft: &mut Draft, draws: &mut Draws) {
    change_row(draft, draws, |words, draws| words.truncate(1 + draws.below(2)));
}

fn field_too_many(draft: &mut Draft, draws: &mut Draws) {
    change_row(draft, draws, |words, draws| {
        let extra = draws.pick(&["0", "1", "#", "x", "\"", "5."]);
        words.push(extra.to_string());
    });
}

fn put_field(words: &mut [String], draws: &mut Draws, word: String) {
    if !words.is_empty() {
        let at = draws.below(words.len());
        words[at] = word;
    }
}

fn field_wrong(draft: &mut Draft, draws: &mut Draws) {
    change_row(draft, draws, |words, draws| {
        let word = words::wrong(draws);
        put_field(words, draws, word);
    });
}

fn sample_beyond(draft: &mut Draft, draws: &mut Draws) {
    change_row(draft, draws, |words, draws| {
        let word = words::beyond(draws, 3);
        put_field(words, draws, word);
    });
}

fn sample_finer(draft: &mut Draft, draws: &mut Draws) {
    change_row(draft, draws, |words, draws| {
        let word = words::finer(draws, 7);
        put_field(words, draws, word);
    });
}

fn sample_beyond_and_finer(draft: &mut Draft, draws: &mut Draws) {
    change_row(draft, draws, |words, draws| {
        for word in words.iter_mut() {
            match draws.below(4) {
                0 => *word = words::beyond(draws, 3),
                1 => *word = words::finer(draws, 7),
                2 => *word = words::near(draws, 7, 3),
                _ => {}
            }
        }
    });
}

fn last_row_missing(draft: &mut Draft, _: &mut Draws) {
    if let Some(at) = draft.lines.iter().rposition(|line| line.part == Part::Data) {
        draft.lines.remove(at);
    }
}

fn some_rows_missing(draft: &mut Draft, draws: &mut Draws) {
    draft.lines.retain(|line| line.part != Part::Data || !draws.one_in(3));
}

fn no_rows(draft: &mut Draft, _: &mut Draws) {
    draft.lines.retain(|line| line.part != Part::Data);
}

// Blind to the rules.

fn line_doubled(draft: &mut Draft, draws: &mut Draws) {
    if let Some(at) = any_line(draft, draws) {
        let line = draft.lines[at].clone();
        let to = draws.below(draft.lines.len() + 1);
        draft.lines.insert(to, line);
    }
}

fn lines_exchanged(draft: &mut Draft, draws: &mut Draws) {
    if let (Some(one), Some(other)) = (any_line(draft, draws), any_line(draft, draws)) {
        draft.lines.swap(one, other);
    }
}

fn line_left_out(draft: &mut Draft, draws: &mut Draws) {
    if let Some(at) = any_line(draft, draws) {
        draft.lines.remove(at);
    }
}

fn line_cut(draft: &mut Draft, draws: &mut Draws) {
    if let Some(at) = any_line(draft, draws) {
        let keep = draws.below(draft.lines[at].text.len() + 1);
        draft.lines[at].text.truncate(keep);
    }
}

fn line_broken(draft: &mut Draft, draws: &mut Draws) {
    if let Some(at) = any_line(draft, draws) {
        let place = draws.below(draft.lines[at].text.len() + 1);
        draft.lines[at].text.insert(place, b'\n');
    }
}

fn lines_joined(draft: &mut Draft, draws: &mut Draws) {
    let Some(at) = any_line(draft, draws) else {
        return;
    };
    if at + 1 < draft.lines.len() {
        let next = draft.lines.remove(at + 1);
        draft.lines[at].text.extend(next.text);
    }
}

fn nothing_left(draft: &mut Draft, draws: &mut Draws) {
    draft.lines.clear();
    for _ in 0..draws.below(3) {
        put_anywhere(draft, draws, Vec::new());
    }
}

#[cfg(test)]
mod tests {
    use super::*;
    use crate::reading::read;

    /// A damage named for a number gives that number, alone, at some time.
    #[test]
    fn each_damage_gives_its_number() {
        for (index, (name, change)) in DAMAGES.iter().enumerate() {
            let Some(number) =
                name.split(&[':', ' '][..]).next().and_then(|word| word.parse().ok())
            else {
                continue;
            };
            let seen = (0..400).any(|turn| {
                let mut draws = Draws::of(7, index as u64, turn);
                let mut draft = kept(&mut draws);
                change(&mut draft, &mut draws);
                read(&draft.bytes(), draft.table_len).number == number
            });
            assert!(seen, "{name}");
        }
    }
}
