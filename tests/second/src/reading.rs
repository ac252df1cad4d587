//! Reading: the bytes of one .cube file to a description and samples, or a refusal.
//!
//! Document 01, "Lines" and "Answers by number", and document 02, Req 05 and Req 07. One line
//! is taken after another; "the first refused line decides".

use crate::decimal::{self, Value, TEN_MILLIONTHS, THOUSANDTHS};
use crate::paper::{differ_and_not_whole, some_lower_not_below, some_too_wide};
use crate::paper::{number, place, Description, Kind};
use crate::paper::{DEFAULT_LOWER, DEFAULT_UPPER, LONGEST_LINE, REFUSED_DESCRIPTION};

/// The complete answer of reading. The samples are those written to the table's
/// first places; a refusal writes none.
#[derive(Clone, PartialEq, Eq, Debug)]
pub struct Reading {
    pub number: u32,
    pub line: u64,
    pub description: Description,
    pub samples: Vec<i64>,
}

/// The complete answer for a file judged with no table.
#[derive(Clone, PartialEq, Eq, Debug)]
pub struct Check {
    pub number: u32,
    pub line: u64,
    pub description: Description,
    pub places: u64,
}

/// Reads a file for a table of so many places.
pub fn read(file: &[u8], table_len: usize) -> Reading {
    judged(file, Some(table_len))
}

/// Judges a file with no table, so that 13 is not tried. The places that a table needs are as
/// many as the file has samples; "a refusal" has none.
pub fn check(file: &[u8]) -> Check {
    let reading = judged(file, None);
    let (number, line, description) = (reading.number, reading.line, reading.description);
    Check { number, line, description, places: reading.samples.len() as u64 }
}

/// Takes a file line by line; without a table's length there is room for any.
fn judged(file: &[u8], table_len: Option<usize>) -> Reading {
    let mut file_so_far = SoFar::new(table_len);
    let mut first_place = 0;
    let mut line_number = 0;
    // "Lines are parted by newline, 0x0A." There is one line more than there are newlines,
    // the last perhaps empty, so the last line's number is also that of the end of the file.
    for line in file.split(|byte| *byte == b'\n') {
        line_number += 1;
        if let Err(number) = file_so_far.take_line(line, first_place) {
            return refused(number, line_number);
        }
        first_place += line.len() + 1;
    }
    match file_so_far.end() {
        Err(number) => refused(number, line_number),
        Ok(reading) => reading,
    }
}

/// Reads a file into a table: "Acceptance ... writes 3·rows numbers; later places keep
/// theirs." A refusal leaves "the table unchanged".
pub fn read_into(file: &[u8], table: &mut [i64]) -> Reading {
    let reading = read(file, table.len());
    table[..reading.samples.len()].copy_from_slice(&reading.samples);
    reading
}

/// "A refusal gives its number, its line, a description of zeros, kind 1D, with no title."
fn refused(number: u32, line: u64) -> Reading {
    Reading { number, line, description: REFUSED_DESCRIPTION, samples: Vec::new() }
}

/// "A word is a longest run of bytes other than space and tab."
pub fn words(line: &[u8]) -> impl Iterator<Item = &[u8]> {
    line.split(|byte| is_blank(*byte)).filter(|run| !run.is_empty())
}

fn is_blank(byte: u8) -> bool {
    byte == b' ' || byte == b'\t'
}

/// "each 0x20 to 0x7E or tab"
fn is_permitted(byte: u8) -> bool {
    (0x20..=0x7E).contains(&byte) || byte == b'\t'
}

/// "A line whose first word starts with a digit, +, - or . is a data line."
pub fn is_data(line: &[u8]) -> bool {
    let starts = |word: &[u8]| matches!(word[0], b'0'..=b'9' | b'+' | b'-' | b'.');
    words(line).next().is_some_and(starts)
}

/// The known keywords; "the two size words count as one keyword".
#[derive(Clone, Copy, PartialEq, Eq, Debug)]
enum Keyword {
    Title,
    DomainMin,
    DomainMax,
    Size(Kind),
}

impl Keyword {
    /// "compared byte for byte, capitals included"
    fn of(word: &[u8]) -> Option<Keyword> {
        match word {
            b"TITLE" => Some(Keyword::Title),
            b"DOMAIN_MIN" => Some(Keyword::DomainMin),
            b"DOMAIN_MAX" => Some(Keyword::DomainMax),
            b"LUT_1D_SIZE" => Some(Keyword::Size(Kind::OneD)),
            b"LUT_3D_SIZE" => Some(Keyword::Size(Kind::ThreeD)),
            _ => None,
        }
    }
}

/// What the lines so far have said.
struct SoFar {
    table_len: Option<usize>,
    title: Option<Title>,
    lower: Option<[i64; 3]>,
    upper: Option<[i64; 3]>,
    size: Option<(Kind, i64)>,
    data_lines: usize,
    samples: Vec<i64>,
}

/// "the title's first byte place, counted from 0, and length in the file"
#[derive(Clone, Copy)]
struct Title {
    place: usize,
    length: usize,
}

impl SoFar {
    fn new(table_len: Option<usize>) -> SoFar {
        SoFar {
            table_len,
            title: None,
            lower: None,
            upper: None,
            size: None,
            data_lines: 0,
            samples: Vec::new(),
        }
    }

    /// Takes one line, whose first byte stands at the given place of the file, or gives
    /// the number that refuses it: "on it the checks run: 1, 2; for a keyword line 3, ...;
    /// for a data line 9 to 13".
    fn take_line(&mut self, line: &[u8], first_place: usize) -> Result<(), u32> {
        if line.len() > LONGEST_LINE {
            return Err(number::LINE_TOO_LONG);
        }
        if !line.iter().all(|byte| is_permitted(*byte)) {
            return Err(number::BYTE_NOT_PERMITTED);
        }
        // "Empty lines may stand anywhere." "A line whose first byte is # is a comment."
        if line.is_empty() || line[0] == b'#' {
            return Ok(());
        }
        if is_data(line) {
            self.take_data(line)
        } else {
            self.take_keyword(line, first_place)
        }
    }

    /// "for a keyword line 3, 4, 5, 6, 7 or 8"
    fn take_keyword(&mut self, line: &[u8], first_place: usize) -> Result<(), u32> {
        // "All others, blanks alone included, must have a known keyword as first word."
        let keyword = words(line).next().and_then(Keyword::of);
        let keyword = keyword.ok_or(number::NEITHER_DATA_NOR_KEYWORD)?;
        if self.data_lines > 0 {
            return Err(number::KEYWORD_AFTER_DATA);
        }
        if self.has_seen(keyword) {
            return Err(number::KEYWORD_REPEATED);
        }
        match keyword {
            Keyword::Title => self.title = Some(title(line, first_place)?),
            Keyword::DomainMin => self.lower = Some(bounds(line)?),
            Keyword::DomainMax => self.upper = Some(bounds(line)?),
            Keyword::Size(kind) => self.size = Some((kind, size(line, kind)?)),
        }
        Ok(())
    }

    /// "each at most once; the two size words count as one keyword"
    fn has_seen(&self, keyword: Keyword) -> bool {
        match keyword {
            Keyword::Title => self.title.is_some(),
            Keyword::DomainMin => self.lower.is_some(),
            Keyword::DomainMax => self.upper.is_some(),
            Keyword::Size(_) => self.size.is_some(),
        }
    }

    /// "for a data line 9 to 13 (first data line only), then 14, 15, then the fields
    /// left to right, 16 before 17"
    fn take_data(&mut self, line: &[u8]) -> Result<(), u32> {
        let rows = self.judge_keywords_before_first_row()?;
        if self.data_lines == rows {
            return Err(number::MORE_LINES_THAN_ROWS);
        }
        let fields = three(words(line)).ok_or(number::NOT_THREE_NUMBERS)?;
        let values = fields.map(|word| decimal::value(word, &TEN_MILLIONTHS));
        if values.contains(&Value::NotANumber) {
            return Err(number::NOT_THREE_NUMBERS);
        }
        for value in values {
            self.samples.push(sample(value)?);
        }
        self.data_lines += 1;
        Ok(())
    }

    /// The number of rows; on the first data line the keywords are judged before it is given.
    fn judge_keywords_before_first_row(&self) -> Result<usize, u32> {
        match self.size {
            Some((kind, n)) if self.data_lines > 0 => Ok(kind.rows(n)),
            _ => self.judge_keywords(),
        }
    }

    /// 9, 19, 10, 11, 12, 13 in that order, each for all colours before the next.
    fn judge_keywords(&self) -> Result<usize, u32> {
        let (kind, n) = self.size.ok_or(number::NO_SIZE)?;
        // Document 02, Req 05: "a file with one domain line and not the other is refused".
        if self.lower.is_some() != self.upper.is_some() {
            return Err(number::HALF_A_DOMAIN);
        }
        let (lower, upper) = (self.lower(), self.upper());
        if some_lower_not_below(&lower, &upper) {
            return Err(number::LOWER_NOT_BELOW_UPPER);
        }
        if some_too_wide(&lower, &upper) {
            return Err(number::DOMAIN_TOO_WIDE);
        }
        if differ_and_not_whole(kind, &lower, &upper) {
            return Err(number::DOMAINS_DIFFER);
        }
        let rows = kind.rows(n);
        if self.table_len.is_some_and(|places| places < 3 * rows) {
            return Err(number::TOO_LITTLE_ROOM);
        }
        Ok(rows)
    }

    /// "With no data line, 9 to 13 are tried at the end. 18 is last."
    fn end(self) -> Result<Reading, u32> {
        let rows = self.judge_keywords()?;
        if self.data_lines < rows {
            return Err(number::TOO_FEW_ROWS);
        }
        // "Acceptance gives line 0."
        let description = self.description();
        Ok(Reading { number: number::ACCEPTED, line: 0, description, samples: self.samples })
    }

    /// The eleven numbers of an accepted file.
    fn description(&self) -> Description {
        let mut description = REFUSED_DESCRIPTION;
        if let Some((kind, n)) = self.size {
            description[place::KIND] = kind.mark();
            description[place::N] = n;
        }
        description[place::LOWER..place::LOWER + 3].copy_from_slice(&self.lower());
        description[place::UPPER..place::UPPER + 3].copy_from_slice(&self.upper());
        if let Some(title) = self.title {
            description[place::TITLE] = 1;
            description[place::TITLE_PLACE] = title.place as i64;
            description[place::TITLE_LENGTH] = title.length as i64;
        }
        description
    }

    fn lower(&self) -> [i64; 3] {
        self.lower.unwrap_or(DEFAULT_LOWER)
    }

    fn upper(&self) -> [i64; 3] {
        self.upper.unwrap_or(DEFAULT_UPPER)
    }
}

/// The three words of a run of exactly three.
fn three<'a>(words: impl Iterator<Item = &'a [u8]>) -> Option<[&'a [u8]; 3]> {
    // A fourth word is enough to know that there are not three.
    words.take(4).collect::<Vec<_>>().try_into().ok()
}

/// "TITLE, blanks, then a quote, text, a quote. The text may be empty and has no tab
/// and no quote." Blanks may trail; nothing else may follow.
fn title(line: &[u8], first_place: usize) -> Result<Title, u32> {
    let open = line.iter().position(|byte| *byte == b'"').ok_or(number::PARAMETERS_WRONG)?;
    let last = line.iter().rposition(|byte| !is_blank(*byte)).unwrap_or(0);
    // The first word is TITLE to its end, so a blank parts it from the opening quote.
    let keyword_alone_before = words(&line[..open]).count() == 1;
    if !keyword_alone_before || last == open || line[last] != b'"' {
        return Err(number::PARAMETERS_WRONG);
    }
    let text = &line[open + 1..last];
    if text.iter().any(|byte| *byte == b'"' || *byte == b'\t') {
        return Err(number::PARAMETERS_WRONG);
    }
    // For an empty text this is "the place of the closing quote".
    Ok(Title { place: first_place + open + 1, length: text.len() })
}

/// "DOMAIN_MIN and DOMAIN_MAX, three numbers": 6 for all three before 8.
pub fn bounds(line: &[u8]) -> Result<[i64; 3], u32> {
    let fields = three(words(line).skip(1)).ok_or(number::PARAMETERS_WRONG)?;
    let values = fields.map(|word| decimal::value(word, &THOUSANDTHS));
    if values.contains(&Value::NotANumber) {
        return Err(number::PARAMETERS_WRONG);
    }
    let mut bounds = [0; 3];
    for (bound, value) in bounds.iter_mut().zip(values) {
        match value {
            Value::Units(thousandths) => *bound = thousandths,
            // 8: "domain number beyond ±10 or no multiple of 0.001"
            _ => return Err(number::DOMAIN_NUMBER),
        }
    }
    Ok(bounds)
}

/// "N is digits alone, leading zeros allowed", one word (6), in range for its kind (7).
fn size(line: &[u8], kind: Kind) -> Result<i64, u32> {
    let mut parameters = words(line).skip(1);
    let word = parameters.next().ok_or(number::PARAMETERS_WRONG)?;
    if parameters.next().is_some() {
        return Err(number::PARAMETERS_WRONG);
    }
    let digits = decimal::whole_digits(word).ok_or(number::PARAMETERS_WRONG)?;
    // No N in range has more than five digits, so a longer one is out of range unread.
    if digits.len() > 5 {
        return Err(number::N_OUT_OF_RANGE);
    }
    let n = digits.iter().fold(0, |sum, digit| sum * 10 + i64::from(digit - b'0'));
    if kind.has_n(n) {
        Ok(n)
    } else {
        Err(number::N_OUT_OF_RANGE)
    }
}

/// One field of a data line: 16 or 17, or its ten-millionths.
fn sample(value: Value) -> Result<i64, u32> {
    match value {
        Value::Units(units) => Ok(units),
        Value::Beyond => Err(number::SAMPLE_BEYOND),
        Value::Finer => Err(number::SAMPLE_TOO_FINE),
        Value::NotANumber => Err(number::NOT_THREE_NUMBERS),
    }
}
