//! The bytes of a .cube file to a description and samples, exact.
//!
//! It refuses what documents 01 and 02 refuse, and tells the line but not the number.

use crate::{Description, Domains, Kind, GREATEST_SAMPLE};

/// The line, counted from 1, that cannot be.
#[derive(Clone, Copy, PartialEq, Eq, Debug)]
pub struct Refused(pub usize);

/// The keywords seen so far.
#[derive(Default)]
struct Head {
    title: bool,
    lower: Option<[i64; 3]>,
    upper: Option<[i64; 3]>,
    size: Option<(Kind, usize)>,
}

/// Reads a file and, if all of it can be, writes three samples for each row to the table.
pub fn read(file: &[u8], table: &mut [i64]) -> Result<Description, Refused> {
    let mut head = Head::default();
    let mut described: Option<Description> = None;
    let (mut samples, mut needed) = (Vec::new(), 0);
    let mut last = 0;
    for (index, line) in file.split(|byte| *byte == b'\n').enumerate() {
        last = index + 1;
        let refused = Refused(last);
        if line.len() > 250 || !line.iter().all(|byte| matches!(byte, 0x20..=0x7E | b'\t')) {
            return Err(refused);
        }
        if line.is_empty() || line[0] == b'#' {
            continue;
        }
        let mut words = words(line);
        let first = words.next().ok_or(refused)?;
        if !matches!(first[0], b'0'..=b'9' | b'+' | b'-' | b'.') {
            if described.is_some() {
                return Err(refused);
            }
            keyword(&mut head, line, first, words).ok_or(refused)?;
            continue;
        }
        if described.is_none() {
            let description = described_by(&head, table.len()).ok_or(refused)?;
            needed = 3 * description.rows();
            samples.reserve_exact(needed);
            described = Some(description);
        }
        let (second, third) = (words.next().ok_or(refused)?, words.next().ok_or(refused)?);
        if words.next().is_some() || samples.len() == needed {
            return Err(refused);
        }
        for word in [first, second, third] {
            samples.push(decimal(word, 7, GREATEST_SAMPLE as u64).ok_or(refused)?);
        }
    }
    let description = described.ok_or(Refused(last))?;
    if samples.len() != needed {
        return Err(Refused(last));
    }
    table[..needed].copy_from_slice(&samples);
    Ok(description)
}

fn words(line: &[u8]) -> impl Iterator<Item = &[u8]> {
    line.split(|byte| matches!(byte, b' ' | b'\t')).filter(|word| !word.is_empty())
}

fn keyword<'a>(
    head: &mut Head,
    line: &[u8],
    word: &[u8],
    mut parameters: impl Iterator<Item = &'a [u8]>,
) -> Option<()> {
    match word {
        b"TITLE" if !head.title => {
            head.title = true;
            return title_keeps_form(line);
        }
        b"DOMAIN_MIN" if head.lower.is_none() => head.lower = Some(bounds(&mut parameters)?),
        b"DOMAIN_MAX" if head.upper.is_none() => head.upper = Some(bounds(&mut parameters)?),
        b"LUT_1D_SIZE" | b"LUT_3D_SIZE" if head.size.is_none() => {
            let (kind, most) =
                if word[4] == b'1' { (Kind::OneD, 65_536) } else { (Kind::ThreeD, 256) };
            head.size = Some((kind, size(parameters.next()?, most)?));
        }
        _ => return None,
    }
    parameters.next().is_none().then_some(())
}

/// A quote, text with neither tab nor quote, a quote, and blanks alone around them.
fn title_keeps_form(line: &[u8]) -> Option<()> {
    let text = line.trim_ascii().strip_prefix(b"TITLE")?.trim_ascii_start();
    let text = text.strip_prefix(b"\"")?.strip_suffix(b"\"")?;
    (!text.iter().any(|byte| matches!(byte, b'\t' | b'"'))).then_some(())
}

fn bounds<'a>(words: &mut impl Iterator<Item = &'a [u8]>) -> Option<[i64; 3]> {
    let mut bound = || decimal(words.next()?, 3, 10_000);
    Some([bound()?, bound()?, bound()?])
}

fn size(word: &[u8], most: usize) -> Option<usize> {
    let mut n = 0usize;
    for byte in word {
        let digit = byte.is_ascii_digit().then_some(byte - b'0')?;
        n = n.saturating_mul(10).saturating_add(usize::from(digit));
    }
    (2..=most).contains(&n).then_some(n)
}

fn described_by(head: &Head, places: usize) -> Option<Description> {
    let (kind, n) = head.size?;
    let (lower, upper) = match (head.lower, head.upper) {
        (None, None) => ([0; 3], [1000; 3]),
        (lower, upper) => (lower?, upper?),
    };
    let domains: Domains = [0, 1, 2].map(|colour| [lower[colour], upper[colour]]);
    let description = Description { kind, n, domains };
    (description.keeps_limits() && 3 * description.rows() <= places).then_some(description)
}

/// The most digits that a u64 always holds.
const HELD: usize = 19;
const POWERS: [u64; HELD + 1] = {
    let mut powers = [1; HELD + 1];
    let mut at = 1;
    while at <= HELD {
        powers[at] = 10 * powers[at - 1];
        at += 1;
    }
    powers
};

/// A decimal number as a count of units of ten to the power of minus `places`, if it is a
/// multiple of that unit and no further from 0 than the limit.
fn decimal(word: &[u8], places: i64, limit: u64) -> Option<i64> {
    let (negative, unsigned) = match word[0] {
        b'-' => (true, &word[1..]),
        b'+' => (false, &word[1..]),
        _ => (false, word),
    };
    let (mut value, mut held, mut left_out, mut rest) = (0u64, 0, 0, false);
    let (mut point, mut at) = (None, 0);
    while at < unsigned.len() {
        match unsigned[at] {
            digit @ b'0'..=b'9' if held < HELD => {
                value = 10 * value + u64::from(digit - b'0');
                held += usize::from(value > 0);
            }
            digit @ b'0'..=b'9' => {
                left_out += 1;
                rest |= digit != b'0';
            }
            b'.' if point.is_none() => point = Some(at),
            _ => break,
        }
        at += 1;
    }
    let after_point = point.map_or(0, |point| at - point - 1);
    let digits = at - usize::from(point.is_some());
    if digits == 0 {
        return None;
    }
    let power = exponent(&unsigned[at..])? + places + left_out - after_point as i64;
    if value == 0 {
        return Some(0);
    }
    let factor = *POWERS.get(power.unsigned_abs() as usize)?;
    let units = if power >= 0 {
        value.checked_mul(factor)?
    } else if value % factor == 0 {
        value / factor
    } else {
        return None;
    };
    if rest || units > limit {
        return None;
    }
    Some(if negative { -(units as i64) } else { units as i64 })
}

/// What follows the digits: nothing, or e, a sign and digits, kept within what matters.
fn exponent(word: &[u8]) -> Option<i64> {
    let Some((b'e' | b'E', signed)) = word.split_first() else {
        return word.is_empty().then_some(0);
    };
    let (negative, digits) = match signed.first()? {
        b'-' => (true, &signed[1..]),
        b'+' => (false, &signed[1..]),
        _ => (false, signed),
    };
    if digits.is_empty() || !digits.iter().all(u8::is_ascii_digit) {
        return None;
    }
    let size = digits.iter().fold(0, |size, digit| (10 * size + i64::from(digit - b'0')).min(1000));
    Some(if negative { -size } else { size })
}
