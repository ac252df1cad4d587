//! Numbers as words: the same value in many layouts, values at the edges, and words
//! that are no number.

use super::draws::Draws;
use crate::writing::shortest;

/// Three words of this length and a keyword fit on a line with room for blanks.
const LONGEST_WORD: usize = 72;

/// A word whose value is `units` times ten to the power of minus `places`.
pub fn odd(draws: &mut Draws, units: i64, places: usize) -> String {
    let word = match units {
        0 => nought(draws),
        _ => {
            let digits = units.unsigned_abs().to_string();
            moved(draws, units < 0, &digits, -(places as i64))
        }
    };
    if word.len() <= LONGEST_WORD {
        word
    } else {
        shortest(units, places)
    }
}

/// Nought, by digits and an exponent of any size.
fn nought(draws: &mut Draws) -> String {
    let sign = draws.pick(&["", "", "", "-", "+"]);
    let digits = draws.pick(&["0", "0", "0", "0.0", ".0", "0.", "000", "00.", "0.0000000000"]);
    let nines = "9".repeat(draws.below(40) + 1);
    let exponent = match draws.below(12) {
        0 => "e999".to_string(),
        1 => format!("E-{nines}"),
        2 => format!("e+{nines}"),
        3 => "e0".to_string(),
        _ => String::new(),
    };
    format!("{sign}{digits}{exponent}")
}

/// `digits` times ten to the power of `power`, the point moved against an exponent.
fn moved(draws: &mut Draws, negative: bool, digits: &str, power: i64) -> String {
    let exponent = match draws.below(8) {
        0 | 1 => Some(draws.between(-12, 12)),
        2 => Some(draws.between(-45, 45)),
        3 => Some(0),
        _ => None,
    };
    let (whole, fraction) = pointed(digits, power - exponent.unwrap_or(0));
    let fraction = if draws.one_in(8) { &fraction } else { fraction.trim_end_matches('0') };
    let mantissa = dressed(draws, &whole, fraction);
    let sign = if negative { "-" } else { draws.pick(&["", "", "", "", "", "", "", "+"]) };
    format!("{sign}{mantissa}{}", exponent.map_or(String::new(), |e| exponent_part(draws, e)))
}

/// The digits before and after the point.
fn pointed(digits: &str, power: i64) -> (String, String) {
    if power >= 0 {
        return (digits.to_string() + &"0".repeat(power as usize), String::new());
    }
    let after = -power as usize;
    let padded = format!("{digits:0>after$}");
    let (whole, fraction) = padded.split_at(padded.len() - after);
    (whole.to_string(), fraction.to_string())
}

/// Zeros that change nothing, in front and behind, and a point that has no digit after it.
fn dressed(draws: &mut Draws, whole: &str, fraction: &str) -> String {
    let front = if draws.one_in(8) { draws.below(40) + 1 } else { 0 };
    let behind = if draws.one_in(8) { draws.below(20) + 1 } else { 0 };
    let mut whole = "0".repeat(front) + whole;
    let fraction = fraction.to_string() + &"0".repeat(behind);
    if whole.is_empty() && (fraction.is_empty() || draws.one_in(2)) {
        whole = "0".to_string();
    }
    let point = if fraction.is_empty() && !draws.one_in(4) { "" } else { "." };
    format!("{whole}{point}{fraction}")
}

fn exponent_part(draws: &mut Draws, exponent: i64) -> String {
    let letter = draws.pick(&["e", "E"]);
    let sign = match exponent {
        0 => draws.pick(&["", "+", "-"]),
        e if e < 0 => "-",
        _ => draws.pick(&["", "+"]),
    };
    let zeros = if draws.one_in(6) { draws.below(40) + 1 } else { 0 };
    format!("{letter}{sign}{}{}", "0".repeat(zeros), exponent.unsigned_abs())
}

/// A number about the limit of ten to the power of `limit` or about the unit of ten to the
/// power of minus `places`: it may be kept, beyond or finer.
pub fn near(draws: &mut Draws, places: usize, limit: i64) -> String {
    let first = draws.text(b"1123456789", 1);
    let longest = draws.pick(&[10, 10, 50]);
    let length = draws.below(longest);
    let middle = match draws.below(3) {
        0 => "0".repeat(length),
        1 => "9".repeat(length),
        _ => draws.text(b"0123456789", length),
    };
    let last = draws.pick(&["", "", "1", "5", "9", "0"]);
    let digits = first + &middle + last;
    let power = match draws.below(3) {
        0 => limit + draws.between(-1, 1) - digits.len() as i64 + 1,
        _ => draws.between(-1, 1) - places as i64,
    };
    let negative = draws.one_in(3);
    let word = moved(draws, negative, &digits, power);
    if word.len() <= LONGEST_WORD {
        word
    } else {
        format!("{digits}e{power}")
    }
}

/// A number above the limit of ten to the power of `limit`, by much or by little.
pub fn beyond(draws: &mut Draws, limit: usize) -> String {
    let sign = draws.pick(&["", "-", "+"]);
    let whole = "1".to_string() + &"0".repeat(limit);
    let zeros = "0".repeat(draws.below(40));
    let nines = "9".repeat(draws.below(60) + 2);
    let size = match draws.below(6) {
        0 => format!("{whole}.{zeros}1"),
        1 => format!("{}e1", "2".to_string() + &whole[1..]),
        2 => format!("1e{nines}"),
        3 => format!("0.{zeros}1E+{nines}"),
        4 => format!("1{zeros}1.e{limit}"),
        _ => "1".to_string() + &"0".repeat(limit) + "1e0",
    };
    format!("{sign}{size}")
}

/// A number within the limit that is no multiple of the unit.
pub fn finer(draws: &mut Draws, places: usize) -> String {
    let sign = draws.pick(&["", "-", "+"]);
    let digit = draws.text(b"123456789", 1);
    let zeros = "0".repeat(places + draws.below(30));
    let nines = "9".repeat(draws.below(60) + 2);
    let size = match draws.below(5) {
        0 => format!("0.{zeros}{digit}"),
        1 => format!(".{zeros}{digit}0"),
        2 => format!("{digit}e-{nines}"),
        3 => format!("{digit}.E-{}", places + 1),
        _ => format!("9.{}{digit}", "9".repeat(places)),
    };
    format!("{sign}{size}")
}

/// A word that is most likely no number.
pub fn wrong(draws: &mut Draws) -> String {
    const WORDS: &[&str] = &[
        "+", "-", ".", ".", "1e", "1e+", "1E-", "1.e", ".e1", "-.", "+.", "+.e5", "-.E2", "1..2",
        "1..", "1.x", "1,5", "0x10", "--1", "+-1", "1_0", "1e5.0", "1e5.", "1e5e5", "1-", "0#",
        "1\"", "1d5", "1f", "inf", "nan", "-inf", "e5", "E", "5.+1", "1e+-1", "0e", "0.e", "..",
        "0.0.0", "1e1-", "+e1", "9/1", "1:0",
    ];
    match draws.below(3) {
        0 => draws.pick(WORDS).to_string(),
        1 => spoilt(draws),
        _ => {
            let length = draws.below(12) + 1;
            draws.text(b"0123456789+-..eE", length)
        }
    }
}

/// A number with one byte put in, taken out or exchanged.
fn spoilt(draws: &mut Draws) -> String {
    let units = draws.between(-20_000_000, 20_000_000);
    let mut word = odd(draws, units, 7);
    let at = draws.below(word.len());
    let put = draws.text(b"0123456789+-.eE,xd#", 1);
    match draws.below(3) {
        0 => word.insert_str(at, &put),
        1 => word.replace_range(at..at + 1, &put),
        _ if word.len() > 1 => word.replace_range(at..at + 1, ""),
        _ => word.push('.'),
    }
    word
}

#[cfg(test)]
mod tests {
    use super::*;
    use crate::decimal::{value, Value, TEN_MILLIONTHS, THOUSANDTHS};

    #[test]
    fn odd_layouts_keep_the_value() {
        let mut draws = Draws::of(1, 0, 0);
        for _ in 0..20_000 {
            let units =
                draws.between(-10_000_000_000, 10_000_000_000) / 10i64.pow(draws.below(11) as u32);
            let word = odd(&mut draws, units, 7);
            assert_eq!(value(word.as_bytes(), &TEN_MILLIONTHS), Value::Units(units), "{word}");
        }
    }

    #[test]
    fn beyond_and_finer_are_what_they_say() {
        let mut draws = Draws::of(2, 0, 0);
        for _ in 0..5_000 {
            let word = beyond(&mut draws, 3);
            assert_eq!(value(word.as_bytes(), &TEN_MILLIONTHS), Value::Beyond, "{word}");
            let word = beyond(&mut draws, 1);
            assert_eq!(value(word.as_bytes(), &THOUSANDTHS), Value::Beyond, "{word}");
            let word = finer(&mut draws, 7);
            assert_eq!(value(word.as_bytes(), &TEN_MILLIONTHS), Value::Finer, "{word}");
            let word = finer(&mut draws, 3);
            assert_eq!(value(word.as_bytes(), &THOUSANDTHS), Value::Finer, "{word}");
        }
    }

    #[test]
    fn near_words_fall_on_every_side() {
        let mut draws = Draws::of(3, 0, 0);
        let mut seen = [0; 4];
        for _ in 0..5_000 {
            let word = near(&mut draws, 7, 3);
            seen[match value(word.as_bytes(), &TEN_MILLIONTHS) {
                Value::Units(_) => 0,
                Value::Beyond => 1,
                Value::Finer => 2,
                Value::NotANumber => 3,
            }] += 1;
        }
        assert!(seen[0] > 200 && seen[1] > 200 && seen[2] > 200 && seen[3] == 0, "{seen:?}");
    }
}
