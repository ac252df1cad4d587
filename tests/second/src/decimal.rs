//! A word of a line as an exact decimal, by strings of digits.
//!
//! No word is ever turned into a machine number and scaled. Its digits are
//! stripped to the significant ones, the place of the point is kept beside
//! them, and two sizes are compared as strings. Only a value already known to
//! be in range and a whole number of units is written out.

use crate::paper::{BOUND_PLACES, SAMPLE_PLACES};
use std::cmp::Ordering;

/// What a word is, measured in a unit.
#[derive(Clone, Copy, PartialEq, Eq, Debug)]
pub enum Value {
    Units(i64),
    NotANumber,
    /// Its size is above the limit.
    Beyond,
    /// Within the limit, and no multiple of the unit.
    Finer,
}

/// A unit of 10 to the power of minus `places`, with the limit of what may be measured.
pub struct Unit {
    places: i128,
    limit: &'static str,
}

/// "thousandths for domain bounds", "from -10 to 10".
pub const THOUSANDTHS: Unit = Unit { places: BOUND_PLACES as i128, limit: "10" };

/// "ten-millionths for samples", "from -1000 to 1000".
pub const TEN_MILLIONTHS: Unit = Unit { places: SAMPLE_PLACES as i128, limit: "1000" };

/// The value of a word: "beyond" is judged before "finer" (document 01, "16 before 17").
pub fn value(word: &[u8], unit: &Unit) -> Value {
    let Some(form) = Form::of(word) else {
        return Value::NotANumber;
    };
    let size = Size::of(form.whole, form.fraction, form.exponent());
    if size.compare(&Size::of(unit.limit.as_bytes(), b"", 0)) == Ordering::Greater {
        return Value::Beyond;
    }
    if size.finest_place() > unit.places {
        return Value::Finer;
    }
    let units = size.written_in(unit.places);
    Value::Units(if form.negative { -units } else { units })
}

/// "digits alone, leading zeros allowed" (N): the digits without leading zeros, or none.
pub fn whole_digits(word: &[u8]) -> Option<&[u8]> {
    let (digits, rest) = split_digits(word);
    (!digits.is_empty() && rest.is_empty()).then(|| without_leading_zeros(digits))
}

/// The parts of a number as it is written.
struct Form<'a> {
    negative: bool,
    whole: &'a [u8],
    fraction: &'a [u8],
    exponent_negative: bool,
    exponent: &'a [u8],
}

impl<'a> Form<'a> {
    /// "an optional sign, then digits, or digits and a point and digits, or a point and
    /// digits. Then optionally e or E, an optional sign, digits." By document 02, Req 01,
    /// also "digits followed by a bare point, also before an exponent; a lone point stays
    /// refused".
    fn of(word: &'a [u8]) -> Option<Form<'a>> {
        let (negative, rest) = split_sign(word);
        let (whole, rest) = split_digits(rest);
        let (fraction, rest) = split_fraction(rest);
        if whole.is_empty() && fraction.is_empty() {
            return None;
        }
        let (exponent_negative, exponent) = split_exponent(rest)?;
        Some(Form { negative, whole, fraction, exponent_negative, exponent })
    }

    /// The exponent. One of more than thirty digits is held as ten to the thirtieth:
    /// no line has so many digits that it could make up for that many places.
    fn exponent(&self) -> i128 {
        let digits = without_leading_zeros(self.exponent);
        let size = if digits.len() > 30 { 10i128.pow(30) } else { plain(digits) };
        if self.exponent_negative {
            -size
        } else {
            size
        }
    }
}

/// The size of a number, its sign left aside: the point, then `digits`, moved by
/// `point` places to the right. The digits have no zero at either end; nought has none.
struct Size {
    digits: Vec<u8>,
    point: i128,
}

impl Size {
    fn of(whole: &[u8], fraction: &[u8], exponent: i128) -> Size {
        let written = [whole, fraction].concat();
        let led = without_leading_zeros(&written);
        let leading = written.len() - led.len();
        let end = led.iter().rposition(|digit| *digit != b'0').map_or(0, |last| last + 1);
        Size {
            digits: led[..end].to_vec(),
            point: whole.len() as i128 - leading as i128 + exponent,
        }
    }

    fn is_nought(&self) -> bool {
        self.digits.is_empty()
    }

    /// The greater is the one whose first digit stands higher; at the same height the
    /// strings of digits decide, byte by byte, and a longer one beats its own beginning.
    fn compare(&self, other: &Size) -> Ordering {
        match (self.is_nought(), other.is_nought()) {
            (true, true) => Ordering::Equal,
            (true, false) => Ordering::Less,
            (false, true) => Ordering::Greater,
            (false, false) => {
                self.point.cmp(&other.point).then_with(|| self.digits.cmp(&other.digits))
            }
        }
    }

    /// How many places after the point the last digit stands; at most 0 for whole numbers.
    fn finest_place(&self) -> i128 {
        if self.is_nought() {
            0
        } else {
            self.digits.len() as i128 - self.point
        }
    }

    /// The whole number that is left when the point moves `places` to the right.
    fn written_in(&self, places: i128) -> i64 {
        if self.is_nought() {
            return 0;
        }
        let zeros = (places - self.finest_place()) as usize;
        let digits = [self.digits.clone(), vec![b'0'; zeros]].concat();
        plain(&digits) as i64
    }
}

fn split_sign(word: &[u8]) -> (bool, &[u8]) {
    match word {
        [b'-', rest @ ..] => (true, rest),
        [b'+', rest @ ..] => (false, rest),
        _ => (false, word),
    }
}

/// The digits that a word begins with, and the rest.
fn split_digits(word: &[u8]) -> (&[u8], &[u8]) {
    let end = word.iter().position(|byte| !byte.is_ascii_digit()).unwrap_or(word.len());
    word.split_at(end)
}

/// The digits after a point, if there are a point and digits, and the rest.
fn split_fraction(word: &[u8]) -> (&[u8], &[u8]) {
    match word {
        [b'.', rest @ ..] => split_digits(rest),
        _ => (b"", word),
    }
}

/// The sign and digits of an exponent that ends the word; an absent one is nought.
fn split_exponent(word: &[u8]) -> Option<(bool, &[u8])> {
    match word {
        [] => Some((false, b"0")),
        [b'e' | b'E', rest @ ..] => {
            let (negative, rest) = split_sign(rest);
            let (digits, rest) = split_digits(rest);
            (!digits.is_empty() && rest.is_empty()).then_some((negative, digits))
        }
        _ => None,
    }
}

fn without_leading_zeros(digits: &[u8]) -> &[u8] {
    let first = digits.iter().position(|digit| *digit != b'0').unwrap_or(digits.len());
    &digits[first..]
}

/// The number that at most thirty-seven digits write.
fn plain(digits: &[u8]) -> i128 {
    digits.iter().fold(0, |sum, digit| sum * 10 + i128::from(digit - b'0'))
}

#[cfg(test)]
mod tests {
    use super::Value::{Beyond, Finer, NotANumber, Units};
    use super::*;

    fn sample(word: &str) -> Value {
        value(word.as_bytes(), &TEN_MILLIONTHS)
    }

    fn bound(word: &str) -> Value {
        value(word.as_bytes(), &THOUSANDTHS)
    }

    #[test]
    fn forms_that_are_no_number() {
        let words = [
            "", "+", "-", ".", "+.", "-.", ".e1", "-.e1", "+.E2", "e1", "1e", "1e+", "1e-", "1.e",
            "1.e+", "1.x", "1.-", "1..", "..1", "1e1.", "1e1.5", "1e1e1", "--1", "+-1", "1-",
            "1+1", "1..5", "1.5.", "1,5", "0x1", "1f", "1d5", "inf", "nan", "1_0", "1e ", " 1",
            "1 ", "\t1", "1#", "\"1\"", "1e1-", "1e--1", "1E+-1", "+e", "5.e1.",
        ];
        for word in words {
            assert_eq!(sample(word), NotANumber, "{word:?}");
            assert_eq!(bound(word), NotANumber, "{word:?}");
        }
    }

    #[test]
    fn the_three_forms_with_and_without_exponent() {
        for word in ["5", "5.0", "05", "+5", "5e0", "5E0", "50e-1", ".5e1", "0.5E+1", "0000.05e2"] {
            assert_eq!(sample(word), Units(50_000_000), "{word}");
            assert_eq!(bound(word), Units(5_000), "{word}");
        }
        assert_eq!(sample("-.5"), Units(-5_000_000));
        assert_eq!(bound("-.5e-0"), Units(-500));
    }

    #[test]
    fn a_bare_point_changes_no_value() {
        for word in ["1", "0", "-5", "+12e3", "7E-2", "007", "-0e-99", "1000", "-10", "1001e0"] {
            let at = word.find(['e', 'E']).unwrap_or(word.len());
            let with_point = format!("{}.{}", &word[..at], &word[at..]);
            assert_eq!(sample(&with_point), sample(word), "{with_point}");
            assert_eq!(bound(&with_point), bound(word), "{with_point}");
        }
        assert_eq!(sample("5."), Units(50_000_000));
        assert_eq!(sample("+12.e1"), Units(1_200_000_000));
        assert_eq!(sample("7.E-2"), Units(700_000));
        assert_eq!(bound("2."), Units(2_000));
        assert_eq!(sample("1001."), Beyond);
        assert_eq!(sample("1.e-8"), Finer);
    }

    #[test]
    fn nought_in_every_dress() {
        for word in ["0", "-0", "+0", ".0", "0.", "-0.000", "0e999", "0.0E-999", "00000e+00001"] {
            assert_eq!(sample(word), Units(0), "{word}");
        }
        assert_eq!(sample(&format!("0e{}", "9".repeat(200))), Units(0));
        assert_eq!(sample(&format!("0e-{}", "9".repeat(200))), Units(0));
        assert_eq!(sample(&format!("-0.{}", "0".repeat(200))), Units(0));
    }

    #[test]
    fn limits_are_kept_exactly() {
        assert_eq!(sample("1000"), Units(10_000_000_000));
        assert_eq!(sample("-1000.0000000"), Units(-10_000_000_000));
        assert_eq!(sample("1000.0000001"), Beyond);
        assert_eq!(sample("-1000.00000001"), Beyond);
        assert_eq!(sample("999.9999999"), Units(9_999_999_999));
        assert_eq!(sample("999.99999999"), Finer);
        assert_eq!(bound("10"), Units(10_000));
        assert_eq!(bound("-10.001"), Beyond);
        assert_eq!(bound("10.0001"), Beyond);
        assert_eq!(bound("9.9991"), Finer);
    }

    #[test]
    fn units_are_kept_exactly() {
        assert_eq!(sample("1e-7"), Units(1));
        assert_eq!(sample("1e-8"), Finer);
        assert_eq!(sample("10e-8"), Units(1));
        assert_eq!(sample("15e-8"), Finer);
        assert_eq!(sample("-0.0000001"), Units(-1));
        assert_eq!(sample("0.00000010"), Units(1));
        assert_eq!(bound("0.001"), Units(1));
        assert_eq!(bound("0.0001"), Finer);
        assert_eq!(bound("0.0010"), Units(1));
    }

    #[test]
    fn long_exponents_neither_wrap_nor_stop() {
        for nines in [18, 19, 20, 30, 31, 37, 38, 39, 40, 200, 246] {
            let nines = "9".repeat(nines);
            assert_eq!(sample(&format!("1e{nines}")), Beyond);
            assert_eq!(sample(&format!("-1E+{nines}")), Beyond);
            assert_eq!(sample(&format!("1e-{nines}")), Finer);
        }
        // 2 to the 64th and near it, which a wrapping sum would take for a small number.
        for exponent in ["18446744073709551616", "4294967296", "9223372036854775808"] {
            assert_eq!(sample(&format!("1e{exponent}")), Beyond);
            assert_eq!(sample(&format!("1e-{exponent}")), Finer);
        }
        assert_eq!(sample(&format!("1e{}1", "0".repeat(240))), Units(100_000_000));
    }

    #[test]
    fn digits_and_exponents_make_up_for_one_another() {
        let zeros = "0".repeat(100);
        assert_eq!(sample(&format!("1{zeros}e-100")), Units(10_000_000));
        assert_eq!(sample(&format!("1{zeros}e-97")), Units(10_000_000_000));
        assert_eq!(sample(&format!("1{zeros}e-96")), Beyond);
        assert_eq!(sample(&format!("1{zeros}e-107")), Units(1));
        assert_eq!(sample(&format!("1{zeros}e-108")), Finer);
        assert_eq!(sample(&format!("0.{zeros}1e101")), Units(10_000_000));
        assert_eq!(sample(&format!("0.{zeros}1e104")), Units(10_000_000_000));
        assert_eq!(sample(&format!("0.{zeros}1e105")), Beyond);
        assert_eq!(sample(&format!("0.{zeros}1e93")), Finer);
        assert_eq!(sample(&format!("-{zeros}.5")), Units(-5_000_000));
    }

    #[test]
    fn whole_digits_alone() {
        assert_eq!(whole_digits(b"0002"), Some(&b"2"[..]));
        assert_eq!(whole_digits(b"000"), Some(&b""[..]));
        for word in [&b""[..], b"+2", b"-2", b"2.0", b"2.", b"2e0", b"2x"] {
            assert_eq!(whole_digits(word), None);
        }
    }
}
