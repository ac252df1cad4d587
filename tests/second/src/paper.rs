//! Document 01's numbers, units and ranges, each once.

/// "Answers by number", and document 02's 19, 26, 27 and 28. It says 13 of a table and of bytes.
pub mod number {
    pub const ACCEPTED: u32 = 0;
    pub const LINE_TOO_LONG: u32 = 1;
    pub const BYTE_NOT_PERMITTED: u32 = 2;
    pub const NEITHER_DATA_NOR_KEYWORD: u32 = 3;
    pub const KEYWORD_AFTER_DATA: u32 = 4;
    pub const KEYWORD_REPEATED: u32 = 5;
    pub const PARAMETERS_WRONG: u32 = 6;
    pub const N_OUT_OF_RANGE: u32 = 7;
    pub const DOMAIN_NUMBER: u32 = 8;
    pub const NO_SIZE: u32 = 9;
    pub const LOWER_NOT_BELOW_UPPER: u32 = 10;
    pub const DOMAIN_TOO_WIDE: u32 = 11;
    pub const DOMAINS_DIFFER: u32 = 12;
    pub const TOO_LITTLE_ROOM: u32 = 13;
    pub const MORE_LINES_THAN_ROWS: u32 = 14;
    pub const NOT_THREE_NUMBERS: u32 = 15;
    pub const SAMPLE_BEYOND: u32 = 16;
    pub const SAMPLE_TOO_FINE: u32 = 17;
    pub const TOO_FEW_ROWS: u32 = 18;
    pub const HALF_A_DOMAIN: u32 = 19;
    pub const DEPTH_UNKNOWN: u32 = 20;
    pub const PICTURE_LENGTH: u32 = 21;
    pub const OUTPUT_SHORT: u32 = 22;
    pub const CODE_ABOVE_M: u32 = 23;
    pub const NOT_FROM_READING: u32 = 24;
    pub const ROWS_OR_WEIGHTS_WRONG: u32 = 26;
    pub const TITLE_NOT_PLAIN: u32 = 27;
    pub const NONE_WITHIN_TOLERANCE: u32 = 28;
    pub const INPUT_TOO_LONG: u32 = 30;
}

/// "A line has at most 250 bytes."
pub const LONGEST_LINE: usize = 250;

/// "27 for a title over 242 bytes" (document 02, Req 02).
pub const LONGEST_TITLE: usize = 242;

/// "Domain bounds lie from -10 to 10", in thousandths.
pub const GREATEST_BOUND: i64 = 10_000;

/// "upper less lower at most 10", in thousandths.
pub const GREATEST_WIDTH: i64 = 10_000;

/// "Samples lie from -1000 to 1000", in ten-millionths.
pub const GREATEST_SAMPLE: i64 = 10_000_000_000;

/// Ten-millionths to a whole.
pub const SAMPLE_UNITS: i64 = 10_000_000;

/// Thousandths to a whole.
pub const BOUND_UNITS: i64 = 1_000;

/// How many digits after the point a ten-millionth and a thousandth have.
pub const SAMPLE_PLACES: usize = 7;
pub const BOUND_PLACES: usize = 3;

/// "Absent: 0 0 0 and 1 1 1."
pub const DEFAULT_LOWER: [i64; 3] = [0; 3];
pub const DEFAULT_UPPER: [i64; 3] = [BOUND_UNITS; 3];

/// "The report program reads standard input into 65,536 bytes and has 8,190 table places."
pub const REPORT_BYTES: usize = 65_536;
pub const REPORT_PLACES: usize = 8_190;

/// "Four depths are known, with greatest code M."
pub const DEPTHS: [(u32, u16); 4] = [(8, 255), (10, 1023), (12, 4095), (16, 65535)];

/// M of a depth, or none if the depth is unknown.
pub fn greatest_code(bits: u32) -> Option<u16> {
    DEPTHS.iter().find(|(known, _)| *known == bits).map(|(_, m)| *m)
}

/// "two depths, one for raw and one for corrected codes" (document 02, Req 06).
#[derive(Clone, Copy, PartialEq, Eq, Debug)]
pub struct Depths<T> {
    pub raw: T,
    pub corrected: T,
}

/// Depths in bits, known or not.
pub type Bits = Depths<u32>;

/// M of each of two known depths.
pub type Greatest = Depths<u16>;

impl Bits {
    pub fn same(bits: u32) -> Bits {
        Bits { raw: bits, corrected: bits }
    }

    /// None for 20: "20 is tried for the raw depth, then the corrected".
    pub fn greatest(self) -> Option<Greatest> {
        Some(Greatest { raw: greatest_code(self.raw)?, corrected: greatest_code(self.corrected)? })
    }
}

/// "1D or 3D".
#[derive(Clone, Copy, PartialEq, Eq, Debug)]
pub enum Kind {
    OneD,
    ThreeD,
}

impl Kind {
    /// Place 0 of the eleven numbers.
    pub fn mark(self) -> i64 {
        match self {
            Kind::OneD => 1,
            Kind::ThreeD => 3,
        }
    }

    /// The kind of a mark; "anything else is a description that reading could not have given".
    pub fn of_mark(mark: i64) -> Option<Kind> {
        [Kind::OneD, Kind::ThreeD].into_iter().find(|kind| kind.mark() == mark)
    }

    /// The keyword before N.
    pub fn size_word(self) -> &'static str {
        match self {
            Kind::OneD => "LUT_1D_SIZE",
            Kind::ThreeD => "LUT_3D_SIZE",
        }
    }

    /// "LUT_1D_SIZE, N from 2 to 65536; LUT_3D_SIZE, N from 2 to 256."
    pub fn has_n(self, n: i64) -> bool {
        2 <= n && n <= self.greatest_n()
    }

    pub fn greatest_n(self) -> i64 {
        match self {
            Kind::OneD => 65_536,
            Kind::ThreeD => 256,
        }
    }

    /// "A 1D table has N rows. A 3D table has N·N·N." For N in range only.
    pub fn rows(self, n: i64) -> usize {
        let n = n as usize;
        match self {
            Kind::OneD => n,
            Kind::ThreeD => n * n * n,
        }
    }
}

/// A description as the eleven numbers that cross the C boundary.
pub type Description = [i64; 11];

/// The places of a description.
pub mod place {
    pub const KIND: usize = 0;
    pub const N: usize = 1;
    pub const LOWER: usize = 2;
    pub const UPPER: usize = 5;
    pub const TITLE: usize = 8;
    pub const TITLE_PLACE: usize = 9;
    pub const TITLE_LENGTH: usize = 10;
}

/// "a description of zeros, kind 1D, with no title"
pub const REFUSED_DESCRIPTION: Description = [1, 0, 0, 0, 0, 0, 0, 0, 0, 0, 0];

/// Red, green and blue of a description, beginning at the given place.
pub fn colours(description: &Description, first: usize) -> [i64; 3] {
    [description[first], description[first + 1], description[first + 2]]
}

/// 10: "a lower bound not below its upper bound".
pub fn some_lower_not_below(lower: &[i64; 3], upper: &[i64; 3]) -> bool {
    (0..3).any(|c| lower[c] >= upper[c])
}

/// 11: "a domain wider than 10". Wide sums, as the bounds may be any numbers.
pub fn some_too_wide(lower: &[i64; 3], upper: &[i64; 3]) -> bool {
    (0..3).any(|c| i128::from(upper[c]) - i128::from(lower[c]) > i128::from(GREATEST_WIDTH))
}

/// "3D with domains that differ between colours": by any bound, whatever the widths.
pub fn differ_in_3d(kind: Kind, lower: &[i64; 3], upper: &[i64; 3]) -> bool {
    let alike = |bounds: &[i64; 3]| bounds[0] == bounds[1] && bounds[1] == bounds[2];
    kind == Kind::ThreeD && !(alike(lower) && alike(upper))
}

/// Of six bounds, the lower ones first, which are no whole numbers.
pub fn not_whole(lower: &[i64; 3], upper: &[i64; 3]) -> [bool; 6] {
    [0, 1, 2, 3, 4, 5].map(|at| [lower, upper][at / 3][at % 3] % BOUND_UNITS != 0)
}

/// 12: "only where domains differ and some bound isn't whole" (document 02, Req 07).
pub fn differ_and_not_whole(kind: Kind, lower: &[i64; 3], upper: &[i64; 3]) -> bool {
    differ_in_3d(kind, lower, upper) && not_whole(lower, upper).contains(&true)
}
