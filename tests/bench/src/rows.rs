//! The rows of the files that are read: how their numbers are written, and what stands between them
//! and behind them.

use crate::Draws;
use std::fmt::Write;

pub struct Rows {
    pub name: &'static str,
    number: fn(&mut String, &mut Draws),
    between: &'static str,
    end: &'static str,
}

pub const SEVEN_DECIMALS: Rows =
    Rows { name: "seven decimals", number: seven_decimals, between: " ", end: "\n" };

/// The same file in other writings.
pub const OTHERS: [Rows; 7] = [
    Rows { name: "six decimals", number: six_decimals, ..SEVEN_DECIMALS },
    Rows { name: "signs", number: signed, ..SEVEN_DECIMALS },
    Rows { name: "0 to 7 decimals", number: some_decimals, ..SEVEN_DECIMALS },
    Rows { name: "exponents", number: with_exponent, ..SEVEN_DECIMALS },
    Rows { name: "tabs", between: "\t", ..SEVEN_DECIMALS },
    Rows { name: "two spaces", between: "  ", ..SEVEN_DECIMALS },
    Rows { name: "a trailing space", end: " \n", ..SEVEN_DECIMALS },
];

impl Rows {
    /// Puts one more row to a file.
    pub fn put(&self, file: &mut String, draws: &mut Draws) {
        for behind in [self.between, self.between, self.end] {
            (self.number)(file, draws);
            file.push_str(behind);
        }
    }
}

fn seven_decimals(file: &mut String, draws: &mut Draws) {
    let _ = write!(file, "0.{:07}", draws.below(10_000_000));
}

fn six_decimals(file: &mut String, draws: &mut Draws) {
    let _ = write!(file, "0.{:06}", draws.below(1_000_000));
}

/// From -1.5 to 1.5, six decimals.
fn signed(file: &mut String, draws: &mut Draws) {
    let millionths = draws.below(3_000_001) as i64 - 1_500_000;
    let sign = if millionths < 0 { "-" } else { "" };
    let size = millionths.abs();
    let _ = write!(file, "{sign}{}.{:06}", size / 1_000_000, size % 1_000_000);
}

/// As many decimals as are drawn; with none there is no point.
fn some_decimals(file: &mut String, draws: &mut Draws) {
    let decimals = draws.below(8) as usize;
    let _ = match decimals {
        0 => write!(file, "{}", draws.below(2)),
        _ => write!(file, "0.{:0decimals$}", draws.below(10u64.pow(decimals as u32))),
    };
}

/// From 1.000e-03 to 9.999e+00.
fn with_exponent(file: &mut String, draws: &mut Draws) {
    let (first, decimals) = (1 + draws.below(9), draws.below(1000));
    let exponent = ["e+00", "e-01", "e-02", "e-03"][draws.below(4) as usize];
    let _ = write!(file, "{first}.{decimals:03}{exponent}");
}
