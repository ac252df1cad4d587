//! A run of pixels: judged once, then corrected pixel by pixel.

use crate::{Description, Kind};

/// One in ten-millionths, the unit of samples.
const ONE: u64 = 10_000_000;

/// Document 01's number where the picture is refused.
pub type Refused = u32;

/// The depths of raw and of corrected codes, in bits.
#[derive(Clone, Copy, PartialEq, Eq, Debug)]
pub struct Bits {
    pub raw: u32,
    pub corrected: u32,
}

/// Corrects `src` into `dst`, or writes nothing.
pub fn picture(
    description: &Description,
    table: &[i64],
    bits: Bits,
    src: &[u16],
    dst: &mut [u16],
) -> Result<(), Refused> {
    let greatest = judge(description, table, bits, src, dst.len())?;
    let axes = axes(description, greatest);
    if bits.raw == bits.corrected {
        correct::<false>(description, &axes, table, src, dst);
    } else {
        correct::<true>(description, &axes, table, src, dst);
    }
    Ok(())
}

/// Corrects every pixel. SCALED says whether the two depths differ, so that equal ones are not
/// multiplied by 1.
fn correct<const SCALED: bool>(
    description: &Description,
    axes: &[Axis; 3],
    table: &[i64],
    src: &[u16],
    dst: &mut [u16],
) {
    let pixels = src.chunks_exact(3).zip(dst.chunks_exact_mut(3));
    let n = description.n;
    match (description.kind, description.is_mixed()) {
        (Kind::OneD, _) => {
            pixels.for_each(|(pixel, out)| linear::<SCALED>(axes, table, pixel, out))
        }
        (Kind::ThreeD, false) => {
            pixels.for_each(|(pixel, out)| tetrahedral::<SCALED, false>(axes, n, table, pixel, out))
        }
        (Kind::ThreeD, true) => {
            pixels.for_each(|(pixel, out)| tetrahedral::<SCALED, true>(axes, n, table, pixel, out))
        }
    }
}

/// The greatest raw and the greatest corrected code, if nothing is to be refused.
fn judge(
    description: &Description,
    table: &[i64],
    bits: Bits,
    src: &[u16],
    places: usize,
) -> Result<[u16; 2], Refused> {
    description.samples_of(table).ok_or(24u32)?;
    let [raw, corrected] = [greatest_code(bits.raw)?, greatest_code(bits.corrected)?];
    if src.len() % 3 != 0 {
        return Err(21);
    }
    if places < src.len() {
        return Err(22);
    }
    if src.iter().any(|code| *code > raw) {
        return Err(23);
    }
    Ok([raw, corrected])
}

pub(crate) fn greatest_code(bits: u32) -> Result<u16, Refused> {
    match bits {
        8 => Ok(255),
        10 => Ok(1023),
        12 => Ok(4095),
        16 => Ok(65535),
        _ => Err(20),
    }
}

/// All that one colour's codes need, worked out once. Bounds are in thousandths, or in whole units
/// where the domains are mixed.
pub(crate) struct Axis {
    /// The lower bound times M.
    start: i64,
    /// The D of the colour's own domain.
    own: u64,
    /// N - 1.
    cells: u64,
    /// How often the own D goes into the common one of mixed domains.
    factor: u64,
    /// D, what the weights add up to.
    den: u64,
    /// The sum of a value of one: no greater one has another code.
    ceiling: i64,
    /// The corrected M over the raw M in lowest terms: what is above; with equal depths it is 1.
    times: u64,
    /// What makes one corrected code of a sum that was multiplied by it.
    one_code: u64,
}

pub(crate) fn axes(description: &Description, greatest: [u16; 2]) -> [Axis; 3] {
    let [raw, corrected] = greatest.map(u64::from);
    let divisor = common_divisor(raw, corrected);
    let mixed = description.is_mixed();
    let unit = if mixed { 1000 } else { 1 };
    let bounds = description.domains.map(|[lower, upper]| [lower / unit, upper / unit]);
    let widths = bounds.map(|[lower, upper]| (upper - lower) as u64);
    [0, 1, 2].map(|colour| {
        let width = widths[colour];
        let span = if mixed { widths.iter().product() } else { width };
        Axis {
            start: bounds[colour][0] * raw as i64,
            own: raw * width,
            cells: description.n as u64 - 1,
            factor: span / width,
            den: raw * span,
            ceiling: (raw * span * ONE) as i64,
            times: corrected / divisor,
            one_code: raw / divisor * span * ONE,
        }
    })
}

fn common_divisor(one: u64, other: u64) -> u64 {
    if other == 0 {
        one
    } else {
        common_divisor(other, one % other)
    }
}

impl Axis {
    /// The cell and the fraction over D of a code. MIXED says whether the domains are, so that those
    /// of one D are not multiplied by 1.
    #[inline]
    fn place<const MIXED: bool>(&self, code: u16) -> (usize, u64) {
        let parts = if MIXED { 1 } else { 1000 };
        let along = (parts * i64::from(code) - self.start).clamp(0, self.own as i64) as u64;
        let scaled = along * self.cells;
        let cell = (scaled / self.own).min(self.cells - 1);
        let fraction = scaled - cell * self.own;
        (cell as usize, if MIXED { self.factor * fraction } else { fraction })
    }

    /// The nearest code of a weighed sum, the greater of two equally near. Moved to 0 or the
    /// ceiling first, the sum is small enough to be multiplied.
    #[inline]
    fn code<const SCALED: bool>(&self, sum: i64) -> u16 {
        let sum = sum.clamp(0, self.ceiling) as u64;
        let scaled = if SCALED { self.times * sum } else { sum };
        ((scaled + self.one_code / 2) / self.one_code) as u16
    }

    /// What one colour's code is corrected to in a 1D table.
    #[inline]
    pub(crate) fn corrected<const SCALED: bool>(
        &self,
        table: &[i64],
        colour: usize,
        code: u16,
    ) -> u16 {
        let (row, fraction) = self.place::<false>(code);
        let (low, high) = (table[3 * row + colour], table[3 * row + 3 + colour]);
        let sum = (self.den - fraction) as i64 * low + fraction as i64 * high;
        self.code::<SCALED>(sum)
    }
}

#[inline]
fn linear<const SCALED: bool>(axes: &[Axis; 3], table: &[i64], pixel: &[u16], out: &mut [u16]) {
    for (colour, axis) in axes.iter().enumerate() {
        out[colour] = axis.corrected::<SCALED>(table, colour, pixel[colour]);
    }
}

#[inline]
fn tetrahedral<const SCALED: bool, const MIXED: bool>(
    axes: &[Axis; 3],
    n: usize,
    table: &[i64],
    pixel: &[u16],
    out: &mut [u16],
) {
    let (red, f_red) = axes[0].place::<MIXED>(pixel[0]);
    let (green, f_green) = axes[1].place::<MIXED>(pixel[1]);
    let (blue, f_blue) = axes[2].place::<MIXED>(pixel[2]);
    // greatest fraction first, equal ones red, green, blue
    let mut steps = [(f_red, 1), (f_green, n), (f_blue, n * n)];
    if steps[0].0 < steps[1].0 {
        steps.swap(0, 1);
    }
    if steps[1].0 < steps[2].0 {
        steps.swap(1, 2);
    }
    if steps[0].0 < steps[1].0 {
        steps.swap(0, 1);
    }
    let [(f1, step1), (f2, step2), (f3, step3)] = steps;
    let row = red + n * green + n * n * blue;
    let rows = [row, row + step1, row + step1 + step2, row + step1 + step2 + step3];
    let weights = [axes[0].den - f1, f1 - f2, f2 - f3, f3].map(|weight| weight as i64);
    // row by row: a `map` over the four is a call of its own where this function has several shapes
    let samples_of = |row: usize| &table[3 * row..3 * row + 3];
    let samples =
        [samples_of(rows[0]), samples_of(rows[1]), samples_of(rows[2]), samples_of(rows[3])];
    for colour in 0..3 {
        let sum = (0..4).map(|corner| weights[corner] * samples[corner][colour]).sum();
        out[colour] = axes[colour].code::<SCALED>(sum);
    }
}
