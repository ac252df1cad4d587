//! Rows and weights for the second half of a look: those that the first half finds, others that it
//! accepts, and others that are wrong in one way or in several; weights at the ends of 64 bits, and
//! sums that are right only where they wrap; and anything in the places that 3D does not use.

use super::draws::Draws;
use super::lookups::{aim_at, lent_and_bits, some_m, some_pixel, Lent, EXTREMES};
use super::CodesCase;
use crate::halves::{denominator, rows, used};
use crate::look::Cube;
use crate::paper::{greatest_code, Bits, Kind};

/// Six rows and weights.
struct Six {
    rows: [u32; 6],
    weights: [i64; 6],
}

/// What rows and weights have to keep.
struct Frame {
    kind: Kind,
    /// How many rows there are.
    count: u32,
    /// What a colour's weights add up to.
    dens: [i64; 3],
    /// The same at the depth of corrected codes.
    corrected_dens: [i64; 3],
}

type Change = fn(&mut Six, &Frame, &mut Draws);

/// Each clause of 26 at its edge and far from it; the ends of 64 bits break two.
const CHANGES: &[(&str, Change)] = &[
    ("a row that is the count", row_at_count),
    ("a row beyond the count", row_beyond),
    ("a row beyond the count, without weight", row_beyond_without_weight),
    ("a negative weight, the sum kept", negative_weight),
    ("a sum about the denominator", sum_beside),
    ("another denominator", other_denominator),
    ("a sum that is right in 32 bits", sum_right_in_32_bits),
    ("a sum that is right in 64 bits", sum_right_in_64_bits),
    ("a weight at an end", weight_at_an_end),
    ("weights at an end", weights_at_an_end),
];

pub fn codes(draws: &mut Draws) -> CodesCase {
    let (mut lent, bits, mut made) = lent_and_bits(draws);
    let frame = frame(&lent, bits);
    let mut six = match &frame {
        Some(frame) if draws.one_in(2) => some_right(draws, frame),
        _ => by_rule(draws, &lent, bits),
    };
    if frame.is_some() && draws.one_in(3) {
        aim_at(draws, &mut lent, bits, &six.rows, &six.weights);
    }
    // what no description asks for may be anything
    let frame = frame.unwrap_or(Frame {
        kind: Kind::OneD,
        count: 2,
        dens: [255_000; 3],
        corrected_dens: [255_000; 3],
    });
    let changes = draws.pick(&[0, 0, 0, 1, 1, 1, 1, 2]);
    for _ in 0..changes {
        let (name, change) = draws.pick(CHANGES);
        change(&mut six, &frame, draws);
        made.push(name);
    }
    if frame.kind == Kind::ThreeD && draws.one_in(2) {
        fill_unused(&mut six, draws);
    }
    let Lent { description, table } = lent;
    CodesCase { description, table, bits, rows: six.rows, weights: six.weights, made }
}

/// None where reading could not have given the description and the table.
fn frame(lent: &Lent, bits: Bits) -> Option<Frame> {
    let cube = Cube::of(&lent.description, &lent.table)?;
    let dens = |m: u16| [0, 1, 2].map(|colour| denominator(&cube, m, colour) as i64);
    Some(Frame {
        kind: cube.kind,
        count: cube.kind.rows(cube.n) as u32,
        dens: dens(some_m(bits)),
        corrected_dens: dens(greatest_code(bits.corrected).unwrap_or(255)),
    })
}

/// What the first half finds, by some known depth.
fn by_rule(draws: &mut Draws, lent: &Lent, bits: Bits) -> Six {
    let raw = greatest_code(bits.raw).map_or(8, |_| bits.raw);
    let pixel = some_pixel(draws, &lent.description, some_m(bits));
    let found = rows(&lent.description, &lent.table, raw, pixel);
    Six { rows: found.rows, weights: found.weights }
}

/// Any rows of the table, and weights that add up.
fn some_right(draws: &mut Draws, frame: &Frame) -> Six {
    let last = frame.count - 1;
    let some_row = |draws: &mut Draws| match draws.below(6) {
        0 => 0,
        1 => last,
        _ => draws.below(frame.count as usize) as u32,
    };
    let mut six = Six { rows: [0; 6], weights: [0; 6] };
    let one = some_row(draws);
    let alike = draws.one_in(6);
    for colour in 0..3 {
        for at in used(frame.kind, colour) {
            six.rows[at] = if alike { one } else { some_row(draws) };
        }
        put_weights(&mut six, frame, colour, draws);
    }
    six
}

/// Parts a colour's denominator among its places, often so that one has all of it.
fn put_weights(six: &mut Six, frame: &Frame, colour: usize, draws: &mut Draws) {
    let places = used(frame.kind, colour);
    let den = frame.dens[colour];
    six.weights[places.clone()].fill(0);
    let mut left = den;
    let mut order: Vec<usize> = places.collect();
    draws.shuffle(&mut order);
    if let Some((last, others)) = order.split_last() {
        for at in others {
            let any = draws.between(0, left);
            let part = draws.pick(&[0, left, left / 2, any]);
            six.weights[*at] = part;
            left -= part;
        }
        six.weights[*last] = left;
    }
}

/// A colour, and two unlike places of its.
fn some_places(frame: &Frame, draws: &mut Draws) -> (usize, usize, usize) {
    let colour = draws.below(3);
    let mut places: Vec<usize> = used(frame.kind, colour).collect();
    draws.shuffle(&mut places);
    (colour, places[0], places[1])
}

// Making rows and weights wrong.

fn row_at_count(six: &mut Six, frame: &Frame, draws: &mut Draws) {
    let (_, at, _) = some_places(frame, draws);
    six.rows[at] = frame.count;
}

/// In 32 bits the numbers of the last two would begin among the first places of the table.
fn row_beyond(six: &mut Six, frame: &Frame, draws: &mut Draws) {
    let (_, at, _) = some_places(frame, draws);
    let beyond = [1 << 16, 1 << 24, 1 << 31, u32::MAX, 0x5555_5556, 0xAAAA_AAAB];
    six.rows[at] = draws.pick(&beyond).max(frame.count + 1);
}

/// Another place takes its weight over.
fn row_beyond_without_weight(six: &mut Six, frame: &Frame, draws: &mut Draws) {
    let (_, at, other) = some_places(frame, draws);
    six.weights[other] = six.weights[other].saturating_add(six.weights[at]);
    six.weights[at] = 0;
    six.rows[at] = draws.pick(&[frame.count, u32::MAX]);
}

fn negative_weight(six: &mut Six, frame: &Frame, draws: &mut Draws) {
    let (colour, at, other) = some_places(frame, draws);
    let den = frame.dens[colour];
    six.weights[used(frame.kind, colour)].fill(0);
    let any = draws.between(1, den);
    let size = draws.pick(&[1, den, i64::MAX - den, any]);
    six.weights[at] = -size;
    six.weights[other] = den + size;
}

/// One below or above, or a little further away.
fn sum_beside(six: &mut Six, frame: &Frame, draws: &mut Draws) {
    let (colour, at, other) = some_places(frame, draws);
    let by = draws.pick(&[-1, -1, 1, 1, 2, -frame.dens[colour], frame.dens[colour]]);
    // what can be taken from, if something has to be
    let at = if six.weights[at] >= -by { at } else { other };
    six.weights[at] = six.weights[at].saturating_add(by);
}

/// Weights that add up to what another colour, depth or unit asks for.
fn other_denominator(six: &mut Six, frame: &Frame, draws: &mut Draws) {
    let colour = draws.below(3);
    let dens = frame.dens;
    let mut wrong = dens;
    wrong[colour] = draws.pick(&[
        dens[(colour + 1) % 3],
        frame.corrected_dens[colour],
        dens[colour] / 1_000,
        dens[colour] * 1_000,
        0,
    ]);
    let frame = Frame { kind: frame.kind, dens: wrong, ..*frame };
    put_weights(six, &frame, colour, draws);
}

fn sum_right_in_32_bits(six: &mut Six, frame: &Frame, draws: &mut Draws) {
    let (_, at, _) = some_places(frame, draws);
    six.weights[at] = six.weights[at].saturating_add(1 << 32);
}

/// In 1D two weights reach 2^64 only below 0; in 3D none has to be negative.
fn sum_right_in_64_bits(six: &mut Six, frame: &Frame, draws: &mut Draws) {
    let colour = draws.below(3);
    let den = frame.dens[colour];
    let mut weights = match frame.kind {
        Kind::OneD => vec![i64::MIN, i64::MIN + den],
        Kind::ThreeD => vec![i64::MAX, i64::MAX, 2, den],
    };
    draws.shuffle(&mut weights);
    six.weights[used(frame.kind, colour)].copy_from_slice(&weights);
}

fn weight_at_an_end(six: &mut Six, frame: &Frame, draws: &mut Draws) {
    let (_, at, _) = some_places(frame, draws);
    six.weights[at] = draws.pick(&[i64::MIN, i64::MAX, i64::MIN, i64::MAX, i64::MIN + 1]);
}

fn weights_at_an_end(six: &mut Six, frame: &Frame, draws: &mut Draws) {
    let end = draws.pick(&[i64::MIN, i64::MAX]);
    for colour in 0..3 {
        six.weights[used(frame.kind, colour)].fill(end);
    }
}

/// The places that 3D does not use.
fn fill_unused(six: &mut Six, draws: &mut Draws) {
    for at in 4..6 {
        let (row, weight) = (draws.number() as u32, draws.number() as i64);
        six.rows[at] = draws.pick(&[0, 1, u32::MAX, row]);
        six.weights[at] = if draws.one_in(2) { draws.pick(EXTREMES) } else { weight };
    }
}
