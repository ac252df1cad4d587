//! Picture: a run of pixels to corrected codes.

use crate::look::Cube;
use crate::paper::{number, Bits, Description, Greatest};

/// The number, and the output afterwards. "Look and picture check 24, 20, 21, 22, 23 in
/// that order." "23 goes by the raw M." "A refused picture writes nothing. An accepted one
/// writes as many codes as it read and no further; length 0 is accepted."
pub fn picture(
    description: &Description,
    table: &[i64],
    bits: Bits,
    source: &[u16],
    output: &mut [u16],
) -> u32 {
    let Some(cube) = Cube::of(description, table) else {
        return number::NOT_FROM_READING;
    };
    let Some(m) = bits.greatest() else {
        return number::DEPTH_UNKNOWN;
    };
    if source.len() % 3 != 0 {
        return number::PICTURE_LENGTH;
    }
    if output.len() < source.len() {
        return number::OUTPUT_SHORT;
    }
    if source.iter().any(|code| *code > m.raw) {
        return number::CODE_ABOVE_M;
    }
    correct_all(&cube, m, source, output);
    number::ACCEPTED
}

/// "A picture's codes are those of look, pixel by pixel."
fn correct_all(cube: &Cube, m: Greatest, source: &[u16], output: &mut [u16]) {
    for (pixel, corrected) in source.chunks_exact(3).zip(output.chunks_exact_mut(3)) {
        let look = cube.correct(m, [pixel[0], pixel[1], pixel[2]]);
        corrected.copy_from_slice(&look.codes);
    }
}
