//! The bytes of a .cube file from a description, a table and a title: judged, put into a list, and
//! copied to the output if they fit.

use crate::picture::Refused;
use crate::{Description, Kind};

/// Writes the text to the first bytes of `out` and gives its length, or writes nothing.
pub fn write(
    description: &Description,
    table: &[i64],
    title: Option<&[u8]>,
    out: &mut [u8],
) -> Result<usize, Refused> {
    let samples = description.samples_of(table).ok_or(24u32)?;
    let plain = |byte: &u8| matches!(byte, 0x20..=0x7E) && *byte != b'"';
    if title.is_some_and(|title| title.len() > 242 || !title.iter().all(plain)) {
        return Err(27);
    }
    // no text is longer: 333 bytes, and 39 for each row
    let mut text = Vec::with_capacity(333 + 13 * samples.len());
    put_head(&mut text, description, title);
    for row in samples.chunks_exact(3) {
        put_three(&mut text, [row[0], row[1], row[2]], 7);
    }
    out.get_mut(..text.len()).ok_or(13u32)?.copy_from_slice(&text);
    Ok(text.len())
}

fn put_head(text: &mut Vec<u8>, description: &Description, title: Option<&[u8]>) {
    if let Some(title) = title {
        text.extend_from_slice(b"TITLE \"");
        text.extend_from_slice(title);
        text.extend_from_slice(b"\"\n");
    }
    text.extend_from_slice(match description.kind {
        Kind::OneD => b"LUT_1D_SIZE ",
        Kind::ThreeD => b"LUT_3D_SIZE ",
    });
    put_number(text, description.n as i64, 0);
    text.push(b'\n');
    let [red, green, blue] = description.domains;
    for (side, keyword) in [b"DOMAIN_MIN ", b"DOMAIN_MAX "].into_iter().enumerate() {
        text.extend_from_slice(keyword);
        put_three(text, [red[side], green[side], blue[side]], 3);
    }
}

/// Three numbers, and the end of their line.
#[inline]
fn put_three(text: &mut Vec<u8>, [red, green, blue]: [i64; 3], places: usize) {
    put_number(text, red, places);
    text.push(b' ');
    put_number(text, green, places);
    text.push(b' ');
    put_number(text, blue, places);
    text.push(b'\n');
}

/// So many units of ten to the power of minus `places`, in the fewest characters. The digits are
/// found from the last to the first, and zeros at the end of the decimals are not put.
#[inline]
fn put_number(text: &mut Vec<u8>, units: i64, mut places: usize) {
    let mut word = [0; 20];
    let mut first = word.len();
    let mut put = |byte: u8| {
        first -= 1;
        word[first] = byte;
    };
    let mut left = units.unsigned_abs();
    while places > 0 && left % 10 == 0 {
        left /= 10;
        places -= 1;
    }
    if places > 0 {
        for _ in 0..places {
            put(b'0' + (left % 10) as u8);
            left /= 10;
        }
        put(b'.');
    }
    loop {
        put(b'0' + (left % 10) as u8);
        left /= 10;
        if left == 0 {
            break;
        }
    }
    if units < 0 {
        put(b'-');
    }
    text.extend_from_slice(&word[first..]);
}
