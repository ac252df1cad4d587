//! The proved library's four calls that are measured.

use baseline::inverse::{Aim, Found};
use baseline::picture::Bits;

mod c {
    extern "C" {
        pub fn erythmoda_read(
            file: *const u8,
            file_len: usize,
            table: *mut i64,
            table_len: usize,
            description: *mut i64,
            line: *mut u64,
        ) -> u32;
        pub fn erythmoda_picture(
            description: *const i64,
            table: *const i64,
            table_len: usize,
            raw_bits: u32,
            corrected_bits: u32,
            src: *const u16,
            src_len: usize,
            dst: *mut u16,
            dst_len: usize,
        ) -> u32;
        pub fn erythmoda_inverse(
            description: *const i64,
            table: *const i64,
            table_len: usize,
            raw_bits: u32,
            corrected_bits: u32,
            colour: u32,
            wanted: u16,
            tolerance: u32,
            code: *mut u16,
            count: *mut u64,
        ) -> u32;
        pub fn erythmoda_write(
            description: *const i64,
            table: *const i64,
            table_len: usize,
            title: *const u8,
            title_len: usize,
            out: *mut u8,
            out_len: usize,
            length: *mut u64,
        ) -> u32;
    }
}

pub fn read(file: &[u8], table: &mut [i64]) -> u32 {
    let (mut description, mut line) = ([0i64; 11], 0u64);
    // SAFETY: each pointer is to as many places as are told.
    unsafe {
        c::erythmoda_read(
            file.as_ptr(),
            file.len(),
            table.as_mut_ptr(),
            table.len(),
            description.as_mut_ptr(),
            &mut line,
        )
    }
}

pub fn picture(
    description: &[i64; 11],
    table: &[i64],
    bits: Bits,
    src: &[u16],
    dst: &mut [u16],
) -> u32 {
    // SAFETY: each pointer is to as many places as are told.
    unsafe {
        c::erythmoda_picture(
            description.as_ptr(),
            table.as_ptr(),
            table.len(),
            bits.raw,
            bits.corrected,
            src.as_ptr(),
            src.len(),
            dst.as_mut_ptr(),
            dst.len(),
        )
    }
}

/// The raw code and the count, or none where the inverse is refused.
pub fn inverse(description: &[i64; 11], table: &[i64], bits: Bits, aim: Aim) -> Option<Found> {
    let (mut code, mut count) = (0, 0);
    // SAFETY: each pointer is to as many places as are told.
    let number = unsafe {
        c::erythmoda_inverse(
            description.as_ptr(),
            table.as_ptr(),
            table.len(),
            bits.raw,
            bits.corrected,
            aim.colour as u32,
            aim.wanted,
            aim.tolerance,
            &mut code,
            &mut count,
        )
    };
    (number == 0).then_some(Found { code, count })
}

/// Writes without a title; the length of the text, or none where it is refused.
pub fn write(description: &[i64; 11], table: &[i64], out: &mut [u8]) -> Option<usize> {
    let (title, mut length) = ([0], 0);
    // SAFETY: each pointer is to as many places as are told.
    let number = unsafe {
        c::erythmoda_write(
            description.as_ptr(),
            table.as_ptr(),
            table.len(),
            title.as_ptr(),
            0,
            out.as_mut_ptr(),
            out.len(),
            &mut length,
        )
    };
    (number == 0).then_some(length as usize)
}
