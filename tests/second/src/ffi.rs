//! The proved program over the C boundary, as include/erythmoda.h declares it.
//!
//! Every buffer is lent from the middle of a larger one, and what stands around it is
//! compared afterwards; so is what was lent for reading only.

use crate::gen::{CodesCase, FileCase, InverseCase, LookCase, PictureCase, WriteCase};
use crate::halves::{Codes, Rows};
use crate::inverse::Inverse;
use crate::look::Look;
use crate::reading::Check;
use crate::side::{byte_pattern, code_pattern, pattern};
use crate::side::{PictureAnswer, ReadAnswer, Side, WriteAnswer};
use std::fmt::Debug;

extern "C" {
    fn erythmoda_read(
        file: *const u8,
        file_len: usize,
        table: *mut i64,
        table_len: usize,
        description: *mut i64,
        line: *mut u64,
    ) -> u32;
    fn erythmoda_check(
        file: *const u8,
        file_len: usize,
        description: *mut i64,
        line: *mut u64,
        places: *mut u64,
    ) -> u32;
    fn erythmoda_look(
        description: *const i64,
        table: *const i64,
        table_len: usize,
        raw_bits: u32,
        corrected_bits: u32,
        pixel: *const u16,
        codes: *mut u16,
        rows: *mut u32,
        weights: *mut i64,
    ) -> u32;
    fn erythmoda_rows(
        description: *const i64,
        table: *const i64,
        table_len: usize,
        raw_bits: u32,
        pixel: *const u16,
        rows: *mut u32,
        weights: *mut i64,
    ) -> u32;
    fn erythmoda_codes(
        description: *const i64,
        table: *const i64,
        table_len: usize,
        raw_bits: u32,
        corrected_bits: u32,
        rows: *const u32,
        weights: *const i64,
        codes: *mut u16,
    ) -> u32;
    fn erythmoda_picture(
        description: *const i64,
        table: *const i64,
        table_len: usize,
        raw_bits: u32,
        corrected_bits: u32,
        src: *const u16,
        src_len: usize,
        dst: *mut u16,
        dst_len: usize,
    ) -> u32;
    fn erythmoda_inverse(
        description: *const i64,
        table: *const i64,
        table_len: usize,
        raw_bits: u32,
        corrected_bits: u32,
        colour: u32,
        wanted: u16,
        tolerance: u32,
        code: *mut u16,
        count: *mut u64,
    ) -> u32;
    fn erythmoda_write(
        description: *const i64,
        table: *const i64,
        table_len: usize,
        title: *const u8,
        title_len: usize,
        out: *mut u8,
        out_len: usize,
        length: *mut u64,
    ) -> u32;
}

/// Places kept on either side of what is lent.
const GUARD: usize = 16;

/// Numbers to lend, with guarded places before and after them.
struct Lent<T> {
    places: Vec<T>,
    before: Vec<T>,
    length: usize,
}

impl<T: Copy + PartialEq + Debug> Lent<T> {
    fn new(numbers: impl ExactSizeIterator<Item = T>, guard: T) -> Lent<T> {
        let length = numbers.len();
        let mut places = vec![guard; GUARD];
        places.extend(numbers);
        places.extend([guard; GUARD]);
        Lent { before: places.clone(), places, length }
    }

    fn of(numbers: &[T], guard: T) -> Lent<T> {
        Lent::new(numbers.iter().copied(), guard)
    }

    fn pointer(&mut self) -> *mut T {
        self.places[GUARD..].as_mut_ptr()
    }

    fn now(&self) -> &[T] {
        &self.places[GUARD..GUARD + self.length]
    }

    /// Nothing around what was lent has changed.
    fn guarded(&self, name: &str) -> Result<(), String> {
        let end = GUARD + self.length;
        let kept = self.places[..GUARD] == self.before[..GUARD]
            && self.places[end..] == self.before[end..];
        kept.then_some(()).ok_or(format!("places around {name} were changed"))
    }

    /// Nothing at all has changed.
    fn unchanged(&self, name: &str) -> Result<(), String> {
        let kept = self.places == self.before;
        kept.then_some(()).ok_or(format!("{name}, lent for reading, was changed"))
    }
}

/// The proved program.
pub struct Ours;

impl Side for Ours {
    fn read(&self, case: &FileCase) -> Result<ReadAnswer, String> {
        let mut file = Lent::of(&case.file, 0x0A);
        let mut table = Lent::new((0..case.table_len).map(pattern), -1);
        let mut description = Lent::new((0..11).map(pattern), -2);
        let mut line = Lent::of(&[0xDEAD_BEEF_u64], 3);
        // SAFETY: each pointer is to as many places as are told.
        let number = unsafe {
            erythmoda_read(
                file.pointer(),
                case.file.len(),
                table.pointer(),
                case.table_len,
                description.pointer(),
                line.pointer(),
            )
        };
        file.unchanged("the file")?;
        table.guarded("the table")?;
        description.guarded("the description")?;
        line.guarded("the line")?;
        let mut eleven = [0; 11];
        eleven.copy_from_slice(description.now());
        Ok(ReadAnswer {
            number,
            line: line.now()[0],
            description: eleven,
            table: table.now().to_vec(),
        })
    }

    fn check(&self, case: &FileCase) -> Result<Check, String> {
        let mut file = Lent::of(&case.file, 0x0A);
        let mut description = Lent::new((0..11).map(pattern), -2);
        let mut line = Lent::of(&[0xDEAD_BEEF_u64], 3);
        let mut places = Lent::of(&[0xFEED_FACE_u64], 4);
        // SAFETY: each pointer is to as many places as are told, or as the boundary fixes.
        let number = unsafe {
            erythmoda_check(
                file.pointer(),
                case.file.len(),
                description.pointer(),
                line.pointer(),
                places.pointer(),
            )
        };
        file.unchanged("the file")?;
        description.guarded("the description")?;
        line.guarded("the line")?;
        places.guarded("the places")?;
        let mut eleven = [0; 11];
        eleven.copy_from_slice(description.now());
        let (line, places) = (line.now()[0], places.now()[0]);
        Ok(Check { number, line, description: eleven, places })
    }

    fn look(&self, case: &LookCase) -> Result<Look, String> {
        let mut description = Lent::of(&case.description, -1);
        let mut table = Lent::of(&case.table, -2);
        let mut pixel = Lent::of(&case.pixel, 0xFFFF);
        let mut codes = Lent::new((0..3).map(code_pattern), 0x5A5A);
        let mut rows = Lent::of(&[0xDEAD_BEEF_u32; 6], 7);
        let mut weights = Lent::new((0..6).map(pattern), -3);
        // SAFETY: each pointer is to as many places as are told, or as the boundary fixes.
        let number = unsafe {
            erythmoda_look(
                description.pointer(),
                table.pointer(),
                case.table.len(),
                case.bits.raw,
                case.bits.corrected,
                pixel.pointer(),
                codes.pointer(),
                rows.pointer(),
                weights.pointer(),
            )
        };
        description.unchanged("the description")?;
        table.unchanged("the table")?;
        pixel.unchanged("the pixel")?;
        codes.guarded("the codes")?;
        rows.guarded("the rows")?;
        weights.guarded("the weights")?;
        let mut look = Look { number, codes: [0; 3], rows: [0; 6], weights: [0; 6] };
        look.codes.copy_from_slice(codes.now());
        look.rows.copy_from_slice(rows.now());
        look.weights.copy_from_slice(weights.now());
        Ok(look)
    }

    fn rows(&self, case: &LookCase) -> Result<Rows, String> {
        let mut description = Lent::of(&case.description, -1);
        let mut table = Lent::of(&case.table, -2);
        let mut pixel = Lent::of(&case.pixel, 0xFFFF);
        let mut rows = Lent::of(&[0xDEAD_BEEF_u32; 6], 7);
        let mut weights = Lent::new((0..6).map(pattern), -3);
        // SAFETY: each pointer is to as many places as are told, or as the boundary fixes.
        let number = unsafe {
            erythmoda_rows(
                description.pointer(),
                table.pointer(),
                case.table.len(),
                case.bits.raw,
                pixel.pointer(),
                rows.pointer(),
                weights.pointer(),
            )
        };
        description.unchanged("the description")?;
        table.unchanged("the table")?;
        pixel.unchanged("the pixel")?;
        rows.guarded("the rows")?;
        weights.guarded("the weights")?;
        let mut found = Rows { number, rows: [0; 6], weights: [0; 6] };
        found.rows.copy_from_slice(rows.now());
        found.weights.copy_from_slice(weights.now());
        Ok(found)
    }

    fn codes(&self, case: &CodesCase) -> Result<Codes, String> {
        let mut description = Lent::of(&case.description, -1);
        let mut table = Lent::of(&case.table, -2);
        let mut rows = Lent::of(&case.rows, u32::MAX);
        let mut weights = Lent::of(&case.weights, -3);
        let mut codes = Lent::new((0..3).map(code_pattern), 0x5A5A);
        // SAFETY: each pointer is to as many places as are told, or as the boundary fixes.
        let number = unsafe {
            erythmoda_codes(
                description.pointer(),
                table.pointer(),
                case.table.len(),
                case.bits.raw,
                case.bits.corrected,
                rows.pointer(),
                weights.pointer(),
                codes.pointer(),
            )
        };
        description.unchanged("the description")?;
        table.unchanged("the table")?;
        rows.unchanged("the rows")?;
        weights.unchanged("the weights")?;
        codes.guarded("the codes")?;
        let mut given = Codes { number, codes: [0; 3] };
        given.codes.copy_from_slice(codes.now());
        Ok(given)
    }

    fn inverse(&self, case: &InverseCase) -> Result<Inverse, String> {
        let mut description = Lent::of(&case.description, -1);
        let mut table = Lent::of(&case.table, -2);
        let mut code = Lent::new((0..1).map(code_pattern), 0x5A5A);
        let mut count = Lent::of(&[0xDEAD_BEEF_u64], 5);
        // SAFETY: each pointer is to as many places as are told, or as the boundary fixes.
        let number = unsafe {
            erythmoda_inverse(
                description.pointer(),
                table.pointer(),
                case.table.len(),
                case.bits.raw,
                case.bits.corrected,
                case.aim.colour,
                case.aim.wanted,
                case.aim.tolerance,
                code.pointer(),
                count.pointer(),
            )
        };
        description.unchanged("the description")?;
        table.unchanged("the table")?;
        code.guarded("the code")?;
        count.guarded("the count")?;
        Ok(Inverse { number, code: code.now()[0], count: count.now()[0] })
    }

    fn picture(&self, case: &PictureCase) -> Result<PictureAnswer, String> {
        let mut description = Lent::of(&case.description, -1);
        let mut table = Lent::of(&case.table, -2);
        let mut source = Lent::of(&case.source, 0xFFFF);
        let mut output = Lent::new((0..case.output_len).map(code_pattern), 0x5A5A);
        // SAFETY: each pointer is to as many places as are told.
        let number = unsafe {
            erythmoda_picture(
                description.pointer(),
                table.pointer(),
                case.table.len(),
                case.bits.raw,
                case.bits.corrected,
                source.pointer(),
                case.source.len(),
                output.pointer(),
                case.output_len,
            )
        };
        description.unchanged("the description")?;
        table.unchanged("the table")?;
        source.unchanged("the source")?;
        output.guarded("the output")?;
        Ok(PictureAnswer { number, output: output.now().to_vec() })
    }

    fn write(&self, case: &WriteCase) -> Result<WriteAnswer, String> {
        let mut description = Lent::of(&case.description, -1);
        let mut table = Lent::of(&case.table, -2);
        // a quote around it, for which a title that is read too far is refused
        let mut title = Lent::of(&case.title, b'"');
        let mut out = Lent::new((0..case.out_len).map(byte_pattern), 0x5A);
        let mut length = Lent::of(&[0xDEAD_BEEF_u64], 5);
        // SAFETY: each pointer is to as many places as are told, or as the boundary fixes.
        let number = unsafe {
            erythmoda_write(
                description.pointer(),
                table.pointer(),
                case.table.len(),
                title.pointer(),
                case.title.len(),
                out.pointer(),
                case.out_len,
                length.pointer(),
            )
        };
        description.unchanged("the description")?;
        table.unchanged("the table")?;
        title.unchanged("the title")?;
        out.guarded("the output")?;
        length.guarded("the length")?;
        Ok(WriteAnswer { number, length: length.now()[0], out: out.now().to_vec() })
    }
}
