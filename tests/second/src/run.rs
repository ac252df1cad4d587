//! A whole stream of cases: each is made, put to one side or two, and counted.

use crate::gen::{
    codes_case, file_case, inverse_case, look_case, picture_case, rows_case, write_case,
};
use crate::gen::{CodesCase, FileCase, InverseCase, LookCase, PictureCase, WriteCase};
use crate::halves::{denominator, used, Codes, Rows};
use crate::inverse::{colour, Aim, Inverse};
use crate::look::{look, Cube, Look};
use crate::met::inverses::{inverses_met, INVERSES_GROUPS};
use crate::met::pictures::{pictures_met, PICTURES_GROUPS};
use crate::met::plain::{plain_met, PLAIN_GROUPS};
use crate::met::shares::{codes_met, rows_met, CODES_GROUPS, ROWS_GROUPS};
use crate::met::writes::{writes_met, GROUPS};
use crate::met::{bound_of_12_met, bound_of_24_met, domains_met};
use crate::met::{depth_refusals_met, halves_met, met, order_met, pair_met, points_met};
use crate::met::{inverses, pictures, plain, shares, writes};
use crate::met::{is_mixed, mixed_met, shapes_met, widths_met};
use crate::met::{BOUNDS, DEPTH_REFUSALS, DEPTH_REFUSALS_OF_LOOK, DIVIDED, DOMAINS, HALVES};
use crate::met::{JUDGED, MIXED, NAMES, ORDERS, PAIRS, POINTS, SHAPES, WIDTHS};
use crate::paper::{number, place, Bits, Description};
use crate::picture::picture;
use crate::reading::Check;
use crate::show::{list, quoted, shortened, where_not_zero};
use crate::side::{byte_pattern, pattern};
use crate::side::{PictureAnswer, ReadAnswer, Second, Side, WriteAnswer};
use crate::small::{smaller_codes, smaller_file, smaller_inverse, smaller_look};
use crate::small::{smaller_picture, smaller_write};
use crate::writing::{is_marked, longest_text};
use std::collections::BTreeMap;
use std::fmt::Write;

/// How many cases of each call.
#[derive(Clone, Copy, Default, Debug)]
pub struct Wanted {
    pub seed: u64,
    pub tables: u64,
    pub looks: u64,
    pub pictures: u64,
    pub writes: u64,
    /// Of each half of a look.
    pub halves: u64,
    pub inverses: u64,
}

/// The numbers that each call can answer.
pub const READ_NUMBERS: std::ops::RangeInclusive<u32> = number::ACCEPTED..=number::HALF_A_DOMAIN;
/// Check answers those of reading but this one.
const NEVER_BY_CHECK: u32 = number::TOO_LITTLE_ROOM;
const LOOK_NUMBERS: [u32; 4] =
    [number::ACCEPTED, number::DEPTH_UNKNOWN, number::CODE_ABOVE_M, number::NOT_FROM_READING];
const PICTURE_NUMBERS: [u32; 6] = [
    number::ACCEPTED,
    number::DEPTH_UNKNOWN,
    number::PICTURE_LENGTH,
    number::OUTPUT_SHORT,
    number::CODE_ABOVE_M,
    number::NOT_FROM_READING,
];
const ROWS_NUMBERS: [u32; 4] = LOOK_NUMBERS;
const CODES_NUMBERS: [u32; 4] = [
    number::ACCEPTED,
    number::DEPTH_UNKNOWN,
    number::NOT_FROM_READING,
    number::ROWS_OR_WEIGHTS_WRONG,
];
const INVERSE_NUMBERS: [u32; 5] = [
    number::ACCEPTED,
    number::DEPTH_UNKNOWN,
    number::CODE_ABOVE_M,
    number::NOT_FROM_READING,
    number::NONE_WITHIN_TOLERANCE,
];
const WRITE_NUMBERS: [u32; 4] =
    [number::ACCEPTED, number::TOO_LITTLE_ROOM, number::NOT_FROM_READING, number::TITLE_NOT_PLAIN];

/// How often each call answered each number, and what the cases of each met.
#[derive(Default)]
pub struct Counts {
    read: BTreeMap<u32, u64>,
    check: BTreeMap<u32, u64>,
    look: BTreeMap<u32, u64>,
    picture: BTreeMap<u32, u64>,
    write: BTreeMap<u32, u64>,
    rows: BTreeMap<u32, u64>,
    codes: BTreeMap<u32, u64>,
    inverse: BTreeMap<u32, u64>,
    points: [u64; POINTS.len()],
    halves: [[u64; HALVES.len()]; JUDGED.len()],
    domains: [u64; DOMAINS.len()],
    bound_of_12: [u64; BOUNDS.len()],
    plain: [[u64; plain::MOST_NAMES]; PLAIN_GROUPS.len()],
    accepted: Accepted,
    accepted_mixed: Accepted,
    mixed: [u64; MIXED.len()],
    shapes: [u64; SHAPES.len()],
    widths: [u64; WIDTHS.len()],
    looks: ByDepths,
    looks_by_domains: ByDomains,
    pictures: ByDepths,
    pictures_by_domains: ByDomains,
    pictures_by_length: [[u64; pictures::MOST_NAMES]; PICTURES_GROUPS.len()],
    writes: [[u64; writes::MOST_NAMES]; GROUPS.len()],
    first_halves: [[u64; shares::MOST_NAMES]; ROWS_GROUPS.len()],
    second_halves: [[u64; shares::MOST_NAMES]; CODES_GROUPS.len()],
    inverses: [[u64; inverses::MOST_NAMES]; INVERSES_GROUPS.len()],
}

/// What accepted looks met, of all domains or of mixed ones.
#[derive(Default)]
struct Accepted {
    met: [u64; NAMES.len()],
    orders: [u64; ORDERS.len()],
    divided: [[u64; PAIRS.len()]; DIVIDED],
}

/// What a call's two depths came to.
#[derive(Default)]
struct ByDepths {
    accepted: [u64; PAIRS.len()],
    refused: [u64; DEPTH_REFUSALS.len()],
}

/// What a call's mixed domains came to: at which depths they were accepted, and by which bound
/// they were refused.
#[derive(Default)]
struct ByDomains {
    accepted: [u64; PAIRS.len()],
    bound_of_24: [u64; BOUNDS.len()],
}

/// What was met: a title, names, and how often each of them.
type Met<'a> = (String, &'static [&'static str], &'a [u64]);

impl Counts {
    /// One line for each call that was made, number and count parted by colons, with what it met
    /// below it.
    pub fn shown(&self) -> String {
        let calls = [
            ("read", &self.read, self.files_met()),
            ("check", &self.check, Vec::new()),
            ("look", &self.look, self.looks_met()),
            ("picture", &self.picture, self.pictures_met()),
            ("write", &self.write, grouped(&GROUPS, &self.writes)),
            ("rows", &self.rows, grouped(&ROWS_GROUPS, &self.first_halves)),
            ("codes", &self.codes, grouped(&CODES_GROUPS, &self.second_halves)),
            ("inverse", &self.inverse, grouped(&INVERSES_GROUPS, &self.inverses)),
        ];
        let made = calls.into_iter().filter(|(_, counts, _)| !counts.is_empty());
        made.map(|(name, counts, met)| {
            let shown: Vec<String> = counts.iter().map(|(n, many)| format!("{n}:{many}")).collect();
            let lines: String = met.iter().map(met_line).collect();
            format!("{name}\t{}\n{lines}", list(&shown, " "))
        })
        .collect()
    }

    fn files_met(&self) -> Vec<Met<'_>> {
        let mut met: Vec<Met> = vec![("files met".to_string(), &POINTS, &self.points)];
        for (judged, counts) in JUDGED.iter().zip(&self.halves) {
            met.push((format!("files met {judged}"), &HALVES, counts));
        }
        met.push(("files met in 3D".to_string(), &DOMAINS, &self.domains));
        met.push(("files refused with 12 by one bound".to_string(), &BOUNDS, &self.bound_of_12));
        met.extend(grouped(&PLAIN_GROUPS, &self.plain));
        met
    }

    fn looks_met(&self) -> Vec<Met<'_>> {
        let mut met = self.accepted.met("");
        met.extend(self.accepted_mixed.met(" with mixed domains"));
        met.push(("looks met by mixed domains".to_string(), &MIXED, &self.mixed));
        met.push(("looks met with mixed domains that have".to_string(), &SHAPES, &self.shapes));
        met.push(("looks met with mixed domains of width".to_string(), &WIDTHS, &self.widths));
        met.extend(self.looks.met("looks", &DEPTH_REFUSALS[..DEPTH_REFUSALS_OF_LOOK]));
        met.extend(self.looks_by_domains.met("looks"));
        met
    }

    fn pictures_met(&self) -> Vec<Met<'_>> {
        let mut met = self.pictures.met("pictures", &DEPTH_REFUSALS).to_vec();
        met.extend(self.pictures_by_domains.met("pictures"));
        met.extend(grouped(&PICTURES_GROUPS, &self.pictures_by_length));
        met
    }

    fn note_file(&mut self, case: &FileCase, answer: &ReadAnswer) {
        *self.read.entry(answer.number).or_default() += 1;
        add_met(&mut self.points, &points_met(case, answer));
        for (counts, met) in self.halves.iter_mut().zip(halves_met(case, answer)) {
            add_met(counts, &met);
        }
        add_met(&mut self.domains, &domains_met(case, answer));
        add_met(&mut self.bound_of_12, &bound_of_12_met(case, answer));
        for (counts, met) in self.plain.iter_mut().zip(plain_met(case, answer)) {
            add_met(counts, &met);
        }
    }

    fn note_look(&mut self, case: &LookCase, answer: &Look) {
        *self.look.entry(answer.number).or_default() += 1;
        let (description, table) = (&case.description, &case.table);
        self.looks_by_domains.note(description, table, case.bits, &case.pixel, answer.number);
        self.looks.note(case.bits, &case.pixel, answer.number, |bits| {
            look(&case.description, &case.table, bits, case.pixel).number
        });
        if answer.number == number::ACCEPTED {
            self.accepted.note(case, answer);
            if is_mixed(&case.description) {
                self.accepted_mixed.note(case, answer);
                add_met(&mut self.mixed, &mixed_met(case, answer));
                add_met(&mut self.shapes, &shapes_met(&case.description));
                add_met(&mut self.widths, &widths_met(&case.description));
            }
        }
    }

    fn note_picture(&mut self, case: &PictureCase, number: u32) {
        *self.picture.entry(number).or_default() += 1;
        let (description, table) = (&case.description, &case.table);
        self.pictures_by_domains.note(description, table, case.bits, &case.source, number);
        self.pictures.note(case.bits, &case.source, number, |bits| {
            let output = &mut vec![0; case.output_len];
            picture(&case.description, &case.table, bits, &case.source, output)
        });
        for (counts, met) in self.pictures_by_length.iter_mut().zip(pictures_met(case, number)) {
            add_met(counts, &met);
        }
    }

    fn note_write(&mut self, case: &WriteCase, answer: &WriteAnswer) {
        *self.write.entry(answer.number).or_default() += 1;
        for (counts, met) in self.writes.iter_mut().zip(writes_met(case, answer)) {
            add_met(counts, &met);
        }
    }

    fn note_rows(&mut self, case: &LookCase, answer: &Rows) {
        *self.rows.entry(answer.number).or_default() += 1;
        for (counts, met) in self.first_halves.iter_mut().zip(rows_met(case, answer)) {
            add_met(counts, &met);
        }
    }

    fn note_codes(&mut self, case: &CodesCase, answer: &Codes) {
        *self.codes.entry(answer.number).or_default() += 1;
        for (counts, met) in self.second_halves.iter_mut().zip(codes_met(case, answer)) {
            add_met(counts, &met);
        }
    }

    fn note_inverse(&mut self, case: &InverseCase, answer: &Inverse) {
        *self.inverse.entry(answer.number).or_default() += 1;
        for (counts, met) in self.inverses.iter_mut().zip(inverses_met(case, answer)) {
            add_met(counts, &met);
        }
    }

    /// The numbers never seen on a call that was asked for, and what none of its cases met.
    pub fn missing(&self, wanted: &Wanted) -> Vec<String> {
        let of_check: Vec<u32> = READ_NUMBERS.filter(|n| *n != NEVER_BY_CHECK).collect();
        let of_read: Vec<u32> = READ_NUMBERS.collect();
        let calls = [
            ("read", wanted.tables, &self.read, &of_read[..], self.files_met()),
            ("check", wanted.tables, &self.check, &of_check, Vec::new()),
            ("look", wanted.looks, &self.look, &LOOK_NUMBERS, self.looks_met()),
            ("picture", wanted.pictures, &self.picture, &PICTURE_NUMBERS, self.pictures_met()),
            ("write", wanted.writes, &self.write, &WRITE_NUMBERS, grouped(&GROUPS, &self.writes)),
            (
                "rows",
                wanted.halves,
                &self.rows,
                &ROWS_NUMBERS,
                grouped(&ROWS_GROUPS, &self.first_halves),
            ),
            (
                "codes",
                wanted.halves,
                &self.codes,
                &CODES_NUMBERS,
                grouped(&CODES_GROUPS, &self.second_halves),
            ),
            (
                "inverse",
                wanted.inverses,
                &self.inverse,
                &INVERSE_NUMBERS,
                grouped(&INVERSES_GROUPS, &self.inverses),
            ),
        ];
        let mut missing = Vec::new();
        for (name, _, counts, numbers, met) in calls.iter().filter(|(_, asked, ..)| *asked > 0) {
            let unseen = numbers.iter().filter(|n| !counts.contains_key(n));
            missing.extend(unseen.map(|n| format!("{name} {n}")));
            missing.extend(met.iter().flat_map(unmet));
        }
        missing
    }
}

impl Accepted {
    fn note(&mut self, case: &LookCase, look: &Look) {
        let met = met(case, look);
        add_met(&mut self.met, &met);
        add_met(&mut self.orders, &order_met(case, look));
        for (counts, _) in self.divided.iter_mut().zip(met).filter(|(_, on)| *on) {
            add_met(counts, &pair_met(case.bits));
        }
    }

    /// What these looks met, behind titles that say of which domains they are.
    fn met(&self, domains: &str) -> Vec<Met<'_>> {
        let mut met: Vec<Met> = vec![
            (format!("looks met{domains}"), &NAMES, &self.met),
            (format!("looks met in 3D{domains}"), &ORDERS, &self.orders),
        ];
        for (name, counts) in NAMES.iter().zip(&self.divided) {
            met.push((format!("looks met {name}{domains}"), &PAIRS, counts));
        }
        met
    }
}

impl ByDepths {
    /// Adds a call with these depths and codes that answered the number. An accepted picture
    /// without a pixel shows nothing.
    fn note(&mut self, bits: Bits, codes: &[u16], number: u32, answer: impl FnOnce(Bits) -> u32) {
        if number == number::ACCEPTED && !codes.is_empty() {
            add_met(&mut self.accepted, &pair_met(bits));
        }
        add_met(&mut self.refused, &depth_refusals_met(bits, codes, number, answer));
    }

    fn met(&self, calls: &str, refusals: &'static [&'static str]) -> [Met<'_>; 2] {
        let accepted = (format!("{calls} accepted"), &PAIRS[..], &self.accepted[..]);
        [accepted, (format!("{calls} refused"), refusals, &self.refused)]
    }
}

impl ByDomains {
    /// Adds a call that answered the number.
    fn note(
        &mut self,
        description: &Description,
        table: &[i64],
        bits: Bits,
        codes: &[u16],
        number: u32,
    ) {
        if number == number::ACCEPTED && !codes.is_empty() && is_mixed(description) {
            add_met(&mut self.accepted, &pair_met(bits));
        }
        add_met(&mut self.bound_of_24, &bound_of_24_met(description, table, number));
    }

    fn met(&self, calls: &str) -> [Met<'_>; 2] {
        let accepted = format!("{calls} accepted with mixed domains");
        let refused = format!("{calls} refused with 24 by one bound");
        [(accepted, &PAIRS, &self.accepted), (refused, &BOUNDS, &self.bound_of_24)]
    }
}

/// What was met of groups of names, each behind its title.
fn grouped<'a, const MOST: usize>(
    groups: &[(&str, &'static [&'static str])],
    counts: &'a [[u64; MOST]],
) -> Vec<Met<'a>> {
    let counted = groups.iter().zip(counts);
    counted.map(|((title, names), counts)| (title.to_string(), *names, &counts[..])).collect()
}

fn add_met(counts: &mut [u64], met: &[bool]) {
    for (many, on) in counts.iter_mut().zip(met) {
        *many += u64::from(*on);
    }
}

/// How often each of the names was met.
fn met_line((title, names, counts): &Met) -> String {
    let met: Vec<String> =
        names.iter().zip(*counts).map(|(name, many)| format!("{name} {many}")).collect();
    format!("{title}\t{}\n", list(&met, ", "))
}

/// The names that were never met.
fn unmet((title, names, counts): &Met) -> Vec<String> {
    let never = names.iter().zip(*counts).filter(|(_, many)| **many == 0);
    never.map(|(name, _)| format!("{title}: {name}")).collect()
}

/// Puts the stream to this program, and to another beside it if there is one. Stops at the
/// first difference and tells it.
pub fn run(wanted: &Wanted, other: Option<&dyn Side>) -> Result<Counts, String> {
    let mut counts = Counts::default();
    for index in 0..wanted.tables {
        let case = file_case(wanted.seed, index);
        let answer = one_file(&case, other).map_err(|d| told(index, d))?;
        counts.note_file(&case, &answer);
        let number = one_check(&case, other).map_err(|d| told(index, d))?;
        *counts.check.entry(number).or_default() += 1;
    }
    for index in 0..wanted.looks {
        let case = look_case(wanted.seed, index);
        let look = one_look(&case, other).map_err(|d| told(index, d))?;
        counts.note_look(&case, &look);
    }
    for index in 0..wanted.pictures {
        let case = picture_case(wanted.seed, index);
        let number = one_picture(&case, other).map_err(|d| told(index, d))?;
        counts.note_picture(&case, number);
    }
    for index in 0..wanted.writes {
        let case = write_case(wanted.seed, index);
        let answer = one_write(&case, other).map_err(|d| told(index, d))?;
        counts.note_write(&case, &answer);
    }
    for index in 0..wanted.halves {
        let case = rows_case(wanted.seed, index);
        let answer = one_rows(&case, other).map_err(|d| told(index, d))?;
        counts.note_rows(&case, &answer);
        let case = codes_case(wanted.seed, index);
        let answer = one_codes(&case, other).map_err(|d| told(index, d))?;
        counts.note_codes(&case, &answer);
    }
    for index in 0..wanted.inverses {
        let case = inverse_case(wanted.seed, index);
        let answer = one_inverse(&case, other).map_err(|d| told(index, d))?;
        counts.note_inverse(&case, &answer);
    }
    Ok(counts)
}

fn told(index: u64, difference: String) -> String {
    format!("case {index}\n{difference}")
}

fn one_file(case: &FileCase, other: Option<&dyn Side>) -> Result<ReadAnswer, String> {
    let own = Second.read(case)?;
    match other {
        Some(side) if side.read(case).as_ref() != Ok(&own) => {
            let differs = |case: &FileCase| side.read(case) != Second.read(case);
            Err(tell_file(&smaller_file(case, differs), side))
        }
        _ => Ok(own),
    }
}

fn one_check(case: &FileCase, other: Option<&dyn Side>) -> Result<u32, String> {
    let own = checked(&Second, case)?;
    match other {
        Some(side) if checked(side, case).as_ref() != Ok(&own) => {
            let differs = |case: &FileCase| checked(side, case) != checked(&Second, case);
            Err(tell_check(&smaller_file(case, differs), side))
        }
        _ => Ok(own.number),
    }
}

/// What a side answers for a file with no table, put to what it then reads. An accepted file
/// has to be read alike into as many places as were told, and to be 13 in one place fewer. A
/// refused one has to be refused alike in the case's own table, or with 13 on no later line.
fn checked(side: &dyn Side, case: &FileCase) -> Result<Check, String> {
    let check = side.check(case)?;
    let into = |table_len: u64| {
        let read = side.read(&FileCase { table_len: table_len as usize, ..case.clone() })?;
        Ok::<_, String>((read.number, read.line, read.description))
    };
    let answer = (check.number, check.line, check.description);
    let agrees = if check.number == number::ACCEPTED {
        let (short, _, _) = into(check.places.saturating_sub(1))?;
        into(check.places)? == answer && short == number::TOO_LITTLE_ROOM
    } else {
        let (number, line, description) = into(case.table_len as u64)?;
        let short = number == number::TOO_LITTLE_ROOM && line <= check.line;
        check.places == 0 && (short || (number, line, description) == answer)
    };
    agrees.then_some(check.clone()).ok_or(format!("{check:?}, and reading answers otherwise"))
}

fn one_look(case: &LookCase, other: Option<&dyn Side>) -> Result<Look, String> {
    let own = Second.look(case)?;
    match other {
        Some(side) if side.look(case).as_ref() != Ok(&own) => {
            let differs = |case: &LookCase| side.look(case) != Second.look(case);
            Err(tell_look(&smaller_look(case, differs), side))
        }
        _ => Ok(own),
    }
}

fn one_picture(case: &PictureCase, other: Option<&dyn Side>) -> Result<u32, String> {
    let own = Second.picture(case)?;
    match other {
        Some(side) if side.picture(case).as_ref() != Ok(&own) => {
            Err(tell_picture(&smaller_picture(case, side), side))
        }
        _ => Ok(own.number),
    }
}

fn one_write(case: &WriteCase, other: Option<&dyn Side>) -> Result<WriteAnswer, String> {
    let own = written(&Second, case)?;
    match other {
        Some(side) if written(side, case).as_ref() != Ok(&own) => {
            let differs = |case: &WriteCase| written(side, case) != written(&Second, case);
            Err(tell_write(&smaller_write(case, differs), side))
        }
        _ => Ok(own),
    }
}

/// What a side answers for a write, put to what it then reads and writes. "Reading the output gives
/// the same samples and description, title places fitted to the new file, and writing what was read
/// from our own output gives the same bytes." No text is longer than the longest.
fn written(side: &dyn Side, case: &WriteCase) -> Result<WriteAnswer, String> {
    let answer = side.write(case)?;
    let text = answer.out.get(..answer.length as usize);
    let (number::ACCEPTED, Some(text), Some(Cube { samples, .. })) =
        (answer.number, text, Cube::of(&case.description, &case.table))
    else {
        // refused, or accepted by a mistake that shows without all this
        return Ok(answer);
    };
    let otherwise = |what: &str| Err(format!("{}, and {what}", tell_written(&answer)));
    let file = FileCase { file: text.to_vec(), table_len: samples.len(), made: Vec::new() };
    let read = side.read(&file)?;
    if (read.number, &read.description, &read.table[..]) != (0, &fitted(case), samples) {
        return otherwise(&format!("{read:?} is read from it"));
    }
    let first = read.description[place::TITLE_PLACE] as usize;
    let length = read.description[place::TITLE_LENGTH] as usize;
    let again = side.write(&WriteCase {
        description: read.description,
        table: read.table,
        title: text[first..first + length].to_vec(),
        out_len: text.len(),
        made: Vec::new(),
    })?;
    if (again.number, again.length, &again.out[..]) != (0, answer.length, text) {
        return otherwise("of what is read from it another text is written");
    }
    if text.len() > longest_text(samples.len() / 3) {
        return otherwise("it is longer than the longest");
    }
    Ok(answer)
}

fn one_rows(case: &LookCase, other: Option<&dyn Side>) -> Result<Rows, String> {
    let own = joined(&Second, case)?;
    match other {
        Some(side) if joined(side, case).as_ref() != Ok(&own) => {
            let differs = |case: &LookCase| joined(side, case) != joined(&Second, case);
            Err(tell_rows(&smaller_look(case, differs), side))
        }
        _ => Ok(own),
    }
}

/// What a side answers for the first half of a look, put to its second half and to its look. "With
/// known depths, joined they equal the present look and its refusals."
fn joined(side: &dyn Side, case: &LookCase) -> Result<Rows, String> {
    let found = side.rows(case)?;
    if case.bits.greatest().is_none() {
        return Ok(found);
    }
    let codes = match found.number {
        number::ACCEPTED => side.codes(&CodesCase {
            description: case.description,
            table: case.table.clone(),
            bits: case.bits,
            rows: found.rows,
            weights: found.weights,
            made: Vec::new(),
        })?,
        number => Codes { number, codes: [0; 3] },
    };
    let (rows, weights) = (found.rows, found.weights);
    let both = Look { number: codes.number, codes: codes.codes, rows, weights };
    let seen = side.look(case)?;
    match both == seen {
        true => Ok(found),
        false => Err(format!("{}, joined, and looked at {}", tell_seen(&both), tell_seen(&seen))),
    }
}

fn one_codes(case: &CodesCase, other: Option<&dyn Side>) -> Result<Codes, String> {
    let own = between(&Second, case)?;
    match other {
        Some(side) if between(side, case).as_ref() != Ok(&own) => {
            let differs = |case: &CodesCase| between(side, case) != between(&Second, case);
            Err(tell_codes(&smaller_codes(case, differs), side))
        }
        _ => Ok(own),
    }
}

/// What a side answers for the second half of a look, put to what it answers for each of the rows
/// alone. "Any weights the second half accepts give codes between those of the rows that carry
/// weight."
fn between(side: &dyn Side, case: &CodesCase) -> Result<Codes, String> {
    let answer = side.codes(case)?;
    let (number::ACCEPTED, Some(cube), Some(m)) =
        (answer.number, Cube::of(&case.description, &case.table), case.bits.greatest())
    else {
        // refused, or accepted by a mistake that shows without all this
        return Ok(answer);
    };
    let (mut least, mut greatest) = ([u16::MAX; 3], [0; 3]);
    for step in used(cube.kind, 0) {
        let mut alone = CodesCase { weights: [0; 6], ..case.clone() };
        for colour in 0..3 {
            let at = used(cube.kind, colour).start + step;
            alone.weights[at] = denominator(&cube, m.raw, colour) as i64;
        }
        let row = side.codes(&alone)?;
        for colour in 0..3 {
            if case.weights[used(cube.kind, colour).start + step] > 0 {
                least[colour] = least[colour].min(row.codes[colour]);
                greatest[colour] = greatest[colour].max(row.codes[colour]);
            }
        }
    }
    match (0..3).all(|c| (least[c]..=greatest[c]).contains(&answer.codes[c])) {
        true => Ok(answer),
        false => Err(format!("{}, not between the rows' codes", tell_given(&answer))),
    }
}

fn one_inverse(case: &InverseCase, other: Option<&dyn Side>) -> Result<Inverse, String> {
    let own = inverted(&Second, case)?;
    match other {
        Some(side) if inverted(side, case).as_ref() != Ok(&own) => {
            let differs = |case: &InverseCase| inverted(side, case) != inverted(&Second, case);
            Err(tell_inverse(&smaller_inverse(case, differs), side))
        }
        _ => Ok(own),
    }
}

/// What a side answers for an inverse, put to its look at the code that it found: how far the
/// corrected code is off has to be within the tolerance, and tells by itself what the count is, "the
/// hit plus 1, or M plus 1". Where it refuses with 28, it is asked again with the greatest tolerance:
/// the code that it then finds has to be beyond the first one.
fn inverted(side: &dyn Side, case: &InverseCase) -> Result<Inverse, String> {
    let answer = side.inverse(case)?;
    let searched = [number::ACCEPTED, number::NONE_WITHIN_TOLERANCE].contains(&answer.number);
    let (true, Some(m), Some(colour)) = (searched, case.bits.greatest(), colour(case.aim)) else {
        // refused, or accepted by a mistake that shows without all this
        return Ok(answer);
    };
    let refused = answer.number == number::NONE_WITHIN_TOLERANCE;
    let nearest = if refused {
        let aim = Aim { tolerance: u32::MAX, ..case.aim };
        side.inverse(&InverseCase { aim, ..case.clone() })?
    } else {
        answer.clone()
    };
    let seen = side.look(&LookCase {
        description: case.description,
        table: case.table.clone(),
        bits: case.bits,
        pixel: [nearest.code; 3],
        made: Vec::new(),
    })?;
    let off = u32::from(seen.codes[colour].abs_diff(case.aim.wanted));
    let count = if off == 0 { u64::from(nearest.code) + 1 } else { u64::from(m.raw) + 1 };
    let agrees = seen.number == number::ACCEPTED
        && nearest.number == number::ACCEPTED
        && (off > case.aim.tolerance) == refused
        && [answer.count, nearest.count] == [count; 2];
    match agrees {
        true => Ok(answer),
        false => Err(format!(
            "{}, nearest {}, and looked at {}",
            tell_found(&answer),
            tell_found(&nearest),
            tell_seen(&seen)
        )),
    }
}

/// The description with the title's mark, place and length that reading its text has to give: the
/// title stands after `TITLE`, a space and a quote.
fn fitted(case: &WriteCase) -> Description {
    let title = if is_marked(&case.description) { [1, 7, case.title.len() as i64] } else { [0; 3] };
    let mut description = case.description;
    description[place::TITLE..].copy_from_slice(&title);
    description
}

// Telling a difference.

fn tell_file(case: &FileCase, side: &dyn Side) -> String {
    let mut text = format!("read, made by: {}\n", case.made.join("; "));
    let _ = writeln!(text, "file:   {}", quoted(&case.file));
    let _ = writeln!(text, "table places: {}", case.table_len);
    text + &two(Second.read(case), side.read(case), |answer: &ReadAnswer| {
        let (description, table) = (list(&answer.description, " "), tell_table(&answer.table));
        format!(
            "number {} line {} description {description} table {table}",
            answer.number, answer.line
        )
    })
}

fn tell_check(case: &FileCase, side: &dyn Side) -> String {
    let mut text = format!("check, made by: {}\n", case.made.join("; "));
    let _ = writeln!(text, "file:   {}", quoted(&case.file));
    let _ = writeln!(text, "table places of a reading: {}", case.table_len);
    text + &two(checked(&Second, case), checked(side, case), |check: &Check| {
        let description = list(&check.description, " ");
        let (number, line, places) = (check.number, check.line, check.places);
        format!("number {number} line {line} description {description} places {places}")
    })
}

/// A table afterwards, with `kept` for each place that holds what it held before.
fn tell_table(table: &[i64]) -> String {
    let shown = |(place, number): (usize, &i64)| match *number == pattern(place) {
        true => "kept".to_string(),
        false => number.to_string(),
    };
    shortened(&table.iter().enumerate().map(shown).collect::<Vec<_>>())
}

fn tell_look(case: &LookCase, side: &dyn Side) -> String {
    let mut text = format!("look, made by: {}\n", case.made.join("; "));
    text += &tell_lent(&case.description, &case.table);
    let _ = writeln!(text, "bits: {}", tell_bits(case.bits));
    let _ = writeln!(text, "pixel: {}", list(&case.pixel, " "));
    text + &two(Second.look(case), side.look(case), tell_seen)
}

fn tell_seen(answer: &Look) -> String {
    let (codes, rows) = (list(&answer.codes, " "), list(&answer.rows, " "));
    let weights = list(&answer.weights, " ");
    format!("number {} codes {codes} rows {rows} weights {weights}", answer.number)
}

fn tell_rows(case: &LookCase, side: &dyn Side) -> String {
    let mut text = format!("rows, made by: {}\n", case.made.join("; "));
    text += &tell_lent(&case.description, &case.table);
    let _ = writeln!(text, "bits: {}", tell_bits(case.bits));
    let _ = writeln!(text, "pixel: {}", list(&case.pixel, " "));
    text + &two(joined(&Second, case), joined(side, case), |answer: &Rows| {
        let (rows, weights) = (list(&answer.rows, " "), list(&answer.weights, " "));
        format!("number {} rows {rows} weights {weights}", answer.number)
    })
}

fn tell_codes(case: &CodesCase, side: &dyn Side) -> String {
    let mut text = format!("codes, made by: {}\n", case.made.join("; "));
    text += &tell_lent(&case.description, &case.table);
    let _ = writeln!(text, "bits: {}", tell_bits(case.bits));
    let _ = writeln!(text, "rows: {}", list(&case.rows, " "));
    let _ = writeln!(text, "weights: {}", list(&case.weights, " "));
    text + &two(between(&Second, case), between(side, case), tell_given)
}

fn tell_given(answer: &Codes) -> String {
    format!("number {} codes {}", answer.number, list(&answer.codes, " "))
}

fn tell_inverse(case: &InverseCase, side: &dyn Side) -> String {
    let mut text = format!("inverse, made by: {}\n", case.made.join("; "));
    let Aim { colour, wanted, tolerance } = case.aim;
    text += &tell_lent(&case.description, &case.table);
    let _ = writeln!(text, "bits: {}", tell_bits(case.bits));
    let _ = writeln!(text, "colour {colour}, wanted {wanted}, tolerance {tolerance}");
    text + &two(inverted(&Second, case), inverted(side, case), tell_found)
}

fn tell_found(answer: &Inverse) -> String {
    format!("number {} code {} count {}", answer.number, answer.code, answer.count)
}

fn tell_picture(case: &PictureCase, side: &dyn Side) -> String {
    let mut text = format!("picture, made by: {}\n", case.made.join("; "));
    text += &tell_lent(&case.description, &case.table);
    let _ = writeln!(text, "bits: {}", tell_bits(case.bits));
    let source = format!("{} codes, {}", case.source.len(), where_not_zero(&case.source));
    let _ = writeln!(text, "source: {source}");
    let _ = writeln!(text, "output places: {}", case.output_len);
    let [own, other] = [Second.picture(case), side.picture(case)];
    if let (Ok(own), Ok(other)) = (&own, &other) {
        let mut pairs = own.output.iter().zip(&other.output).enumerate();
        if let Some((at, (own, other))) = pairs.find(|(_, (own, other))| own != other) {
            let _ = writeln!(text, "first unlike at place {at}: {own} and {other}");
        }
    }
    text + &two(own, other, |answer: &PictureAnswer| {
        format!("number {} output {}", answer.number, shortened(&answer.output))
    })
}

fn tell_write(case: &WriteCase, side: &dyn Side) -> String {
    let mut text = format!("write, made by: {}\n", case.made.join("; "));
    text += &tell_lent(&case.description, &case.table);
    let _ = writeln!(text, "title: {}", quoted(&case.title));
    let _ = writeln!(text, "output bytes: {}", case.out_len);
    text + &two(written(&Second, case), written(side, case), tell_written)
}

fn tell_written(answer: &WriteAnswer) -> String {
    let (text, later) = answer.out.split_at((answer.length as usize).min(answer.out.len()));
    let kept = (text.len()..).zip(later).all(|(place, byte)| *byte == byte_pattern(place));
    let later = if kept { "later bytes kept" } else { "later bytes changed" };
    format!("number {} length {} text {} {later}", answer.number, answer.length, quoted(text))
}

fn tell_lent(description: &[i64; 11], table: &[i64]) -> String {
    let description = list(description, " ");
    let table = format!("{} numbers, {}", table.len(), where_not_zero(table));
    format!("description: {description}\ntable: {table}\n")
}

fn tell_bits(bits: Bits) -> String {
    format!("{} to {}", bits.raw, bits.corrected)
}

/// The two answers one under the other.
fn two<T>(own: Result<T, String>, other: Result<T, String>, show: impl Fn(&T) -> String) -> String {
    let shown = |answer: Result<T, String>| match answer {
        Ok(answer) => show(&answer),
        Err(fault) => fault,
    };
    format!("second: {}\nours:   {}\n", shown(own), shown(other))
}

#[cfg(test)]
mod tests {
    use super::*;
    use crate::gen::pictures::{BEYOND_33_BITS, BLOCK_CODES};
    use crate::met::plain::{after_first_row, is_plain_row, After};
    use crate::paper::{greatest_code, BOUND_UNITS, LONGEST_TITLE};
    use crate::side::code_pattern;
    use crate::writing::is_plain;

    #[test]
    fn every_number_is_seen() {
        let wanted = Wanted {
            seed: 1,
            tables: 10_000,
            looks: 20_000,
            pictures: 4_000,
            writes: 10_000,
            halves: 20_000,
            inverses: 4_000,
        };
        let counts = run(&wanted, None).unwrap_or_default();
        assert_eq!(counts.missing(&wanted), Vec::<String>::new(), "{}", counts.shown());
    }

    #[test]
    fn what_is_never_met_is_missing() {
        let wanted =
            Wanted { seed: 1, tables: 1, looks: 1, pictures: 1, writes: 1, halves: 1, inverses: 1 };
        let missing = Counts::default().missing(&wanted);
        let said = |title: &str, names: &[&str]| {
            for name in names {
                assert!(missing.contains(&format!("{title}: {name}")), "{title}: {name}");
            }
        };
        for judged in JUDGED {
            said(&format!("files met {judged}"), &HALVES);
        }
        for title in ["looks accepted", "pictures accepted", "looks met two codes equally near"] {
            said(title, &PAIRS);
        }
        said("files met in 3D", &DOMAINS);
        said("files refused with 12 by one bound", &BOUNDS);
        said("looks met with mixed domains", &NAMES);
        said("looks met in 3D with mixed domains", &ORDERS);
        said("looks met a value above 1 with mixed domains", &PAIRS);
        said("looks met by mixed domains", &MIXED);
        said("looks met with mixed domains that have", &SHAPES);
        said("looks met with mixed domains of width", &WIDTHS);
        for calls in ["looks", "pictures"] {
            said(&format!("{calls} accepted with mixed domains"), &PAIRS);
            said(&format!("{calls} refused with 24 by one bound"), &BOUNDS);
        }
        said("looks refused", &DEPTH_REFUSALS[..DEPTH_REFUSALS_OF_LOOK]);
        said("pictures refused", &DEPTH_REFUSALS);
        let halves = ROWS_GROUPS.iter().chain(&CODES_GROUPS);
        let groups = GROUPS.iter().chain(halves).chain(&INVERSES_GROUPS).chain(&PLAIN_GROUPS);
        let groups = groups.chain(&PICTURES_GROUPS);
        for (title, names) in groups {
            said(title, names);
        }
        for number in ["rows 23", "codes 20", "codes 24", "codes 26", "inverse 24", "inverse 28"] {
            assert!(missing.contains(&number.to_string()), "{number}");
        }
    }

    #[test]
    fn what_is_not_asked_for_is_not_missing() {
        assert_eq!(Counts::default().missing(&Wanted::default()), Vec::<String>::new());
        assert_eq!(Counts::default().shown(), "");
    }

    #[test]
    fn a_seed_gives_the_same_stream() {
        for index in 0..200 {
            assert_eq!(file_case(9, index).file, file_case(9, index).file);
            assert_eq!(look_case(9, index).table, look_case(9, index).table);
            assert_eq!(picture_case(9, index).source, picture_case(9, index).source);
            assert_eq!(write_case(9, index).title, write_case(9, index).title);
            assert_eq!(rows_case(9, index).pixel, rows_case(9, index).pixel);
            assert_eq!(codes_case(9, index).weights, codes_case(9, index).weights);
            assert_eq!(inverse_case(9, index).aim, inverse_case(9, index).aim);
        }
        assert_ne!(file_case(9, 0).file, file_case(10, 0).file);
    }

    type Call<C, A> = Box<dyn Fn(&C) -> Result<A, String>>;

    /// A side that answers as this program does, but for the calls that a test gives it.
    struct Mistaken {
        read: Call<FileCase, ReadAnswer>,
        check: Call<FileCase, Check>,
        look: Call<LookCase, Look>,
        picture: Call<PictureCase, PictureAnswer>,
        write: Call<WriteCase, WriteAnswer>,
        rows: Call<LookCase, Rows>,
        codes: Call<CodesCase, Codes>,
        inverse: Call<InverseCase, Inverse>,
    }

    impl Default for Mistaken {
        fn default() -> Mistaken {
            Mistaken {
                read: Box::new(|case| Second.read(case)),
                check: Box::new(|case| Second.check(case)),
                look: Box::new(|case| Second.look(case)),
                picture: Box::new(|case| Second.picture(case)),
                write: Box::new(|case| Second.write(case)),
                rows: Box::new(|case| Second.rows(case)),
                codes: Box::new(|case| Second.codes(case)),
                inverse: Box::new(|case| Second.inverse(case)),
            }
        }
    }

    impl Side for Mistaken {
        fn read(&self, case: &FileCase) -> Result<ReadAnswer, String> {
            (self.read)(case)
        }

        fn check(&self, case: &FileCase) -> Result<Check, String> {
            (self.check)(case)
        }

        fn look(&self, case: &LookCase) -> Result<Look, String> {
            (self.look)(case)
        }

        fn picture(&self, case: &PictureCase) -> Result<PictureAnswer, String> {
            (self.picture)(case)
        }

        fn write(&self, case: &WriteCase) -> Result<WriteAnswer, String> {
            (self.write)(case)
        }

        fn rows(&self, case: &LookCase) -> Result<Rows, String> {
            (self.rows)(case)
        }

        fn codes(&self, case: &CodesCase) -> Result<Codes, String> {
            (self.codes)(case)
        }

        fn inverse(&self, case: &InverseCase) -> Result<Inverse, String> {
            (self.inverse)(case)
        }
    }

    /// What a stream tells of a side's mistake; nothing if it does not find it.
    fn found(wanted: Wanted, side: &Mistaken) -> String {
        run(&Wanted { seed: 1, ..wanted }, Some(side)).err().unwrap_or_default()
    }

    /// The length of the line that tells something of the case.
    fn told_length(told: &str, what: &str) -> usize {
        told.lines().find(|line| line.starts_with(what)).unwrap_or("").len()
    }

    #[test]
    fn a_difference_is_found_and_made_small() {
        // a fourth field is taken
        let four_fields = Mistaken {
            read: Box::new(|case| {
                let mut answer = Second.read(case)?;
                if answer.number == number::NOT_THREE_NUMBERS {
                    answer.number = number::ACCEPTED;
                }
                Ok(answer)
            }),
            ..Mistaken::default()
        };
        let told = found(Wanted { tables: 1_000, ..Wanted::default() }, &four_fields);
        assert!(told.contains("number 15") && told.contains("number 0"), "{told}");
        assert!(told_length(&told, "file:") < 60, "{told}");
        let last_code = Mistaken {
            picture: Box::new(|case| {
                let mut answer = Second.picture(case)?;
                if let (0, Some(last)) = (answer.number, answer.output.last_mut()) {
                    *last = 7;
                }
                Ok(answer)
            }),
            ..Mistaken::default()
        };
        let told = found(Wanted { pictures: 100, ..Wanted::default() }, &last_code);
        assert!(told.contains("picture, made by"), "{told}");
    }

    #[test]
    fn a_difference_of_check_is_found_and_made_small() {
        let one_place_fewer = Mistaken {
            check: Box::new(|case| {
                let mut check = Second.check(case)?;
                check.places = check.places.saturating_sub(1);
                Ok(check)
            }),
            ..Mistaken::default()
        };
        let told = found(Wanted { tables: 100, ..Wanted::default() }, &one_place_fewer);
        assert!(told.contains("check, made by") && told.contains("answers otherwise"), "{told}");
        assert!(told_length(&told, "file:") < 100, "{told}");
    }

    /// A side that goes by other depths than it is given.
    fn other_depths(mistake: fn(Bits) -> Bits) -> Mistaken {
        Mistaken {
            look: Box::new(move |case| {
                Second.look(&LookCase { bits: mistake(case.bits), ..case.clone() })
            }),
            picture: Box::new(move |case| {
                Second.picture(&PictureCase { bits: mistake(case.bits), ..case.clone() })
            }),
            ..Mistaken::default()
        }
    }

    /// A stream of looks alone, and one of pictures.
    const LOOKS_OR_PICTURES: [(u64, u64); 2] = [(1_000, 0), (0, 1_000)];

    #[test]
    fn other_depths_are_found() {
        let mistakes: [fn(Bits) -> Bits; 4] = [
            |bits| Bits { raw: bits.corrected, corrected: bits.raw },
            |bits| Bits::same(bits.raw),
            |bits| Bits::same(bits.corrected),
            // the corrected depth is looked at only where the raw one and the codes pass
            |bits| if bits.greatest().is_some() { bits } else { Bits::same(bits.raw) },
        ];
        for side in mistakes.map(other_depths) {
            for (looks, pictures) in LOOKS_OR_PICTURES {
                let told = found(Wanted { looks, pictures, ..Wanted::default() }, &side);
                assert!(told.contains(" to "), "{told}");
            }
        }
    }

    /// A side that goes by another description than it is given or has read.
    fn other_domains(mistake: fn(Description) -> Description) -> Mistaken {
        Mistaken {
            read: Box::new(move |case| {
                let answer = Second.read(case)?;
                Ok(ReadAnswer { description: mistake(answer.description), ..answer })
            }),
            look: Box::new(move |case| {
                let description = mistake(case.description);
                Second.look(&LookCase { description, ..case.clone() })
            }),
            picture: Box::new(move |case| {
                let description = mistake(case.description);
                Second.picture(&PictureCase { description, ..case.clone() })
            }),
            write: Box::new(move |case| {
                let description = mistake(case.description);
                Second.write(&WriteCase { description, ..case.clone() })
            }),
            ..Mistaken::default()
        }
    }

    /// A mixed description with other numbers, and any other as it is.
    fn if_mixed(description: Description, other: Description) -> Description {
        if is_mixed(&description) {
            other
        } else {
            description
        }
    }

    #[test]
    fn other_domains_are_found() {
        let mistakes: [fn(Description) -> Description; 3] = [
            // mixed domains are refused, as before document 02
            |d| if_mixed(d, [0; 11]),
            // red's domain is that of all colours
            |d| if_mixed(d, [d[0], d[1], d[2], d[2], d[2], d[5], d[5], d[5], d[8], d[9], d[10]]),
            // a bound of mixed domains is cut to a whole number
            |d| if_mixed(d, [0, 1, 2, 3, 4, 5, 6, 7, 8, 9, 10].map(|at| cut(&d, at))),
        ];
        for side in mistakes.map(other_domains) {
            for (looks, pictures) in LOOKS_OR_PICTURES {
                assert_ne!(found(Wanted { looks, pictures, ..Wanted::default() }, &side), "");
            }
            assert_ne!(found(Wanted { writes: 1_000, ..Wanted::default() }, &side), "");
        }
        for side in [mistakes[0], mistakes[1]].map(other_domains) {
            assert_ne!(found(Wanted { tables: 1_000, ..Wanted::default() }, &side), "");
        }
    }

    fn cut(description: &Description, at: usize) -> i64 {
        if (place::LOWER..place::TITLE).contains(&at) {
            description[at] / BOUND_UNITS * BOUND_UNITS
        } else {
            description[at]
        }
    }

    type ChangedSource = fn(&mut PictureCase);
    type ChangedOutput = fn(&PictureCase, &mut PictureAnswer);

    /// A picture's pixels, and how many raw codes there are at its depth.
    fn pixels_and_codes(case: &PictureCase) -> (usize, usize) {
        (case.source.len() / 3, case.bits.greatest().map_or(0, |m| usize::from(m.raw) + 1))
    }

    /// A picture without its raw code M, in whose place the code below it stands.
    fn without_last_code(case: &mut PictureCase) {
        let (_, codes) = pixels_and_codes(case);
        let last = case.source.iter_mut().filter(|code| usize::from(**code) + 1 == codes);
        last.for_each(|code| *code -= 1);
    }

    fn is_line(case: &PictureCase) -> bool {
        case.description[place::KIND] == 1
    }

    #[test]
    fn other_long_pictures_are_found() {
        let as_another: [ChangedSource; 7] = [
            // what is found beforehand for more pixels than raw codes leaves the last code out
            |case| {
                let (pixels, codes) = pixels_and_codes(case);
                if is_line(case) && pixels > codes {
                    without_last_code(case);
                }
            },
            // so at 12 bits alone, or where there are no more pixels than that
            |case| {
                let (pixels, codes) = pixels_and_codes(case);
                if is_line(case) && pixels > codes && codes == 4_096 {
                    without_last_code(case);
                }
            },
            |case| {
                let (pixels, codes) = pixels_and_codes(case);
                if is_line(case) && pixels == codes {
                    without_last_code(case);
                }
            },
            // 1,025 cells are 1,024, or 1,024 are 1,023
            |case| {
                if is_line(case) && case.description[place::N] == 1_026 {
                    case.table.copy_within(3 * 1_024..3 * 1_025, 3 * 1_025);
                }
            },
            |case| {
                if is_line(case) && case.description[place::N] == 1_025 {
                    case.table.copy_within(3 * 1_023..3 * 1_024, 3 * 1_024);
                }
            },
            // samples have 33 bits, or are not below 0
            |case| case.table.iter_mut().for_each(|sample| *sample %= BEYOND_33_BITS),
            |case| {
                let mut below = case.table.iter_mut().filter(|sample| **sample < 0);
                if let (Some(sample), None) = (below.next(), below.next()) {
                    *sample = 0;
                }
            },
        ];
        let with_another: [ChangedOutput; 7] = [
            // the last pixel of a block, or of the last whole one, is left as it was
            |case, answer| {
                for end in (BLOCK_CODES..=case.source.len()).step_by(BLOCK_CODES) {
                    leave(answer, end - 3..end);
                }
            },
            |case, answer| {
                let end = case.source.len() / BLOCK_CODES * BLOCK_CODES;
                leave(answer, end.saturating_sub(3)..end);
            },
            // the pixels after the last whole block are left as they were
            |case, answer| {
                let end = case.source.len() / BLOCK_CODES * BLOCK_CODES;
                let after = if end > 0 { end..case.source.len() } else { 0..0 };
                leave(answer, after);
            },
            // each block is the first one again
            |case, answer| {
                for at in BLOCK_CODES..case.source.len() {
                    if answer.number == 0 {
                        answer.output[at] = answer.output[at % BLOCK_CODES];
                    }
                }
            },
            // a code above M is seen in the first block alone, or after that was written
            |case, answer| {
                let first = case.source.get(..BLOCK_CODES).unwrap_or(&case.source);
                let seen = first.iter().any(|code| Some(*code) > greatest_code(case.bits.raw));
                if answer.number == 23 && !seen {
                    answer.number = 0;
                }
            },
            |case, answer| {
                if answer.number == 23 && case.source.len() > BLOCK_CODES {
                    let source = case.source[..BLOCK_CODES].to_vec();
                    let first = Second.picture(&PictureCase { source, ..case.clone() });
                    let output = first.map_or(Vec::new(), |first| first.output);
                    answer.output[..BLOCK_CODES].copy_from_slice(&output[..BLOCK_CODES]);
                }
            },
            // a whole block is written, however many pixels are left
            |case, answer| {
                let end = case.source.len().div_ceil(BLOCK_CODES) * BLOCK_CODES;
                let places = case.source.len()..end.min(answer.output.len());
                if answer.number == 0 && case.source.len() > BLOCK_CODES {
                    answer.output[places].fill(0);
                }
            },
        ];
        let sides = as_another.map(|change| Mistaken {
            picture: Box::new(move |case| {
                // one that is refused is refused as it is
                let answer = Second.picture(case)?;
                let mut other = case.clone();
                change(&mut other);
                if answer.number == 0 {
                    Second.picture(&other)
                } else {
                    Ok(answer)
                }
            }),
            ..Mistaken::default()
        });
        let others = with_another.map(|change| Mistaken {
            picture: Box::new(move |case| {
                let mut answer = Second.picture(case)?;
                change(case, &mut answer);
                Ok(answer)
            }),
            ..Mistaken::default()
        });
        for (at, side) in sides.iter().chain(&others).enumerate() {
            let told = found(Wanted { pictures: 2_000, ..Wanted::default() }, side);
            assert!(told.contains("picture, made by"), "mistake {at}");
            assert!(told_length(&told, "source:") < 80, "mistake {at}: {told}");
        }
    }

    /// Places of an accepted picture's output as they were before.
    fn leave(answer: &mut PictureAnswer, places: std::ops::Range<usize>) {
        if answer.number == 0 {
            places.for_each(|at| answer.output[at] = code_pattern(at));
        }
    }

    /// A side that takes each line after the first data line for another.
    fn other_lines(taken: impl Fn(&[After], usize) -> Vec<u8> + 'static) -> Mistaken {
        Mistaken {
            read: Box::new(move |case| {
                let after = after_first_row(case);
                let head = case.file.len() - after.first().map_or(0, |line| line.left);
                let texts: Vec<Vec<u8>> = (0..after.len()).map(|at| taken(&after, at)).collect();
                let file = [&case.file[..head], &texts.join(&b'\n')].concat();
                Second.read(&FileCase { file, ..case.clone() })
            }),
            ..Mistaken::default()
        }
    }

    /// A line with bytes for others.
    fn exchanged(line: &[u8], from: &str, to: &str) -> Vec<u8> {
        std::str::from_utf8(line).map_or(Vec::new(), |text| text.replace(from, to).into_bytes())
    }

    /// A line with each of its words as far as it is taken.
    fn word_by_word(line: &[u8], taken: fn(&[u8]) -> &[u8]) -> Vec<u8> {
        line.split(|byte| *byte == b' ').map(taken).collect::<Vec<_>>().join(&b' ')
    }

    type FoundRow = fn(&[u8]) -> Vec<u8>;
    type IsOther = fn(&[After], usize) -> bool;

    #[test]
    fn other_plain_rows_are_found() {
        // where a plain row is looked for and there is none, this one is found
        let as_rows: [FoundRow; 10] = [
            // a number ends after three whole digits, or after seven decimals
            |line| {
                word_by_word(line, |word| match word.iter().all(u8::is_ascii_digit) {
                    true => &word[..word.len().min(3)],
                    false => word,
                })
            },
            |line| {
                word_by_word(line, |word| {
                    let point = word.iter().position(|byte| *byte == b'.').unwrap_or(word.len());
                    &word[..word.len().min(point + 8)]
                })
            },
            // the bytes beside the digits are digits
            |line| exchanged(line, "/", "0"),
            |line| exchanged(line, ":", "9"),
            // a point, or a minus, is a number by itself
            |line| word_by_word(line, |word| if word == b"." { b"0" } else { word }),
            |line| word_by_word(line, |word| if word == b"-" { b"0" } else { word }),
            // a carriage return is no byte, or a blank
            |line| exchanged(line, "\r", ""),
            |line| exchanged(line, "\r", " "),
            // a row ends with its third number, whatever is behind it
            |line| line.split(|byte| *byte == b' ').take(3).collect::<Vec<_>>().join(&b' '),
            |line| line[..line.len().saturating_sub(1)].to_vec(),
        ];
        let sides = as_rows.map(|row| {
            other_lines(move |lines, at| {
                let (line, row) = (&lines[at], row(lines[at].text));
                match line.looked_at && !line.is_row && is_plain_row(&row) {
                    true => row,
                    false => line.text.to_vec(),
                }
            })
        });
        // these lines are others
        let as_others: [(&str, IsOther); 4] = [
            // a row is looked for where none is to come
            ("", |lines, at| lines[at].is_row && lines[at].to_come == 0 && lines[at].left >= 39),
            // a last row without its newline is none, or what is there of one is a row
            ("", |lines, at| at + 1 == lines.len() && is_plain_row(lines[at].text)),
            ("0 0 0", |lines, at| at + 1 == lines.len() && lines[at].text.starts_with(b"-")),
            // the line where rows are looked for again is passed over
            ("", |lines, at| at > 0 && lines[at].looked_at && !lines[at - 1].looked_at),
        ];
        let others = as_others.map(|(text, is_other)| {
            other_lines(move |lines, at| match is_other(lines, at) {
                true => text.into(),
                false => lines[at].text.to_vec(),
            })
        });
        for (at, side) in sides.iter().chain(&others).enumerate() {
            let told = found(Wanted { tables: 10_000, ..Wanted::default() }, side);
            assert!(told.contains("read, made by"), "mistake {at}");
        }
    }

    type ChangedWrite = fn(&mut WriteCase);
    type ChangedText = fn(&WriteCase, &mut WriteAnswer);

    #[test]
    fn other_texts_are_found() {
        let as_another: [ChangedWrite; 6] = [
            // 1 alone is a mark
            |case| case.description[place::TITLE] = (case.description[place::TITLE] == 1).into(),
            // a mark has 32 bits
            |case| case.description[place::TITLE] = (case.description[place::TITLE] as i32).into(),
            // a title goes as far as the description says
            |case| case.title.truncate(case.description[place::TITLE_LENGTH].max(0) as usize),
            // a title is cut rather than refused
            |case| case.title.truncate(LONGEST_TITLE),
            // a title is judged without the mark
            |case| {
                case.description[0] *=
                    i64::from(is_marked(&case.description) || is_plain(&case.title))
            },
            // there has to be room for one byte more
            |case| case.out_len = case.out_len.saturating_sub(1),
        ];
        let with_another: [ChangedText; 3] = [
            |_, answer| answer.length += u64::from(answer.number == number::ACCEPTED),
            |_, answer| answer.out[answer.length as usize..].fill(b' '),
            // the room is judged first
            |case, answer| {
                if answer.number != number::ACCEPTED && case.out_len == 0 {
                    answer.number = number::TOO_LITTLE_ROOM;
                }
            },
        ];
        let sides = as_another.map(|change| Mistaken {
            write: Box::new(move |case| {
                let mut case = case.clone();
                let places = case.out_len;
                change(&mut case);
                let mut answer = Second.write(&case)?;
                answer.out.extend((answer.out.len()..places).map(byte_pattern));
                Ok(answer)
            }),
            ..Mistaken::default()
        });
        let others = with_another.map(|change| Mistaken {
            write: Box::new(move |case| {
                let mut answer = Second.write(case)?;
                change(case, &mut answer);
                Ok(answer)
            }),
            ..Mistaken::default()
        });
        for (at, side) in sides.iter().chain(&others).enumerate() {
            let told = found(Wanted { writes: 1_000, ..Wanted::default() }, side);
            assert!(told.contains("write, made by"), "mistake {at}");
            assert!(told_length(&told, "table:") < 40, "{told}");
        }
    }

    type ChangedShares = fn(&mut CodesCase);
    type ChangedCodes = fn(&CodesCase, &mut Codes);

    /// A case's places that are judged, and how many rows there are.
    fn judged(case: &CodesCase) -> (usize, usize) {
        let cube = Cube::of(&case.description, &case.table);
        cube.map_or((0, 0), |cube| (used(cube.kind, 2).end, cube.kind.rows(cube.n)))
    }

    #[test]
    fn other_halves_are_found() {
        let as_others: [ChangedShares; 7] = [
            // a row without weight is not judged
            |case| (0..6).filter(|at| case.weights[*at] == 0).for_each(|at| case.rows[at] = 0),
            // rows are those of the whole table
            |case| {
                let (_, count) = judged(case);
                let later = count..case.table.len() / 3;
                let rows = case.rows.iter_mut().filter(|row| later.contains(&(**row as usize)));
                rows.for_each(|row| *row = 0);
            },
            // the places of a row's samples have 32 bits
            |case| case.rows = case.rows.map(|row| row.wrapping_mul(3) / 3),
            // weights have 32 bits
            |case| case.weights = case.weights.map(|weight| i64::from(weight as i32)),
            // the weights go by the other depth
            |case| case.bits.raw = case.bits.corrected,
            // the codes have the raw depth
            |case| case.bits.corrected = case.bits.raw,
            // the second and the third place are exchanged
            |case| {
                case.rows.swap(1, 2);
                case.weights.swap(1, 2);
            },
        ];
        let with_others: [ChangedCodes; 5] = [
            // all six places are judged
            |case, answer| {
                let (_, count) = judged(case);
                if answer.number == 0 && case.rows.iter().any(|row| *row as usize >= count) {
                    *answer = Codes { number: 26, codes: [0; 3] };
                }
            },
            |case, answer| {
                if answer.number == 0 && case.weights.iter().any(|weight| *weight < 0) {
                    *answer = Codes { number: 26, codes: [0; 3] };
                }
            },
            // sums wrap
            |case, answer| {
                let weights = &case.weights[..judged(case).0.min(4)];
                let wide: i128 = weights.iter().map(|weight| i128::from(*weight)).sum();
                let wraps = i64::try_from(wide).is_err() && wide as i64 > 0;
                if answer.number == 26 && weights.iter().all(|weight| *weight >= 0) && wraps {
                    answer.number = 0;
                }
            },
            // 26 is tried before 20
            |case, answer| {
                if answer.number == 20 && case.rows[0] == u32::MAX {
                    answer.number = 26;
                }
            },
            // a refusal leaves a code
            |_, answer| answer.codes[2] |= u16::from(answer.number == 26),
        ];
        let sides = as_others.map(|change| Mistaken {
            codes: Box::new(move |case| {
                let mut case = case.clone();
                change(&mut case);
                Second.codes(&case)
            }),
            ..Mistaken::default()
        });
        let others = with_others.map(|change| Mistaken {
            codes: Box::new(move |case| {
                let mut answer = Second.codes(case)?;
                change(case, &mut answer);
                Ok(answer)
            }),
            ..Mistaken::default()
        });
        for (at, side) in sides.iter().chain(&others).enumerate() {
            let told = found(Wanted { halves: 10_000, ..Wanted::default() }, side);
            assert!(told.contains("codes, made by") || told.contains("joined"), "mistake {at}");
        }
    }

    #[test]
    fn other_first_halves_are_found() {
        let mistakes: [fn(&LookCase, &mut Rows); 3] = [
            // the corrected depth is asked for
            |case, answer| {
                let seen = look(&case.description, &case.table, case.bits, case.pixel);
                answer.number = seen.number;
            },
            |_, answer| answer.rows.swap(4, 5),
            |_, answer| answer.weights[5] |= i64::from(answer.number == 23),
        ];
        for (at, mistake) in mistakes.into_iter().enumerate() {
            let side = Mistaken {
                rows: Box::new(move |case| {
                    let mut answer = Second.rows(case)?;
                    mistake(case, &mut answer);
                    Ok(answer)
                }),
                ..Mistaken::default()
            };
            let told = found(Wanted { halves: 1_000, ..Wanted::default() }, &side);
            assert!(told.contains("rows, made by"), "mistake {at}");
        }
    }

    #[test]
    fn halves_that_do_not_join_are_found() {
        // of a row alone the code is another
        let side = Mistaken {
            codes: Box::new(|case| {
                let mut answer = Second.codes(case)?;
                let alone = case.weights.iter().filter(|weight| **weight != 0).count() == 3;
                answer.codes = answer.codes.map(|code| if alone { code / 2 } else { code });
                Ok(answer)
            }),
            ..Mistaken::default()
        };
        let looks = (0..1_000).map(|index| look_case(1, index));
        assert!(looks.into_iter().any(|case| joined(&side, &case).is_err()));
        let shares = (0..1_000).map(|index| codes_case(1, index));
        assert!(shares.into_iter().any(|case| between(&side, &case).is_err()));
    }

    type ChangedAim = fn(&mut InverseCase);
    type ChangedInverse = fn(&InverseCase, &[u16], &mut Inverse);

    /// What each raw code of a case is corrected to, by looks.
    fn looked(case: &InverseCase) -> Vec<u16> {
        let (Some(m), Some(colour)) = (case.bits.greatest(), colour(case.aim)) else {
            return Vec::new();
        };
        let seen = |code| look(&case.description, &case.table, case.bits, [code; 3]).codes[colour];
        (0..=m.raw).map(seen).collect()
    }

    /// Of these raw codes the one that is nearest, the first of several.
    fn first_nearest(case: &InverseCase, codes: &[u16], tried: impl Iterator<Item = usize>) -> u16 {
        tried.min_by_key(|code| codes[*code].abs_diff(case.aim.wanted)).unwrap_or(0) as u16
    }

    #[test]
    fn other_inverses_are_found() {
        let as_others: [ChangedAim; 9] = [
            // the tolerance has 16 bits, or a sign
            |case| case.aim.tolerance &= 0xFFFF,
            |case| case.aim.tolerance = (case.aim.tolerance as i32).max(0) as u32,
            // a code as far off as the tolerance is not within it
            |case| case.aim.tolerance = case.aim.tolerance.saturating_sub(1),
            // a colour that is none is blue, or is one in fewer bits
            |case| case.aim.colour = case.aim.colour.min(2),
            |case| case.aim.colour &= 0xFF,
            // the colour is red
            |case| case.aim.colour = if case.aim.colour < 3 { 0 } else { case.aim.colour },
            // corrected codes have the raw depth, or the two are exchanged
            |case| case.bits.corrected = case.bits.raw,
            |case| {
                case.bits = Bits { raw: case.bits.corrected, corrected: case.bits.raw };
            },
            // a wanted code above M is moved to it
            |case| {
                let m = case.bits.greatest().map_or(u16::MAX, |m| m.corrected);
                case.aim.wanted = case.aim.wanted.min(m);
            },
        ];
        let with_others: [ChangedInverse; 9] = [
            // the highest of several
            |case, codes, answer| {
                if answer.number == 0 {
                    answer.code = first_nearest(case, codes, (0..codes.len()).rev());
                }
            },
            // one code is not tried: the last, the first
            |case, codes, answer| {
                if answer.number == 0 {
                    answer.code = first_nearest(case, codes, 0..codes.len() - 1);
                }
            },
            |case, codes, answer| {
                if answer.number == 0 {
                    answer.code = first_nearest(case, codes, 1..codes.len());
                }
            },
            // the search ends within the tolerance
            |case, codes, answer| {
                let within =
                    |code: &u16| u32::from(code.abs_diff(case.aim.wanted)) <= case.aim.tolerance;
                if let (0, Some(first)) = (answer.number, codes.iter().position(within)) {
                    (answer.code, answer.count) = (first as u16, first as u64 + 1);
                }
            },
            // the count is that of all codes, or goes up to the code alone, or leaves it out
            |_, codes, answer| {
                if answer.number == 0 {
                    answer.count = codes.len() as u64;
                }
            },
            |_, _, answer| {
                if answer.number == 0 {
                    answer.count = u64::from(answer.code) + 1;
                }
            },
            |_, _, answer| answer.count = answer.count.saturating_sub(1),
            // a refusal leaves the nearest code, or has no count
            |case, codes, answer| {
                if answer.number == 28 {
                    answer.code = first_nearest(case, codes, 0..codes.len());
                }
            },
            |_, _, answer| answer.count *= u64::from(answer.number == 0),
        ];
        let sides = as_others.map(|change| Mistaken {
            inverse: Box::new(move |case| {
                let mut case = case.clone();
                change(&mut case);
                Second.inverse(&case)
            }),
            ..Mistaken::default()
        });
        let others = with_others.map(|change| Mistaken {
            inverse: Box::new(move |case| {
                let mut answer = Second.inverse(case)?;
                if answer.count > 0 {
                    change(case, &looked(case), &mut answer);
                }
                Ok(answer)
            }),
            ..Mistaken::default()
        });
        for (at, side) in sides.iter().chain(&others).enumerate() {
            let told = found(Wanted { inverses: 1_000, ..Wanted::default() }, side);
            assert!(told.contains("inverse, made by"), "mistake {at}");
        }
    }

    #[test]
    fn inverses_that_do_not_agree_with_looks_are_found() {
        // one code beside the nearest
        let side = Mistaken {
            inverse: Box::new(|case| {
                let mut answer = Second.inverse(case)?;
                answer.code ^= u16::from(answer.number == 0);
                Ok(answer)
            }),
            ..Mistaken::default()
        };
        let cases = (0..1_000).map(|index| inverse_case(1, index));
        assert!(cases.into_iter().any(|case| inverted(&side, &case).is_err()));
    }
}
