//! How fast the proved library corrects pictures, searches for raw codes, reads files and writes
//! them, beside docs/baseline; and pictures beside ffmpeg and OpenColorIO too.
//! docs/baseline/README.md tells the method.

mod library;
mod peers;
mod pictures;
mod rows;

use baseline::inverse::Aim;
use baseline::picture::Bits;
use baseline::{Description, Domains, Kind};
use rows::{Rows, OTHERS, SEVEN_DECIMALS};
use std::hint::black_box;
use std::process::ExitCode;
use std::time::Instant;
use std::{env, fs};

const INVERSE_ROUNDS: usize = 101;
const FILE_ROUNDS: usize = 21;
/// Of a file of 500 MB.
const LONG_ROUNDS: usize = 5;

/// Depths of raw and of corrected codes.
const EQUAL: &[Bits] = &[Bits { raw: 8, corrected: 8 }, Bits { raw: 16, corrected: 16 }];

/// One domain for all colours.
const ONE: Domains = [[0, 1000]; 3];

fn main() -> ExitCode {
    println!("machine: {}", machine());
    let peers = peers::all();
    peers.iter().for_each(|peer| println!("{peer}"));
    let mut alike = match pictures::pictures(&peers) {
        Ok(alike) => alike,
        Err(trouble) => {
            eprintln!("no folder for the peers' files: {trouble}");
            return ExitCode::FAILURE;
        }
    };
    println!("\ninverses that try every raw code of 16 bits, medians of {INVERSE_ROUNDS} rounds");
    println!("kind\tN\tbits\tours, ms\tbaseline, ms\tratio");
    for n in [1024, 65_536] {
        for bits in [EQUAL[1], Bits { raw: 16, corrected: 8 }] {
            alike &= inverses(&Description { kind: Kind::OneD, n, domains: ONE }, bits);
        }
    }
    println!(
        "\nreading files, medians of {FILE_ROUNDS} rounds, of 3D with N = 256 of {LONG_ROUNDS}"
    );
    println!("kind\tN\tnumbers\tbytes\tours, MB/s\tbaseline, MB/s\tratio of times");
    let cube = Description { kind: Kind::ThreeD, n: 65, domains: ONE };
    alike &= reading(&Description { n: 33, ..cube }, &SEVEN_DECIMALS, FILE_ROUNDS);
    alike &= reading(&cube, &SEVEN_DECIMALS, FILE_ROUNDS);
    alike &= reading(&Description { n: 256, ..cube }, &SEVEN_DECIMALS, LONG_ROUNDS);
    let line = Description { kind: Kind::OneD, n: 65_536, domains: ONE };
    alike &= reading(&line, &SEVEN_DECIMALS, FILE_ROUNDS);
    for rows in &OTHERS {
        alike &= reading(&cube, rows, FILE_ROUNDS);
    }
    println!("\nwriting files, seven decimals, medians of {FILE_ROUNDS} rounds");
    println!("kind\tN\tbytes\tours, MB/s\tbaseline, MB/s\tratio of times");
    for (kind, n) in [(Kind::ThreeD, 65), (Kind::OneD, 65_536)] {
        alike &= writing(&Description { kind, n, domains: ONE });
    }
    if alike {
        ExitCode::SUCCESS
    } else {
        println!("the two do not agree");
        ExitCode::FAILURE
    }
}

/// The processor's model where the system tells it, else its architecture.
fn machine() -> String {
    let told = fs::read_to_string("/proc/cpuinfo").unwrap_or_default();
    let mut named = told.lines().filter_map(|line| line.split_once(':'));
    let model = named.find(|(name, _)| name.trim() == "model name");
    model.map_or(env::consts::ARCH, |(_, model)| model.trim()).to_string()
}

/// Numbers that look random, the same at every run (splitmix64).
struct Draws(u64);

impl Draws {
    fn below(&mut self, end: u64) -> u64 {
        self.0 = self.0.wrapping_add(0x9E37_79B9_7F4A_7C15);
        let mixed = (self.0 ^ (self.0 >> 30)).wrapping_mul(0xBF58_476D_1CE4_E5B9);
        let mixed = (mixed ^ (mixed >> 27)).wrapping_mul(0x94D0_49BB_1331_11EB);
        (mixed ^ (mixed >> 31)) % end
    }

    /// A sample from 0 to 1.
    fn sample(&mut self) -> i64 {
        self.below(10_000_001) as i64
    }
}

/// The medians of two pieces of work in nanoseconds, done in turn so that whatever else the
/// machine does falls on both alike.
fn medians(rounds: usize, mut one: impl FnMut(), mut other: impl FnMut()) -> (f64, f64) {
    let mut times = (Vec::new(), Vec::new());
    for _ in 0..rounds {
        times.0.push(timed(&mut one));
        times.1.push(timed(&mut other));
    }
    (median(times.0), median(times.1))
}

fn timed(work: &mut impl FnMut()) -> u128 {
    let start = Instant::now();
    work();
    start.elapsed().as_nanos()
}

fn median(mut times: Vec<u128>) -> f64 {
    times.sort_unstable();
    times[times.len() / 2] as f64
}

/// One line of the table of inverses; whether the two found the same. The table's samples lie from
/// 0 to a half and the greatest code is wanted, so that there is no exact hit before the last code.
fn inverses(description: &Description, bits: Bits) -> bool {
    let mut draws = Draws(4);
    let eleven = eleven(description);
    let table: Vec<i64> = (0..3 * description.rows()).map(|_| draws.sample() / 2).collect();
    let wanted = ((1u32 << bits.corrected) - 1) as u16;
    let aim = Aim { colour: 1, wanted, tolerance: u32::MAX };
    let (mut ours, mut plain) = (None, None);
    let (our_time, plain_time) = medians(
        INVERSE_ROUNDS,
        || ours = library::inverse(&eleven, &table, bits, aim),
        || plain = baseline::inverse::inverse(description, &table, bits, black_box(aim)).ok(),
    );
    let (our_time, plain_time) = (our_time / 1e6, plain_time / 1e6);
    let ratio = our_time / plain_time;
    let (kind, n, bits) = (kind_shown(description), description.n, shown(bits));
    println!("{kind}\t{n}\t{bits}\t{our_time:.3}\t{plain_time:.3}\t{ratio:.2}");
    ours == plain && ours.is_some_and(|found| found.count == 65_536)
}

/// The description as the library takes it.
fn eleven(description: &Description) -> [i64; 11] {
    let mark = if description.kind == Kind::OneD { 1 } else { 3 };
    let [[r, to_r], [g, to_g], [b, to_b]] = description.domains;
    [mark, description.n as i64, r, g, b, to_r, to_g, to_b, 0, 0, 0]
}

fn kind_shown(description: &Description) -> &'static str {
    match (description.kind, description.is_mixed()) {
        (Kind::OneD, _) => "1D",
        (Kind::ThreeD, false) => "3D",
        (Kind::ThreeD, true) => "3D mixed",
    }
}

fn shown(bits: Bits) -> String {
    match bits.raw == bits.corrected {
        true => bits.raw.to_string(),
        false => format!("{} to {}", bits.raw, bits.corrected),
    }
}

/// One line of the table of reading; whether the two gave the same table.
fn reading(description: &Description, rows: &Rows, rounds: usize) -> bool {
    let mut draws = Draws(2);
    let (kind, n) = (kind_shown(description), description.n);
    let mut file = format!("LUT_{kind}_SIZE {n}\n");
    for _ in 0..description.rows() {
        rows.put(&mut file, &mut draws);
    }
    let places = 3 * description.rows();
    let (mut ours, mut plain) = (vec![0; places], vec![0; places]);
    let (mut number, mut accepted) = (0, false);
    let (our_time, plain_time) = medians(
        rounds,
        || number = library::read(file.as_bytes(), &mut ours),
        || accepted = baseline::reading::read(file.as_bytes(), &mut plain).is_ok(),
    );
    let (numbers, bytes) = (rows.name, file.len());
    println!("{kind}\t{n}\t{numbers}\t{bytes}\t{}", speeds(bytes, our_time, plain_time));
    number == 0 && accepted && ours == plain
}

/// So many bytes in each of two times, and the ratio of the times.
fn speeds(bytes: usize, our_time: f64, plain_time: f64) -> String {
    let speed = |time: f64| bytes as f64 * 1e3 / time;
    format!("{:.0}\t{:.0}\t{:.2}", speed(our_time), speed(plain_time), our_time / plain_time)
}

/// One line of the table of writing; whether the two gave the same text.
fn writing(description: &Description) -> bool {
    let mut draws = Draws(3);
    let eleven = eleven(description);
    let table: Vec<i64> = (0..3 * description.rows()).map(|_| draws.sample()).collect();
    let places = 333 + 39 * description.rows();
    let (mut ours, mut plain) = (vec![0; places], vec![0; places]);
    let (mut length, mut answer) = (None, Err(0));
    let (our_time, plain_time) = medians(
        FILE_ROUNDS,
        || length = library::write(&eleven, &table, &mut ours),
        || answer = baseline::writing::write(description, &table, None, &mut plain),
    );
    let (kind, n, bytes) = (kind_shown(description), description.n, length.unwrap_or(0));
    println!("{kind}\t{n}\t{bytes}\t{}", speeds(bytes, our_time, plain_time));
    length.is_some() && length == answer.ok() && ours == plain
}
