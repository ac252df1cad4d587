//! The second program for people.
//!
//! ```text
//! second report < FILE            what the report program prints
//! second read FILE                the answer of reading, with room for any table
//! second check FILE               the answer where there is no table
//! second look FILE RAW CORRECTED R G B
//!                                 one pixel through a file's table, from so many bits to so many
//! second write FILE               the bytes that are written of what is read from a file
//! second cases                    document 01's cases (src/cases.rs gives the format)
//! second stream SEED TABLES LOOKS PICTURES WRITES HALVES INVERSES
//!                                 this side of `compare` alone: counts, and cases a second
//! second reports SEED COUNT PROGRAM [ARGUMENT...]
//!                                 compares a report program's bytes with this one's
//! ```

use second::gen::report_input;
use second::look::look;
use second::paper::{number, place, Bits, Kind};
use second::reading::{check, read, Reading};
use second::report::{report, title};
use second::run::{run, Wanted, READ_NUMBERS};
use second::show::{escaped, list, quoted};
use second::small::fewer_bytes;
use second::writing::write;
use second::{cases, paper};
use std::collections::BTreeMap;
use std::io::{self, Read, Write};
use std::process::{Command, ExitCode, Stdio};
use std::str::FromStr;
use std::time::Instant;

fn main() -> ExitCode {
    let arguments: Vec<String> = std::env::args().skip(1).collect();
    let words: Vec<&str> = arguments.iter().map(String::as_str).collect();
    let done = match words.as_slice() {
        ["report"] => print_report(),
        ["read", file] => print_read(file),
        ["check", file] => print_check(file),
        ["look", file, raw, corrected, r, g, b] => print_look(file, [raw, corrected], [r, g, b]),
        ["write", file] => print_write(file),
        ["cases"] => put(cases::printed().as_bytes()),
        ["stream", numbers @ ..] => stream(numbers),
        ["reports", seed, count, program @ ..] if !program.is_empty() => {
            reports(seed, count, program)
        }
        _ => Err("usage: second report | read FILE | check FILE | look FILE RAW CORRECTED R G B | \
                  write FILE | cases | stream SEED TABLES LOOKS PICTURES WRITES HALVES INVERSES | reports SEED COUNT PROGRAM [ARGUMENT...]"
            .to_string()),
    };
    match done {
        Ok(()) => ExitCode::SUCCESS,
        Err(fault) => {
            eprintln!("{fault}");
            ExitCode::FAILURE
        }
    }
}

fn put(bytes: &[u8]) -> Result<(), String> {
    io::stdout().write_all(bytes).map_err(|fault| fault.to_string())
}

/// One byte more than the report holds is enough to know that there are too many.
fn print_report() -> Result<(), String> {
    let mut input = Vec::new();
    let most = paper::REPORT_BYTES as u64 + 1;
    io::stdin().take(most).read_to_end(&mut input).map_err(|fault| fault.to_string())?;
    put(&report(&input))
}

fn bytes_of(file: &str) -> Result<Vec<u8>, String> {
    std::fs::read(file).map_err(|fault| format!("{file}: {fault}"))
}

/// Reads a file with as many places as the largest table needs.
fn open(file: &str) -> Result<Reading, String> {
    Ok(read(&bytes_of(file)?, 3 * Kind::ThreeD.rows(256)))
}

fn print_check(file: &str) -> Result<(), String> {
    let check = check(&bytes_of(file)?);
    println!("number {} line {}", check.number, check.line);
    println!("description {}", list(&check.description, " "));
    println!("places {}", check.places);
    Ok(())
}

fn print_read(file: &str) -> Result<(), String> {
    let reading = open(file)?;
    println!("number {} line {}", reading.number, reading.line);
    println!("description {}", list(&reading.description, " "));
    for (row, sample) in reading.samples.chunks(3).enumerate() {
        println!("row {row}: {}", list(sample, " "));
    }
    Ok(())
}

fn print_look(file: &str, bits: [&str; 2], pixel: [&str; 3]) -> Result<(), String> {
    let reading = accepted(file)?;
    let [raw, corrected] = parsed(bits, "depth")?;
    let bits = Bits { raw, corrected };
    let look = look(&reading.description, &reading.samples, bits, parsed(pixel, "code")?);
    let used = if reading.description[place::KIND] == 3 { 4 } else { 6 };
    println!("number {}", look.number);
    println!("codes {}", list(&look.codes, " "));
    println!("rows {}", list(&look.rows[..used], " "));
    println!("weights {}", list(&look.weights[..used], " "));
    Ok(())
}

fn print_write(file: &str) -> Result<(), String> {
    let reading = accepted(file)?;
    let bytes = bytes_of(file)?;
    let title = title(&reading.description, &bytes).unwrap_or_default();
    let writing = write(&reading.description, &reading.samples, title, usize::MAX);
    match writing.number {
        0 => put(&writing.text),
        number => Err(format!("refused: number {number}")),
    }
}

/// What is read of a file that is accepted.
fn accepted(file: &str) -> Result<Reading, String> {
    let reading = open(file)?;
    match reading.number {
        0 => Ok(reading),
        number => Err(format!("refused: number {number} line {}", reading.line)),
    }
}

/// Words as numbers of a kind.
fn parsed<T: FromStr + Copy + Default, const COUNT: usize>(
    words: [&str; COUNT],
    kind: &str,
) -> Result<[T; COUNT], String> {
    let mut numbers = [T::default(); COUNT];
    for (number, word) in numbers.iter_mut().zip(words) {
        *number = word.parse().map_err(|_| format!("not a {kind}: {word}"))?;
    }
    Ok(numbers)
}

fn numbers(words: &[&str]) -> Result<Vec<u64>, String> {
    words.iter().map(|word| word.parse().map_err(|_| format!("not a number: {word}"))).collect()
}

/// Runs this side alone; each call by itself, to tell how fast it goes.
fn stream(words: &[&str]) -> Result<(), String> {
    let [seed, tables, looks, pictures, writes, halves, inverses] = numbers(words)?[..] else {
        return Err("stream takes SEED TABLES LOOKS PICTURES WRITES HALVES INVERSES".to_string());
    };
    let none = Wanted { seed, ..Wanted::default() };
    timed("tables", tables, &Wanted { tables, ..none })?;
    timed("looks", looks, &Wanted { looks, ..none })?;
    timed("pictures", pictures, &Wanted { pictures, ..none })?;
    timed("writes", writes, &Wanted { writes, ..none })?;
    timed("halves", halves, &Wanted { halves, ..none })?;
    timed("inverses", inverses, &Wanted { inverses, ..none })
}

fn timed(name: &str, many: u64, wanted: &Wanted) -> Result<(), String> {
    let start = Instant::now();
    let counts = run(wanted, None)?;
    let rate = many as f64 / start.elapsed().as_secs_f64();
    print!("{many} {name}, {rate:.0} a second\n{}", counts.shown());
    match counts.missing(wanted) {
        missing if missing.is_empty() => Ok(()),
        missing => Err(format!("never seen: {}", missing.join(", "))),
    }
}

/// Puts generated files to a report program and compares what it prints.
fn reports(seed: &str, count: &str, program: &[&str]) -> Result<(), String> {
    let [seed, count] = numbers(&[seed, count])?[..] else {
        return Ok(());
    };
    let mut seen: BTreeMap<u32, u64> = BTreeMap::new();
    for index in 0..count {
        let file = report_input(seed, index);
        let own = report(&file);
        if printed_by(program, &file)? != own {
            return Err(format!(
                "the two differ: seed {seed}, case {index}\n{}",
                tell_report(&file, program)?
            ));
        }
        *seen.entry(report_number(&own)).or_default() += 1;
    }
    let shown: Vec<String> = seen.iter().map(|(number, many)| format!("{number}:{many}")).collect();
    println!("seed\t{seed}\nreport\t{}", list(&shown, " "));
    let told = READ_NUMBERS.chain([number::INPUT_TOO_LONG]);
    let unseen = told.filter(|number| !seen.contains_key(number));
    match unseen.collect::<Vec<u32>>() {
        unseen if unseen.is_empty() || count < ENOUGH_REPORTS => Ok(()),
        unseen => Err(format!("never seen: {}", list(&unseen, ", "))),
    }
}

/// A differing file, made small, and what each side prints for it. Every try is a run of the
/// program.
fn tell_report(file: &[u8], program: &[&str]) -> Result<String, String> {
    const TRIES: usize = 400;
    let differs = |file: &[u8]| printed_by(program, file).is_ok_and(|bytes| bytes != report(file));
    let file = fewer_bytes(file, TRIES, differs);
    let (own, theirs) = (escaped(&report(&file)), escaped(&printed_by(program, &file)?));
    Ok(format!("file:   {}\nsecond: {own}\nother:  {theirs}", quoted(&file)))
}

/// So many reports show every number.
const ENOUGH_REPORTS: u64 = 1_000;

/// The number that a report tells; 0 where the file is accepted.
fn report_number(printed: &[u8]) -> u32 {
    let text = String::from_utf8_lossy(printed);
    let refused = text.strip_prefix("refused\t").and_then(|fields| fields.split('\t').next());
    refused.and_then(|number| number.parse().ok()).unwrap_or(number::ACCEPTED)
}

/// What a program prints for an input. A program that has seen enough may close its input, and
/// one that refuses may say so by the status 1 as well.
fn printed_by(program: &[&str], input: &[u8]) -> Result<Vec<u8>, String> {
    run_on(program, input).map_err(|fault| format!("{}: {fault}", program[0]))
}

fn run_on(program: &[&str], input: &[u8]) -> io::Result<Vec<u8>> {
    let mut command = Command::new(program[0]);
    command.args(&program[1..]).stdin(Stdio::piped()).stdout(Stdio::piped());
    let mut child = command.spawn()?;
    if let Some(mut stdin) = child.stdin.take() {
        if let Err(fault) = stdin.write_all(input) {
            if fault.kind() != io::ErrorKind::BrokenPipe {
                return Err(fault);
            }
        }
    }
    let output = child.wait_with_output()?;
    match output.status.code() {
        Some(0) => Ok(output.stdout),
        Some(1) if report_number(&output.stdout) != number::ACCEPTED => Ok(output.stdout),
        _ => Err(io::Error::other(output.status.to_string())),
    }
}
