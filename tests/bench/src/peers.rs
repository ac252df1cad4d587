//! ffmpeg, with the colours of a pixel side by side and in planes, and OpenColorIO: each is
//! measured by a program of the folder peers, which `run` builds where it is installed.

use crate::kind_shown;
use baseline::{Description, Kind};
use std::path::PathBuf;
use std::process::{Command, Stdio};
use std::{env, fmt, fs, io, process};

/// A picture to be corrected: by linear interpolation in 1D, by tetrahedral in 3D.
pub struct Task<'a> {
    /// With the domain 0 to 1.
    pub description: &'a Description,
    /// Samples from 0 to 1.
    pub table: &'a [i64],
    pub width: usize,
    pub height: usize,
    /// Of raw and of corrected codes: 8 or 16.
    pub bits: u32,
    pub raw: &'a [u16],
    pub rounds: usize,
}

pub enum Answer {
    Measured(Measured),
    NotInstalled,
    /// Standard error says why.
    Failed,
}

/// The median time in nanoseconds a pixel, and the corrected codes.
pub struct Measured {
    pub time: f64,
    pub codes: Vec<u16>,
}

pub struct Peer {
    pub name: &'static str,
    installed: Option<Program>,
}

struct Program {
    path: PathBuf,
    version: String,
}

/// Those that are installed and those that are not.
pub fn all() -> [Peer; 3] {
    [
        Peer::found("ffmpeg", "FFMPEG_PROGRAM"),
        Peer::found("ffmpeg planes", "FFMPEG_PLANES_PROGRAM"),
        Peer::found("OpenColorIO", "OPENCOLORIO_PROGRAM"),
    ]
}

impl Peer {
    /// It is installed if the variable names a program that tells its version.
    fn found(name: &'static str, variable: &str) -> Peer {
        let path = env::var_os(variable).filter(|path| !path.is_empty()).map(PathBuf::from);
        let installed = path.and_then(|path| {
            let version = output(Command::new(&path).arg("version"))?;
            Some(Program { path, version })
        });
        Peer { name, installed }
    }

    /// Measures it with the task that was put in the folder.
    pub fn measure(&self, task: &Task, folder: &Folder) -> Answer {
        match &self.installed {
            None => Answer::NotInstalled,
            Some(program) => {
                program.measured(task, folder).map_or(Answer::Failed, Answer::Measured)
            }
        }
    }
}

impl fmt::Display for Peer {
    fn fmt(&self, out: &mut fmt::Formatter) -> fmt::Result {
        let version = self.installed.as_ref().map_or("not installed", |program| &program.version);
        write!(out, "{}: {version}", self.name)
    }
}

impl Program {
    /// It is run in the folder and given names alone: a path might have characters that mean
    /// something to a peer.
    fn measured(&self, task: &Task, folder: &Folder) -> Option<Measured> {
        let kind = if task.description.kind == Kind::OneD { 1 } else { 3 };
        let numbers = [kind, task.bits as usize, task.width, task.height, task.rounds];
        let mut command = Command::new(&self.path);
        command.current_dir(&folder.0).args([CUBE, RAW, CORRECTED]);
        let time = output(command.args(numbers.map(|number| number.to_string())))?.parse().ok()?;
        let codes = codes_of(&fs::read(folder.0.join(CORRECTED)).ok()?, task.bits);
        (codes.len() == task.raw.len()).then_some(Measured { time, codes })
    }
}

/// What a program prints, without the end of the line, if it ends well.
fn output(command: &mut Command) -> Option<String> {
    let done = command.stderr(Stdio::inherit()).output().ok()?;
    let text = String::from_utf8(done.stdout).ok()?;
    done.status.success().then(|| text.trim_end().to_string())
}

const CUBE: &str = "table.cube";
const RAW: &str = "raw";
const CORRECTED: &str = "corrected";

/// A new folder among the system's for temporary files; it goes away with all that is in it.
pub struct Folder(PathBuf);

impl Folder {
    pub fn new() -> io::Result<Folder> {
        let path = env::temp_dir().join(format!("erythmoda-bench-{}", process::id()));
        fs::create_dir(&path)?;
        Ok(Folder(path))
    }

    /// Puts a task's table and raw codes there, in place of those before.
    pub fn put(&self, task: &Task) -> io::Result<()> {
        fs::write(self.0.join(CUBE), cube(task.description, task.table))?;
        fs::write(self.0.join(RAW), bytes_of(task.raw, task.bits))
    }
}

impl Drop for Folder {
    fn drop(&mut self) {
        let _ = fs::remove_dir_all(&self.0);
    }
}

/// The table as a .cube file, exact.
fn cube(description: &Description, table: &[i64]) -> String {
    let decimal = |sample: &i64| format!("{}.{:07}", sample / 10_000_000, sample % 10_000_000);
    let row = |samples: &[i64]| samples.iter().map(decimal).collect::<Vec<_>>().join(" ") + "\n";
    let head = format!("LUT_{}_SIZE {}\n", kind_shown(description), description.n);
    head + &table.chunks_exact(3).map(row).collect::<String>()
}

/// Codes of 8 bits as a byte each, others as two in this machine's order.
fn bytes_of(codes: &[u16], bits: u32) -> Vec<u8> {
    match bits {
        8 => codes.iter().map(|code| *code as u8).collect(),
        _ => codes.iter().flat_map(|code| code.to_ne_bytes()).collect(),
    }
}

fn codes_of(bytes: &[u8], bits: u32) -> Vec<u16> {
    match bits {
        8 => bytes.iter().map(|byte| u16::from(*byte)).collect(),
        _ => bytes.chunks_exact(2).map(|pair| u16::from_ne_bytes([pair[0], pair[1]])).collect(),
    }
}
