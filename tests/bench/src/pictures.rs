//! The tables of pictures: the library beside the baseline, and the same pictures beside its peers.

use crate::library;
use crate::peers::{Answer, Folder, Peer, Task};
use crate::{eleven, kind_shown, medians, shown, Draws, EQUAL, ONE};
use baseline::picture::Bits;
use baseline::{Description, Domains, Kind};
use std::io;

const WIDTH: usize = 200;
const HEIGHT: usize = 100;
const PIXELS: usize = WIDTH * HEIGHT;
const CODES: usize = 3 * PIXELS;
const ROUNDS: usize = 201;

/// Red's domain twice as wide as the others.
const MIXED: Domains = [[0, 2000], [0, 1000], [0, 1000]];

const WIDER: &[Bits] = &[EQUAL[0], EQUAL[1], Bits { raw: 12, corrected: 16 }];

const SHAPES: [(Kind, usize, Domains, &[Bits]); 6] = [
    (Kind::ThreeD, 13, ONE, WIDER),
    (Kind::ThreeD, 33, ONE, WIDER),
    (Kind::ThreeD, 33, MIXED, EQUAL),
    (Kind::OneD, 13, ONE, EQUAL),
    (Kind::OneD, 33, ONE, WIDER),
    (Kind::OneD, 1024, ONE, EQUAL),
];

/// What a picture shows.
#[derive(Clone, Copy)]
enum Subject {
    Random,
    Smooth,
}

/// One line of each table: a picture and the table that it is corrected through.
struct Line {
    description: Description,
    bits: Bits,
    subject: Subject,
    table: Vec<i64>,
    raw: Vec<u16>,
}

/// The library's time in nanoseconds a pixel, and its codes.
struct Ours {
    time: f64,
    codes: Vec<u16>,
}

/// Prints both tables; whether the library and the baseline gave the same codes.
pub fn pictures(peers: &[Peer]) -> io::Result<bool> {
    println!("\npictures of {PIXELS} pixels, medians of {ROUNDS} rounds");
    println!("kind\tN\tbits\tpicture\tours, ns a pixel\tbaseline, ns a pixel\tratio");
    let mut alike = true;
    let mut lines = Vec::new();
    for (kind, n, domains, depths) in SHAPES {
        for bits in depths {
            for subject in [Subject::Random, Subject::Smooth] {
                let line = Line::new(Description { kind, n, domains }, *bits, subject);
                let (ours, same) = line.beside_baseline();
                alike &= same;
                lines.push((line, ours));
            }
        }
    }
    println!("\nthe same pictures by others, and how many of their {CODES} codes are off");
    let columns = peers.iter().map(|peer| format!("\t{}, ns a pixel\tcodes off", peer.name));
    println!("kind\tN\tbits\tpicture\tours, ns a pixel{}", columns.collect::<String>());
    let folder = Folder::new()?;
    for (line, ours) in &lines {
        line.beside_peers(ours, peers, &folder)?;
    }
    Ok(alike)
}

impl Line {
    fn new(description: Description, bits: Bits, subject: Subject) -> Line {
        let mut draws = Draws(1);
        let table = (0..3 * description.rows()).map(|_| draws.sample()).collect();
        let raw = match subject {
            Subject::Random => (0..CODES).map(|_| draws.below(1 << bits.raw) as u16).collect(),
            Subject::Smooth => smooth(bits.raw),
        };
        Line { description, bits, subject, table, raw }
    }

    /// Prints a line of the first table; whether the two gave the same codes.
    fn beside_baseline(&self) -> (Ours, bool) {
        let Line { description, bits, table, raw, .. } = self;
        let eleven = eleven(description);
        let (mut ours, mut plain) = (vec![0; CODES], vec![0; CODES]);
        let (mut number, mut answer) = (0, Ok(()));
        let (our_time, plain_time) = medians(
            ROUNDS,
            || number = library::picture(&eleven, table, *bits, raw, &mut ours),
            || answer = baseline::picture::picture(description, table, *bits, raw, &mut plain),
        );
        let (our_time, plain_time) = (our_time / PIXELS as f64, plain_time / PIXELS as f64);
        let ratio = our_time / plain_time;
        println!("{}\t{our_time:.2}\t{plain_time:.2}\t{ratio:.2}", self.shown());
        let alike = number == 0 && answer.is_ok() && ours == plain;
        (Ours { time: our_time, codes: ours }, alike)
    }

    /// Prints a line of the second table.
    fn beside_peers(&self, ours: &Ours, peers: &[Peer], folder: &Folder) -> io::Result<()> {
        let task = self.task();
        if let Some(task) = &task {
            folder.put(task)?;
        }
        let answer_of = |peer: &Peer| task.as_ref().map(|task| peer.measure(task, folder));
        let columns_of = |peer: &Peer| match answer_of(peer) {
            None => "\t–\t–".to_string(),
            Some(Answer::NotInstalled) => "\tnot installed\t–".to_string(),
            Some(Answer::Failed) => "\tfailed\t–".to_string(),
            Some(Answer::Measured(theirs)) => {
                format!("\t{:.2}\t{}", theirs.time, differing(&theirs.codes, &ours.codes))
            }
        };
        let columns: String = peers.iter().map(columns_of).collect();
        println!("{}\t{:.2}{columns}", self.shown(), ours.time);
        Ok(())
    }

    /// What peers are asked to do. There is nothing where the domains are mixed, or where the
    /// depths are not both 8 or both 16 bits.
    fn task(&self) -> Option<Task<'_>> {
        let Line { description, bits, table, raw, .. } = self;
        let asked = !description.is_mixed() && EQUAL.contains(bits);
        asked.then_some(Task {
            description,
            table,
            width: WIDTH,
            height: HEIGHT,
            bits: bits.raw,
            raw,
            rounds: ROUNDS,
        })
    }

    /// What both tables say of it.
    fn shown(&self) -> String {
        let (kind, n, bits) = (kind_shown(&self.description), self.description.n, shown(self.bits));
        let subject = match self.subject {
            Subject::Random => "random",
            Subject::Smooth => "smooth",
        };
        format!("{kind}\t{n}\t{bits}\t{subject}")
    }
}

/// An even slope of each colour from 0 to M: red along x, green along y, blue along x + y.
fn smooth(bits: u32) -> Vec<u16> {
    let greatest = (1 << bits) - 1;
    let slope = |at: usize, last: usize| (greatest * at / last) as u16;
    let (right, bottom) = (WIDTH - 1, HEIGHT - 1);
    let pixel =
        |x: usize, y: usize| [slope(x, right), slope(y, bottom), slope(x + y, right + bottom)];
    (0..HEIGHT).flat_map(|y| (0..WIDTH).flat_map(move |x| pixel(x, y))).collect()
}

fn differing(codes: &[u16], exact: &[u16]) -> usize {
    codes.iter().zip(exact).filter(|(code, exact)| code != exact).count()
}
