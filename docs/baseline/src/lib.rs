//! Document 01's rules in plain Rust, written for speed in the straightforward way: what a
//! proved program has to be measured against. It takes no part in any test.

pub mod inverse;
pub mod picture;
pub mod reading;
pub mod writing;

/// Red, green and blue, each with a lower and an upper bound in thousandths.
pub type Domains = [[i64; 2]; 3];

#[derive(Clone, Copy, PartialEq, Eq, Debug)]
pub enum Kind {
    OneD,
    ThreeD,
}

#[derive(Clone, PartialEq, Eq, Debug)]
pub struct Description {
    pub kind: Kind,
    pub n: usize,
    pub domains: Domains,
}

impl Description {
    pub fn rows(&self) -> usize {
        match self.kind {
            Kind::OneD => self.n,
            Kind::ThreeD => self.n * self.n * self.n,
        }
    }

    /// Whether the domains of a 3D table differ.
    pub fn is_mixed(&self) -> bool {
        let [red, green, blue] = self.domains;
        self.kind == Kind::ThreeD && (red != green || green != blue)
    }

    /// N and the domains keep document 01's limits, and mixed domains document 02's: they are whole.
    pub fn keeps_limits(&self) -> bool {
        let most = if self.kind == Kind::OneD { 65_536 } else { 256 };
        let within = |bound: i64| (-10_000..=10_000).contains(&bound);
        let domain_keeps = |[lower, upper]: [i64; 2]| {
            within(lower) && within(upper) && lower < upper && upper - lower <= 10_000
        };
        (2..=most).contains(&self.n)
            && self.domains.into_iter().all(domain_keeps)
            && (!self.is_mixed() || self.domains.iter().flatten().all(|bound| bound % 1000 == 0))
    }

    /// The three samples of each row, if reading could have given this description and table.
    pub fn samples_of<'a>(&self, table: &'a [i64]) -> Option<&'a [i64]> {
        let beyond = |sample: &i64| !(-GREATEST_SAMPLE..=GREATEST_SAMPLE).contains(sample);
        if !self.keeps_limits() {
            return None;
        }
        table.get(..3 * self.rows()).filter(|samples| !samples.iter().any(beyond))
    }
}

/// Samples in ten-millionths lie from minus this to this.
pub const GREATEST_SAMPLE: i64 = 10_000_000_000;
