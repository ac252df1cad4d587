//! Numbers drawn from a seed (splitmix64).

pub struct Draws(u64);

impl Draws {
    /// The draws of one case of one call.
    pub fn of(seed: u64, call: u64, index: u64) -> Draws {
        let mut draws = Draws(seed);
        draws.0 = draws.number() ^ call;
        draws.0 = draws.number() ^ index;
        draws
    }

    /// Any 64 bits.
    pub fn number(&mut self) -> u64 {
        self.0 = self.0.wrapping_add(0x9E37_79B9_7F4A_7C15);
        let mut mixed = self.0;
        mixed = (mixed ^ (mixed >> 30)).wrapping_mul(0xBF58_476D_1CE4_E5B9);
        mixed = (mixed ^ (mixed >> 27)).wrapping_mul(0x94D0_49BB_1331_11EB);
        mixed ^ (mixed >> 31)
    }

    /// From 0 to one less than `end`, which is above 0.
    pub fn below(&mut self, end: usize) -> usize {
        (self.number() % end as u64) as usize
    }

    /// From the least to the greatest, both included.
    pub fn between(&mut self, least: i64, greatest: i64) -> i64 {
        let span = (greatest - least) as u64 + 1;
        least + (self.number() % span) as i64
    }

    pub fn one_in(&mut self, many: usize) -> bool {
        self.below(many) == 0
    }

    pub fn pick<T: Copy>(&mut self, from: &[T]) -> T {
        from[self.below(from.len())]
    }

    pub fn shuffle<T>(&mut self, list: &mut [T]) {
        for last in (1..list.len()).rev() {
            list.swap(last, self.below(last + 1));
        }
    }

    /// So many bytes, each drawn from a set.
    pub fn text(&mut self, set: &[u8], length: usize) -> String {
        (0..length).map(|_| char::from(self.pick(set))).collect()
    }

    /// So many bytes from 0x20 to 0x7E other than those kept out.
    pub fn printable(&mut self, length: usize, kept_out: &[u8]) -> String {
        let set: Vec<u8> = (0x20..=0x7E).filter(|byte| !kept_out.contains(byte)).collect();
        self.text(&set, length)
    }
}
