//! Numbers by chance; the same seed gives the same numbers.

/// splitmix64: small, and good enough to choose test cases with.
#[derive(Clone)]
pub struct Rng(u64);

/// Where sequence arithmetic and 32-bit fields change their behaviour.
pub const EDGES: [u32; 10] = [
    0,
    1,
    2,
    0x7fff_fffe,
    0x7fff_ffff,
    0x8000_0000,
    0x8000_0001,
    0xffff_fffd,
    0xffff_fffe,
    0xffff_ffff,
];

impl Rng {
    pub fn new(seed: u64) -> Rng {
        Rng(seed)
    }

    /// Each case has its own numbers, so that case `index` is the same however
    /// many threads there are and wherever a run begins.
    pub fn of_case(seed: u64, kind: &str, index: u64) -> Rng {
        let mut rng = Rng(seed);
        for octet in kind.bytes() {
            rng.0 = rng.next() ^ octet as u64;
        }
        rng.0 = rng.next() ^ index;
        rng.next();
        rng
    }

    pub fn next(&mut self) -> u64 {
        self.0 = self.0.wrapping_add(0x9e37_79b9_7f4a_7c15);
        let mut z = self.0;
        z = (z ^ (z >> 30)).wrapping_mul(0xbf58_476d_1ce4_e5b9);
        z = (z ^ (z >> 27)).wrapping_mul(0x94d0_49bb_1331_11eb);
        z ^ (z >> 31)
    }

    /// 0 to n - 1; n is not 0.
    pub fn below(&mut self, n: usize) -> usize {
        (self.next() % n as u64) as usize
    }

    /// low to high, both included.
    pub fn between(&mut self, low: usize, high: usize) -> usize {
        low + self.below(high - low + 1)
    }

    pub fn one_in(&mut self, n: usize) -> bool {
        self.below(n) == 0
    }

    pub fn pick<T: Copy>(&mut self, among: &[T]) -> T {
        among[self.below(among.len())]
    }

    pub fn octet(&mut self) -> u8 {
        (self.next() >> 32) as u8
    }

    pub fn word(&mut self) -> u16 {
        (self.next() >> 32) as u16
    }

    pub fn octets(&mut self, n: usize) -> Vec<u8> {
        let mut octets = Vec::with_capacity(n + 8);
        while octets.len() < n {
            octets.extend(self.next().to_le_bytes());
        }
        octets.truncate(n);
        octets
    }

    /// A 32-bit number, every other time an edge.
    pub fn number(&mut self) -> u32 {
        if self.one_in(2) {
            self.pick(&EDGES)
        } else {
            self.next() as u32
        }
    }

    /// A 16-bit number, every third time an edge.
    pub fn short(&mut self) -> u16 {
        if self.one_in(3) {
            self.pick(&[0, 1, 0x7fff, 0x8000, 0xfffe, 0xffff])
        } else {
            self.word()
        }
    }
}
