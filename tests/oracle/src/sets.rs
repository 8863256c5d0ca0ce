//! A set of up to 256 entry bits, ordered as a number.
use std::cmp::Ordering;

#[derive(Clone, Copy, Debug, Default, PartialEq, Eq, Hash)]
pub struct Set(pub [u64; 4]);

impl Set {
    pub fn from_words(words: &[u64]) -> Self {
        let mut set = [0; 4];
        set[..words.len()].copy_from_slice(words);
        Self(set)
    }

    pub fn single(bit: usize) -> Self {
        let mut set = [0; 4];
        set[bit / 64] = 1 << (bit % 64);
        Self(set)
    }

    /// Whether every bit is below `bits`.
    pub fn below(self, bits: u64) -> bool {
        (0..256).all(|bit| bit < bits || self.0[(bit / 64) as usize] >> (bit % 64) & 1 == 0)
    }

    /// The eight 32-bit words, lowest first.
    pub fn halves(self) -> [u32; 8] {
        std::array::from_fn(|place| (self.0[place / 2] >> (32 * (place % 2))) as u32)
    }

    pub fn from_halves(halves: [u32; 8]) -> Self {
        Self(std::array::from_fn(|place| u64::from(halves[2 * place]) | u64::from(halves[2 * place + 1]) << 32))
    }
}

impl Ord for Set {
    fn cmp(&self, other: &Self) -> Ordering {
        self.0.iter().rev().cmp(other.0.iter().rev())
    }
}

impl PartialOrd for Set {
    fn partial_cmp(&self, other: &Self) -> Option<Ordering> {
        Some(self.cmp(other))
    }
}

/// Numbers of 64 bits that a set of `e` bits takes.
pub fn width(e: u64) -> u64 {
    e.div_ceil(64)
}

/// The set that lent words hold, or none where row 11 fits.
pub fn lent_set(words: &[u64], e: u64) -> Option<Set> {
    if words.len() as u64 != width(e) {
        return None;
    }
    let set = Set::from_words(words);
    set.below(e).then_some(set)
}

/// The numbers that lend a set of `e` bits.
pub fn words(set: Set, e: u64) -> Vec<u64> {
    set.0[..width(e) as usize].to_vec()
}
