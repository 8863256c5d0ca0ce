//! Sets of entry bits.
use std::fmt;
use std::iter::FusedIterator;
use std::ops::{BitAnd, BitAndAssign, BitOr, BitOrAssign};

/// A set of entry bits 0 to 255, ordered as a number.
///
/// ```
/// use nidskalm::EntrySet;
///
/// let set = EntrySet::from_bits([0, 64]);
/// assert_eq!(set, EntrySet::from_words([1, 1, 0, 0]));
/// assert_eq!(set.bits().collect::<Vec<_>>(), [0, 64]);
/// assert!(EntrySet::from(u64::MAX) < set);
/// ```
///
/// Sets are joined by `|`, cut by `&`, collected from bits, gone through by `for` and shown by their bits:
///
/// ```
/// use nidskalm::EntrySet;
///
/// let shared: EntrySet = [7, 0, 3].into_iter().collect();
/// assert_eq!(shared.to_string(), "{0, 3, 7}");
/// assert_eq!((shared | EntrySet::from_bits([200])).to_string(), "{0, 3, 7, 200}");
/// assert_eq!((shared & EntrySet::from(9)).to_string(), "{0, 3}");
/// for bit in shared {
///     assert!(shared.contains(bit));
/// }
/// ```
#[derive(Clone, Copy, Debug, Default, PartialEq, Eq, Hash)]
pub struct EntrySet {
    words: [u64; 4],
}

impl EntrySet {
    /// A set from its four numbers, bit 0 lowest in the first.
    pub const fn from_words(words: [u64; 4]) -> Self {
        Self { words }
    }

    /// The set of some bits below 256. Panics on a higher one.
    pub fn from_bits(bits: impl IntoIterator<Item = u32>) -> Self {
        let mut words = [0; 4];
        for bit in bits {
            assert!(bit < 256, "entry bit {bit} is above 255");
            words[bit as usize / 64] |= 1 << (bit % 64);
        }
        Self { words }
    }

    /// The four numbers.
    pub const fn words(self) -> [u64; 4] {
        self.words
    }

    /// The bits, rising.
    pub const fn bits(self) -> Bits {
        Bits { words: self.words }
    }

    /// Whether a bit is in the set; false from 256 on.
    ///
    /// ```
    /// use nidskalm::EntrySet;
    ///
    /// let set = EntrySet::from_bits([3, 130]);
    /// assert!(set.contains(3) && set.contains(130));
    /// assert!(!set.contains(2) && !set.contains(256) && !set.contains(u32::MAX));
    /// ```
    pub fn contains(self, bit: u32) -> bool {
        bit < 256 && self.words[bit as usize / 64] >> (bit % 64) & 1 == 1
    }

    /// How many bits the set has.
    ///
    /// ```
    /// assert_eq!(nidskalm::EntrySet::from_bits([3, 130, 3]).len(), 2);
    /// ```
    pub fn len(self) -> usize {
        self.words.iter().map(|word| word.count_ones() as usize).sum()
    }

    /// Whether the set has no bit.
    ///
    /// ```
    /// use nidskalm::EntrySet;
    ///
    /// assert!(EntrySet::default().is_empty());
    /// assert!(!EntrySet::from_bits([255]).is_empty());
    /// ```
    pub fn is_empty(self) -> bool {
        self.words == [0; 4]
    }

    /// The numbers to lend where there are `entry_bits`: all four where fewer would cut a bit off, and so be accepted.
    pub(crate) fn lent(&self, entry_bits: usize) -> &[u64] {
        let width = entry_bits.div_ceil(64).min(4);
        if self.fits(width) {
            &self.words[..width]
        } else {
            &self.words
        }
    }

    pub(crate) fn fits(&self, width: usize) -> bool {
        self.words[width.min(4)..].iter().all(|&word| word == 0)
    }

    /// Number by number.
    fn zip(self, other: Self, each: impl Fn(u64, u64) -> u64) -> Self {
        Self { words: std::array::from_fn(|place| each(self.words[place], other.words[place])) }
    }
}

/// The sets as one list of `width` numbers each, and whether that cut no bit off.
pub(crate) fn flat(sets: &[EntrySet], width: usize) -> (Vec<u64>, bool) {
    let width = width.min(4);
    let list = sets.iter().flat_map(|set| set.words[..width].iter().copied()).collect();
    (list, sets.iter().all(|set| set.fits(width)))
}

/// The bits of an [`EntrySet`], rising.
///
/// ```
/// use nidskalm::EntrySet;
///
/// let mut bits = EntrySet::from_bits([9, 70]).bits();
/// assert_eq!((bits.len(), bits.next(), bits.next(), bits.next()), (2, Some(9), Some(70), None));
/// ```
#[derive(Clone, Debug)]
pub struct Bits {
    words: [u64; 4],
}

impl Iterator for Bits {
    type Item = u32;

    fn next(&mut self) -> Option<u32> {
        let place = self.words.iter().position(|&word| word != 0)?;
        let bit = self.words[place].trailing_zeros();
        self.words[place] &= self.words[place] - 1;
        Some(place as u32 * 64 + bit)
    }

    fn size_hint(&self) -> (usize, Option<usize>) {
        let left = EntrySet { words: self.words }.len();
        (left, Some(left))
    }
}

impl ExactSizeIterator for Bits {}

impl FusedIterator for Bits {}

impl IntoIterator for EntrySet {
    type Item = u32;
    type IntoIter = Bits;

    fn into_iter(self) -> Bits {
        self.bits()
    }
}

impl IntoIterator for &EntrySet {
    type Item = u32;
    type IntoIter = Bits;

    fn into_iter(self) -> Bits {
        self.bits()
    }
}

impl FromIterator<u32> for EntrySet {
    /// As [`from_bits`](EntrySet::from_bits): panics on a bit from 256 on.
    fn from_iter<I: IntoIterator<Item = u32>>(bits: I) -> Self {
        Self::from_bits(bits)
    }
}

impl fmt::Display for EntrySet {
    fn fmt(&self, out: &mut fmt::Formatter) -> fmt::Result {
        let bits: Vec<String> = self.bits().map(|bit| bit.to_string()).collect();
        out.pad(&format!("{{{}}}", bits.join(", ")))
    }
}

impl BitOr for EntrySet {
    type Output = Self;

    fn bitor(self, other: Self) -> Self {
        self.zip(other, |mine, theirs| mine | theirs)
    }
}

impl BitAnd for EntrySet {
    type Output = Self;

    fn bitand(self, other: Self) -> Self {
        self.zip(other, |mine, theirs| mine & theirs)
    }
}

impl BitOrAssign for EntrySet {
    fn bitor_assign(&mut self, other: Self) {
        *self = *self | other;
    }
}

impl BitAndAssign for EntrySet {
    fn bitand_assign(&mut self, other: Self) {
        *self = *self & other;
    }
}

impl From<u64> for EntrySet {
    /// The set of the number's bits.
    fn from(low: u64) -> Self {
        Self { words: [low, 0, 0, 0] }
    }
}

impl Ord for EntrySet {
    fn cmp(&self, other: &Self) -> std::cmp::Ordering {
        self.words.iter().rev().cmp(other.words.iter().rev())
    }
}

impl PartialOrd for EntrySet {
    fn partial_cmp(&self, other: &Self) -> Option<std::cmp::Ordering> {
        Some(self.cmp(other))
    }
}
