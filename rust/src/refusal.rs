//! The rows of refusals.
use std::error::Error;
use std::fmt;

/// A call that was refused, by the number of its row. Nothing was changed.
///
/// ```
/// use nidskalm::{EntrySet, Load, MoveGraph};
///
/// let load = Load { starts: &[0, 1], dependencies: &[0], hosts: &[], fixed: &[0] };
/// let refusal = MoveGraph::new(load, 2, &[EntrySet::from(0)]).unwrap_err();
/// assert_eq!(refusal.row(), 5);
/// assert_eq!(refusal.to_string(), "refused 5: a dependency is no atom, or the atom itself");
/// ```
#[derive(Clone, Copy, Debug, PartialEq, Eq, Hash, PartialOrd, Ord)]
pub struct Refusal(u64);

impl Refusal {
    /// The row's number, from 1.
    pub fn row(self) -> u64 {
        self.0
    }

    /// The row's condition in words.
    pub fn condition(self) -> &'static str {
        match self.0 {
            1 => "more than 512 atoms, 8,192 dependencies or 256 entry bits, or room for no more sets than atoms or over 1,024",
            2 => "a list of the load hasn't the length called for",
            3 => "the work area is too short",
            4 => "the starts don't begin at 0, fall, or don't end at the number of dependencies",
            5 => "a dependency is no atom, or the atom itself",
            6 => "a host is neither none nor an atom",
            7 => "an entry set has a bit at or above the number of entry bits",
            8 => "two atoms have equal sets",
            9 => "the move graph's area is inconsistent, or keeps another mark than is lent",
            10 => "there is no such atom",
            11 => "the set hasn't the right count of numbers, or has a bit at or above the number of entry bits",
            12 => "the target is the atom's present set",
            14 => "a size of the merge graph is over its limit, or there is room for no chunk",
            15 => "a list of the merge graph has a wrong length or faulty starts, or its area is too short",
            16 => "a module, key or set is out of range, or a chunk isn't made yet, or isn't initial where it must be",
            17 => "one set is named twice",
            18 => "there is no room for so many chunks",
            19 => "there is no room for another list entry",
            20 => "source and target are the same chunk",
            21 => "the merge graph's area is inconsistent",
            23 => "over 1,024 kinds or 4,096 modules, or a list with a wrong length, faulty starts, or a kind or index out of range",
            24 => "the atom is fixed",
            25 => "the entry classes aren't eight, one is neither 0 nor 1, or an odd one isn't 1",
            26 => "the entry bit is out of range, or the graph has a cycle",
            27 => "the list for the start order holds fewer numbers than there are atoms",
            28 => "a chunk has been merged away",
            _ => "no row of that number is known",
        }
    }

    /// The first fitting row of the library's (0 is none) and one that this crate alone can see.
    pub(crate) fn first(row: u64, fits: bool, own: u64) -> u64 {
        if fits && (row == 0 || row > own) {
            own
        } else {
            row
        }
    }

    /// The value, or the refusal that a reply holds.
    pub(crate) fn check<T>(row: u64, value: T) -> Result<T, Self> {
        if row == 0 {
            Ok(value)
        } else {
            Err(Self(row))
        }
    }
}

impl fmt::Display for Refusal {
    fn fmt(&self, out: &mut fmt::Formatter) -> fmt::Result {
        write!(out, "refused {}: {}", self.0, self.condition())
    }
}

impl Error for Refusal {}

#[cfg(test)]
mod tests {
    use super::Refusal;
    use std::collections::BTreeSet;

    #[test]
    fn every_row_has_words() {
        let unknown = Refusal(22).condition();
        assert_eq!(Refusal(13).condition(), unknown, "13 is no row any more");
        let mut seen = BTreeSet::from([unknown]);
        for row in (1..=12).chain(14..=21).chain(23..=28) {
            let words = Refusal(row).condition();
            assert!(!words.trim().is_empty(), "row {row} has no words");
            assert!(seen.insert(words), "row {row} has no words of its own");
            assert_eq!(Refusal(row).to_string(), format!("refused {row}: {words}"));
        }
    }

    /// tests/expected/refusals.txt has what the C function prints; tests/drivers.sh holds it to that.
    #[test]
    fn the_words_are_those_of_nidskalm_refusal() {
        let printed: Vec<&str> = include_str!("../../tests/expected/refusals.txt").lines().collect();
        assert_eq!(printed.len(), 65);
        assert_eq!(printed[0], "0: not refused");
        for row in (1..64).chain([u64::MAX]) {
            let line = format!("{row}: {}", Refusal(row).condition());
            assert!(printed.contains(&line.as_str()), "{line}");
        }
    }
}

/// Why two graphs have no ranking.
#[derive(Clone, Copy, Debug, PartialEq, Eq)]
pub enum RankError {
    /// The two have different loads, or different room for sets.
    OtherLoad,
    /// The call was refused.
    Refused(Refusal),
}

impl fmt::Display for RankError {
    fn fmt(&self, f: &mut fmt::Formatter) -> fmt::Result {
        match self {
            Self::OtherLoad => f.write_str("the two graphs have different loads, or different room for sets"),
            Self::Refused(refusal) => refusal.fmt(f),
        }
    }
}

impl Error for RankError {}
