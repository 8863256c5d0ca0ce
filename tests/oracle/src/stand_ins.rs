//! Stand-ins for what the original's files import. Each module has the imported crate's name; README.md lists them.

/// `rolldown_utils`: a set of bits, and a map that keeps the order of insertion.
pub mod rolldown_utils {
    #[derive(Clone, Debug, Default, PartialEq, Eq, Hash, PartialOrd, Ord)]
    pub struct BitSet {
        words: Vec<u64>,
    }

    impl BitSet {
        pub fn from_words(words: &[u64]) -> Self {
            Self { words: words.to_vec() }
        }

        pub fn words(&self) -> &[u64] {
            &self.words
        }

        pub fn bit_count(&self) -> u32 {
            self.words.iter().map(|word| word.count_ones()).sum()
        }

        pub fn index_of_one(&self) -> impl Iterator<Item = u32> + '_ {
            (0..64 * self.words.len() as u32).filter(|bit| self.words[(bit / 64) as usize] >> (bit % 64) & 1 == 1)
        }
    }

    pub mod indexmap {
        use std::hash::Hash;

        use super::super::rustc_hash::FxHashMap;

        #[derive(Debug)]
        pub struct FxIndexMap<K, V> {
            entries: Vec<(K, V)>,
            places: FxHashMap<K, usize>,
        }

        impl<K, V> Default for FxIndexMap<K, V> {
            fn default() -> Self {
                Self { entries: vec![], places: FxHashMap::default() }
            }
        }

        impl<K: Clone + Eq + Hash + Ord, V> FxIndexMap<K, V> {
            pub fn get(&self, key: &K) -> Option<&V> {
                self.places.get(key).map(|&place| &self.entries[place].1)
            }

            pub fn insert(&mut self, key: K, value: V) {
                if let Some(&place) = self.places.get(&key) {
                    self.entries[place].1 = value;
                } else {
                    self.places.insert(key.clone(), self.entries.len());
                    self.entries.push((key, value));
                }
            }

            pub fn iter(&self) -> impl Iterator<Item = (&K, &V)> {
                self.entries.iter().map(|(key, value)| (key, value))
            }

            pub fn sort_unstable_keys(&mut self) {
                self.entries.sort_unstable_by(|left, right| left.0.cmp(&right.0));
                for (place, (key, _)) in self.entries.iter().enumerate() {
                    *self.places.get_mut(key).unwrap() = place;
                }
            }
        }

        impl<K: Clone + Eq + Hash + Ord, V> FromIterator<(K, V)> for FxIndexMap<K, V> {
            fn from_iter<I: IntoIterator<Item = (K, V)>>(pairs: I) -> Self {
                let mut map = Self::default();
                for (key, value) in pairs {
                    map.insert(key, value);
                }
                map
            }
        }
    }
}

/// `rustc_hash`: std's maps with a multiplying hasher.
pub mod rustc_hash {
    use std::collections::{HashMap, HashSet};
    use std::hash::{BuildHasherDefault, Hasher};

    #[derive(Clone, Copy, Default)]
    pub struct FxHasher(u64);

    impl FxHasher {
        fn mix(&mut self, word: u64) {
            self.0 = (self.0.rotate_left(5) ^ word).wrapping_mul(0x517c_c1b7_2722_0a95);
        }
    }

    impl Hasher for FxHasher {
        fn write(&mut self, bytes: &[u8]) {
            for part in bytes.chunks(8) {
                let mut word = [0; 8];
                word[..part.len()].copy_from_slice(part);
                self.mix(u64::from_le_bytes(word));
            }
        }

        fn write_u32(&mut self, number: u32) {
            self.mix(u64::from(number));
        }

        fn write_u64(&mut self, number: u64) {
            self.mix(number);
        }

        fn write_usize(&mut self, number: usize) {
            self.mix(number as u64);
        }

        fn finish(&self) -> u64 {
            self.0.rotate_left(26)
        }
    }

    pub type FxHashMap<K, V> = HashMap<K, V, BuildHasherDefault<FxHasher>>;
    pub type FxHashSet<K> = HashSet<K, BuildHasherDefault<FxHasher>>;
}

/// `smallvec`: a vector that keeps one item without allocating.
pub mod smallvec {
    use std::ops::{Deref, DerefMut};

    pub trait Array {
        type Item: Copy + Default;
    }

    impl<T: Copy + Default> Array for [T; 1] {
        type Item = T;
    }

    #[derive(Clone)]
    pub enum SmallVec<A: Array> {
        One { used: usize, item: [A::Item; 1] },
        Many(Vec<A::Item>),
    }

    impl<A: Array> SmallVec<A> {
        pub fn new() -> Self {
            Self::One { used: 0, item: [A::Item::default()] }
        }

        pub fn push(&mut self, item: A::Item) {
            match self {
                Self::One { used: used @ 0, item: place } => (*used, place[0]) = (1, item),
                Self::One { item: first, .. } => *self = Self::Many(vec![first[0], item]),
                Self::Many(items) => items.push(item),
            }
        }

        pub fn extend(&mut self, items: impl IntoIterator<Item = A::Item>) {
            for item in items {
                self.push(item);
            }
        }

        pub fn dedup(&mut self)
        where
            A::Item: PartialEq,
        {
            if let Self::Many(items) = self {
                items.dedup();
            }
        }
    }

    impl<A: Array> Deref for SmallVec<A> {
        type Target = [A::Item];

        fn deref(&self) -> &[A::Item] {
            match self {
                Self::One { used, item } => &item[..*used],
                Self::Many(items) => items,
            }
        }
    }

    impl<A: Array> DerefMut for SmallVec<A> {
        fn deref_mut(&mut self) -> &mut [A::Item] {
            match self {
                Self::One { used, item } => &mut item[..*used],
                Self::Many(items) => items,
            }
        }
    }

    impl<'a, A: Array> IntoIterator for &'a SmallVec<A> {
        type Item = &'a A::Item;
        type IntoIter = std::slice::Iter<'a, A::Item>;

        fn into_iter(self) -> Self::IntoIter {
            self.iter()
        }
    }
}

/// `oxc_index`: a vector indexed by one index type.
pub mod oxc_index {
    use std::marker::PhantomData;
    use std::ops::{Index, IndexMut};

    pub trait Idx: Copy {
        fn from_raw(number: u32) -> Self;
        fn raw(self) -> u32;
    }

    #[derive(Debug)]
    pub struct IndexVec<I, T> {
        items: Vec<T>,
        index: PhantomData<I>,
    }

    impl<I, T> Default for IndexVec<I, T> {
        fn default() -> Self {
            Self::from_vec(vec![])
        }
    }

    impl<I, T> IndexVec<I, T> {
        pub fn from_vec(items: Vec<T>) -> Self {
            Self { items, index: PhantomData }
        }

        pub fn len(&self) -> usize {
            self.items.len()
        }

        pub fn iter(&self) -> std::slice::Iter<'_, T> {
            self.items.iter()
        }
    }

    impl<I: Idx, T> IndexVec<I, T> {
        pub fn push(&mut self, item: T) -> I {
            self.items.push(item);
            I::from_raw(self.items.len() as u32 - 1)
        }

        pub fn get(&self, index: I) -> Option<&T> {
            self.items.get(index.raw() as usize)
        }

        pub fn indices(&self) -> impl Iterator<Item = I> + use<I, T> {
            (0..self.items.len() as u32).map(I::from_raw)
        }

        pub fn iter_enumerated(&self) -> impl Iterator<Item = (I, &T)> {
            self.items.iter().enumerate().map(|(place, item)| (I::from_raw(place as u32), item))
        }
    }

    impl<I: Idx, T> Index<I> for IndexVec<I, T> {
        type Output = T;

        fn index(&self, index: I) -> &T {
            &self.items[index.raw() as usize]
        }
    }

    impl<I: Idx, T> IndexMut<I> for IndexVec<I, T> {
        fn index_mut(&mut self, index: I) -> &mut T {
            &mut self.items[index.raw() as usize]
        }
    }

    impl<I, T> FromIterator<T> for IndexVec<I, T> {
        fn from_iter<Items: IntoIterator<Item = T>>(items: Items) -> Self {
            Self::from_vec(items.into_iter().collect())
        }
    }

    #[cfg(original)]
    macro_rules! index_vec {
        ($item:expr; $count:expr) => {
            IndexVec::from_vec(vec![$item; $count])
        };
    }
    #[cfg(original)]
    pub(crate) use index_vec;
}

/// `rolldown_common`: the index types, and modules of which only the side effects are known.
pub mod rolldown_common {
    use super::oxc_index::{Idx, IndexVec};

    macro_rules! index_type {
        ($name:ident) => {
            #[derive(Clone, Copy, Debug, PartialEq, Eq, Hash, PartialOrd, Ord)]
            pub struct $name(u32);

            impl Idx for $name {
                fn from_raw(number: u32) -> Self {
                    Self(number)
                }

                fn raw(self) -> u32 {
                    self.0
                }
            }
        };
    }
    index_type!(ChunkIdx);
    index_type!(ModuleIdx);

    #[derive(Clone, Copy)]
    pub struct SideEffects(pub bool);

    impl SideEffects {
        pub fn has_side_effects(self) -> bool {
            self.0
        }
    }

    pub struct Module(pub SideEffects);

    impl Module {
        pub fn side_effects(&self) -> SideEffects {
            self.0
        }
    }

    pub type ModuleTable = IndexVec<ModuleIdx, Module>;
}

/// The original's `crate::chunk_graph` and `crate::types::linking_metadata`, with the fields that are read.
pub mod rolldown {
    use super::oxc_index::IndexVec;
    use super::rolldown_common::{ChunkIdx, ModuleIdx};

    pub struct Chunk {
        pub modules: Vec<ModuleIdx>,
    }

    pub struct ChunkGraph {
        pub chunk_table: IndexVec<ChunkIdx, Chunk>,
        pub module_to_chunk: IndexVec<ModuleIdx, Option<ChunkIdx>>,
    }

    pub struct LinkingMetadata {
        pub dependencies: Vec<ModuleIdx>,
    }
}
