//! Made-up inputs of the choice of a merge target, and what is compared on them.
use crate::library::Reply;
use crate::run::Random;
use crate::target_model::{Answer, Decided, Entries, Lists, Plant, choose};

/// One call.
#[derive(Clone, Debug)]
pub struct Case {
    pub entries: Entries,
    pub candidate: Vec<u32>,
    pub set: [u64; 4],
    /// A bank's own classes, for the call that takes them.
    pub classes: Option<Vec<u32>>,
}

/// The library under test.
pub type Call<'a> = &'a dyn Fn(&Case) -> Reply;

pub fn reply(answer: Answer) -> Reply {
    match answer {
        Err(row) => Reply::refused(row),
        Ok(None) => Reply::value(u64::from(u32::MAX)),
        Ok(Some(target)) => Reply::value(u64::from(target)),
    }
}

/// The model as a library, with a bug.
pub fn planted(plant: Plant) -> impl Fn(&Case) -> Reply {
    move |case| reply(choose(&case.entries, &case.candidate, case.set, case.classes.as_deref(), plant).0)
}

#[cfg(feature = "ours")]
pub fn ours(case: &Case) -> Reply {
    use crate::raw::{nidskalm_chunk_optimization_graph_merge_target, nidskalm_chunk_optimization_graph_merge_target_by_classes};
    let (entries, set) = (&case.entries, case.set);
    macro_rules! lent {
        ($($list:expr),*) => {
            // SAFETY: each pointer is a list's, followed by its length, and the lists are only read.
            match &case.classes {
                None => unsafe { nidskalm_chunk_optimization_graph_merge_target(
                    entries.k, entries.m, $($list.as_ptr(), $list.len(),)* set[0], set[1], set[2], set[3],
                ) },
                Some(classes) => unsafe { nidskalm_chunk_optimization_graph_merge_target_by_classes(
                    entries.k, entries.m, $($list.as_ptr(), $list.len(),)* set[0], set[1], set[2], set[3],
                    classes.as_ptr(), classes.len(),
                ) },
            }
        };
    }
    lent!(
        entries.kinds,
        entries.entry_modules,
        entries.modules.starts,
        entries.modules.items,
        entries.importers.starts,
        entries.importers.items,
        entries.dynamic_importers.starts,
        entries.dynamic_importers.items,
        entries.reached.starts,
        entries.reached.items,
        entries.side_effects,
        entries.observable_exports,
        case.candidate
    )
}

impl Case {
    /// What decided, or where the original, the model and the library differ.
    pub fn check(&self, library: Option<Call>) -> Result<Decided, String> {
        let (answer, decided) = choose(&self.entries, &self.candidate, self.set, self.classes.as_deref(), "");
        #[cfg(original)]
        if answer.is_ok() {
            let original = crate::target_original::choose(&self.recoded(), &self.candidate, self.set);
            if Ok(original) != answer {
                return Err(format!("the original says {original:?}, the model {answer:?}, for {self:?}"));
            }
        }
        if let Some(library) = library {
            let told = library(self);
            if told != reply(answer) {
                return Err(format!("the library says {told:?}, the model {answer:?}, for {self:?}"));
            }
        }
        Ok(decided)
    }

    /// The entries with kinds 1 for user entries and 0 for dynamic ones where the classes are lent: the original knows its own alone.
    pub fn recoded(&self) -> Entries {
        let mut entries = self.entries.clone();
        if let Some(classes) = &self.classes {
            for kind in entries.kinds.iter_mut().filter(|kind| **kind != 8) {
                *kind = classes[*kind as usize];
            }
        }
        entries
    }

    /// As numbers: README.md has the format.
    pub fn numbers(&self) -> Vec<u64> {
        let entries = &self.entries;
        let lists = |lists: &Lists| [&lists.starts[..], &lists.items[..]].concat();
        let parts = [
            entries.kinds.clone(),
            entries.entry_modules.clone(),
            lists(&entries.modules),
            lists(&entries.importers),
            lists(&entries.dynamic_importers),
            lists(&entries.reached),
            entries.side_effects.clone(),
            entries.observable_exports.clone(),
            vec![self.candidate.len() as u32],
            self.candidate.clone(),
        ];
        let told = reply(choose(entries, &self.candidate, self.set, self.classes.as_deref(), "").0);
        let numbers = parts.concat().into_iter().map(u64::from);
        [entries.k, entries.m].into_iter().chain(numbers).chain(self.set).chain([told.refusal, told.value]).collect()
    }
}

fn some(random: &mut Random, percent: u64, top: u64) -> Vec<u32> {
    let mut list: Vec<u32> = (0..top as u32).filter(|_| random.chance(percent)).collect();
    if !list.is_empty() && random.chance(10) {
        let again = random.pick(&list);
        list.push(again);
    }
    list
}

fn flags(random: &mut Random, percent: u64, count: u64) -> Vec<u32> {
    (0..count).map(|_| if random.chance(percent) { random.pick(&[1, 2, u32::MAX]) } else { 0 }).collect()
}

/// The bits below k, and now and then some past them.
fn some_set(random: &mut Random, percent: u64, k: u64) -> [u64; 4] {
    let mut set = [0; 4];
    for bit in 0..256u64 {
        if random.chance(if bit < k { percent } else { 2 }) {
            set[bit as usize / 64] |= 1 << (bit % 64);
        }
    }
    set
}

/// Lists of up to k chunks and m modules that aren't refused. Each list is sparse or dense by a chance of its own, so that every
/// guard decides often.
pub fn made_up(random: &mut Random, k: u64, m: u64) -> Case {
    let kinds = random.pick(&[
        &[1, 2, 4, 5, 3, 6, 7][..],
        &[0, 2],
        &[0, 2, 2, 2, 8],
        &[1, 2, 2, 2],
        &[4, 2, 1, 0],
        &[0, 1, 2, 3, 4, 5, 6, 7, 8],
    ]);
    let kinds: Vec<u32> = (0..k).map(|_| random.pick(kinds)).collect();
    let chance = |random: &mut Random| random.pick(&[0, 5, 30, 60, 90, 100]);
    let modules_of = chance(random);
    let (static_by, dynamic_by, reach) =
        (random.pick(&[30, 60, 90, 97, 100]), chance(random), random.pick(&[30, 60, 90, 97, 100]));
    let lists = |random: &mut Random, count: u64, percent: u64, top: u64| {
        Lists::of(&(0..count).map(|_| some(random, percent, top)).collect::<Vec<_>>())
    };
    let same_module = random.chance(15);
    let entry_modules = (0..k as usize)
        .map(|place| {
            if kinds[place] == 8 && random.chance(50) {
                random.odd_number()
            } else if same_module {
                0
            } else {
                random.below(m) as u32
            }
        })
        .collect();
    // Reached lists of one chunk only, often: side effects don't leak there.
    let mut reached: Vec<Vec<u32>> = (0..k).map(|_| some(random, reach, k)).collect();
    if random.chance(50) && k > 0 {
        let only = random.index(k as usize);
        for (place, list) in reached.iter_mut().enumerate() {
            if place != only {
                list.clear();
            }
        }
    }
    let effects = chance(random);
    let exports = chance(random);
    let entries = Entries {
        k,
        m,
        entry_modules,
        modules: lists(random, k, modules_of, m),
        importers: lists(random, m, static_by, m),
        dynamic_importers: lists(random, m, dynamic_by, m),
        reached: Lists::of(&reached),
        side_effects: flags(random, effects, k),
        observable_exports: flags(random, exports, m),
        kinds,
    };
    let candidate = chance(random);
    let candidate = some(random, candidate, m);
    let percent = random.pick(&[20, 50, 80, 100]);
    let set = some_set(random, percent, k);
    Case { entries, candidate, set, classes: None }
}

/// Classes with odd rows 1, now and then with one thing wrong.
pub fn some_classes(random: &mut Random) -> Vec<u32> {
    let mut classes: Vec<u32> = (0..8).map(|row| if row % 2 == 1 { 1 } else { random.below(2) as u32 }).collect();
    match random.below(24) {
        0 => drop(classes.pop()),
        1 => classes.push(1),
        2 => classes[random.index(8)] = random.odd_number(),
        3 => classes[2 * random.index(4) + 1] = 0,
        _ => {}
    }
    classes
}

/// A case with one thing wrong, or perhaps nothing.
pub fn damaged(random: &mut Random, case: &Case) -> Case {
    let mut case = case.clone();
    let odd = random.odd_number();
    let what = random.below(16);
    let entries = &mut case.entries;
    let list = match what {
        0 => {
            entries.k = random.pick(&[entries.k + 1, entries.k.wrapping_sub(1), 1025, u64::MAX]);
            return case;
        }
        1 => {
            entries.m = random.pick(&[entries.m + 1, entries.m.wrapping_sub(1), 4097, u64::MAX]);
            return case;
        }
        2 => &mut entries.kinds,
        3 => &mut entries.entry_modules,
        4 => &mut entries.modules.starts,
        5 => &mut entries.modules.items,
        6 => &mut entries.importers.starts,
        7 => &mut entries.importers.items,
        8 => &mut entries.dynamic_importers.starts,
        9 => &mut entries.dynamic_importers.items,
        10 => &mut entries.reached.starts,
        11 => &mut entries.reached.items,
        12 => &mut entries.side_effects,
        13 => &mut entries.observable_exports,
        _ => &mut case.candidate,
    };
    match random.below(4) {
        0 => list.push(odd),
        1 => drop(list.pop()),
        _ if list.is_empty() => {}
        _ => {
            let place = random.index(list.len());
            list[place] = random.pick(&[odd, list[place].wrapping_add(1), list[place].wrapping_sub(1), 8]);
        }
    }
    case
}

/// The largest lists that are answered, or one chunk or module more.
pub fn limit(k: u64, m: u64) -> Case {
    let lists =
        |count: u64, top: u64| Lists::of(&(0..count).map(|place| vec![(place % top) as u32; 2]).collect::<Vec<_>>());
    let entries = Entries {
        k,
        m,
        kinds: (0..k).map(|place| if place < 128 { 1 } else { 2 }).collect(),
        entry_modules: vec![0; k as usize],
        modules: lists(k, m),
        importers: lists(m, m),
        dynamic_importers: Lists::of(&vec![vec![]; m as usize]),
        reached: Lists::of(
            &(0..k).map(|place| if place == 0 { (0..k as u32).collect() } else { vec![] }).collect::<Vec<_>>(),
        ),
        side_effects: vec![1; k as usize],
        observable_exports: vec![1; m as usize],
    };
    Case { entries, candidate: vec![0, m as u32 - 1], set: [u64::MAX; 4], classes: None }
}
