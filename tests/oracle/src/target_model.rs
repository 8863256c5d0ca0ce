//! Document 02's requests (i) and (iv), in the reading of docs/DECISIONS.md, worked out plainly: the choice of a merge target.

/// Lists in one: list i is `items[starts[i]..starts[i + 1]]`.
#[derive(Clone, Debug, Default, PartialEq, Eq)]
pub struct Lists {
    pub starts: Vec<u32>,
    pub items: Vec<u32>,
}

impl Lists {
    pub fn of(lists: &[Vec<u32>]) -> Self {
        let mut made = Self { starts: vec![0], items: vec![] };
        for list in lists {
            made.items.extend(list);
            made.starts.push(made.items.len() as u32);
        }
        made
    }

    pub fn list(&self, place: usize) -> &[u32] {
        &self.items[self.starts[place] as usize..self.starts[place + 1] as usize]
    }

    /// The length of the starts is wrong, they are faulty, or an item isn't below `top`.
    fn bad(&self, count: u64, top: u64) -> bool {
        self.starts.len() as u64 != count + 1
            || self.starts[0] != 0
            || self.starts.windows(2).any(|pair| pair[1] < pair[0])
            || self.starts[count as usize] as usize != self.items.len()
            || self.items.iter().any(|&item| u64::from(item) >= top)
    }
}

/// What the choice is lent beside the candidate's modules and set.
#[derive(Clone, Debug, Default, PartialEq, Eq)]
pub struct Entries {
    pub k: u64,
    pub m: u64,
    pub kinds: Vec<u32>,
    pub entry_modules: Vec<u32>,
    pub modules: Lists,
    pub importers: Lists,
    pub dynamic_importers: Lists,
    pub reached: Lists,
    pub side_effects: Vec<u32>,
    pub observable_exports: Vec<u32>,
}

/// What decided a choice.
#[derive(Clone, Copy, Debug, PartialEq, Eq, Hash, PartialOrd, Ord)]
pub enum Decided {
    Refused,
    ClassesRefused,
    Common,
    NoEntry,
    UserNotImported,
    DynamicNotImported,
    Exports,
    Unreached,
    Leak,
    Importers,
    DynamicFound,
    UserFound,
}

/// Refusal 23 or 25, as a row's number, or the target.
pub type Answer = Result<Option<u32>, u64>;

/// A bug planted for the self-test; the model proper has `""`.
pub type Plant = &'static str;

pub const PLANTS: [Plant; 14] = [
    "the last wins",
    "the same module must import itself",
    "the next entry after a guard",
    "leaks by named chunks only",
    "leaks without side effects",
    "all the candidate's modules are an importer's home",
    "the target's own exports bar it",
    "a common chunk is skipped",
    "an emitted entry is dynamic",
    "a common chunk's entry module is read",
    "bits from 64 on name nothing",
    "an odd class is free",
    "25 before 23",
    "lent classes are ignored",
];

/// The class of each entry kind: 1 for user entries, which have bit 1 or 4.
pub const BUILT_IN: [u32; 8] = [0, 1, 0, 1, 1, 1, 1, 1];

fn row25(classes: &[u32], plant: Plant) -> bool {
    classes.len() != 8
        || classes.iter().any(|&class| class > 1)
        || plant != "an odd class is free" && classes.iter().skip(1).step_by(2).any(|&class| class != 1)
}

fn row23(entries: &Entries, candidate: &[u32], plant: Plant) -> bool {
    let (k, m) = (entries.k, entries.m);
    let reads = |kind: u32| kind != 8 || plant == "a common chunk's entry module is read";
    k > 1024
        || m > 4096
        || entries.kinds.len() as u64 != k
        || entries.entry_modules.len() as u64 != k
        || entries.side_effects.len() as u64 != k
        || entries.observable_exports.len() as u64 != m
        || entries.modules.bad(k, m)
        || entries.importers.bad(m, m)
        || entries.dynamic_importers.bad(m, m)
        || entries.reached.bad(k, k)
        || entries.kinds.iter().any(|&kind| kind > 8)
        || entries.kinds.iter().zip(&entries.entry_modules).any(|(&kind, &at)| reads(kind) && u64::from(at) >= m)
        || candidate.iter().any(|&at| u64::from(at) >= m)
}

/// Which named chunks are user entries, and which dynamic ones; none where a common chunk is named.
fn split(entries: &Entries, set: [u64; 4], classes: &[u32], plant: Plant) -> Option<(Vec<u32>, Vec<u32>)> {
    let bits = if plant == "bits from 64 on name nothing" { 64 } else { 256 };
    let (mut users, mut dynamic) = (vec![], vec![]);
    for bit in (0..bits).filter(|&bit| u64::from(bit) < entries.k && set[bit as usize / 64] >> (bit % 64) & 1 == 1) {
        match entries.kinds[bit as usize] {
            8 if plant == "a common chunk is skipped" => {}
            8 => return None,
            4 | 6 if plant == "an emitted entry is dynamic" => dynamic.push(bit),
            kind if classes[kind as usize] == 1 => users.push(bit),
            _ => dynamic.push(bit),
        }
    }
    Some((users, dynamic))
}

/// The guards of a user entry, each with the name of what it decides.
fn user_guard(
    entries: &Entries,
    candidate: &[u32],
    target: u32,
    users: &[u32],
    dynamic: &[u32],
    plant: Plant,
) -> Option<Decided> {
    let reaches = |chunk: u32, entry: &u32| entries.reached.list(chunk as usize).contains(entry);
    if !dynamic.iter().all(|entry| reaches(target, entry)) {
        return Some(Decided::Unreached);
    }
    let effects = entries.side_effects[target as usize] != 0 || plant == "leaks without side effects";
    let named = |chunk: &u32| plant != "leaks by named chunks only" || users.contains(chunk) || dynamic.contains(chunk);
    let others = (0..entries.k as u32).filter(|&chunk| chunk != target).filter(named);
    if effects && others.into_iter().any(|chunk| dynamic.iter().any(|entry| reaches(chunk, entry))) {
        return Some(Decided::Leak);
    }
    let nobody = |module: u32| entries.dynamic_importers.list(module as usize).is_empty();
    let anyway = plant == "all the candidate's modules are an importer's home";
    let there = |module: &u32| {
        entries.modules.list(target as usize).contains(module)
            || candidate.contains(module) && (nobody(*module) || anyway)
    };
    let importers = |module: &u32| entries.dynamic_importers.list(*module as usize);
    if !candidate.iter().flat_map(importers).all(there) {
        return Some(Decided::Importers);
    }
    None
}

fn exports_guard(entries: &Entries, candidate: &[u32], target: u32, dynamic: &[u32], plant: Plant) -> Option<Decided> {
    let own = entries.entry_modules[target as usize];
    let entry = |module: u32| dynamic.iter().any(|&chunk| entries.entry_modules[chunk as usize] == module);
    let other = |module: u32| module != own || plant == "the target's own exports bar it";
    let shows = |module: u32| entries.observable_exports[module as usize] != 0;
    candidate.iter().any(|&module| other(module) && entry(module) && shows(module)).then_some(Decided::Exports)
}

/// The answer, and what decided it; `classes` where a bank lends its own.
pub fn choose(
    entries: &Entries,
    candidate: &[u32],
    set: [u64; 4],
    classes: Option<&[u32]>,
    plant: Plant,
) -> (Answer, Decided) {
    let faulty = classes.is_some_and(|classes| row25(classes, plant));
    if faulty && plant == "25 before 23" {
        return (Err(25), Decided::ClassesRefused);
    }
    if row23(entries, candidate, plant) {
        return (Err(23), Decided::Refused);
    }
    if faulty {
        return (Err(25), Decided::ClassesRefused);
    }
    let own = classes.filter(|_| plant != "lent classes are ignored");
    let Some((users, dynamic)) = split(entries, set, own.unwrap_or(&BUILT_IN), plant) else {
        return (Ok(None), Decided::Common);
    };
    let user = !users.is_empty();
    let these = if user { &users } else { &dynamic };
    if these.is_empty() {
        return (Ok(None), Decided::NoEntry);
    }
    let module = |chunk: u32| entries.entry_modules[chunk as usize];
    let imports = |other: u32, target: u32| {
        entries.importers.list(module(target) as usize).contains(&module(other))
            || module(other) == module(target) && plant != "the same module must import itself"
    };
    let mut winners: Vec<u32> =
        these.iter().copied().filter(|&target| these.iter().all(|&other| imports(other, target))).collect();
    if plant == "the last wins" {
        winners.reverse();
    }
    let missed = if user { Decided::UserNotImported } else { Decided::DynamicNotImported };
    let mut why = missed;
    for target in winners {
        let barred = if user {
            user_guard(entries, candidate, target, &users, &dynamic, plant)
        } else {
            exports_guard(entries, candidate, target, &dynamic, plant)
        };
        match barred {
            None => return (Ok(Some(target)), if user { Decided::UserFound } else { Decided::DynamicFound }),
            Some(guard) => why = guard,
        }
        if plant != "the next entry after a guard" {
            break;
        }
    }
    (Ok(None), why)
}
