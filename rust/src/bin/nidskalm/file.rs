//! The plain text form of a load (README.md, "A file for the tool").
use nidskalm::{EntrySet, OwnedLoad};
use std::collections::BTreeMap;

/// The library's limits.
const ATOMS: usize = 512;
const DEPENDENCIES: usize = 8192;
const ENTRIES: usize = 256;

/// What is said of a file that is over one.
fn over(limit: usize, things: &str) -> String {
    format!("more than {limit} {things}, the library's limit (README.md, \"Over the limits\")")
}

/// What is wrong with a file, and in which line, from 1.
pub struct Fault {
    pub line: usize,
    pub what: String,
}

/// An entry bit: the atom that hosts it, if any, and its name.
pub struct Entry {
    pub host: Option<u32>,
    pub name: String,
}

/// A group of modules.
pub struct Atom {
    pub bytes: u64,
    pub set: EntrySet,
    pub fixed: bool,
    pub modules: Vec<String>,
    pub needs: Vec<u32>,
}

/// A load as its file has it. No two atoms have equal sets, and every number named is there.
pub struct Source {
    pub entries: Vec<Entry>,
    pub atoms: Vec<Atom>,
}

impl Source {
    /// Reads a file's text.
    pub fn read(text: &str) -> Result<Self, Fault> {
        let mut reader = Reader::new(text);
        for (line, words) in lines(text) {
            reader.line(line, words).map_err(|what| Fault { line, what })?;
        }
        Ok(reader.source)
    }

    pub fn load(&self) -> OwnedLoad {
        let needs = self.atoms.iter().map(|atom| atom.needs.iter().copied());
        OwnedLoad::from_lists(needs, self.entries.iter().map(|entry| entry.host))
            .with_fixed(self.atoms.iter().map(|atom| atom.fixed))
    }

    pub fn sets(&self) -> Vec<EntrySet> {
        self.atoms.iter().map(|atom| atom.set).collect()
    }

    /// What an atom is called: its first module, or its number.
    pub fn name(&self, atom: u32) -> String {
        let first = self.atoms.get(atom as usize).and_then(|atom| atom.modules.first());
        first.cloned().unwrap_or_else(|| format!("atom {atom}"))
    }
}

/// The lines that say something, with their numbers.
fn lines(text: &str) -> impl Iterator<Item = (usize, &str)> {
    let numbered = (1..).zip(text.lines().map(str::trim));
    numbered.filter(|(_, line)| !line.is_empty() && !line.starts_with('#'))
}

/// A line's first word and the rest.
fn first(line: &str) -> (&str, &str) {
    let (word, rest) = line.split_once(char::is_whitespace).unwrap_or((line, ""));
    (word, rest.trim())
}

fn number<T: std::str::FromStr>(what: &str, word: &str) -> Result<T, String> {
    word.parse().map_err(|_| format!("{what} should be a number, not `{word}`"))
}

/// Goes through a file whose numbers of entries and atoms it knows, since a line may name one that comes later.
struct Reader {
    entries: usize,
    atoms: usize,
    dependencies: usize,
    lines_of_sets: BTreeMap<EntrySet, usize>,
    source: Source,
}

impl Reader {
    fn new(text: &str) -> Self {
        let count = |word: &str| lines(text).filter(|(_, line)| first(line).0 == word).count();
        Self {
            entries: count("entry"),
            atoms: count("atom"),
            dependencies: 0,
            lines_of_sets: BTreeMap::new(),
            source: Source { entries: vec![], atoms: vec![] },
        }
    }

    fn line(&mut self, line: usize, text: &str) -> Result<(), String> {
        let (word, rest) = first(text);
        match word {
            "entry" => self.entry(rest),
            "atom" => self.atom(line, rest),
            "module" => self.module(rest),
            "needs" => rest.split_whitespace().try_for_each(|word| self.need(word)),
            _ => Err(format!("`{word}` is none of entry, atom, module and needs")),
        }
    }

    fn entry(&mut self, rest: &str) -> Result<(), String> {
        let (host, name) = first(rest);
        if name.is_empty() {
            return Err("an entry needs a host, or -, and a name".into());
        }
        if self.source.entries.len() == ENTRIES {
            return Err(over(ENTRIES, "entries"));
        }
        let host = if host == "-" { None } else { Some(self.atom_number("the host", host)?) };
        self.source.entries.push(Entry { host, name: name.into() });
        Ok(())
    }

    fn atom(&mut self, line: usize, rest: &str) -> Result<(), String> {
        let (bytes, rest) = first(rest);
        let bytes = number("an atom's size", bytes)?;
        let (bits, mark) = rest
            .strip_prefix('{')
            .and_then(|rest| rest.split_once('}'))
            .ok_or("an atom needs its size and its set, as in: atom 1200 {0, 3}")?;
        let fixed = match mark.trim() {
            "" => false,
            "fixed" => true,
            other => return Err(format!("behind the set may stand `fixed`, not `{other}`")),
        };
        let set = self.set(bits)?;
        if let Some(before) = self.lines_of_sets.insert(set, line) {
            return Err(format!("the atom of line {before} has the same set, {set}"));
        }
        if self.source.atoms.len() == ATOMS {
            return Err(over(ATOMS, "atoms"));
        }
        self.source.atoms.push(Atom { bytes, set, fixed, modules: vec![], needs: vec![] });
        Ok(())
    }

    fn set(&self, bits: &str) -> Result<EntrySet, String> {
        let words = bits.split([',', ' ', '\t']).filter(|word| !word.is_empty());
        words.map(|word| self.bit(word)).collect()
    }

    fn bit(&self, word: &str) -> Result<u32, String> {
        let bit = number("an entry bit", word)?;
        if (bit as usize) < self.entries.min(ENTRIES) {
            Ok(bit)
        } else {
            Err(format!("entry bit {bit} isn't there: the file has {} entries, from 0", self.entries))
        }
    }

    fn module(&mut self, name: &str) -> Result<(), String> {
        if name.is_empty() {
            return Err("a module needs a name".into());
        }
        self.last()?.modules.push(name.into());
        Ok(())
    }

    /// One atom, or one with the number of its repeats: `3` or `3*12`.
    fn need(&mut self, word: &str) -> Result<(), String> {
        let (atom, times) = word.split_once('*').unwrap_or((word, "1"));
        let atom = self.atom_number("a dependency", atom)?;
        let times: usize = number("how often it is needed", times)?;
        if atom as usize + 1 == self.source.atoms.len() {
            return Err(format!("atom {atom} depends on itself"));
        }
        self.dependencies = self.dependencies.saturating_add(times);
        if self.dependencies > DEPENDENCIES {
            return Err(over(DEPENDENCIES, "dependencies"));
        }
        self.last()?.needs.extend(std::iter::repeat_n(atom, times));
        Ok(())
    }

    fn last(&mut self) -> Result<&mut Atom, String> {
        self.source.atoms.last_mut().ok_or_else(|| "an atom has to come first".into())
    }

    fn atom_number(&self, what: &str, word: &str) -> Result<u32, String> {
        let atom: u32 = number(what, word)?;
        if (atom as usize) < self.atoms {
            Ok(atom)
        } else {
            Err(format!("{what} is atom {atom}: the file has {} atoms, from 0", self.atoms))
        }
    }
}
