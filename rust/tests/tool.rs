//! The tool `nidskalm`, run as a program.
use std::collections::{BTreeMap, BTreeSet};
use std::path::PathBuf;
use std::process::{Command, Output};

/// What it prints, what it complains of, and its exit status.
fn run(words: &[&str]) -> (String, String, i32) {
    let Output { stdout, stderr, status } = Command::new(env!("CARGO_BIN_EXE_nidskalm")).args(words).output().unwrap();
    let text = |bytes| String::from_utf8(bytes).unwrap();
    (text(stdout), text(stderr), status.code().unwrap())
}

/// The same of a run that should go well.
fn printed(words: &[&str]) -> String {
    let (out, complaint, status) = run(words);
    assert_eq!((complaint.as_str(), status), ("", 0), "{words:?}");
    out
}

fn example(name: &str) -> String {
    format!("{}/../examples/loads/{name}.txt", env!("CARGO_MANIFEST_DIR"))
}

/// A file of its own for a test.
fn file(name: &str, text: impl AsRef<[u8]>) -> String {
    let path = PathBuf::from(env!("CARGO_TARGET_TMPDIR")).join(name);
    std::fs::write(&path, text).unwrap();
    path.to_str().unwrap().into()
}

/// What a bad file is told, without its name.
fn complaint(name: &str, text: impl AsRef<[u8]>) -> String {
    let path = file(name, text);
    let mut told = BTreeSet::new();
    for command in ["check", "plan", "dot"] {
        let (out, complaint, status) = run(&[command, &path]);
        assert_eq!((out.as_str(), status), ("", 2), "{command} {complaint}");
        told.insert(complaint.strip_prefix(&path).unwrap().to_string());
    }
    assert_eq!(told.len(), 1, "{told:?}");
    told.pop_first().unwrap()
}

const SIZES: [(&str, &str, &str, &str); 3] = [
    (
        "npm8",
        "15 atoms (0 fixed), 624 modules, 8 entries, 3030762 bytes, 232 dependencies",
        "15 chunks, 32 edges",
        "3 chunks, 3 edges",
    ),
    (
        "npm67",
        "107 atoms (0 fixed), 793 modules, 67 entries, 3765752 bytes, 670 dependencies",
        "107 chunks, 324 edges",
        "15 chunks, 44 edges",
    ),
    (
        "corejs200",
        "486 atoms (0 fixed), 1447 modules, 200 entries, 652782 bytes, 2838 dependencies",
        "486 chunks, 1817 edges",
        "77 chunks, 430 edges",
    ),
];

#[test]
fn real_loads_are_checked() {
    for (name, sizes, before, _) in SIZES {
        assert_eq!(printed(&["check", &example(name)]), format!("{sizes}\n{before}, acyclic\n"));
    }
}

#[test]
fn real_loads_are_planned() {
    for (name, sizes, before, after) in SIZES {
        let told = printed(&["plan", &example(name), "--rejections", "--moves"]);
        let (moves, others): (Vec<&str>, Vec<&str>) = told.lines().partition(|line| line.contains(": atom "));
        let accepted = moves.iter().filter(|line| line.starts_with("accepted: ")).count();
        let counts = format!("{} moves: {accepted} accepted, {} rejected", moves.len(), moves.len() - accepted);
        let (before_line, after_line) = (format!("before: {before}, acyclic"), format!("after: {after}, acyclic"));
        assert_eq!(others, [sizes, &before_line, &after_line, &counts]);
        let number = |text: &str| text.split(' ').next().unwrap().parse::<usize>().unwrap();
        assert_eq!(number(before) - number(after), accepted, "every accepted move removes a chunk");
    }
}

/// Chunks and edges of a picture.
fn picture(dot: &str) -> (BTreeSet<&str>, BTreeSet<(&str, &str)>) {
    let (mut chunks, mut edges) = (BTreeSet::new(), BTreeSet::new());
    for line in dot.lines().map(str::trim).filter(|line| line.starts_with('"')) {
        match line.split_once(" -> ") {
            Some((from, to)) => assert!(edges.insert((from, to.trim_end_matches(';').split(" [").next().unwrap()))),
            None => assert!(chunks.insert(line.split(" [").next().unwrap())),
        }
    }
    (chunks, edges)
}

/// Takes chunks away that import nothing that is left, until none is left, or only those that lie on or lead to a cycle.
fn acyclic(chunks: &BTreeSet<&str>, edges: &BTreeSet<(&str, &str)>) -> bool {
    let mut left = chunks.clone();
    loop {
        let stuck: BTreeSet<&str> =
            edges.iter().filter(|(from, to)| left.contains(from) && left.contains(to)).map(|&(from, _)| from).collect();
        if stuck == left {
            return left.is_empty();
        }
        left = stuck;
    }
}

#[test]
fn pictures_have_the_chunks_and_edges() {
    for (name, _, before, after) in &SIZES[..2] {
        for (told, words) in [(before, vec!["dot", &example(name)]), (after, vec!["dot", &example(name), "--after"])] {
            let dot = printed(&words);
            let (chunks, edges) = picture(&dot);
            assert_eq!(format!("{} chunks, {} edges", chunks.len(), edges.len()), *told);
            assert!(edges.iter().all(|(from, to)| chunks.contains(from) && chunks.contains(to)));
            assert!(acyclic(&chunks, &edges));
        }
    }
    assert!(!acyclic(&["a", "b"].into(), &[("a", "b"), ("b", "a")].into()), "a cycle is found");
    let dot = printed(&["dot", &example("npm8")]);
    let label =
        r"entry lib/commands/install-ci-test.js\nlib/commands/ci.js\nlib/utils/validate-lockfile.js\n3 modules, 5.7 kB";
    assert!(dot.contains(&format!("\"{{3}}\" [label=\"{label}\"];")));
}

/// README's pictures, drawn by tools/pictures.sh, have the chunks and edges that the tool gives now.
#[test]
fn drawn_pictures_are_those_of_the_tool() {
    let drawn = [include_str!("../../docs/npm8-before.svg"), include_str!("../../docs/npm8-after.svg")];
    for (svg, options) in drawn.into_iter().zip([&[][..], &["--after"]]) {
        let dot = printed(&[&["dot", &example("npm8")], options].concat());
        let (chunks, edges) = picture(&dot);
        let arrows = edges.iter().map(|(from, to)| format!("{from}->{to}").replace('"', ""));
        let expected: BTreeSet<String> = chunks.iter().map(|chunk| chunk.replace('"', "")).chain(arrows).collect();
        let titles = svg.split("<title>").skip(1).filter_map(|rest| rest.split("</title>").next());
        let found: BTreeSet<String> =
            titles.filter(|&title| title != "chunks").map(|title| title.replace("&#45;&gt;", "->")).collect();
        assert_eq!(found, expected);
    }
}

/// The file that README.md shows.
#[test]
fn the_file_of_the_readme_is_read() {
    let readme = include_str!("../../README.md").lines().skip_while(|line| *line != "    entry 1 screen0.js");
    let text: String = readme.take_while(|line| line.starts_with("    ")).map(|line| format!("{line}\n")).collect();
    let sizes = "3 atoms (1 fixed), 3 modules, 2 entries, 6900 bytes, 3 dependencies";
    let path = file("readme.txt", text);
    assert_eq!(printed(&["check", &path]), format!("{sizes}\n3 chunks, 2 edges, acyclic\n"));
    assert!(printed(&["plan", &path, "--moves"]).contains("\naccepted: atom 0 (shared.js) to {0}\n"));
}

const PAIR: &str =
    "entry - one\nentry - two\n\natom 7 {0}\n  needs 1\n# back again\natom 1500 {1}\nmodule b.js\nneeds 0*2\n";

#[test]
fn cycles_end_with_1_and_planning_ends_them() {
    let path = file("pair.txt", PAIR);
    let sizes = "2 atoms (0 fixed), 1 module, 2 entries, 1507 bytes, 3 dependencies";
    let cyclic = "2 chunks, 2 edges, cyclic: some chunks import each other in a circle";
    let circle =
        "a shortest circle, each chunk importing the next and the last the first:\n    {0} atom 0\n    {1} b.js\n";
    assert_eq!(run(&["check", &path]), (format!("{sizes}\n{cyclic}\n{circle}"), String::new(), 1));
    let planned =
        "accepted: atom 0 (atom 0) to {1}\nafter: 1 chunk, 0 edges, acyclic\n1 move: 1 accepted, 0 rejected\n";
    assert_eq!(printed(&["plan", &path, "--moves"]), format!("{sizes}\nbefore: {cyclic}\n{planned}"));
    assert!(printed(&["dot", &path, "--after"]).contains(r#""{1}" [label="b.js\n1 module, 1.5 kB"];"#));
}

#[test]
fn fixed_atoms_are_left_alone() {
    let path = file("fixed.txt", PAIR.replace("{0}", "{0} fixed").replace("{1}", "{ 1 }  fixed"));
    assert!(printed(&["plan", &path]).ends_with("in a circle\n0 moves: 0 accepted, 0 rejected\n"));
    assert!(run(&["check", &path]).0.starts_with("2 atoms (2 fixed)"));
}

/// Atom 0 may not join atom 2: what they hold would need atom 1, which needs them. It may join atom 1.
#[test]
fn rejections_are_told() {
    let text = "entry - a\nentry - b\natom 1 {0}\nneeds 2 1\natom 1 {1} fixed\nneeds 2\natom 1 {} fixed\nmodule c.js\n";
    let path = file("rejected.txt", text);
    let (rejected, accepted) = ("rejected: atom 0 (atom 0) to {}\n", "accepted: atom 0 (atom 0) to {1}\n");
    for (options, lines) in [
        (&[][..], String::new()),
        (&["--rejections"], rejected.into()),
        (&["--moves"], accepted.into()),
        (&["--moves", "--rejections"], format!("{rejected}{accepted}")),
    ] {
        let told = printed(&[&["plan", &path], options].concat());
        let end = format!("edges, acyclic\n{lines}after: 2 chunks, 1 edge, acyclic\n2 moves: 1 accepted, 1 rejected\n");
        assert!(told.ends_with(&end), "{told}");
    }
}

#[test]
fn an_empty_file_is_an_empty_load() {
    let path = file("empty.txt", "");
    let sizes = "0 atoms (0 fixed), 0 modules, 0 entries, 0 bytes, 0 dependencies";
    assert_eq!(printed(&["check", &path]), format!("{sizes}\n0 chunks, 0 edges, acyclic\n"));
    assert!(printed(&["plan", &path]).ends_with("0 moves: 0 accepted, 0 rejected\n"));
}

#[test]
fn bad_files_are_told_line_and_fault() {
    let many = |line: &str, count: usize| format!("{line}\n").repeat(count);
    let cases: BTreeMap<&str, (String, &str)> = [
        ("word", ("\nchunk 3".into(), ":2: `chunk` is none of entry, atom, module and needs\n")),
        ("entry", ("entry 0".into(), ":1: an entry needs a host, or -, and a name\n")),
        ("host", ("entry x a\natom 1 {}".into(), ":1: the host should be a number, not `x`\n")),
        ("no-host", ("atom 1 {}\nentry 1 a".into(), ":2: the host is atom 1: the file has 1 atoms, from 0\n")),
        ("size", ("# size\n#\natom {0}".into(), ":3: an atom's size should be a number, not `{0}`\n")),
        ("minus", ("atom -1 {}".into(), ":1: an atom's size should be a number, not `-1`\n")),
        ("set", ("atom 1 0, 1".into(), ":1: an atom needs its size and its set, as in: atom 1200 {0, 3}\n")),
        ("open", ("atom 1 {0".into(), ":1: an atom needs its size and its set, as in: atom 1200 {0, 3}\n")),
        ("mark", ("atom 1 {} fix".into(), ":1: behind the set may stand `fixed`, not `fix`\n")),
        ("bit", ("entry - a\natom 1 {0; 1}".into(), ":2: an entry bit should be a number, not `0;`\n")),
        ("high", ("entry - a\natom 1 {1}".into(), ":2: entry bit 1 isn't there: the file has 1 entries, from 0\n")),
        ("equal", ("entry - a\natom 1 {0}\n\natom 1 {0}".into(), ":4: the atom of line 2 has the same set, {0}\n")),
        ("module", ("atom 1 {}\nmodule".into(), ":2: a module needs a name\n")),
        ("early", ("module a".into(), ":1: an atom has to come first\n")),
        ("early-needs", ("needs 0\natom 1 {}".into(), ":1: an atom has to come first\n")),
        ("itself", ("atom 1 {}\nneeds 0".into(), ":2: atom 0 depends on itself\n")),
        ("far", ("atom 1 {}\nneeds 7".into(), ":2: a dependency is atom 7: the file has 1 atoms, from 0\n")),
        (
            "times",
            (
                "entry - a\natom 1 {}\nneeds 1*x\natom 1 {0}".into(),
                ":3: how often it is needed should be a number, not `x`\n",
            ),
        ),
        (
            "often",
            (
                "entry - a\natom 1 {}\nneeds 1*8193\natom 1 {0}".into(),
                ":3: more than 8192 dependencies, the library's limit (README.md, \"Over the limits\")\n",
            ),
        ),
        (
            "entries",
            (
                many("entry - a", 257),
                ":257: more than 256 entries, the library's limit (README.md, \"Over the limits\")\n",
            ),
        ),
    ]
    .into();
    for (name, (text, expected)) in cases {
        assert_eq!(complaint(&format!("bad-{name}.txt"), text), expected, "{name}");
    }
    // Atoms with the bits of 0 to 512 as sets.
    let atom = |number: u64| format!("atom 1 {}\n", nidskalm::EntrySet::from(number));
    let text = many("entry - a", 10) + &(0..513).map(atom).collect::<String>();
    assert_eq!(
        complaint("bad-atoms.txt", text),
        ":523: more than 512 atoms, the library's limit (README.md, \"Over the limits\")\n"
    );
    assert_eq!(complaint("bad-bytes.txt", b"# fine\nentry - \xff\n"), ":2: not UTF-8 text\n");
}

#[test]
fn bad_words_get_the_help() {
    let path = example("npm8");
    for words in [&[][..], &["check"], &["look", &path], &["check", &path, "--after"], &["dot", &path, "--moves"]] {
        let (out, complaint, status) = run(words);
        assert_eq!((out.as_str(), status), ("", 2), "{words:?}");
        assert!(complaint.contains("nidskalm plan FILE"), "{complaint}");
    }
    assert!(printed(&["--help"]).contains("nidskalm check FILE"));
    let (out, complaint, status) = run(&["check", "no/such/file"]);
    assert_eq!((out.as_str(), status), ("", 2));
    assert!(complaint.starts_with("no/such/file: ") && complaint.lines().count() == 1);
}
