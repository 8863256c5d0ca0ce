//! Finds the original's files, checks that they are the ones meant, and cuts out the merge graph. Without them the library is compared with
//! the model alone.
use std::env;
use std::fs;
use std::path::{Path, PathBuf};

/// First and last line, from 1, of the two structs and nine methods in chunk_optimizer.rs.
const FIRST: usize = 52;
const LAST: usize = 295;
/// FNV-1a of the whole reduced_chunk_graph.rs and of the lines cut out of chunk_optimizer.rs.
const REDUCED_SUM: u64 = 0x2b4f_3e22_ff31_9818;
const MERGE_SUM: u64 = 0xe660_6ccc_8431_c66b;

const METHODS: [&str; 9] = [
    "new",
    "init_module_assignment",
    "add_module_to_chunk",
    "register_chunk_graph_index",
    "to_temp_idx",
    "calc_chunk_dependencies",
    "would_create_circular_dependency",
    "is_reachable",
    "merge_chunk_dependencies",
];

/// First and last line of the four functions that choose a merge target, the names of the functions in the first piece and the
/// last, and the sum of both pieces.
const CHOICE: [(usize, usize); 2] = [(571, 714), (768, 797)];
const CHOICE_FUNCTIONS: [&str; 4] =
    ["try_insert_into_existing_chunk", "collect_entry_modules", "find_merge_target", "module_has_observable_exports"];
const CHOICE_SUM: u64 = 0x7130_b584_a38e_422b;

fn sum(text: &str) -> u64 {
    text.bytes().fold(0xcbf2_9ce4_8422_2325, |sum, byte| (sum ^ u64::from(byte)).wrapping_mul(0x100_0000_01b3))
}

fn read(path: &Path) -> String {
    println!("cargo:rerun-if-changed={}", path.display());
    match fs::read_to_string(path) {
        Ok(text) => text,
        Err(error) => panic!(
            "cannot read {}: {error}. Set NIDSKALM_ORIGINAL to the directory that holds the original's src/.",
            path.display()
        ),
    }
}

/// Writes the choice of a merge target, in an `impl` of its own, for src/target_original.rs.
fn cut_choice(lines: &[&str]) {
    let cut: Vec<&str> = CHOICE.iter().flat_map(|&(first, last)| &lines[first - 1..last]).copied().collect();
    let functions: Vec<&str> = cut.iter().filter_map(|line| line.strip_prefix("  fn ")?.split('(').next()).collect();
    assert_eq!(functions, CHOICE_FUNCTIONS, "the four functions of the choice");
    for (_, last) in CHOICE {
        assert_eq!(lines[last - 1], "  }", "line {last} of chunk_optimizer.rs");
    }
    let cut = cut.join("\n");
    assert_eq!(sum(&cut), CHOICE_SUM, "chunk_optimizer.rs is not the one of rolldown 1.2.16");
    let out = Path::new(&env::var("OUT_DIR").unwrap()).join("target_choice.rs");
    fs::write(out, format!("impl GenerateStage {{\n{cut}\n}}\n")).unwrap();
}

/// Checks the original's files and hands them over.
fn original(docs: &Path) {
    println!("cargo:rustc-cfg=original");
    let stage = docs.join("src/stages/generate_stage");
    let reduced_path = stage.join("reduced_chunk_graph.rs");
    let reduced = read(&reduced_path);
    assert_eq!(sum(&reduced), REDUCED_SUM, "reduced_chunk_graph.rs is not the one of rolldown 1.2.16");
    let reduced_path = fs::canonicalize(&reduced_path).unwrap();
    println!("cargo:rustc-env=REDUCED_CHUNK_GRAPH={}", reduced_path.display());

    let optimizer = read(&stage.join("chunk_optimizer.rs"));
    let lines: Vec<&str> = optimizer.lines().collect();
    assert!(lines.len() > LAST, "chunk_optimizer.rs is too short");
    let cut = lines[FIRST - 1..LAST].join("\n");
    assert_eq!(lines[FIRST - 1], "#[derive(Debug, Default)]", "line {FIRST} of chunk_optimizer.rs");
    assert_eq!(lines[LAST - 1], "}", "line {LAST} of chunk_optimizer.rs");
    assert_eq!(lines[LAST], "", "line after {LAST} of chunk_optimizer.rs");
    let methods: Vec<&str> =
        cut.lines().filter_map(|line| line.trim().strip_prefix("pub fn ")?.split('(').next()).collect();
    assert_eq!(methods, METHODS, "the nine methods");
    assert_eq!(cut.lines().filter(|line| line.contains("struct ")).count(), 2, "the two structs");
    assert_eq!(sum(&cut), MERGE_SUM, "chunk_optimizer.rs is not the one of rolldown 1.2.16");
    let out = Path::new(&env::var("OUT_DIR").unwrap()).join("chunk_optimization_graph.rs");
    fs::write(out, cut).unwrap();
    cut_choice(&lines);
}

/// Where the original's files are: as NIDSKALM_ORIGINAL says, or beside the repository, if they are there.
fn place(repository: &Path) -> Option<PathBuf> {
    if let Some(docs) = env::var_os("NIDSKALM_ORIGINAL").filter(|docs| !docs.is_empty()) {
        return Some(docs.into());
    }
    let docs = repository.join("../shared/docs/src");
    println!("cargo:rerun-if-changed={}", docs.display());
    docs.exists().then_some(docs)
}

fn main() {
    println!("cargo:rustc-check-cfg=cfg(original)");
    println!("cargo:rerun-if-env-changed=NIDSKALM_ORIGINAL");
    println!("cargo:rerun-if-env-changed=NIDSKALM_LIB_DIR");
    let repository = Path::new(&env::var("CARGO_MANIFEST_DIR").unwrap()).join("../..");
    if let Some(docs) = place(&repository) {
        original(&docs);
    }
    if env::var_os("CARGO_FEATURE_OURS").is_some() {
        let library =
            env::var_os("NIDSKALM_LIB_DIR").map_or_else(|| repository.join("target/staticlib"), PathBuf::from);
        let archive = library.join("libnidskalm.a");
        println!("cargo:rerun-if-changed={}", archive.display());
        assert!(archive.exists(), "{} is missing: build it with `tools/build.sh nidskalm`", archive.display());
        println!("cargo:rustc-link-search=native={}", fs::canonicalize(&library).unwrap().display());
        println!("cargo:rustc-link-lib=static=nidskalm");
    }
}
