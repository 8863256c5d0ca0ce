//! Links the proved static library: from NIDSKALM_LIB_DIR, else from the repository's target/staticlib.
use std::env;
use std::path::{Path, PathBuf};
use std::process::exit;

/// Where libnidskalm.a is to be. A relative NIDSKALM_LIB_DIR is taken from the directory that cargo was called in (PWD; cargo
/// runs this program in the crate's).
fn directory() -> PathBuf {
    let here = env::var_os("CARGO_MANIFEST_DIR").map(PathBuf::from).unwrap_or_default();
    let Some(named) = env::var_os("NIDSKALM_LIB_DIR").filter(|named| !named.is_empty()) else {
        return here.join("../target/staticlib");
    };
    if Path::new(&named).is_absolute() {
        return named.into();
    }
    println!("cargo:rerun-if-env-changed=PWD");
    env::var_os("PWD").map_or(here, PathBuf::from).join(named)
}

fn main() {
    println!("cargo:rerun-if-env-changed=NIDSKALM_LIB_DIR");
    let directory = directory();
    let archive = directory.join("libnidskalm.a");
    println!("cargo:rerun-if-changed={}", archive.display());
    if !archive.exists() {
        eprintln!("nidskalm: {} is missing.", archive.display());
        eprintln!("Build it with `tools/build.sh nidskalm` at the repository's root, or set NIDSKALM_LIB_DIR to the");
        eprintln!("directory that holds libnidskalm.a.");
        exit(1);
    }
    println!("cargo:rustc-link-search=native={}", directory.display());
    println!("cargo:rustc-link-lib=static=nidskalm");
}
