#!/usr/bin/env bash
# The Rust crate over the static library: its layout, clippy's warnings as errors, tests and doc tests, documentation, examples, and where a
# relative NIDSKALM_LIB_DIR is looked for.
set -euo pipefail
cd "$(dirname "$0")/.."
crate="$PWD/rust/Cargo.toml"
expected="$PWD/tests/expected/plan.txt"
out="$PWD/target/tests"
mkdir -p "$out"

fail() {
    echo "rust: FAILED: $1"
    exit 1
}

run() { # COMMAND OF CARGO, WORDS..
    cargo "$1" --manifest-path "$crate" --offline -j1 --quiet "${@:2}"
}

# Whether cargo has a command, which comes with the toolchain or not.
has() { # COMMAND
    cargo "$1" --version > "$out/version" 2>&1 || { echo "rust: cargo $1 isn't here, so it wasn't run"; return 1; }
}

if has fmt; then cargo fmt --manifest-path "$crate" --check || fail "cargo fmt --check"; fi
if has clippy; then run clippy --all-targets -- -D warnings || fail "a warning of clippy"; fi
run test || fail "a test"
RUSTDOCFLAGS="-D warnings" run doc --no-deps || fail "cargo doc"
run run --example plan_split | diff - "$expected" || fail "the example plan_split prints something else than tests/expected/plan.txt"

# From target/, `staticlib` is the library's directory; from tests/ it is none.
relative() { # WHERE
    (cd "$1" && NIDSKALM_LIB_DIR=staticlib run check --target-dir "$out/relative")
}
relative target || fail "a relative NIDSKALM_LIB_DIR isn't taken from the caller's directory"
if relative tests 2> "$out/relative.txt"; then fail "a NIDSKALM_LIB_DIR without a library is taken"; fi
grep -q 'tests/staticlib/libnidskalm.a is missing' "$out/relative.txt" || fail "where a missing library was looked for isn't said"
echo "rust: layout, clippy, tests, documentation and examples of the crate are as they should be"
