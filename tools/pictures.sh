#!/usr/bin/env bash
# Draws README's pictures anew: examples/loads/npm8.txt before planning and after. Needs Graphviz (`dot`); the gate doesn't.
set -euo pipefail
cd "$(dirname "$0")/.."
draw() { # NAME, OPTIONS OF nidskalm dot
    cargo run --manifest-path rust/Cargo.toml --offline -j1 --quiet --bin nidskalm -- dot examples/loads/npm8.txt "${@:2}" \
        | dot -Tsvg -Gbgcolor=white -Nfontname=Helvetica -Efontname=Helvetica -o "docs/$1.svg"
}
draw npm8-before
draw npm8-after --after
