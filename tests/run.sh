#!/usr/bin/env bash
# Everything but the proofs, on what `rt ci` or tools/build.sh proved: the programs moves and chain and their models, C programs and the Rust
# crate over the static library, and the original, the model and the library compared.
set -euo pipefail
cd "$(dirname "$0")/.."

part() { # WHAT COMMAND..
    echo "tests: $1"
    "${@:2}" || { echo "tests: FAILED: $1"; exit 1; }
}

part "the programs and the static library are built" bash tests/build.sh
part "the first look" bash tests/try.sh
part "the program's recorded output is the model's" python3 tests/moves_model.py --check
part "an input of several blocks through the program" python3 tests/moves_model.py --large target/bin/moves
part "what the program chain writes is the model's" python3 tests/chain_model.py --check
part "every number and many other inputs through the program chain, and what it writes through moves" python3 tests/chain_model.py --run target/bin/chain target/bin/moves
part "C programs over the library" bash tests/drivers.sh
part "scripts" bash tests/tools.sh
part "the archive for servers" bash tests/pack.sh
part "the Rust crate over the library" bash tests/rust.sh
part "the original, the model and the library" env NIDSKALM_LIB_DIR=target/staticlib bash tests/oracle/run.sh
