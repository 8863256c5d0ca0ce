#!/usr/bin/env bash
# Builds what the tests run: the programs moves and chain (target/bin) and the C interface (target/staticlib/libnidskalm.a). Crates that are
# proved already stay as they are. It says something only where that fails.
set -euo pipefail
cd "$(dirname "$0")/.."
if ! log="$(tools/build.sh 2>&1)"; then
    echo "$log"
    exit 1
fi
