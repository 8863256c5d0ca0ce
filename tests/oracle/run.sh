#!/usr/bin/env bash
# Compares the original, the plain model and the proved library, which is built first unless NIDSKALM_LIB_DIR says where it lies. Without the
# original's files the library is compared with the model, and the last lines say so.
# Arguments go to the runner: --long, --seed NUMBER, --self-test, --record CASES (README.md).
set -euo pipefail
cd "$(dirname "$0")/../.."
beside=../shared/docs/src
if [ -n "${NIDSKALM_ORIGINAL:-}" ] || [ -d "$beside" ]; then
    NIDSKALM_ORIGINAL="$(realpath "${NIDSKALM_ORIGINAL:-$beside}")"
    export NIDSKALM_ORIGINAL
fi
if [ -z "${NIDSKALM_LIB_DIR:-}" ]; then
    bash tests/build.sh
fi
NIDSKALM_LIB_DIR="$(realpath "${NIDSKALM_LIB_DIR:-target/staticlib}")"
export NIDSKALM_LIB_DIR
cargo build --manifest-path tests/oracle/Cargo.toml --offline -j1 --quiet --profile checked --features ours
runner=tests/oracle/target/checked/oracle
if [ "${1:-}" != --record ]; then
    "$runner" --replay tests/oracle/recorded.txt
fi
case "${1:-}" in
    --record) ;;
    --self-test)
        tests/oracle/target/checked/targets --self-test
        tests/oracle/target/checked/loops --self-test
        ;;
    *)
        tests/oracle/target/checked/targets
        tests/oracle/target/checked/loops --real 400
        ;;
esac
"$runner" "$@"
if [ -z "${NIDSKALM_ORIGINAL:-}" ]; then
    echo "************************************************************************************************"
    echo "*** THE ORIGINAL WAS NOT COMPARED: its files are not at $beside."
    echo "*** The library was compared with the plain model alone. NIDSKALM_ORIGINAL names another place."
    echo "************************************************************************************************"
fi
