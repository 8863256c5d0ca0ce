#!/usr/bin/env bash
# The scripts in tools/: hex text for the program moves, and files for the tool nidskalm from JSON.
set -euo pipefail
cd "$(dirname "$0")/.."
work="$(mktemp -d)"
trap 'rm -rf "$work"' EXIT

fail() {
    echo "tools: FAILED: $1"
    exit 1
}

# A command that ends with 2, prints nothing, and complains in one line that has these words.
refused() { # WORDS COMMAND..
    local status=0
    "${@:2}" > "$work/out" 2> "$work/complaint" || status=$?
    [ "$status" -eq 2 ] && ! [ -s "$work/out" ] && [ "$(wc -l < "$work/complaint")" -eq 1 ] || fail "no refusal, or not by one line: ${*:2}"
    grep -qF "$1" "$work/complaint" || fail "not said: $1"
}

# README's example as hex text is the program's standard input.
sed -n 's/^    \(10 0300 .*\)$/\1  # the worked example/p' README.md | head -n 1 > "$work/hex"
[ -s "$work/hex" ] || fail "README.md has no worked example in hex"
tools/unhex.py < "$work/hex" | cmp - crates/moves/stdin || fail "README's worked example isn't crates/moves/stdin"
# README's typed example, with its remarks.
sed -n "/unhex.py <<'END'/,/^    END/p" README.md | sed '1d;$d' | tools/unhex.py > "$work/typed"
printf 'load acyclic\naccepted\n1\n2 1 1\nedges 1\n' > "$work/expected"
target/bin/moves < "$work/typed" | diff - "$work/expected" || fail "README's typed example answers something else"
printf '13 # load\n20 000g\n' > "$work/odd"
refused 'standard input:2: `000g`' tools/unhex.py < "$work/odd"
printf '130\n' > "$work/half"
refused 'standard input:1: `130`' tools/unhex.py < "$work/half"

tools/load_from_json.py tests/tools/load.json "of tests" | diff - tests/tools/load.txt || fail "tools/load_from_json.py makes another file"
echo '{"entries": []' > "$work/broken.json"
refused "$work/broken.json: " tools/load_from_json.py "$work/broken.json"
sed 's/"bytes": \[12, /"bytes": [/' tests/tools/load.json > "$work/short.json"
refused "$work/short.json: " tools/load_from_json.py "$work/short.json"
refused "$work/none.json: " tools/load_from_json.py "$work/none.json"
echo "tools: hex text becomes bytes and JSON a file for the tool; what doesn't fit is told"
