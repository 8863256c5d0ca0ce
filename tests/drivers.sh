#!/usr/bin/env bash
# C programs over the static library (target/staticlib/libnidskalm.a): what they print is held to tests/expected. Each has to fail where
# something wrong is planted: in a line of what is expected, and in a number of every kind that is recorded.
set -euo pipefail
cd "$(dirname "$0")/.."
out=target/tests
mkdir -p "$out"

build() { # NAME FILES..
    cc -std=c99 -Wall -Wextra -Wpedantic -Iinclude "${@:2}" -Ltarget/staticlib -lnidskalm -o "$out/$1"
}

fail() {
    echo "drivers: FAILED: $1"
    exit 1
}

# The program's output is what a file has.
prints() { # NAME EXPECTED
    "$out/$1" < "$out/$1.in" | diff - "$2"
}

# The same, and a wrong last line would be found.
compare() { # NAME
    prints "$1" "tests/expected/$1.txt" || fail "$1 prints something else than tests/expected/$1.txt"
    sed '$s/.$/x/' "tests/expected/$1.txt" > "$out/$1.planted"
    if prints "$1" "$out/$1.planted" > "$out/$1.found"; then fail "$1: a planted line was not found"; fi
    echo "drivers: $1 prints what tests/expected/$1.txt has; a planted line is found"
}

# Recorded cases with one answer wrong each: every one is found, and only that one.
planted_answers() {
    tests/oracle/expected.py --planted < tests/oracle/recorded.txt > "$out/planted.in"
    if "$out/replay" < "$out/planted.in" > "$out/planted.out"; then fail "replay: ends with 0 although answers are wrong"; fi
    if grep -v ', 1 differ$' "$out/planted.out"; then fail "replay: a planted answer was not found"; fi
    cases="$(wc -l < "$out/planted.in")"
    [ "$cases" -gt 0 ] && [ "$cases" -eq "$(wc -l < "$out/planted.out")" ] || fail "replay: planted cases were left out"
    echo "drivers: replay finds each of $cases planted answers"
}

# The same for recorded choices of a merge target: the last number of each case, its answer, is made another one.
planted_targets() {
    awk '{ $NF = $NF == 0 ? 1 : 0; print }' tests/oracle/recorded_targets.txt > "$out/planted_targets.in"
    if "$out/targets" < "$out/planted_targets.in" > "$out/planted_targets.out"; then fail "targets: ends with 0 although answers are wrong"; fi
    if grep -v ', not ' "$out/planted_targets.out"; then fail "targets: a planted answer was not found"; fi
    echo "drivers: targets finds each of $(wc -l < "$out/planted_targets.in") planted answers"
}

build header tests/header.c
build moves_limits tests/moves_limits.c
build merge_limits tests/merge_limits.c
build freedom tests/freedom.c
build replay tests/replay.c tests/replay_moves.c tests/replay_merges.c
build targets tests/targets.c
build refusals tests/refusals.c include/nidskalm_refusal.c
build plan examples/c/plan.c include/nidskalm_refusal.c
: > "$out/moves_limits.in"
: > "$out/merge_limits.in"
: > "$out/refusals.in"
: > "$out/plan.in"
: > "$out/freedom.in"
cp tests/oracle/recorded.txt "$out/replay.in"
"$out/header" || fail "the C interface by its header"
compare plan
compare refusals
compare moves_limits
compare merge_limits
compare freedom
tests/oracle/expected.py < tests/oracle/recorded.txt | diff - tests/expected/replay.txt || fail "tests/expected/replay.txt isn't of recorded.txt"
compare replay
planted_answers
cp tests/oracle/recorded_targets.txt "$out/targets.in"
compare targets
planted_targets
