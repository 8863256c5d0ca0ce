#!/usr/bin/env bash
# ./try on what is proved: it ends with the five lines of README.md, by what the program prints now.
set -euo pipefail
cd "$(dirname "$0")/.."
out=target/tests
mkdir -p "$out"

fail() {
    echo "try: FAILED: $1"
    exit 1
}

./try > "$out/try.txt" || fail "./try ends with $?"
tail -n 5 "$out/try.txt" > "$out/try.last"
grep -A 4 '^    load acyclic  ' README.md | diff - "$out/try.last" || fail "the last five lines aren't README's"
cut -c 5-24 "$out/try.last" | sed 's/ *$//' | diff - crates/moves/stdout || fail "the lines aren't those of crates/moves/stdout"
# The crates that rt proves for `moves`, counted by crates.txt.
crates="$(python3 - << 'END'
below = {}
for line in open("crates.txt"):
    name, _, deps = line.partition("#")[0].partition(":")
    if name.strip():
        below[name.split()[0]] = deps.split()
found, left = set(), ["moves"]
while left:
    name = left.pop()
    if name in below and name not in found:
        found.add(name)
        left += below[name]
print(len(found))
END
)"
grep -q "^All $crates crates are proved" "$out/try.txt" || fail "rt proves $crates crates for moves, ./try speaks of others"
echo "try: ./try runs the worked example and says what README says"
