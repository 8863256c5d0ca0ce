#!/usr/bin/env bash
# The archive of tools/pack.sh, as a server without `rt` gets it: its checksums hold and find a changed file, the library needs no more from
# outside than the header says, and the example is built from it alone.
set -euo pipefail
cd "$(dirname "$0")/.."
expected="$PWD/tests/expected/plan.txt"
work="$(mktemp -d)"
trap 'rm -rf "$work"' EXIT

fail() {
    echo "pack: FAILED: $1"
    exit 1
}

archive="$(tools/pack.sh "$work/first")"
again="$(tools/pack.sh "$work/second")"
cmp "$archive" "$again" || fail "packing twice gives two archives"
(cd "$work/first" && sha256sum --quiet -c ./*.sha256) || fail "the archive's own checksum"
tar -C "$work" -xzf "$archive"
root="$(echo "$work"/nidskalm-*)"
for file in lib/libnidskalm.a include/nidskalm.h include/nidskalm_refusal.c lib/pkgconfig/nidskalm.pc examples/plan.c NOTICE LICENSE; do
    [ -s "$root/$file" ] || fail "$file isn't in the archive"
    grep -q " ./$file\$" "$root/SHA256SUMS" || fail "$file has no checksum"
done
(cd "$root" && sha256sum --quiet -c SHA256SUMS) || fail "the checksums in the archive"
needed="$(nm -u "$root/lib/libnidskalm.a" | awk '$1 == "U" { print $2 }' | sort -u | paste -sd' ')"
[ "$needed" = "memcpy memset" ] || fail "the library needs $needed from outside; the header says memcpy and memset alone"
echo >> "$root/NOTICE"
if (cd "$root" && sha256sum --status -c SHA256SUMS); then fail "a changed file was not found"; fi

flags="-I$root/include -L$root/lib -lnidskalm"
how="without pkg-config, which isn't here"
if command -v pkg-config > "$work/where"; then
    export PKG_CONFIG_PATH="$root/lib/pkgconfig"
    flags="$(pkg-config --cflags --libs nidskalm)"
    words="$(pkg-config --variable=refusal nidskalm)"
    [ "$words" -ef "$root/include/nidskalm_refusal.c" ] || fail "pkg-config's way to the words of refusals"
    header="$(sed -n 's/^#define NIDSKALM_VERSION_[A-Z]* //p' "$root/include/nidskalm.h" | paste -sd.)"
    [ "$(pkg-config --modversion nidskalm)" = "$header" ] || fail "pkg-config's version isn't the header's, $header"
    how="by pkg-config"
fi
cd "$work"
# shellcheck disable=SC2086 # flags are words
cc -std=c99 -Wall -Wextra -Wpedantic -Werror "$root/examples/plan.c" "$root/include/nidskalm_refusal.c" $flags -o plan
./plan | diff - "$expected" || fail "the example of the archive prints something else than tests/expected/plan.txt"
echo "pack: checksums hold and find a changed file; the library needs $needed alone; the example is built from the archive alone, $how, and prints what it should"
