#!/usr/bin/env bash
# Packs what a server without `rt` needs into one archive: library, header, the words of refusals, pkg-config file, example, NOTICE and
# LICENSE, with a SHA-256 of each file (SHA256SUMS) and one of the archive (beside it). The same files give the same archive, byte by byte.
#
#     tools/pack.sh [DIRECTORY]        writes DIRECTORY/nidskalm-VERSION-x86_64.tar.gz and .sha256; DIRECTORY is target/pack if not said
set -euo pipefail
out="$(realpath -m "${1:-"$(dirname "$0")/../target/pack"}")"
cd "$(dirname "$0")/.."
library=target/staticlib/libnidskalm.a
if ! [ -f "$library" ]; then
    echo "pack: $library is missing; make it with: tools/build.sh nidskalm" >&2
    exit 1
fi

number() { # WHICH
    sed -n "s/^#define NIDSKALM_VERSION_$1 \([0-9]*\)$/\1/p" include/nidskalm.h
}

version="$(number MAJOR).$(number MINOR).$(number PATCH)"
name="nidskalm-$version-x86_64"
work="$(mktemp -d)"
trap 'rm -rf "$work"' EXIT
root="$work/$name"
mkdir -p "$root/lib/pkgconfig" "$root/include" "$root/examples" "$out"
cp "$library" "$root/lib/"
cp include/nidskalm.h include/nidskalm_refusal.c "$root/include/"
cp examples/c/plan.c "$root/examples/"
cp NOTICE LICENSE "$root/"
# Relative to the file itself, so that the archive may be unpacked anywhere.
sed -e 's|@PREFIX@|${pcfiledir}/../..|' -e "s|@VERSION@|$version|" nidskalm.pc.in > "$root/lib/pkgconfig/nidskalm.pc"
(cd "$root" && find . -type f ! -name SHA256SUMS | LC_ALL=C sort | xargs sha256sum > SHA256SUMS)
chmod -R u=rwX,go=rX "$root"
tar -C "$work" --sort=name --mtime=@0 --owner=0 --group=0 --numeric-owner -cf - "$name" | gzip -n > "$out/$name.tar.gz"
(cd "$out" && sha256sum "$name.tar.gz" > "$name.tar.gz.sha256")
echo "$out/$name.tar.gz"
