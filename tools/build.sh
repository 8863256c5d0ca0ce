#!/usr/bin/env bash
# Builds what is used outside Rattle, of proved crates alone; all three if none is named:
#
#     tools/build.sh [moves] [chain] [nidskalm]
#     tools/build.sh --crates CRATE       prints CRATE and all that it stands on, in the order in which rt builds them
#
# moves and chain are programs, target/bin/NAME; nidskalm is the C interface, target/staticlib/libnidskalm.a, which the crate nidskalm_c exports.
# What `rt ci` or an earlier run left is taken as it is where no file that it is made of has changed since; else `rt` proves and builds it.
set -euo pipefail
cd "$(dirname "$0")/.."

# A crate and all that it stands on, each after those below it.
needed() { # CRATE
    awk -F: -v last="$1" '
        function take(name, n, i, names) {
            if (!(name in below) || taken[name]++) return
            n = split(below[name], names, " ")
            for (i = 1; i <= n; i++) take(names[i])
            print name
        }
        /^[a-z]/ { split($1, words, " "); below[words[1]] = $2 }
        END { take(last) }' crates.txt
}

# Whether a file is there, and nothing that the crates are made of is newer.
is_fresh() { # FILE CRATES..
    local file="$1" name part places=(crates.txt)
    [ -e "$file" ] || return 1
    for name in "${@:2}"; do
        for part in src specs proofs; do
            if [ -d "crates/$name/$part" ]; then places+=("crates/$name/$part"); fi
        done
    done
    [ -z "$(find "${places[@]}" -newer "$file" -print -quit)" ]
}

# Puts a file in its place, which stays untouched where it holds the same.
put() { # FILE PLACE
    mkdir -p "$(dirname "$2")"
    cmp -s "$1" "$2" || cp "$1" "$2"
}

program() { # NAME
    local made="crates/$1/out/$1" crates
    mapfile -t crates < <(needed "$1")
    if ! is_fresh "$made" "${crates[@]}"; then
        # rt builds a program only to run it.
        mkdir -p "crates/$1/out"
        (cd "crates/$1" && rt run < stdin > out/printed)
        touch "$made"
    fi
    put "$made" "target/bin/$1"
}

# The archive over the libraries as `rt ci` left them. `rt lib` would prove all of these anew, since they hold statements and no proofs. The kit's
# compiler proves nidskalm_c over them, and builds nothing unless it is proved. It fails where one of them is missing or older than its crate.
archive_over_ci() { # CRATES.., the last of them nidskalm_c
    local kit name direct words=() jobs
    kit="$(dirname "$(rt doc)")"
    jobs="$(nproc)"
    for name in "${@:1:$#-1}"; do
        if [ -e "crates/$name/out/rlib/stamp" ] || ! is_fresh "crates/$name/out/rlib/$name.rlib" "$name"; then return 1; fi
        words+=(-L "dependency=$PWD/crates/$name/out/rlib")
    done
    read -ra direct < <(sed -n 's/^nidskalm_c staticlib: //p' crates.txt)
    for name in "${direct[@]}"; do
        words+=(--extern "$name=$PWD/crates/$name/out/rlib/$name.rlib")
    done
    cd crates/nidskalm_c
    mkdir -p out
    "$kit/bin/rattle" build --crate-name nidskalm_c src/lib.rt --crate-type staticlib --links nidskalm_c= \
        --extern "std=$kit/rlibs/std.rlib" -L "dependency=$kit/rlibs" "${words[@]}" --antt-project "$kit/rattle/logic/antt-project.json" \
        --logic-built "$kit/logic_built" --toolchain "$kit/toolchain" --backend llvm --jobs "$((jobs < 4 ? jobs : 4))" -o out/libnidskalm_c.a
}

archive() {
    local made=crates/nidskalm_c/out/libnidskalm_c.a crates
    mapfile -t crates < <(needed nidskalm_c)
    if ! is_fresh "$made" "${crates[@]}"; then
        (archive_over_ci "${crates[@]}") || (cd crates/nidskalm_c && rt lib)
    fi
    put "$made" target/staticlib/libnidskalm.a
}

if [ "${1:-}" = --crates ]; then
    needed "$2"
    exit
fi
[ "$#" -gt 0 ] || set -- moves chain nidskalm
for what in "$@"; do
    case "$what" in
        moves | chain) program "$what" ;;
        nidskalm) archive ;;
        *)
            echo "build: there is no $what; it takes moves, chain and nidskalm" >&2
            exit 2
            ;;
    esac
done
