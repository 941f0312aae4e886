#!/usr/bin/env bash
# Builds a static library, crates/CRATE/out/libCRATE.a, over the libraries that `rt ci` has just proved and left in the
# crates' out/. `tools/prove.py` makes the same, but it proves every library below once more, since it takes none that
# `rt ci` left.
#
#   tests/static_library.sh CRATE
#
# It is for the gate, right after `rt ci`. `rt ci` proves a static library and hands its proof to no build, so the build
# checks the crate once more. It begins with what an earlier build on this machine has kept, where there is one: then it
# checks what has changed since, and else all. Where a library below is not `rt ci`'s (it has a stamp), or is not there,
# `tools/prove.py` does it all.
set -euo pipefail

crate=${1:?usage: tests/static_library.sh CRATE}
cd "$(dirname "$0")/.."
root=$PWD
kit=$(dirname "$(rt doc)")

# The names that a crate's line in crates.txt has behind the colon.
named() {
    sed -nE "s/^$1( staticlib)?: *//p" crates.txt
}

declare -A below=()

# Adds the crate's libraries of this repository to `below`, and theirs.
add_below() {
    local name
    for name in $(named "$1"); do
        if [ -d "crates/$name" ] && [ -z "${below[$name]-}" ]; then
            below[$name]=1
            add_below "$name"
        fi
    done
}

add_below "$crate"
words=(--crate-name "$crate" src/lib.rt --extern "std=$kit/rlibs/std.rlib" -L "dependency=$kit/rlibs")
for name in "${!below[@]}"; do
    rlib=$root/crates/$name/out/rlib
    if [ ! -d "$rlib/$name.rlib" ] || [ -e "$rlib/stamp" ]; then
        exec python3 tools/prove.py "$crate"
    fi
    words+=(-L "dependency=$rlib")
done
for name in $(named "$crate"); do
    rlib=$kit/rlibs/$name.rlib
    [ -z "${below[$name]-}" ] || rlib=$root/crates/$name/out/rlib/$name.rlib
    words+=(--extern "$name=$rlib")
done
mkdir -p "crates/$crate/out"
# Of two gates at once, the second keeps nothing.
kept=${XDG_CACHE_HOME:-${HOME:-/var/tmp}/.cache}/rusty_paseto/$crate
if mkdir -p "$kept" 2>/dev/null && exec 9>"$kept.lock" && flock --nonblock 9; then
    words+=(--incremental "$kept")
fi
# The crate is large, and nothing else is left to prove then: its check takes all processors.
jobs=$(nproc)
cd "crates/$crate"
exec "$kit/bin/rattle" build "${words[@]}" --crate-type staticlib --links "$crate=" --jobs "$jobs" --backend llvm \
    --antt-project "$kit/rattle/logic/antt-project.json" --logic-built "$kit/logic_built" \
    --toolchain "$kit/toolchain" -o "out/lib$crate.a"
