#!/usr/bin/env bash
# Links libpaseto.a and libpaseto.so.1 from the static library of the crate. Its heap wipes what it frees, and its exports wipe their
# stack and the registers.
#
#   c/wipe/link.sh LIBPASETO_C.a FOLDER [heap | stack]
#
# With heap or stack only that half of wiping is in the library, to see that the test of wiping fails.
set -euo pipefail
here=$(cd "$(dirname "$0")" && pwd)
archive=$1 out=$2 half=${3-}
kit=$(dirname "$(rt doc)")
work=$(mktemp -d)
trap 'rm -rf "$work"' EXIT
flags=(-O2 -fPIC -Wall -Wextra -Werror)
export PYTHONDONTWRITEBYTECODE=1

heap=$kit/c/liblibc_c.a
if [ "$half" != stack ]; then
    heap=$work/heap.o
    cc "${flags[@]}" -fno-builtin -c "$here/heap.c" -o "$heap"
fi
# One object holds the crate and what it stands on, and shows the exports alone.
ld -r --whole-archive "$archive" --no-whole-archive "$heap" "$kit/c/libos_c.a" -o "$work/all.o"
objects=("$work/all.o")
if [ "$half" != heap ]; then
    python3 "$here/wrap.py" "$work/all.o" "$work/wrappers.c" "$here/../paseto.h"
    cc "${flags[@]}" -c "$work/wrappers.c" -o "$work/wrappers.o"
    cc -c "$here/wipe.S" -o "$work/wipe.o"
    objects+=("$work/wrappers.o" "$work/wipe.o")
fi
ld -r "${objects[@]}" -o "$work/whole.o"
objcopy --wildcard --keep-global-symbol='paseto_*' "$work/whole.o" "$work/paseto.o"
mkdir -p "$out"
rm -f "$out/libpaseto.a"
ar rcs "$out/libpaseto.a" "$work/paseto.o"
printf '{ global: paseto_*; local: *; };\n' >"$work/exports"
cc -shared -Wl,--gc-sections -Wl,--version-script="$work/exports" -Wl,-soname,libpaseto.so.1 \
    -Wl,-z,relro,-z,now -o "$out/libpaseto.so.1" "$work/paseto.o"
