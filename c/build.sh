#!/usr/bin/env bash
# Builds the library for C and installs it: PREFIX/lib/libpaseto.a and libpaseto.so.1, to which the link libpaseto.so leads,
# PREFIX/include/paseto.h, PREFIX/lib/pkgconfig/paseto.pc, and a manual page for each call in PREFIX/share/man/man3.
#
#   c/build.sh PREFIX [--cpu NAME | --built]
#
# It is the last step of build.sh at the top, and does that step alone for who wants no program. The library is proved
# first, where build.sh has not done so. --cpu builds for another processor than the default, as x86-64-v3. --built takes
# crates/paseto_c/out/libpaseto_c.a as it stands.
set -euo pipefail

case "$# ${2-}" in
    '1 ' | '2 --built' | '3 --cpu') ;;
    *)
        echo 'usage: c/build.sh PREFIX [--cpu NAME | --built]' >&2
        exit 2 ;;
esac
mkdir -p "$1"
prefix=$(cd "$1" && pwd)
here=$(cd "$(dirname "$0")" && pwd)
crate=$here/../crates/paseto_c

for tool in cc ld ar nm objcopy objdump python3; do
    if ! command -v "$tool" >/dev/null; then
        echo "There is no $tool. On Debian: apt-get install gcc libc6-dev binutils python3" >&2
        exit 1
    fi
done

work=$(mktemp -d)
trap 'rm -rf "$work"' EXIT
if [ "${2-}" != --built ]; then
    python3 "$here/../tools/prove.py" "${@:2}" paseto_c
fi

bash "$here/wipe/link.sh" "$crate/out/libpaseto_c.a" "$work"

# The version of the header, as text.
number=$(sed -nE 's/^#define PASETO_VERSION ([0-9]+)$/\1/p' "$here/paseto.h")
version=$((number / 10000)).$((number / 100 % 100)).$((number % 100))

install -d "$prefix/lib/pkgconfig" "$prefix/include" "$prefix/share/man/man3"
install -m 644 "$work/libpaseto.a" "$prefix/lib/libpaseto.a"
install -m 755 "$work/libpaseto.so.1" "$prefix/lib/libpaseto.so.1"
ln -sf libpaseto.so.1 "$prefix/lib/libpaseto.so"
install -m 644 "$here/paseto.h" "$prefix/include"
python3 "$here/../tools/pages.py" "$work/pages" "$here/paseto.h"
install -m 644 "$work"/pages/*.3 "$here/../man/libpaseto.3" "$prefix/share/man/man3"
cat >"$prefix/lib/pkgconfig/paseto.pc" <<END
prefix=\${pcfiledir}/../..
libdir=\${prefix}/lib
includedir=\${prefix}/include

Name: paseto
Description: PASETO tokens by a proved library
Version: $version
Libs: -L\${libdir} -lpaseto
Cflags: -I\${includedir}
END
