#!/usr/bin/env bash
# Proves the libraries, and builds and installs what one uses: the programs `paseto` and `paseto_tool`, and the library for
# C, `libpaseto.a` and `libpaseto.so`, with `paseto.h` and `paseto.pc`.
#
#   bash build.sh [PREFIX]
#
# PREFIX, which is `build` where none is given, gets bin/, lib/, include/, and share/ with manual pages and completions.
# Libraries are proved side by side, on all processors; a line tells how much of the whole is done. What is proved is kept in
# the crates' out/, so that a second run proves what has changed alone, and one that was cut off goes on where it was. At the
# end the installed program makes a token and checks it.
#
#   bash build.sh PREFIX --built
#
# installs what an earlier run proved and built.
#
#   bash build.sh --unproved
#
# says how to look at the programs before anything is proved.
set -euo pipefail
here=$(cd "$(dirname "$0")" && pwd)

case "$# ${1-}" in
    '1 --unproved')
        cat <<END
The toolchain builds no program that is not proved, so nothing was built. It runs one with no proof, in half a minute:

  (cd $here/crates/paseto && rt try -- --help)
  (cd $here/crates/paseto_tool && rt try -- inspect v4.local.payload)

unproved: what these two run is checked by no proof
END
        exit 0 ;;
    '0 ' | '1 '[!-]*) ;;
    '2 '[!-]*)
        if [ "$2" != --built ]; then
            echo 'usage: build.sh [PREFIX [--built] | --unproved]' >&2
            exit 2
        fi ;;
    *)
        echo 'usage: build.sh [PREFIX [--built] | --unproved]' >&2
        exit 2 ;;
esac
mkdir -p "${1:-$here/build}"
prefix=$(cd "${1:-$here/build}" && pwd)

needs() {
    command -v "$1" >/dev/null && return
    echo "There is no $1. $2" >&2
    exit 1
}

needs rt 'It comes with the toolchain, which README.md names'
needs python3 'On Debian: apt-get install python3'
for tool in cc ld ar objcopy; do
    needs "$tool" 'On Debian: apt-get install gcc libc6-dev binutils'
done

if [ "${2-}" != --built ]; then
    python3 "$here/tools/prove.py" paseto paseto_tool paseto_c
fi
bash "$here/c/build.sh" "$prefix" --built
install -d "$prefix/bin"
for program in paseto paseto_tool; do
    install -m 755 "$here/crates/$program/out/$program" "$prefix/bin/$program"
done

install -d "$prefix/share/man/man1" "$prefix/share/bash-completion/completions" \
    "$prefix/share/zsh/site-functions" "$prefix/share/fish/vendor_completions.d"
install -m 644 "$here"/man/*.1 "$prefix/share/man/man1"
install -m 644 "$here/completions/paseto.bash" "$prefix/share/bash-completion/completions/paseto"
install -m 644 "$here/completions/_paseto" "$prefix/share/zsh/site-functions/_paseto"
install -m 644 "$here/completions/paseto.fish" "$prefix/share/fish/vendor_completions.d/paseto.fish"

echo "proved, built and installed under $prefix:"
(cd "$prefix" && find bin/paseto bin/paseto_tool include lib share -type f ! -name 'paseto_*.3' | sort | sed 's/^/  /')
echo "  $(find "$prefix/share/man/man3" -name 'paseto_*.3' | wc -l) manual pages of calls, share/man/man3/paseto_*.3"

work=$(mktemp -d)
trap 'rm -rf "$work"' EXIT
"$prefix/bin/paseto" keygen v4.local --quiet --out "$work/key"
"$prefix/bin/paseto" issue --key "$work/key" --claim sub=ada --expires 1h --out "$work/token"
echo "a token that $prefix/bin/paseto has just made, and what it finds in it:"
sed 's/^/  /' "$work/token"
"$prefix/bin/paseto" check --key "$work/key" --claim sub=ada "$work/token" | sed 's/^/  /'
echo "next: export PATH=\"$prefix/bin:\$PATH\"; then paseto --help, and docs/PASETO.md; for C docs/C.md"
