#!/usr/bin/env bash
# Compares the manual pages and the completions with the programs, each command and each of its options, and the version of
# all with the file VERSION, and sees to it that each call of the library for C has a page. The last line is
# 'N passed, M failed'.
#
#   tests/manual.sh PROGRAM
#
# PROGRAM is paseto, as build.sh builds it.
set -uo pipefail
root=$(cd "$(dirname "$0")/.." && pwd)
. "$root/tests/counts.sh"
program=$(realpath "${1:?usage: tests/manual.sh PROGRAM}")
work=$(mktemp -d)
trap 'rm -rf "$work"' EXIT

# same NAME: whether the two lists are one.
same() {
    if diff "$work/wanted" "$work/found" >"$work/differences"; then pass; else fail "$1: $(tr '\n' ' ' <"$work/differences")"; fi
}

sed -e 's/\\-/-/g; s/\\f[BIR]//g' "$root/man/paseto.1" >"$work/manual"
"$program" --help | sed -nE '/^Commands:/,/^$/s/^  ([a-z]+) .*/\1/p' | grep -vx help | sort >"$work/commands"
sed -nE '/^\.SH COMMANDS/,/^\.SH OPTIONS/p' "$work/manual" | grep -A1 '^\.TP' | grep -v '^\(\.TP\|--\)' | sed 's/ .*\[.*//' >"$work/heads"
sed -nE '/^\.SH COMMANDS/,/^\.SH OPTIONS/p' "$work/manual" | awk '/^\.TP/ { getline; print }' >"$work/synopses"
grep -oE '^[a-z]+(, [a-z]+)*' "$work/synopses" | tr -d ',' | tr ' ' '\n' | sort >"$work/found"
cp "$work/commands" "$work/wanted"
same 'the commands of paseto(1)'

# The options of a command, as each tells them.
while read -r command; do
    "$program" "$command" --help | grep -oE '^ +(-[a-z], )?--[a-z-]+' | grep -oE -- '--[a-z-]+' | grep -vx -- --help | sort -u >"$work/wanted"
    grep -E "^([a-z]+, )*$command(,| |\$)" "$work/synopses" | grep -oE -- '--[a-z-]+' | sort -u >"$work/found"
    same "the options of $command in paseto(1)"
    bash -c "source '$root/completions/paseto.bash'; COMP_WORDS=(paseto $command --); COMP_CWORD=2; _paseto; printf '%s\n' \"\${COMPREPLY[@]}\"" |
        grep -vx -- --help | sort -u >"$work/found"
    same "the options of $command in bash"
    sed -nE "s/^complete -c paseto -n '__paseto_in [^']*\\b$command\\b[^']*'.* -l ([a-z-]+).*/--\\1/p" "$root/completions/paseto.fish" | sort -u >"$work/found"
    same "the options of $command in fish"
done <"$work/commands"

# The version of the file VERSION is that of all.
version=$(cat "$root/VERSION")
IFS=. read -r first second third <<<"$version"
echo "$version" >"$work/wanted"
"$program" --version | sed 's/^paseto //' >"$work/found"
same 'the version of the program'
sed -nE 's/^version = "(.*)"$/\1/p' "$root/bindings/python/pyproject.toml" >"$work/found"
same 'the version of the package for Python'
sed -nE 's/^version = "(.*)"$/\1/p' "$root/bindings/rust/Cargo.toml" | head -n 1 >"$work/found"
same 'the version of the crate for Rust'
echo $((10000 * first + 100 * second + third)) >"$work/wanted"
sed -nE 's/^#define PASETO_VERSION ([0-9]+)$/\1/p' "$root/c/paseto.h" >"$work/found"
same 'the version of paseto.h'

# Each call of the library for C has a page, with its prototype and a description.
python3 "$root/tools/pages.py" "$work/pages" "$root/c/paseto.h"
grep -oE '^(static inline )?\w+ paseto_\w+\(' "$root/c/paseto.h" | sed -E 's/.* (\w+)\($/\1/' | sort -u >"$work/wanted"
ls "$work/pages" | sed 's/\.3$//' >"$work/found"
same 'the pages of the calls'
for name in $(cat "$work/wanted"); do
    if grep -q "^\\\\fB.* $name(" "$work/pages/$name.3" && grep -q '^\.SH DESCRIPTION' "$work/pages/$name.3"; then pass; else fail "the page of $name"; fi
done

# Each option has a text of its own, and the pages have no fault.
sed -nE '/^\.SH OPTIONS/,/^\.SH EXIT/p' "$work/manual" | grep -oE -- '^--[a-z-]+|, --[a-z-]+' | grep -oE -- '--[a-z-]+' | sort -u >"$work/found"
while read -r command; do "$program" "$command" --help; done <"$work/commands" | grep -oE '^ +(-[a-z], )?--[a-z-]+' | grep -oE -- '--[a-z-]+' |
    { cat; echo --version; } | sort -u >"$work/wanted"
same 'the options of paseto(1)'
if command -v groff >/dev/null; then
    for page in "$root"/man/* "$work"/pages/*; do
        faults=$(groff -man -ww -Tascii "$page" 2>&1 >/dev/null)
        if [ -z "$faults" ]; then pass; else fail "$page: $faults"; fi
    done
else
    echo 'there is no groff: the pages are not set'
fi
finish
