#!/usr/bin/env bash
# Looks for what the library for C leaves in memory: for each call it searches the caller's memory and registers for pieces of
# keys, of what is derived from them, and of texts (tests/wiping/scan.py), in the shared library, and in the static one, which
# a program binds lazily. It also sees to it that wiping stops at the guard page of a stack that is too short, and that the search
# finds something in a library that wipes its heap alone, and in one that wipes its stack alone.
#
#   tests/wiping.sh PREFIX
#
# PREFIX is where build.sh installed. The last line is 'N passed, M failed', and the status is 0 where none failed.
set -u
export LC_ALL=C

root=$(cd "$(dirname "$0")/.." && pwd)
here=$root/tests/wiping
prefix=$(cd "${1:?usage: tests/wiping.sh PREFIX}" && pwd)
work=$(mktemp -d)
trap 'rm -rf "$work"' EXIT
source "$root/tests/counts.sh"

needs cc gcc
needs objdump binutils
needs python3 python3
needs openssl openssl

build() {
    cc -std=gnu11 -O2 -Wall -Wextra -Werror "$here/calls.c" "$@" >"$work/log" 2>&1 && return
    fail "calls.c is not built: $(tail -n 3 "$work/log")"
    finish
}

# scanned NAME ARGUMENT..: adds the counts of scan.py's last line.
scanned() {
    local name=$1 right wrong
    shift
    python3 "$here/scan.py" "$@" >"$work/log" 2>&1
    if ! read -r right wrong < <(tail -n 1 "$work/log" | sed -nE 's/^([0-9]+) passed, ([0-9]+) failed$/\1 \2/p'); then
        fail "$name: $(tail -n 3 "$work/log")"
        return
    fi
    passed=$((passed + right))
    failed=$((failed + wrong))
    grep '^FAILED' "$work/log" | head -n 20
    echo "$name: $right passed, $wrong failed"
}

build -o "$work/calls"
scanned 'the shared library' "$work/calls" "$prefix/lib/libpaseto.so.1"
mkdir "$work/static"
build -rdynamic -Wl,-z,lazy -Wl,--whole-archive "$prefix/lib/libpaseto.a" -Wl,--no-whole-archive -o "$work/static/calls"
scanned 'the static library' "$work/static/calls" -

# On a stack that is too short for it.
if cc -std=gnu11 -O2 -Wall -Wextra -Werror -pthread -I "$prefix/include" "$here/short_stack.c" "$prefix/lib/libpaseto.a" -o "$work/short_stack" >"$work/log" 2>&1 &&
    "$work/short_stack" >"$work/log" 2>&1; then
    passed=$((passed + $(sed -nE 's/^([0-9]+) passed, 0 failed$/\1/p' "$work/log")))
else
    fail "on short stacks: $(tail -n 5 "$work/log")"
fi

# Half of wiping is not enough, and is found out.
for half in heap stack; do
    if ! bash "$root/c/wipe/link.sh" "$root/crates/paseto_c/out/libpaseto_c.a" "$work/$half" "$half" >"$work/log" 2>&1; then
        fail "the library that wipes its $half alone is not built: $(tail -n 3 "$work/log")"
        continue
    fi
    python3 "$here/scan.py" "$work/calls" "$work/$half/libpaseto.so.1" 'v4 decrypting 3000' >"$work/log" 2>&1
    case $half in
        heap) wanted='key ([^)]*windows in \[stack\]' ;;
        stack) wanted='text ([^)]*windows in \[heap\]' ;;
    esac
    if grep -q "^FAILED: v4 decrypting 3000 bytes left .*$wanted" "$work/log"; then pass; else fail "wiping the $half alone is not found: $(cat "$work/log")"; fi
done
finish
