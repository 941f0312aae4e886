#!/usr/bin/env bash
# Counts the instructions of signing and verifying, by valgrind's callgrind, and fails where a scheme does its work twice:
# where `verify` verifies twice, or `sign` verifies what it signed, which no contract can say. A count is the same on a
# busy machine.
#
#   tests/verified_once.sh [--built]
#
# In November 2026 verifying an empty text took 134 hundredths of what signing it took by Ed25519, and 194 by P-384. A
# scheme that verifies twice takes twice that, and a `sign` that verifies afterwards makes it less than 100: the bounds
# leave room for other arithmetic. What a long text takes more than an empty one is the hashing, which is counted in passes:
# both schemes hash the text once in verifying, and in signing Ed25519 twice and P-384 once. The library is proved first,
# over what build.sh left; --built takes it as it stands in the crate's out/. The last line is 'N passed, M failed', and the
# status is 0 where none failed.
set -u
export LC_ALL=C

root=$(cd "$(dirname "$0")/.." && pwd)
case "$# ${1-}" in
    '0 ') is_built=0 ;;
    '1 --built') is_built=1 ;;
    *)
        echo 'usage: tests/verified_once.sh [--built]' >&2
        exit 2 ;;
esac
work=$(mktemp -d)
trap 'rm -rf "$work"' EXIT
source "$root/tests/counts.sh"

needs cc gcc
needs valgrind valgrind

if [ "$is_built" -eq 0 ] && ! python3 "$root/tools/prove.py" test_bench >"$work/build" 2>&1; then
    tail -n 30 "$work/build"
    fail 'the library is not built'
    finish
fi
kit=$(dirname "$(rt doc)")
if ! cc -std=c11 -Wall -Wextra -Werror -O1 -o "$work/driver" "$root/tests/verified_once.c" \
    "$root/crates/test_bench/out/libtest_bench.a" "$kit/c/liblibc_c.a" "$kit/c/libos_c.a"; then
    fail 'the driver is not built'
    finish
fi

# The length of the long text.
long=65536

# run SCHEME CALL REPS LENGTH: how many instructions a run takes, in its file.
run() {
    local file=$work/$1.$2.$3.$4
    valgrind --tool=callgrind --callgrind-out-file=/dev/null "$work/driver" "$@" >"$file.log" 2>&1 || return
    sed -nE 's/^==[0-9]+== Collected : ([0-9]+)$/\1/p' "$file.log" >"$file"
}

# cost SCHEME CALL LENGTH: how many instructions the call takes, or nothing where a run failed.
cost() {
    local without with
    without=$(cat "$work/$1.none.0.$3" 2>/dev/null) with=$(cat "$work/$1.$2.1.$3" 2>/dev/null)
    if [ -n "$without" ] && [ -n "$with" ]; then echo $((with - without)); fi
}

# hundredths VALUE OF: the first in hundredths of the second, or nothing.
hundredths() {
    if [ -n "$1" ] && [ "${2:-0}" -gt 0 ]; then echo $((100 * $1 / $2)); fi
}

# between NAME VALUE LEAST MOST
between() {
    if [ -n "$2" ] && [ "$3" -le "$2" ] && [ "$2" -le "$4" ]; then pass; else fail "$1: ${2:-nothing}, not $3 to $4"; fi
}

# passes SCHEME CALL: how often the call hashes the text, in hundredths.
passes() {
    local hash_long hash_none long_cost none_cost
    hash_long=$(cost ed25519 hash $long) hash_none=$(cost ed25519 hash 0)
    long_cost=$(cost "$1" "$2" $long) none_cost=$(cost "$1" "$2" 0)
    if [ -n "$long_cost" ] && [ -n "$none_cost" ]; then
        hundredths $((long_cost - none_cost)) $((${hash_long:-0} - ${hash_none:-0}))
    fi
}

for length in 0 $long; do
    for scheme in ed25519 p384; do
        run "$scheme" none 0 "$length" &
        run "$scheme" sign 1 "$length" &
        run "$scheme" verify 1 "$length" &
    done
    run ed25519 hash 1 "$length" &
    wait
done

# check SCHEME LEAST MOST SIGNS: the bounds for verifying, and how often signing hashes the text.
check() {
    local sign verify
    sign=$(cost "$1" sign 0) verify=$(cost "$1" verify 0)
    echo "$1: ${sign:-no} instructions to sign, ${verify:-no} to verify"
    between "$1: hundredths that verifying takes of signing" "$(hundredths "$verify" "$sign")" "$2" "$3"
    between "$1: hundredths of passes over the text in signing" "$(passes "$1" sign)" $((100 * $4 - 25)) $((100 * $4 + 25))
    between "$1: hundredths of passes over the text in verifying" "$(passes "$1" verify)" 75 125
}

check ed25519 90 220 2
check p384 200 450 1
finish
