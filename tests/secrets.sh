#!/usr/bin/env bash
# Asks the machine code whether a jump or an address tells a secret: valgrind runs the driver `secrets.c` over the
# static library of `test_bench`, with the bytes of the key (and, in a second run, of the text) marked as
# undefined, and reports each conditional jump and each address that depends on them.
#
#   tests/secrets.sh [--cpu NAME | --backend rattle | --built]
#
# The library is proved first, over what build.sh left. --cpu builds it for another processor, as x86-64-v3; --backend rattle
# builds it by Rattle's own compiler in place of LLVM, and asks the texts of keys alone; --built takes it as it stands in the
# crate's out/. What may be reported, and why that tells nothing, is in `secrets.txt`. The compiler may do otherwise on
# another processor or at another version, so this is a test of a build, and no promise. The last line is 'N passed, M
# failed', and the status is 0 where none failed.
set -u
export LC_ALL=C

root=$(cd "$(dirname "$0")/.." && pwd)
cpu=()
is_built=0
build=default
case "$# $*" in
    '0 ') ;;
    '1 --built') is_built=1 ;;
    '2 --cpu '*) cpu=("$@") build=$2 ;;
    '2 --backend rattle') build=rattle ;;
    *)
        echo 'usage: tests/secrets.sh [--cpu NAME | --backend rattle | --built]' >&2
        exit 2 ;;
esac

work=$(mktemp -d)
trap 'rm -rf "$work"' EXIT
source "$root/tests/counts.sh"

needs cc gcc
needs valgrind valgrind

if [ "$is_built" -eq 0 ] && ! python3 "$root/tools/prove.py" "${cpu[@]}" test_bench >"$work/build" 2>&1; then
    tail -n 30 "$work/build"
    fail 'the library is not built'
    finish
fi
library=$root/crates/test_bench/out/libtest_bench.a

# The library by Rattle's own compiler, over the same proofs. That of LLVM is put back where it was.
by_rattle() {
    cp "$library" "$work/by_llvm.a"
    (cd "$root/crates/test_bench" && rt lib --backend rattle) >"$work/build" 2>&1
    local status=$?
    cp "$library" "$work/by_rattle.a"
    cp "$work/by_llvm.a" "$library"
    library=$work/by_rattle.a
    return "$status"
}

if [ "$build" = rattle ] && ! by_rattle; then
    tail -n 30 "$work/build"
    fail "the library is not built by Rattle's own compiler"
    finish
fi
kit=$(dirname "$(rt doc)")
if ! cc -std=c11 -Wall -Wextra -Werror -O1 -o "$work/secrets" "$root/tests/secrets.c" "$root/tests/secrets_of_keys.c" \
    "$library" "$kit/c/liblibc_c.a" "$kit/c/libos_c.a"; then
    fail 'the driver is not built'
    finish
fi

# The private keys of RSA that OpenSSL made.
sed -n 's/^rsa_signed \([0-9a-f]*\) .*/\1/p' "$root/crates/test_rows/data/rsa.txt" >"$work/keys"

# A line 'kind function' for each report: jump, address, or other.
reports() {
    awk '/^==[0-9]+== [A-Z]/ { kind = /Conditional jump/ ? "jump" : /Use of uninitialised/ ? "address" : "other" }
        /^==[0-9]+==    at / && kind {
            sub(/^.* at 0x[0-9A-F]+: /, ""); sub(/ \((in )?[^ ()]*\)$/, ""); sub(/::<#[0-9a-f]+>$/, "")
            print kind, $0
            kind = ""
        }' "$1"
}

# ask VERSION CALL: the reports of a run, in $work/found as lines 'count kind function'. Private keys of RSA are read from
# its input.
ask() {
    valgrind -q --error-limit=no --num-callers=1 --log-file="$work/log" "$work/secrets" "$1" "$2" \
        <"$work/keys" >"$work/out" 2>&1
    status=$?
    reports "$work/log" | sort | uniq -c >"$work/found"
}

# may VERSION CALL KIND FUNCTION: in how many places secrets.txt lets it be reported.
may() {
    awk -v own="$1.$2" -v call="$2" -v kind="$3" -v name="$4" -v build="$build" '
        ($1 == "*" || $1 == build) && ($2 == call || $2 == own) && $3 == kind && $5 == name && $4 > most { most = $4 }
        END { print most + 0 }' "$root/tests/secrets.txt"
}

# check VERSION CALL: nothing is reported but what may be.
check() {
    local count kind name told=0
    ask "$1" "$2"
    [ "$status" -eq 0 ] || { fail "$1 $2: a call answers wrongly, or valgrind does not run (status $status)"; return; }
    while read -r count kind name; do
        if [ "$count" -gt "$(may "$1" "$2" "$kind" "$name")" ]; then
            fail "$1 $2: $count places with a secret $kind in $name"
            told=1
        fi
    done <"$work/found"
    [ "$told" -eq 1 ] || pass
    printf '%-7s %-17s %3d places\n' "$1" "$2" "$(reports "$work/log" | wc -l)"
}

# The test is able to fail: a jump on the key and an address at it, in the driver itself, are reported.
ask control control
for kind in jump address; do
    if grep -qE "^ +1 $kind control$" "$work/found"; then pass; else fail "the control's $kind is not reported"; fi
done
if [ "$(may control control jump control)" -eq 0 ]; then pass; else fail 'secrets.txt lets the control pass'; fi

for version in v1 v2 v3 v4; do
    for call in text_write text_read text_refused; do
        check "$version" "$call"
    done
done
[ "$build" != rattle ] || finish
for version in v1 v2 v3 v4 box; do
    for call in seal seal_text refused open; do
        check "$version" "$call"
    done
done
for call in key sign signer; do
    check ed25519 "$call"
done
check p384 key
check p384 sign
check p384 agree
check rsa sign
for version in v1 v2 v3 v4; do
    for call in wrap unwrap unwrap_secret unwrap_refused protect unprotect unprotect_secret unprotect_refused \
        pem_write pem_read pem_contents; do
        check "$version" "$call"
    done
done
for version in v2 v3 v4; do
    for call in seal_key unseal_key unseal_refused; do
        check "$version" "$call"
    done
done
finish
