#!/usr/bin/env bash
# Measures sealing, opening, signing, verifying, wrapping keys and the primitives beside libsodium and OpenSSL, and tokens
# of claims beside libsodium with jansson and with cJSON.
#
#   bench/run.sh [--quick] [--cpu NAME] [SUBJECT..]
#
# --quick measures each row for a quarter of a second in place of one and a half, and its figures are
# rough. --cpu builds the library for another processor, as x86-64-v3. A SUBJECT, as v4, XChaCha20 or
# build, is the beginning of the names of those that are measured; without one all are. The library and
# the library for C are proved first, over what build.sh left.
# plot.py draws what a run prints.
set -euo pipefail
cd "$(dirname "$0")"

words=()
cpu=()
while [ $# -gt 0 ]; do
    case "$1" in
        --quick) words+=("$1"); shift ;;
        --cpu) cpu=(--cpu "${2:?--cpu wants a name, as x86-64-v3}"); shift 2 ;;
        -*) echo "usage: bench/run.sh [--quick] [--cpu NAME] [SUBJECT..]" >&2; exit 2 ;;
        *) break ;;
    esac
done

if ! printf '#include <%s>\n' sodium.h openssl/evp.h jansson.h cjson/cJSON.h | cc -E - >/dev/null 2>&1; then
    echo "The peers are missing. On Debian:" >&2
    echo "apt-get install gcc binutils libsodium-dev libssl-dev libjansson-dev libcjson-dev" >&2
    exit 1
fi

mkdir -p out
echo "proving and building the library (the log is bench/out/build.log)" >&2
if ! python3 ../tools/prove.py "${cpu[@]}" test_bench paseto_c >out/build.log 2>&1; then
    tail -30 out/build.log >&2
    exit 1
fi
bash ../c/build.sh out/c --built

kit=$(dirname "$(rt doc)")
cc -O2 -std=c11 -D_POSIX_C_SOURCE=200809L -Wall -Wextra -Iout/c/include -o out/bench \
    bench.c allocations.c base64url.c peer_common.c peer_v2.c peer_v4.c peer_public.c peer_nist.c peer_p384.c peer_rsa.c \
    peer_claims.c peer_wrapping.c out/c/lib/libpaseto.a \
    ../crates/test_bench/out/libtest_bench.a "$kit/c/liblibc_c.a" "$kit/c/libos_c.a" \
    -lsodium -lcrypto -ljansson -lcjson

echo "$(date -u +%F), $(uname -m), $(sed -n 's/^model name[^:]*: //p' /proc/cpuinfo | head -1)"
echo "load before the run: $(cut -d' ' -f1 /proc/loadavg), processor of the library: ${cpu[1]:-default}"
exec out/bench "${words[@]}" "$@"
