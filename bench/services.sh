#!/usr/bin/env bash
# Measures what services ask of the library: tokens admitted a second from Python and from Go, with one thread and with four,
# beside PyJWT and golang-jwt of Debian's packages, and requests a second of nginx with its module and without.
#
#   bench/services.sh PREFIX
#
# PREFIX is where build.sh installed. It prints the rows of the tables in bench/README.md. On Debian it needs: apt-get install
# python3-jwt python3-cryptography golang-go golang-github-golang-jwt-jwt-dev nginx nginx-dev wrk
set -euo pipefail
export LC_ALL=C
root=$(cd "$(dirname "$0")/.." && pwd)
prefix=$(cd "${1:?usage: bench/services.sh PREFIX}" && pwd)
work=$(mktemp -d)
trap 'chmod -R u+w "$work"; rm -rf "$work"' EXIT
export PKG_CONFIG_PATH=$prefix/lib/pkgconfig GOCACHE=$work/cache GOPROXY=off

echo '| Admits a second | 1 thread | 4 threads |'
echo '|---|---|---|'
bash "$root/bindings/python/build.sh" "$work/wheel" "$prefix" >/dev/null
python3 -m zipfile -e "$work"/wheel/*.whl "$work/python"
PYTHONPATH=$work/python /usr/bin/python3 "$root/bench/services/admit.py"

# rows NAME DIRECTORY: the benchmarks of a Go package, by their best of three.
rows() {
    (cd "$2" && go test -run '^$' -bench . -cpu 1,4 -benchtime 2s -count 3 2>/dev/null) | awk -v what="$1" '
        /^Benchmark/ { name = $1; sub(/^Benchmark/, "", name); four = sub(/-4$/, "", name); rate = 1e9 / $3
            if (rate > best[name, four]) best[name, four] = rate; names[name] }
        END { for (name in names) printf "| Go: %s, %s | %d | %d |\n", what, name, best[name, 0], best[name, 1] }' | sort
}
GOPATH=$work/path rows 'this module' "$root/bindings/go"
mkdir -p "$work/jwt/src/jwt_bench" && cp "$root/bench/services/jwt_test.go" "$work/jwt/src/jwt_bench"
GO111MODULE=off GOPATH=$work/jwt:/usr/share/gocode rows golang-jwt "$work/jwt/src/jwt_bench"

echo
LOAD_SECONDS=${LOAD_SECONDS:-60} bash "$root/tests/nginx.sh" "$prefix" | grep '^wrk'
