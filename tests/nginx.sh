#!/usr/bin/env bash
# Builds the module of bindings/nginx against the nginx that is installed, and asks it in a real one on the loopback interface:
# each directive, variable and status, headers that a client can't forge, keep-alive, HTTP/2, 2,000 hostile tokens, a worker under
# valgrind, reloads under load, broken configurations, and the configuration of its README.
#
#   tests/nginx.sh PREFIX
#
# PREFIX is where build.sh, or c/build.sh, installed the library. wrk asks for 10 seconds, or for LOAD_SECONDS; the hostile tokens
# are those of another SEED each time, unless the environment has one. The last line is 'N passed, M failed'.
set -u
root=$(cd "$(dirname "$0")/.." && pwd)
# shellcheck source=tests/counts.sh
source "$root/tests/counts.sh"
prefix=$(cd "${1:?usage: tests/nginx.sh PREFIX}" && pwd)
PATH=$PATH:/usr/sbin:/sbin
for tool in nginx:nginx wrk:wrk curl:curl valgrind:valgrind python3:python3 openssl:openssl make:make cc:gcc; do needs "${tool%:*}" "${tool#*:}"; done
if [ ! -e /usr/share/nginx/src/conf_flags ]; then
    fail 'the sources of nginx are missing. On Debian: apt-get install nginx-dev'
    finish
fi
work=$(mktemp -d)
# The workers of nginx are another user's.
chmod 755 "$work"
trap 'rm -rf "$work"' EXIT
if bash "$root/bindings/nginx/build.sh" "$work" "$prefix" >"$work/log" 2>&1; then pass; else fail "the module: $(tail -n 20 "$work/log")"; finish; fi
cp "$root/bindings/nginx/tests/test_nginx.py" "$work"
export MODULE=$work/ngx_http_paseto_module.so LD_LIBRARY_PATH=$prefix/lib PASETO_LIBRARY=$prefix/lib/libpaseto.so.1
export PYTHONPATH=$root/bindings/python/src PYTHONDONTWRITEBYTECODE=1 README=$root/bindings/nginx/README.md
export PUBLISHED=$root/crates/test_rows/data/published.txt SEED=${SEED:-$(date +%s)}
(cd "$work" && python3 -m unittest -v test_nginx) >"$work/log" 2>&1
ran=$(sed -nE 's/^Ran ([0-9]+) tests? in .*/\1/p' "$work/log")
wrong=$(grep -cE '^(ERROR|FAIL): ' "$work/log")
passed=$((passed + ${ran:-0} - wrong))
failed=$((failed + wrong))
grep '^wrk' "$work/log"
grep -E '^(ERROR|FAIL): ' "$work/log" | sed 's/^/FAILED: /'
if [ "${ran:-0}" -gt 0 ] && grep -qE '^OK' "$work/log"; then pass; else fail "SEED=$SEED: $(tail -n 20 "$work/log")"; fi
finish
