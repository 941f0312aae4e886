#!/usr/bin/env bash
# Tests the module of bindings/go over an installed library: its tests and examples with the race detector, go vet and gofmt,
# linked statically and over libpaseto.so, a module that takes it by `replace`, and tokens both ways with the program.
#
#   tests/go.sh PREFIX
#
# PREFIX is where build.sh installed. The last line is 'N passed, M failed', and the status is 0 where none failed.
set -u
export LC_ALL=C

root=$(cd "$(dirname "$0")/.." && pwd)
# shellcheck source=tests/counts.sh
source "$root/tests/counts.sh"
if [ $# -ne 1 ]; then
    echo 'usage: tests/go.sh PREFIX' >&2
    exit 2
fi
prefix=$(realpath "$1")
for tool in go:golang-go cc:gcc pkg-config:pkg-config readelf:binutils; do needs "${tool%:*}" "${tool#*:}"; done
work=$(mktemp -d)
trap 'chmod -R u+w "$work"; rm -rf "$work"' EXIT
# The library of the prefix, wherever it was moved.
mkdir "$work/pkgconfig" && sed "s|^prefix=.*|prefix=$prefix|" "$prefix/lib/pkgconfig/paseto.pc" >"$work/pkgconfig/paseto.pc"
export PKG_CONFIG_PATH=$work/pkgconfig GOCACHE=$work/cache GOPATH=$work/path GOPROXY=off GOFLAGS=-mod=mod
cd "$root/bindings/go" || exit 1

# tested NAME COMMAND..: counts the tests and examples that pass, and each that does not.
tested() {
    local name=$1 status ran wrong
    shift
    "$@" >"$work/log" 2>&1
    status=$?
    ran=$(grep -cE '^ *--- PASS: ' "$work/log")
    wrong=$(grep -cE '^ *--- FAIL: ' "$work/log")
    passed=$((passed + ran))
    failed=$((failed + wrong))
    # Each test and each example of the files has run.
    if [ "$status" -eq 0 ] && [ "$ran" -eq "$(grep -cE '^func (Test|Example)' ./*_test.go | awk -F: '{ sum += $2 } END { print sum }')" ]; then
        pass
    else
        fail "$name: $(grep -vE '^(=== RUN|--- PASS)' "$work/log" | head -n 20)"
    fi
}

is 'gofmt' "$(gofmt -l .)" ''
is 'go vet' "$(go vet ./... 2>&1)" ''
tested 'go test -race' go test -race -count=1 -v ./...
LD_LIBRARY_PATH=$prefix/lib tested 'go test over libpaseto.so' go test -tags paseto_shared -count=1 -v ./...

# A module beside it takes it by `replace`.
mkdir "$work/user"
printf 'module user\n\ngo 1.19\n\nrequire paseto-proved v1.0.0\n\nreplace paseto-proved => %s\n' "$root/bindings/go" >"$work/user/go.mod"
cat >"$work/user/main.go" <<'END'
package main

import (
	"fmt"
	"os"
	"strings"

	paseto "paseto-proved"
)

// The key is in the file that the first word names. Without a second word a token is issued, else that one is admitted.
func main() {
	text, err := os.ReadFile(os.Args[1])
	if err != nil {
		panic(err)
	}
	key, err := paseto.ParseKey(text)
	if err != nil {
		panic(err)
	}
	if len(os.Args) == 2 {
		token, err := key.Issue(map[string]any{"sub": "ada"})
		if err != nil {
			panic(err)
		}
		fmt.Println(token)
		return
	}
	var claims map[string]any
	err = key.Admit(strings.TrimSpace(os.Args[2]), &claims)
	fmt.Println(claims["sub"], err)
}
END
if (cd "$work/user" && go build -o user . && go build -tags paseto_shared -o shared .) >"$work/log" 2>&1; then pass; else fail "a module over it: $(tail -n 5 "$work/log")"; fi
is 'what the program needs' "$(readelf -d "$work/user/user" | grep -c 'NEEDED.*libpaseto')" 0
is 'what the program over libpaseto.so needs' "$(readelf -d "$work/user/shared" | grep -c 'NEEDED.*libpaseto.so.1')" 1
if [ ! -x "$prefix/bin/paseto" ]; then
    fail "there is no $prefix/bin/paseto: build.sh makes it"
    finish
fi
for type in v4.local v4.public v3.public v2.local v1.local; do
    key=$work/$type.key public=$work/$type.key
    if [[ $type == *.public ]]; then
        public=$work/$type.pub
        "$prefix/bin/paseto" keygen "$type" --quiet --out "$key" --public "$public" 2>"$work/log" || fail "keygen $type: $(cat "$work/log")"
    else
        "$prefix/bin/paseto" keygen "$type" --quiet --out "$key" 2>"$work/log" || fail "keygen $type: $(cat "$work/log")"
    fi
    "$work/user/user" "$key" >"$work/token"
    if "$prefix/bin/paseto" check --key "$public" --claim sub=ada "$work/token" 2>"$work/log" | grep -q '"sub":"ada"'; then
        pass
    else
        fail "$type from Go to the program: $(cat "$work/log")"
    fi
    token=$("$prefix/bin/paseto" issue --key "$key" --claim sub=ada --expires 1h)
    is "$type from the program to Go, at once" "$("$work/user/user" "$public" "$token" 2>&1 | head -n 1)" 'ada <nil>'
done
finish
