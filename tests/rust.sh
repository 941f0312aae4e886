#!/usr/bin/env bash
# Tests the crate of bindings/rust over an installed libpaseto.a: its calls, each refusal by its name, the tokens that the
# PASETO specification publishes, the examples of its documentation and those of the README of rusty_paseto, the example
# service, tokens both ways with the program, C and Python, the packaged crate, and the oldest rustc beside the installed one.
# Crates come from Debian's packages of them, without network.
#
#   tests/rust.sh PREFIX
#
# PREFIX is where build.sh installed. The last line is 'N passed, M failed', and the status is 0 where none
# failed.
set -u
export LC_ALL=C

root=$(cd "$(dirname "$0")/.." && pwd)
# shellcheck source=tests/counts.sh
source "$root/tests/counts.sh"
if [ $# -ne 1 ]; then
    echo 'usage: tests/rust.sh PREFIX' >&2
    exit 2
fi
prefix=$(realpath "$1")
for tool in cargo:cargo cc:gcc curl:curl strace:strace pkg-config:pkg-config python3:python3; do needs "${tool%:*}" "${tool#*:}"; done
work=$(mktemp -d)
trap 'rm -rf "$work"' EXIT
bash "$root/bindings/rust/offline.sh" "$work/cargo" || { fail 'there are no crates'; finish; }
export CARGO_HOME=$work/cargo CARGO_TARGET_DIR=$work/target PASETO_LIB_DIR=$prefix/lib
cd "$root/bindings/rust" || exit 1

# asked NAME COMMAND..: passes where the command does, and writes nothing of a warning.
asked() {
    local name=$1
    shift
    if "$@" >"$work/log" 2>&1 && ! grep -q '^warning' "$work/log"; then
        pass
    else
        fail "$name: $(grep -E -A 4 'FAILED|panicked|^error|^warning|^Error' "$work/log" | head -n 30)"
    fi
}

# tested NAME KINDS COMMAND..: as many kinds of tests as said, each test counted.
tested() {
    local name=$1 kinds=$2 results
    shift 2
    asked "$name" "$@"
    results=$(grep -c '^test result: ' "$work/log")
    if [ "$results" -eq "$kinds" ]; then pass; else fail "$name: $results of $kinds kinds of tests"; fi
    passed=$((passed + $(awk '/^test result: / { sum += $4 } END { print sum + 0 }' "$work/log")))
}

tested 'cargo test' 14 cargo test --no-fail-fast
examples=$(grep -cE '^test example_[0-9]{2}_.* ok$' "$work/log")
echo "$examples of 15 examples of the README of rusty_paseto"
is 'the examples of the README of rusty_paseto' "$examples" 15
uncalled=''
for call in $(sed -n 's/^ *pub fn \([a-z_]*\).*/\1/p' src/generic/builder.rs src/generic/parser.rs src/prelude/builder.rs src/prelude/parser.rs | sort -u); do
    grep -qw "$call" tests/every_kind.rs || uncalled+=" $call"
done
is 'the calls that tests/every_kind.rs does not make' "$uncalled" ''
RUSTDOCFLAGS='-D warnings' asked 'cargo doc' cargo doc --no-deps
if cargo clippy --version >/dev/null 2>&1; then
    asked 'cargo clippy' cargo clippy --all-targets -- -D warnings
else
    echo 'there is no clippy: it is not asked'
fi
for features in core v1_local,v3_public generic,v4_local batteries_included,v2_public; do
    asked "the features $features" cargo check --lib --no-default-features --features "$features"
done

# The calls and structs that the crate declares are those of the header.
header=$(basename "$(grep -l '^struct paseto_options ' "$prefix"/include/paseto*.h)")
python3 "$root/tests/rust_calls.py" "$header" >"$work/calls.c" || fail 'the calls of library.rs'
asked "the calls of $header" cc -std=c11 -Wall -Wextra -Werror -fsyntax-only -I "$prefix/include" "$work/calls.c"

# Tokens both ways.
cc -std=c99 -Wall -Wextra -I "$prefix/include" -o "$work/both_ways" tests/both_ways.c "$prefix/lib/libpaseto.a" || fail 'both_ways.c'
cat >"$work/python" <<END
#!/bin/sh
PYTHONPATH=$root/bindings/python/src PASETO_LIBRARY=$prefix/lib/libpaseto.so.1 PYTHONDONTWRITEBYTECODE=1 exec python3 "\$@"
END
chmod +x "$work/python"
if [ -x "$prefix/bin/paseto" ]; then export PASETO_PROGRAM=$prefix/bin/paseto; else fail "there is no $prefix/bin/paseto: build.sh makes it"; fi
PASETO_CLIENT=$work/both_ways PASETO_PYTHON=$work/python \
    tested 'tokens both ways' 1 cargo test --test both_ways --no-fail-fast -- --ignored

# A system that gives no random bytes.
CARGO_TARGET_X86_64_UNKNOWN_LINUX_GNU_RUNNER='strace -f -qq -o /dev/null -e inject=getrandom:error=ENOSYS' \
    tested 'without random bytes' 1 cargo test --test random -- --ignored

# The example service: a login, the page with its token, and refusals by name.
if cargo build --example service >"$work/log" 2>&1; then pass; else fail "the service: $(tail -n 5 "$work/log")"; fi
"$work/target/debug/examples/service" 127.0.0.1:0 >"$work/address" &
service=$!
for _ in $(seq 50); do if [ -s "$work/address" ]; then break; else sleep 0.1; fi; done
address=$(sed -n 's/^listening on //p' "$work/address")
token=$(curl -s -d 'name=ada&password=lovelace' "$address/login")
is 'a wrong password' "$(curl -s -d 'name=ada&password=guess' "$address/login")" 'wrong name or password'
is 'the page' "$(curl -s -H "Authorization: Bearer $token" "$address/page")" 'hello ada'
is 'a page without a token' "$(curl -s -w ' %{http_code}' "$address/page")" \
    'IncorrectSize: This string has an incorrect number of parts and cannot be parsed into a token 401'
is 'a modified token' "$(curl -s -H "Authorization: Bearer ${token/v4.local./v4.local.AAAA}" "$address/page")" \
    'Cryption: An unspecified cryption error occured'
is 'a long token' "$(curl -s -H "Authorization: Bearer $token$(printf '%05000d' 0)" "$address/page")" \
    'TooLong: The token or its footer is longer than allowed'
kill "$service"
wait "$service" 2>/dev/null

# Where build.rs finds the library. Its answers stand in the file `output` of the build.
searched() {
    rm -rf "$work/search"
    env "$@" CARGO_TARGET_DIR="$work/search" cargo check --quiet --lib --no-default-features --features core \
        --manifest-path "$work/copy/Cargo.toml" >"$work/log" 2>&1
    sed -n 's/^cargo:rustc-link-search=native=//p' "$work"/search/debug/build/*/output 2>/dev/null
}
mkdir "$work/copy" && cp -R Cargo.toml build.rs README.md src examples "$work/copy"
none=PKG_CONFIG_LIBDIR=$work/none
mkdir "$work/pkgconfig" && sed "s|^prefix=.*|prefix=$prefix|" "$prefix/lib/pkgconfig/paseto.pc" >"$work/pkgconfig/paseto.pc"
mkdir -p "$work/fast/x86-64-v3" && cp "$prefix/lib/libpaseto.a" "$work/fast" && cp "$prefix/lib/libpaseto.a" "$work/fast/x86-64-v3"
is 'by pkg-config' "$(searched -u PASETO_LIB_DIR PKG_CONFIG_PATH="$work/pkgconfig")" "$prefix/lib"
is 'by PASETO_LIB_DIR' "$(searched PASETO_LIB_DIR="$work/fast")" "$work/fast"
is 'for x86-64-v3' "$(searched PASETO_LIB_DIR="$work/fast" RUSTFLAGS='-C target-cpu=x86-64-v3')" "$work/fast/x86-64-v3"
is 'for x86-64-v3 without such a library' "$(searched RUSTFLAGS='-C target-cpu=x86-64-v3')" "$prefix/lib"
searched -u PASETO_LIB_DIR "$none" >/dev/null
is 'no library' "$(grep -A 1 -e '--- stderr' "$work/log" | tail -n 1 | sed 's/^ *//')" \
    'there is no libpaseto.a: run `bash build.sh` of the repository, or set PASETO_LIB_DIR to the folder that has it'

searched PASETO_LIB_DIR="$work/none" >/dev/null
is 'a folder without a library' "$(grep -A 1 -e '--- stderr' "$work/log" | tail -n 1 | sed 's/^ *//')" \
    "PASETO_LIB_DIR names $work/none, which has no libpaseto.a: \`bash build.sh PREFIX\` of the repository makes PREFIX/lib"

# The packaged crate, which holds the library: a program that adds it needs nothing else.
mkdir "$work/copy/lib" && cp "$prefix/lib/libpaseto.a" "$work/copy/lib" && cp "$root/LICENSE" "$work/copy"
asked 'cargo package' env "$none" cargo package --quiet --no-verify --allow-dirty --manifest-path "$work/copy/Cargo.toml" --target-dir "$work/packaged"
mkdir "$work/user" && tar -C "$work/user" -xzf "$work"/packaged/package/paseto-proved-*.crate
crate=$(basename "$work"/user/paseto-proved-*)
if [ -s "$work/user/$crate/lib/libpaseto.a" ]; then pass; else fail 'the packaged crate has no library'; fi
(cd "$work/user" && cargo new --quiet --vcs none program && cd program && cargo add --quiet --path "../$crate" --rename rusty_paseto paseto-proved) >"$work/log" 2>&1 || fail "cargo add: $(tail -n 3 "$work/log")"
# The program of README.md, as it stands there.
python3 "$root/tests/readme.py" rust 'fn main' >"$work/user/program/src/main.rs"
is 'a program over the packaged crate' \
    "$(cd "$work/user/program" && env -u PASETO_LIB_DIR "$none" cargo run --quiet 2>"$work/log" || tail -n 5 "$work/log")" '"ada"'
# And that of the crate's README.
sed -n '/^```rust$/,/^```$/p' README.md | sed '1d;$d' >"$work/user/program/src/main.rs"
is 'the program of the README of the crate' \
    "$(cd "$work/user/program" && env -u PASETO_LIB_DIR "$none" cargo run --quiet 2>"$work/log" || tail -n 5 "$work/log")" '"ada"'

# The oldest rustc that Cargo.toml names, where Debian's is that one.
oldest=$(sed -n 's/^rust-version = "\(.*\)"$/\1/p' Cargo.toml)
if [ -x /usr/bin/cargo ] && [ "$(/usr/bin/rustc --version 2>/dev/null | cut -d ' ' -f 2 | cut -d . -f 1-2)" = "$oldest" ]; then
    RUSTC=/usr/bin/rustc RUSTDOC=/usr/bin/rustdoc CARGO_TARGET_DIR=$work/oldest tested "cargo test by rustc $oldest" 14 /usr/bin/cargo test --no-fail-fast
else
    fail "there is no rustc $oldest at /usr/bin/rustc. On Debian 12: apt-get install cargo rustc"
fi
finish
