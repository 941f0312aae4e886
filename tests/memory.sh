#!/usr/bin/env bash
# Refuses each request for memory that a public call makes: the first, the second, and so on, and also each
# with all that follow, until a run meets no refusal. The program `test_memory` asks the calls,
# `refused_memory.c` refuses, and the program `paseto_tool` is run the same way from its start to its end.
#
#   tests/memory.sh [PROGRAM TOOL]
#
# Without words it takes the programs that lie in the crates' out/, and proves and builds them where they are
# not there. A row of the table is a call, how many requests it makes, for how many bytes in all, and how often a
# run that met a refusal answered a failed allocation, or what is right all the same. The rows of the cases
# have to be those of tests/memory.txt, so that a call that takes more memory than it did fails. The last line is
# 'N passed, M failed', and the status is 0 where none failed.
set -u
export LC_ALL=C

root=$(cd "$(dirname "$0")/.." && pwd)

if [ $# -eq 0 ]; then
    set -- "$root/crates/test_memory/out/test_memory" "$root/crates/paseto_tool/out/paseto_tool"
    if [ ! -x "$1" ] || [ ! -x "$2" ]; then
        python3 "$root/tools/prove.py" test_memory paseto_tool
    fi
fi
program=$1
tool=$2
if [ ! -x "$program" ] || [ ! -x "$tool" ]; then
    echo "there are no programs $program and $tool"
    echo "0 passed, 1 failed"
    exit 1
fi

work=$(mktemp -d)
trap 'rm -rf "$work"' EXIT
library=$work/refused_memory.so
source "$root/tests/counts.sh"

if ! cc -std=c11 -Wall -Wextra -Werror -O2 -shared -fPIC -o "$library" "$root/tests/refused_memory.c"; then
    fail 'the library that refuses is not built'
    finish
fi

# A program asks the C library for memory by these alone, and so never past the library that refuses.
asks_by_known_names() {
    local others
    others=$(nm -D --undefined-only "$1" | grep -oE '\b(reallocarray|aligned_alloc|posix_memalign|memalign|valloc|mmap|sbrk|brk)\b')
    if [ -z "$others" ]; then pass; else fail "$1 asks for memory by $others"; fi
}

asks_by_known_names "$program"
asks_by_known_names "$tool"

# Calls that answer what is right though a request was refused, and why that does no harm.
lines='the lines of the text are collected: where room for all of them is refused, the list grows as they come'
declare -A unharmed=([private_key_from_pem]=$lines [public_key_from_pem]=$lines [key_from_pem]=$lines
    ['AnyKey::unlock of a key in PEM']=$lines ['unlock of a key in PEM']=$lines)

# ---- the cases

# row NAME REQUESTS BYTES MEMORY RIGHT: a row of the table.
row() {
    printf '%-74s %8d %8d %8d %8d\n' "$@"
}

# ask VARIABLE N NAME: runs a case. Sets requests, bytes, refused and answer.
ask() {
    local output
    output=$(timeout 60 env LD_PRELOAD="$library" "$1=$2" "$program" "$3" 2>&1)
    if [[ $output =~ ^'requests '([0-9]+)' bytes '([0-9]+)' refused '([0-9]+)$'\n'"$3: "(.*)$ ]]; then
        requests=${BASH_REMATCH[1]} bytes=${BASH_REMATCH[2]} refused=${BASH_REMATCH[3]} answer=${BASH_REMATCH[4]}
    else
        requests=0 bytes=0 refused=0 answer=${output:0:200}
    fi
}

# A call makes this many requests before its answer, at most.
most=1000

# check_mode NAME VARIABLE: refuses by the variable, counting upwards. Adds to memory and harmless, and sets
# total and size to how many requests the call makes where none is refused, and for how many bytes.
check_mode() {
    local n
    for ((n = 1; n <= most; n++)); do
        ask "$2" "$n" "$1"
        case "$refused $answer" in
            '0 right, then right')
                pass
                total=$requests size=$bytes
                return ;;
            0\ *) ;;
            *' memory, then right')
                pass
                memory=$((memory + 1))
                continue ;;
            *' right, then right')
                harmless=$((harmless + 1))
                if [ -n "${unharmed[${1% of *}]-}${unharmed[$1]-}" ]; then pass; continue; fi ;;
        esac
        fail "$1, $2=$n: requests $requests, refused $refused: $answer"
        [ "$refused" -gt 0 ] || return
    done
    fail "$1: more than $most requests"
}

# check_case NAME: refuses in both ways, and prints the row.
check_case() {
    local memory=0 harmless=0 total=0 size=0
    check_mode "$1" REFUSE_AT
    check_mode "$1" REFUSE_FROM
    row "$1" "$total" "$size" "$memory" "$harmless" | tee -a "$work/table"
    case "$1" in
        *'with no memory'*)
            if [ "$total" -eq 0 ]; then pass; else fail "$1: makes requests"; fi ;;
        *)
            if [ "$total" -gt 0 ]; then pass; else fail "$1: makes no request"; fi ;;
    esac
}

if ! "$program" >"$work/cases" 2>"$work/err" || grep -qv ': right, then right$' "$work/cases"; then
    fail "a run over all cases: $(grep -v ': right, then right$' "$work/cases" "$work/err" | head -n 3)"
fi
sed 's/: right, then right$//' "$work/cases" >"$work/names"

printf '%-74s %8s %8s %8s %8s\n' 'call' 'requests' 'bytes' 'memory' 'right'
while IFS= read -r name; do
    check_case "$name"
done <"$work/names"

# ---- no call takes more than it did

if differences=$(diff "$root/tests/memory.txt" "$work/table"); then
    pass
else
    fail "the cases' rows are not those of tests/memory.txt: $differences"
fi

# ---- every call is there

python3 "$root/tests/memory_calls.py" >"$work/calls" || fail 'the calls are not listed'
while IFS= read -r call; do
    case "$call" in
        *' of '*) pattern="$call" ;;
        *) pattern="$call of " ;;
    esac
    if grep -qF -- "$pattern" "$work/names"; then pass; else fail "$call: no case asks it"; fi
done <"$work/calls"
echo "$(wc -l <"$work/calls") calls are declared, $(wc -l <"$work/names") cases ask them"

# ---- no length takes memory that is not there

for length in 0 1 100 1000 10000 65536 70000 100000 1100000; do
    if timeout 60 "$program" all "$length" >"$work/long" 2>&1 && cmp -s "$work/long" "$work/cases"; then
        pass
    else
        fail "length $length: $(grep -v ': right, then right$' "$work/long" | head -n 3)"
    fi
done
echo 'texts of 0 to 1,100,000 bytes: no call wants memory'

# ---- the program, from its start to its end

key=77756262616c7562626164756264756277756262616c75626261647562647562
zero=0000000000000000000000000000000000000000000000000000000000000000

# call VARIABLE N WORD..: runs the program on $work/in. Sets requests, bytes, refused and status.
call() {
    local variable=$1 n=$2
    shift 2
    rm -f "$work/report"
    timeout 10 env LD_PRELOAD="$library" REFUSE_REPORT="$work/report" "$variable=$n" \
        "$tool" "$@" <"$work/in" >"$work/out" 2>"$work/err"
    status=$?
    requests=0 bytes=0 refused=0
    [ -f "$work/report" ] && read -r _ requests _ bytes _ refused <"$work/report"
}

# ends_as NAME: whether standard output and standard error are as in these files.
ends_as() {
    cmp -s "$work/out" "$work/$1.out" && cmp -s "$work/err" "$work/$1.err"
}

# check_calls VARIABLE WORD..: refuses by the variable, counting upwards. Adds to memory and harmless. One request
# may be refused with no harm: for the list of words room is asked for all of them at once, and where that is
# refused, for one, so that the list grows word by word.
check_calls() {
    local variable=$1 n
    shift
    for ((n = 1; n <= most; n++)); do
        call "$variable" "$n" "$@"
        if [ "$refused" -eq 0 ]; then
            if [ "$status" -eq "$wanted" ] && [ -f "$work/report" ] && ends_as right; then
                pass
            else
                fail "paseto_tool $*: status $status where nothing was refused"
            fi
            return
        elif [ "$status" -eq 1 ] && ends_as memory; then
            pass
            memory=$((memory + 1))
        elif [ "$status" -eq "$wanted" ] && ends_as right && [ "$harmless" -eq 0 ]; then
            pass
            harmless=1
        else
            fail "paseto_tool $*, $variable=$n: status $status, $(head -c 200 "$work/err")"
        fi
    done
    fail "paseto_tool $*: more than $most requests"
}

# check_tool INPUT WORD..: a command, whose status and output are first told without refusal.
check_tool() {
    local memory=0 harmless=0 total size wanted end=
    printf %s "$1" >"$work/in"
    shift
    : >"$work/memory.out"
    echo 'No memory was found' >"$work/memory.err"
    call REFUSE_AT 0 "$@"
    wanted=$status total=$requests size=$bytes
    [ "$wanted" -eq 0 ] || end=', refused'
    mv "$work/out" "$work/right.out"
    mv "$work/err" "$work/right.err"
    check_calls REFUSE_AT "$@"
    check_calls REFUSE_FROM "$@"
    row "paseto_tool $1 ${2:0:2}$end" "$total" "$size" "$memory" "$harmless"
    if [ "$total" -gt 0 ]; then pass; else fail "paseto_tool $*: makes no request"; fi
}

long=$(head -c 20000 /dev/zero | tr '\0' a)
check_tool '' inspect v4.local.payload.Zm9vdGVy
check_tool '' inspect v4.local.payload._w
for version in v1 v3 v4; do
    check_tool "$long" seal $version "$key" "$zero" footer
    check_tool "$(cat "$work/right.out")" open $version "$key" footer
    check_tool 'no token' open $version "$key"
done
check_tool '' reveal v4.local.payload

finish
