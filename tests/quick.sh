#!/usr/bin/env bash
# Says within minutes whether a change is sound, while one works on it: the formats, the checks of the crates that changed
# and of those above them over the work that earlier checks kept, so that only what changed costs time, the tests of
# these crates, run with no proof, and the programs from outside.
#
#   tests/quick.sh [REVISION]
#
# What changed is what differs from REVISION, which is `main` where none is given, files that git does not know yet
# among them. It tries no must-fail edit, proves no test, refuses no memory, and begins with kept work: it is no gate.
# A test that does not end in ten seconds with no proof is told, and counts for nothing: the gate runs it compiled.
# Before the last line stands 'N passed, M failed', and the status is 0 where none failed.
set -u
export LC_ALL=C

root=$(cd "$(dirname "$0")/.." && pwd)
base=${1:-main}
cd "$root" || exit 1
if ! git rev-parse --quiet --verify "$base^{commit}" >/dev/null; then
    echo "usage: tests/quick.sh [REVISION]; there is no revision $base" >&2
    exit 2
fi
rattle=$(dirname "$(rt doc)")/bin/rattle

work=$(mktemp -d)
trap 'rm -rf "$work"' EXIT
# shellcheck source=tests/counts.sh
source "$root/tests/counts.sh"

# settle NAME STATUS LOG: counts, and shows the end of a log that tells of a failure.
settle() {
    if [ "$2" -eq 0 ]; then
        pass
        echo "ok: $1"
    else
        fail "$1"
        tail -n 25 "$3"
    fi
}

# The names of the crates whose files, or whose line of crates.txt, differ from the revision.
changed() {
    { git diff --name-only "$base" -- crates; git ls-files --others --exclude-standard -- crates; } | cut -d/ -f2
    git diff --unified=0 "$base" -- crates.txt | sed -nE 's/^[+-]([a-z0-9_]+).*:.*/\1/p'
}

# The names that are read and those of the crates above them, in the order of crates.txt, where what a crate
# stands on comes before it.
with_those_above() {
    awk 'NR == FNR { hit[$1] = 1; next }
        /^[a-z]/ { gsub(":", " "); for (i = 1; i <= NF; i++) if (hit[$i]) hit[$1] = 1; if (hit[$1]) print $1 }' \
        - crates.txt
}

# The layout of all sources of a crate that changed.
check_format() {
    find "crates/$1" -path '*/out' -prune -o \( -name '*.rt' -o -name '*.antt' \) -print0 \
        | xargs -0 "$rattle" fmt --check >"$work/log" 2>&1
    settle "format of $1" $? "$work/log"
}

# prove WORD..: proves crates by tools/prove.py, which tells how far each is.
prove() {
    python3 tools/prove.py --keep "$@" 2>&1 | tee -a "$work/said"
    return "${PIPESTATUS[0]}"
}

# One line for each of the crates, by what was told of it.
settle_proofs() {
    local crate said
    for crate in "$@"; do
        said=$(sed -nE "s/^ *[0-9]+:[0-9]+ $crate: ((proved|refused|not run).*)\$/\1/p" "$work/said" | tail -n 1)
        [[ $said == proved* ]]
        settle "check of $crate: ${said:-not run}" $? /dev/null
    done
}

# The tests of a crate that were run with no proof. One that did not end within its seconds is told.
settle_tests() {
    local log=$work/tests.$1 right
    right=$(grep -cE '^test .* \.\.\. ok$' "$log")
    grep -B1 -E '^ +checked: no-answer: the program did not end' "$log" \
        | sed -nE 's/^test (.*) \.\.\. FAILED$/not answered with no proof: \1/p'
    [ "$right" -gt 0 ] && ! grep -A1 -E '^test .* \.\.\. FAILED$' "$log" \
        | grep -E '^ ' | grep -vqE 'checked: no-answer: the program did not end'
    settle "tests of $1 with no proof: $right" $? "$log"
}

# Asks a program from outside by its script, whose status is kept for `settle_script`.
ask() {
    bash "tests/$1" >"$work/$1.log" 2>&1
    echo $? >"$work/$1.status"
}

settle_script() {
    settle "tests/$1: $(tail -n 1 "$work/$1.log")" "$(<"$work/$1.status")" "$work/$1.log"
}

changed | sort -u >"$work/changed"
echo "changed against $base: $(tr '\n' ' ' <"$work/changed")"
mapfile -t crates < <(with_those_above <"$work/changed")
tested=()
while read -r crate; do
    [ ! -d "crates/$crate" ] || check_format "$crate"
done <"$work/changed"
for crate in "${crates[@]}"; do
    if grep -rqF '#[test]' "crates/$crate/src"; then
        tested+=("$crate")
        (cd "crates/$crate" && rt try --test --seconds 10) >"$work/tests.$crate" 2>&1 </dev/null &
    fi
done
# What is asked from outside comes first, so that it is asked beside the other checks.
if prove paseto paseto_tool; then
    ask program.sh &
    ask paseto.sh &
    ask key_files.sh &
    [ ${#crates[@]} -eq 0 ] || prove --check "${crates[@]}"
    wait
    settle_script program.sh
    settle_script paseto.sh
    settle_script key_files.sh
else
    fail 'paseto and paseto_tool are not built, so that nothing above them was checked or asked'
fi
settle_proofs "${crates[@]}"
wait
for crate in "${tested[@]}"; do
    settle_tests "$crate"
done

echo "$passed passed, $failed failed"
echo "tests/quick.sh is no gate: 'bash .ci/run' proves everything from nothing, the tests too, and tries the edits"
[ "$failed" -eq 0 ]
