#!/usr/bin/env bash
# A look before the hour of the gate: builds each program of tables by `rt try`, without any proof, runs it over its table and
# tells which rows are answered otherwise than the table says; and runs the tests of the crates that have some in the same
# way. What it does not tell is whether anything is proved. Builds run side by side, as many as there are processors and
# memory for; where there are four, it takes some five minutes. With names of crates it takes these alone.
# Usage: bench/quick.sh [CRATE]..
set -uo pipefail
top=$(cd "$(dirname "${BASH_SOURCE[0]}")/.." && pwd)
work=$(mktemp -d "${TMPDIR:-/tmp}/quick.XXXXXX")
trap 'rm -rf "$work"' EXIT

# The crates with tables or tests; the dearest to build come first.
crates_of_tests() {
    (cd "$top/crates" && ls -d pw_tests pw_tests_* | while read -r crate; do
        [ -e "$crate/stdin" ] || grep -qs '#\[test\]' "$crate"/src/*.rt && echo "$crate"
    done)
}

# Each row that is answered otherwise, the wanted answer before `<` and the other behind `>`.
try_table() {
    local wanted=$top/crates/$1/stdout file data=()
    for file in "$top/crates/$1"/data/*; do
        [ ! -f "$file" ] || data+=(--data "$(basename "$file")=$file")
    done
    (cd "$top/crates/$1" && rt try --steps 1 --seconds 300 ${data[@]+"${data[@]}"} < stdin > "$work/$1.told" 2> "$work/$1.log")
    if cmp -s "$wanted" "$work/$1.told"; then
        echo "$1: all $(grep -cvE '^(#|$)' "$wanted") rows are answered as they have to be"
    elif [ -s "$work/$1.told" ]; then
        echo "$1: rows differ"
        diff "$wanted" "$work/$1.told" | cut -c1-200 | head -40
        return 1
    else
        echo "$1: was not built or put nothing out"
        tail -5 "$work/$1.log"
        return 1
    fi
}

try_tests() {
    if (cd "$top/crates/$1" && rt try --test --steps 1 --seconds 300 > "$work/$1.log" 2>&1); then
        echo "$1: all tests pass"
    else
        echo "$1: a test fails, or was not built"
        tail -20 "$work/$1.log"
        return 1
    fi
}

try_crate() {
    if [ -e "$top/crates/$1/stdin" ]; then try_table "$1"; else try_tests "$1"; fi > "$work/$1.answer" || touch "$work/failed"
    cat "$work/$1.answer"
}

memory=$(awk '/^MemAvailable/ { print int($2 / 2000000) }' /proc/meminfo)
lanes=$(nproc)
[ "$memory" -ge "$lanes" ] || lanes=$((memory > 0 ? memory : 1))
crates=("$@")
[ $# -gt 0 ] || mapfile -t crates < <(crates_of_tests)
for crate in "${crates[@]}"; do
    while [ "$(jobs -rp | wc -l)" -ge "$lanes" ]; do wait -n; done
    try_crate "$crate" &
done
wait
[ ! -e "$work/failed" ]
