#!/usr/bin/env bash
# Builds and runs each sample by `pawc go`, in a folder of its own, over its file `input`, and compares what it puts out with
# its file `output` and how it ends with its file `status`; a file that is not there is empty, and a status 0. C sources go
# through `pawc cpp` first. Ends with status 1 where one differs. Usage: samples/check.sh [--unproved]
set -uo pipefail
samples=$(cd "$(dirname "$0")" && pwd)
work=$(mktemp -d)
trap 'rm -rf "$work"' EXIT
failed=0

# The file of a sample, or this text where there is none.
of_sample() { cat "$samples/$1/$2" 2>/dev/null || printf '%s' "$3"; }

# Preprocesses the C sources of the folder, builds its program and runs it.
run_sample() {
    local source
    shopt -s nullglob
    for source in *.c; do "$samples/../pawc" "$@" cpp "${source%.c}" || return; done
    "$samples/../pawc" "$@" go
}

for folder in "$samples"/*/; do
    name=$(basename "$folder")
    mkdir "$work/$name"
    find "$folder" -maxdepth 1 -name '*.[ich]' -exec cp {} "$work/$name" ';'
    of_sample "$name" input '' > "$work/input"
    of_sample "$name" output '' > "$work/output"
    status=0
    (cd "$work/$name" && run_sample "$@" < "$work/input" > "$work/told") || status=$?
    if [ "$status" -eq "$(of_sample "$name" status 0)" ] && cmp -s "$work/told" "$work/output"; then
        echo "$name: as it has to be"
    else
        echo "$name: status $status, and what it put out differs so from what it has to:"
        diff "$work/output" "$work/told" | head -20
        failed=1
    fi
done
exit $failed
