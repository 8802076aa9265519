#!/usr/bin/env bash
# Times scripts of sessions without builds: of 5,000 and of 10,000 lines, which put texts of 500 bytes, give inputs of as
# many bytes to no image, and remove the texts; and of sixteen lines that put texts of one and of two MiB. Prints
# processor seconds, their quotients, without what an empty script takes, and nanoseconds for each byte: where the time is
# linear in the script's bytes each quotient is 2. Each script has to be obeyed to its end, with a line for each of its
# lines. Usage: bench/session.sh [small]
. "$(dirname "$0")/common.sh"
wants python3
pawc_program
lines=$(size 5000 40)
bytes=$(size 1048576 2000)

cat > "$work/made.py" <<'PYTHON'
import sys
folder, lines, bytes = sys.argv[1], int(sys.argv[2]), int(sys.argv[3])
text = "x" * 500 + "\n"
def line(k):
    return [f"put m{k//4%8}.i 500\n{text}", f"run 500\n{text}", f"run 500\n{text}", f"remove m{k//4%8}.i\n"][k % 4]
for count in (0, lines, 2 * lines):
    open(f"{folder}/lines{count}", "w").write("".join(map(line, range(count))))
for size in (bytes, 2 * bytes):
    open(f"{folder}/put{size}", "w").write((f"put a.i {size}\n" + "x" * size + "\n") * 16)
PYTHON
python3 "$work/made.py" "$work" "$lines" "$bytes"
mkdir "$work/files"
cd "$work/files"

obeyed() { # a script, and how many lines it has
    "$pawc" session < "$work/$1" > "$work/told" 2> "$work/log" || { cat "$work/log" >&2; echo "$1 is not obeyed" >&2; exit 1; }
    [ "$(wc -l < "$work/told")" = "$2" ] || { echo "$1 tells other lines" >&2; exit 1; }
}
session() { "$pawc" session < "$work/$1"; }
least() { # the least processor seconds of 25 runs of a script
    for _ in $(seq "$(size 25 1)"); do second session "$1"; done | sort -n | head -1
}
compared() { # what is compared, the shorter script, and the longer one
    local short long
    short=$(least "$2")
    long=$(least "$3")
    awk -v what="$1" -v e="$empty" -v s="$short" -v l="$long" -v n="$(wc -c < "$work/$3")" 'BEGIN {
        printf "%s: %s s and %s s, ratio %s; ", what, s, l, s > e ? sprintf("%.2f", (l - e) / (s - e)) : "-"
        printf "%.0f ns for each of %d bytes\n", (l - e) * 1e9 / n, n }'
}

obeyed lines0 0
obeyed "lines$lines" "$lines"
obeyed "lines$((2 * lines))" $((2 * lines))
obeyed "put$bytes" 16
obeyed "put$((2 * bytes))" 16
empty=$(least lines0)
echo "an empty script: $empty s"
compared "$lines and $((2 * lines)) lines" "lines$lines" "lines$((2 * lines))"
compared "texts of $bytes and $((2 * bytes)) bytes" "put$bytes" "put$((2 * bytes))"
