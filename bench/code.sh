#!/usr/bin/env bash
# Counts what the code that pawc makes does, not its time: of each program of samples/ and of the one that the generator
# makes from the number 1, without registers for globals and with eight, each also with optimised flow graphs (`0-O` and
# `8-O`), the instructions, loads and stores of its own functions, and how many of the delay slots of its branches hold a NOP
# when they are passed. Each slot would, but for those of returns and of calls through registers, if no word moved into one;
# so the share of slots that hold another word is by how much NOPs fell. Counted by bench/machine.c, whose run has to end as
# the sample says. Where Debian's gcc for hppa, its library and qemu-user are there, the last column has the instructions
# beside those of the functions that gcc -O0 makes. Usage: bench/code.sh [small]
. "$(dirname "$0")/common.sh"
wants python3 gcc
gcc -O2 -DCOUNTS -o "$work/counts" "$top/bench/machine.c"
pawc_program
steps=4000000000

# The address at which the functions of the image in this folder end: there the library's begin.
own_end() { PYTHONPATH="$top/bench" python3 -c 'import hppa, sys; print(hppa.Image(open("prog.img", "rb").read()).functions["exit"])'; }

# How many instructions gcc -O0 needs for the program of this folder over an input, or 0. Usage: of_gcc INPUT STATUS
of_gcc() {
    local s=0
    command -v hppa-linux-gnu-gcc qemu-hppa > "$work/where" || { echo 0; return; }
    rm -rf "$work/gcc"
    mkdir "$work/gcc"
    python3 "$top/bench/ofgcc.py" "$work/gcc" ./*.i < "$1" || s=$?
    [ "$s" = "$2" ] || { echo "gcc's program ends with $s" >&2; exit 1; }
}

# Counts the program of this folder over an input, beside what gcc needs. Usage: counted NAME INPUT STATUS GCC
counted() {
    local how flag s
    for how in 0 0-O 8 8-O; do
        flag=()
        [ "$how" = "${how%-O}" ] || flag=(-O)
        second "$pawc" build --colours "${how%-O}" ${flag[@]+"${flag[@]}"} > "$work/time"
        s=0
        "$work/counts" $steps prog.img "$(own_end)" < "$2" > "$work/out" 2> "$work/count" || s=$?
        [ "$s" = "$3" ] || { echo "$1 ends with $s" >&2; exit 1; }
        echo "$1 $how $(cat "$work/count") $4"
    done
}

for folder in "$top"/samples/*/; do
    name=$(basename "$folder")
    mkdir "$work/$name"
    find "$folder" -maxdepth 1 -name '*.[ich]' -exec cp {} "$work/$name" ';'
    cd "$work/$name"
    for source in *.c; do [ ! -e "$source" ] || "$pawc" cpp "${source%.c}"; done
    input=/dev/null
    status=0
    [ ! -e "$folder/input" ] || input=$folder/input
    [ ! -e "$folder/status" ] || status=$(cat "$folder/status")
    counted "$name" "$input" "$status" "$(of_gcc "$input" "$status")"
done > "$work/all"
mkdir "$work/made"
cd "$work/made"
python3 "$top/bench/made.py" . "$(size 64 2)" "$(size 100 2)"
"$pawc" build > "$work/told"
counted made /dev/null "$(status "$pawc" run --steps $steps)" 0 >> "$work/all"
awk 'BEGIN { printf "%-12s %7s %12s %12s %12s %10s %10s %6s %6s\n", "program", "colours", "instructions", "loads", "stores", "slots", "NOPs", "fell", "of gcc" }
    # How much less than another way this way takes of a program: the sum over programs, and how many take more.
    function less(than, way) { gain[way] += 1 - $3 / took[$1, than]; gains[way]++; if ($3 > took[$1, than]) more[way]++ }
    { share = $6 ? 1 - $7 / $6 : 0
      beside = $8 ? sprintf("%.2f", $3 / $8) : "-"
      printf "%-12s %7s %12d %12d %12d %10d %10d %6.2f %6s\n", $1, $2, $3, $4, $5, $6, $7, share, beside
      took[$1, $2] = $3
      if ($2 == "0-O") less("0", "flows")
      if ($2 == "8-O") { less("8", "flows"); less("0-O", "registers") }
      if ($8) { logs[$2] += log($3 / $8); judged[$2]++ }
      if ($6) { sum[$2] += share; count[$2]++ } }
    END { split("0 0-O 8 8-O", hows, " ")
        for (k = 1; k <= 4; k++) { c = hows[k]
            if (count[c]) printf "with %s colours NOPs fell by %.2f in the mean\n", c, sum[c] / count[c]
            if (judged[c]) printf "with %s colours %.2f of the instructions of gcc -O0 in the mean\n", c, exp(logs[c] / judged[c]) }
        printf "optimised flow graphs take %.3f of the instructions away in the mean; %d times they take more\n", gain["flows"] / gains["flows"], more["flows"]
        printf "registers for globals take %.3f away of what is left; %d times they take more\n", gain["registers"] / gains["registers"], more["registers"] }' "$work/all"
