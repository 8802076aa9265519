#!/usr/bin/env bash
# Times `build` over the 65 modules of the program that the generator makes from the number 1: the full build by pawc
# beside `gcc -O0 -c`, the same of clang, tcc and gcc for hppa, each module by a process of its own, and the link but for
# hppa; the rebuild after one module's edit, and where nothing changed, beside the full build; and twice the modules, and 256
# modules of nearly 16 MiB together, each of which declares all others' globals, beside so many, by the bytes of their texts.
# Prints processor seconds and their quotients. The image that is run has to end with the status of the programs
# that the compilers make, the rebuild has to make one object anew, and `bench 1` has to tell the length and the digest of
# the image of its 65 modules. Usage: bench/build.sh [small]
. "$(dirname "$0")/common.sh"
wants python3
find_compilers
pawc_program
count=$(size 64 2)
turns=$(size 100 2)
for folder in once twice many "${compilers[@]}"; do mkdir "$work/$folder"; done
for folder in once "${compilers[@]}"; do python3 "$top/bench/made.py" "$work/$folder" "$count" "$turns"; done
python3 "$top/bench/made.py" "$work/twice" $((2 * count)) "$turns"
python3 "$top/bench/made.py" "$work/many" "$(size 255 6)" "$turns" 9 3

again() { cd "$1"; "$pawc" build; }
anew() { rm -f "$1"/*.obj "$1"/prog.db "$1"/prog.img; again "$1"; }

p=$(seconds anew "$work/once")
cat "$work/told"
[ "$count" != 64 ] || "$pawc" bench 1 | grep -qF " $(grep '^image ' "$work/told") stop " || { echo "bench 1 tells another image"; exit 1; }
own=$(cd "$work/once"; status "$pawc" run)
echo "$((count + 1)) modules: $p s, and the program's status is $own"
for compiler in "${compilers[@]}"; do
    other=$(seconds by_compiler "$compiler")
    told=compiled
    if [ "$compiler" != hppa-linux-gnu-gcc ]; then
        told="compiled and linked"
        [ "$own" = "$(status "$work/$compiler/program")" ] || { echo "the program by $compiler ends otherwise"; exit 1; }
    fi
    echo "  $told by $compiler in $other s, ratio $(ratio "$p" "$other")"
done

# One constant of one module changes at each turn, which changes neither its summary nor any directives.
edited=$(for turn in $(seq "$(size 3 1)"); do
    sed -i "s/^unsigned f0_0(unsigned x){g0=g0\*[0-9]*u/unsigned f0_0(unsigned x){g0=g0*${turn}u/" "$work/once/m0.i"
    second again "$work/once"
    grep -q "^built 1 of " "$work/told" || { cat "$work/told" >&2; exit 1; }
done | sort -n | head -1)
echo "after one module's edit $edited s, of the full build $(ratio "$edited" "$p")"
nothing=$(seconds again "$work/once")
grep -q "^built 0 of " "$work/told" || { cat "$work/told"; exit 1; }
echo "where nothing changed $nothing s, of the full build $(ratio "$nothing" "$p")"

# The quotient of two times by the bytes of what was built. Usage: by_bytes TIME FOLDER TIME FOLDER
by_bytes() {
    awk -v a="$1" -v m="$(cat "$2"/*.i | wc -c)" -v b="$3" -v n="$(cat "$4"/*.i | wc -c)" \
        'BEGIN { if (b > 0) printf "%.2f\n", (a / m) / (b / n); else print "-" }'
}

for folder in twice many; do
    d=$(seconds anew "$work/$folder")
    cat "$work/told"
    echo "$(ls "$work/$folder" | grep -c '\.i$') modules of $(cat "$work/$folder"/*.i | wc -c) bytes: $d s, ratio $(ratio "$d" "$p"), by bytes $(by_bytes "$d" "$work/$folder" "$p" "$work/once")"
done
