#!/usr/bin/env bash
# Times the separate commands over the 65 modules of the program that the generator makes from the number 1: phase1,
# analyse, phase2 and link by pawc, beside `gcc -O0 -c`, the same of clang, tcc and gcc for hppa, each a process a module,
# and the link but for hppa; then the run of the image beside the compilers' programs and beside the same image in an
# interpreter of the instructions in C (bench/machine.c). Prints processor seconds and their quotients; all programs have
# to end with one status. Usage: bench/commands.sh [small]
. "$(dirname "$0")/common.sh"
wants python3
find_compilers
c_machine
pawc_program
count=$(size 64 2)
for folder in pawc "${compilers[@]}"; do mkdir "$work/$folder"; done

make_texts() { # how many turns main's loop has
    local folder
    for folder in pawc "${compilers[@]}"; do python3 "$top/bench/made.py" "$work/$folder" "$count" "$1"; done
}
by_pawc() {
    local name
    cd "$work/pawc"
    for name in $names; do "$pawc" phase1 "$name" || return 1; done
    "$pawc" analyse || return 1
    for name in $names; do "$pawc" phase2 "$name" || return 1; done
    "$pawc" link
}

make_texts "$(size 100 2)"
names="main $(seq -f 'm%g' 0 $((count - 1)))"
p=$(seconds by_pawc)
echo "$((count + 1)) modules by the separate commands: $p s"
for compiler in "${compilers[@]}"; do
    other=$(seconds by_compiler "$compiler")
    echo "  by $compiler $other s, ratio $(ratio "$p" "$other")"
done

# The same program with more turns in main, so that its run is long enough to be measured.
make_texts "$(size 20000 3)"
by_pawc > "$work/told"
cd "$work/pawc"
steps=4000000000
own=$(status "$pawc" run --steps $steps)
[ "$own" = "$(status "$work/machine" $steps prog.img)" ] || { echo "the interpreter in C ends otherwise"; exit 1; }
r=$(seconds ending "$pawc" run --steps $steps)
c=$(seconds ending "$work/machine" $steps prog.img)
echo "run: the image by pawc $r s, by the interpreter in C $c s, ratio $(ratio "$r" "$c") (status $own each)"
for compiler in "${native[@]}"; do
    (by_compiler "$compiler" > "$work/told" 2>&1)
    [ "$own" = "$(status "$work/$compiler/program")" ] || { echo "the program by $compiler ends otherwise"; exit 1; }
    n=$(seconds ending "$work/$compiler/program")
    echo "  the program by $compiler -O0 $n s, ratio $(ratio "$r" "$n")"
done
