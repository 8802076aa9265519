#!/usr/bin/env bash
# Has somebody else's machine judge the images of pawc: wraps each as a program for Linux on PA-RISC, runs it by qemu-hppa
# over the same input, and compares the status, the output and, where it is known, how many bytes were read; the interpreter
# of machine.c is judged beside it. Compared are images of random instructions; the samples; the programs of
# pw_tests_meaning that end, whose ends gcc and clang tell; the rows of pw_tests that run a program; and the made program of
# 65 modules. TABLES in the environment may name further programs, in the form that outside.py tells. Wants Debian's
# qemu-user and binutils-hppa-linux-gnu.
# Usage: bench/outside.sh [small]
. "$(dirname "$0")/common.sh"
wants python3 qemu-hppa hppa-linux-gnu-as hppa-linux-gnu-ld hppa-linux-gnu-objcopy
c_machine
pawc_program
read -ra tables <<< "${TABLES:-}"
python3 "$top/bench/outside.py" "$work" "$pawc" "$work/machine" "$(size 200 10)" "$(size 1000 100)" "$(size 1 20)" ${tables[@]+"${tables[@]}"}
