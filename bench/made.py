#!/usr/bin/env python3
"""Writes the program that the generator makes from the number 1, by the rules of docs/COMMANDS.md, written a second time.

Usage: made.py FOLDER COUNT TURNS [MORE [EACH]]: COUNT modules beside `main`, whose loop has TURNS turns; the command
`bench 1` has 64 and 100. Each module has MORE further globals, which nothing uses and all other modules declare, and EACH
functions; the generator knows no further globals, and eight functions.
"""
import sys
from pathlib import Path

STATE = 1
EACH = int(sys.argv[5]) if len(sys.argv) > 5 else 8


def draw(bound):
    global STATE
    STATE = (1664525 * STATE + 1013904223) % 2**32
    return STATE // 65536 % bound


def declared(k, j):
    return f"unsigned f{k}_{j}(unsigned x);\n"


def given(k, j, count):
    if j + 1 < EACH:
        return f"f{k}_{j + 1}(x+g{k})"
    return f"f{k + 1}_0(x+g{k})" if k + 1 < count else "x"


def module(k, count, more):
    text = f"unsigned g{k};\n" + "".join(f"extern unsigned g{o};\n" for o in range(count) if o != k)
    for o in range(count):
        text += "".join(f"{'' if o == k else 'extern '}unsigned h{o}_{i};\n" for i in range(more))
    if k + 1 < count:
        text += declared(k + 1, 0)
    for j in range(EACH):
        factor, mask, other = draw(1000), draw(1000), draw(count)
        if j + 1 < EACH:
            text += declared(k, j + 1)
        text += f"unsigned f{k}_{j}(unsigned x){{g{k}=g{k}*{factor}u+x; g{other}=g{other}^{mask}u; return {given(k, j, count)};}}\n"
    return text


def main():
    folder, count, turns = Path(sys.argv[1]), int(sys.argv[2]), sys.argv[3]
    more = int(sys.argv[4]) if len(sys.argv) > 4 else 0
    for k in range(count):
        (folder / f"m{k}.i").write_text(module(k, count, more))
    (folder / "main.i").write_text(
        "unsigned f0_0(unsigned x); int main(void){unsigned t; unsigned i; t=0u; "
        f"for(i=0u;i<{turns}u;i++)t=t+f0_0(i); return t&255u;}}\n"
    )


main()
