#!/usr/bin/env python3
"""Prints how many instructions of a program's own functions are executed where gcc -O0 makes it for PA-RISC and qemu-hppa runs
it; and ends with the program's status. code.sh calls it.

Usage: ofgcc.py FOLDER MODULE.. < INPUT with an empty folder to work in and the texts of the modules.
"""
import re
import shutil
import subprocess
import sys
from pathlib import Path

GCC = ["hppa-linux-gnu-gcc", "-O0", "-w", "-std=c90", "-fno-builtin", "-static", "-Wl,-Map=map", "-o", "program"]
QEMU = ["qemu-hppa", "-singlestep", "-d", "exec,nochain", "-D", "log", "./program"]
# The address of an instruction that is executed, as qemu tells it.
EXECUTED = re.compile(rb"Trace .*\[[0-9a-f]+/([0-9a-f]+)/")
# Where the linker put the code of an object, which gcc keeps below /tmp while it works.
CODE = re.compile(r"^ \.text(?:\.\S+)?\s+0x([0-9a-f]+)\s+0x([0-9a-f]+) /tmp/\S+$", re.M)


def compiled(folder, modules):
    """Makes the program; where its own functions stand in it."""
    texts = [Path(shutil.copy(text, folder / f"{Path(text).stem}.c")).name for text in modules]
    subprocess.run([*GCC, *texts], cwd=folder, check=True)
    parts = CODE.findall((folder / "map").read_text())
    return [range(int(start, 16), int(start, 16) + int(size, 16)) for start, size in parts]


def executed(folder):
    """Runs the program; its status, and how often each address is executed."""
    subprocess.run(["mkfifo", folder / "log"], check=True)
    ran = subprocess.Popen(QEMU, cwd=folder, stdout=subprocess.DEVNULL)
    times = {}
    with open(folder / "log", "rb") as lines:
        for found in filter(None, map(EXECUTED.match, lines)):
            times[found[1]] = times.get(found[1], 0) + 1
    return ran.wait(), times


def main(folder, *modules):
    own = compiled(Path(folder), modules)
    status, times = executed(Path(folder))
    print(sum(count for at, count in times.items() if any(int(at, 16) in part for part in own)))
    return status


if __name__ == "__main__":
    sys.exit(main(*sys.argv[1:]))
