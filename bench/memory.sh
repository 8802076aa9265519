#!/usr/bin/env bash
# Refuses memory to the program pawc: one allocation of a run at a time, over `build`, `go` and `session`. A run in which an
# allocation is refused has to end as the run without, with the same output and files; or with status 121, the line
# `NoMemory`, output that is a prefix of the other's, and files each of which is the other run's or stood there before. A
# run that is refused memory before the top call is reached, whose allocations are among those of `pawc frob`, may end with
# another status. Of a run with more than 3,000 allocations the first and the last 500 are refused and 2,000 that are drawn
# anew in each run of the script. Wants the proved program, gcc or clang, and the GNU C library.
# Usage: bench/memory.sh [small]
. "$(dirname "$0")/common.sh"
wants python3
if [ -n "$small" ]; then
    pawc="$top/crates/pawc/out/pawc"
    [ -x "$pawc" ] || cannot_run "pawc is not proved and built, and a program of rt try keeps its allocations to itself"
else
    pawc_program
fi
compiler=$(command -v gcc || command -v clang) || cannot_run "there is neither gcc nor clang"
"$compiler" -O2 -shared -fPIC -o "$work/refuse.so" "$top/bench/refuse.c" 2> "$work/log" || cannot_run "refuse.c wants the GNU C library"

cat > "$work/refuse.py" <<'PYTHON'
import os, random, shutil, subprocess, sys
from pathlib import Path

work, pawc, drawn = Path(sys.argv[1]), sys.argv[2], int(sys.argv[3])
PROGRAM = {
    "a.i": "int n; void bump(void); int main(void){int i; for(i=0;i<100;i++)bump(); return n;}\n",
    "b.i": "extern int n; void bump(void){n=n+1;}\n",
}
SCRIPT = "".join(f"put {name} {len(text)}\n{text}\n" for name, text in PROGRAM.items())
SCRIPT += "build\nrun 0\n\nput b.i 18\nvoid bump(void){}\n\nbuild\nrun 0\n\nremove b.i\nbuild\n"
CASES = [
    ("build", PROGRAM, ""),
    ("go", {"a.i": "int main(void){return 40+2;}\n"}, ""),
    ("session", {}, SCRIPT),
]


def run(words, files, script, refused):
    """Status, output, error output, the files and the count of allocations of a run in a folder with these files."""
    folder, counted = work / "folder", work / "counted"
    shutil.rmtree(folder, ignore_errors=True)
    folder.mkdir()
    for name, text in files.items():
        (folder / name).write_text(text)
    counted.unlink(missing_ok=True)
    environment = {"LD_PRELOAD": str(work / "refuse.so"), "REFUSED": str(refused), "COUNTED": str(counted)}
    done = subprocess.run([pawc, words], cwd=folder, input=script.encode(), capture_output=True, env=environment, timeout=60)
    found = {path.name: path.read_bytes() for path in folder.iterdir()}
    count = int(counted.read_text()) if counted.exists() else 0
    return done.returncode, done.stdout, done.stderr, found, count


def is_lawful(refused, whole, seen, files, first):
    """Whether a run in which this allocation was refused ends as it has to."""
    if refused[:4] == whole[:4]:
        return True
    status, out, told, found, _ = refused
    stood = {name: text.encode() for name, text in files.items()}
    if not all(text in seen.get(name, set()) | {stood.get(name)} for name, text in found.items()):
        return False
    if not whole[1].startswith(out):
        return False
    return (status == 121 and told == b"NoMemory\n") or (first and status not in range(-64, 0))


def main():
    failed = False
    before = run("frob", {}, "", 0)[4]
    if before == 0:
        print("cannot run: the program's allocations are not seen")
        sys.exit(77)
    print(f"{before} allocations of pawc frob")
    for words, files, script in CASES:
        whole = run(words, files, script, 0)
        count = whole[4]
        # A session puts files and changes them: each text that its script has may stand there, and each build's files.
        seen = {name: {text} for name, text in whole[3].items()}
        for name, text in PROGRAM.items():
            seen.setdefault(name, set()).add(text.encode())
        if script:
            first = run(words, files, script[: script.index("put b.i 18")], 0)
            for name, text in first[3].items():
                seen.setdefault(name, set()).add(text)
            seen["b.i"].add(b"void bump(void){}\n")
        numbers = list(range(1, count + 1))
        if count > drawn + 1000:
            numbers = numbers[:500] + sorted(random.sample(numbers[500:-500], drawn)) + numbers[-500:]
        ends = {}
        for number in numbers:
            refused = run(words, files, script, number)
            ends[refused[0]] = ends.get(refused[0], 0) + 1
            if not is_lawful(refused, whole, seen, files, number <= before):
                failed = True
                print(f"{words}, allocation {number}: status {refused[0]}, {refused[2][:80]}, files {sorted(refused[3])}")
        told = ", ".join(f"{n} with status {status}" for status, n in sorted(ends.items()))
        print(f"{words}: {count} allocations, status {whole[0]} where none is refused; {len(numbers)} were refused: {told}")
    sys.exit(failed)


main()
PYTHON
python3 "$work/refuse.py" "$work" "$pawc" "$(size 2000 100)"
