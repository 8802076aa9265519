#!/usr/bin/env python3
"""Asks `gcc -E` for the files of the table of pw_tests_cpp, and compares what it makes of them with the table.

A row `cpp FILE` is a file, and behind a backquote each a header beside it: a name, a blank, and a text with `@` for each
newline. The table's answer is an output or a fault. Compared are outputs without blanks and newlines, and whether there is a
fault. Where they differ, one of the causes below has to be there, for each of which the rules of pawc are meant to be others;
else the script fails. `--all` prints every difference with its causes.
"""
import re
import subprocess
import sys
import tempfile
from concurrent.futures import ThreadPoolExecutor
from pathlib import Path

CRATE = Path(__file__).resolve().parent.parent / "crates" / "pw_tests_cpp"
FAULT = re.compile(r"[^ ]+:\d+: Cpp ")
# What of a source lets gcc answer otherwise.
KNOWN = {
    "a condition of 64 bits, or a constant of two characters or a wide one": r"#\s*(el)?if\b.*(\d{5}|<<|>>|''|'..+'|L')",
    "an empty argument, which C90 leaves undefined": r"\(\s*[,)]|,\s*[,)]",
    "# or ## in a replacement": r"define.*#",
    "the name defined is defined": r"define\s+defined\b",
    "two definitions that differ in blanks": r"(?s)define\s+(\w+).*define\s+\1",
    "a newline behind a backslash, by which gcc joins lines first": r"\\\n",
    "a backslash that stands alone": r"\\",
    "a line marker, or #line": r"(?m)^\s*(/\*.*?\*/)?\s*#\s*(\d|line)",
    "a lone quote in a group that is passed over": r"(?s)#if 0.*['\"]",
    "#pragma, which gcc hands on": r"#\s*pragma",
    "a trigraph": r"\?\?=",
    "two strokes, which begin no comment": r"//",
}


def by_gcc(files):
    """gcc's output, or None where it tells a fault."""
    with tempfile.TemporaryDirectory() as folder:
        for name, text in files:
            path = Path(folder, name)
            if path.parent != Path(folder):
                return None
            path.write_bytes(text)
        made = subprocess.run(
            ["gcc", "-E", "-P", "-std=c90", "-pedantic-errors", "-undef", "-nostdinc", "-I.", files[0][0]],
            cwd=folder, capture_output=True, check=False,
        )
    return made.stdout if made.returncode == 0 else None


def plain(output):
    return re.sub(rb"\s", b"", output)


def rows():
    told = {}
    for line in (CRATE / "stdout").read_bytes().split(b"\n"):
        number, _, answer = line.partition(b" ")
        if number.isdigit():
            told[int(number)] = answer
    for number, line in enumerate((CRATE / "stdin").read_bytes().split(b"\n"), 1):
        if line.startswith(b"cpp "):
            files = []
            for file in line[4:].split(b"`"):
                name, _, text = file.partition(b" ")
                files.append((name.decode(), text.replace(b"@", b"\n")))
            yield number, files, told[number]


def judge(row):
    """The row, and whether gcc agrees; else why it may not, or None."""
    number, files, answer = row
    gcc = by_gcc(files)
    if FAULT.match(answer.decode("latin1")):
        agrees = gcc is None
    else:
        agrees = gcc is not None and plain(gcc) == plain(answer.replace(b"@", b"\n"))
    text = b"\n".join(text for _, text in files).decode("latin1")
    causes = [cause for cause, form in KNOWN.items() if re.search(form, text)]
    return number, files, answer, gcc, agrees, causes


def main():
    show = "--all" in sys.argv[1:]
    with ThreadPoolExecutor(8) as pool:
        verdicts = list(pool.map(judge, rows()))
    agreed = sum(agrees for *_, agrees, _ in verdicts)
    unexplained = [v for v in verdicts if not v[4] and not v[5]]
    for number, files, answer, gcc, agrees, causes in verdicts:
        if not agrees and (show or not causes):
            print(f"row {number}: {files}\n  table {answer!r}\n  gcc   {gcc!r}\n  {', '.join(causes) or 'no known cause'}")
    print(f"{len(verdicts)} rows: gcc agrees with {agreed}; {len(verdicts) - agreed - len(unexplained)} differ by rule, {len(unexplained)} otherwise")
    return 1 if unexplained else 0


if __name__ == "__main__":
    sys.exit(main())
