#!/usr/bin/env python3
"""Compares runs of images by pawc, and by the interpreter in C, with their runs by qemu-hppa. outside.sh calls it, and says
what is compared.

Usage: outside.py FOLDER PAWC MACHINE IMAGES GROUPS PART [TABLE].. with a folder to work in, the program pawc, the program of
machine.c, how many images of how many random groups of instructions are made, and one part in how many of the table's
programs and of the rows is taken.
A TABLE has a program in JSON on each line: `modules`, texts by name; `input`; and `run` with `end`, `status`, `output` and
`read`, where `end` is `Ended` or something else, and all characters are bytes.
"""
import json
import re
import shutil
import subprocess
import sys
import threading
from concurrent.futures import ThreadPoolExecutor
from pathlib import Path

from hppa import Machine
from words import random_image

TOP = Path(__file__).resolve().parent.parent
STEPS = "2000000000"
ESCAPED = re.compile(r"\\([0-9a-f]{2})")


class Case:
    """An image, by the texts of its modules or by its file; its input; options of the build; and the status, the output and
    the count of bytes read that are known, each None where it is not. With `known` None it may be refused or never end."""

    def __init__(self, name, modules, given=b"", options=(), known=None, file=None):
        self.name, self.modules, self.given, self.options = name, modules, given, list(options)
        self.known, self.file = known, file


def samples():
    """Each with its files `input`, `output` and `status`, as samples/check.sh has them; C sources are preprocessed first."""
    for folder in sorted(path for path in (TOP / "samples").iterdir() if path.is_dir()):
        given, wanted, status = (folder / name for name in ("input", "output", "status"))
        work = Path(sys.argv[1], folder.name)
        work.mkdir()
        for text in folder.glob("*.[ich]"):
            shutil.copy(text, work)
        for source in work.glob("*.c"):
            subprocess.run([sys.argv[2], "cpp", source.stem], cwd=work, check=True)
        modules = {text.stem: text.read_bytes() for text in work.glob("*.i")}
        out = wanted.read_bytes() if wanted.exists() else b""
        known = int(status.read_text()) if status.exists() else 0, out, None
        yield Case(folder.name, modules, given.read_bytes() if given.exists() else b"", (), known)


def meanings():
    """The programs of pw_tests_meaning that end, as gcc and clang or the rules of C say."""
    crate = TOP / "crates" / "pw_tests_meaning"
    ends = {}
    for line in (crate / "stdout").read_text().splitlines():
        told = re.match(r"(\d+) exit (\d+), read (\d+), wrote (.*)$", line)
        if told:
            out = ESCAPED.sub(lambda code: chr(int(code[1], 16)), told[4]).encode("latin-1")
            ends[int(told[1])] = int(told[2]), out, int(told[3])
    modules, given, plain = {}, b"", True
    for number, line in enumerate((crate / "stdin").read_text().splitlines(), 1):
        if line.startswith(":"):
            name, text = line[1:].split(" ", 1)
            modules[name] = text.encode()
        elif line.startswith("=input"):
            given = bytes.fromhex(line.split(" ", 1)[1])
        elif line.startswith("="):
            plain = plain and line.startswith("=bound")
        elif line.startswith(("+", "!")):
            if line.startswith("+"):
                modules["a"] = line[1:].encode()
            if plain and number in ends:
                yield Case(f"pw_tests_meaning, line {number}", modules, given, (), ends[number])
            modules, given, plain = {}, b"", True


def rows():
    """The programs that rows of pw_tests run with no fault and no bound on steps: each with the texts of its modules and its
    input. Other files of a row, as an image that was put, are left out."""
    files, text, given, whole = {}, b"", b"", True
    for number, row in enumerate((TOP / "crates" / "pw_tests" / "stdin").read_text(encoding="latin-1").splitlines(), 1):
        kind, _, rest = row.partition(" ")
        if row.startswith("##"):
            files, text, given, whole = {}, b"", b"", True
        elif row.startswith("|"):
            text += row[1:].encode("latin-1") + b"\n"
        elif row.startswith("+"):
            text += rest.encode("latin-1") * int(kind[1:])
        elif kind == "x":
            count, code = rest.split(" ")
            text += bytes.fromhex(code) * int(count)
        elif kind == "new":
            files, whole = {}, rest == ""
        elif kind == "put":
            files[rest], text = text, b""
        elif kind == "many":
            files.update({f"m{i:03}.i": text for i in range(int(rest))})
            text = b""
        elif kind == "remove":
            files.pop(rest, None)
        elif kind == "input":
            given, text = text, b""
        elif kind == "$" and whole and rest.split(" ")[0] in ("go", "run") and "--steps" not in rest:
            modules = {name[:-2]: data for name, data in files.items() if name.endswith(".i")}
            yield Case(f"pw_tests, line {number}", modules, given, rest.split(" ")[1:])


def made():
    folder = Path(sys.argv[1], "made")
    folder.mkdir()
    subprocess.run([sys.executable, TOP / "bench" / "made.py", folder, "64", "100"], check=True)
    modules = {text.stem: text.read_bytes() for text in folder.glob("*.i")}
    yield Case("the program of bench 1", modules, known=(None, b"", None))


def table(path):
    for number, line in enumerate(Path(path).read_text().splitlines(), 1):
        program = json.loads(line)
        run = program.get("run", {})
        if run.get("end") == "Ended":
            modules = {name: text.encode("latin-1") for name, text in program["modules"].items()}
            known = run["status"], run["output"].encode("latin-1"), run["read"]
            yield Case(f"{path}, line {number}", modules, program["input"].encode("latin-1"), (), known)


def instructions(count, groups):
    for seed in range(count):
        yield Case(f"random instructions {seed}", {}, file=random_image(seed, groups))


class Comparison:
    """What came of the cases so far: how many agree, how many are not compared and why, and what differs."""

    def __init__(self, folder, pawc, interpreter):
        self.folder, self.pawc, self.interpreter = folder, pawc, interpreter
        self.machine = Machine(folder)
        self.lock, self.folders = threading.Lock(), 0
        self.differs = 0

    def new_folder(self):
        with self.lock:
            self.folders += 1
            folder = self.folder / f"case{self.folders}"
        folder.mkdir()
        return folder

    def obey(self, folder, command, given=b""):
        done = subprocess.run(command, cwd=folder, input=given, capture_output=True, timeout=600)
        return done.returncode, done.stdout, done.stderr.decode("latin-1").removesuffix("\n")

    def interpreted(self, folder, given):
        """How the run by the interpreter in C ends, which has no line that tells a full stack, and what it puts out."""
        status, out, _ = self.obey(folder, [self.interpreter, STEPS, "prog.img"], given)
        return status, out

    def image(self, case, folder):
        """The file of the image, or why there is none."""
        if case.file is not None:
            (folder / "prog.img").write_bytes(case.file)
            return case.file, None
        for name, text in case.modules.items():
            (folder / (name + ".i")).write_bytes(text)
        status, _, line = self.obey(folder, [self.pawc, "build", *case.options])
        return (None, line or status) if status else ((folder / "prog.img").read_bytes(), None)

    def compare(self, case):
        """`agrees`, why nothing is compared, or what differs."""
        folder = self.new_folder()
        try:
            file, refused = self.image(case, folder)
            if refused:
                return f"refused: {refused}" if case.known is None else f"DIFFERS: {case.name} is refused: {refused}"
            status, out, line = self.obey(folder, [self.pawc, "run", "--steps", STEPS], case.given)
            if line == "Spent" or line.startswith("Halted"):
                return "undefined or without an end" if case.known is None else f"DIFFERS: {case.name}: {line}"
            own = (line or status, out)
            other = self.machine.run(file, case.given)
            if own != other[:2]:
                return f"DIFFERS: {case.name}: pawc {shown(own)}, qemu-hppa {shown(other)}"
            third = self.interpreted(folder, case.given)
            if third != (status, out):
                return f"DIFFERS: {case.name}: pawc {shown(own)}, the interpreter in C {shown(third)}"
            if case.known and any(known not in (None, came) for known, came in zip(case.known, other)):
                return f"DIFFERS: {case.name}: known {shown(case.known)}, both {shown(other)}"
            return "agrees"
        except (subprocess.TimeoutExpired, ValueError) as fault:
            return f"DIFFERS: {case.name}: {fault}"
        finally:
            shutil.rmtree(folder)

    def all(self, heading, cases):
        with ThreadPoolExecutor(4) as pool:
            answers = list(pool.map(self.compare, cases))
        differ = [answer for answer in answers if answer.startswith("DIFFERS")]
        left = [answer for answer in answers if answer != "agrees" and answer not in differ]
        agree = len(answers) - len(differ) - len(left)
        print(f"{heading}: {agree} of {agree + len(differ)} agree" + (f"; {len(left)} are refused or do not end" if left else ""))
        print("".join(f"  {answer}\n" for answer in differ[:20]), end="", flush=True)
        self.differs += len(differ)


def shown(run):
    return ", ".join(repr(part)[:60] for part in run)


def main():
    folder, pawc, interpreter = Path(sys.argv[1]), *sys.argv[2:4]
    count, groups, part = map(int, sys.argv[4:7])
    comparison = Comparison(folder, pawc, interpreter)
    comparison.all(f"random instructions, {groups} groups an image", instructions(count, groups))
    comparison.all("samples", samples())
    comparison.all("programs of pw_tests_meaning", list(meanings())[::part])
    comparison.all("rows of pw_tests that run a program", list(rows())[::part])
    comparison.all("a made program of 65 modules", made())
    for path in sys.argv[7:]:
        comparison.all(f"programs of {path}", list(table(path))[::part])
    sys.exit(comparison.differs > 0)


main()
