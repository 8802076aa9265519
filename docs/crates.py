#!/usr/bin/env python3
"""Makes what docs/ tells of the crates: the map of docs/ARCHITECTURE.md, and the counts of what a change touches in docs/CHANGING.md.

    docs/crates.py              writes both into their pages, and the map into the rows of its test
    docs/crates.py --check      says where the pages, the rows or crates.txt differ from the crates, with status 1 where they do
    docs/crates.py --touches    prints the counts
    docs/crates.py --twice      prints the names of definitions that stand in two crates or more, with their files, and their count

The map has the parts and the order of crates.txt, and of each crate the first sentence of the comment at the head of its
root file. A part begins with a comment of crates.txt right above a crate's line.
"""
import re
import sys
from pathlib import Path

TOP = Path(__file__).resolve().parent.parent
CRATES = TOP / "crates"
PAGES = {"crates": TOP / "docs" / "ARCHITECTURE.md", "counts": TOP / "docs" / "CHANGING.md"}
# The test of the map: from the crates' sentences (stdin) its program makes the tables, as the page has them (stdout).
TEST = CRATES / "pw_tests_map"
SENTENCE = re.compile(r".*?\.(?=\s|$)")
# A definition of specs/ with its name, by itself or among those that name one another.
DEFINITION = re.compile(r"(?:(?:pub|abbrev|unfoldable|opaque|record|data) )+(?!mod |use |mutual)([^\s:(){}=]+)")
MUTUAL = re.compile(r"(?:\w+ )*mutual$")
INNER = re.compile(r"  pub ([^\s:(){}=]+)")

# What is changed, the nearest thing of the kind that stands, and what a file names that has to do with it, all of it.
TOUCHES = [
    ("a keyword", "`auto`", [r'\bAuto\b|"auto"']),
    ("a statement", "`continue`", [r"(?<![\w-])Continue(?![\w-])"]),
    ("an operation of the flow graph", "`Ext`", [r"(?<![\w-])Ext(?![\w-])"]),
    ("an instruction", "`Zdep`", [r"(?<![\w-])Zdep(?![\w-])"]),
    ("an option of every build", "`--colours`, with `--stack`", [r"\bcolours\b", r"\bstack\b"]),
    ("a field of a file", "`escaped` of summaries", [r"(?<![\w-])escaped(?![\w-])", r"(?i)summar|\btaken\b"]),
]


class Stop(Exception):
    """Why no table can be made."""


def parts_of_crates():
    """The parts of crates.txt, each with its heading and its crates."""
    parts = []
    heading = None
    for line in (TOP / "crates.txt").read_text().splitlines():
        crate = re.match(r"(\w+)[^:#]*:", line)
        if crate and heading:
            parts.append((heading, []))
            heading = None
        if crate and not parts:
            raise Stop(f"crates.txt: {crate[1]} stands in no part")
        if crate:
            parts[-1][1].append(crate[1])
        else:
            heading = line[1:].strip() if line.startswith("#") else None
    return parts


def root_file(crate):
    """The root file of a crate."""
    for name in ("lib.rt", "main.rt"):
        path = CRATES / crate / "src" / name
        if path.is_file():
            return path
    raise Stop(f"{crate}: crates.txt lists it, and it has no root file")


def sentence_of(crate):
    """The first sentence of the comment at the head of a crate's root file."""
    comment = []
    for line in root_file(crate).read_text().splitlines():
        if not line.startswith("//! "):
            break
        comment.append(line[4:].strip())
    sentence = SENTENCE.match(" ".join(comment))
    if not sentence or "|" in sentence[0]:
        raise Stop(f"{crate}: its root file begins with no sentence that can be a cell")
    return sentence[0]


def row(crate, sentence):
    """The row of a crate in the map."""
    return f"| {crate} | {sentence} |"


def map_of(parts, show_part, show_crate):
    """The lines of the map: of each part its heading and its crates, with a blank line between two parts."""
    lines = []
    for heading, crates in parts:
        lines += [""] if lines else []
        lines += show_part(heading)
        lines += [show_crate(crate, sentence_of(crate)) for crate in crates]
    return lines


def tables(parts):
    """The map as tables."""
    return map_of(parts, lambda heading: [f"### {heading}", "", "| crate | what it is |", "|---|---|"], row)


def test_rows(parts):
    """The map as the rows of its test."""
    return map_of(parts, lambda heading: [f"# {heading}"], lambda crate, sentence: f"{crate}: {sentence}")


def is_test(crate):
    """Whether a crate is one of tests."""
    return crate.startswith("pw_tests") or crate.startswith("pw_") and root_file(crate).name == "main.rt"


def code_of(path):
    """A file's text without its comments."""
    mark = "//" if path.suffix == ".rt" else "--"
    return "\n".join(line for line in path.read_text().splitlines() if not line.lstrip().startswith(mark))


def sources(crates):
    """The files of crates that are no tests, each with its crate, its folder (src, specs, proofs) and its text."""
    for crate in crates:
        for folder in ("src", "specs", "proofs"):
            for path in sorted((CRATES / crate / folder).rglob("*.*t*")):
                if path.suffix in (".rt", ".antt"):
                    yield crate, folder, code_of(path)


def touches(parts):
    """The counts of what a change touches, as a table."""
    crates = [crate for _, inside in parts for crate in inside if not is_test(crate)]
    found = {change: {"src": [], "specs": [], "proofs": []} for change, _, _ in TOUCHES}
    for crate, folder, text in sources(crates):
        for change, _, patterns in TOUCHES:
            if all(re.search(pattern, text) for pattern in patterns):
                found[change][folder].append(crate)
    lines = ["| a change of | counted on | src | specs | proofs | code or definitions in | proofs alone in |", "|---|---|---|---|---|---|---|"]
    for change, like, _ in TOUCHES:
        counts = [f"{len(its)} in {len(set(its))}" for its in found[change].values()]
        first = set(found[change]["src"] + found[change]["specs"])
        then = set(found[change]["proofs"]) - first
        names = [", ".join(crate for crate in crates if crate in some) or "none" for some in (first, then)]
        lines.append(f"| {change} | {' | '.join([like, *counts, *names])} |")
    return lines


def definitions(path):
    """The names of the definitions of a file."""
    form = DEFINITION
    for line in path.read_text().splitlines():
        if line[:1].strip():
            form = INNER if MUTUAL.match(line) else DEFINITION
        definition = form.match(line)
        if definition:
            yield definition[1]


def twice(parts):
    """The names of definitions that stand in two crates or more, each with its files, those in most crates first; and their count."""
    stand = {}
    for crate in sorted(crate for _, inside in parts for crate in inside):
        for path in sorted((CRATES / crate / "specs").rglob("*.antt")):
            for name in definitions(path):
                stand.setdefault(name, {}).setdefault(crate, path)
    several = sorted((-len(its), name, its) for name, its in stand.items() if len(its) > 1)
    lines = [f"{name}: {', '.join(str(path.relative_to(CRATES)) for path in its.values())}" for _, name, its in several]
    return lines + [f"{len(several)} of {len(stand)} names stand in two crates or more"]


def marks(name):
    """The lines between which a table stands in the page."""
    return f"<!-- {name}: made by docs/crates.py -->", f"<!-- end of {name} -->"


def around(name):
    """What the page of a table has before it, the table's lines, and what the page has behind it."""
    begin, end = marks(name)
    page = PAGES[name].read_text()
    if page.count(begin) != 1 or page.count(end) != 1:
        raise Stop(f"docs/{PAGES[name].name}: `{begin}` and `{end}` have to stand there once")
    before, rest = page.split(begin)
    table, behind = rest.split(end)
    return before + begin, table.strip("\n").splitlines(), end + behind


def put(name, lines):
    """Writes a table into its page in place of the one that stands there."""
    before, _, behind = around(name)
    PAGES[name].write_text(before + "\n\n" + "\n".join(lines) + "\n\n" + behind)


def text_of(lines):
    """A file of lines."""
    return "\n".join(lines) + "\n"


def differences(where, has, wanted):
    """What a list of lines has beside those that are wanted, and what it has not."""
    said = [f"{where} has, and should not: {line}" for line in has if line not in set(wanted)]
    said += [f"{where} should have: {line}" for line in wanted if line not in set(has)]
    if not said and has != wanted:
        said.append(f"{where} has its lines in another order, or some twice")
    return said


def unlisted(parts):
    """What is said of crates that crates.txt does not list."""
    listed = {crate for _, crates in parts for crate in crates}
    folders = (path.parent.parent.name for path in CRATES.glob("*/src/*.rt") if path.name in ("lib.rt", "main.rt"))
    return [f"{crate}: crates.txt does not list it" for crate in sorted(set(folders) - listed)]


def listed_below():
    """What crates.txt lists behind each crate."""
    lines = (re.match(r"(\w+)[^:#]*:(.*)", line) for line in (TOP / "crates.txt").read_text().splitlines())
    return {line[1]: set(line[2].split()) for line in lines if line}


def unnamed(parts):
    """What is said of crates behind which crates.txt does not list exactly those that their files name."""
    below = listed_below()
    known = set(below).union(*below.values())
    named = {crate: set() for crate in below}
    for crate, _, text in sources([crate for _, crates in parts for crate in crates]):
        named[crate].update(re.findall(r"\b(\w+)::", text), re.findall(r"\bRattle\.(\w+)\.", text))
    said = []
    for crate, its in named.items():
        its &= known - {crate}
        said += [f"{crate}: crates.txt should list {name} behind it" for name in sorted(its - below[crate])]
        said += [f"{crate}: crates.txt lists {name} behind it, which no file of it names" for name in sorted(below[crate] - its)]
    return said


def lines_of(path):
    """The lines of a file; none where there is no file."""
    return path.read_text().splitlines() if path.is_file() else []


def check(parts):
    """What is wrong with the pages and with the rows of the test."""
    said = unlisted(parts) + unnamed(parts)
    for name, lines in (("crates", tables(parts)), ("counts", touches(parts))):
        said += differences(f"docs/{PAGES[name].name}", around(name)[1], lines)
    if TEST.is_dir():
        said += differences(f"{TEST.name}/stdin", lines_of(TEST / "stdin"), test_rows(parts))
        said += differences(f"{TEST.name}/stdout", lines_of(TEST / "stdout"), around("crates")[1])
    return said


def write(parts):
    """Writes the tables and the rows of the test."""
    put("crates", tables(parts))
    put("counts", touches(parts))
    if TEST.is_dir():
        (TEST / "stdin").write_text(text_of(test_rows(parts)))
        (TEST / "stdout").write_text(text_of(tables(parts)))
    return unlisted(parts)


def main(words):
    """Does what the words say, and answers the status."""
    try:
        parts = parts_of_crates()
        if words == ["--touches"]:
            print("\n".join(touches(parts)))
            return 0
        if words == ["--twice"]:
            print("\n".join(twice(parts)))
            return 0
        if words not in ([], ["--check"]):
            print(__doc__)
            return 2
        said = check(parts) if words else write(parts)
    except Stop as stop:
        said = [str(stop)]
    for line in said:
        print(line, file=sys.stderr)
    return 1 if said else 0


sys.exit(main(sys.argv[1:]))
