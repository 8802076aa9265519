#!/usr/bin/env python3
"""Which definitions somebody reads who reads a theorem: from those that it names down to those of the kit, by crate and file.

    docs/trusted.py . crates/pw_law_meaning/specs/Meaning.antt#Means
    docs/trusted.py . crates/pw_top/src/top.rt#pawc_top

Each argument behind the folder names a definition of a file of specs/, or a function of a file of src/, whose clauses are read. A
line tells a crate, how many lines of its definitions are reached, and of each file the lines reached and all lines (neither counts
blank lines; those reached count no comment). It reads the `use` lines and the names, and no more of the language, so a field's name
that is a definition's too reaches that: the counts are upper bounds. Rust types are counted apart.
"""
import collections
import os
import re
import sys

TOP = sys.argv[1]


def blocks(text):
    """The definitions of a file, each with the names that it gives."""
    found, lines, i = [], text.split("\n"), 0
    while i < len(lines):
        line = lines[i]
        if not line.strip() or line.startswith(("--", "use ", "pub use ", "pub mod ")):
            i += 1
            continue
        mutual = re.match(r"(abbrev |unfoldable )?mutual\b", line)
        at = [line]
        i += 1
        while i < len(lines) and (lines[i].strip() or (mutual and any(l.strip() for l in lines[i:]) and next(l for l in lines[i:] if l.strip()).startswith(" "))):
            if not mutual and not lines[i].startswith(" ") and re.match(r"(abbrev |unfoldable |abstract )?(pub )?(record|data)\b|(abbrev |unfoldable |abstract )(pub )?\S+\s*:|pub \S+\s*:", lines[i]):
                break
            at.append(lines[i])
            i += 1
        names = set()
        for l in at:
            m = re.match(r"\s*(?:abbrev |unfoldable |abstract )?(?:pub )?(?:record|data) (\S+)", l) or re.match(r"(?:abbrev |unfoldable |abstract )?(?:pub )?([^\s:(]+) :", l)
            if m:
                names.add(m[1])
            m = re.match(r"  (?:pub )?([^\s:(]+) :", l)
            if m and (mutual or re.match(r"(pub )?data", at[0])):
                names.add(m[1])
        found.append((names, [l for l in at if l.strip() and not l.strip().startswith("--")]))
    return found


class File:
    def __init__(self, path):
        self.path = path
        text = open(path).read()
        self.lines = sum(1 for l in text.split("\n") if l.strip())
        self.names, self.modules, self.passes = {}, {}, []
        self.blocks = blocks(text)
        self.own = {n: k for k, (names, _) in enumerate(self.blocks) for n in names}
        for pub, at, rest in re.findall(r"^(pub )?use (Rattle\.[\w.]+)(.*)$", text, re.M):
            where = at.rstrip(".")
            if rest.startswith("{"):
                for one in rest.strip("{} ").split(","):
                    a, _, b = one.strip().partition(" as ")
                    self.names[b or a] = (where, a)
            elif rest.strip().startswith("as "):
                self.modules[rest.strip()[3:]] = where
            else:
                self.modules[where.split(".")[-1]] = where


FILES = {}


def file_of(where):
    """The file of a module's dotted name, or none where it is of Rust or of std."""
    parts = where.split(".")
    if len(parts) < 4 or parts[0] != "Rattle" or not parts[1].startswith("pw_") or parts[3] == "declared":
        return None
    path = f"{TOP}/crates/{parts[1]}/{parts[2]}/{'/'.join(parts[3:])}.antt"
    if path not in FILES:
        FILES[path] = File(path) if os.path.isfile(path) else None
    if FILES[path]:
        return FILES[path]
    # passed on by a crate between
    for n in range(len(parts) - 1, 3, -1):
        mid = f"{TOP}/crates/{parts[1]}/{parts[2]}/{'/'.join(parts[3:n])}.antt"
        if os.path.isfile(mid):
            f = FILES.setdefault(mid, File(mid))
            if parts[n] in f.modules:
                return file_of(".".join([f.modules[parts[n]], *parts[n + 1:]]))
    return None


seen, rust, todo = set(), set(), []


def reach(where, name):
    f = file_of(where)
    if f is None:
        if ".declared." in where:
            rust.add(where)
        return
    if name in f.own:
        k = (f.path, f.own[name])
        if k not in seen:
            seen.add(k)
            todo.append((f, f.own[name]))
    elif name in f.names:
        reach(*f.names[name])


def words(f, text):
    for m in re.finditer(r"([A-Za-z_][\w'\-]*)(?:\.([A-Za-z_][\w'\-]*))?", text):
        a, b = m[1], m[2]
        if b and a in f.modules:
            reach(f.modules[a], b)
        elif a in f.names:
            reach(*f.names[a])
        elif a in f.own:
            reach_own(f, a)


def reach_own(f, a):
    k = (f.path, f.own[a])
    if k not in seen:
        seen.add(k)
        todo.append((f, f.own[a]))


for root in sys.argv[2:]:
    path, _, name = root.partition("#")
    if path.endswith(".rt"):
        text = open(f"{TOP}/{path}").read()
        f = File(f"{TOP}/{path}")
        for at, rest in re.findall(r"^ghost use (Rattle\.[\w.]+)\.\{(.*)\};", text, re.M):
            for one in rest.split(","):
                a, _, b = one.strip().partition(" as ")
                f.names[b or a] = (at, a)
        i = text.index(f"pub fn {name}")
        body = text[i:text.index("\n{\n", i)]
        words(f, "\n".join(re.findall(r"(?:requires|ensures)[^\n]*", body)))
    else:
        f = FILES.setdefault(f"{TOP}/{path}", File(f"{TOP}/{path}"))
        reach_own(f, name)
    while todo:
        f, k = todo.pop()
        words(f, "\n".join(f.blocks[k][1]))
table = collections.defaultdict(dict)
for path, k in seen:
    crate = path.split("/crates/")[1].split("/")[0]
    table[crate].setdefault(path, 0)
    table[crate][path] += len(FILES[path].blocks[k][1])
total = 0
for crate in sorted(table):
    n = sum(table[crate].values())
    total += n
    print(crate, n, " ".join(f"{os.path.basename(p)[:-5]} {v}/{FILES[p].lines}" for p, v in sorted(table[crate].items())))
print("crates", len(table), "files", sum(map(len, table.values())), "lines", total, "of", sum(FILES[p].lines for c in table.values() for p in c), "rust types", len(rust))
