#!/usr/bin/env python3
"""Draws a built program for Graphviz: its functions, their calls, and which global stands in which register in them.

Usage: samples/picture.py PAWC FOLDER | dot -Tsvg > picture.svg

The folder has what `pawc build` made. A function's box has its name and its frame, and a line for each web that it is in: the
register and the global, in bold letters where the function is an entry, which loads the global into the register and, where
the web writes it, stores it back; in a member it stands there already. Each register has a colour. An arrow is a call; a
broken one leads to the mark of calls through pointers. The routines for arithmetic are left out, and so are the registers that
functions share.
"""
import html
import re
import subprocess
import sys

LIBRARY = ("exit", "getchar", "putchar")
FUNCTION = re.compile(r"(\S+) frame (\d+)$")
WORD = re.compile(r"([0-9a-f]{8}) [0-9a-f]{8} (.*)$")
CALL = re.compile(r"BL(?:,n)? ([0-9a-f]{8}),2$")
INDIRECT = re.compile(r"BLE(?:,n)? 0\(4,\d+\)$")
COLOURS = ["#ffd9b3", "#b3d9ff", "#c6efc6", "#f3c6e8", "#fff2b3", "#d6ccff", "#ffc9c9", "#c9f2f0"]


def functions(listing):
    """Of each function by name its frame, the functions that it calls, and whether it calls through pointers."""
    names, calls, made, name = {}, [], {}, None
    for line in listing.splitlines():
        head, word = FUNCTION.match(line), WORD.match(line)
        if head:
            name, fresh = head[1], True
            made[name] = {"frame": int(head[2]), "calls": set(), "indirect": False}
        elif word and name:
            if fresh:
                names[int(word[1], 16)], fresh = name, False
            call = CALL.match(word[2])
            if call:
                calls.append((name, int(call[1], 16)))
            made[name]["indirect"] |= bool(INDIRECT.match(word[2]))
    for caller, address in calls:
        if address in names:
            made[caller]["calls"].add(names[address])
    return made


def webs(database):
    """Each web's register, global, entries and members. Lines of registers that functions share have none."""
    for line in database.splitlines():
        name, register, _, *rest = line.split(" ")
        if register in ("saves", "free"):
            continue
        roles = list(zip(rest[::2], rest[1::2]))
        entries = [function for role, function in roles if role == "entry"]
        yield int(register[1:]), name, entries, [function for role, function in roles if role == "member"]


def is_shown(name):
    return name == "$start" or not name.startswith("$")


def box(name, frame, lines):
    cells = [f'<tr><td><b>{html.escape(name)}</b><br/><font point-size="9">frame {frame}</font></td></tr>']
    for register, text, is_entry in sorted(lines):
        told = html.escape(f"r{register} {text}")
        told = f"<b>{told}</b>" if is_entry else told
        cells.append(f'<tr><td bgcolor="{COLOURS[(register - 3) % len(COLOURS)]}">{told}</td></tr>')
    return '<<table border="0" cellborder="1" cellspacing="0">' + "".join(cells) + "</table>>"


def drawing(listing, database):
    made = functions(listing)
    lines = {name: [] for name in made}
    for register, name, entries, members in webs(database):
        for function in entries + members:
            lines.setdefault(function, []).append((register, name, function in entries))
    yield "digraph program {"
    yield '  node [shape=plain, fontname="Helvetica", fontsize=11];'
    for name, function in made.items():
        if name in LIBRARY:
            yield f'  "{name}" [fontcolor=gray40];'
        elif is_shown(name):
            yield f'  "{name}" [label={box(name, function["frame"], lines[name])}];'
    if any(function["indirect"] for function in made.values()):
        yield '  "by pointer" [shape=ellipse, fontcolor=gray40];'
    for name, function in made.items():
        for called in sorted(filter(is_shown, function["calls"])):
            yield f'  "{name}" -> "{called}";'
        if function["indirect"]:
            yield f'  "{name}" -> "by pointer" [style=dashed];'
    yield "}"


def main():
    pawc, folder = sys.argv[1:]
    listing, database = (subprocess.run([pawc, word], cwd=folder, check=True, capture_output=True, text=True).stdout for word in ("list", "db"))
    print("\n".join(drawing(listing, database)))


if __name__ == "__main__":
    main()
