#!/usr/bin/env python3
"""Brings the repository's own definitions and lemmas to the spelling of today's Rattle, once, after /opt/rattle/port/port.py.

usage: python3 tools/respell.py [FOLDER]      FOLDER: the top of a checkout (this one)

tools/respell.txt is the table, an old and a new name a line. Types are in upper camel case, all else is in snake case; in a lemma's name
a dash stands between the names of two functions, as in std. Names of the library and those that Rattle makes are not in the table; where a
file imports a name of the table from the library, that file keeps it. In Rust's text only clauses, ghost items and what stands in backquotes
of a comment change; in prose (README, docs/) only what stands in backquotes. It says how many places it changed.
"""

import os
import re
import sys

HERE = os.path.dirname(os.path.realpath(__file__))
TOP = sys.argv[1] if len(sys.argv) > 1 else os.path.dirname(HERE)
with open(os.path.join(HERE, "respell.txt"), encoding="utf-8") as it:
    TABLE = dict(line.split() for line in it)
NAME = re.compile(r"[A-Za-z_α-ωΑ-Ω][\w'₀-₉≢≡]*(?:-[\w'₀-₉≢≡]+)+")
# a part that is no antt: a string or a comment
RUST = re.compile(r'"(?:\\.|[^"\\])*"|//[^\n]*')
ANTT = re.compile(r'"(?:\\.|[^"\\])*"|(?:(?<=\s)|^)--[^\n]*', re.M)
QUOTED = re.compile(r"`[^`\n]*`")
FROM_STD = re.compile(r"use Rattle\.std[\w.']*\.\{([^}]*)\}")


def respelled(text, keep):
    return NAME.sub(lambda m: m[0] if m[0] in keep else TABLE.get(m[0], m[0]), text)


def between(text, skip, keep):
    """Respells what lies between the parts that `skip` finds, and in these what stands in backquotes."""
    out, at = [], 0
    for m in skip.finditer(text):
        out.append(respelled(text[at : m.start()], keep))
        out.append(QUOTED.sub(lambda q: respelled(q[0], keep), m[0]) if m[0][0] != '"' else m[0])
        at = m.end()
    out.append(respelled(text[at:], keep))
    return "".join(out)


def main():
    files = places = 0
    for folder, dirs, names in os.walk(TOP):
        dirs[:] = sorted(d for d in dirs if d not in ("out", ".git", "target", "tools"))
        for name in sorted(names):
            path = os.path.join(folder, name)
            kind = os.path.splitext(name)[1]
            if kind not in (".antt", ".rt", ".edit", ".md"):
                continue
            with open(path, encoding="utf-8") as it:
                old = it.read()
            keep = {n.strip() for m in FROM_STD.finditer(old) for n in m[1].split(",")}
            if kind == ".md":
                new = QUOTED.sub(lambda q: respelled(q[0], keep), old)
            else:
                new = between(old, ANTT if kind == ".antt" else RUST, keep)
            if new != old:
                files += 1
                places += sum(a != b for a, b in zip(old.split(), new.split()))
                with open(path, "w", encoding="utf-8") as it:
                    it.write(new)
    print(f"respell: {places} places in {files} files")


main()
