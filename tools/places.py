#!/usr/bin/env python3
"""Lists the places that docs/DESIGN-PASS.md counts: python3 tools/places.py [POINT] [ROOT].

One line a place, and at the end how many there are of each point. What is found is a place to look at."""
import re
import sys
from pathlib import Path

POINTS = {
    "1": [
        r"^\s*(pub(\(crate\))? )?enum \w+",  # an enum of our own: is it Option or Result in other words?
        r"^\s*(pub )?\w+: bool,",  # a flag with values beside it
        r"^\s*(pub )?(left|work): u64,\s*$",  # what is left beside how it ended, or handed on by hand
        r"-> (Result<Result|\(bool|Option<u64>)",  # one result in another, what is left as an option
        r"=> \{\}$|_ => return ",  # a result that is handed on by hand
        r"Ok\(Err\(|Err\(AllocError\)",
        r"^(pub )?const (DENIED|TRIED|IDLE|MARK|SPENT)\b",  # numbers for kinds
        r"\b(b|s|value\[p\]) (==|<) 2\b|\] = 2;|\*x = 2",  # 2 for unknown
    ],
    "3": [
        r"\bfor \w+ in .*\.\.",
        r"^\s*while ",
        r"^\s*loop \{",
        r"\.enumerate\(\)",
    ],
    "4": [r"\bfn (is_reject|told|name|hex|eq|cmp|clone|fmt)\b|\bfn number\(self\)"],
    "7": [r"macro_rules!", r"\bdyn\b", r": fn\(", r"match (parts|i|tag) \{|match .*\btag\(\d\)\? \{"],
}

FUNCTION = re.compile(r"^\s*(?:pub(?:\(crate\))? )?fn (\w+)(?:<[^(]*>)?\((.*)$")


def functions(text):
    """Name, line, parameters and clauses of each function."""
    lines = text.split("\n")
    for at, line in enumerate(lines):
        if not (found := FUNCTION.match(line)):
            continue
        rest, end = found[2], at
        while rest.count("(") + 1 > rest.count(")"):
            end += 1
            rest += " " + lines[end].strip()
        depth, cut = 1, 0
        for cut, c in enumerate(rest):
            depth += (c == "(") - (c == ")")
            if depth == 0:
                break
        parameters = [p.strip().replace("mut ", "") for p in rest[:cut].split(",") if p.strip()]
        clauses = []
        for line in lines[end + 1 :]:
            if not re.match(r"\s*(requires|ensures)\b", line):
                break
            clauses.append(line.strip())
        yield found[1], at + 1, parameters, clauses


def by_signature(path, text):
    """Points 5 and 6: what travels together, and lengths beside what they measure."""
    for name, at, parameters, clauses in functions(text):
        if len(parameters) > 5:
            yield "5", at, f"{name}: {len(parameters)} parameters"
        for clause in clauses:
            if clause.startswith("requires"):
                yield "5 fact", at, name + ": " + re.sub(r"^requires (\w+ )?", "", clause)
        names = {p.split(":")[0].strip() for p in parameters}
        for buffer, length in [("starts", "count"), ("starts", "have"), ("trail", "depth"), ("numbers", "used"),
                               ("bytes", "at"), ("file", "at"), ("room", "base"), ("room", "at"), ("room", "plan"), ("numbers", "at"), ("numbers", "s")]:
            if {buffer, length} <= names:
                yield "6", at, f"{name}: {length} beside {buffer}"


def places(root):
    for path in sorted(Path(root).glob("crates/*/src/**/*.rt")):
        text = path.read_text()
        name = path.relative_to(root)
        for at, line in enumerate(text.split("\n"), 1):
            if re.match(r"\s*(//|requires|ensures|ghost)", line):
                continue
            for point, patterns in POINTS.items():
                if any(re.search(p, line) for p in patterns):
                    yield point, name, at, line.strip()
        for point, at, what in by_signature(path, text):
            yield point, name, at, what


def main():
    wanted = sys.argv[1] if len(sys.argv) > 1 else ""
    root = sys.argv[2] if len(sys.argv) > 2 else "."
    counts = {}
    facts = {}
    for point, name, at, what in places(root):
        if point == "5 fact":
            crate, fact = str(name).split("/")[1], what.split(": ", 1)[1]
            facts.setdefault((crate, fact), []).append((name, at, what))
            continue
        counts[point] = counts.get(point, 0) + 1
        if wanted in ("", point):
            print(f"{point} {name}:{at}: {what}")
    for (crate, fact), where in sorted(facts.items()):
        if len(where) >= 3:
            counts["5"] = counts.get("5", 0) + 1
            if wanted in ("", "5"):
                print(f"5 {crate}: in {len(where)} contracts: {fact}")
    print(" ".join(f"{p}: {n}" for p, n in sorted(counts.items())))


main()
