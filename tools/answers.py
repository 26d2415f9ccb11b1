#!/usr/bin/env python3
"""Takes away the answers that the check finds alone: python3 tools/answers.py ROOT CRATE..

Works in place, so use a copy of the repository or commit first. All answers of a crate are taken away; those whose goals
`rt check` then still wants come back; then it is checked again, and a function that fails gets its answers back."""
import re
import subprocess
import sys
from pathlib import Path

ANSWER = re.compile(r"^pub (\S+) : goal\.")
WANTED = re.compile(r"expected answers in \./proofs/(\S+)/Answers\.antt; `search` did not prove (.*)")


def split(text):
    """What stands before the first answer, and then each answer by its name."""
    head, answers = [], []
    for line in text.split("\n"):
        if found := ANSWER.match(line):
            answers.append((found[1], []))
        (answers[-1][1] if answers else head).append(line)
    return head, answers


def check(folder):
    done = subprocess.run(["rt", "check"], cwd=folder, capture_output=True, text=True)
    said = done.stdout + done.stderr
    return done.returncode, said, {f: re.findall(r"`([^`]+)`", names) for f, names in WANTED.findall(said)}


def write(file, text):
    file.parent.mkdir(parents=True, exist_ok=True)
    file.write_text(text)


def trim(folder):
    proofs = folder / "proofs"
    before = {f: f.read_text() for f in proofs.glob("**/Answers.antt")}
    name = {f: str(f.parent.relative_to(proofs)) for f in before}
    for file in before:
        file.unlink()
    _, _, wanted = check(folder)
    gone = []
    for file, text in before.items():
        head, answers = split(text)
        keep = []
        for answer, lines in answers:
            if any(goal == answer or goal.startswith(answer + "-clause") for goal in wanted.get(name[file], [])):
                keep += lines
            else:
                gone.append((name[file], answer))
        if keep:
            write(file, "\n".join(head + keep))
    for _ in range(3):
        status, said, wanted = check(folder)
        if status == 0:
            return gone, len(gone)
        failed = set(wanted) | set(re.findall(r"proofs/(\S+)/Answers\.antt:", said))
        for file, text in before.items():
            if name[file] in failed:
                write(file, text)
        gone = [g for g in gone if g[0] not in failed]
    for file, text in before.items():
        write(file, text)
    return [], 0


def main():
    for crate in sys.argv[2:]:
        gone, many = trim(Path(sys.argv[1]).resolve() / "crates" / crate)
        print(f"{crate}: {many} went: " + ", ".join(f"{f}:{a}" for f, a in gone), flush=True)


main()
