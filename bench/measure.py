#!/usr/bin/env python3
"""How much two programs do in a second, on one file.

    measure.py AMOUNT UNIT RUNS FILE PLAIN PROVED

They run in turns, and the best run of each counts, by the processor's time: others use this machine too. Of their lines the first words are
held to each other.
"""

import os
import subprocess
import sys


def run(program, file):
    """The first word of each line, and how many seconds of processor it took."""
    child = subprocess.Popen([program, file], stdout=subprocess.PIPE)
    lines = child.stdout.read().splitlines()
    _, status, used = os.wait4(child.pid, 0)
    child.returncode = os.waitstatus_to_exitcode(status)
    if child.returncode != 0:
        sys.exit(f"{program} ended with {child.returncode}")
    return [line.split()[:1] for line in lines], used.ru_utime + used.ru_stime


def main(arguments):
    if len(arguments) != 6:
        print(__doc__.strip(), file=sys.stderr)
        return 2
    amount, unit, runs, file, *programs = float(arguments[0]), arguments[1], int(arguments[2]), *arguments[3:]
    best = [float("inf"), float("inf")]
    words = [[], []]
    for _ in range(runs):
        for i, program in enumerate(programs):
            words[i], seconds = run(program, file)
            best[i] = min(best[i], seconds)
    if words[0] != words[1]:
        sys.exit("the two do not answer the same")
    for name, seconds in zip(("plain", "proved"), best):
        print(f"{name:6} {amount / seconds:8.1f} {unit} a second ({seconds:.3f} s)")
    print(f"proved time / plain time {best[1] / best[0]:.2f}")
    return 0


if __name__ == "__main__":
    sys.exit(main(sys.argv[1:]))
