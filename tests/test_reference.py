#!/usr/bin/env python3
"""The reference and the notation, held to what was worked out by hand. Prints nothing if all is right."""

import sys

import encode
import notation
import random_requests
import reference

# A parser of one header of one bit, which it extracts and accepts; its contents; its state; one bit.
#                parse 1 header of 1   1 state: 1 op extract 0     no keys no cases accept  contents       state  one bit
ONE = bytes.fromhex("00 0001 0001      0001     0001 00 0000       0000    0000     01      0001 0001 00   0000   00000001 01")

# what is tried, the bytes, the answer's line, the answer's bytes
ANSWERS = [
    ("accepted", ONE, "yes", "0101"),
    ("no bits", ONE[:24] + bytes(4), "no", "0100"),
    ("two bits", ONE[:24] + bytes([0, 0, 0, 2, 0, 0]), "no", "0100"),
    ("empty", b"", "refused 1 at 0", "00010000000000000000"),
    ("another tag", b"\2" + ONE[1:], "refused 1 at 0", "00010000000000000000"),
    ("cut in a number", ONE[:2], "refused 1 at 2", "00010000000000000002"),
    ("cut before a tag", ONE[:9], "refused 1 at 9", "00010000000000000009"),
    ("another op", ONE[:9] + b"\2" + ONE[10:], "refused 1 at 9", "00010000000000000009"),
    ("another target", ONE[:16] + b"\3" + ONE[17:], "refused 1 at 16", "00010000000000000010"),
    ("a byte left over", ONE + b"\0", "refused 1 at 29", "0001000000000000001d"),
    ("a header of no bits", ONE[:4] + b"\0" + ONE[5:], "refused 2 at 0", "00020000000000000000"),
    ("another header", ONE[:11] + b"\1" + ONE[12:], "refused 3 at 0", "00030000000000000000"),
    ("contents that are no bits", ONE[:21] + b"\2" + ONE[22:], "refused 7 at 0", "00070000000000000000"),
    ("another state", ONE[:23] + b"\1" + ONE[24:], "refused 7 at 0", "00070000000000000000"),
]

# text of an expression over headers a (0), b (1) and c (2), its bytes
EXPRS = [
    ("a", "00 0000"),
    ("@9", "00 0009"),
    ("0b01", "01 0002 00 01"),
    ("0x2*2", "01 0008 00 00 01 00 00 00 01 00"),
    ("b[3:5]", "02 0003 0005 00 0001"),
    ("b[3]", "02 0003 0003 00 0001"),
    ("b[1:2][0:1]", "02 0000 0001 02 0001 0002 00 0001"),
    ("b[0:0]*2", "02 0000 0000 02 0000 0000 00 0001"),
    ("a ++ b ++ c", "03 03 00 0000 00 0001 00 0002"),
    ("a ++ (b ++ c)", "03 00 0000 03 00 0001 00 0002"),
    ("(a ++ b)[1:2] ++ 0b", "03 02 0001 0002 03 00 0000 00 0001 01 0000"),
]

# a text, the mistake in it
MISTAKES = [
    ("parser p; header h 1; header h 2", "line 1: there are two of header h"),
    ("parser p\n  header h 1\n  state s\n    extract g\n    -> accept\nparse p from s message 0b", "line 4: there is no header g"),
    ("parser p; state s; extract @0\nparse p from s message 0b", "line 1: the state leads nowhere"),
    ("parser p; state s; -> t\nparse p from s message 0b", "line 1: there is no state t"),
    ("parser p; state s; extract @0; -> accept; -> accept\nparse p from s message 0b", "line 1: nothing can come after where a state leads otherwise"),
    ("parser p; header h 70000; state s; extract h; -> accept\nparse p from s message 0b", "line 2: a number is too large for its bytes"),
    ("parser p; state s; 2 times -> accept\nparse p from s message 0b", "line 1: -> stands once in a state"),
    ("extract h", "line 1: extract stands in no parser"),
    ("parser p; extract h", "line 1: extract stands in no state"),
    ("bytes 0", "line 1: 0 is not bytes in hexadecimal digits"),
    ("bytes 00 | cut 2", "line 1: of 1 bytes one can't cut 2"),
    ("parse q from s message 0b", "line 1: there is no parser q"),
    ("parser p; header h 1;\nparser r; header ? 1", "line 2: what is '?'?"),
]


def expr_bytes(text):
    p = notation.Parser(headers={"a": 0, "b": 1, "c": 2})
    line = notation.Line(text)
    e = p.expr(line)
    line.end()
    return e


def mistake(text):
    try:
        notation.read(text)
    except notation.Mistake as found:
        return str(found)
    return None


def offset_is_right(data):
    """Of bytes that are no request: those up to the offset can go on as one, and with the one that stands there they can't.

    Zeros complete whatever was begun, if there are enough of them; where there are not, the first half stays untried."""
    at = reference.answer(data)[2]
    completed = data[:at] + bytes(10000)
    begun = reference.Cursor(completed)
    try:
        begun.request()
    except reference.Garbled as garbled:
        if garbled.offset < len(completed):
            return False
        begun.at = at
    if at == len(data):
        return begun.at >= at
    tails = [b"", bytes(1), bytes(99), b"\1" * 99, data[at + 1 :]]
    return begun.at >= at and all(reference.answer(data[: at + 1] + tail) == ("refused", 1, at) for tail in tails)


def main():
    wrong = 0

    def hold(what, got, expected):
        nonlocal wrong
        if got != expected:
            print(f"{what}: expected {expected}, not {got}", file=sys.stderr)
            wrong += 1

    for what, data, line, as_bytes in ANSWERS:
        a = reference.answer(data)
        hold(what, reference.line(a), line)
        hold(what, reference.answer_bytes(a).hex(), as_bytes)
    for text, expected in EXPRS:
        hold(text, expr_bytes(text).hex(), bytes.fromhex(expected).hex())
    for text, expected in MISTAKES:
        hold(text, mistake(text), expected)
    for seed in range(3, 4000, 4):
        data = random_requests.drawn(seed)
        if reference.answer(data)[:2] == ("refused", 1):
            hold(f"offset in random request {seed}", offset_is_right(data), True)
    hold("records", list(reference.records(encode.record(b"ab") + encode.record(b"") + encode.record(b"c"))), [b"ab", b"", b"c"])
    return 1 if wrong else 0


if __name__ == "__main__":
    sys.exit(main())
