#!/usr/bin/env python3
"""The files that are timed.

    make.py TIMES FILE           sixteen messages of 65,536 bits, TIMES over; prints how many bits of messages that are
    make.py --search TIMES FILE  the requests of search.txt, TIMES over; prints how many that are
"""

import pathlib
import random
import sys

HERE = pathlib.Path(__file__).parent
sys.path.insert(0, str(HERE.parent / "tests"))

import encode
import notation

MESSAGES, BITS, WORD = 16, 65536, 32


def message(draw):
    """Random words; what is looked at is mostly what a case of the parser has, and 0xff in the last word alone."""
    words = []
    for i in range(BITS // WORD):
        last = i == BITS // WORD - 1
        seen = 0xFF if last else draw.choice([0x01, 0x02, 0x04, 0x08, draw.randrange(0xFF)])
        words.append(draw.getrandbits(WORD) & ~0x00FF0000 | seen << 16)
    return [word >> (WORD - 1 - i) & 1 for word in words for i in range(WORD)]


def messages():
    """Requests to parse each of the messages."""
    parser = notation.read((HERE / "loop.txt").read_text()).parsers["loop"]
    draw = random.Random(1)
    store = [[0] * n for n in parser.sizes]
    return [encode.parse(parser.bytes(), store, parser.states["q0"], message(draw)) for _ in range(MESSAGES)]


def searches():
    return [request.data for request in notation.read((HERE / "search.txt").read_text()).requests]


def main(arguments):
    match arguments:
        case ["--search", times, file]:
            requests, amount = searches(), 1
        case [times, file]:
            requests, amount = messages(), BITS
        case _:
            print(__doc__.strip(), file=sys.stderr)
            return 2
    with open(file, "wb") as out:
        for _ in range(int(times)):
            out.write(b"".join(map(encode.record, requests)))
    print(int(times) * len(requests) * amount)
    return 0


if __name__ == "__main__":
    sys.exit(main(sys.argv[1:]))
