#!/usr/bin/env python3
"""Files of requests from text, and what each should be answered.

    requests.py write TEXT FILE      writes the requests of a text as a file of records
    requests.py answers [--hex] FILE prints for each request of such a file what the reference answers (or the answer's bytes)
    requests.py check TEXT           holds the reference to the answers that the text expects
"""

import sys

import encode
import notation
import reference


def write(text, file):
    with open(text) as source:
        requests = notation.read(source.read()).requests
    with open(file, "wb") as out:
        for request in requests:
            out.write(encode.record(request.data))


def answers(file, show):
    with open(file, "rb") as source:
        for request in reference.records(source.read()):
            print(show(reference.answer(request)))


def check(text):
    """How many answers are other than the text expects."""
    with open(text) as source:
        requests = notation.read(source.read()).requests
    wrong = 0
    for request in requests:
        got = reference.line(reference.answer(request.data))
        if request.expected not in (None, got):
            print(f"{text}: line {request.place}: expected {request.expected}, the reference says {got}", file=sys.stderr)
            wrong += 1
    held = sum(request.expected is not None for request in requests)
    print(f"{text}: {len(requests)} requests, {held} with an answer expected, {wrong} of them wrong")
    return wrong


def main(arguments):
    try:
        match arguments:
            case ["write", text, file]:
                write(text, file)
            case ["answers", file]:
                answers(file, reference.line)
            case ["answers", "--hex", file]:
                answers(file, lambda a: reference.answer_bytes(a).hex())
            case ["check", text]:
                return 1 if check(text) else 0
            case _:
                print(__doc__.strip(), file=sys.stderr)
                return 2
    except notation.Mistake as mistake:
        print(f"{arguments[1]}: {mistake}", file=sys.stderr)
        return 1
    return 0


if __name__ == "__main__":
    sys.exit(main(sys.argv[1:]))
