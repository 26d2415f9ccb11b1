#!/usr/bin/env python3
"""Random requests, the same for the same seed, and what each should be answered.

    random_requests.py N FILE [SEED]     writes N requests to FILE as records, and prints what the reference answers

Of four requests two are right, one has a single thing wrong in it, and one has its bytes spoilt.
"""

import random
import sys

import encode
import reference


class Maker:
    """Draws a request. Wherever something could be wrong, `slip` is asked, and says yes at most once, at its given turn."""

    def __init__(self, seed, turn=None):
        self.random = random.Random(seed)
        self.turn = turn
        self.turns = 0

    def slip(self):
        self.turns += 1
        return self.turns - 1 == self.turn

    def some(self, least, most):
        return self.random.randint(least, most)

    def one_of(self, things):
        return self.random.choice(things)

    def row(self, n):
        """So many bits."""
        row = [self.some(0, 1) for _ in range(n)]
        if self.slip():
            row = row + [0] if not row or self.random.random() < 0.5 else [2] + row[1:]
        return row

    def among(self, n):
        """A number below n."""
        return n + self.some(0, 3) if self.slip() or n == 0 else self.some(0, n - 1)

    def expr(self, width, depth):
        """An expression of so many bits."""
        if self.slip():
            width += 1
        fits = [h for h, n in enumerate(self.sizes) if n == width]
        kind = self.some(0, 3) if depth else self.some(0, 1)
        if kind == 3 and width:
            left = self.some(0, width)
            return encode.join(self.expr(left, depth - 1), self.expr(width - left, depth - 1))
        wider = [h for h, n in enumerate(self.sizes) if n >= width]
        if kind >= 1 and width and (wider or depth):
            if depth > 1 and self.some(0, 1):
                inner = width + self.some(0, 3)
                e = self.expr(inner, depth - 1)
            elif wider:
                h = self.one_of(wider)
                inner = self.sizes[h]
                e = encode.header(h)
            else:
                return encode.constant(self.row(width))
            lo = self.some(0, inner - width)
            hi = lo + width - 1
            if self.slip():
                lo, hi = self.one_of([(lo, inner), (hi + 1, hi), (lo, hi + 1), (inner, inner)])
            return encode.slice_(lo, hi, e)
        if fits and kind == 0:
            return encode.header(len(self.sizes) if self.slip() else self.one_of(fits))
        return encode.constant(self.row(width))

    def target(self, ends):
        kind = self.some(0, 5)
        if kind < 6 - ends:
            return encode.to_state(self.among(self.states))
        return encode.ACCEPT if kind < 5 else encode.REJECT

    def state(self):
        ops = [encode.extract(self.among(len(self.sizes))) for _ in range(self.some(1, 2))]
        for _ in range(self.some(0, 2)):
            h = self.among(len(self.sizes))
            width = self.sizes[h] if h < len(self.sizes) else 1
            ops.insert(self.some(0, len(ops)), encode.assign(h, self.expr(width, 3)))
        if self.slip():
            ops = [op for op in ops if op[0] == 1]
        widths = [self.some(0, 3) for _ in range(self.some(0, 2))]
        keys = [self.expr(n, 3) for n in widths]
        cases = [self.case(widths) for _ in range(self.some(0, 3))]
        return encode.state(ops, keys, cases, self.target(3))

    def case(self, widths):
        patterns = [encode.ANY if self.some(0, 2) == 0 else encode.exactly(self.row(n)) for n in widths]
        if self.slip():
            patterns = patterns[1:] if patterns and self.some(0, 1) else patterns + [encode.ANY]
        return encode.case(patterns, self.target(4))

    def parser(self):
        self.sizes = [self.some(1, 4) for _ in range(self.some(1, 4))]
        if self.slip():
            self.sizes[self.some(0, len(self.sizes) - 1)] = 0
        self.states = self.some(1, 4)
        return encode.parser(self.sizes, [self.state() for _ in range(self.states)])

    def store(self):
        store = [self.row(n) for n in self.sizes]
        if self.slip():
            store = store[1:] if self.some(0, 1) else store + [[0]]
        return store

    def message(self, data):
        """Bits that lead through the parser, to its end if that comes soon, and now and then a bit more, less or other."""
        request = reference.read_request(data)
        message = []
        if reference.request_fault(request) == 0:
            store, target = request.store, request.start
            for _ in range(self.some(1, 12)):
                if target in ("accept", "reject"):
                    break
                part = bytes(self.some(0, 1) for _ in range(reference.taken(request.parser, request.parser.states[target])))
                store, target = reference.walk(request.parser, store, target, part)
                message += part
        spoil = self.some(0, 7)
        if spoil == 0:
            message = message + [self.some(0, 1)]
        elif spoil == 1:
            message = message[:-1]
        elif spoil == 2 and message:
            message[self.some(0, len(message) - 1)] ^= 1
        return message + [2] if self.slip() else message

    def request(self):
        if self.some(0, 19) == 0:
            first = self.parser()
            return encode.compare(first, self.parser(), self.some(0, 4), self.some(0, 4), self.some(0, 99), self.some(0, 99))
        p = self.parser()
        store = self.store()
        start = self.among(self.states)
        return encode.parse(p, store, start, self.message(encode.parse(p, store, start, [])))

    def spoilt(self, data):
        """The same bytes but for a byte or two, or a part that is gone or there twice."""
        at = self.some(0, len(data) - 1)
        kind = self.some(0, 5)
        if kind == 0:
            return data[:at]
        if kind == 1:
            return data[:at] + data[at + self.some(1, 3) :]
        if kind == 2:
            return data[:at] + bytes([self.some(0, 4)]) + data[at:]
        if kind == 3:
            return data + bytes(self.some(0, 255) for _ in range(self.some(1, 3)))
        return data[:at] + bytes([self.one_of([0, 1, 2, 3, 4, 5, 255, self.some(0, 255)])]) + data[at + 1 :]


def drawn(seed):
    kind = seed % 4
    maker = Maker(seed)
    data = maker.request()
    if kind == 2:
        return Maker(seed, random.Random(seed).randrange(maker.turns)).request()
    return maker.spoilt(data) if kind == 3 else data


def main(arguments):
    if len(arguments) not in (2, 3):
        print(__doc__.strip(), file=sys.stderr)
        return 2
    n, file = int(arguments[0]), arguments[1]
    seed = int(arguments[2]) if len(arguments) == 3 else 1
    with open(file, "wb") as out:
        for i in range(n):
            data = drawn(seed * 1_000_000 + i)
            out.write(encode.record(data))
            print(reference.line(reference.answer(data)))
    return 0


if __name__ == "__main__":
    sys.exit(main(sys.argv[1:]))
