"""What each request should be answered, worked out from its bytes alone.

Written apart from the program that it checks: of the format's bytes, and of what parsers, acceptance and refusals mean.
Nothing here recurses, since a request's bytes can nest 200,000 expressions in one another.
"""

from dataclasses import dataclass

LIMIT = 1 << 20  # bytes of a request
HEADERS, HEADER_BITS, STATES, PARTS, DEPTH = 64, 4096, 64, 16384, 16
WIDTH, INPUT = 4096, 65536

PARSE, COMPARE = 0, 1
CAN = {PARSE}  # the kinds of requests that this stage can do


class Garbled(Exception):
    """The bytes cease to be a request at `offset`."""

    def __init__(self, offset):
        self.offset = offset


@dataclass
class State:
    ops: list  # (header, None) to extract, (header, expression) to assign
    keys: list
    cases: list  # (patterns, target); a pattern is a row of bits, or None for any
    otherwise: object  # a target is a state's number, "accept" or "reject"


@dataclass
class Parser:
    sizes: list
    states: list


@dataclass
class Parse:
    parser: Parser
    store: list
    start: int
    message: bytes


@dataclass
class Compare:
    first: Parser
    second: Parser
    first_start: int
    second_start: int
    work: int
    room: int


# Bytes to requests


class Cursor:
    def __init__(self, data):
        self.data = data
        self.at = 0

    def row(self, n):
        """The next n bytes."""
        if len(self.data) - self.at < n:
            raise Garbled(len(self.data))
        self.at += n
        return self.data[self.at - n : self.at]

    def number(self, n):
        return int.from_bytes(self.row(n), "big")

    def tag(self, kinds):
        """A byte below the number of kinds; another one is garbled where it stands."""
        value = self.number(1)
        if value >= kinds:
            raise Garbled(self.at - 1)
        return value

    def many(self, read):
        return [read() for _ in range(self.number(2))]

    def bits(self):
        return self.row(self.number(2))

    def expr(self):
        """An expression's nodes, each before its parts: ("header", h), ("bits", row), ("slice", lo, hi), ("join",)."""
        nodes = []
        owed = 1
        while owed:
            tag = self.tag(4)
            owed -= 1
            if tag == 0:
                nodes.append(("header", self.number(2)))
            elif tag == 1:
                nodes.append(("bits", self.bits()))
            elif tag == 2:
                nodes.append(("slice", self.number(2), self.number(2)))
                owed += 1
            else:
                nodes.append(("join",))
                owed += 2
        return nodes

    def op(self):
        tag = self.tag(2)
        header = self.number(2)
        return (header, None if tag == 0 else self.expr())

    def target(self):
        tag = self.tag(3)
        return self.number(2) if tag == 0 else ("accept", "reject")[tag - 1]

    def pattern(self):
        return self.bits() if self.tag(2) == 0 else None

    def case(self):
        patterns = self.many(self.pattern)
        return (patterns, self.target())

    def state(self):
        ops = self.many(self.op)
        keys = self.many(self.expr)
        cases = self.many(self.case)
        return State(ops, keys, cases, self.target())

    def parser(self):
        sizes = self.many(lambda: self.number(2))
        return Parser(sizes, self.many(self.state))

    def request(self):
        if self.tag(2) == PARSE:
            parser = self.parser()
            store = self.many(self.bits)
            start = self.number(2)
            return Parse(parser, store, start, self.row(self.number(4)))
        first = self.parser()
        second = self.parser()
        return Compare(first, second, self.number(2), self.number(2), self.number(8), self.number(8))


def read_request(data):
    """The request that these bytes are; Garbled if they are none."""
    cursor = Cursor(data[:LIMIT])
    request = cursor.request()
    if cursor.at < len(data):
        raise Garbled(cursor.at)
    return request


# Expressions


def fold(nodes, header, bits, slice_, join):
    """An expression's value, from that of its parts: last nodes first, so that parts are done before what they are in."""
    done = []
    for node in reversed(nodes):
        if node[0] == "header":
            done.append(header(node[1]))
        elif node[0] == "bits":
            done.append(bits(node[1]))
        elif node[0] == "slice":
            done.append(slice_(done.pop(), node[1], node[2]))
        else:
            left = done.pop()
            done.append(join(left, done.pop()))
    (value,) = done
    return value


def depth(e):
    return fold(e, lambda h: 1, lambda bs: 1, lambda d, lo, hi: d + 1, lambda d, f: 1 + max(d, f))


def expr_parts(e):
    return sum(1 + (len(node[1]) if node[0] == "bits" else 0) for node in e)


def width(sizes, e):
    """How many bits an expression has; None if a slice, or bits in it, or a join is not right."""

    def bits(bs):
        return len(bs) if are_bits(bs) and len(bs) <= WIDTH else None

    def slice_(n, lo, hi):
        return hi + 1 - lo if n is not None and lo <= hi < n else None

    def join(m, n):
        return m + n if m is not None and n is not None and m + n <= WIDTH else None

    return fold(e, lambda h: sizes[h], bits, slice_, join)


def value(store, e):
    return fold(e, lambda h: store[h], lambda bs: bs, lambda v, lo, hi: v[lo : hi + 1], lambda v, w: v + w)


def are_bits(row):
    return all(b < 2 for b in row)


# Refusals 2 to 7


def within_limits(p):
    parts = sum(
        1
        + sum(1 + (expr_parts(e) if e is not None else 0) for _, e in q.ops)
        + sum(map(expr_parts, q.keys))
        + sum(1 + sum(1 + len(pattern or b"") for pattern in patterns) for patterns, _ in q.cases)
        for q in p.states
    )
    return (
        0 not in p.sizes
        and len(p.sizes) <= HEADERS
        and sum(p.sizes) <= HEADER_BITS
        and len(p.states) <= STATES
        and parts <= PARTS
        and all(depth(e) <= DEPTH for q in p.states for e in exprs(q))
    )


def exprs(q):
    return [e for _, e in q.ops if e is not None] + q.keys


def named(p):
    headers = [h for q in p.states for h, _ in q.ops]
    headers += [node[1] for q in p.states for e in exprs(q) for node in e if node[0] == "header"]
    targets = [t for q in p.states for t in [q.otherwise] + [t for _, t in q.cases] if t not in ("accept", "reject")]
    return all(h < len(p.sizes) for h in headers) and all(t < len(p.states) for t in targets)


def sized(p):
    return all(sized_state(p.sizes, q) for q in p.states)


def sized_state(sizes, q):
    widths = [width(sizes, e) for e in q.keys]
    return (
        None not in widths
        and all(width(sizes, e) == sizes[h] for h, e in q.ops if e is not None)
        and all(sized_patterns(widths, patterns) for patterns, _ in q.cases)
    )


def sized_patterns(widths, patterns):
    return len(patterns) == len(widths) and all(
        bits is None or (are_bits(bits) and len(bits) == n) for bits, n in zip(patterns, widths)
    )


def taken(p, q):
    """How many bits a state takes."""
    return sum(p.sizes[h] for h, e in q.ops if e is None)


def parser_fault(p):
    if not within_limits(p):
        return 2
    if not named(p):
        return 3
    if not sized(p):
        return 4
    if any(taken(p, q) == 0 for q in p.states):
        return 5
    if any(taken(p, q) > WIDTH for q in p.states):
        return 6
    return 0


def parse_fits(r):
    return (
        r.start < len(r.parser.states)
        and len(r.store) == len(r.parser.sizes)
        and all(len(bits) == n and are_bits(bits) for bits, n in zip(r.store, r.parser.sizes))
        and are_bits(r.message)
        and len(r.message) <= INPUT
    )


def request_fault(r):
    if isinstance(r, Compare):
        if COMPARE not in CAN:
            return 7
        starts = r.first_start < len(r.first.states) and r.second_start < len(r.second.states)
        return parser_fault(r.first) or parser_fault(r.second) or (0 if starts else 7)
    return parser_fault(r.parser) or (0 if parse_fits(r) else 7)


# Acceptance


def walk(p, store, q, bits):
    """The store after a state took its bits, and where it leads."""
    state = p.states[q]
    store = list(store)
    at = 0
    for h, e in state.ops:
        if e is None:
            store[h] = bits[at : at + p.sizes[h]]
            at += p.sizes[h]
        else:
            store[h] = value(store, e)
    looked_at = [value(store, e) for e in state.keys]
    for patterns, target in state.cases:
        if all(bits is None or bits == v for bits, v in zip(patterns, looked_at)):
            return store, target
    return store, state.otherwise


def accepts(p, store, start, message):
    target = start
    at = 0
    while target not in ("accept", "reject"):
        n = taken(p, p.states[target])
        if len(message) - at < n:
            return False
        store, target = walk(p, store, target, message[at : at + n])
        at += n
    return target == "accept" and at == len(message)


# Answers: ("refused", number, offset) or ("verdict", accepted)


def answer(data):
    try:
        request = read_request(data)
    except Garbled as garbled:
        return ("refused", 1, garbled.offset)
    number = request_fault(request)
    if number:
        return ("refused", number, 0)
    return ("verdict", accepts(request.parser, request.store, request.start, request.message))


def line(a):
    """An answer as it is printed."""
    if a[0] == "refused":
        return f"refused {a[1]} at {a[2]}"
    return "yes" if a[1] else "no"


def answer_bytes(a):
    if a[0] == "refused":
        return bytes([0, a[1]]) + a[2].to_bytes(8, "big")
    return bytes([1, a[1]])


def records(data):
    """The requests of a file: each is its length in four bytes, and then that many."""
    at = 0
    while at < len(data):
        n = int.from_bytes(data[at : at + 4], "big")
        if len(data) - at < 4 + n:
            raise ValueError(f"the record at byte {at} is cut short")
        yield data[at + 4 : at + 4 + n]
        at += 4 + n
