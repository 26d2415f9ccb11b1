"""Requests as bytes: each function gives the bytes of one thing of the format, from those of its parts.

Nothing is checked but that a number fits its field, so that wrong requests can be written too.
"""


def number(n, size):
    return n.to_bytes(size, "big")


def u16(n):
    return number(n, 2)


def counted(parts):
    parts = list(parts)
    return u16(len(parts)) + b"".join(parts)


def bits(row):
    return u16(len(row)) + bytes(row)


def header(h):
    return b"\0" + u16(h)


def constant(row):
    return b"\1" + bits(row)


def slice_(lo, hi, e, times=1):
    return (b"\2" + u16(lo) + u16(hi)) * times + e


def join(left, right):
    return b"\3" + left + right


def extract(h):
    return b"\0" + u16(h)


def assign(h, e):
    return b"\1" + u16(h) + e


def to_state(q):
    return b"\0" + u16(q)


ACCEPT = b"\1"
REJECT = b"\2"


def exactly(row):
    return b"\0" + bits(row)


ANY = b"\1"


def case(patterns, target):
    return counted(patterns) + target


def state(ops, keys, cases, otherwise):
    return counted(ops) + counted(keys) + counted(cases) + otherwise


def parser(sizes, states):
    return counted(map(u16, sizes)) + counted(states)


def parse(p, store, start, message):
    return b"\0" + p + counted(map(bits, store)) + u16(start) + number(len(message), 4) + bytes(message)


def compare(first, second, first_start, second_start, work, room):
    return b"\1" + first + second + u16(first_start) + u16(second_start) + number(work, 8) + number(room, 8)


def record(request):
    return number(len(request), 4) + request
