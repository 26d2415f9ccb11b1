"""Parsers and requests as a person writes them, made into bytes. README.md has the grammar.

What is written is put into bytes as it stands: whether widths fit, or headers are too many, is left to the program.
"""

import re
from dataclasses import dataclass, field

import encode


class Mistake(Exception):
    """What can't be read, and on which line."""


KEYWORDS = set("parser header state extract select otherwise accept reject times parse compare bytes".split())

TOKEN = re.compile(
    r"""\s*(?:
    (?P<constant> 0x[0-9a-fA-F]* | 0b[0-9]* )
  | (?P<number>   [0-9]+(?:_[0-9]+)* )
  | (?P<name>     [A-Za-z_][A-Za-z0-9_]* )
  | (?P<sign>     -> | \+\+ | [][:,()=*@] )
  | (?P<other>    \S )
    )""",
    re.VERBOSE,
)


class Line:
    """The tokens of a line, taken from the left."""

    def __init__(self, text):
        self.tokens = []
        for match in TOKEN.finditer(text):
            if match.lastgroup == "other":
                raise Mistake(f"what is {match['other']!r}?")
            self.tokens.append((match.lastgroup, match[match.lastgroup]))
        self.at = 0

    def peek(self):
        return self.tokens[self.at] if self.at < len(self.tokens) else ("end", "the end of the line")

    def next(self, kind, what):
        found, text = self.peek()
        if found != kind:
            raise Mistake(f"{what} was expected, not {text}")
        self.at += 1
        return text

    def skip(self, text):
        """Is this the next token? Then it's taken."""
        found = self.peek()[0] in ("name", "sign") and self.peek()[1] == text
        self.at += found
        return found

    def expect(self, text):
        if not self.skip(text):
            raise Mistake(f"{text!r} was expected, not {self.peek()[1]}")

    def end(self):
        if self.at < len(self.tokens):
            raise Mistake(f"{self.peek()[1]} is left over")

    def number(self, what):
        return int(self.next("number", what))

    def new_name(self, what):
        name = self.next("name", what)
        if name in KEYWORDS or name == "_":
            raise Mistake(f"{name} can't be a name")
        return name

    def times(self):
        """`*N` after what is repeated."""
        return self.number("how many times") if self.skip("*") else 1

    def constant(self):
        text = self.next("constant", "a constant (0x.. or 0b..)")
        if text.startswith("0x"):
            row = [int(digit, 16) >> i & 1 for digit in text[2:] for i in (3, 2, 1, 0)]
        else:
            row = [int(digit) for digit in text[2:]]
        return row * self.times()

    def row(self):
        """Constants, joined."""
        row = self.constant()
        while self.skip("++"):
            row += self.constant()
        return row

    def separated(self, read):
        """One or more, with commas between."""
        found = [read()]
        while self.skip(","):
            found.append(read())
        return found


@dataclass
class Parser:
    headers: dict = field(default_factory=dict)  # name to number
    sizes: list = field(default_factory=list)
    states: dict = field(default_factory=dict)
    blocks: list = field(default_factory=list)  # of each state: its line, how many there are of it, and the lines in it

    def named(self, line, names, what):
        """A header's or a state's number: by its name, or as @N, whether there is one or not."""
        if line.skip("@"):
            return line.number(f"the number of a {what}")
        name = line.next("name", f"a {what}")
        if name not in names:
            raise Mistake(f"there is no {what} {name}")
        return names[name]

    def header(self, line):
        return self.named(line, self.headers, "header")

    def start(self, line):
        return self.named(line, self.states, "state")

    def expr(self, line):
        e = self.sliced(line)
        while line.skip("++"):
            e = encode.join(e, self.sliced(line))
        return e

    def sliced(self, line):
        if line.skip("("):
            e = self.expr(line)
            line.expect(")")
        elif line.peek()[0] == "constant":
            e = encode.constant(line.constant())
        else:
            e = encode.header(self.header(line))
        while line.skip("["):
            lo = line.number("a bit")
            hi = line.number("a bit") if line.skip(":") else lo
            line.expect("]")
            e = encode.slice_(lo, hi, e, line.times())
        return e

    def target(self, line):
        if line.skip("accept"):
            return encode.ACCEPT
        if line.skip("reject"):
            return encode.REJECT
        return encode.to_state(self.start(line))

    def pattern(self, line):
        return encode.ANY if line.skip("_") else encode.exactly(line.row())

    def add_header(self, line, times):
        name = line.new_name("a header's name")
        size = line.number("how many bits it has")
        add_names(self.headers, name, times, "header")
        self.sizes += [size] * times

    def add_state(self, line, times, place):
        add_names(self.states, line.new_name("a state's name"), times, "state")
        self.blocks.append((place, times, []))

    def state(self, place, lines):
        """A state's bytes, from its lines."""
        ops, keys, cases, otherwise = [], None, [], None
        for inner, text in lines:
            with at(inner):
                line, times = repeated(text)
                if otherwise is not None:
                    raise Mistake("nothing can come after where a state leads otherwise")
                if times != 1 and line.peek()[1] in ("otherwise", "->", "select"):
                    raise Mistake(f"{line.peek()[1]} stands once in a state")
                if line.skip("otherwise") or line.peek()[1] == "->":
                    line.expect("->")
                    otherwise = self.target(line)
                elif line.skip("select"):
                    if keys is not None:
                        raise Mistake("a state selects once")
                    keys = line.separated(lambda: self.expr(line)) if line.peek()[0] != "end" else []
                elif keys is not None:
                    if line.skip("("):
                        line.expect(")")
                        patterns = []
                    else:
                        patterns = line.separated(lambda: self.pattern(line))
                    line.expect("->")
                    cases += [encode.case(patterns, self.target(line))] * times
                elif line.skip("extract"):
                    ops += [encode.extract(self.header(line))] * times
                else:
                    header = self.header(line)
                    line.expect("=")
                    ops += [encode.assign(header, self.expr(line))] * times
                line.end()
        if keys is None and otherwise is None:
            with at(place):
                raise Mistake("the state leads nowhere")
        return encode.state(ops, keys or [], cases, otherwise or encode.REJECT)

    def bytes(self):
        states = [q for place, times, lines in self.blocks for q in [self.state(place, lines)] * times]
        return encode.parser(self.sizes, states)


def add_names(names, name, times, what):
    """A name, or name0, name1 and so on of what is there several times."""
    for new in [name] if times == 1 else [f"{name}{i}" for i in range(times)]:
        if new in names:
            raise Mistake(f"there are two of {what} {new}")
        names[new] = len(names)


def repeated(text):
    """A line, and how many times it counts: what comes after `N times`."""
    line = Line(text)
    if line.peek()[0] != "number":
        return line, 1
    times = line.number("how many times")
    line.expect("times")
    return line, times


class at:
    """Puts the line's number before a mistake."""

    def __init__(self, place):
        self.place = place

    def __enter__(self):
        pass

    def __exit__(self, kind, mistake, trace):
        if kind is OverflowError:
            kind, mistake = Mistake, Mistake("a number is too large for its bytes")
        if kind is Mistake and not getattr(mistake, "placed", False):
            placed = Mistake(f"line {self.place}: {mistake}")
            placed.placed = True
            raise placed from None


@dataclass
class Request:
    place: int  # its line
    data: bytes
    expected: str  # the answer's line as it is written after =>, or None


@dataclass
class File:
    parsers: dict = field(default_factory=dict)
    requests: list = field(default_factory=list)

    def parser(self, line):
        name = line.next("name", "a parser")
        if name not in self.parsers:
            raise Mistake(f"there is no parser {name}")
        return self.parsers[name]

    def parse(self, line):
        p = self.parser(line)
        line.expect("from")
        start = p.start(line)
        store = [[0] * n for n in p.sizes]
        if line.skip("headers"):
            for h, row in line.separated(lambda: self.contents(p, line)):
                store[h] = row
        elif line.skip("store"):
            store = line.separated(line.row) if line.peek()[0] == "constant" else []
        line.expect("message")
        return encode.parse(p.bytes(), store, start, line.row())

    def contents(self, p, line):
        h = p.header(line)
        line.expect("=")
        return h, line.row()

    def compare(self, line):
        first = self.parser(line)
        line.expect("from")
        first_start = first.start(line)
        line.expect("and")
        second = self.parser(line)
        line.expect("from")
        second_start = second.start(line)
        line.expect("work")
        work = line.number("how much work")
        line.expect("room")
        room = line.number("how much room")
        return encode.compare(first.bytes(), second.bytes(), first_start, second_start, work, room)

    def add_request(self, place, text):
        text, _, expected = text.partition("=>")
        asked, *edits = text.split("|")
        kind, rest = (asked.split(None, 1) + [""])[:2]
        if kind == "bytes":
            made = [hex_bytes(rest)]
        else:
            line = Line(rest)
            made = [self.parse(line) if kind == "parse" else self.compare(line)]
            line.end()
        for edit in edits:
            made = [new for data in made for new in edited(data, edit)]
        for data in made:
            answer = " ".join(expected.split()).replace("at end", f"at {len(data)}") or None
            self.requests.append(Request(place, data, answer))


def hex_bytes(text):
    """Groups of two digits for a byte; `*N` after a group repeats it."""
    data = b""
    for group in text.split():
        digits, _, times = group.partition("*")
        try:
            data += bytes.fromhex(digits) * int(times or 1)
        except ValueError:
            raise Mistake(f"{group} is not bytes in hexadecimal digits") from None
    return data


def edited(data, edit):
    """The requests that an edit makes of one."""
    match edit.split():
        case ["cut", "each"]:
            return [data[:n] for n in range(len(data))]
        case ["cut", n] if n.isdigit() and int(n) <= len(data):
            return [data[: int(n)]]
        case ["put", n, *groups] if n.isdigit():
            new = hex_bytes(" ".join(groups))
            if int(n) + len(new) <= len(data):
                return [data[: int(n)] + new + data[int(n) + len(new) :]]
        case ["add", *groups]:
            return [data + hex_bytes(" ".join(groups))]
    raise Mistake(f"of {len(data)} bytes one can't {edit.strip()}")


def logical_lines(text):
    """Lines that say something, with their numbers: a backslash puts off the end of a line, a semicolon is one."""
    begun, first = "", None
    for place, line in enumerate(text.splitlines(), 1):
        line = line.partition("#")[0].rstrip()
        first = first or place
        if line.endswith("\\"):
            begun += line[:-1] + " "
            continue
        for said in (begun + line).split(";"):
            if said.strip():
                yield first, said.strip()
        begun, first = "", None


def read(text):
    """The parsers and requests of a text."""
    file = File()
    parser = None
    for place, said in logical_lines(text):
        with at(place):
            word = said.split()[0]
            if word == "parser":
                line = Line(said)
                line.expect("parser")
                name = line.new_name("a parser's name")
                line.end()
                if name in file.parsers:
                    raise Mistake(f"there are two parsers {name}")
                parser = file.parsers[name] = Parser()
            elif word in ("parse", "compare", "bytes"):
                file.add_request(place, said)
                parser = None
            elif parser is None:
                raise Mistake(f"{word} stands in no parser")
            else:
                line, times = repeated(said)
                if line.skip("header"):
                    parser.add_header(line, times)
                    line.end()
                elif line.skip("state"):
                    parser.add_state(line, times, place)
                    line.end()
                elif not parser.blocks:
                    raise Mistake(f"{word} stands in no state")
                else:
                    parser.blocks[-1][2].append((place, said))
    return file
