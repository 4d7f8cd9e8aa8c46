#!/usr/bin/env python3
"""What the bench program must print for the session on standard input.

Written from the rules (docs/RULES.md) alone, with Python's own SHA-256 and HMAC. It shares nothing with the program that it is held against.
"""
import hmac
import re
import sys

LIMIT = 4096
ADDRESSES = 1024
VALUE = 28
CELL = VALUE + 2
CEILING = 65535
KEY = bytes(32)

NUMBER = rb"(0|[1-9][0-9]{0,4})"
BYTE = rb"([0-9a-f]{2})"
LINES = {
    name: re.compile(rb" ".join([name.encode()] + words))
    for name, words in {
        "add": [NUMBER, BYTE],
        "store": [NUMBER, BYTE],
        "load": [NUMBER],
        "remove": [NUMBER],
        "check": [],
        "spoil": [NUMBER, BYTE, NUMBER],
    }.items()
}


def parse(line):
    """The name and the arguments of a line, or None where the line is bad."""
    for name, form in LINES.items():
        found = form.fullmatch(line)
        if found is None:
            continue
        words = found.groups()
        arguments = [int(w, 16) if k == 1 else int(w) for k, w in enumerate(words)]
        if any(n > 65535 for n in arguments):
            return None
        return name, arguments
    return None


def lines_of(data):
    """The lines of an input; nothing after the last newline is no line."""
    parts = data.split(b"\n")
    if parts[-1] == b"":
        parts.pop()
    return parts


class Multiset:
    """The hash of a multiset of entries: the exclusive-or of their tags, and their number modulo 2^32."""

    def __init__(self, tag=0, number=0):
        self.tag = tag
        self.number = number

    def insert(self, address, value, stamp):
        message = b"\x01" + address.to_bytes(2, "big") + value + stamp.to_bytes(2, "big")
        self.tag ^= int.from_bytes(hmac.digest(KEY, message, "sha256"), "big")
        self.number = (self.number + 1) % 2**32

    def __eq__(self, other):
        return self.tag == other.tag and self.number == other.number

    def copy(self):
        return Multiset(self.tag, self.number)


class Bench:
    """The trusted state beside the store that nobody trusts. Each call gives what its line prints after its name."""

    def __init__(self):
        self.cells = bytearray(CELL * ADDRESSES)
        self.puts = Multiset()
        self.takes = Multiset()
        self.clock = 0
        self.fault = False
        self.first = 0
        self.closed = False
        self.used = set()

    def cell(self, a):
        """The value and the stamp at an address."""
        whole = bytes(self.cells[CELL * a : CELL * a + CELL])
        return whole[:VALUE], int.from_bytes(whole[VALUE:], "big")

    def write(self, a, value, stamp):
        self.cells[CELL * a : CELL * a + CELL] = value + stamp.to_bytes(2, "big")

    def take(self, a):
        value, stamp = self.cell(a)
        if stamp > self.clock and not self.fault:
            self.fault, self.first = True, a
        self.takes.insert(a, value, stamp)
        return value

    def put(self, a, value):
        self.clock += 1
        self.write(a, value, self.clock)
        self.puts.insert(a, value, self.clock)

    def refusal(self, a, in_use, ticks):
        """The number of the first condition that refuses: closed, address, in use or not, clock."""
        if self.closed:
            return 7
        if a >= ADDRESSES:
            return 2
        if in_use and a not in self.used:
            return 5
        if not in_use and a in self.used:
            return 4
        if ticks and self.clock == CEILING:
            return 6
        return 0

    def add(self, a, byte):
        n = self.refusal(a, False, True)
        if n == 0:
            self.put(a, bytes([byte]) * VALUE)
            self.used.add(a)
        return str(n)

    def store(self, a, byte):
        n = self.refusal(a, True, True)
        if n == 0:
            self.take(a)
            self.put(a, bytes([byte]) * VALUE)
        return str(n)

    def load(self, a):
        n = self.refusal(a, True, True)
        if n != 0:
            return str(n)
        value = self.take(a)
        self.put(a, value)
        return "0 %02x" % value[0]

    def remove(self, a):
        n = self.refusal(a, True, False)
        if n == 0:
            self.take(a)
            self.cells[CELL * a : CELL * a + CELL] = bytes(CELL)
            self.used.discard(a)
        return str(n)

    def check(self):
        if self.closed:
            return "7"
        entry = self.takes.copy(), self.fault, self.first
        for a in sorted(self.used):
            self.take(a)
        if self.puts == self.takes and not self.fault:
            self.puts, self.takes = Multiset(), Multiset()
            self.clock = 1
            for a in sorted(self.used):
                value = self.cell(a)[0]
                self.write(a, value, 1)
                self.puts.insert(a, value, 1)
            return "accept"
        why = "stamp %d" % self.first if self.fault else "tag"
        self.takes, self.fault, self.first = entry
        self.closed = True
        return "reject " + why

    def spoil(self, a, byte, stamp):
        if a >= ADDRESSES:
            return "2"
        self.write(a, bytes([byte]) * VALUE, stamp)
        return "0"

    def line(self, line):
        """What a line prints."""
        command = parse(line)
        if command is None:
            return "bad"
        name, arguments = command
        return name + " " + getattr(self, name)(*arguments)


def session(data):
    """What the whole session prints."""
    if len(data) > LIMIT:
        return b"too long\n"
    bench = Bench()
    return "".join(bench.line(line) + "\n" for line in lines_of(data)).encode()


if __name__ == "__main__":
    sys.stdout.buffer.write(session(sys.stdin.buffer.read()))
