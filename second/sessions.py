#!/usr/bin/env python3
"""Runs sessions through the bench program and through bench.py, and compares what they print: some fixed ones at the bounds, and N seeded ones. Before
these, runs whose input or output fails must fail.

    second/sessions.py [N [SEED]]        N sessions (300), from the seed (1)

The last line is 'F fixed and N seeded sessions, 0 differences'. At the first difference the session is printed and written to a file, with the command
that runs it again, and the exit status is 1. Session number i of a seed is the same on every machine. What the sessions would show of errors that look
right is counted by errors.py, and in what ways their checks come to reject by reasons.py.
"""
import os
import random
import subprocess
import sys
from concurrent.futures import ThreadPoolExecutor

import bench

HERE = os.path.dirname(os.path.abspath(__file__))
PROGRAM = os.path.join(HERE, "run-bench")
BUILD = os.path.join(HERE, "build-bench")
FOUND = os.path.join(HERE, "..", "target", "difference.session")

EDGE_ADDRESSES = [0, 1, 511, 1022, 1023, 1024, 1025, 32768, 65535]
EDGE_STAMPS = [0, 1, 2, 255, 256, 257, 65534, 65535]


class Writer:
    """A session under way: its lines, and the model's state after them, which tells what a cell holds and what it held."""

    def __init__(self, rng, addresses):
        self.rng = rng
        self.addresses = addresses
        self.lines = []
        self.bench = bench.Bench()
        self.past = []

    def say(self, text):
        self.lines.append(text.encode())
        self.bench.line(text.encode())

    def size(self):
        return sum(len(line) + 1 for line in self.lines)

    def address(self):
        return self.rng.choice(self.addresses)

    def byte(self):
        return "%02x" % self.rng.choice([0, 0x0A, 0x41, 0x99, 0xAF, 0xFF, self.rng.randrange(256)])

    def used(self):
        return self.rng.choice(sorted(self.bench.used)) if self.bench.used else self.address()

    def spoil(self, a, value, stamp):
        self.say("spoil %d %02x %d" % (a, value[0], stamp))

    def remember(self, a):
        if a < bench.ADDRESSES:
            self.past.append((a,) + self.bench.cell(a))

    def work(self):
        """A lawful call, mostly one that is not refused."""
        a = self.used()
        kind = self.rng.randrange(10)
        if kind < 3:
            a = self.address()
            self.say("add %d %s" % (a, self.byte()))
        elif kind < 6:
            self.say("store %d %s" % (a, self.byte()))
        elif kind < 8:
            self.say("load %d" % a)
        elif kind < 9:
            self.say("remove %d" % a)
        else:
            self.say("check")
        self.remember(a)

    def replay(self):
        """An old cell is put back: the same value and the same stamp at its address."""
        if self.past:
            self.spoil(*self.rng.choice(self.past))

    def swap(self):
        """Two cells change places."""
        if len(self.bench.used) > 1:
            a, b = self.rng.sample(sorted(self.bench.used), 2)
            first, second = self.bench.cell(a), self.bench.cell(b)
            self.spoil(a, *second)
            self.spoil(b, *first)

    def ahead(self):
        """A stamp at the clock or ahead of it."""
        a = self.used()
        if a < bench.ADDRESSES:
            stamp = min(65535, self.bench.clock + self.rng.choice([0, 1, 2, 3, 100]))
            self.spoil(a, self.bench.cell(a)[0], stamp)

    def edge(self):
        """A stamp at an end of its range, with the value there or another one."""
        a = self.used()
        if a < bench.ADDRESSES:
            value = self.bench.cell(a)[0] if self.rng.random() < 0.5 else bytes([self.rng.randrange(256)])
            self.spoil(a, value, self.rng.choice(EDGE_STAMPS))

    def detour(self):
        """A cell is spoiled and mended again before anybody reads it."""
        a = self.used()
        if a < bench.ADDRESSES:
            value, stamp = self.bench.cell(a)
            self.spoil(a, bytes([self.rng.randrange(256)]), self.rng.choice(EDGE_STAMPS))
            self.spoil(a, value, stamp)

    def plant(self):
        """Entries about to be written are planted and read, and then the old cell is put back: the hashes agree, and the fault mark alone tells."""
        a, byte, now = self.used(), self.byte(), self.bench.clock
        old = self.bench.cell(a)
        lines, lead = self.rng.choice(
            [
                (["store {a} {v}"], 1),
                (["load {a}"], 1),
                (["remove {a}", "add {a} {v}"], 1),
                (["load {a}", "load {a}"], 2),
                (["store {a} {v}", "store {a} {v}", "load {a}"], 3),
            ]
        )
        self.spoil(a, bytes.fromhex(byte), now + lead)
        for line in lines:
            self.say(line.format(a=a, v=byte))
        self.spoil(a, *old)

    def mend(self):
        """A lie is read, and then the old cell is put back: the check finds every cell as it should be, and must know of the lie."""
        a, byte = self.used(), self.byte()
        old = self.bench.cell(a)
        self.spoil(a, bytes.fromhex(byte), self.rng.choice([old[1], self.rng.randint(0, self.bench.clock)]))
        self.say(self.rng.choice(["load %d" % a, "store %d %s" % (a, byte), "store %d %02x" % (a, old[0][0])]))
        self.spoil(a, *old)


def steps(rng, addresses, moves, count):
    """A session of lawful work with some of the moves between, and a check at the end."""
    w = Writer(rng, addresses)
    for _ in range(count):
        if moves and rng.random() < 0.15:
            getattr(w, rng.choice(moves))()
        else:
            w.work()
        if w.size() > bench.LIMIT - 64:
            break
    w.say("check")
    w.say("load %d" % w.used())
    return w.lines


def few(rng):
    return rng.sample(range(bench.ADDRESSES), rng.randint(1, 5))


def lawful(rng):
    return steps(rng, few(rng), [], rng.randint(1, 120))


def lying(rng):
    moves = rng.sample(["replay", "swap", "ahead", "edge", "detour"], rng.randint(1, 5))
    return steps(rng, few(rng), moves, rng.randint(1, 120))


def edges(rng):
    return steps(rng, EDGE_ADDRESSES, ["edge", "replay"], rng.randint(1, 80))


def one_lie(rng, lie, least):
    """Lawful work with at least so many addresses in use, one lie in it, and checks after it."""
    w = Writer(rng, rng.sample(range(bench.ADDRESSES), rng.randint(least, 5)))
    for _ in range(rng.randint(0, 20)):
        w.work()
    for a in w.addresses:
        if len(w.bench.used) < least:
            w.say("add %d %s" % (a, w.byte()))
    getattr(w, lie)()
    for _ in range(rng.randint(0, 8)):
        w.work()
    for a in sorted(w.bench.used):
        w.say("load %d" % a)
    w.say("check")
    w.say("load %d" % w.used())
    w.say("check")
    return w.lines


def planted(rng):
    return one_lie(rng, "plant", 1)


def exchanged(rng):
    return one_lie(rng, "swap", 2)


def mended(rng):
    return one_lie(rng, "mend", 1)


def late(rng):
    """Stamps ahead of the clock at some addresses, taken one after the other by calls or by the check alone; in some sessions after a check that accepts."""
    w = Writer(rng, rng.sample(range(bench.ADDRESSES), rng.randint(2, 5)))
    for a in w.addresses:
        w.say("add %d %s" % (a, w.byte()))
    for _ in range(rng.randint(0, 4)):
        w.say(rng.choice(["load %d" % w.used(), "check"]))
    for a in rng.sample(w.addresses, rng.randint(1, len(w.addresses))):
        value, stamp = w.bench.cell(a)
        w.spoil(a, value, w.bench.clock + rng.choice([0, 1, 1, 2, 100]))
        w.say(rng.choice(["load %d" % a, "store %d %s" % (a, w.byte()), "remove %d" % a, "load %d" % w.used()]))
    w.say("check")
    w.say("load %d" % w.used())
    return w.lines


def every_command_at(rng):
    """Each command at each address of interest, before and after it is in use."""
    lines = []
    for a in rng.sample(EDGE_ADDRESSES, len(EDGE_ADDRESSES)):
        for _ in range(rng.randint(1, 3)):
            lines.append("%s %d" % (rng.choice(["load", "remove"]), a))
            lines.append("%s %d %02x" % (rng.choice(["add", "store"]), a, rng.randrange(256)))
            lines.append("spoil %d %02x %d" % (a, rng.randrange(256), rng.choice(EDGE_STAMPS)))
    lines.append("check")
    return [line.encode() for line in lines]


def closed(rng):
    """A closed state refuses every call but takes a spoil."""
    w = Writer(rng, few(rng))
    w.say("add %d %s" % (w.address(), w.byte()))
    w.spoil(w.used(), bytes([rng.randrange(256)]), rng.choice([0, 1, 2]))
    w.say("check")
    for _ in range(rng.randint(1, 30)):
        w.work()
        if rng.random() < 0.3:
            w.edge()
    return w.lines


def crowded(rng):
    """Many addresses in use, and long checks."""
    w = Writer(rng, range(bench.ADDRESSES))
    first = rng.choice([0, 1, 63, 64, 500, 1023 - 300])
    for a in range(first, min(first + rng.randint(100, 300), bench.ADDRESSES)):
        w.say("add %d %s" % (a, w.byte()))
        if w.size() > bench.LIMIT - 400:
            break
    for _ in range(rng.randint(1, 12)):
        rng.choice([w.work, w.work, w.replay, w.swap, w.detour])()
        if rng.random() < 0.5:
            w.say("check")
    return w.lines


def odd_number(rng):
    n = rng.choice([0, 1, 5, 9, 10, 1023, 1024, 65535])
    return rng.choice(
        ["0%d" % n, "00", "+%d" % n, "-%d" % n, "65536", "65540", "70000", "99999", "100000", "655350", "4294967301", "18446744073709551621", "1" * 40]
        + ["%dx" % n, "x%d" % n, "0x5", "5.", "5,", "1_0", "", "a", "/", ":", "5\x00", "\xb2", "\u0665", "1e1", "%x" % (n + 10)]
    )


def odd_byte(rng):
    return rng.choice(["4A", "FF", "4", "041", "4g", "g4", "0x", "x0", "", "/0", "0:", "`0", "0@", "G0", "4\x00", "aF", "Af", "\xe9\xe9", " 4", "4 "])


def bad_line(rng):
    """A line that is no command, or nearly one."""
    good = rng.choice(["add 5 41", "store 5 42", "load 5", "remove 5", "check", "spoil 5 41 1"])
    words = good.split(" ")
    kind = rng.randrange(14)
    if kind == 0:
        return ""
    if kind == 1:
        return " " + good
    if kind == 2:
        return good + " "
    if kind == 3:
        k = rng.randrange(1, len(good) + 1)
        return good[:k] + rng.choice(["  ", "\t", "\r", "\x0b", "\x00", "\xa0", " \t"]) + good[k:]
    if kind == 4:
        return good.replace(" ", "  ", 1)
    if kind == 5:
        return good.upper() if rng.random() < 0.5 else good.capitalize()
    if kind == 6:
        return good[: rng.randrange(len(good))]
    if kind == 7:
        return good + rng.choice([" 5", " 41", " x", "x", "5", " check"])
    if kind == 8:
        return " ".join(words[: rng.randrange(1, len(words) + 1)] + ["5"] * rng.randrange(3))
    if kind in (9, 10):
        words[rng.choice([1, -1]) if words[1:] else 0] = odd_number(rng)
        return " ".join(words)
    if kind == 11 and len(words) > 2:
        words[2] = odd_byte(rng)
        return " ".join(words)
    if kind == 12:
        return rng.choice(["ad", "adda", "stor", "loads", "rem", "chec", "checks", "spoi", "bad", "too long", "start", "look 5", "count", "#", "add5 41", "add 541"])
    return "".join(chr(rng.randrange(256)) for _ in range(rng.randrange(1, 20))).replace("\n", " ")


def malformed(rng):
    """Lawful work with bad lines between: they change nothing."""
    w = Writer(rng, few(rng) + [5])
    for _ in range(rng.randint(1, 60)):
        if rng.random() < 0.5:
            w.lines.append(bad_line(rng).encode("latin-1", "replace"))
            w.bench.line(w.lines[-1])
        else:
            w.work()
    return w.lines


def all_bad(rng):
    return [bad_line(rng).encode("latin-1", "replace") for _ in range(rng.randint(1, 100))]


def noise(rng):
    """Bytes at random: of all kinds, or of those that lines are made of."""
    alphabet = rng.choice([bytes(range(256)), b"adstorelmvchkpi 0123456789\n", b"add 0159af\n", b"check\n", b"\n", b" \n", b"spoil 5 41 1\n"])
    return [bytes(rng.choice(alphabet) for _ in range(rng.choice([1, 10, 100, 1000])))]


def damaged(rng):
    """A session with some bytes changed, dropped or doubled."""
    data = bytearray(b"\n".join(rng.choice([lawful, lying, edges])(rng)))
    for _ in range(rng.randint(1, 8)):
        k = rng.randrange(len(data))
        kind = rng.randrange(4)
        if kind == 0:
            data[k] = rng.randrange(256)
        elif kind == 1 and len(data) > 1:
            del data[k]
        elif kind == 2:
            data.insert(k, data[k])
        else:
            data.insert(k, rng.choice(b" \n0"))
    return [bytes(data)]


def sized(rng):
    """An input of a given size, at the limit or beside it."""
    size = rng.choice([4094, 4095, 4096, 4096, 4096, 4097, 4097, 4098, 5000, 8192, 20000])
    unit = rng.choice([b"check\n", b"load 5\n", b"\n", b"x", b"bad bad bad\n", b"add 5 41\n"])
    lines = b"\n".join(rng.choice([lawful, lying])(rng)) + b"\n"
    data = (lines + unit * size)[:size]
    if rng.random() < 0.5:
        data = data[:-1] + b"\n"
    return [data]


def tiny(rng):
    return [rng.choice([b"", b"\n", b"\n\n", b" ", b"check", b"check\n", b"check\n\n", b"x", b"\ncheck", b"add 0 00", b"load 0\nload 0", b"check\r\n", b"\x00"])]


KINDS = [
    lawful, planted, lying, exchanged, edges, every_command_at, mended, closed, crowded, late,
    malformed, planted, all_bad, noise, exchanged, damaged, sized, tiny, lying, late,
]

# No input prints more than 4,096 newlines: a byte is a line of its own there, and each prints 4. The longest answer to a line is a check's.
FIXED = [
    b"\n" * 4096,
    b"\n" * 4095 + b"x",
    b"\n" * 4097,
    b"check\n" * 682 + b"\n" * 4,
    b"add 0 41\n" + b"load 0\n" * 583 + b"check\n",
    b"add 0 41\n" + b"load 0\n" * 583 + b"\ncheck",
    b"add 0 41\n" + b"load 0\n" * 583 + b"\ncheck\n",
    b"add 5 41\nspoil 5 41 9\ncheck\n",
    b"add 9 41\nadd 2 42\nspoil 9 41 7\nload 9\nspoil 2 42 8\nload 2\ncheck\ncheck\n",
    b"add 1023 41\nadd 2 42\nspoil 1023 41 3\nspoil 2 42 2\ncheck\n",
]


def make(seed, i):
    """Session number i of a seed."""
    rng = random.Random("%s:%d" % (seed, i))
    data = b"\n".join(KINDS[i % len(KINDS)](rng))
    if rng.random() < 0.7 and len(data) < bench.LIMIT and not data.endswith(b"\n"):
        data += b"\n"
    return data


def run(data):
    """What the program prints; its exit status is 0, and it says nothing else."""
    done = subprocess.run([PROGRAM], input=data, stdout=subprocess.PIPE, stderr=subprocess.PIPE)
    if done.returncode != 0 or done.stderr:
        return done.stdout + b"\nexit status %d\n" % done.returncode + done.stderr
    return done.stdout


def tell(name, data, wanted, got):
    """The first difference, as a session that anyone can run again."""
    os.makedirs(os.path.dirname(FOUND), exist_ok=True)
    with open(FOUND, "wb") as f:
        f.write(data)
    path = os.path.relpath(FOUND)
    lines, ours, theirs = bench.lines_of(data), wanted.split(b"\n"), got.split(b"\n")
    print("%s, %d bytes:" % (name, len(data)))
    for k in range(max(len(lines), len(ours), len(theirs))):
        row = [part[k] if k < len(part) else b"" for part in (lines, ours, theirs)]
        mark = " " if row[1] == row[2] else "*"
        print("%s %4d  %-40r bench.py: %-20r bench: %r" % (mark, k + 1, row[0][:60], row[1], row[2]))
    print("it is in %s: run" % path)
    print("  %s < %s" % (os.path.relpath(PROGRAM), path))
    print("  %s < %s" % (os.path.relpath(os.path.join(HERE, "bench.py")), path))


def agree(pool, names, batch):
    """Do both programs print the same for every session of a batch? The first difference is told."""
    for name, data, got in zip(names, batch, pool.map(run, batch)):
        wanted = bench.session(data)
        if wanted != got:
            tell(name, data, wanted, got)
            return False
    return True


def failing():
    """Runs whose input cannot be read, at once or after a first part, or whose output cannot be written: do they print nothing, say why, and end with 1?"""
    terminal, line = os.openpty()
    os.write(line, b"check\n")
    os.close(line)
    folder, full = os.open(HERE, os.O_RDONLY), os.open("/dev/full", os.O_WRONLY)
    runs = [
        subprocess.run([PROGRAM], stdin=folder, stdout=subprocess.PIPE, stderr=subprocess.PIPE),
        subprocess.run([PROGRAM], stdin=terminal, stdout=subprocess.PIPE, stderr=subprocess.PIPE),
        subprocess.run([PROGRAM], input=b"check\n", stdout=full, stderr=subprocess.PIPE),
    ]
    wrong = [r for r in runs if r.returncode != 1 or not r.stderr.startswith(b"bench: a ") or r.stdout]
    for r in wrong:
        print("a run that must fail: status %d, said %r, printed %r" % (r.returncode, r.stderr, r.stdout))
    return not wrong


def main():
    count = int(sys.argv[1]) if len(sys.argv) > 1 else 300
    seed = sys.argv[2] if len(sys.argv) > 2 else "1"
    # what is told while it is built is no answer of a session
    subprocess.run([BUILD], check=True)
    with ThreadPoolExecutor(os.cpu_count()) as pool:
        good = failing() and agree(pool, ["fixed session %d" % i for i in range(len(FIXED))], FIXED)
        for done in range(0, count, 200):
            numbers = range(done, min(done + 200, count))
            good = good and agree(pool, ["session %d of seed %s" % (i, seed) for i in numbers], [make(seed, i) for i in numbers])
    print("%d fixed and %d seeded sessions, 0 differences" % (len(FIXED), count) if good else "a difference or a run that did not fail, told above")
    return 0 if good else 1


if __name__ == "__main__":
    sys.exit(main())
