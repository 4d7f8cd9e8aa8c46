#!/usr/bin/env python3
"""Makes calls through the shared library and through calls.py, and compares every answer and every byte that is left.

    second/compare.py [SECONDS [SEED]]     the comparison's pairs, then random calls for so long (10), but 15,000 at least, from the seed (1)
    second/compare.py --again FILE         one call again

The pairs: each edge serial with each, and 12,000 seeded ones. The random calls: any bytes as states, stores and filter records; sizes around every
bound; clocks at the ceiling; and runs from a start with a store that lies. Each buffer lies between bytes that are known, or against memory that cannot
be touched (driver.c). At the end how often each call gave each number, how often a check had each reason (REASONS) and two serials were of each kind
(SERIALS), and 'N calls, 0 differences'. At the first difference the call is printed and written to a file, with the command that makes it again, and
the exit status is 1; it is 1 too where a call never gave one of its numbers, or a reason or a kind was never met.
"""
import collections
import itertools
import os
import pathlib
import random
import struct
import subprocess
import sys
import time

import calls

TOP = pathlib.Path(__file__).resolve().parent.parent
DRIVER = TOP / "target" / "library" / "built" / "driver"
FOUND = TOP / "target" / "difference.call"
CALLS = list(calls.ANSWERS)
LEAST = 15000
# the fields of a state, and their bytes
HELD = {"key": 32, "marks": 128, "put": 36, "take": 36, "clock": 2, "fault": 1, "closed": 1, "first": 2, "unused": 2}
# what is counted of a check's reasons: rejects for a stamp, by the call that took the first one of the period; with several, and with a later one at a
# lower address; with hashes that are equal all the same, or not; in a period that an accept began; with an address that only a made-up state has;
# rejects for the tags; accepts of a state with some address in `first`; and takes of a stamp that is the clock, which mark no fault
REASONS = [
    "stamp by load", "stamp by store", "stamp by remove", "stamp by check", "several stamps", "a later one lower", "hashes equal", "hashes differ",
    "after an accept", "made-up address", "tags", "accept with an address", "stamp at the clock",
]
# serials at the edges: around 0, around 2^31, around the last one, and some between
EDGES = [0, 1, 2, 7, 65535, 65536, 2**30, *range(2**31 - 2, 2**31 + 3), 3 * 2**30, 2**32 - 65536, *range(2**32 - 3, 2**32)]
PAIRS = 12000
# what is counted of two serials: the answer, with equal serials of one member by themselves; that the way from one to the other is past 0; that it is the
# longest; of one member, that plain numbers would give another answer; of two, that the serials have no order, or are equal
SERIALS = [
    "forward", "back", "equal", "no order", "other member", "forward past 0", "back past 0", "farthest forward", "farthest back",
    "not as plain numbers", "other member and no order", "other member and equal",
]


class Driver:
    """The program that makes calls through the shared library."""

    def __init__(self):
        self.program = subprocess.Popen([TOP / "library" / "x86-64", "run", DRIVER], stdin=subprocess.PIPE, stdout=subprocess.PIPE)

    def ask(self, request, sizes):
        self.program.stdin.write(request)
        self.program.stdin.flush()
        answer = self.program.stdout.read(9 + sum(sizes))
        if len(answer) != 9 + sum(sizes):
            return None
        result, harm, left = struct.unpack("<Q", answer[:8])[0], answer[8], []
        at = 9
        for size in sizes:
            left.append(answer[at : at + size])
            at += size
        return result, harm, left


def built():
    """The library installed, and the driver compiled over it."""
    folder = subprocess.run([TOP / "library" / "install"], check=True, stdout=subprocess.PIPE, text=True).stdout.strip()
    DRIVER.parent.mkdir(exist_ok=True)
    flags = ["-std=c11", "-O2", "-Wall", "-Wextra", "-pedantic", "-Werror", f"-I{folder}/include"]
    over = [f"-L{folder}/lib", "-lpintlecup", f"-Wl,-rpath,{folder}/lib"]
    subprocess.run([TOP / "library" / "x86-64", "cc", *flags, TOP / "second" / "driver.c", *over, "-o", DRIVER], check=True)


def request_of(call, how, address, lent):
    head = struct.pack("<BBBQ", CALLS.index(call) + 1, how, len(lent), address)
    return head + b"".join(struct.pack("<I", len(b)) for b in lent) + b"".join(lent)


def read(request):
    number, how, count, address = struct.unpack("<BBBQ", request[:11])
    sizes = struct.unpack(f"<{count}I", request[11 : 11 + 4 * count])
    lent, at = [], 11 + 4 * count
    for size in sizes:
        lent.append(request[at : at + size])
        at += size
    return CALLS[number - 1], how, address, lent


class Comparison:
    def __init__(self):
        self.driver = Driver()
        self.met = collections.Counter()
        self.reasons = collections.Counter()
        self.serials = collections.Counter()
        self.made = 0
        self.answer = None

    def difference(self, request):
        """What differs at a call, or None; and what the call left."""
        call, how, address, lent = read(request)
        expected, *after = call(address, *lent)
        got = self.driver.ask(request, [len(b) for b in lent])
        self.made += 1
        self.met[call.__name__, expected] += 1
        self.answer = expected
        if got is None:
            return "the library's program ended", after
        result, harm, left = got
        if harm:
            return "bytes around a buffer were written", after
        if result != expected:
            return f"{expected} expected, {result} given", after
        for i, (want, have) in enumerate(zip(after, left)):
            if want != have:
                at = next(k for k in range(len(want)) if want[k] != have[k])
                return f"buffer {i}, byte {at}{field(want, at)}: {want[at]} expected, {have[at]} left", after
        return None, after

    def make(self, rng, call, address, *lent):
        """A call: what it left; its answer is kept. At a difference it tells all, and ends the program."""
        request = request_of(call, rng.randrange(3), address, lent)
        said, after = self.difference(request)
        if said:
            FOUND.write_bytes(request)
            told(request, said)
            sys.exit(1)
        return after

    def counts(self):
        """How often each call gave each number, and what was never met."""
        missing = []
        for call, numbers in calls.ANSWERS.items():
            name = call.__name__
            given = {number: count for (one, number), count in self.met.items() if one == name}
            if numbers is None:
                print(f"{name:12} {sum(given.values())} calls, {len(given)} answers")
                continue
            print(f"{name:12} " + ", ".join(f"{number}: {given.get(number, 0)}" for number in sorted(numbers)))
            missing += [f"{name} never gave {number}" for number in sorted(numbers - set(given))]
        print("reasons      " + ", ".join(f"{reason}: {self.reasons[reason]}" for reason in REASONS))
        print(f"serials      {self.serials['pairs']} pairs, all agree: " + ", ".join(f"{kind} {self.serials[kind]}" for kind in SERIALS))
        missing += [f"no check met: {reason}" for reason in REASONS if not self.reasons[reason]]
        return missing + [f"no pair of serials met: {kind}" for kind in SERIALS if not self.serials[kind]]


def field(buffer, at):
    """The field of a state that a byte of it is in."""
    if len(buffer) != calls.HELD.size:
        return ""
    for name, size in HELD.items():
        if at < size:
            return f", in {name}"
        at -= size


def told(request, said):
    call, how, address, lent = read(request)
    print(f"{call.__name__} at {address}, buffers of {[len(b) for b in lent]}, laid out as {how}: {said}")
    for i, b in enumerate(lent):
        print(f"  buffer {i}: {b[:64].hex()}{'..' if len(b) > 64 else ''}")
    print(f"again: second/compare.py --again {os.path.relpath(FOUND)}")


# ---- what is asked

class Run:
    """A state and its store, from call to call, with no fault marked at first; and what its takes have found in the period."""

    def __init__(self, asker, held, store):
        self.asker, self.held, self.store = asker, held, store
        self.ahead = []  # the takes of the period whose stamps were ahead of the clock: the call's name, and the address
        self.accepted = False

    def state(self):
        return calls.State(self.held)

    def make(self, call, a, *more):
        before, store = self.state(), self.store
        self.held, self.store, *rest = self.asker.make(call, a, self.held, store, *more)
        answer = self.asker.compared.answer
        if answer not in (0, calls.REJECTED_STAMP, calls.REJECTED_TAG):
            return
        taken = sorted(before.used) if call is calls.check else [] if call is calls.add else [a]
        stamps = {b: calls.cell(store, b)[1] for b in taken}
        self.ahead += [(call.__name__, b) for b, stamp in stamps.items() if stamp > before.clock]
        if not self.ahead and before.clock in stamps.values():
            self.met("stamp at the clock")
        if call is calls.check:
            self.judged(answer, before, store, int.from_bytes(rest[0], "little"))

    def check(self):
        self.make(calls.check, 0, self.asker.bytes(8))

    def write(self, a, cell):
        """What a store that lies does."""
        self.store = self.store[: calls.CELL * a] + cell + self.store[calls.CELL * a + calls.CELL :]

    def met(self, reason):
        self.asker.compared.reasons[reason] += 1

    def judged(self, answer, state, store, address):
        """A check that was done: why, by the takes that this run has seen."""
        if answer == calls.REJECTED_STAMP:
            (by, at), addresses = self.ahead[0], {b for _, b in self.ahead}
            if address != at:
                sys.exit(f"the first take ahead was at {at}, and both tell of {address}")
            for b in sorted(state.used):
                state.take_at(store, b)
            self.met(f"stamp by {by}")
            self.met("hashes equal" if state.put == state.take else "hashes differ")
            for reason, holds in [("several stamps", len(addresses) > 1), ("a later one lower", min(addresses) < at), ("after an accept", self.accepted)]:
                if holds:
                    self.met(reason)
        elif answer == calls.REJECTED_TAG:
            self.met("tags")
        else:
            self.ahead, self.accepted = [], True
            if state.first:
                self.met("accept with an address")


class Asker:
    def __init__(self, comparison, seed):
        self.rng = random.Random(seed)
        self.compared = comparison
        self.kinds = [self.any_state] * 6 + [self.run] * 2 + [self.stamps] * 2 + [self.hashes] * 3 + [self.filters] * 4 + [self.full] * 2 + [self.looks]

    def one(self):
        (self.truth if self.rng.randrange(300) == 0 else self.rng.choice(self.kinds))()

    def make(self, call, address, *lent):
        return self.compared.make(self.rng, call, address, *lent)

    def bytes(self, size):
        return self.rng.randbytes(size)

    def size(self, right, most):
        """The right size mostly, or one beside it, or any."""
        return self.rng.choice([right] * 20 + [right - 1, right + 1, 0, self.rng.randrange(most)])

    def address(self, used=()):
        some = [0, 1, 1022, 1023, self.rng.randrange(1024), self.rng.randrange(1024)] + ([self.rng.choice(sorted(used))] * 6 if used else [])
        return self.rng.choice(some * 4 + [1024, 1025, 65535, 65536, 2**32, 2**63, 2**64 - 1, self.rng.randrange(2**64)])

    def held(self, marks=None):
        """A state of any bytes. Few of its addresses are in use, mostly: a check of many takes long."""
        r = self.rng
        clock = r.choice([0, 1, 2, 65533, 65534, 65535, 65535, r.randrange(65536)])
        words = [0] * 16
        for _ in range(r.choice([0, 1, 2, 5, 20])):
            words[r.randrange(16)] |= 1 << r.randrange(64)
        number = lambda: r.choice([0, 1, 2**32 - 1, r.randrange(2**32)])
        mark = lambda *often: r.choice([*often, 0, 1, 2, 128, 255])
        first = r.choice([0, 1023, 1024, 65535, r.randrange(1024), r.randrange(65536)])
        hashes = [self.bytes(32), number(), self.bytes(32), number()]
        key = r.choice([bytes(32), self.bytes(32)])
        return calls.HELD.pack(key, *(marks or words), *hashes, clock, mark(0, 0, 0), mark(*[0] * 20), first, r.randrange(65536))

    def any_state(self):
        r = self.rng
        held = self.bytes(240) if r.randrange(20) == 0 else self.held()
        used = calls.State(held).used
        call = r.choice([calls.add, calls.load, calls.store, calls.remove, calls.check, calls.count, calls.lowest_free])
        store = self.bytes(self.size(calls.STORE, 40000))
        if call is calls.check and len(used) > 64:
            held = bytearray(held)
            held[32:160] = bytes(128)
            held = bytes(held)
        if call in (calls.add, calls.load, calls.store):
            self.make(call, self.address(used), held, store, self.bytes(self.size(28, 64)))
        elif call is calls.remove:
            self.make(call, self.address(used), held, store)
        elif call is calls.check:
            *_, address = self.make(call, 0, held, store, self.bytes(8))
            if self.compared.answer == calls.REJECTED_STAMP and int.from_bytes(address, "little") >= 1024:
                self.compared.reasons["made-up address"] += 1
        elif call is calls.count:
            self.make(call, 0, held)
        else:
            self.make(call, 0, held, self.bytes(8))

    def started(self, key):
        """A run from a start, refused or not; the state may get another `first`, which has no meaning while no fault is marked."""
        held, _ = self.make(calls.start, 0, self.bytes(240), key)
        if self.rng.randrange(2):
            held = held[:236] + self.bytes(2) + held[238:]
        return Run(self, held, self.rng.choice([bytes(calls.STORE), self.bytes(calls.STORE)]))

    def run(self):
        """A run from a start, with a store that mostly tells the truth."""
        r = self.rng
        run = self.started(self.bytes(self.size(32, 64)))
        addresses = [r.randrange(1024) for _ in range(r.choice([1, 3, 8]))]
        older = []
        lies = r.random() < 0.4
        for _ in range(r.randrange(4, 30)):
            a = r.choice(addresses)
            cell = slice(30 * a, 30 * a + 30)
            older.append((a, run.store[cell], run.store))
            if lies and r.random() < 0.1:
                # an older cell, one byte, the stamp, another cell, or the whole store as it was
                was = r.choice(older)
                b = bytearray(run.store)
                kind = r.randrange(5)
                if kind == 0:
                    b[30 * was[0] : 30 * was[0] + 30] = was[1]
                elif kind == 1:
                    b[30 * a + r.randrange(30)] ^= 1 << r.randrange(8)
                elif kind == 2:
                    b[30 * a + 28 : 30 * a + 30] = r.choice([0, 1, 65535, r.randrange(65536)]).to_bytes(2, "big")
                elif kind == 3:
                    b[cell] = run.store[30 * was[0] : 30 * was[0] + 30]
                else:
                    b[:] = was[2]
                run.store = bytes(b)
            if r.random() < 0.02:
                # the clock near its end: any state is legal
                run.held = run.held[:232] + r.choice([65533, 65534, 65535]).to_bytes(2, "little") + run.held[234:]
            call = r.choice([calls.add] * 3 + [calls.load] * 3 + [calls.store] * 2 + [calls.remove, calls.check])
            run.make(call, a, *self.lent(call))
        run.check()

    def lent(self, call):
        """What a call of a run is lent besides the state and the store."""
        return [] if call is calls.remove else [self.bytes(8 if call is calls.check else 28)]

    def stamps(self):
        """A run from a start with a store that makes up stamps: at the clock or ahead of it, for calls and the check to take; or so that the hashes agree."""
        r = self.rng
        run = self.started(self.bytes(32))
        addresses = r.sample(range(1024), r.choice([1, 2, 4]))
        for a in addresses:
            run.make(calls.add, a, self.bytes(28))
        if r.randrange(3) == 0:
            run.check()
        if r.randrange(4) == 0:
            self.early(run, r.choice(addresses))
        else:
            for a in r.sample(addresses, r.randint(1, len(addresses))):
                clock = run.state().clock
                stamp = r.choice([clock, clock + 1, r.randrange(clock, 65536)])
                run.write(a, calls.cell(run.store, a)[0] + stamp.to_bytes(2, "big"))
                call = r.choice([calls.load, calls.store, calls.remove, None])
                if call:
                    run.make(call, a, *self.lent(call))
        run.check()

    def early(self, run, a):
        """A call gets the very entry that it, or the add after it, is about to put, and the check the one that was there: what is taken is what was put."""
        call = self.rng.choice([calls.load, calls.store, calls.remove])
        was = run.store[30 * a : 30 * a + 30]
        value = was[:28] if call is calls.load else self.bytes(28)
        run.write(a, value + (run.state().clock + 1).to_bytes(2, "big"))
        run.make(call, a, *([] if call is calls.remove else [value]))
        if call is calls.remove:
            run.make(calls.add, a, value)
        run.write(a, was)

    def full(self):
        """Many addresses in use, or all; counted, and the lowest free one found."""
        words = [2**64 - 1] * 16
        for _ in range(self.rng.choice([0, 0, 1, 2])):
            words[self.rng.randrange(16)] ^= 1 << self.rng.randrange(64)
        held = self.held(words)
        self.make(calls.count, 0, held)
        self.make(calls.lowest_free, 0, held, self.bytes(8))
        self.make(calls.add, self.address(), held, self.bytes(calls.STORE), self.bytes(28))

    def truth(self):
        """A check of many addresses in use, whose cells are all as they were put, or all but one; their stamps may be ahead of the clock."""
        r = self.rng
        state = calls.State(calls.HELD.pack(self.bytes(32), *[0] * 16, bytes(32), 0, bytes(32), 0, r.choice([65535, 65535, r.randrange(65536)]), 0, 0, 0, 0))
        state.used = set(r.sample(range(1024), r.choice([64, 100, 1024])))
        store = self.bytes(calls.STORE)
        for a in state.used:
            state.put.insert(state.key, a, *calls.cell(store, a))
        if r.randrange(3) == 0:
            at = 30 * r.choice(sorted(state.used)) + r.randrange(30)
            store = store[:at] + bytes([store[at] ^ 1]) + store[at + 1 :]
        run = Run(self, state.held(), store)
        run.check()
        run.check()

    def looks(self):
        self.make(calls.look, self.address(), self.bytes(self.size(calls.STORE, 40000)))

    def hashes(self):
        r = self.rng
        out = self.bytes(self.size(32, 64))
        edge = lambda most: r.choice([0, 1, 31, 32, 33, 55, 56, 63, 64, 65, 119, 120, most - 1, most, most + 1, r.randrange(200), r.randrange(most + 100)])
        if r.randrange(2):
            self.make(calls.digest, 0, self.bytes(edge(8192)), out)
        else:
            self.make(calls.hmac, 0, self.bytes(edge(1024)), self.bytes(edge(4096)), out)

    def fields(self):
        """A filter record, mostly lawful."""
        r = self.rng
        family, length = r.choice([0, 1, 1, 255]), r.randrange(0, 129)
        top = 128 if family else 32
        length = min(length, top) if r.randrange(8) else r.randrange(256)
        longest = r.randrange(min(length, top), top + 1) if r.randrange(8) else r.randrange(256)
        prefix = r.randrange(2**128) >> max(0, 128 - length) << max(0, 128 - length) if r.randrange(8) else r.randrange(2**128)
        member, serial = r.choice([0, 1, 64496, r.randrange(2**32), r.randrange(2**32)]), r.choice([0, 7, 2**31, 2**32 - 1, r.randrange(2**32)])
        return calls.FIELDS.pack(family, r.choice([0, 1, 7]), length, longest, member, serial, prefix.to_bytes(16, "big"))

    def laid_out(self, fields):
        """The fields in 28 bytes, lawful or not."""
        family, action, length, longest, member, serial, prefix = calls.FIELDS.unpack(fields)
        whole = 0
        for part, width in zip([min(family, 1), min(action, 1), length, longest, 0, member, serial, int.from_bytes(prefix, "big")], calls.WIDTHS):
            whole = whole << width | part
        return whole.to_bytes(28, "big")

    def filters(self):
        r = self.rng
        fields = self.fields()
        _, out = self.make(calls.pack, 0, fields, self.bytes(self.size(28, 64)))
        if r.randrange(2):
            out = self.laid_out(fields)
        if r.randrange(4) == 0 and out:
            out = bytearray(out)
            out[r.randrange(len(out))] ^= 1 << r.randrange(8)
            out = bytes(out)
        _, back = self.make(calls.unpack, 0, out, self.bytes(28))
        self.make(calls.compare, 0, fields, back, self.bytes(4))
        self.make(calls.compare, 0, self.fields(), self.fields(), self.bytes(4))

    def serials(self):
        """The comparison of each edge serial with each, of one member and of two; and of PAIRS others, most of them of one member."""
        for held, offered in itertools.product(EDGES, EDGES):
            self.pair(held, offered, True)
            self.pair(held, offered, False)
        for _ in range(PAIRS):
            self.pair(*self.two(), self.rng.randrange(8) > 0)

    def two(self):
        """Two serials: a little apart, or 2^31 and a little, or a power of two, either way; or one at each end of the numbers; or any."""
        r = self.rng
        ends = r.sample([r.randrange(50), 2**32 - 1 - r.randrange(50)], 2)
        held = r.choice([r.choice(EDGES), ends[0], r.randrange(2**32), r.randrange(2**32)])
        few = r.randint(-3, 3)
        apart = r.choice([few, 2**31 + few, r.choice([1, -1]) << r.randrange(31), ends[1] - held, r.randrange(2**32)])
        return held, (held + apart) % 2**32

    def pair(self, held, offered, one):
        """The comparison of two serials, of one member or of two, with any other fields; and what it met."""
        r = self.rng
        member = r.choice([0, 1, 64496, r.randrange(2**32)])
        other = member if one else member ^ r.choice([1 << r.randrange(32), r.randrange(1, 2**32)])
        record = lambda *numbers: self.bytes(4) + struct.pack("<II", *numbers) + self.bytes(16)
        *_, left = self.make(calls.compare, 0, record(member, held), record(other, offered), self.bytes(4))
        answer, (distance,) = self.compared.answer, struct.unpack("<i", left)
        ordered = answer in (calls.FORWARD, calls.BACK)
        if ordered and ((held + distance - offered) % 2**32 or distance == -(2**31) or (distance < 0) != (answer == calls.BACK)):
            sys.exit(f"from {held} to {offered} both tell of {distance}, and answer {answer}")
        for kind, holds in [
            ("pairs", True),
            ("forward", answer == calls.FORWARD and held != offered),
            ("back", answer == calls.BACK),
            ("equal", one and held == offered),
            ("no order", answer == calls.NO_ORDER),
            ("other member", answer == calls.OTHER_MEMBER),
            ("forward past 0", answer == calls.FORWARD and offered < held),
            ("back past 0", answer == calls.BACK and held < offered),
            ("farthest forward", ordered and distance == 2**31 - 1),
            ("farthest back", ordered and distance == 1 - 2**31),
            ("not as plain numbers", one and answer != (calls.BACK if offered < held else calls.FORWARD)),
            ("other member and no order", not one and abs(offered - held) == 2**31),
            ("other member and equal", not one and held == offered),
        ]:
            self.compared.serials[kind] += holds


def main():
    if sys.argv[1:2] == ["--again"]:
        built()
        request = pathlib.Path(sys.argv[2]).read_bytes()
        said = Comparison().difference(request)[0]
        told(request, said or "no difference")
        return 1 if said else 0
    seconds = float(sys.argv[1]) if len(sys.argv) > 1 else 10
    seed = int(sys.argv[2]) if len(sys.argv) > 2 else 1
    built()
    comparison = Comparison()
    Asker(comparison, seed).serials()
    asker = Asker(comparison, seed)
    end, least = time.monotonic() + seconds, comparison.made + LEAST
    while time.monotonic() < end or comparison.made < least:
        asker.one()
    missing = comparison.counts()
    for line in missing:
        print(line)
    print(f"{comparison.made} calls, 0 differences")
    return 1 if missing else 0


if __name__ == "__main__":
    sys.exit(main())
