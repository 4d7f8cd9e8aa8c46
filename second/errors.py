#!/usr/bin/env python3
"""How many sessions would show an error that looks right, if the bench had it.

    second/errors.py [N [SEED]]          over N seeded sessions (300) and the fixed ones, from the seed (1)

Each class below is bench.py's Bench with one error. A session shows it where it prints something else than Bench does. The exit status is 1
where some error is shown by fewer than LEAST sessions: then sessions.py no longer tries it.
"""
import sys
from unittest import mock

import bench
import sessions

LEAST = 5


class Anywhere(bench.Multiset):
    def insert(self, address, value, stamp):
        super().insert(0, value, stamp)


class NoAddress(bench.Bench):
    """the message has no address"""

    multiset = Anywhere


class RaisedFirst(bench.Bench):
    """the clock goes up before the stamp is compared"""

    lead = 0

    def take(self, a):
        fault = self.fault
        value = super().take(a)
        self.fault = fault or self.cell(a)[1] > self.clock + self.lead
        return value

    def store(self, a, byte):
        self.lead = 1
        said = super().store(a, byte)
        self.lead = 0
        return said

    def load(self, a):
        self.lead = 1
        said = super().load(a)
        self.lead = 0
        return said


class NeverFault(bench.Bench):
    """the fault mark is never set"""

    def take(self, a):
        value = super().take(a)
        self.fault = False
        return value


class RemoveBlind(bench.Bench):
    """a remove does not compare the stamp"""

    def remove(self, a):
        fault = self.fault
        said = super().remove(a)
        self.fault = fault
        return said


class StoreTakesNothing(bench.Bench):
    """a store takes nothing"""

    def store(self, a, byte):
        n = self.refusal(a, True, True)
        if n == 0:
            self.put(a, bytes([byte]) * bench.VALUE)
        return str(n)


class StoreTakesOwn(bench.Bench):
    """a store takes the entry that was put last, and not the cell"""

    def __init__(self):
        super().__init__()
        self.own = {}

    def put(self, a, value):
        super().put(a, value)
        self.own[a] = value, self.clock

    def check(self):
        said = super().check()
        self.own = {a: self.cell(a) for a in self.used}
        return said

    def store(self, a, byte):
        n = self.refusal(a, True, True)
        if n == 0:
            self.takes.insert(a, *self.own[a])
            self.put(a, bytes([byte]) * bench.VALUE)
        return str(n)


class LoadTakesNothing(bench.Bench):
    """a load takes and puts nothing"""

    def load(self, a):
        n = self.refusal(a, True, True)
        return str(n) if n else "0 %02x" % self.cell(a)[0][0]


class LoadEnds(bench.Bench):
    """a load ends with an error at a stamp ahead"""

    def load(self, a):
        if self.refusal(a, True, True) == 0 and self.cell(a)[1] > self.clock:
            return "5"
        return super().load(a)


class Reopened(bench.Bench):
    """a reject clears the fault mark and leaves the state open"""

    def check(self):
        said = super().check()
        if said.startswith("reject"):
            self.fault = self.closed = False
        return said


class ClosedTaken(bench.Bench):
    """a closed state is taken from once more"""

    def refusal(self, a, in_use, ticks):
        n = super().refusal(a, in_use, ticks)
        if n == 7:
            self.closed = False
            n = super().refusal(a, in_use, ticks)
            self.closed = True
        return n


class ClosedChecked(bench.Bench):
    """a closed state is checked once more"""

    def check(self):
        self.closed = False
        return super().check()


class LaterFault(bench.Bench):
    """the address of a later fault overwrites that of the first"""

    def take(self, a):
        late = self.cell(a)[1] > self.clock
        value = super().take(a)
        self.first = a if late else self.first
        return value


class LowestFault(bench.Bench):
    """the lowest address whose stamp was ahead is named, and not the earliest take"""

    def take(self, a):
        late, marked = self.cell(a)[1] > self.clock, self.fault
        value = super().take(a)
        self.first = min(a, self.first) if late and marked else self.first
        return value


class EqualStamp(bench.Bench):
    """the address is that of the first take whose stamp is the clock or ahead of it"""

    near = None

    def take(self, a):
        if self.near is None and self.cell(a)[1] >= self.clock:
            self.near = a
        value = super().take(a)
        self.first = self.near if self.fault else self.first
        return value

    def check(self):
        said = super().check()
        self.near = None
        return said


class OwnLeftOut(bench.Bench):
    """the check's own takes are left out of its reason"""

    def check(self):
        fault = self.fault
        said = super().check()
        return "reject tag" if said.startswith("reject") and not fault else said


class TagWhereEqual(bench.Bench):
    """a check rejects for the tags where a stamp was ahead and the hashes agree"""

    def check(self):
        puts, takes = self.puts.copy(), self.takes.copy()
        for a in self.used:
            takes.insert(a, *self.cell(a))
        said = super().check()
        return "reject tag" if said.startswith("reject") and puts == takes else said


ERRORS = [RaisedFirst, NoAddress, StoreTakesNothing, StoreTakesOwn, LoadEnds, Reopened, ClosedTaken, ClosedChecked, NeverFault, RemoveBlind, LoadTakesNothing]
ERRORS += [LaterFault, LowestFault, EqualStamp, OwnLeftOut, TagWhereEqual]


def printed(error, data):
    """What a session prints with an error."""
    with mock.patch.multiple(bench, Bench=error, Multiset=getattr(error, "multiset", bench.Multiset)):
        return bench.session(data)


def main():
    count = int(sys.argv[1]) if len(sys.argv) > 1 else 300
    seed = sys.argv[2] if len(sys.argv) > 2 else "1"
    tried = [(data, bench.session(data)) for data in sessions.FIXED + [sessions.make(seed, i) for i in range(count)]]
    few = 0
    for error in ERRORS:
        seen = sum(printed(error, data) != right for data, right in tried)
        few += seen < LEAST
        print("%4d  %s" % (seen, error.__doc__))
    print("%d errors, each shown by at least %d of %d sessions" % (len(ERRORS), LEAST, len(tried)) if not few else "%d errors are shown by too few sessions" % few)
    return 1 if few else 0


if __name__ == "__main__":
    sys.exit(main())
