#!/usr/bin/env python3
"""In what ways the checks of the sessions come to reject: how many sessions meet each.

    second/reasons.py [N [SEED]]         over N seeded sessions (300) and the fixed ones, from the seed (1)

The exit status is 1 where some way is met by fewer than LEAST sessions: then sessions.py no longer tries it.
"""
import sys
from unittest import mock

import bench
import sessions

LEAST = 5
WAYS = [
    "for the tags",
    "for a stamp that a load took",
    "for a stamp that a store took",
    "for a stamp that a remove took",
    "for a stamp that the check itself took",
    "for a stamp, one of several that were ahead",
    "for a stamp, where a later one was at a lower address",
    "for a stamp, and the hashes agree",
    "for a stamp, and the hashes differ",
    "for a stamp, after a check that accepted",
    "for the tags, after a check that accepted",
]


class Watched(bench.Bench):
    """A Bench that notes which takes of the period were ahead, each with the call that took it, and how its checks reject."""

    met = set()

    def __init__(self):
        super().__init__()
        self.ahead = []
        self.call = ""
        self.accepted = False

    def line(self, line):
        self.call = (bench.parse(line) or ("bad",))[0]
        return super().line(line)

    def take(self, a):
        if self.cell(a)[1] > self.clock:
            self.ahead.append((a, self.call))
        return super().take(a)

    def check(self):
        takes = self.takes.copy()
        for a in self.used:
            takes.insert(a, *self.cell(a))
        agree = takes == self.puts
        said = super().check()
        if said == "accept":
            self.accepted, self.ahead = True, []
        elif said.startswith("reject"):
            self.met |= self.ways(agree)
        return said

    def ways(self, agree):
        after = ", after a check that accepted"
        if not self.ahead:
            return {"for the tags"} | ({"for the tags" + after} if self.accepted else set())
        (first, call), later = self.ahead[0], self.ahead[1:]
        return {
            "for a stamp that %s took" % ("the check itself" if call == "check" else "a " + call),
            "for a stamp, and the hashes %s" % ("agree" if agree else "differ"),
            *(["for a stamp, one of several that were ahead"] if later else []),
            *(["for a stamp, where a later one was at a lower address"] if any(a < first for a, _ in later) else []),
            *(["for a stamp" + after] if self.accepted else []),
        }


def main():
    count = int(sys.argv[1]) if len(sys.argv) > 1 else 300
    seed = sys.argv[2] if len(sys.argv) > 2 else "1"
    tried = sessions.FIXED + [sessions.make(seed, i) for i in range(count)]
    seen = dict.fromkeys(WAYS, 0)
    for data in tried:
        with mock.patch.object(bench, "Bench", Watched):
            Watched.met = set()
            bench.session(data)
        for way in Watched.met:
            seen[way] += 1
    for way, sessions_ in seen.items():
        print("%4d  %s" % (sessions_, way))
    few = [way for way in WAYS if seen[way] < LEAST]
    print("%d ways to reject, each met by at least %d of %d sessions" % (len(WAYS), LEAST, len(tried)) if not few else "met by too few sessions: " + "; ".join(few))
    return 1 if few else 0


if __name__ == "__main__":
    sys.exit(main())
