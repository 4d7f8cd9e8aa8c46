#!/usr/bin/env python3
"""Wrong readers of filter records, each of which must be refused by some conformance case; and no two cases are the same.

A wrong reader is reader.py's with one of its tests replaced, in another order, or with fields read wrongly. Prints the readers that pass every case,
or "N wrong readers, each refused"; exit status 1 where one passes.
"""
import itertools
import sys

import reader
import refused

SPARE, PREFIX = range(14), range(128)
TESTS = {
    12: lambda f: f["spare"] != 0,
    13: lambda f: not f["length"] <= f["longest"] <= reader.TOP[f["family"]],
    14: lambda f: f["prefix"] % 2 ** max(0, 128 - f["length"]) != 0,
    15: lambda f: f["member"] == 0,
}


def said(size, fields, sizes=(28,), order=(12, 13, 14, 15), seen=lambda f: f, **tests):
    """What a reader says of some bytes, by their number and the fields of the first 28: as reader.read, but for what is given."""
    if size not in sizes:
        return 11, reader.ZEROS
    fields = seen(fields)
    for number in order:
        if tests.get("t%d" % number, TESTS[number])(fields):
            return number, reader.ZEROS
    return 0, {name: fields[name] for name in reader.SHOWN}


def skipping(family, mask):
    """No look at some bits of the prefixes of a family."""
    return lambda f: TESTS[14]({**f, "prefix": f["prefix"] & ~mask} if f["family"] == family else f)


def longest_passes(family, longest):
    """One longest above the top is taken for lawful."""
    return lambda f: TESTS[13](f) and not (f["family"] == family and f["longest"] == longest and f["length"] <= longest)


def backwards(name):
    """A field with its least significant byte first."""
    return lambda f: {**f, name: int.from_bytes(f[name].to_bytes(4, "little"), "big")}


def wrong_readers():
    """Pairs of a name and what makes said a wrong reader."""
    for family in (0, 1):
        for bit in PREFIX:
            yield f"family {family} skips prefix bit {bit}", {"t14": skipping(family, 1 << 127 - bit)}
        for word in range(4):
            yield f"family {family} skips prefix word {word}", {"t14": skipping(family, 0xFFFFFFFF << 96 - 32 * word)}
        for longest in range(reader.TOP[family] + 1, 256):
            yield f"family {family} takes longest {longest}", {"t13": longest_passes(family, longest)}
        for length in range(reader.TOP[family] + 1):
            yield f"family {family}, length {length}: any member", {"t15": lambda f, at=(family, length): f["member"] == 0 and (f["family"], f["length"]) != at}
    for bit in range(32):
        yield f"member bit {bit} not looked at", {"t15": lambda f, mask=~(1 << bit): f["member"] & mask == 0}
    for low in (8, 16, 24):
        yield f"member by its low {low} bits", {"t15": lambda f, low=low: f["member"] % 2**low == 0}
        yield f"member by its bits above {low}", {"t15": lambda f, low=low: f["member"] >> low == 0}
    yield "member tested for serial 0 alone", {"t15": lambda f: f["member"] == 0 and f["serial"] == 0}
    yield "member tested for other serials alone", {"t15": lambda f: f["member"] == 0 and f["serial"] != 0}
    for bit in SPARE:
        yield f"spare bit {bit} not looked at", {"t12": lambda f, mask=~(1 << bit): f["spare"] & mask != 0}
    for pair in itertools.combinations(SPARE, 2):
        mask = sum(1 << bit for bit in pair)
        yield f"spare bits {pair} cancel", {"t12": lambda f, mask=mask: f["spare"] & mask != mask and f["spare"] != 0}
    yield "an even number of spare bits", {"t12": lambda f: bin(f["spare"]).count("1") % 2 == 1}
    for size in set(range(57)) - {28}:
        yield f"size {size} is taken", {"sizes": (28, size)}
    for order in itertools.permutations((12, 13, 14, 15)):
        if order != (12, 13, 14, 15):
            yield f"tests in the order {order}", {"order": order}
    yield "the lengths exchanged", {"seen": lambda f: {**f, "length": f["longest"], "longest": f["length"]}}
    yield "the top of IPv4 is 31", {"t13": lambda f: TESTS[13](f) or (f["family"] == 0 and f["longest"] == 32)}
    yield "the longest need only be the prefix length or the top", {"t13": lambda f: f["longest"] not in (f["length"], reader.TOP[f["family"]])}
    yield "the prefix length may be above the longest", {"t13": lambda f: max(f["length"], f["longest"]) > reader.TOP[f["family"]]}
    for name in ("family", "action"):
        yield f"{name} the other way round", {"seen": lambda f, name=name: {**f, name: 1 - f[name]}}
    for name in ("member", "serial"):
        yield f"{name} backwards", {"seen": backwards(name)}


def main():
    lines = reader.CASES.read_text(encoding="ascii").splitlines()
    given = [bytes.fromhex(line.split(" ")[0]) for line in lines]
    cases = [(len(data), reader.cut((data + bytes(28))[:28]), reader.read(data)) for data in given]
    passes = lambda changes: all(said(size, fields, **changes) == right for size, fields, right in cases)
    return refused.each("readers", lines, wrong_readers(), passes)


if __name__ == "__main__":
    sys.exit(main())
