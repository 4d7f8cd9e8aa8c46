#!/usr/bin/env python3
"""Wrong comparisons of filter records, each of which must be refused by some case of the comparison; and no two cases are the same.

A wrong comparison is the right one with some part of it replaced. Prints the comparisons that pass every case, or "N wrong comparisons, each refused";
exit status 1 where one passes.
"""
import struct
import sys

import order
import reader
import refused

ALL, HALF = 2**32, 2**31


def signed(number, bits=32):
    """The lowest bits of a number, read as a signed one."""
    return (number + 2 ** (bits - 1)) % 2**bits - 2 ** (bits - 1)


def plain(held, offered):
    """The difference of the serials as plain numbers."""
    return offered["serial"] - held["serial"]


# the parts of the right comparison: the distance is -2^31 where there is no order

def others(held, offered):
    return held["member"] != offered["member"]


def distance(held, offered):
    return signed(plain(held, offered))


def unordered(d):
    return d == -HALF


def is_back(d):
    return d < 0


def same(x):
    return x


def said(held, offered, seen=same, other=others, apart=distance, judged=None, counted=None, none=unordered, back=is_back, told=same, late=False):
    """What a comparison says of two filter records, by their fields: the right thing, but for what is given. Back is decided by the distance judged, and
    the distance counted is told, where these are given; late is that the members are compared after the serials."""
    held, offered = seen(held), seen(offered)
    tests = [("other", other(held, offered)), ("refused 16", none(apart(held, offered)))]
    for answer, holds in reversed(tests) if late else tests:
        if holds:
            return answer
    way = "back" if back((judged or apart)(held, offered)) else "forward"
    return f"{way} {told((counted or apart)(held, offered))}"


def masked(name, mask):
    """A field of which some bits are not looked at."""
    return lambda f: {**f, name: f[name] & mask}


def serial_backwards(f):
    return {**f, "serial": int.from_bytes(f["serial"].to_bytes(4, "little"), "big")}


def signed_plain(held, offered):
    """The difference of the serials as plain numbers of a signed type."""
    return signed(offered["serial"]) - signed(held["serial"])


def round_early(least):
    """A distance where 2^32 - 1 serials go round: numbers below the least count as it, and the last number counts as 0 where the least is 0."""
    return lambda h, o: (max(o["serial"], least) - max(h["serial"], least) + HALF) % (ALL - 1) - HALF


def taken_for(d):
    """A distance where two serials without order are so far apart."""
    return lambda h, o: d if unordered(distance(h, o)) else distance(h, o)


def single(d):
    """The nearest number that a float of 32 bits has."""
    return int(struct.unpack("f", struct.pack("f", d))[0])


def wrong_members():
    for bit in range(32):
        yield f"member bit {bit} not looked at", {"other": lambda h, o, mask=~(1 << bit): (h["member"] ^ o["member"]) & mask != 0}
    for low in (8, 16, 24):
        yield f"members by their low {low} bits", {"other": lambda h, o, low=low: (h["member"] ^ o["member"]) % 2**low != 0}
        yield f"members by their bits above {low}", {"other": lambda h, o, low=low: (h["member"] ^ o["member"]) >> low != 0}
    yield "members not looked at", {"other": lambda h, o: False}
    yield "another member only where one bit differs", {"other": lambda h, o: bin(h["member"] ^ o["member"]).count("1") == 1}
    yield "another member only where it is the larger", {"other": lambda h, o: h["member"] < o["member"]}
    yield "another member only where it is the smaller", {"other": lambda h, o: h["member"] > o["member"]}
    yield "another member only where the serials differ", {"other": lambda h, o: others(h, o) and distance(h, o) != 0}
    yield "another member only where the serial is not ahead", {"other": lambda h, o: others(h, o) and distance(h, o) <= 0}
    yield "another member only where the serial is not behind", {"other": lambda h, o: others(h, o) and distance(h, o) >= 0}
    yield "no order before other member", {"late": True}
    for name in ("family", "action", "length", "longest", "prefix"):
        yield f"another {name} is another member", {"other": lambda h, o, name=name: others(h, o) or h[name] != o[name]}
        yield f"another member only where the {name} is another", {"other": lambda h, o, name=name: others(h, o) and h[name] != o[name]}
        yield f"another {name} is back", {"judged": lambda h, o, name=name: -1 if h[name] != o[name] else distance(h, o)}
    yield "member and serial exchanged", {"seen": lambda f: {**f, "member": f["serial"], "serial": f["member"]}}


def wrong_serials():
    yield "plain numbers", {"apart": plain, "none": lambda d: False}
    yield "plain numbers, and no order at 2^31", {"apart": plain, "none": lambda d: abs(d) == HALF}
    yield "plain numbers, and no order from 2^31 on", {"apart": plain, "none": lambda d: abs(d) >= HALF}
    yield "plain numbers of a signed type", {"apart": signed_plain, "none": lambda d: False}
    yield "plain numbers of a signed type, and no order at 2^31", {"apart": signed_plain, "none": lambda d: abs(d) == HALF}
    yield "the answer by plain numbers, the distance right", {"judged": plain}
    yield "the answer right, the distance by plain numbers", {"counted": plain}
    yield "never past 0 forwards", {"apart": lambda h, o: plain(h, o) if distance(h, o) > 0 else distance(h, o)}
    yield "never past 0 backwards", {"apart": lambda h, o: plain(h, o) if distance(h, o) < 0 else distance(h, o)}
    yield "the other way round", {"apart": lambda h, o: distance(o, h)}
    yield "modulo 2^32 - 1", {"apart": round_early(0)}
    yield "round from the last serial to 1", {"apart": round_early(1)}
    yield "serial 0 is behind every other", {"judged": lambda h, o: -1 if o["serial"] == 0 < h["serial"] else distance(h, o)}
    yield "serials backwards", {"seen": serial_backwards}
    for bit in range(32):
        yield f"serial bit {bit} not looked at", {"seen": masked("serial", ~(1 << bit))}
    for bits in range(1, 32):
        yield f"serials by their low {bits} bits", {"seen": masked("serial", 2**bits - 1)}
        yield f"serials by their bits above {bits}", {"seen": masked("serial", -(2**bits))}
        yield f"serials of {bits} bits", {"apart": lambda h, o, bits=bits: signed(plain(h, o), bits), "none": lambda d, half=2 ** (bits - 1): d == -half}
        yield f"a sign of {bits} bits", {"apart": lambda h, o, bits=bits: signed(plain(h, o), bits), "none": lambda d: False}


def wrong_answers():
    yield "2^31 is back", {"none": lambda d: False}
    yield "2^31 is forward", {"apart": taken_for(HALF)}
    yield "2^31 is forward, by -2^31", {"none": lambda d: False, "back": lambda d: -HALF < d < 0}
    yield "2^31 is forward, by 0", {"apart": taken_for(0)}
    yield "2^31 is another member", {"other": lambda h, o: others(h, o) or unordered(distance(h, o))}
    yield "no order only where the offered number is the larger", {"apart": lambda h, o: HALF if plain(h, o) == -HALF else distance(h, o)}
    yield "no order only where the offered number is the smaller", {"apart": lambda h, o: HALF if plain(h, o) == HALF else distance(h, o)}
    yield "2^31 - 1 has no order", {"none": lambda d: d in (-HALF, HALF - 1)}
    yield "2^31 + 1 has no order", {"none": lambda d: d in (-HALF, 1 - HALF)}
    yield "equal serials have no order", {"none": lambda d: d in (-HALF, 0)}
    for bit in range(31):
        yield f"no order beyond 2^{bit}", {"none": lambda d, most=2**bit: abs(d) > most}
    yield "equal serials are back", {"back": lambda d: d <= 0}
    yield "one behind is forward", {"back": lambda d: d < -1}
    yield "one ahead is back", {"back": lambda d: d < 0 or d == 1}
    yield "forward and back exchanged", {"back": lambda d: d > 0}
    yield "always forward", {"back": lambda d: False}
    yield "always back", {"back": lambda d: True}
    for by in (-1, 2, *(way << bit for bit in range(2, 31) for way in (1, -1))):
        yield f"back from {HALF + by} on", {"back": lambda d, least=HALF + by: d % ALL >= least}


def wrong_distances():
    yield "the distance is not told", {"told": lambda d: 0}
    yield "the distance without its sign", {"told": abs}
    yield "the distance with the other sign", {"told": lambda d: -d}
    yield "the distance without a sign, modulo 2^32", {"told": lambda d: d % ALL}
    yield "the distance's sign alone", {"told": lambda d: (d > 0) - (d < 0)}
    yield "the distance in a float", {"told": single}
    yield "forward by one too many", {"told": lambda d: d + (d > 0)}
    yield "back by one too many", {"told": lambda d: d - (d < 0)}
    yield "back by one too few", {"told": lambda d: d + (d < 0)}
    for bits in range(1, 31):
        yield f"the distance is at most 2^{bits} - 1", {"told": lambda d, most=2**bits - 1: max(-most, min(most, d))}


def wrong_orders():
    """Pairs of a name and what makes said a wrong comparison."""
    yield from wrong_members()
    yield from wrong_serials()
    yield from wrong_answers()
    yield from wrong_distances()


def main():
    lines = order.CASES.read_text(encoding="ascii").splitlines()
    given = [[reader.cut(bytes.fromhex(word)) for word in line.split(" ")[:2]] for line in lines]
    cases = [(two, " ".join(order.compare(*two))) for two in given]
    passes = lambda changes: all(said(*two, **changes) == right for two, right in cases)
    return refused.each("comparisons", lines, wrong_orders(), passes)


if __name__ == "__main__":
    sys.exit(main())
