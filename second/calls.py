"""All calls of the library once more, from docs/RULES.md and the structs of library/pintlecup.h, with Python's own SHA-256 and HMAC.

It shares nothing with the library. Each call takes the bytes of what is lent, and gives its answer and those bytes as it leaves them.
"""
import dataclasses
import hashlib
import hmac as keyed
import struct

ADDRESSES = 1024
VALUE = 28
CELL = VALUE + 2
STORE = CELL * ADDRESSES
CEILING = 65535
REJECTED_STAMP = 254
REJECTED_TAG = 255
FORWARD, BACK, OTHER_MEMBER, NO_ORDER = 0, 1, 2, 16

HELD = struct.Struct("<32s16Q32sI32sIHBBHH")
FIELDS = struct.Struct("<BBBBII16s")
TOP = {0: 32, 1: 128}
WIDTHS = [1, 1, 8, 8, 14, 32, 32, 128]


# ---- the state

@dataclasses.dataclass
class Hash:
    """The hash of a multiset of entries: the exclusive-or of their tags, and their number modulo 2^32."""

    tag: bytes = bytes(32)
    number: int = 0

    def insert(self, key, address, value, stamp):
        message = b"\x01" + address.to_bytes(2, "big") + value + stamp.to_bytes(2, "big")
        tag = keyed.digest(key, message, "sha256")
        self.tag = bytes(x ^ y for x, y in zip(self.tag, tag))
        self.number = (self.number + 1) % 2**32


class State:
    def __init__(self, held):
        parts = HELD.unpack(held)
        self.key = parts[0]
        self.used = {64 * i + bit for i, word in enumerate(parts[1:17]) for bit in range(64) if word >> bit & 1}
        self.put = Hash(*parts[17:19])
        self.take = Hash(*parts[19:21])
        self.clock = parts[21]
        self.fault = parts[22] != 0
        self.closed = parts[23] != 0
        self.first = parts[24]

    def held(self):
        words = [sum(1 << bit for bit in range(64) if 64 * i + bit in self.used) for i in range(16)]
        hashes = [self.put.tag, self.put.number, self.take.tag, self.take.number]
        return HELD.pack(self.key, *words, *hashes, self.clock, self.fault, self.closed, self.first, 0)

    def take_at(self, store, a):
        value, stamp = cell(store, a)
        if stamp > self.clock and not self.fault:
            self.fault, self.first = True, a
        self.take.insert(self.key, a, value, stamp)
        return value

    def put_at(self, store, a, value, stamp):
        self.clock = stamp
        store[CELL * a : CELL * a + CELL] = value + stamp.to_bytes(2, "big")
        self.put.insert(self.key, a, value, stamp)


def cell(store, a):
    """The value and the stamp at an address."""
    whole = bytes(store[CELL * a : CELL * a + CELL])
    return whole[:VALUE], int.from_bytes(whole[VALUE:], "big")


def refusal(state, store, a=None, buffer=None, used=None, ticks=False):
    """The number of the first row that holds, in the order 7, 1, 2, 3, 4 or 5, 6; 0 where none does. What is None is not asked of this call."""
    if state.closed:
        return 7
    if len(store) != STORE:
        return 1
    if a is not None and a >= ADDRESSES:
        return 2
    if buffer is not None and len(buffer) != VALUE:
        return 3
    if used is False and a in state.used:
        return 4
    if used is True and a not in state.used:
        return 5
    if ticks and state.clock == CEILING:
        return 6
    return 0


# ---- the calls on the store

def start(a, held, key):
    zeros = State(bytes(HELD.size))
    if len(key) != 32:
        zeros.closed = True
        return 8, zeros.held(), key
    zeros.key = key
    return 0, zeros.held(), key


def add(a, held, store, value):
    state, after = State(held), bytearray(store)
    number = refusal(state, store, a, value, False, True)
    if number:
        return number, held, store, value
    state.put_at(after, a, value, state.clock + 1)
    state.used.add(a)
    return 0, state.held(), bytes(after), value


def load(a, held, store, out):
    state, after = State(held), bytearray(store)
    number = refusal(state, store, a, out, True, True)
    if number:
        return number, held, store, out
    value = state.take_at(after, a)
    state.put_at(after, a, value, state.clock + 1)
    return 0, state.held(), bytes(after), value


def store(a, held, store, value):
    state, after = State(held), bytearray(store)
    number = refusal(state, store, a, value, True, True)
    if number:
        return number, held, store, value
    state.take_at(after, a)
    state.put_at(after, a, value, state.clock + 1)
    return 0, state.held(), bytes(after), value


def remove(a, held, store):
    state, after = State(held), bytearray(store)
    number = refusal(state, store, a, None, True)
    if number:
        return number, held, store
    state.take_at(after, a)
    after[CELL * a : CELL * a + CELL] = bytes(CELL)
    state.used.discard(a)
    return 0, state.held(), bytes(after)


def check(a, held, store, address):
    state, after = State(held), bytearray(store)
    number = refusal(state, store)
    if number:
        return number, held, store, address
    for b in sorted(state.used):
        state.take_at(after, b)
    shut = State(held)
    shut.closed = True
    if state.fault:
        return REJECTED_STAMP, shut.held(), store, state.first.to_bytes(8, "little")
    if state.put != state.take:
        return REJECTED_TAG, shut.held(), store, address
    state.put, state.take, state.clock = Hash(), Hash(), 1
    for b in sorted(state.used):
        state.put_at(after, b, cell(store, b)[0], 1)
    return 0, state.held(), bytes(after), address


def look(a, store):
    return (CELL * a if len(store) == STORE and a < ADDRESSES else STORE), store


def count(a, held):
    return len(State(held).used), held


def lowest_free(a, held, address):
    free = set(range(ADDRESSES)) - State(held).used
    return (0, held, min(free).to_bytes(8, "little")) if free else (9, held, address)


# ---- the hashes

def digest(a, message, out):
    if len(message) > 8192 or len(out) != 32:
        return 10, message, out
    return 0, message, hashlib.sha256(message).digest()


def hmac(a, key, message, out):
    if len(key) > 1024 or len(message) > 4096 or len(out) != 32:
        return 10, key, message, out
    return 0, key, message, keyed.digest(key, message, "sha256")


# ---- the filter record

def lawless(family, length, longest, member, prefix):
    """The first of 13, 14 and 15 that holds."""
    if not length <= longest <= TOP[family]:
        return 13
    if "1" in format(prefix, "0128b")[length:]:
        return 14
    return 15 if member == 0 else 0


def pack(a, fields, out):
    family, action, length, longest, member, serial, prefix = FIELDS.unpack(fields)
    family, action, prefix = min(family, 1), min(action, 1), int.from_bytes(prefix, "big")
    number = 11 if len(out) != 28 else lawless(family, length, longest, member, prefix)
    if number:
        return number, fields, out
    parts = [family, action, length, longest, 0, member, serial, prefix]
    bits = "".join(format(part, f"0{width}b") for part, width in zip(parts, WIDTHS))
    return 0, fields, int(bits, 2).to_bytes(28, "big")


def unpack(a, data, fields):
    none = bytes(FIELDS.size)
    if len(data) != 28:
        return 11, data, none
    bits, parts = format(int.from_bytes(data, "big"), "0224b"), []
    for width in WIDTHS:
        parts.append(int(bits[:width], 2))
        bits = bits[width:]
    family, action, length, longest, spare, member, serial, prefix = parts
    number = 12 if spare else lawless(family, length, longest, member, prefix)
    if number:
        return number, data, none
    return 0, data, FIELDS.pack(family, action, length, longest, member, serial, prefix.to_bytes(16, "big"))


# ---- the comparison

def less(one, two):
    """RFC 1982, 3.2, of serials of 32 bits: is the first less than the second? By the two cases that it gives."""
    return (one < two and two - one < 2**31) or (one > two and one - two > 2**31)


def compare(a, held, offered, distance):
    (_, _, _, _, member, serial, _), (_, _, _, _, other, offer, _) = FIELDS.unpack(held), FIELDS.unpack(offered)
    if member != other:
        return OTHER_MEMBER, held, offered, distance
    if not (serial == offer or less(serial, offer) or less(offer, serial)):
        return NO_ORDER, held, offered, distance
    # straight on, or past 0 one way or the other: one of the three is in range
    (apart,) = [d for d in (offer - serial, offer - serial + 2**32, offer - serial - 2**32) if -(2**31) < d < 2**31]
    return (BACK if less(offer, serial) else FORWARD), held, offered, struct.pack("<i", apart)


# what each call may answer; look and count answer other numbers
ANSWERS = {
    start: {0, 8},
    add: {0, 1, 2, 3, 4, 6, 7},
    load: {0, 1, 2, 3, 5, 6, 7},
    store: {0, 1, 2, 3, 5, 6, 7},
    remove: {0, 1, 2, 5, 7},
    check: {0, 1, 7, REJECTED_STAMP, REJECTED_TAG},
    look: None,
    count: None,
    lowest_free: {0, 9},
    digest: {0, 10},
    hmac: {0, 10},
    pack: {0, 11, 13, 14, 15},
    unpack: {0, 11, 12, 13, 14, 15},
    compare: {FORWARD, BACK, OTHER_MEMBER, NO_ORDER},
}
