#!/usr/bin/env python3
"""A second comparison of filter records, written from RFC 1982 and the written rules alone and from no code.

It reads the cases of the comparison, decides each pair by itself, and compares the answer and the distance.
Usage: order.py [FILE]   (without FILE: the cases of this repository)
Prints "N cases, all agree" and ends with status 0, or the first difference and status 1.
"""
import pathlib
import sys

import reader

CASES = pathlib.Path(__file__).resolve().parent.parent / "crates" / "pairs" / "stdout"

SERIAL_BITS = 32
ALL, HALF = 2**SERIAL_BITS, 2 ** (SERIAL_BITS - 1)


def order(i1, i2):
    """RFC 1982, 3.2, of two serials: the answer, and how far it is from the first to the second."""
    if i1 == i2:
        return "forward", 0
    # "less than", in its two cases
    if i1 < i2 and i2 - i1 < HALF:
        return "forward", i2 - i1
    if i1 > i2 and i1 - i2 > HALF:
        return "forward", ALL - (i1 - i2)
    # "greater than", in its two cases
    if i1 < i2 and i2 - i1 > HALF:
        return "back", (i2 - i1) - ALL
    if i1 > i2 and i1 - i2 < HALF:
        return "back", -(i1 - i2)
    # neither: the RFC leaves it undefined
    return "refused", 16


def compare(held, offered):
    """The words for two filter records, by their fields."""
    if held["member"] != offered["member"]:
        return ["other"]
    return [str(word) for word in order(held["serial"], offered["serial"])]


def fields(data):
    """The fields of a filter record's bytes. In a case it is lawful."""
    number, read = reader.read(data)
    if number != 0:
        raise ValueError(f"a filter record is refused by {number}")
    return read


def line_of(line):
    """The whole line that this comparison would write for the two filter records of a line."""
    held, offered = [bytes.fromhex(word) for word in line.split(" ")[:2]]
    return " ".join([held.hex(), offered.hex(), *compare(fields(held), fields(offered))])


def main(arguments):
    return reader.agree(pathlib.Path(arguments[0]) if arguments else CASES, line_of)


if __name__ == "__main__":
    sys.exit(main(sys.argv[1:]))
