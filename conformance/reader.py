#!/usr/bin/env python3
"""A second reader of filter records, written from the written rules alone and from no code.

It reads the conformance cases, decodes each line's bytes by itself, and compares the number and the fields.
Usage: reader.py [FILE]   (without FILE: the cases of this repository)
Prints "N cases, all agree" and ends with status 0, or the first difference and status 1.
"""
import ipaddress
import pathlib
import sys

CASES = pathlib.Path(__file__).resolve().parent.parent / "crates" / "cases" / "stdout"

# The fields from the most significant bit of byte 0, with their widths in bits.
LAYOUT = [
    ("family", 1),
    ("action", 1),
    ("length", 8),
    ("longest", 8),
    ("spare", 14),
    ("member", 32),
    ("serial", 32),
    ("prefix", 128),
]
TOP = {0: 32, 1: 128}
SHOWN = ["family", "action", "length", "longest", "member", "serial", "prefix"]
ZEROS = dict.fromkeys(SHOWN, 0)


def cut(data):
    """The fields of 28 bytes, read off their bits written out as text."""
    bits = "".join(format(byte, "08b") for byte in data)
    fields, at = {}, 0
    for name, width in LAYOUT:
        fields[name] = int(bits[at : at + width], 2)
        at += width
    assert at == len(bits)
    return fields


def bits_past(fields):
    """Whether the prefix is no network address of its length; every prefix is taken as 128 bits."""
    network = ipaddress.IPv6Network((fields["prefix"], fields["length"]), strict=False)
    return int(network.network_address) != fields["prefix"]


def read(data):
    """The number, and the fields: all zero where the number is not 0."""
    if len(data) != 28:
        return 11, ZEROS
    fields = cut(data)
    if fields["spare"] != 0:
        return 12, ZEROS
    if not fields["length"] <= fields["longest"] <= TOP[fields["family"]]:
        return 13, ZEROS
    if bits_past(fields):
        return 14, ZEROS
    if fields["member"] == 0:
        return 15, ZEROS
    return 0, {name: fields[name] for name in SHOWN}


def line_of(data):
    """The whole line that this reader would write for these bytes."""
    number, fields = read(data)
    words = [data.hex(), str(number)]
    words += [str(fields[name]) for name in SHOWN[:-1]]
    words.append(format(fields["prefix"], "032x"))
    return " ".join(words)


def agree(path, own):
    """Compares each line of a file with the one that own makes of it, and says whether they agree; gives the exit status."""
    text = path.read_text(encoding="ascii")
    if not text.endswith("\n"):
        print("the file does not end with a line end")
        return 1
    lines = text[:-1].split("\n")
    for place, line in enumerate(lines, 1):
        try:
            mine = own(line)
        except ValueError as error:
            mine = f"no case: {error}"
        if mine != line:
            print(f"line {place} differs\nfile: {line}\nmine: {mine}")
            return 1
    print(f"{len(lines)} cases, all agree")
    return 0


def main(arguments):
    path = pathlib.Path(arguments[0]) if arguments else CASES
    return agree(path, lambda line: line_of(bytes.fromhex(line.split(" ")[0])))


if __name__ == "__main__":
    sys.exit(main(sys.argv[1:]))
