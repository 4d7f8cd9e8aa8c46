"""Brings the names that the crates' own definitions and lemmas have to one spelling: a word in snake case, a type in camel case.

Run once, at the top of the tree: python3 tools/respell.py. It was run on what the toolchain's own script for older trees left, which had respelled some of
these names only. It turns each name that a file of specs/ or proofs/ declares, wherever a file of specs/ or proofs/ or a clause of src/ has it; the names that
the toolchain asks for (the answers of a function's proof) stay, as do functions of src/, texts and all that other languages see. Where two names would fall
together, the lemma takes the name in `APART`. Prints what it turned.
"""
import collections
import pathlib
import re

TOP = pathlib.Path(__file__).resolve().parent.parent
SIGNATURE = re.compile(r"^ *(?:(?:unfoldable|abbrev|pub|axiom|record|data) )*([^\s(){};,:]+)(?: \{[^}]*\}| \([^)]*\))* :(?: (.*)|$)")
TOKEN = re.compile(r"[^\s(){}.;,@\"«»`]+")
# the letters that FIPS 180-4 and RFC 2104 give
SYMBOLS = {"K", "H0", "B", "Σ0", "Σ1", "σ0", "σ1"}
WORDS = {"Ch": "ch", "Maj": "maj", "K-rule": "k_rule", "H0-rule": "h0_rule"}
# a lemma whose name would be that of the definition it is about: its name, and the files that know it
APART = {
    "held-times": ("times_held", ["bag/proofs/Counted.antt"]),
    "in_place": ("is_in_place", ["held/proofs/Same.antt"]),
    "has-cell": ("has_cell_true", ["entries/proofs/Cells.antt", "store/proofs/cells/*/Proof.antt", "commands/proofs/spoil/Proof.antt"]),
    "used-below": ("used_is_below", ["state/proofs/*.antt", "bag/proofs/*.antt", "run/proofs/*.antt"]),
    "write-each": ("write_each_whole", ["state/proofs/*.antt", "store/proofs/checks/*/Proof.antt"]),
    "write-all": ("write_all_whole", ["state/proofs/*.antt"]),
    "take-each": ("take_each_whole", ["state/proofs/*.antt", "store/proofs/checks/*/Proof.antt"]),
    "put-each": ("put_each_whole", ["state/proofs/Walks.antt", "state/proofs/Guards.antt", "store/proofs/checks/*/Proof.antt"]),
    "put-each ": ("put_of_each", ["state/proofs/Joins.antt", "state/proofs/Effects.antt"]),
    "take_all": ("take_all_whole", ["state/proofs/Walks.antt", "state/proofs/Effects.antt", "state/proofs/Guards.antt"]),
    "in_use": ("among_in_use", ["bag/proofs/*.antt", "run/proofs/Checks.antt", "run/proofs/Counted.antt"]),
    "in_use ": ("each_in_use", ["state/specs/Effects.antt", "state/proofs/Effects.antt"]),
    "put-fits": ("one_put_fits", ["run/proofs/Sized.antt"]),
}


def snake(name):
    if name in WORDS:
        return WORDS[name]
    if name in SYMBOLS or name[:1].isupper():
        return name
    return re.sub(r"(?<=[a-z0-9])([A-Z])", lambda one: "_" + one[1].lower(), name.replace("-", "_"))


def declared(text):
    """The names that a file declares, but for the answers that the toolchain asks for."""
    found = [SIGNATURE.match(line) for line in re.sub(r"(?m)(^|\s)--.*$", "", text).splitlines()]
    return [one[1] for one in found if one and not re.match(r"(tie|goal)\.", one[2] or "")]


def turned(text, names, apart, is_code):
    """A text with its names in the new spelling: in a comment only where it is a name past doubt."""

    def word(one):
        name = one[0]
        after_dot = one.start() and text[one.start() - 1] == "."
        if is_code(one.start()):
            return (name if name not in apart or after_dot else apart[name]) if name in apart and not after_dot else names.get(name, name)
        in_span = text[one.start() - 1 : one.start()] == "`" == text[one.end() : one.end() + 1]
        plain = re.fullmatch(r"[a-z]+[A-Z]\w*", name)
        return apart.get(name, names.get(name, name)) if in_span else names.get(name, name) if plain else name

    return TOKEN.sub(word, text)


def antt_code(text):
    shut = [(one.start(), one.end()) for one in re.finditer(r"(?:^|(?<=[\s(){}]))--[^\n]*", text)]
    return lambda at: not any(start <= at < end for start, end in shut)


def rattle_code(text):
    """Of a source file the clauses and the imports for them."""
    kept = [(one.start(), one.end()) for one in re.finditer(r"(?m)^ghost use [^;]*;|(?:requires|ensures)\*? (?:\w+ )?\{(?:[^{}]|\{[^{}]*\})*\}", text)]
    return lambda at: any(start <= at < end for start, end in kept)


def main():
    crates = TOP / "crates"
    proofs = sorted([*crates.glob("*/specs/**/*.antt"), *crates.glob("*/proofs/**/*.antt")])
    names = {}
    for file in proofs:
        names |= {name: snake(name) for name in declared(file.read_text()) if snake(name) != name}
    by_file = collections.defaultdict(dict)
    for name, (new, files) in APART.items():
        for pattern in files:
            for file in crates.glob(pattern):
                by_file[file][name.strip()] = new
    count = 0
    for file in [*proofs, *sorted(crates.glob("*/src/**/*.rt"))]:
        text = file.read_text()
        code = antt_code(text) if file.suffix == ".antt" else rattle_code(text)
        new = turned(text, names, by_file[file], code)
        if new != text:
            file.write_text(new)
            count += 1
    for old, new in sorted(names.items()):
        print(f"{old} {new}")
    print(f"{len(names)} names, in {count} files")


if __name__ == "__main__":
    main()
