"""Holds crates/outcomes and docs/TIGHTNESS.md to what the libraries export: each public function has its entry in both, and nothing else has.

A public function is what another crate can name: the toolchain writes it into the proved library under its whole path, modules and type
included. Its contract must tell something; `Outcomes` or `Exported` must have one entry of it, in one of two forms (one is of what the toolchain
reads of the contract, the other of the contract's clauses; look, whose result is a part of the lent store, has two fields of its own); and the page must have one row that begins with its path, names that entry, and has
two wrong answers or more. Nothing in a static library can be named by another crate: each of its functions must have, word for word, the signature
and the clauses of a function of one library, and each of that library's functions must be there. Runs after the proofs. Prints what does not hold;
exit status 1 where something does not.
"""
import collections
import json
import pathlib
import re
import sys

from texts import bare

TOP = pathlib.Path(__file__).resolve().parent.parent
RECORDS = {"Outcomes": "Outcomes : Type 1", "Exports": "Exported : Type 2"}
# of what the toolchain reads of a contract; and of the clauses, of which alone a function that is lent a struct may be proved
TIGHT = "Tight {0}.ended {0}Reads.Asked {0}Reads.Learnt"
# the same of a function with a length in its type, at each length that an array may have
TIGHT_AT = "(N : ℕ) (f : Fits w64 N) → N < 2 ^ 63 → Tight ({0}.ended (number N)) ({0}Reads.Asked N f) ({0}Reads.Learnt N f)"
LENT = "TightLent {0}.ended (λ M 𝓤. {0}.clauses {{M = M}} {{𝓤 = 𝓤}})"

# whose result is a part of the lent store
PARTS = ("store::look", "entries::value_part")
PART = [
    "(κs : Lfts 1) (a : Args {0}.signature κs) (r r' : Res {0}.signature κs) (e e' : AtExit {0}.ended κs)"
    " → {0}Reads.Learnt κs a r e → {0}Reads.Learnt κs a r' e' → (r.now ≡ r'.now) × (r.ref_ptr ≡ r'.ref_ptr)",
    "(κs : Lfts 1) (a : Args {0}.signature κs) → {0}Reads.Asked κs a",
]


def heads(crate):
    """The public functions of a crate's root file: each name with its signature and clauses, and what these import."""
    text = bare((TOP / "crates" / crate / "src/lib.rt").read_text())
    found = re.findall(r'(?ms)^pub (?:extern "C" )?fn (\w+)(.*?)^\{', text)
    imports = set(re.findall(r"(?ms)^ghost use .*?;$", text))
    return {name: re.sub(r",?\s*([()])\s*", r"\1", " ".join(head.split())) for name, head in found}, imports


def static_libraries():
    """What does not hold of the static libraries."""
    crates = (TOP / "crates.txt").read_text()
    wrong = [f"crates.txt has a line of another form: {line}" for line in re.findall(r"(?m)^(?!#|\s*$|\w+(?: staticlib)?:).+$", crates)]
    for crate, below in re.findall(r"(?m)^(\w+) staticlib:(.*)$", crates):
        mine = heads(crate)
        same = [one for one in below.split() if (TOP / "crates" / one).exists() and heads(one)[0].keys() == mine[0].keys()]
        if len(same) != 1 or heads(same[0])[1] != mine[1]:
            wrong.append(f"{crate} has not the functions and the `ghost use` lines of one library that it uses")
        else:
            wrong += [f"{crate}::{name} has another contract than {same[0]}::{name}" for name, head in mine[0].items() if heads(same[0])[0][name] != head]
    return wrong


def functions():
    """The public functions of the libraries by their paths, each with whether its contract tells something (None: the toolchain does not read it)."""
    found = {}
    for crate in re.findall(r"(?m)^(\w+):", (TOP / "crates.txt").read_text()):
        if not (TOP / "crates" / crate / "src/lib.rt").exists():
            continue
        made = TOP / "crates" / crate / "out/rlib" / f"{crate}.rlib" / "lang/antt/made.json"
        # a module is a line with its name, and what it is in the lines up to the next
        modules, name = collections.defaultdict(str), ""
        for line in made.read_text().splitlines() if made.exists() else []:
            name = json.loads(line) if line.startswith('"') else name
            modules[name] += line
        if "facade/proofs" not in modules:
            found[crate] = False
        for name in list(modules):
            # (that of an `impl` is no function)
            statement = re.fullmatch("facade/proofs/(.+)/Statement", name)
            if statement and not name.endswith("/TheImpl/Statement"):
                reads = modules.get(f"proofs/{statement[1]}/Reads")
                found["::".join((crate, *statement[1].split("/")))] = reads and '"ensures":[{' in reads
    return found


def entries(file):
    """The names that a file of entries has for modules, each with the module's path, and its record's fields: name and type."""
    text = bare((TOP / f"crates/outcomes/specs/{file}.antt").read_text())
    record = text.partition(f"pub record {RECORDS[file]} where\n")[2]
    fields = [(name, " ".join(of.split())) for name, of in re.findall(r"(?m)^  pub (\S+) : (.*(?:\n {3,}.*)*)", record)]
    return {short: whole for whole, short in re.findall(r"(?m)^use Rattle\.(\S+) as (\S+)$", text)}, fields


def main():
    held = {file: entries(file) for file in RECORDS}
    page = re.sub(r"(?s)<!--.*?-->", "", (TOP / "docs/TIGHTNESS.md").read_text())
    rows = re.findall(r"(?m)^\| `(\w+(?:::\w+)+)` \| .+ \| `outcomes/specs/(\w+).antt` `(\S+)` \| (.+) \|$", page)
    public = functions()
    wrong = [f"docs/TIGHTNESS.md has a row of {path}, which is no public function" for path, *_ in rows if path not in public]
    wrong += static_libraries()
    for path, tells in sorted(public.items()):
        crate, *inner = path.split("::")
        file = "Exports" if crate in ("held", "exports") else "Outcomes"
        names, fields = held[file]
        contract, reads = ".".join((crate, "specs.contracts", *inner)), ".".join((crate, "proofs", *inner, "Reads"))
        short = [short for short, whole in names.items() if whole == contract]
        read = [one for one in short if names.get(f"{one}Reads") == reads]
        if path in PARTS:
            mine = [name for one in read for form in PART for name, of in fields if of == form.format(one)]
            mine = mine[:1] if len(mine) == len(PART) else []
        else:
            forms = [LENT.format(one) for one in short] + [form.format(one) for one in read for form in (TIGHT, TIGHT_AT)]
            mine = [name for name, of in fields if of in forms]
        row = [row for row in rows if row[0] == path]
        if tells is False:
            wrong.append(f"{path} has no contract, or its library is not proved")
        if len(mine) != 1:
            wrong.append(f"crates/outcomes has no entry of {path}, or more than one")
        elif len(row) != 1 or row[0][1:3] != (file, mine[0]):
            wrong.append(f"docs/TIGHTNESS.md has not one row of {path} with its entry {mine[0]}")
        elif len(set(re.findall(r"`\w+!\w+`", row[0][3]))) < 2:
            wrong.append(f"docs/TIGHTNESS.md has fewer than two wrong answers of {path}")
    print("\n".join(wrong) if wrong else f"{len(public)} public functions, each with its entry")
    return 1 if wrong or not public else 0


if __name__ == "__main__":
    sys.exit(main())
