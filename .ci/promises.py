"""Holds docs/PROMISES.md and docs/TIGHTNESS.md to the repository.

- A statement is named as `crate/specs/File.antt` `name`, where further names of the same file may follow, each in its own backquotes: the file
  declares them.
- A claim's proof is named as `crate/specs/File.antt` `Claim`, proved as `crate/proofs/File.antt` `name`: that is what `name` has for its type,
  with no premise, and the claim is the one of that very file.
- A must-fail edit is named as `crate!label`: it exists. Every edit is named on one of the pages.

Comments do not count. Prints what does not hold; exit status 1 where something does not, or where a page names nothing.
"""
import pathlib
import re
import sys

from edits import labels
from texts import bare

TOP = pathlib.Path(__file__).resolve().parent.parent
PROVED = re.compile(r"`(\w+)/specs/([\w/]+)\.antt`(?: `[^`]+`)*? `([^`]+)`, proved as `([\w/]+\.antt)` `([^`]+)`")


def declares(text, name):
    """Whether a text declares a name: a definition, a type, a field, a constructor, a function or a constant."""
    marks = r"(?:pub\s+|abbrev\s+|unfoldable\s+|const\s+|extern\s+.C.\s+|fn\s+|struct\s+|enum\s+|record\s+|data\s+)*"
    return re.search(rf"(?m)^\s*{marks}{re.escape(name)}(?![\w'-])", text)


def proves(crate, module, claim, text, name):
    """Whether the text has a proof of that name of the claim of that module."""
    brought = re.findall(rf"(?m)^use Rattle\.{crate}\.specs\.{module.replace('/', '.')}\.\{{([^}}]*)\}}", text)
    claimed = re.search(rf"(?m)^pub {re.escape(name)} : ([^→]*?)\n(?:unfolding |{re.escape(name)} )", text)
    return claim in [one.strip() for one in ",".join(brought).split(",")] and claimed and claimed[1].split()[0] == claim


def faults(page, named):
    """What does not hold of a page; the edits that it names join `named`."""
    text = re.sub(r"(?s)<!--.*?-->", "", page.read_text())
    said = ["a ', proved as' is in another form"] if text.count(", proved as ") != len(PROVED.findall(text)) else []
    for crate, module, claim, proof, name in PROVED.findall(text):
        file = TOP / "crates" / proof
        if not file.exists() or not proves(crate, module, claim, bare(file.read_text()), name):
            said.append(f"{proof} {name} is no proof of {crate}/specs/{module}.antt {claim}")
    names = 0
    for line in text.splitlines():
        file = None
        for piece in re.findall(r"`([^`]+)`", line):
            edit = re.fullmatch(r"(\w+)!([\w-]+)", piece)
            if edit:
                named.add(piece)
                if edit[2] not in labels(TOP / "crates" / edit[1]):
                    said.append(f"no edit {piece}")
            elif re.fullmatch(r"[\w./-]+\.(antt|rt|py|sh|md|txt)|crates/[\w./-]+", piece):
                path = TOP / "crates" / piece if (TOP / "crates" / piece).exists() else TOP / piece
                file = bare(path.read_text()) if path.exists() else None
                if file is None:
                    said.append(f"no file {piece}")
            elif file is not None and re.fullmatch(r"[^\s()]+", piece):
                if not declares(file, piece):
                    said.append(f"{piece} is not in the file named before it: {line.strip()[:120]}")
            else:
                continue
            names += 1
    return (said if names else said + ["it names nothing"]), names


def main():
    wrong, seen, named = [], 0, set()
    for page in ("PROMISES.md", "TIGHTNESS.md"):
        said, names = faults(TOP / "docs" / page, named)
        wrong += [f"{page}: {one}" for one in said]
        seen += names
    for crate in sorted((TOP / "crates").iterdir()):
        wrong += [f"no page names the edit {crate.name}!{label}" for label in labels(crate) if f"{crate.name}!{label}" not in named]
    print("\n".join(wrong) if wrong else f"{seen} names, all there")
    return 1 if wrong else 0


if __name__ == "__main__":
    sys.exit(main())
