"""Holds each must-fail edit to the place where it must fail: tries each one in a copy of the crates, and reads what the check says.

An edit file has one wrong function or definition, or several that are checked at once. Each has a label, and what must fail. Of a wrong function
that is its proof, named as the folder of its files, whether or not it has files, or the proof of a closure in its body that has clauses, `proofs/fn/FUNCTION/NAME`. Of a wrong definition it is a declaration, named after its file:
`proofs/FILE.antt NAME`. It may also be a goal of a function's proof, `proofs/FUNCTION GOAL`.

    wrong: LABEL
    fails: proofs/FUNCTION
    file: src/lib.rt
    old: TEXT
    new: TEXT

`rt ci` tells only that the whole was refused. Here what stands under `fails:` must fail by itself, and by a fact: an error says that a fact fails (see
`FACT`), or a goal is left that the toolchain's own search does not prove. That the proof no longer fits the code, as it may of a right program too, is no
fact; nor is it one that a goal is left whose answer is lost, since a test in the code has another name now, unless the check knows values at which the goal
is false. (A right program that is written another way can be refused by a fact too, so what an edit's words say is for the reader to see.)

- A wrong function is one change of the body of the very function whose proof it names, and has the same locals: nothing is renamed or moved. No
  two of a file are of the same function, and nothing else fails by itself. A function's proof rests on its own body and on the contracts of what it
  calls, so the other wrong bodies have no part in it. (A wrong constant has a file of its own.)
- Of several wrong definitions in a file, the declaration that must fail can see its own change and none of the others: they are in no definition
  that it names or unfolds, nor in the statement of a law that it cites, nor in what these name (`reads` of texts.py).

    python3 .ci/edits.py [CRATE..]

As many checks run side by side as there are processors, or RT_JOBS. What each said is left in target/edits/CRATE/EDIT.log. Prints what does not hold; exit
status 1 where something does not, or where there is no edit.
"""
import collections
import concurrent.futures
import dataclasses
import os
import pathlib
import queue
import re
import shutil
import subprocess
import sys
import tempfile

from texts import declarations, reads

TOP = pathlib.Path(__file__).resolve().parent.parent
LOGS = TOP / "target" / "edits"
# two types, sides or values differ; `search`, `omega`, `grind`, `rw`, `simp` or `cc` does not reach its goal
# what the check says of a function, and of a closure with clauses, that it proved
PROVED = ("proved", "proved where its callers give what it asks")
FACT = re.compile(
    r"the two (types|sides|values) (?!are identical)|expected type | ≟ .* does not hold |"
    r"`(search|omega|grind)`: (no proof of|the goal|the part) |give a proof of that |list the missing equation "
)
# what the proof names is gone
LOST = re.compile(r" has no field |that can be named from here|is not in scope")
# what a proof takes for a loop's invariant or measure: an error there says that the loop has other variables
TAKEN = ("invariant-", "decreases-")
# the files of a function's proof
FILES = ("Answers.antt", "Invariants.antt", "Proof.antt")


@dataclasses.dataclass
class Wrong:
    """A wrong function or definition: its label, what must fail, and its changes, each a file, the old text and the new."""

    label: str
    fails: str = ""
    changes: list = dataclasses.field(default_factory=list)

    def of_code(self):
        return any(file.startswith("src/") for file, _, _ in self.changes)


def wrongs(edit):
    """What an edit file has. A line that is none of the form ends it with a nameless one."""
    found = []
    file = ""
    begun = False
    for line in edit.read_text().splitlines():
        key, _, value = line.partition(":")
        value = value.removeprefix(" ")
        if not line or line.startswith("# "):
            begun = begun and bool(line)
        elif key == "wrong":
            found.append(Wrong(value))
            begun = True
        elif not begun or key not in ("fails", "file", "old", "new"):
            return found + [Wrong("")]
        elif key == "fails":
            found[-1].fails = value
        elif key == "file":
            file = value
        elif key == "old":
            found[-1].changes.append([file, value, ""])
        else:
            found[-1].changes[-1][2] = value
    return found


def edits(crate):
    return sorted((crate / "must-fail").glob("*.edit"))


def labels(crate):
    """The labels of a crate's wrong functions and definitions."""
    return [one.label for edit in edits(crate) for one in wrongs(edit)]


def changed(crate, found):
    """What an edit makes of a crate's files, by file; nothing where an old text is not there once at its turn."""
    texts = {}
    for file, old, new in (change for one in found for change in one.changes):
        text = texts[file] if file in texts else (crate / file).read_text()
        if text.count(old) != 1:
            return {}
        texts[file] = text.replace(old, new)
    return texts


def check(crate):
    """What a check of a crate says, and whether it proves the crate: None where it does not tell."""
    said = ""
    # a second time where it was killed, say for memory
    for _ in range(2):
        ran = subprocess.run(
            ["rt", "check", "--jobs", "1"], cwd=crate, stdin=subprocess.DEVNULL, stdout=subprocess.PIPE, stderr=subprocess.STDOUT, text=True, errors="replace"
        )
        said = ran.stdout
        if ran.returncode == 0 and re.search(r"(?m)^logic=proved ", said):
            return said, True
        if ran.returncode == 1 and re.search(r"(?m)^logic=not-proved$", said):
            return said, False
    return said, None


def tries(name, trees):
    """What the check says of a crate with each of its edits, by edit, in one of the trees; None where it refuses the crate as it stands."""
    tree, crate, said = trees.get(), TOP / "crates" / name, {}
    try:
        here = tree / "crates" / name
        # the edits begin with what this check keeps
        if not check(here)[1]:
            return None
        for edit in edits(crate):
            texts = changed(crate, wrongs(edit))
            for file, text in texts.items():
                (here / file).write_text(text)
            said[edit] = check(here) if texts else ("", None)
            for file in texts:
                shutil.copyfile(crate / file, here / file)
            log = LOGS / name / f"{edit.stem}.log"
            log.parent.mkdir(parents=True, exist_ok=True)
            log.write_text(said[edit][0])
        return said
    finally:
        trees.put(tree)


def refused(said):
    """What a check refuses by itself, not for what it rests on: by the proof of a function or a file, its goals or declarations, and whether by a fact."""
    # where two types are the same as printed, the next line tells how they differ; two sides that do not agree have a line each
    lines = re.sub(r"(are identical .*)\n  |\n  (?=≟ )|(?<=`)\n  (?=does not hold )", r"\1 ", said).splitlines()
    verdicts = [re.match(r"(?:fn|struct|enum) \w+::(\S+): (.*)", line) for line in lines]
    functions = {"proofs/" + one[1].replace("::", "/") for one in verdicts if one}
    found, lost, rests, left = collections.defaultdict(dict), set(), set(), []

    def fails(place, name, fact):
        found[place][name] = found[place].get(name, False) or fact

    for line, verdict in zip(lines, verdicts):
        error = re.match(r"(?:\./)?(\S+?):\d+:\d+: error: (?:`([^`]*)`: )?(.*)", line)
        goal = re.match(r"note: src/\S+: it is not proved that .*?\(`([^`]*)`\)(.*)", line)
        if error:
            file, name, what = error[1], error[2] or "", error[3]
            folder, _, last = file.rpartition("/")
            # the folder of a function that calls itself has a + before its name
            folder = folder.replace("/+", "/")
            place = folder if folder in functions and last in FILES else file
            if not name and re.match(r"\d+ declarations? that depends? on ", what):
                rests.add(place)
                continue
            if LOST.search(what):
                lost.add(place)
            fails(place, name, bool(FACT.search(what)) and not name.startswith(TAKEN))
        elif goal:
            left.append((goal[1], "at which this goal is false" in goal[2]))
        elif verdict:
            place = "proofs/" + verdict[1].replace("::", "/")
            for name, is_false in left:
                fails(place, name, is_false or place not in lost)
            if verdict[2] not in PROVED and "it calls " not in verdict[2] and place not in {*found, *rests}:
                fails(place, "", False)
            left = []
    return found


def proof_of(crate, file, text):
    """The proof of the function of a source file whose body alone has a text."""
    source = (crate / file).read_text()
    module = pathlib.Path(file).stem
    folders = ["proofs"] if module in ("lib", "main") else ["proofs", module]
    found = []
    for one in re.finditer(r"(?ms)^( *)[^\n]*\bfn (\w+)\b(?:[^\n]*|.*?^\1)\{\n(.*?)^\1\}$", source):
        if text in one[3]:
            # of a trait `impl Tr<A> for T` it is `TTrA`
            impls = re.findall(r"(?m)^impl (?:(\w+)(?:<(\w+)>)? for )?(\w+)", source[: one.start()])[-1:] if one[1] else []
            types = ["".join(word[:1].upper() + word[1:] for word in (name, trait, of)) for trait, of, name in impls]
            found.append("/".join([*folders, *types, one[2]]))
    return found[0] if len(found) == 1 and source.count(text) == 1 else None


def of_place(proof, fails):
    """Whether a place is a function's proof, or that of a closure in its body, which has a contract of its own."""
    return proof is not None and (fails == proof or fails.startswith(proof.replace("proofs/", "proofs/fn/", 1) + "/"))


def of_functions(crate, found, failing):
    """What does not hold of a file's wrong functions."""
    named = [one.fails for one in found]
    said = [f"two of them name {name}" for name in sorted(set(named)) if named.count(name) > 1]
    said += [f"{place} fails too, and none of them names it" for place in sorted(set(failing) - set(named))]
    for one in found:
        (file, old, new), *more = one.changes
        if more or old.count("let ") != new.count("let "):
            said.append(f"{one.label}: it is more than one change, or has other locals")
        elif not of_place(proof_of(crate, file, old), one.fails) and not (len(found) == 1 and "const " in old):
            said.append(f"{one.label}: {file} is changed outside of the function that {one.fails} proves")
    return said


def of_definitions(crate, found):
    """What does not hold of a file's wrong definitions."""
    said = [f"{one.label}: it names no declaration" for one in found if " " not in one.fails]
    if said or len(found) == 1:
        return said
    declared = declarations([*crate.glob("specs/**/*.antt"), *crate.glob("proofs/**/*.antt")])
    for one in found:
        file, name = one.fails.split()
        text = reads(declared, (crate / file, name))
        others = [other.label for other in found if other is not one and any(old in text for _, old, _ in other.changes)]
        if others:
            said.append(f"{one.label}: {name} can see what {', '.join(others)} changes: give it a file of its own")
        if not file.endswith(".antt") or not all(old in text for _, old, _ in one.changes):
            said.append(f"{one.label}: the declarations do not tell that {name} sees its change: give it a file of its own")
    return said


def faults(crate, edit, said, proved):
    """What does not hold of an edit file, by what the check said with it."""
    found = wrongs(edit)
    if not found or not all(one.label and one.fails and one.changes for one in found):
        return ["it lacks a label, what must fail, or a change"]
    if not all(file.startswith(("src/", "specs/")) for one in found for file, _, _ in one.changes):
        return ["it changes a proof"]
    if len({one.of_code() for one in found}) > 1:
        return ["it has both wrong functions and wrong definitions"]
    if not changed(crate, found):
        return ["an old text is not there once"]
    if proved is not False:
        return ["it is proved" if proved else "the check does not tell"]
    failing = refused(said)
    said = [f"{place} cannot be read" for place in failing if place.startswith(("src/", "specs/"))]
    for one in found:
        place, _, name = one.fails.partition(" ")
        facts = {goal: fact for goal, fact in failing.get(place, {}).items() if name in ("", goal)}
        if not facts:
            said.append(f"{one.label}: {one.fails} does not fail by itself, as these do: {', '.join(failing)}")
        elif not any(facts.values()):
            said.append(f"{one.label}: {one.fails} fails, but by no fact: {', '.join(facts)}")
    return said + (of_functions(crate, found, failing) if found[0].of_code() else of_definitions(crate, found))


def main(names):
    crates = [crate for crate in sorted((TOP / "crates").iterdir()) if edits(crate) and (not names or crate.name in names)]
    count = sum(len(labels(crate)) for crate in crates)
    number = int(os.environ.get("RT_JOBS") or len(os.sched_getaffinity(0)))
    wrong, trees = [], queue.Queue()
    shutil.rmtree(LOGS, ignore_errors=True)
    # outside the repository, where no check of it meets these files
    with tempfile.TemporaryDirectory(prefix="edits-") as room:
        for place in range(number):
            tree = pathlib.Path(room) / str(place)
            shutil.copytree(TOP / "crates", tree / "crates", ignore=shutil.ignore_patterns("out", "must-fail"))
            for file in ("crates.txt", "HANDLES"):
                if (TOP / file).exists():
                    shutil.copyfile(TOP / file, tree / file)
            trees.put(tree)
        with concurrent.futures.ThreadPoolExecutor(number) as pool:
            # those with most to try first
            longest = sorted(crates, key=lambda crate: -len(labels(crate)))
            tried = {crate: pool.submit(tries, crate.name, trees) for crate in longest}
    for crate in crates:
        here, said = labels(crate), tried[crate].result()
        wrong += [f"{crate.name}: two are called {label}" for label in sorted(set(here)) if here.count(label) > 1]
        wrong += [f"{crate.name}: it is not proved as it stands"] if said is None else []
        for edit, (text, proved) in (said or {}).items():
            wrong += [f"{crate.name}/{edit.name}: {one}" for one in faults(crate, edit, text, proved)]
    print("\n".join(wrong) if wrong else f"{count} wrong functions and definitions, each refused where it must be")
    return 1 if wrong or not count else 0


if __name__ == "__main__":
    sys.exit(main(sys.argv[1:]))
