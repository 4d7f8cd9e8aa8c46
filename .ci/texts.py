"""What the checks of .ci/ read of the crates' texts."""
import collections
import dataclasses
import re

COMMENT = re.compile(r"(?s)\{-.*?-\}|/\*.*?\*/|(?m-s:(?:^|(?<=\s))(?:--|//).*$)")
SIGNATURE = re.compile(r" *((?:(?:unfoldable|abbrev|pub|axiom|record|data) )*)([^\s(){};,:]+)(?: \{[^}]*\}| \([^)]*\))* :(?: |$)")


def bare(text):
    """A text of Rattle or antt without its comments."""
    return COMMENT.sub("", text)


@dataclasses.dataclass
class Declaration:
    """A declaration of antt: whether other files can name it, what whoever names it sees, and what only those see that unfold it."""

    public: bool = False
    seen: str = ""
    shut: str = ""


def declarations(files):
    """The declarations of antt files by file and name.

    A declaration goes on to the next signature that stands no further in: its fields and local functions are part of it. The clauses of a
    definition are shut, unless it is an `abbrev`. What heads a section is seen of all that its file declares. A constructor, and a name brought
    in under another, is seen as what it belongs to.
    """
    found = collections.defaultdict(Declaration)
    for file in files:
        name, marks, depth, clauses, heads = "", "", 0, False, ""
        for line in bare(file.read_text()).splitlines():
            start = line.lstrip()
            signature = SIGNATURE.match(line)
            if re.match(r"(unfoldable )?(pub )?(use|mod) ", start):
                for old, new in re.findall(r"([^\s.{]+) as ([^\s,}]+)", line):
                    found[file, new].seen += f" {old}\n"
                continue
            if start and (not name or len(line) - len(start) <= depth):
                if start.startswith("module "):
                    name = ""
                elif signature:
                    marks, name = signature.groups()
                    depth, clauses = len(line) - len(start), False
                    found[file, name].public |= "pub" in marks
                else:
                    clauses = True
            elif signature and "data" in marks:
                found[file, signature[2]].public = True
                found[file, signature[2]].seen += f" {name}\n"
            if not name:
                heads += line + "\n"
            elif clauses and "abbrev" not in marks:
                found[file, name].shut += line + "\n"
            else:
                found[file, name].seen += line + "\n"
        for place in found:
            if place[0] == file:
                found[place].seen += heads
    return found


def words(text):
    """The names in an antt text: of a path or a field each part, of an operator what stands between its places."""
    return {word for token in re.split(r"[\s(){};,.«»]+", text) for word in re.split("◌+", token) if word}


def reads(declared, place):
    """All that the checker can look at when it checks a declaration: what is seen of each that is named, and what is shut of each that it unfolds."""
    spelt = collections.defaultdict(set)
    for known in declared:
        for word in words(known[1]):
            spelt[word].add(known)

    def named(text, file):
        return {known for word in words(text) for known in spelt[word] if known[0] == file or declared[known].public}

    opened = [place]
    for here in opened:
        lines = re.findall(r"(?m)\bunfold(?:ing)? (.*?)(?: in\b|$)", declared[here].seen + declared[here].shut)
        opened += named(" ".join(lines), here[0]) - set(opened)
    known, text = [place], ""
    for here in known:
        sees = declared[here].seen + (declared[here].shut if here in opened else "")
        text += sees
        known += named(sees, here[0]) - set(known)
    return text
