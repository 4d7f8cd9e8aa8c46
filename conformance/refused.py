"""What the lists of wrong programs have in common: each wrong one is refused by some case, the right one by none, and no case stands twice."""


def each(what, lines, wrong, passes):
    """Says which of the wrong ones, pairs of a name and what makes it wrong, pass every case of the lines; gives the exit status."""
    said = [f"{len(lines) - len(set(lines))} cases stand twice"] if len(set(lines)) < len(lines) else []
    count = 0
    for name, changes in wrong:
        count += 1
        if passes(changes):
            said.append(f"passes every case: {name}")
    if not passes({}):
        said.append("the right one is refused too")
    print("\n".join(said) if said else f"{count} wrong {what}, each refused")
    return 1 if said else 0
