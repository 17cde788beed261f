"""What crates.txt says: the floors from the lowest to the highest, each with its crates, and of each crate the crates that it lists."""
import os
import re

TOP = os.path.dirname(os.path.dirname(os.path.abspath(__file__)))
HEADING = re.compile(r"^# (\w+)$")
WORD = re.compile(r"\bRattle\.(\w+)\.|\b(\w+)(?:::|!)")


class Crate:
    """A line of crates.txt: its number, the floor above it, the name of the crate, and the names that it lists."""

    def __init__(self, number, floor, line):
        before, _, behind = line.partition(":")
        self.number, self.floor, self.name, self.uses = number, floor, before.split()[0], behind.split()


def read():
    """The crates in their order."""
    floor = ""
    with open(os.path.join(TOP, "crates.txt"), encoding="utf-8") as file:
        for number, line in enumerate(file, 1):
            heading = HEADING.match(line.rstrip())
            floor = heading.group(1) if heading else floor
            line = line.partition("#")[0].strip()
            if line:
                yield Crate(number, floor, line)


def sources(name):
    """The files of a crate in which it can cite another one."""
    for where, folders, names in os.walk(os.path.join(TOP, "crates", name)):
        folders[:] = [folder for folder in folders if folder != "out"]
        yield from (os.path.join(where, file) for file in names if file.endswith((".rt", ".antt")))


def cited(name):
    """The words of a crate's code, clauses, definitions and proofs that may name a crate; comments do not count."""
    words = set()
    for path in sources(name):
        with open(path, encoding="utf-8") as file:
            text = file.read()
        text = re.sub(r"//.*", "", text) if path.endswith(".rt") else re.sub(r"(?m)^ *--.*", "", text)
        words.update(word for pair in WORD.findall(text) for word in pair if word)
    return words


def broken():
    """What is wrong with crates.txt, each with the number of a line."""
    crates = list(read())
    lines = {crate.name: crate for crate in crates}
    folders = {name for name in os.listdir(os.path.join(TOP, "crates")) if os.path.isdir(os.path.join(TOP, "crates", name, "src"))}
    for name in sorted(folders - set(lines)):
        yield 1, "the folder crates/%s has no line" % name
    for crate in crates:
        if lines[crate.name] is not crate:
            yield crate.number, "%s has two lines" % crate.name
        if crate.name not in folders:
            yield crate.number, "%s has no folder with a src/" % crate.name
            continue
        if not crate.floor:
            yield crate.number, "%s stands under no heading" % crate.name
        words = cited(crate.name)
        for use in crate.uses:
            if use not in words:
                yield crate.number, "%s lists %s, which nothing in it cites" % (crate.name, use)
            if use in lines and lines[use].number >= crate.number:
                higher = "of the higher floor" if lines[use].floor != crate.floor else "further down on its floor,"
                yield crate.number, "%s stands on %s %s %s" % (crate.name, use, higher, lines[use].floor)


def reduced():
    """Of each crate those that it stands on without another one between, in the order of crates.txt."""
    crates = {crate.name: crate for crate in read()}
    below = {}
    for crate in crates.values():
        below[crate.name] = set().union(*({use} | below[use] for use in crate.uses if use in below))
    for crate in crates.values():
        uses = [use for use in crate.uses if use in crates]
        between = set().union(*(below[use] for use in uses))
        yield crate, sorted(set(uses) - between, key=lambda use: crates[use].number)
