"""Which functions the program and the library run, read off the sources and not off types: from `main` of the program and the exports of
the library for C, a function reaches each function that its body may call. `name(..)` and `Type::name(..)` may call what has this name, and
a function that is handed on by its name is called too. A call reaches into the crate itself and into those that it lists, it has as many
arguments as the function takes, and a call of a method reaches another crate only where the crate that calls names the method's type, or
the trait that the method is of.

What is found may be more than what runs: of two methods with one name, one number of arguments, and types that the same crate names, a call
reaches both. Not seen are calls that the language makes by itself, as that of `next` by a `for`, and those that a crate below makes through a
trait of its own. Comments, clauses and the crates of the floor of tests do not count."""
import collections
import functools
import os
import re

import floors

TOP = os.path.dirname(os.path.dirname(os.path.abspath(__file__)))
TESTS = ("witness", "tests")
BLOCK = re.compile(r"^(?:pub )?(?:impl|trait)\b([^{\n]*)\{(?!\})", re.M)
FUNCTION = re.compile(r'^( *)(?:pub(?:\(\w+\))? )?(?:unsafe )?(?:extern "C" )?fn (\w+)', re.M)
CALL = re.compile(r"(?:\b(\w+)::)?\b(\w+)(?:::<[^>(]*>)?\(")
HANDED = re.compile(r"[(,] *(\w+)(?=[,)])")

Function = collections.namedtuple("Function", "crate owner trait name takes body")


def owner_at(text, blocks, at):
    """The type of the `impl`, or the trait, around a place, and the trait that the `impl` is of."""
    ends = [block.start() for block in blocks[1:]] + [len(text)]
    for block, end in zip(blocks, ends):
        if block.start() < at < end:
            head = block.group(1)
            while re.search(r"<[^<>]*>", head):
                head = re.sub(r"<[^<>]*>", "", head)
            trait, _, owner = head.rpartition(" for ")
            return re.match(r"\w*", owner.strip()).group(), re.match(r"\w*", trait.strip()).group()
    return "", ""


def arguments(text, at, opens="([{", ends=")]}"):
    """The arguments between the bracket that opens at this place and its end, and where that is. In a function's head `<` and `>` are
    brackets too, but for those of `->`; in a call they may compare."""
    depth, first, found = 0, at + 1, []
    for place in range(at, len(text)):
        letter = text[place]
        if letter in opens:
            depth += 1
        elif letter in ends and text[place - 1 : place + 1] != "->":
            depth -= 1
        if depth == 0 or (depth == 1 and letter == ","):
            if text[first:place].strip():
                found.append(text[first:place].strip())
            first = place + 1
        if depth == 0:
            return found, place
    return found, len(text)


def behind_types(text, at):
    """Where the arguments of a function begin whose name ends at this place: behind its type parameters."""
    depth = 0
    while text[at] != "(" or depth:
        depth += {"<": 1, ">": -1}.get(text[at], 0) if text[at - 1] != "-" else 0
        at += 1
    return at


def functions_of(crate):
    """The functions of a crate, and the names of types that its sources have."""
    found, words = [], set()
    for path in floors.sources(crate):
        if "/src/" not in path or not path.endswith(".rt"):
            continue
        with open(path, encoding="utf-8") as file:
            text = re.sub(r"//.*", "", file.read())
        words.update(re.findall(r"\b[A-Z]\w+", text))
        blocks, heads = list(BLOCK.finditer(text)), list(FUNCTION.finditer(text))
        for head, next_head in zip(heads, [*heads[1:], None]):
            indent, name = head.groups()
            takes, end = arguments(text, behind_types(text, head.end()), "([{<", ")]}>")
            rest = text[end : next_head.start() if next_head else len(text)]
            body = re.search(r"^%s\{" % indent, rest, re.M) or re.search(r"\{", rest)
            owner, trait = owner_at(text, blocks, head.start()) if indent else ("", "")
            takes = [argument for argument in takes if not re.match(r"&?(?:'\w+ )?(?:mut )?self\b", argument)]
            found.append(Function(crate, owner, trait, name, len(takes), rest[body.start() :] if body else ""))
    return found, words


@functools.lru_cache(None)
def reached():
    """What is reached: each function as its crate, the type or the empty word, and its name."""
    crates = {crate.name: crate for crate in floors.read() if crate.floor not in TESTS}
    read = {name: functions_of(name) for name in crates}
    named = collections.defaultdict(list)
    for functions, _ in read.values():
        for function in functions:
            named[function.name].append(function)
    waiting = [it for it in read["inputflinger_main"][0] if it.name == "main"]
    waiting += [it for it in read["inputflinger_c"][0] if it.name.startswith("inputflinger_")]
    seen = set()
    while waiting:
        caller = waiting.pop()
        if caller in seen:
            continue
        seen.add(caller)
        # The variables of a closure are no arguments.
        body = re.sub(r"\|[\w, &]*\|", "", caller.body)
        calls = [(found.group(1), found.group(2), found) for found in CALL.finditer(body)]
        calls += [(None, found.group(1), None) for found in HANDED.finditer(body)]
        for before, name, call in calls:
            if name not in named:
                continue
            count = len(arguments(body, call.end() - 1)[0]) if call else None
            for it in named[name]:
                near = it.crate == caller.crate
                if not near and it.crate not in crates[caller.crate].uses:
                    continue
                if it.owner and not near and not {it.owner, it.trait} & read[caller.crate][1]:
                    continue
                if it.owner and before and before[0].isupper() and before not in ("Self", it.owner, it.trait):
                    continue
                # A method that is called by its type's name takes the value itself as one argument more.
                if count is not None and count not in (it.takes, it.takes + 1 if before else it.takes):
                    continue
                if not call and it.owner:
                    continue
                waiting.append(it)
    return {(it.crate, it.owner, it.name) for it in seen}
