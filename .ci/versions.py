"""Where this tree names its version, and which of these places differ from CHANGELOG.md, whose newest numbered heading packaging/version prints.

Files have the number of that release. `+next`, which packaging/version puts behind it while there is more, is only in what is made of the tree, and in
the program's own line."""
import functools
import os
import re
import subprocess

TOP = os.path.dirname(os.path.dirname(os.path.abspath(__file__)))
NEXT = "## Not yet released"
HEADING = re.compile(r"## (\d+\.\d+\.\d+), (\d{4}-\d\d-\d\d)")
SONAME = re.compile(r"libinputflinger(?:\.so\.| ?)(\d+)|\bINPUTFLINGER_(\d+)")
# The line of `inputflinger --version`.
OF_PROGRAM = "crates/help_text/src/version.rt"
OF_DIST = ["dist/MANIFEST", "dist/inputflinger.h", "dist/inputflinger.html"]


def text_of(name):
    with open(os.path.join(TOP, name), encoding="utf-8", errors="replace") as file:
        return file.read()


def parts(number):
    """The parts of a number, which compare as versions do."""
    return [int(part) for part in number.split(".")]


@functools.lru_cache(None)
def version():
    """What packaging/version prints."""
    return subprocess.run([os.path.join(TOP, "packaging/version")], stdout=subprocess.PIPE, text=True, check=True).stdout.strip()


@functools.lru_cache(None)
def release():
    """The number of the newest release, and its date."""
    number = version().partition("+")[0]
    date = re.search("^## %s, (.*)$" % re.escape(number), text_of("CHANGELOG.md"), re.M)
    return number, date[1] if date else "no date"


def manifest(key):
    found = re.search("^%s: (.*)$" % re.escape(key), text_of("dist/MANIFEST"), re.M)
    return found[1] if found else "no %s" % key


def macros(numbers):
    values = numbers.partition("+")[0].split(".")
    return [("^#define INPUTFLINGER_VERSION_%s (.*)$" % part, value) for part, value in zip(("MAJOR", "MINOR", "MICRO"), values)]


def wanted(name):
    """What gives a file its version, and the lines that have it: patterns, each with what its group is to be."""
    number, date = release()
    given = "CHANGELOG.md has %s" % number
    if name == "include/inputflinger.h":
        return given, macros(number)
    if name == OF_PROGRAM:
        return "packaging/version prints %s" % version(), [(r'^pub const VERSION: &str = "inputflinger (.*)\\n";$', version())]
    if name in ("rust/inputflinger/Cargo.toml", "rust/inputflinger/Cargo.lock"):
        return given, [('^name = "inputflinger"\nversion = "(.*)"$', number)]
    if name.startswith("man/"):
        return "%s, %s" % (given, date), [(r"^\.TH \S+ \d (.*)$", '%s "inputflinger %s"' % (date, number))]
    if name == "dist/inputflinger.h":
        return "dist/MANIFEST has %s" % manifest("version"), macros(manifest("version"))
    if name == "dist/inputflinger.html":
        return "dist/MANIFEST has %s" % manifest("page.version"), [('id="program-version">([^<]*)', manifest("page.version"))]
    return "", []


def broken_headings(lines):
    """Headings that are of no release, or not in their order, the newest first."""
    above = None
    for number, line in enumerate(lines, 1):
        found = HEADING.fullmatch(line)
        if found:
            here = parts(found[1]), found[2]
            if above and (here[0] >= above[0] or here[1] > above[1]):
                yield number, "%s stands below one that is not newer" % line
            above = here
        elif line.startswith("## ") and (above or line != NEXT):
            yield number, '%s is not of the form "## 1.2.3, 2026-01-31"' % line
    if not above:
        yield 1, "no release has a heading"


def newer_than_tree(text):
    """Lines of MANIFEST with a version that is above the tree's. An older one is that of a dist/ which was not made anew yet."""
    for number, line in enumerate(text.split("\n"), 1):
        found = re.match(r"(?:page\.)?version: (\d+\.\d+\.\d+)(\+next)?$", line)
        if re.match(r"(page\.)?version:", line) and not (found and parts(found[1]) <= parts(release()[0])):
            yield number, "%s, but CHANGELOG.md has %s" % (line, release()[0])


def names():
    """The files that are looked at: what names the soname may be any of them, and of dist/ there are three."""
    for where, folders, files in os.walk(TOP):
        folders[:] = sorted(f for f in folders if f not in (".git", "out", "target", "build", "__pycache__") and (where != TOP or f not in ("crates", "dist")))
        yield from (os.path.relpath(os.path.join(where, name), TOP) for name in sorted(files) if os.path.isfile(os.path.join(where, name)))
    yield OF_PROGRAM
    yield from (name for name in OF_DIST if os.path.exists(os.path.join(TOP, name)))


def line_at(text, at):
    """The number of the line at a place of a text, and the line."""
    return text.count("\n", 0, at) + 1, text[text.rfind("\n", 0, at) + 1 :].split("\n", 1)[0]


def broken(name):
    """The lines of a file that differ from the version, each with what differs."""
    text = text_of(name)
    if name == "CHANGELOG.md":
        yield from broken_headings(text.split("\n"))
        return
    if name == "dist/MANIFEST":
        yield from newer_than_tree(text)
    given, lines = wanted(name)
    for pattern, value in lines:
        places = list(re.finditer(pattern, text, re.M))
        if not places:
            yield 1, "no line has the form %s, but %s" % (pattern, given)
        for place in places:
            if place[1] != value:
                number, line = line_at(text, place.start(1))
                yield number, "%s, but %s" % (line, given)
    for place in SONAME.finditer(text) if name not in OF_DIST else []:
        if (place[1] or place[2]) != release()[0].split(".")[0]:
            yield line_at(text, place.start())[0], "%s, but CHANGELOG.md has %s" % (place[0], release()[0])
