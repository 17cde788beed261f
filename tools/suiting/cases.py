"""The cases of a folder: which there are, and which of them are run."""
import fnmatch
import os
import re

# A folder is a case where one of these stands in it.
SESSION, WORDS = "session.toml", "words"
REPLAY = ["replay", "--session", SESSION, "--events", "recording.txt"]


class Failed(Exception):
    """What keeps the suite from being run, or a case from being tried, as one line."""


def bytes_of(path):
    try:
        with open(path, "rb") as file:
            return file.read()
    except OSError as error:
        raise Failed("%s: %s" % (path, error.strerror)) from None


class Case:
    """A case by its name, which is its path below the folder of the suite, with / between its parts."""

    __slots__ = ("name", "folder")

    def __init__(self, name, folder):
        self.name, self.folder = name, folder

    def path(self, name):
        return os.path.join(self.folder, name)

    def words(self):
        """The words of the program: those of the file `words`, one a line, else those of a replay."""
        if not os.path.exists(self.path(WORDS)):
            return REPLAY
        text = bytes_of(self.path(WORDS)).decode("utf-8", "surrogateescape")
        return text[: -1 if text.endswith("\n") else None].split("\n")

    def wanted(self):
        """The text that is wanted, or None where nothing says it."""
        try:
            return bytes_of(self.path("wanted.txt"))
        except Failed:
            if os.path.exists(self.path("wanted.txt")):
                raise
            return None

    def status(self):
        if not os.path.exists(self.path("status")):
            return 0
        text = bytes_of(self.path("status")).strip()
        if not re.fullmatch(rb"[0-9]{1,3}", text):
            raise Failed("%s: not a status: %r" % (self.path("status"), text[:20].decode("ascii", "replace")))
        return int(text)

    def accept(self, text, status):
        """Writes what came as what is wanted."""
        try:
            with open(self.path("wanted.txt"), "wb") as file:
                file.write(text)
            if status != 0 or os.path.exists(self.path("status")):
                with open(self.path("status"), "w", encoding="ascii") as file:
                    file.write("%d\n" % status)
        except OSError as error:
            raise Failed("%s: %s" % (error.filename, error.strerror)) from None


def walked(folder, name, above):
    """The cases of a folder and of the folders in it. A link to a folder is followed, but not to one that it is in."""
    inner, is_case = [], False
    with os.scandir(folder) as entries:
        for entry in entries:
            if entry.name in (SESSION, WORDS):
                is_case = is_case or entry.is_file()
            elif entry.is_dir():
                inner.append((entry.name, entry.is_symlink()))
    if is_case:
        yield Case(name or ".", folder)
    for part, linked in inner:
        below = os.path.join(folder, part)
        if not linked or os.path.realpath(below) not in above:
            yield from walked(below, "%s/%s" % (name, part) if name else part, above | {os.path.realpath(below)})


def cases_of(folder):
    """All cases of a folder, by their names."""
    top = os.path.abspath(folder)
    try:
        found = sorted(walked(top, "", {os.path.realpath(top)}), key=lambda case: case.name)
    except OSError as error:
        raise Failed("%s: %s" % (error.filename if error.filename != top else folder, error.strerror)) from None
    if not found:
        raise Failed("%s: no folder in it has a session.toml or words" % folder)
    return found


def filtered(cases, globs):
    """The cases whose names one of these patterns fits, a * as many characters as there are, / too."""
    if not globs:
        return cases
    found = [case for case in cases if any(fnmatch.fnmatchcase(case.name, glob) for glob in globs)]
    if not found:
        raise Failed("no case has a name like %s" % " or ".join(globs))
    return found


def number(surroundings, name):
    value = surroundings[name]
    if not re.fullmatch(r"[0-9]{1,9}", value):
        raise Failed("%s is no number: %s" % (name, value))
    return int(value)


def shard_of(word, surroundings):
    """The shard that is to be run as (which, of how many), from 0 on: by the word, else by the variables of a runner of tests.
    None where nothing says one."""
    if word is not None:
        found = re.fullmatch(r"([0-9]{1,9})/([0-9]{1,9})", word)
        if not found or not 1 <= int(found[1]) <= int(found[2]):
            raise Failed("a shard is I/N with I from 1 to N, as 2/4: %s" % word)
        return int(found[1]) - 1, int(found[2])
    if "TEST_TOTAL_SHARDS" in surroundings and "TEST_SHARD_INDEX" in surroundings:
        which, many = (number(surroundings, name) for name in ("TEST_SHARD_INDEX", "TEST_TOTAL_SHARDS"))
        if which >= many:
            raise Failed("TEST_SHARD_INDEX is %d, and with TEST_TOTAL_SHARDS=%d it is from 0 to %d" % (which, many, many - 1))
        return which, many
    if "SLURM_ARRAY_TASK_ID" in surroundings and "SLURM_ARRAY_TASK_COUNT" in surroundings:
        return slurm_shard(surroundings)
    return None


def slurm_shard(surroundings):
    """The task of an array job among its tasks, whose numbers rise by one step from the least."""
    task, many = (number(surroundings, "SLURM_ARRAY_TASK_" + name) for name in ("ID", "COUNT"))
    least, step = (
        number(surroundings, "SLURM_ARRAY_TASK_" + name) if "SLURM_ARRAY_TASK_" + name in surroundings else usual
        for name, usual in (("MIN", 0), ("STEP", 1))
    )
    which, rest = divmod(task - least, max(step, 1))
    if rest or not 0 <= which < many:
        message = "SLURM_ARRAY_TASK_ID is %d, and the %d tasks of the array do not rise from %d by %d"
        raise Failed(message % (task, many, least, step))
    return which, many


def touch_status_file(surroundings):
    """Bazel asks for this file, as a sign that the shards are known to the one who runs tests."""
    path = surroundings.get("TEST_SHARD_STATUS_FILE")
    if path and "TEST_TOTAL_SHARDS" in surroundings:
        try:
            with open(path, "ab"):
                pass
        except OSError as error:
            raise Failed("%s: %s" % (path, error.strerror)) from None
