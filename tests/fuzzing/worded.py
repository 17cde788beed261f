"""Words of a form and of none, and files that fail. What is wrong with words is computed here from the table of docs/STATUSES.md, and not as the program
finds it; which file is at fault follows from what was made of each."""
import os

from .laws import ending, ends_so, need

# The options of each command in the order of its form: those that it needs, and those that may be absent.
OPTIONS = {
    "replay": (["--session", "--events"], []),
    "race": (["--session", "--events"], []),
    "check": (["--session", "--events", "--order"], []),
    "verify": (["--stream"], []),
    "work": (["--seed", "--packets"], []),
    "batch": (["--stream", "--frame"], []),
    "hover": (["--session", "--events", "--mouse"], []),
    "emit": (["--stream", "--channel", "--device"], []),
    "inspect": (["--session", "--events"], []),
    "why": (["--session", "--events"], []),
    "judge": (["--stream"], []),
    "compare": (["--want", "--got", "--us", "--pixels"], ["--want-channel", "--got-channel", "--moves"]),
}
RANGES = {
    "--seed": (0, 4294967295),
    "--packets": (1, 200000),
    "--frame": (1, 1000000000),
    "--channel": (1, 64),
    "--device": (1, 8),
    "--us": (0, 1000000000),
    "--pixels": (0, 16384),
    "--want-channel": (1, 64),
    "--got-channel": (1, 64),
}
PAGES = (b"--help", b"-h", b"help", b"--version")
# What stands in for words: near misses of commands, options and values, and what a line does not show as it is.
ODD = [b"", b"-", b"--", b"=", b"--=", b"help", b"--help", b"-h", b"--help=", b"--version", b"absent", b"-1", b"0", b"1", b"64", b"65", b"00000000064", b"4294967296",
       b"each", b"none", b"Each", b"/dev/input/event2", b"/a b", b"--session", b"--session=", b"--sesion", b"--events=absent", b"--stream=-", b"--us=7", b"--us=", b"replay",
       b"Replay", b"verify", b"a" * 64, b"a" * 65, b"--" + b"x" * 63 + b"=1", b"a\tb", b"\x7f", "ä".encode(), b"\xff", b"a\xc3", b"--stream=\xff", b"--mouse\xff"]

SESSION = b'[display]\nwidth = 9\nheight = 9\n[[channel]]\nname = "main"\n'
STREAM = b"channel 1 main\n1 1000 motion 1 DOWN 0@1,1\n2 2000 motion 1 UP 0@1,1\nend 1 sent 2 received 2 finished 2\n"
# For the option of each file: its name in a line, a text that is taken, one that is refused in its first line, and the status and words of that.
FILES = {
    "--session": ("session", SESSION, b"[display", 3, "NotToml"),
    "--events": ("recording", b"nothing\n", b"[bad\n", 3, "BadLine 1"),
    "--order": ("order", b"order 0\n", b"order\n", 1, "BadLine 1"),
    "--stream": ("stream", STREAM, b"channel\n", 1, "BadLine 1"),
    "--want": ("want", STREAM, b"channel\n", 1, "BadLine 1"),
    "--got": ("got", STREAM, b"channel\n", 1, "BadLine 1"),
}
VALUES = {"--mouse": "/dev/input/event2", "--moves": "each", "--packets": "3", "--us": "0", "--pixels": "0", "--frame": "1000"}


def text_of(word):
    """A word as the program sees it: one that is no text is the empty word."""
    try:
        return word.decode()
    except UnicodeDecodeError:
        return ""


def shown(word):
    """A word as a line shows it."""
    plain = 1 <= len(word.encode()) <= 64 and all("!" <= letter <= "~" for letter in word)
    return word if plain else "?"


def takes(option, value):
    """Whether an option takes a value."""
    if value == "" or value.startswith("-"):
        return False
    if option in RANGES:
        low, high = RANGES[option]
        digits = value.isascii() and value.isdigit() and len(value) <= 10
        return digits and low <= int(value) <= high
    if option == "--mouse":
        return value.startswith("/") and " " not in value and "\t" not in value
    return option != "--moves" or value in ("none", "each")


def option_fault(own, stood, word, option, value, is_joined):
    """What is wrong with an option and its value behind those that stood; None where nothing is."""
    if option not in own:
        return "UnknownOption " + shown(option if word.startswith("--") else word)
    if option in stood:
        return "Twice " + option
    if value is None or (value == "" if is_joined else value.startswith("-")):
        return "NoValue " + option
    return None if takes(option, value) else "BadValue %s %s" % (option, shown(value))


def fault(words):
    """What is wrong with words, by the table; None where they are of a form."""
    if not words:
        return "NoCommand"
    if len(words) == 1 and words[0] in PAGES:
        return None
    command, *left = map(text_of, words)
    if command not in OPTIONS:
        return "UnknownCommand " + shown(command)
    if left in (["--help"], ["-h"]):
        return None
    needed, extra = OPTIONS[command]
    stood = []
    while left:
        word = left.pop(0)
        option, equals, value = word.partition("=")
        if not equals:
            value = left.pop(0) if left else None
        wrong = option_fault(needed + extra, stood, word, option, value, equals != "")
        if wrong:
            return wrong
        stood.append(option)
    return next(("Missing " + option for option in needed if option not in stood), None)


def some_value(rng, option):
    """A value that an option takes; a file is one that is not there."""
    if option not in RANGES:
        return VALUES.get(option, "absent")
    low, high = RANGES[option]
    return str(rng.choice((low, high if option != "--packets" else low, rng.randint(low, low + 3))))


def some_words(rng):
    """The words of a command with its options in some order and spelling, and a few changes of these, or none."""
    command = rng.choice(list(OPTIONS))
    needed, extra = OPTIONS[command]
    options = needed + [option for option in extra if rng.random() < 0.5]
    rng.shuffle(options)
    words = [command.encode()]
    for option in options:
        value = some_value(rng, option)
        words += [("%s=%s" % (option, value)).encode()] if rng.random() < 0.4 else [option.encode(), value.encode()]
    for _ in range(rng.choice((0, 1, 1, 2, 3))):
        change(rng, words)
    return words


def change(rng, words):
    """One change: a word goes, comes, is another, stands twice, changes places or has another byte."""
    act, at = rng.randrange(6), rng.randrange(len(words)) if words else 0
    if act == 0 or not words:
        words.insert(at, rng.choice(ODD))
    elif act == 1:
        del words[at]
    elif act == 2:
        words[at] = rng.choice(ODD)
    elif act == 3:
        words.insert(rng.randint(0, len(words)), words[at])
    elif act == 4:
        words.append(words.pop(at))
    else:
        place = rng.randint(0, len(words[at]))
        words[at] = words[at][:place] + bytes([rng.randint(1, 255)]) + words[at][place + 1 :]


def words_law(program, rng):
    """Words are refused by their first fault, and only where they have one; a file of words that are of a form is not there."""
    words = some_words(rng)
    wrong = fault(words)
    run = program.run(words, "words")
    if wrong is not None:
        ends_so(run, 2, "words: %s\n" % wrong)
        return
    # Files have changed names too, but none that is there; a text of help or of work is written.
    ending(run, {0, 4})
    command, *behind = map(text_of, words)
    page = not behind or behind in (["--help"], ["-h"])
    need((run[0] == 0) == (page or command == "work"), "%r ends with status %d" % (words, run[0]))
    if run[0] == 4:
        first = FILES[OPTIONS[command][0][0]][0]
        ends_so(run, 4, first + ": ReadFailed\n")


def files_law(program, rng):
    """Of the files of a command the first that fails or is refused is the one that the line names."""
    command = rng.choice([command for command in OPTIONS if command != "work"])
    words, wanted = [command], (0, "")
    for option in OPTIONS[command][0]:
        if option not in FILES:
            words += [option, VALUES.get(option, "1")]
            continue
        name, good, bad, status, what = FILES[option]
        kind = rng.choice(("good", "good", "good", "absent", "folder", "bad"))
        path = program.file(name + ".txt", bad if kind == "bad" else good)
        words += [option, {"absent": path + ".absent", "folder": program.folder}.get(kind, path)]
        if wanted[0] == 0 and kind != "good":
            wanted = (status, "%s: %s\n" % (name, what)) if kind == "bad" else (4, name + ": ReadFailed\n")
    ends_so(program.run(words, "files"), *wanted)


def worded(program, case):
    """Words and files of a case's number."""
    rng = case.drawn("worded")
    for _ in range(6):
        words_law(program, rng)
    files_law(program, rng)
