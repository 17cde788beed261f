"""Runs of the program."""
import ctypes
import dataclasses
from typing import List, Mapping, Sequence, Union

from inputflinger import native
from inputflinger.errors import RunError, Status, done

# The options whose words are names of files.
FILES = ("--session", "--events", "--order", "--stream", "--want", "--got")
ABSENT = "0"
ROOM = 65536


@dataclasses.dataclass(frozen=True)
class Ran:
    """What a run came to: the text and the line that the program printed, and the status that it ended with (docs/STATUSES.md)."""

    out: str
    err: str
    status: int

    def check(self) -> "Ran":
        """Raises :class:`RunError` if the status is not 0."""
        if self.status != 0:
            raise RunError(self.status, self.err)
        return self


def _words(command: Sequence[str], names: Sequence[str]) -> str:
    """The words of a command, with the numbers of files in place of their names. A name that no file has is one that is not there."""
    numbers = {name: str(place) for place, name in enumerate(names, 1)}
    said: List[str] = []
    for word in command:
        option, equals, name = word.partition("=")
        if said and said[-1] in FILES:
            word = numbers.get(word, ABSENT)
        elif equals and option in FILES:
            word = option + equals + numbers.get(name, ABSENT)
        if "\n" in word:
            raise ValueError("a word has no newline: %r" % word)
        said.append(word)
    return "".join(word + "\n" for word in said)


def run(command: Union[str, Sequence[str]], files: Mapping[str, Union[bytes, str]]) -> Ran:
    """Runs a command of the program over at most three files, which it finds by the names that they have in ``files``.

    >>> stream = "channel 1 main\\n1 1000 motion 1 DOWN 0@540,1200\\n2 2000 motion 1 UP 0@540,1200\\nend 1 sent 2 received 2 finished 2\\n"
    >>> run("verify --stream tap", {"tap": stream}).out
    'well formed 1 2\\n'
    >>> run("verify --stream tap", {}).status, run("verify --stream tap", {}).err
    (4, 'stream: ReadFailed\\n')

    ``command`` is a list of words, or a text with blanks between them. Commands are those of docs/COMMANDS.md but ``race``.
    """
    words = _words(command.split() if isinstance(command, str) else command, list(files)).encode()
    contents = [text.encode() if isinstance(text, str) else bytes(text) for text in files.values()]
    given = (native.File * max(len(contents), 1))(*(native.File(content, len(content)) for content in contents))
    ran, room = native.Ran(), ROOM
    while True:
        out, err = ctypes.create_string_buffer(room), ctypes.create_string_buffer(room)
        status = native.call("run", words, len(words), given, len(contents), out, room, err, room, ctypes.byref(ran))
        if status != Status.NO_ROOM:
            break
        room = max(ran.out_len, ran.err_len)
    done(status)
    return Ran(out.raw[: ran.out_len].decode(), err.raw[: ran.err_len].decode(), ran.status)
