"""How a tool ends. Status 0: it did all. 1: it refuses, or found something, and says what. 2: the words are not those of the tool. Each with
at most one line that says why. Every tool ends with 5 and the line `write failed` if a part of its output cannot be written, with 5 and no
line if nobody reads it any more, and with 130 at Ctrl-C.

A tool imports this module before its others: Ctrl-C then ends it quietly while those are still being loaded."""
import argparse
import contextlib
import errno
import os
import signal
import sys

WRITE_FAILED, INTERRUPTED = 5, 130


def stop(*_):
    os._exit(INTERRUPTED)


# A handler that ignores the interrupt, as that of a job in the background, stays.
if signal.getsignal(signal.SIGINT) is signal.default_int_handler:
    signal.signal(signal.SIGINT, stop)


class Refused(Exception):
    """What a tool says in its one line before it ends with status 1."""


class Words(argparse.ArgumentParser):
    """Words that are wrong end the tool with status 2 and one line."""

    def __init__(self, **more):
        super().__init__(formatter_class=argparse.RawDescriptionHelpFormatter, allow_abbrev=False, **more)

    def print_help(self, file=None):
        # argparse passes over a write that fails.
        (file or sys.stdout).write(self.format_help())

    def error(self, message):
        say(self.prog, "%s; see tools/%s --help" % (message, self.prog))
        sys.exit(2)


def say(tool, line):
    """Says one line on standard error. If it cannot be written, the status stays what it is."""
    with contextlib.suppress(OSError):
        sys.stderr.write("%s: %s\n" % (tool, printable(line)))


def printable(text):
    """A text on one line, with what no terminal should get written as escapes."""
    return "".join(c if c.isprintable() else repr(c)[1:-1] for c in text)


def counted(count, word):
    return "%d %s%s" % (count, word, "" if count == 1 else "s")


def nowhere(stream):
    """Drops what a stream has not written yet."""
    os.dup2(os.open(os.devnull, os.O_WRONLY), stream.fileno())


def prepare():
    """Opens an output that the caller closed, so that writing fails as it does on a full one, and spells names that are no text as escapes."""
    if sys.stdin is None:
        sys.stdin = open(os.devnull, encoding="utf-8")
    if sys.stdout is None:
        sys.stdout = open(os.open(os.devnull, os.O_RDONLY), "w", encoding="utf-8")
    if sys.stderr is None:
        sys.stderr = open(os.devnull, "w", encoding="utf-8")
    sys.stdout.reconfigure(errors="backslashreplace")
    if signal.getsignal(signal.SIGINT) is stop:
        signal.signal(signal.SIGINT, signal.default_int_handler)


def status_of(tool, main):
    """What `main` comes to: the status that it gives, 0 for none, or that of what it raises."""
    try:
        status = main()
        sys.stdout.flush()
    except SystemExit as ended:
        status = ended.code
    except Refused as error:
        say(tool, str(error))
        status = 1
    except KeyboardInterrupt:
        nowhere(sys.stdout)
        status = INTERRUPTED
    except OSError as error:
        if error.filename is None:
            return write_failed(error)
        say(tool, "%s: %s" % (os.fsdecode(error.filename), error.strerror))
        status = 1
    return status or 0


def write_failed(error):
    """Reports a write that failed, if anybody is left to read it."""
    if error.errno != errno.EPIPE:
        with contextlib.suppress(OSError):
            sys.stderr.write("write failed\n")
    with contextlib.suppress(OSError):
        nowhere(sys.stdout)
    return WRITE_FAILED


def end(tool, main):
    """Ends the tool as `main` does, once all that it said is written."""
    prepare()
    status = status_of(tool, main)
    try:
        sys.stdout.flush()
    except OSError as error:
        status = write_failed(error)
    try:
        sys.stderr.flush()
    except OSError:
        nowhere(sys.stderr)
    sys.exit(status)
