"""Runs the program on cases, several at a time, from one process that starts them and waits for whichever ends."""
import errno
import os
import signal
import sys
import tempfile
import time

from .cases import Failed
from .outcomes import Outcome, judged

# The seconds that a run may take; a quick run of the wrapper builds the program first.
LONGEST = 600
# What the wrapper ends with where there is no answer.
NO_ANSWER = 70


def processors():
    """How many processors this process may use."""
    return len(os.sched_getaffinity(0)) if hasattr(os, "sched_getaffinity") else os.cpu_count() or 1


class Place:
    """Where one run at a time takes place: the files that its outputs go to, what is run, and since when."""

    def __init__(self):
        self.outputs = [tempfile.TemporaryFile(buffering=0) for _ in range(2)]
        self.case, self.number, self.begun, self.late = None, 0, 0.0, False

    def actions(self):
        """What the child does to its first three files."""
        ends = [(os.POSIX_SPAWN_DUP2, file.fileno(), k) for k, file in enumerate(self.outputs, 1)]
        return [(os.POSIX_SPAWN_OPEN, 0, os.devnull, os.O_RDONLY, 0), *ends]

    def clear(self):
        for file in self.outputs:
            file.seek(0)
            file.truncate()

    def text(self):
        """What came: standard output, and the lines of standard error that are not the wrapper's."""
        out, said = (os.pread(file.fileno(), os.fstat(file.fileno()).st_size, 0) for file in self.outputs)
        if said:
            out += b"".join(line for line in said.splitlines(True) if not line.startswith(b"inputflinger: "))
        return out


class Runs:
    """The runs of a suite: its cases in order, of which so many run at one time."""

    def __init__(self, program, jobs, accept=False):
        self.program, self.accept = os.path.abspath(program), accept
        self.free = [Place() for _ in range(jobs)]
        self.running = {}

    def start(self, number, case):
        """Starts a case, or gives its outcome where there is nothing to run."""
        if not self.accept and not os.path.exists(case.path("wanted.txt")):
            return Outcome(case.name, "skipped", "no wanted.txt")
        try:
            words = [self.program, *map(os.fsencode, case.words())]
            os.chdir(case.folder)
        except (Failed, OSError) as error:
            return Outcome(case.name, "error", str(error), [str(error)])
        place = self.free.pop()
        place.clear()
        place.case, place.number, place.late, place.begun = case, number, False, time.monotonic()
        try:
            # Python ignores these two; the program meets them as from a shell.
            defaults = [signal.SIGPIPE, signal.SIGXFSZ]
            pid = os.posix_spawn(self.program, words, os.environ, file_actions=place.actions(), setpgroup=0, setsigdef=defaults)
        except OSError as error:
            self.free.append(place)
            if error.errno in (errno.E2BIG, errno.EAGAIN, errno.ENOMEM):
                return Outcome(case.name, "error", error.strerror, [error.strerror])
            raise Failed("%s: %s" % (self.program, error.strerror)) from None
        except ValueError as error:
            self.free.append(place)
            return Outcome(case.name, "error", "words: %s" % error, ["words: %s" % error])
        self.running[pid] = place
        return None

    def ended(self):
        """Waits for a run to end; the number of its case, and the outcome."""
        pid, status = os.wait()
        place = self.running.pop(pid)
        self.free.append(place)
        return place.number, self.outcome(place, os.waitstatus_to_exitcode(status), time.monotonic() - place.begun)

    def outcome(self, place, status, seconds):
        case, why = place.case, None
        if place.late:
            why = "no answer in %d seconds" % LONGEST
        elif status < 0:
            why = "ended by signal %d" % -status
        elif status == NO_ANSWER:
            said = place.outputs[1]
            last = os.pread(said.fileno(), 4096, 0).decode("utf-8", "replace").strip().splitlines()[-1:]
            why = "no answer: status %d%s" % (status, "".join("; " + line for line in last))
        if why:
            return Outcome(case.name, "error", why, [why], seconds)
        try:
            return judged(case, place.text(), status, seconds, self.accept)
        except Failed as error:
            return Outcome(case.name, "error", str(error), [str(error)], seconds)

    def stop_late(self, *_):
        """Ends the runs that take too long. It is called once a second."""
        for pid, place in list(self.running.items()):
            if time.monotonic() - place.begun > LONGEST:
                place.late = True
                os.killpg(pid, signal.SIGKILL)

    def stop_all(self):
        for pid in list(self.running):
            os.killpg(pid, signal.SIGKILL)
            os.waitpid(pid, 0)
            del self.running[pid]

    def outcomes(self, cases):
        """The outcomes of the cases, in their order."""
        came, told, next_one = {}, 0, 0
        signal.signal(signal.SIGALRM, self.stop_late)
        signal.setitimer(signal.ITIMER_REAL, 1, 1)
        try:
            while told < len(cases):
                while self.free and next_one < len(cases):
                    outcome = self.start(next_one, cases[next_one])
                    if outcome:
                        came[next_one] = outcome
                    next_one += 1
                if self.running and told not in came:
                    number, outcome = self.ended()
                    came[number] = outcome
                while told in came:
                    yield came.pop(told)
                    told += 1
        finally:
            signal.setitimer(signal.ITIMER_REAL, 0)
            self.stop_all()


def checked(program):
    """The path of a program, which has to be there."""
    if not os.path.isfile(program):
        raise Failed("%s: %s" % (program, os.strerror(errno.ENOENT)))
    if not os.access(program, os.X_OK):
        raise Failed("%s: %s" % (program, os.strerror(errno.EACCES)))
    return os.path.abspath(program)


class Progress:
    """A line on a terminal that says how far it is, several times a second."""

    def __init__(self, total, shown):
        self.total, self.shown = total, shown and sys.stderr.isatty()
        self.begun = self.last = time.monotonic()
        self.done = self.failed = 0

    def step(self, outcome):
        self.done += 1
        self.failed += outcome.state in ("failed", "error")
        now = time.monotonic()
        if self.shown and (now - self.last > 0.2 or self.done == self.total):
            self.last = now
            rate = self.done / max(now - self.begun, 0.001)
            line = "%d of %d cases, %d failed, %d a second" % (self.done, self.total, self.failed, rate)
            sys.stderr.write("\r\033[K" + line)
            sys.stderr.flush()

    def clear(self):
        if self.shown:
            sys.stderr.write("\r\033[K")
            sys.stderr.flush()
