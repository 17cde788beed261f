"""Runs a program as a child, for the scripts of this folder, and says how long it took and the peak memory of the
child alone.

The kernel begins the peak of a child with that of the process that started it, and a script that made a recording
has much memory. So a shell, which has less than any program here, forks the process that becomes the program, and
ends. The script takes that process over as its child. The clock starts when this process is told to become the
program."""
import collections
import ctypes
import os
import signal
import subprocess
import sys
import tempfile
import time

TOP = os.path.dirname(os.path.dirname(os.path.abspath(__file__)))
PROGRAM = os.path.join(TOP, "crates/inputflinger_main/out/inputflinger_main")
TIMES = 5

# The option of prctl that makes this process the parent of all below it whose own parent has ended.
SET_CHILD_SUBREAPER = 36
# The shell's words are the file that is standard input, the one that is standard output, and those of the program.
START = 'given=$1 out=$2; shift 2; exec 3<&0; { read -r begin <&3 && exec "$@" 3<&-; } <"$given" >"$out" & echo $!'

# The status, the seconds by the clock and of processors, and the peak in MiB.
Ran = collections.namedtuple("Ran", "status seconds cpu peak")


def adopt():
    """Makes the script the parent of what the shells leave behind."""
    if ctypes.CDLL(None, use_errno=True).prctl(SET_CHILD_SUBREAPER, 1, 0, 0, 0) != 0:
        sys.exit("running: prctl: %s" % os.strerror(ctypes.get_errno()))


def waited(pid):
    """How the child ended, and what it used. A script that is stopped leaves no child."""
    try:
        return os.wait4(pid, 0)[1:]
    except BaseException:
        os.kill(pid, signal.SIGKILL)
        os.wait4(pid, 0)
        raise


def run(words, given=os.devnull, out=os.devnull, said=None):
    """Runs these words once. `given` is the file of standard input, `out` that of standard output, and `said` an open
    file for standard error."""
    adopt()
    shell = ["/bin/sh", "-c", START, "sh", given, out] + words
    with subprocess.Popen(shell, stdin=subprocess.PIPE, stdout=subprocess.PIPE, stderr=said) as starter:
        pid = int(starter.stdout.readline())
        starter.wait()
        begin = time.perf_counter()
        starter.stdin.write(b"\n")
        starter.stdin.flush()
        status, usage = waited(pid)
        seconds = time.perf_counter() - begin
    return Ran(os.waitstatus_to_exitcode(status), seconds, usage.ru_utime + usage.ru_stime, usage.ru_maxrss / 1024)


def passed(words, given=os.devnull, out=os.devnull):
    """Runs these words once, which has to end with status 0."""
    ran = run(words, given, out)
    if ran.status != 0:
        sys.exit("%s: status %d" % (" ".join(words), ran.status))
    return ran


def best(words, given=os.devnull, out=os.devnull):
    """The least time and the greatest peak of five runs, each of which has to end with status 0."""
    runs = [passed(words, given, out) for _ in range(TIMES)]
    return min(ran.seconds for ran in runs), max(ran.peak for ran in runs)


def written(words, folder):
    """Runs these words once, which has to end with status 0. Tells how many MiB of text they write, and the lines in it
    that end a channel."""
    path = os.path.join(folder, "written.txt")
    passed(words, out=path)
    size = os.path.getsize(path) / 2**20
    with open(path, encoding="ascii") as file:
        ends = [line.rstrip("\n") for line in file if line.startswith("end ")]
    os.remove(path)
    return size, ends


def told(words, folder, wanted):
    """Runs these words once. Each channel has to be sent, to receive and to finish so many messages, else the script
    ends with status 1. Tells how many MiB of text they write."""
    size, ends = written(words, folder)
    for place, counts in enumerate(wanted, 1):
        line = "end %d sent %d received %d finished %d" % ((place,) + counts)
        if line not in ends[place - 1:place]:
            sys.exit("%s: not %s, but %s" % (" ".join(words), line, ends[place - 1:place]))
    return size


def bounded(seconds, most):
    """Where the program took so many seconds or more, the script ends with status 1."""
    if seconds >= most:
        sys.exit("%.3f s, and it is to be less than %d" % (seconds, most))


def refused(words, status, line):
    """Runs these words once, which have to end with this status and this line on standard error."""
    with tempfile.TemporaryFile() as said:
        ran = run(words, said=said)
        said.seek(0)
        text = said.read().decode("ascii", "replace")
    if (ran.status, text) != (status, line):
        sys.exit("%s: status %d, %r" % (" ".join(words), ran.status, text[:2000]))
    return ran


def file_of(folder, name, text):
    """Writes a file into the folder, and returns its path."""
    path = os.path.join(folder, name)
    with open(path, "w", encoding="ascii", newline="") as file:
        file.write(text)
    return path
