"""Which program answers: the one that ./inputflinger would run, asked once."""
import os
import shutil
import subprocess

TOP = os.path.dirname(os.path.dirname(os.path.abspath(__file__)))
WRAPPER = os.path.join(TOP, "inputflinger")

# What the wrapper asks, in the same words: the file that it reads has them.
ASK = """set -eu
. "$top/packaging/programs.sh"
if is_proved; then echo "$program"; exit; fi
why=$(against_dist)
if [ -z "$why" ]; then echo "$dist"; exit; fi
echo "no program is proved and built here, and $why" >&2
exit 70
"""


class NoProgram(Exception):
    """No program answers at once: why, as one line."""


def program():
    """The path of the program that was proved and built here, else of that of dist/ where it is of these sources."""
    words = ["/bin/sh", "-c", ASK]
    done = subprocess.run(words, env={**os.environ, "top": TOP}, capture_output=True, text=True, check=False)
    if done.returncode != 0:
        lines = done.stderr.strip().splitlines()
        raise NoProgram(lines[-1] if lines else "packaging/programs.sh ended with status %d" % done.returncode)
    return done.stdout.strip()


def program_or_quick_run(say):
    """That path, or else the wrapper where the kit is there; `say` is told that each answer then takes about a minute."""
    try:
        return program()
    except NoProgram as error:
        if not shutil.which("rt"):
            raise
        say("%s; each answer is a quick run of the kit, of about a minute" % error)
        return WRAPPER
