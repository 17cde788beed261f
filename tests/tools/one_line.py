"""Runs the tests of a folder, and prints one line; what failed stands on standard error."""
import io
import os
import runpy
import sys
import unittest
from contextlib import redirect_stderr, redirect_stdout
from unittest import mock

TOOLS = os.path.join(os.path.dirname(os.path.abspath(__file__)), "../../tools")
sys.path.append(TOOLS)

import answering  # noqa: E402
from linting import toml_places  # noqa: E402


def program():
    """The program that the tests run: that of INPUTFLINGER_PROGRAM, else the one that answers here; None where there is none."""
    try:
        return os.path.abspath(os.environ.get("INPUTFLINGER_PROGRAM") or answering.program())
    except answering.NoProgram:
        return None


def plain(node):
    if node.kind == "table":
        return {key: plain(inner) for key, (_, inner) in node.value.items()}
    return [plain(inner) for inner in node.value] if node.kind == "array" else node.value


def toml(text):
    """What a session has, by the reader of lint, which is held against Python's own where that has one (3.11)."""
    return plain(toml_places.read(text.encode()))


def call(tool, *words):
    """The status, standard output and standard error of a tool that is run in this process, which takes less time."""
    out, errors, status = io.TextIOWrapper(io.BytesIO(), encoding="utf-8"), io.StringIO(), 0
    with mock.patch.object(sys, "argv", [tool, *words]), mock.patch.object(sys, "path", [TOOLS, *sys.path]):
        with redirect_stdout(out), redirect_stderr(errors):
            try:
                runpy.run_path(os.path.join(TOOLS, tool), run_name="__main__")
            except SystemExit as ended:
                status = ended.code
    out.flush()
    return status, out.buffer.getvalue(), errors.getvalue()


def end(name):
    told = io.StringIO()
    runner = unittest.TextTestRunner(stream=told, verbosity=0)
    done = unittest.main("__main__", exit=False, testRunner=runner, argv=["run", *sys.argv[1:]]).result
    failed = len(done.failures) + len(done.errors)
    if failed:
        sys.stderr.write(told.getvalue())
    print("%s: %d tests, %d failed" % (name, done.testsRun, failed))
    sys.exit(not done.wasSuccessful())
