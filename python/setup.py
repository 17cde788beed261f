"""Puts the shared library into the wheel, and its machine into the wheel's name.

The library is the file that INPUTFLINGER_LIBRARY names, or else that of `make -C lib`, or else that of dist/."""
import os
import shutil
import subprocess

from setuptools import setup
from setuptools.command.build_py import build_py
from setuptools.dist import Distribution
from wheel.bdist_wheel import bdist_wheel

HERE = os.path.dirname(os.path.abspath(__file__))
TOP = os.path.dirname(HERE)
NAME = "libinputflinger.so.1"


def library() -> str:
    places = [os.environ.get("INPUTFLINGER_LIBRARY", ""), os.path.join(TOP, "lib/out", NAME), os.path.join(TOP, "dist", NAME)]
    for place in places:
        if os.path.exists(place):
            return place
    raise SystemExit("setup.py: there is no %s: `make -C lib` makes it" % NAME)


class WithLibrary(build_py):
    def run(self) -> None:
        super().run()
        shutil.copyfile(library(), os.path.join(self.build_lib, "inputflinger", NAME))


class OfMachine(bdist_wheel):
    def get_tag(self):
        # Any Python 3 takes it, by ctypes, on this machine alone.
        return ("py3", "none", super().get_tag()[2])


class Binary(Distribution):
    def has_ext_modules(self) -> bool:
        return True


VERSION = subprocess.run([os.path.join(TOP, "packaging/version")], stdout=subprocess.PIPE, text=True, check=True).stdout.strip()
setup(version=VERSION, cmdclass={"build_py": WithLibrary, "bdist_wheel": OfMachine}, distclass=Binary)
