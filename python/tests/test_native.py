"""The package against the header."""
import ctypes
import os
import re

import inputflinger
from inputflinger import Action, Reason, Status, WindowFlag, native

HEADER = os.path.join(os.path.dirname(os.path.abspath(__file__)), "../../include/inputflinger.h")


def header() -> str:
    with open(HEADER, encoding="utf-8") as file:
        return file.read()


def test_structs_have_the_sizes_of_the_header() -> None:
    sizes = {"Handle": 16, "Pointer": 12, "Message": 248, "Fault": 32, "State": 36, "Key": 4, "Client": 16, "Rect": 16}
    sizes.update({"Window": 56, "Axis": 8, "Panel": 24, "Displays": 8, "File": 16, "Ran": 24, "Options": 16})
    assert {name: ctypes.sizeof(getattr(native, name)) for name in sizes} == sizes


def test_each_call_of_the_header_is_declared() -> None:
    declared = set(re.findall(r"^int inputflinger_(\w+)\(", header(), re.M))
    assert declared == set(native.CALLS)


def test_numbers_are_those_of_the_header() -> None:
    named = {name: int(number) for name, number in re.findall(r"^\tINPUTFLINGER_(\w+) = (\d+),?$", header(), re.M)}
    assert all(named[status.name] == status for status in Status)
    assert all(named["REASON_" + reason.name] == reason for reason in Reason)
    assert all(named[action.name] == action for action in Action)
    flags = {name: int(number) for name, number in re.findall(r"^#define INPUTFLINGER_(\w+) (\d+)u", header(), re.M)}
    assert all(flags[flag.name] == flag for flag in WindowFlag)


def test_the_version_is_that_of_the_header() -> None:
    number = ".".join(re.findall(r"^#define INPUTFLINGER_VERSION_\w+ (\d+)$", header(), re.M))
    assert inputflinger.version() in (number, number + "+next")
