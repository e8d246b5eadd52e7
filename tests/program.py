"""The built programs that the tests run, and the launcher that runs one."""

import os
import pathlib
import sys
import unittest

ROOT = pathlib.Path(__file__).resolve().parent.parent
LAUNCHER = ROOT / "crashmap"


def built(crate):
    """Where `rt` builds the program of a crate."""
    return ROOT / "crates" / crate / "out" / crate


def program():
    """The path of the built program: `CRASHMAP_PROGRAM`, or else where `rt` builds it."""
    return pathlib.Path(os.environ.get("CRASHMAP_PROGRAM", built("crashmap")))


def launching(**added):
    """The environment in which the launcher runs the built program, and gives hints by the Python of the tests."""
    path = f"{pathlib.Path(sys.executable).parent}:{os.environ['PATH']}"
    return os.environ | {"CRASHMAP_PROGRAM": str(program()), "PATH": path} | added


def images_program():
    """The path of the program that answers on lists of images: `CRASHMAP_IMAGES`, or else where `rt` builds it."""
    return pathlib.Path(os.environ.get("CRASHMAP_IMAGES", built("hostile_images")))


def is_unproved():
    """Whether the program is an unproved one, which `CRASHMAP_UNPROVED` says."""
    return "CRASHMAP_UNPROVED" in os.environ


def needs_a_proved_program(reason="it takes an unproved program too long"):
    """Leaves a test out where the program is an unproved one."""
    return unittest.skipIf(is_unproved(), reason)
