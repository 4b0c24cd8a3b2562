"""Cases that are functions of the program and of a new folder."""

import subprocess
import tempfile

from running import MEANT
from stores import DIR, ONE, build


class Alone:
    """A test that is a function of the program and of a new folder, and gives what went wrong."""

    def __init__(self, name, test):
        self.name = name
        self.test = test

    def outcome(self, program):
        with tempfile.TemporaryDirectory(prefix="p") as folder:
            build(folder, {"s": DIR, "d": DIR})
            build(f"{folder}/s", ONE)
            try:
                return self.test(program, folder)
            except (OSError, subprocess.SubprocessError) as error:
                return [repr(error)]


def many(folder, content=b""):
    """More objects in the store of a test, whose log is longer than a pipe holds."""
    letters = "abcdef"
    paths = (f"{a}{b}/{c}{d}" for a in letters for b in letters for c in letters for d in letters)
    build(f"{folder}/s", {f"pairtree_root/{path}/obj/f": content for path in paths})


def run(program, folder, *words, **options):
    """The program over the folders of a test."""
    command = [program, "migrate", *MEANT, *words, "s", "d"]
    return subprocess.run(command, cwd=folder, capture_output=True, stdin=subprocess.DEVNULL, timeout=120, **options)


def differs(**pairs):
    """What isn't as it must be, of pairs of what was found and what was wanted."""
    return [f"{name} is {found!r}, not {wanted!r}" for name, (found, wanted) in pairs.items() if found != wanted]
