"""The lines of logs of pairtree2ocfl that tell of objects of the store, as roots.py reads them."""

import json
import os
import stat

from roots_objects import BROKEN
from roots_telling import Refused, say

# The kinds of lines of an audit's log and, with the others, of a run's.
AUDIT = ("absent", "alike", "differs", "end", "extra", "same", "skip", "stray")
ANY = (*AUDIT, "done", "present")
# Those that tell of an object of the store: its identifier, the folder of its files in the store, and its place in the root.
OF_OBJECTS = ("absent", "alike", "differs", "done", "present", "same")
# What an end line counts, of an audit by bytes or by lengths, without and with --extra, and of a run. That of a check is no end of these.
ENDS_OF_AUDITS = [{"absent", "differs", fit, "skip", *more} for fit in ("same", "alike") for more in ((), ("extra", "stray"))]
END_OF_RUN = {"done", "present", "skip"}


class Log:
    """A log that the command line names; it may be a link or a pipe, and is open only while it is read."""

    def __init__(self, path):
        if not path:
            raise Refused("the path of a log is empty")
        self.path, self.is_torn, self.has_end = path, False, False

    def __str__(self):
        return self.path

    def numbered(self):
        """The lines, each with its number."""
        with open(self.path, "rb", buffering=1 << 18) as file:
            yield from enumerate(file, 1)

    def entries(self, kinds):
        """The lines that tell of objects, where all have one of these kinds. A last line that was never finished is told, and is none."""
        for number, line in self.numbered():
            if not line.endswith(b"\n"):
                self.is_torn = True
                say(f"{self}: its last line was never finished, and is left out")
                continue
            try:
                entry = entry_of(line)
            except BROKEN as error:
                raise Refused(f"{self}:{number}: it is no line of a log") from error
            if entry["as"] not in kinds or (entry["as"] == "end" and not is_end_of(entry, kinds)):
                raise Refused(f"{self}:{number}: it is no line of the log of {'an audit' if kinds == AUDIT else 'a run or an audit'}")
            self.has_end = entry["as"] == "end"
            if entry["as"] in OF_OBJECTS:
                yield entry

    def see_file(self):
        """Sees to it that the log can be read twice."""
        if not stat.S_ISREG(os.stat(self.path).st_mode):
            raise Refused(f"{self} is no file: it is read twice")

    def again(self):
        """The lines that tell of objects, once more. What was told isn't told again."""
        for _, line in self.numbered():
            if line.endswith(b"\n"):
                entry = entry_of(line)
                if entry["as"] in OF_OBJECTS:
                    yield entry


def entry_of(line):
    """The members of a line of a log; one of `BROKEN` where it is none."""
    entry = json.loads(line.decode())
    if not isinstance(entry["as"], str):
        raise ValueError
    if entry["as"] in OF_OBJECTS:
        entry["id"].encode()
        if not (is_path(entry["at"]) and is_path(entry["to"])) or (entry["as"] == "differs" and not isinstance(entry["why"], str)):
            raise ValueError
    return entry


def is_end_of(entry, kinds):
    """Whether an end line is that of a log which has lines of these kinds."""
    counted = entry.keys() - {"as"}
    return counted in ENDS_OF_AUDITS or (kinds == ANY and counted == END_OF_RUN)


def is_path(text):
    """Whether a text is a path of names from somewhere on, that leads to nothing above."""
    text.encode()
    return "\0" not in text and all(name not in ("", ".", "..") for name in text.split("/"))
