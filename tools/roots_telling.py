"""What roots.py tells: its lines on standard output and standard error, how far it is, and why it gives up.

Every line goes through `shown`, so no name of a root can write on a terminal or look like a line of its own."""

import contextlib
import os
import re
import time

from shown import shown


class Refused(Exception):
    """Why nothing more is done; one reason or several."""


class Unwritten(Exception):
    """Why standard output can't be written."""


class Progress:
    """How far it is, on standard error where that is a terminal: a line that is written over, five times a second at most."""

    def __init__(self):
        self.count, self.next, self.stands = 0, 0.0, False
        self.goes_to_terminal = os.isatty(2)

    def count_one(self, root, place):
        """One object more, at this place of a root. Places begin with digits of a digest, so they are spread evenly over a root."""
        self.count += 1
        if self.goes_to_terminal and time.monotonic() >= self.next:
            digits = re.match("[0-9a-f]*(?=/)", place)
            share = f", {100 * int(digits[0], 16) // 16 ** len(digits[0])} % of {root}" if digits and digits[0] else ""
            told = line_of(f"roots.py: {self.count} object{'s' * (self.count != 1)}{share}")
            self.write(b"\r" + told + b"\x1b[K")
            self.next, self.stands = time.monotonic() + 0.2, True

    def clear(self):
        """Takes the line away."""
        if self.stands:
            self.write(b"\r\x1b[K")
            self.stands = False

    def write(self, text):
        with contextlib.suppress(OSError):
            os.write(2, text)


PROGRESS = Progress()


def line_of(text):
    """A text as it is told, without a line end. A name in it is shown by its bytes, in whatever locale Python took them in."""
    with contextlib.suppress(UnicodeEncodeError):
        text = os.fsencode(text)
    return shown(text).encode()


def say(text):
    """A line on standard error."""
    PROGRESS.clear()
    with contextlib.suppress(OSError):
        os.write(2, line_of(f"roots.py: {text}") + b"\n")


def show(text):
    """A line on standard output. `Unwritten` where it can't be written; a part of it may be."""
    PROGRESS.clear()
    write(line_of(text) + b"\n")


def put(lines):
    """The same of lines of a list that another program reads, given with their ends: names as they are, unless they go to a terminal. They are
    written in blocks of whole lines."""
    block, is_seen = bytearray(), os.isatty(1)
    for line in lines:
        if is_seen:
            show(line[:-1])
            continue
        block += line
        if len(block) > 1 << 16:
            write(bytes(block))
            block.clear()
    write(bytes(block))


def write(text):
    """Bytes on standard output."""
    left = memoryview(text)
    try:
        while left:
            left = left[os.write(1, left) :]
    except OSError as error:
        raise Unwritten(f"cannot write the output: {error.strerror}") from error


def reason(error):
    """What an error says."""
    return error.strerror if isinstance(error, OSError) else error
