"""What shares.py notes in OUT: in OUT/shares how the store is divided, and in OUT/joining how the join ended. And the locks by which two of it at once
know of each other.
"""

import contextlib
import errno
import fcntl
import os
import re
import stat
from collections import namedtuple

from shares_status import NO_LOCKS, block_of, mode_of

NEW = os.O_WRONLY | os.O_APPEND | os.O_CREAT | os.O_EXCL | os.O_NOFOLLOW | os.O_CLOEXEC
OLD = os.O_RDWR | os.O_NOFOLLOW | os.O_NONBLOCK | os.O_CLOEXEC
DIVIDED = "shares"
# A line of OUT/shares, of which the first counts. None is the beginning of another.
NOTE = re.compile(rb"^([1-9][0-9]{0,3}) by (?:identifiers|folders ([1-9][0-9]{0,2}) deep)$", re.MULTILINE)
DEPTH, DEEPEST = re.compile("[1-9][0-9]{0,2}", re.ASCII), 600
REHEARSES = re.compile("--dry-run|-[a-zA-Z]*n[a-zA-Z]*")


class Division(namedtuple("Division", "count depth")):
    """How a store is divided: into so many shares, by its folders so deep, or, where that is 0, by identifiers."""

    def __str__(self):
        return f"{self.count} by folders {self.depth} deep" if self.depth else f"{self.count} by identifiers"

    @staticmethod
    def noted(out):
        """The one that is noted in the open folder OUT; `None` where none is."""
        found = NOTE.search(block_of(DIVIDED, out))
        return Division(int(found[1]), int(found[2] or 0)) if found else None

    def note(self, out):
        """Notes it in the open folder OUT, on a line of its own. Where that can't be, it isn't noted."""
        with contextlib.suppress(OSError):
            with contextlib.suppress(FileExistsError):
                os.close(os.open(DIVIDED, NEW, 0o666, dir_fd=out))
            add_line(f"{self}\n".encode(), DIVIDED, out)


def depth_of(options):
    """How deep the folders are by which these options divide the store, 0 where they divide it by identifiers; `None` where no folder can be so deep."""
    for name, text in zip(options, (*options[1:], "")):
        name, is_one, value = name.partition("=")
        if name == "--by-folders":
            text = value if is_one else text
            return int(text) if DEPTH.fullmatch(text) and int(text) <= DEEPEST else None
    return 0


def rehearses(options):
    """Whether these options ask for a rehearsal. No value of an option looks like a flag."""
    return any(map(REHEARSES.fullmatch, options))


def lock(fd):
    """Holds the lock of what is open, as a run holds that of its folder: whether it is held, which it isn't where another has it, or `None`
    where there are no locks."""
    try:
        fcntl.flock(fd, fcntl.LOCK_EX | fcntl.LOCK_NB)
    except OSError as error:
        if error.errno == errno.EWOULDBLOCK:
            return False
        if error.errno not in NO_LOCKS:
            raise
        return None
    return True


def new_log(name, above, is_locked):
    """A log, open and new. Where there are locks it is held, by the run too that writes it: so another script knows of that before it has its folder."""
    fd = os.open(name, NEW, 0o666, dir_fd=above)
    try:
        if is_locked:
            lock(fd)
    except OSError:
        os.close(fd)
        raise
    return fd


def is_written(name, above):
    """Whether a log is held by the run that writes it."""
    fd = os.open(name, OLD, dir_fd=above)
    try:
        return lock(fd) is False
    finally:
        os.close(fd)


def is_no_file(name, above):
    """Whether something else than a file stands at a name, as a link."""
    mode = mode_of(name, above)
    return bool(mode) and not stat.S_ISREG(mode)


def unfinished_from(fd):
    """Where the last line of a file begins, if it has no end; the file's length if it has one."""
    at = os.fstat(fd).st_size
    while at:
        begin = max(0, at - 65536)
        found = os.pread(fd, at - begin, begin).rfind(b"\n")
        if found >= 0:
            return begin + found + 1
        at = begin
    return 0


def add_line(line, name, above):
    """Adds a line to a file, on a line of its own where the last was never finished."""
    fd = os.open(name, OLD | os.O_APPEND, dir_fd=above)
    try:
        left = b"\n" * (unfinished_from(fd) < os.fstat(fd).st_size) + line
        while left:
            left = left[os.write(fd, left) :]
    finally:
        os.close(fd)
