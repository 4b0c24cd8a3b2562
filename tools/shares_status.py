"""How far the shares of a store are, as shares.py tells it: by the ends of their logs, their events, the locks on their folders, and OUT/joining.

Nothing is changed, and no link is followed. Of a log a block at its end is read, however long it is, and of the listing of OUT a number of each
share is held. A folder's lock is asked for only where the log has no end line, shared, as an audit asks for it, and is given back at once.
"""

import collections
import errno
import fcntl
import json
import os
import re
import stat

from shown import shown

JOINING = "joining"
NO_LOCKS = (errno.ENOLCK, errno.ENOSYS, errno.EOPNOTSUPP)
FOLDER = os.O_RDONLY | os.O_DIRECTORY | os.O_NOFOLLOW | os.O_CLOEXEC
FILE = os.O_RDONLY | os.O_NOFOLLOW | os.O_NONBLOCK | os.O_CLOEXEC
LOG = re.compile(r"([1-9][0-9]{0,3})(?:\.try([2-9]|[1-9][0-9]{1,8}))?\.log")
# What shares.py puts into OUT/joining where a part of the join has ended.
PART = re.compile(rb"^(join|damaged) ended with status ([0-9]{1,3})$", re.MULTILINE)
JOINED = ("damaged", 0)
KINDS = ("done", "present", "skip")
# More than an end line has, and more than an event has.
BLOCK, LONGEST = 4096, 1 << 24
# What a share is found to be.
DONE, UNDER_WAY, NOT_BEGUN, ROOTLESS = "done", "under way", "not begun", "ended, without a root"
STOPPED, ENDED, UNLOCKED, UNSEEN = "stopped", "stopped, or ended with a fault", "stopped or under way, which no lock tells", "not looked into"


def spans(numbers):
    """Numbers that rise, as a text: 1-5, 7."""
    found = []
    for number in numbers:
        if found and found[-1][1] == number - 1:
            found[-1][1] = number
        else:
            found.append([number, number])
    return ", ".join(str(first) if first == last else f"{first}-{last}" for first, last in found)


def mode_of(name, above):
    """The mode of what stands at a name, links not followed; 0 where nothing does."""
    try:
        return os.stat(name, dir_fd=above, follow_symlinks=False).st_mode
    except FileNotFoundError:
        return 0


def is_count(value):
    """Whether a value of JSON is a count."""
    return type(value) is int and 0 <= value < 10**20


def object_in(text):
    """The JSON object that a text is; an empty one where it is none."""
    try:
        found = json.loads(text.decode())
    except (ValueError, RecursionError):
        return {}
    return found if isinstance(found, dict) else {}


def block_of(path, above=None, most=BLOCK):
    """The last bytes of a file, so many at most; nothing where it isn't there, or a link or no file stands there."""
    try:
        fd = os.open(path, FILE, dir_fd=above)
    except OSError as error:
        if error.errno in (errno.ENOENT, errno.ELOOP, errno.ENXIO):
            return b""
        raise
    try:
        found = os.fstat(fd)
        return os.pread(fd, most, max(0, found.st_size - most)) if stat.S_ISREG(found.st_mode) else b""
    finally:
        os.close(fd)


def end_in(block):
    """The numbers of the end line that a log's last bytes end with; `None` where they don't. A line as long as they are is none."""
    *before, line, rest = [b"", *block.split(b"\n")]
    entry = {} if rest or (len(before) < 2 and len(block) == BLOCK) else object_in(line)
    is_end = entry.pop("as", None) == "end" and set(entry) == set(KINDS) and all(map(is_count, entry.values()))
    return entry if is_end else None


def has_lock(share):
    """Whether somebody has the lock of the open folder of a share, as a run or the join has it; `None` where that can't be told."""
    try:
        fcntl.flock(share, fcntl.LOCK_SH | fcntl.LOCK_NB)
    except OSError as error:
        if error.errno == errno.EWOULDBLOCK:
            return True
        if error.errno not in NO_LOCKS:
            raise
        return None
    fcntl.flock(share, fcntl.LOCK_UN)
    return False


class Logs:
    """Of each share the number of its last try that has a log, 0 where none has; the shares above them that have logs; and some names of logs at
    which something else stands."""

    def __init__(self, out, count):
        self.turns, self.above, self.others = [0] * (count + 1), set(), collections.deque(maxlen=9)
        with os.scandir(out) as entries:
            for entry in entries:
                found = LOG.fullmatch(entry.name)
                if found and not entry.is_file(follow_symlinks=False):
                    self.others.append(entry.name)
                elif found:
                    self.add(int(found[1]), int(found[2] or 1))

    def add(self, number, turn):
        """Takes note of a log."""
        if number < len(self.turns):
            self.turns[number] = max(turn, self.turns[number])
        else:
            self.above.add(number)


class Shares:
    """So many shares in the open folder OUT, each of which is found to be one thing, and their join, which has begun or hasn't. A function gives the
    files of the events of a try by its mark."""

    def __init__(self, out, count, has_begun, files_of):
        self.out, self.count, self.has_begun, self.files_of = out, count, has_begun, files_of
        self.logs, self.found, self.sum, self.reasons = Logs(out, count), {}, collections.Counter(), []
        self.ended, self.is_joining = self.join_now()
        self.is_joined = self.ended[0] == "damaged"
        for number in range(1, count + 1):
            try:
                what = self.found_of(number)
            except OSError as error:
                what = UNSEEN
                self.reasons.append(f"share {number}: {f'{shown(error.filename)}: ' if error.filename else ''}{error.strerror}")
            self.found.setdefault(what, []).append(number)

    def end_of(self, number):
        """The mark of the last try of a share that has a log, and the numbers of the end line of that."""
        turn = self.logs.turns[number]
        mark = f"{number}.try{turn}" if turn > 1 else str(number)
        return mark, end_in(block_of(f"{mark}.log", self.out)) if turn else None

    def event_of(self, number, mark):
        """The event of a try of a share; an empty one where none is there."""
        for event in (object_in(block_of(path, most=LONGEST)) for path in self.files_of(mark)):
            if isinstance(event.get("options"), dict) and event["options"].get("share") == f"{number}/{self.count}":
                return event
        return {}

    def lock_and_root(self, number, asks):
        """Whether somebody has the lock of a share's folder, if that is asked, and whether a root stands in it."""
        try:
            share = os.open(str(number), FOLDER, dir_fd=self.out)
        except FileNotFoundError:
            return False, False
        try:
            is_held = asks and has_lock(share)
            return is_held, stat.S_ISDIR(os.stat("ocfl", dir_fd=share, follow_symlinks=False).st_mode)
        except FileNotFoundError:
            return is_held, False
        finally:
            os.close(share)

    def found_of(self, number):
        """What a share is found to be."""
        mark, end = self.end_of(number)
        # The join has the locks of all shares.
        is_held, has_root = self.lock_and_root(number, end is None and not self.is_joining)
        if is_held:
            return UNDER_WAY
        # It may have ended between the two looks.
        end = end or self.end_of(number)[1]
        event = self.event_of(number, mark) if self.logs.turns[number] else {}
        if event.get("fault"):
            return fault_in(event["fault"])
        if end is not None and (has_root or self.is_joined):
            self.sum.update(end)
            return DONE
        if end is not None:
            return ROOTLESS
        if not self.logs.turns[number]:
            return NOT_BEGUN
        if is_held is None:
            return UNLOCKED
        return STOPPED if event and "end" not in event else ENDED

    def join_now(self):
        """What part of the join was noted last to have ended, with which status, and whether it is under way."""
        parts = PART.findall(block_of(JOINING, self.out))
        ended = (parts[-1][0].decode(), int(parts[-1][1])) if parts else ("", 0)
        asks = self.has_begun and ended != JOINED and self.end_of(1)[1] is not None
        return ended, bool(asks and self.lock_and_root(1, True)[0])

    def wanting(self):
        """The shares of which it is known that they are neither done nor under way, as they rise."""
        others = (DONE, UNDER_WAY, UNLOCKED, UNSEEN)
        return sorted(number for what, numbers in self.found.items() if what not in others for number in numbers)

    def are_done(self):
        """Whether all are done. Once they are joined those whose logs are gone are too, as those are whose folders are gone."""
        return all(what == DONE or (what == NOT_BEGUN and self.is_joined) for what in self.found)

    def groups(self):
        """What shares are found to be, each with its numbers."""
        ranks = {DONE: 0, UNDER_WAY: 1, NOT_BEGUN: 3, UNSEEN: 4}
        yield from ((what, self.found[what]) for what in sorted(self.found, key=lambda what: (ranks.get(what, 2), what)))


def fault_in(fault):
    """How a share ended, by the fault of its event."""
    is_one = isinstance(fault, dict) and is_count(fault.get("number")) and isinstance(fault.get("text"), str)
    return f"ended with fault {fault['number']}, {shown(fault['text'])}" if is_one else ENDED


def join_line(shares):
    """How far the join is."""
    if shares.is_joining:
        return "under way"
    if not shares.has_begun:
        return "not begun" if shares.count > 1 else "none, as one share is the whole"
    part, status = shares.ended
    if not part:
        return "begun, and not ended"
    if part == "join":
        return f"ended with status {status}" if status else "all is moved, and not yet looked at"
    return f"done, and the look at each object ended with status {status}" if status else "done, and each object is whole"


def next_line(shares, called):
    """What is to be given next; nothing where that is nothing."""
    wanting, count = shares.wanting(), shares.count
    if not shares.are_done() and shares.has_begun:
        return "no share is carried once the join has begun: when that has ended, carry the whole store into OUT/1, without --share"
    if wanting and not shares.has_begun:
        return f"to be given: {spans(wanting)}, each K by: {called} share K {count} (with the options as before)"
    is_due = shares.ended != JOINED and not shares.is_joining and shares.are_done() and count > 1
    return f"to be given: {called} join {count}" if is_due else ""


def lines(shares, called):
    """What is told of shares, line by line."""
    for what, numbers in shares.groups():
        yield f"{what}: {spans(numbers)}"
    yield from shares.reasons
    yield f"the join: {join_line(shares)}"
    told, total = len(shares.found.get(DONE, ())), shares.sum
    unknown = "" if told == shares.count else ", as no others have counts"
    yield f"lines in the last logs of those done, {told} of {shares.count}{unknown}: {', '.join(f'{total[kind]} {kind}' for kind in KINDS)}"
    yield f"objects that stand by these, done or present: {total['done'] + total['present']}"
    if shares.logs.others:
        yield f"no file, or a link, so it is no log: {', '.join(map(shown, sorted(shares.logs.others)))}"
    if shares.logs.above:
        yield f"above {shares.count} there are logs of shares too: {spans(sorted(shares.logs.above))}"
    if UNLOCKED in shares.found:
        yield f"to be given where no run is under way: {spans(shares.found[UNLOCKED])}"
    following = next_line(shares, called)
    yield from [following] if following else []


def tell(shares, called):
    """Prints how far shares are, and gives the status: 0 where all are done, 1 where some aren't."""
    left = "".join(f"{line}\n" for line in lines(shares, called)).encode(errors="backslashreplace")
    while left:
        left = left[os.write(1, left) :]
    return 0 if shares.are_done() else 1
