"""What `roots.py join` does: objects of other storage roots are looked at, and renamed into one, by tuple folders where that can be."""

import contextlib
import errno
import fcntl
import os
import re
import resource
import stat

from roots_objects import FOLDER, Foreign, Root, Unlike, folder, look_at
from roots_telling import PROGRESS, Refused, Unwritten, reason, say, show

NO_LOCKS = (errno.ENOLCK, errno.ENOSYS, errno.EOPNOTSUPP)
ENDS = (errno.EXDEV, errno.ENOSPC, errno.EDQUOT, errno.EROFS)


def hold(root, held, last):
    """Holds the lock of the folder that a root stands in, as a run into it does, and sees to it that none broke off there."""
    fd = last.enter_context(folder("..", root.fd))
    key = os.fstat(fd)[1:3]
    if key not in held:
        lock(fd, root)
        held.add(key)
    if "staging" in os.listdir(fd):
        raise Refused(f"staging is left beside {root}: let its migration come to its end first")


def lock(fd, root):
    """Locks the open folder of a root. Where its file system has no locks, that is told."""
    try:
        fcntl.flock(fd, fcntl.LOCK_EX | fcntl.LOCK_NB)
    except OSError as error:
        if error.errno == errno.EWOULDBLOCK:
            raise Refused(f"another run has the folder of {root}") from error
        if error.errno not in NO_LOCKS:
            raise
        say(f"the folder of {root} can't be locked ({error.strerror}): see to it that no run is under way")


def agree(roots):
    """Sees to it that roots can be joined: each is given once, none lies in another, with one layout on one file system."""
    first, seen, keys = roots[0], set(), {root.key for root in roots}
    for root in roots:
        if root.key in seen:
            raise Refused(f"{root} is given twice")
        seen.add(root.key)
        if (root.size, root.count) != (first.size, first.count):
            raise Refused(f"{root} has other tuples than {first}")
        if root.device != first.device:
            raise Refused(f"{root} is on another file system than {first}: copy its folder there first, by cp -a, and join the copy")
        if root.lies_below(keys):
            raise Refused(f"{root} lies in another of the roots")


def found_at(root, names):
    """What stands at a place, as the system tells it; `None` where nothing does."""
    with contextlib.ExitStack() as last:
        above = root.fd
        try:
            for name in names[:-1]:
                above = last.enter_context(folder(name, above))
            return os.stat(names[-1], dir_fd=above, follow_symlinks=False)
        except FileNotFoundError:
            return None


@contextlib.contextmanager
def made(root, names):
    """The tuple folder of these names, open. What was made of it is taken away where what is done there fails."""
    above, new = root.fd, []
    with contextlib.ExitStack() as last:
        try:
            for name in names:
                with contextlib.suppress(FileExistsError):
                    os.mkdir(name, dir_fd=above)
                    new.append((name, above))
                above = last.enter_context(folder(name, above))
            yield above
        except OSError:
            for name, above in reversed(new):
                with contextlib.suppress(OSError):
                    os.rmdir(name, dir_fd=above)
            raise


class Taken:
    """The places that were taken, listed on standard output. Where that can't be written they are only counted: no object stays for it, and the
    same command lists them again."""

    def __init__(self):
        self.count, self.unwritten = 0, None

    def add(self, path):
        self.count += 1
        if self.unwritten is None:
            try:
                show(path)
            except Unwritten as fault:
                self.unwritten = fault


class Folder:
    """A tuple folder of another root on the way to the object at hand, open, with what stands at its place in the root: open, `None` where nothing does,
    or the error where that can't be told.

    As one it is moved where all in it can be: what was looked at waits for the rest of it."""

    def __init__(self, names, fd, there, as_one):
        self.names, self.fd, self.there, self.as_one = names, fd, there, as_one
        self.waiting = []


@contextlib.contextmanager
def found_below(there, name):
    """What stands at this name below what stands at a place, in the forms that `Folder` has it in."""
    if not isinstance(there, int):
        yield there
        return
    try:
        fd = os.open(name, FOLDER, dir_fd=there)
    except OSError as error:
        yield None if isinstance(error, FileNotFoundError) else error
        return
    try:
        yield fd
    finally:
        os.close(fd)


def has_mounts(root):
    """Whether something is mounted below a root, as far as the system tells. It would be taken along by what is renamed above it."""
    try:
        top = os.fsencode(os.readlink(f"/proc/self/fd/{root.fd}"))
        with open("/proc/self/mountinfo", "rb") as file:
            points = [re.sub(rb"\\([0-7]{3})", lambda it: bytes([int(it[1], 8)]), line.split(b" ")[4]) for line in file]
    except OSError:
        return True
    return not top.startswith(b"/") or any(point.startswith(top.rstrip(b"/") + b"/") for point in points)


class Moving:
    """Moves the objects of another root into a root. What stays is told and counted. Where the root can take no more, all is refused that is left.

    Each object is looked at. A tuple folder at whose place in the root nothing stands is renamed as one, from the outermost on, when all below it was
    looked at, can be moved and is nothing but objects. Else it is gone through, so that what stays is what would stay if objects were renamed."""

    def __init__(self, root, other, taken):
        self.root, self.other, self.taken = root, other, taken
        self.in_one_piece, self.way = not has_mounts(other), []

    def move_all(self):
        self.go_through(Folder((), self.other.fd, self.root.fd, False))

    def go_through(self, at):
        """Moves what can be moved in a folder; or True where all in it can be, and waits to be moved with it."""
        self.way.append(at)
        try:
            for name, found in self.other.entries(at.names, at.fd):
                if found is None:
                    self.take_apart()
                    self.other.leave_out(at.names, name)
                elif self.can_move(at, name, found):
                    at.waiting.append(name)
                    if not at.as_one:
                        self.move_waiting(at)
                else:
                    self.take_apart()
        except OSError:
            self.take_apart()
            raise
        finally:
            self.way.pop()
        return bool(at.waiting)

    def take_apart(self):
        """No folder on the way is moved as one, since something stays in the last of them. What waited is moved before that is told."""
        for at in self.way:
            at.as_one = False
            self.move_waiting(at)

    def move_waiting(self, at):
        """Moves what waits in a folder, in its order."""
        waiting, at.waiting = at.waiting, []
        for name in waiting:
            self.move(at, name)

    def can_move(self, at, name, found):
        """Whether what has this name in a folder can be moved by it: an object, or a tuple folder in which nothing was moved yet."""
        if len(at.names) == self.other.count:
            if at.as_one and not self.may_rename(at, name, found):
                self.take_apart()
            return self.is_right(at, name)
        with found_below(at.there, name) as there:
            as_one = there is None and self.in_one_piece and self.may_rename(at, name, found)
            if not as_one:
                self.take_apart()
            return self.enter(at, name, there, as_one)

    def may_rename(self, at, name, found):
        """Whether a folder, and what is in it, may be renamed by itself, as far as the system tells. Else it would be moved only by what is above it."""
        is_plain = found.st_dev == self.root.device and not found.st_mode & stat.S_ISVTX
        return is_plain and os.access(name, os.W_OK | os.X_OK, dir_fd=at.fd, effective_ids=True)

    def enter(self, at, name, there, as_one):
        """Goes through a tuple folder below another. What can't be listed is told."""
        names = (*at.names, name)
        try:
            with folder(name, at.fd) as fd:
                return self.go_through(Folder(names, fd, there, as_one))
        except OSError as error:
            self.take_apart()
            self.other.tell_unread(names, error)
            return False

    def is_right(self, at, name):
        """Whether an object can be moved. It is listed where its place is taken, and told where it isn't whole."""
        place = "/".join((*at.names, name))
        PROGRESS.count_one(self.other, place)
        try:
            if not self.is_taken(at, name):
                look_at(name, at.fd, reads=False)
                return True
            self.take_apart()
            self.taken.add(f"{self.other}/{place}")
        except (Unlike, Foreign, OSError) as error:
            self.take_apart()
            self.stay(place, error)
        return False

    def is_taken(self, at, name):
        """Whether something stands at an object's place in the root."""
        if isinstance(at.there, OSError):
            raise OSError(*at.there.args)
        if at.there is None:
            return False
        try:
            os.stat(name, dir_fd=at.there, follow_symlinks=False)
        except FileNotFoundError:
            return False
        return True

    def move(self, at, name):
        """Renames what waited in a folder: an object, or a tuple folder, which is gone through where the system refuses that."""
        try:
            if at.there is None:
                with made(self.root, at.names) as to:
                    os.rename(name, name, src_dir_fd=at.fd, dst_dir_fd=to)
            else:
                os.rename(name, name, src_dir_fd=at.fd, dst_dir_fd=at.there)
        except OSError as error:
            if len(at.names) == self.other.count:
                self.stay("/".join((*at.names, name)), error)
            else:
                self.move_below(at, name)

    def move_below(self, at, name):
        """Moves what is in a tuple folder that can't be renamed, by what stands at its place now."""
        with contextlib.ExitStack() as last:
            there = self.root.fd
            for above in (*at.names, name):
                there = last.enter_context(found_below(there, above))
            Moving(self.root, self.other, self.taken).enter(at, name, there, False)

    def stay(self, place, error):
        """Tells why an object stays."""
        if getattr(error, "errno", None) in ENDS:
            copied = f": copy {self.other} there by cp -a, and join the copy" if error.errno == errno.EXDEV else ""
            raise Refused(f"{self.root} takes no more of {self.other}: {error.strerror}{copied}") from error
        self.other.unjudged += 1
        say(f"{self.other}/{place}: it stays: {reason(error)}")


def join(paths):
    """Moves the objects of other roots into the first, and gives the status. What is against any of them is told at once."""
    open_at_most(3 * len(paths) + 256)
    roots, faults, taken = [], [], Taken()
    with contextlib.ExitStack() as last:
        for path in paths:
            try:
                roots.append(Root(path, last))
            except Refused as error:
                faults += error.args
        if faults:
            raise Refused(*faults)
        root, *others = roots
        agree(roots)
        held = set()
        for it in roots:
            hold(it, held, last)
        for other in others:
            Moving(root, other, taken).move_all()
        if taken.unwritten:
            raise Refused(f"{taken.unwritten}; all was moved that can be, and the same command lists what was taken")
        return 2 if any(other.unjudged or other.strays for other in others) else min(taken.count, 1)


def open_at_most(count):
    """Lets so many files be open at once, as far as the system allows it: a root and the folder that it stands in are open to the end."""
    soft, hard = resource.getrlimit(resource.RLIMIT_NOFILE)
    if soft != resource.RLIM_INFINITY and count > soft:
        with contextlib.suppress(OSError, ValueError):
            resource.setrlimit(resource.RLIMIT_NOFILE, (count if hard == resource.RLIM_INFINITY else min(count, hard), hard))
