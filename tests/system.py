"""Random sequences of the calls that folders make of the system, held against the laws of docs/GUARANTEES.md.

Usage: system.py [SEED [SEQUENCES]]. For each place, a memory file system and the disk's own, it says the seed and how many
sequences and calls were made. A sequence is one case, and passes where it keeps the laws at each place. The last line is 'N passed, M failed'.
"""

import collections
import errno
import os
import random
import resource
import shutil
import signal
import stat
import sys
import tempfile

NAMES = ["a", "b", "c=d", "0", "é", "Z", "x" * 255, ".h"]
TOP = ()
FILE, DIR, OTHER = "file", "dir", "other"
MAKING = os.O_WRONLY | os.O_APPEND | os.O_CREAT | os.O_EXCL | os.O_CLOEXEC
READING = os.O_RDONLY | os.O_CLOEXEC


class Broken(Exception):
    """A law that the system didn't keep."""


def expect(law, wanted, given):
    """Holds what a call gave against what its law wants."""
    if wanted != given:
        raise Broken(f"{law}: wanted {wanted!r}, given {given!r}")


class Opened:
    """A file that was opened for reading: its bytes then, and the place where it stands, if that is known."""

    def __init__(self, fd, data):
        self.fd, self.data, self.place = fd, data, 0


class Sequence:
    """A folder, the tree that the laws say is in it, and the calls made so far."""

    def __init__(self, top, seed):
        self.top, self.random = top, random.Random(seed)
        self.tree = {TOP: (DIR, b"")}
        self.writing, self.reading = None, None
        self.calls = collections.Counter()
        self.make_links()

    def make_links(self):
        """Puts a link and a pipe there, which no call of a run makes."""
        os.symlink("nowhere", os.path.join(self.top, "link"))
        os.mkfifo(os.path.join(self.top, "pipe"))
        self.tree[("link",)] = self.tree[("pipe",)] = (OTHER, b"")

    def text(self, path):
        """The path of an entry: the folder's, a slash, and the names with slashes between."""
        return self.top + "/" + "/".join(path)

    def dirs(self):
        return [path for path, (kind, _) in self.tree.items() if kind == DIR]

    def files(self):
        return [path for path, (kind, _) in self.tree.items() if kind == FILE]

    def new_path(self):
        """A path where nothing stands, in a directory; None where the one that was drawn is taken."""
        path = self.random.choice(self.dirs()) + (self.random.choice(NAMES),)
        return None if path in self.tree else path

    def look(self):
        """A look changes nothing, and shows the kind of what stands there, links not followed, or that nothing does."""
        path = self.random.choice(self.dirs() + self.files()) + (self.random.choice(NAMES + ["link", "pipe"]),)
        if self.random.random() < 0.5:
            path = self.random.choice(list(self.tree))
        try:
            mode = os.lstat(self.text(path)).st_mode
            given = FILE if stat.S_ISREG(mode) else DIR if stat.S_ISDIR(mode) else OTHER
        except (FileNotFoundError, NotADirectoryError):
            given = None
        expect("look", self.tree.get(path, (None, b""))[0], given)

    def make_dir(self):
        """Where nothing stands, in a directory, an empty one is made; where something does, the call fails."""
        path = self.new_path()
        if path is None:
            taken = self.random.choice([path for path in self.tree if path])
            self.fails("make a directory", errno.EEXIST, lambda: os.mkdir(self.text(taken)))
            return
        os.mkdir(self.text(path))
        self.tree[path] = (DIR, b"")

    def make_file(self):
        """The same of a file, which is open then; the one that was open keeps its bytes."""
        path = self.new_path()
        if path is None:
            taken = self.random.choice([path for path in self.tree if path])
            self.fails("make a file", errno.EEXIST, lambda: os.open(self.text(taken), MAKING))
            return
        fd = os.open(self.text(path), MAKING, 0o666)
        self.close_writing()
        self.writing, self.tree[path] = (fd, path), (FILE, b"")

    def fails(self, law, error, call):
        """A call that has to fail so."""
        try:
            call()
        except OSError as failed:
            expect(law, error, failed.errno)
            return
        raise Broken(f"{law}: it didn't fail")

    def write(self):
        """A write adds so many bytes of the piece, from its start, behind the file's; a failed one none or some."""
        if self.writing is None:
            return
        fd, path = self.writing
        piece = self.random.randbytes(self.random.choice([0, 1, 100, 5000, 8192]))
        before = self.tree[path][1]
        try:
            count = os.write(fd, piece)
            expect("write within the piece", True, count <= len(piece))
            self.tree[path] = (FILE, before + piece[:count])
        except OSError:
            left = open(self.text(path), "rb").read()
            more = left[len(before):]
            expect("failed write", True, left.startswith(before) and piece.startswith(more))
            self.tree[path] = (FILE, left)

    def sync(self):
        """What puts a file or a directory onto the disk changes nothing."""
        if self.writing is not None:
            os.fsync(self.writing[0])
        path = self.random.choice([path for path in self.dirs()])
        fd = os.open(self.text(path) + "/..", READING)
        os.fsync(fd)
        os.close(fd)

    def finish(self):
        self.close_writing()

    def close_writing(self):
        if self.writing is not None:
            os.close(self.writing[0])
            self.writing = None

    def rename(self):
        """All at and below the first path comes to the second, where nothing stands, in a directory; files apart stay open."""
        stand = [path for path in self.tree if path and self.tree[path][0] != OTHER]
        to = self.new_path()
        if not stand or to is None:
            return
        start = self.random.choice(stand)
        if to[: len(start)] == start:
            self.fails("rename below itself", errno.EINVAL, lambda: os.rename(self.text(start), self.text(to)))
            return
        os.rename(self.text(start), self.text(to))
        moved = {path: self.tree.pop(path) for path in list(self.tree) if path[: len(start)] == start}
        self.tree.update({to + path[len(start):]: entry for path, entry in moved.items()})
        if self.writing and self.writing[1][: len(start)] == start:
            self.close_writing()

    def open_to_read(self):
        """A file is opened at its start, and changes nothing; one that can't be opened leaves the open one as it was."""
        files = self.files()
        if not files or self.random.random() < 0.2:
            taken = [path for path in [("nothing",), ("a", "nothing")] if path not in self.tree]
            self.fails("open", errno.ENOENT, lambda: os.open(self.text(taken[0]), READING))
            return
        path = self.random.choice([path for path in files if not (self.writing and self.writing[1] == path)] or files)
        if self.writing and self.writing[1] == path:
            return
        fd = os.open(self.text(path), READING)
        self.close_reading()
        self.reading = Opened(fd, self.tree[path][1])

    def read(self):
        """A read gives some of the next bytes, none only at the end."""
        if self.reading is None:
            return
        room = self.random.choice([1, 7, 4096, 8192])
        part = os.read(self.reading.fd, room)
        place, data = self.reading.place, self.reading.data
        expect("read", data[place: place + len(part)], part)
        expect("read at the end only", place >= len(data), not part)
        self.reading.place = place + len(part)

    def go_to(self):
        """After going to a place, what is left is what stands behind it."""
        if self.reading is None:
            return
        place = self.random.randrange(len(self.reading.data) + 2)
        expect("go", place, os.lseek(self.reading.fd, place, os.SEEK_SET))
        self.reading.place = place

    def list(self):
        """A listing gives the name of each entry once, in any order."""
        path = self.random.choice(self.dirs())
        wanted = sorted(entry[-1] for entry in self.tree if entry and entry[:-1] == path)
        expect("list", wanted, sorted(os.listdir(self.text(path))))

    def close_reading(self):
        if self.reading is not None:
            os.close(self.reading.fd)
            self.reading = None

    def found(self):
        """The tree as it stands on the disk."""
        tree, todo = {TOP: (DIR, b"")}, [TOP]
        while todo:
            path = todo.pop()
            with os.scandir(self.text(path)) as entries:
                for entry in entries:
                    here = path + (entry.name,)
                    if entry.is_dir(follow_symlinks=False):
                        tree[here] = (DIR, b"")
                        todo.append(here)
                    elif entry.is_file(follow_symlinks=False):
                        with open(entry.path, "rb") as file:
                            tree[here] = (FILE, file.read())
                    else:
                        tree[here] = (OTHER, b"")
        return tree

    def step(self):
        """One call, and the tree after it."""
        calls = [self.look, self.make_dir, self.make_file, self.write, self.write, self.finish, self.rename]
        calls += [self.open_to_read, self.read, self.read, self.go_to, self.list]
        call = self.random.choice(calls + ([self.sync] if self.random.random() < 0.02 else []))
        call()
        self.calls[call.__name__] += 1
        expect(f"the tree after {call.__name__}", self.tree, self.found())

    def run(self, steps):
        """So many calls; some sequences have a limit on the sizes of files, so that writes are short and fail."""
        soft, hard = resource.getrlimit(resource.RLIMIT_FSIZE)
        if self.random.random() < 0.3:
            resource.setrlimit(resource.RLIMIT_FSIZE, (self.random.choice([3, 4000, 9000]), hard))
        try:
            for _ in range(steps):
                self.step()
        finally:
            resource.setrlimit(resource.RLIMIT_FSIZE, (soft, hard))
            self.close_writing()
            self.close_reading()


def kind_of(place):
    """The type of the file system that a folder is on."""
    with open("/proc/mounts", encoding="utf-8", errors="surrogateescape") as mounts:
        rows = [line.split()[1:3] for line in mounts]
    place = os.path.realpath(place)
    above = [row for row in rows if place == row[0] or place.startswith(row[0].rstrip("/") + "/")]
    return max(above, key=lambda row: len(row[0]))[1] if above else "unknown"


def run_place(place, seed, sequences):
    """So many sequences in new folders at a place; the numbers of those that didn't keep the laws."""
    broke, calls = set(), collections.Counter()
    for number in range(sequences):
        top = tempfile.mkdtemp(prefix="laws", dir=place)
        sequence = Sequence(top, f"{seed}/{number}")
        try:
            sequence.run(30)
        except (Broken, OSError) as broken:
            broke.add(number)
            print(f"system: {place}, seed {seed}/{number}: {broken}", flush=True)
        finally:
            calls.update(sequence.calls)
            shutil.rmtree(top)
    made = " ".join(f"{name} {count}" for name, count in sorted(calls.items()))
    print(f"system: {kind_of(place)} at {place}, seed {seed}: {sequences} sequences, {sum(calls.values())} calls ({made})", flush=True)
    return broke


def places_here():
    """The places to try, one on each device."""
    places = [place for place in ["/dev/shm", tempfile.gettempdir(), "/var/tmp"] if os.access(place, os.W_OK)]
    return list({os.stat(place).st_dev: place for place in reversed(places)}.values())


def run_cases(seed=20261123, sequences=1000, places=None):
    """Each sequence is one case, over all the places, however many a machine has: how many kept the laws at each, and how many didn't."""
    signal.signal(signal.SIGXFSZ, signal.SIG_IGN)
    broke = set().union(*(run_place(place, seed, sequences) for place in places or places_here()))
    return sequences - len(broke), len(broke)


def main():
    passed, failed = run_cases(*map(int, sys.argv[1:]))
    print(f"{passed} passed, {failed} failed", flush=True)
    sys.exit(1 if failed else 0)


if __name__ == "__main__":
    main()
