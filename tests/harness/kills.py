"""Ends tools/roots.py at many moments, each time just before or just after one of its calls of the system, and runs it again.

Usage: kills.py ROOTS FOLDER COUNT [CALL]. FOLDER/before holds the roots of each trial, a/ocfl, b/ocfl and c/ocfl. With CALL it is ended only at calls
of that name. After each end every object has to stand whole at one place, and after the run that follows what stands has to be what one undisturbed
run leaves.
What isn't so is printed; the last line is the number of moments.
"""

import importlib.util
import os
import shutil
import signal
import sys

sys.dont_write_bytecode = True

import stores

CALLS = ("open", "mkdir", "rename", "rmdir", "stat", "fstat", "listdir", "read", "write", "close")
WORDS = ["join", "a/ocfl", "b/ocfl", "c/ocfl"]


def loaded(path):
    """The script as a module."""
    sys.path.insert(0, os.path.dirname(path))
    spec = importlib.util.spec_from_file_location("roots", path)
    module = importlib.util.module_from_spec(spec)
    spec.loader.exec_module(module)
    return module


class Counted:
    """The calls of the system, counted; at one of them the process ends."""

    def __init__(self, last):
        self.count, self.last = 0, last

    def wrap(self, name):
        """A call that is counted before and after it is made."""
        call = getattr(os, name)

        def counted(*words, **options):
            self.tick()
            done = call(*words, **options)
            self.tick()
            return done

        return counted

    def tick(self):
        self.count += 1
        if self.count == self.last:
            os.kill(os.getpid(), signal.SIGKILL)


def ran(module, folder, last, words=WORDS, output=os.devnull, names=CALLS):
    """Does what these words say in a folder, in a process of its own, which ends at that moment, and gives how it ended and the calls of these names
    that it made."""
    reading, writing = os.pipe()
    child = os.fork()
    if child == 0:
        os.chdir(folder)
        os.dup2(os.open(output, os.O_WRONLY | os.O_CREAT | os.O_TRUNC, 0o644), 1)
        os.dup2(os.open(os.devnull, os.O_WRONLY), 2)
        tell, calls = os.write, Counted(last)
        for name in names:
            setattr(os, name, calls.wrap(name))
        status = module.run(words)
        tell(writing, b"%d" % calls.count)
        os._exit(status)
    os.close(writing)
    told = os.read(reading, 64)
    os.close(reading)
    ended = os.waitpid(child, 0)[1]
    return (os.WEXITSTATUS(ended) if os.WIFEXITED(ended) else "killed"), int(told or 0)


def objects(tree):
    """Each object's files, wherever it stands, by root and place."""
    found = {}
    for path, held in tree.items():
        root, _, rest = path.partition("/ocfl/")
        place = "/".join(rest.split("/")[:4])
        if isinstance(held, bytes) and rest.count("/") > 3:
            found.setdefault((root, place), {})[rest[len(place) + 1 :]] = held
    return found


def same_objects(before, after):
    """Whether exactly the same objects stand, each whole, in whatever roots."""
    def each(tree):
        return sorted((place, sorted(files.items())) for (_, place), files in objects(tree).items())

    return each(before) == each(after)


def files_of(tree):
    """What stands, but for folders."""
    return {path: held for path, held in tree.items() if held != stores.DIR}


def main():
    module, folder, count, names = loaded(sys.argv[1]), sys.argv[2], int(sys.argv[3]), tuple(sys.argv[4:]) or CALLS
    before = stores.read_tree(f"{folder}/before")
    shutil.copytree(f"{folder}/before", f"{folder}/whole", symlinks=True)
    status, calls = ran(module, f"{folder}/whole", 0, names=names)
    wanted = stores.read_tree(f"{folder}/whole")
    if status != 1 or files_of(wanted) == files_of(before):
        print(f"undisturbed it ends with {status}")
    for number in range(count):
        last = 1 + number * calls // count
        shutil.copytree(f"{folder}/before", f"{folder}/now", symlinks=True)
        ended = ran(module, f"{folder}/now", last, names=names)[0]
        if ended != "killed" or not same_objects(before, stores.read_tree(f"{folder}/now")):
            print(f"at {last} of {calls}: ended {ended}, or an object isn't whole")
        again = ran(module, f"{folder}/now", 0)[0]
        found = stores.read_tree(f"{folder}/now")
        if again != status or found != wanted:
            print(f"at {last} of {calls}: the run after it ends with {again}: {list(stores.differences(found, wanted))[:3]}")
        shutil.rmtree(f"{folder}/now")
    print(min(count, calls))


if __name__ == "__main__":
    main()
