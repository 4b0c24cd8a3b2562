"""Each request for memory of the built program refused in turn: its answer, what is left, and the run after it.

Usage: allocations.py PROGRAM [EVERY]. tests/harness/refuse.c, a library of C that stands before the system's allocator,
refuses the request of a number and tells it. With EVERY only the first request and each so many after it are refused. Of
each case it is said how many that were, of how many, and how many were passed over: these were for a notice on standard
error, which is then left out, or the one that the toolchain makes ahead for the words, and does without. Where there is no
C compiler the cases are skipped. The last line is 'N passed, M failed, K skipped'.
"""

import collections
import json
import os
import shutil
import subprocess
import sys
import tempfile

HERE = os.path.dirname(os.path.abspath(__file__))
sys.path += [f"{HERE}/harness"]
sys.dont_write_bytecode = True

import lanes
import stores
from running import MEANT, timeless
from tally import Lacking, Skipped, Tally, faults_of

OUT_OF_MEMORY = b"pairtree2ocfl: fault 4: out of memory\n"

# How it is told that no object was met of an identifier of a list, and what is told in its place where there is no memory for that.
UNMET = b"pairtree2ocfl: no object was met: "
UNSHOWN = (UNMET + b"an identifier that there is no memory to show\n",)

# A name that is too long by a byte to be held in the value of a name, a longer one, and the longest that there is.
LONGER, LONG, LONGEST = "b" * 22, "c" * 36, "d" * 255

# An event's file, and the one that is to replace it.
EVENTS = ("ev", "ev.part")

# An identifier, and the folders of its object in a store.
IDENTIFIER = "an-identifier-of-thirty-six-bytes-01"
FOLDERS = "/".join(IDENTIFIER[at : at + 2] for at in range(0, len(IDENTIFIER), 2)) + f"/{LONGER}"

# One object is in the first of two shares, and the other in the second.
SMALL = {"ab/d/obj/a.txt": b"abc"}
ENTRIES = {
    **SMALL,
    "gh/i/loose.txt": b"loose",
    f"{FOLDERS}/{LONGER}/{LONG}/{LONGEST}/{LONGER}/{LONG}/{LONGEST}": b"deep",
    f"{FOLDERS}/{LONGER}/{LONG}/{LONGEST}/{LONGER}/{LONG}/e": b"equal",
    f"{FOLDERS}/{LONG}": b"equal",
    f"{FOLDERS}/empty": b"",
}
STORES = {"s": stores.store(ENTRIES, prefix=b"uc1."), "small": stores.store(SMALL, prefix=b"uc1.")}

# What begins the name of what a root has beside its objects.
OF_ROOT = ("ocfl/0=", "ocfl/ocfl_layout", "ocfl/extensions")


# Of a case: how many requests there are, how many of them were refused and were passed over, and what is wrong.
Swept = collections.namedtuple("Swept", "requests refused passed faults")


class Program:
    """The program, and the library that refuses one of its requests."""

    def __init__(self, path, shim):
        self.path, self.shim = path, shim

    def run(self, folder, words, number=None, stdin=b""):
        """Its status and both streams, and how many requests were told: all with 0, the refused one with its number."""
        with tempfile.TemporaryFile(dir=folder) as told:
            env = {} if number is None else {"LD_PRELOAD": self.shim, "REFUSE": str(number), "TOLD": str(told.fileno())}
            how = {"cwd": folder, "input": stdin, "capture_output": True, "timeout": 300, "env": env}
            done = subprocess.run([self.path, *words], pass_fds=(told.fileno(),), **how)
            return (done.returncode, done.stdout, timeless(done.stderr)), os.fstat(told.fileno()).st_size


class Case:
    """Words of the program by which no folder is touched. By some of them, `notices`, standard error is told more than a fault."""

    def __init__(self, name, words, notices=(), stdin=b""):
        self.name, self.words, self.notices, self.stdin = name, words, notices, stdin

    def prepare(self, program, folder):
        """Keeps what the program answers where nothing is refused, and how many requests it makes, also without notices."""
        self.quiet = program.run(folder, [word for word in self.words if word not in self.notices], 0, self.stdin)[1]
        self.whole, self.requests = self.run_anew(program, folder, 0)

    def reset(self, folder):
        """Makes the destination as it was before, where there is one."""

    def run_anew(self, program, folder, number):
        """Runs the command where none was, with the request of a number refused."""
        self.reset(folder)
        return program.run(folder, self.words, number, self.stdin)

    def try_one(self, program, folder, number):
        """Refuses the request of a number. Whether it was passed over, and what is wrong."""
        answer, told = self.run_anew(program, folder, number)
        if told != 1:
            return False, ["it was not made"]
        if self.is_passed_over(answer):
            return True, []
        return False, [] if self.is_want(answer) or self.is_unshown(answer) else [f"the answer is {stores.shown(answer)}"]

    def is_passed_over(self, answer):
        """Whether all is answered as where nothing is refused, if a notice is left out."""
        notices = iter(self.whole[2].splitlines())
        return answer[:2] == self.whole[:2] and all(line in notices for line in answer[2].splitlines())

    def is_unshown(self, answer):
        """Whether all is answered as where nothing is refused, but of which identifier no object was met."""
        return answer[:2] == self.whole[:2] and self.whole[2].startswith(UNMET) and answer[2] in UNSHOWN

    def is_want(self, answer):
        """Whether want of memory is answered, and no other fault, after a front of what is written."""
        status, out, err = answer
        others = [line for line in err.splitlines(keepends=True) if line != OUT_OF_MEMORY]
        told = len(err) - sum(map(len, others)) == len(OUT_OF_MEMORY)
        quiet = not others or self.notices and not any(b": fault " in line for line in others)
        return status == 3 and told and quiet and self.whole[1].startswith(out)

    def after_the_last(self, program, folder):
        """What is wrong where the number is one more than there are requests."""
        answer, told = self.run_anew(program, folder, self.requests + 1)
        return [] if (answer, told) == (self.whole, 0) else [f"with no request refused: {stores.shown(answer)}"]

    def sweep(self, program, every):
        """Refuses the first request, and each so many after it, and then none."""
        with tempfile.TemporaryDirectory(prefix="a", dir=memory_folder()) as folder:
            self.prepare(program, folder)
            refused, passed, faults = 0, 0, []
            for number in range(1, self.requests + 1, every):
                over, wrong = self.try_one(program, folder, number)
                refused, passed = refused + 1, passed + over
                faults += [f"request {number} of {self.requests}: {fault}" for fault in wrong]
            faults += self.after_the_last(program, folder)
        if passed > 1 + self.requests - self.quiet:
            faults.append(f"{passed} requests were passed over")
        return Swept(self.requests, refused, passed, faults)


class Looking(Case):
    """A command over a store and a destination that changes neither. `stands` is what was carried into the destination before."""

    def __init__(self, name, command, stands, notices):
        super().__init__(f"{name}, over {'an empty folder' if stands is None else 'a root'}", [*command, "s", "d"], notices)
        self.stands = stands

    def prepare(self, program, folder):
        stores.build(folder, {"d": stores.DIR, "before": stores.DIR})
        for name, entries in STORES.items():
            stores.build(f"{folder}/{name}", entries)
        if self.stands is not None:
            program.run(folder, ["migrate", *MEANT, self.stands, "before"])
        stores.build(folder, {"ids": b"uc1.abd\nuc1.none\n"})
        with open(f"{folder}/log", "wb") as log:
            log.write(program.run(folder, ["migrate", *MEANT, "--dry-run", "s", "d"])[0][1])
        self.was, self.store = stores.read_tree(f"{folder}/before"), stores.read_tree(f"{folder}/s")
        self.reset(folder)
        super().prepare(program, folder)
        self.left = stores.read_tree(f"{folder}/d")

    def reset(self, folder):
        shutil.rmtree(f"{folder}/d")
        shutil.copytree(f"{folder}/before", f"{folder}/d")
        forget_events(folder)

    def try_one(self, program, folder, number):
        over, faults = super().try_one(program, folder, number)
        faults += stores.differences(stores.read_tree(f"{folder}/s"), self.store)
        faults += [f"an event is {event!r}" for event in events(folder) if not is_whole(event)]
        return over, [*faults, *self.left_faults(program, folder, over)]

    def left_faults(self, program, folder, over):
        """What is wrong with what is left in the destination."""
        return stores.differences(stores.read_tree(f"{folder}/d"), self.was)


class Checking(Looking):
    """A check with these words too, which has no destination."""

    def __init__(self, *words):
        notices = [word for word in words if word in NOTICES]
        super().__init__(" ".join(["a check", *words]), ["check", "--read", "--ignore", "loose.txt", *words], None, notices)
        self.words.remove("d")


class CheckingPast(Case):
    """A check of a store in which names aren't UTF-8."""

    def __init__(self):
        super().__init__("a check past names that aren't UTF-8", ["check", "--ignore", "loose.txt", "s"])

    def prepare(self, program, folder):
        stores.build(f"{folder}/s", stores.store({"ab/c/obj/l": stores.Link("none"), "ab/c/loose.txt": b"", "ab/d/obj/f": b"1"}))
        for name in (b"\xff", b"a" * 60 + b"\xe9", b"b\xfe"):
            with open(f"{folder}/s/pairtree_root/ab/".encode() + name, "wb"):
                pass
        super().prepare(program, folder)


class Writing(Looking):
    """A run, after which another carries the rest."""

    def left_faults(self, program, folder, over):
        left = stores.read_tree(f"{folder}/d")
        if over:
            return [*stores.differences(left, self.left)]
        beside = {path: content for path, content in left.items() if path.split("/")[0] != "staging"}
        return [*self.parts(beside), *self.rerun_faults(program, folder, beside)]

    def parts(self, beside):
        """What is left, beside `staging`, that isn't so in the end, or what stood and is gone; and what is whole only in part."""
        if any(self.left.get(path) != content for path, content in beside.items()) or self.was.items() - beside.items():
            yield f"what is left is {stores.shown(beside)}"
        places = [(f"ocfl/{entry['to']}/",) for entry in self.entries() if "to" in entry]
        for names in (OF_ROOT, *places):
            if 0 < sum(path.startswith(names) for path in beside) < sum(path.startswith(names) for path in self.left):
                yield f"only a part is left of {names}"

    def entries(self):
        """The lines of the log where nothing is refused, but for the last."""
        return [json.loads(line) for line in self.whole[1].splitlines()[:-1]]

    def rerun_faults(self, program, folder, beside):
        """What is wrong with a second run, after `staging` is taken away."""
        shutil.rmtree(f"{folder}/d/staging", ignore_errors=True)
        forget_events(folder)
        answer, _ = program.run(folder, self.words)
        entries = [rewritten(entry, beside) for entry in self.entries()]
        status = int(UNMET in self.whole[2] or any(entry["as"] != "done" for entry in entries))
        if answer[:2] != (status, stores.whole_log(*entries)):
            yield f"the second run answers {stores.shown(answer)}"
        yield from stores.differences(stores.read_tree(f"{folder}/d"), self.left)


def events(folder):
    """The texts of an event's file and of the one beside it, of those that stand."""
    for name in EVENTS:
        if os.path.exists(f"{folder}/{name}"):
            with open(f"{folder}/{name}", encoding="utf-8") as file:
                yield file.read()


def forget_events(folder):
    """Takes the event's files away, since one that stands is refused."""
    for name in EVENTS:
        if os.path.exists(f"{folder}/{name}"):
            os.remove(f"{folder}/{name}")


def is_whole(event):
    """Whether a text is a record, as it begins or with how it ended."""
    keys = json.loads(event).keys() if event.endswith("}\n") else ()
    named = {"as", "begin", "options", "source"} <= keys and ("dest" in keys) == ('"as":"check"' not in event)
    return named and ("end" in keys) == ("status" in keys)


def rewritten(entry, beside):
    """A line of the log as it is where its object stands already, if it does."""
    stands = entry["as"] == "done" and f"ocfl/{entry['to']}" in beside
    return stores.present(entry["at"], entry["id"]) if stands else entry


def memory_folder():
    """A folder in memory, where there is one: a disk would be waited for with --sync."""
    return "/dev/shm" if os.access("/dev/shm", os.W_OK) else None


# Options, and those that `audit` hasn't.
OPTIONS = [
    ([], []),
    (["--gather", "--verbose"], ["--sync"]),
    (["--share", "1/2"], []),
    (["--share", "1/2", "--by-folders", "2"], []),
    (["--list", "ids"], []),
    (["--progress", "always", "--expect", "log", "--interval", "86400"], []),
    (["--event", "ev"], []),
]
NOTICES = ("--verbose", "--progress", "always", "--expect", "log")


def cases_over(stands):
    """A run, a rehearsal and an audit with each of the options, over a destination into which this was carried; for an audit all was."""
    for options, of_run in OPTIONS:
        words = [*options, *of_run]
        notices = [word for word in words if word in NOTICES]
        yield Writing(" ".join(["a run", *words]), ["migrate", *MEANT, *words], stands, notices)
        yield Looking(" ".join(["a rehearsal", *words]), ["migrate", *MEANT, "--dry-run", *words], stands, notices)
        yield Looking(" ".join(["an audit", *options]), ["audit", *options], "s" if stands else None, notices)


CASES = [
    Case("names", ["names", "abc"]),
    Case("names of the lines on standard input", ["names", "--prefix", "uc1.", "-"], stdin=f"abc\n{IDENTIFIER * 9}\r\n{LONGER}".encode()),
    Case("names of a long identifier", ["names", "--prefix", "uc1.", "--tuple-size", "2", IDENTIFIER * 9]),
    Case("help", ["migrate", "--help"]),
    Case("the version", ["--version"]),
    Case("a check of what isn't there", ["check", "none"]),
    Checking(),
    Checking("--event", "ev"),
    Checking("--verbose", "--progress", "always", "--interval", "86400"),
    Checking("--share", "1/2", "--by-folders", "2", "--only", "uc1.ab"),
    Checking("--list", "ids"),
    CheckingPast(),
    *cases_over(None),
    *cases_over("small"),
    Looking("an audit --extra, of an object that is ignored in the store", ["audit", "--extra", "--ignore", "ab"], "s", ()),
    Looking("an audit --quick", ["audit", "--quick"], "s", ()),
    Looking("an audit --quick of what was never carried", ["audit", "--quick"], None, ()),
]


def compiler():
    """A C compiler that has the system's headers, or None."""
    found = shutil.which("cc")
    if found is None:
        return None
    tried = subprocess.run([found, "-E", "-"], input=b"#include <dlfcn.h>\n", capture_output=True)
    return found if tried.returncode == 0 else None


class Sweep:
    """A case as tests/harness/lanes.py runs it: the first of its requests is refused, and each so many after it."""

    def __init__(self, case, every):
        self.case, self.every = case, every

    def outcome(self, program):
        """What became of the requests; or why that can't be tried."""
        if program is None:
            raise Lacking("no C compiler is here")
        return self.case.sweep(program, self.every)


def run_cases(path, every=1):
    """Runs each case, four at a time, says what is wrong, and gives what became of them."""
    tally = Tally(0, 0)
    sys.stdout.flush()
    with tempfile.TemporaryDirectory() as folder:
        swept = lanes.outcomes([Sweep(case, every) for case in CASES], built(path, folder))
        for case, outcome in zip(CASES, swept):
            tally = tally.after(f"allocations of {case.name}", faults_of(said(case, every, outcome)))
    return tally


def built(path, folder):
    """The program with the library that stands before its allocator, or None where no compiler is."""
    found, shim = compiler(), f"{folder}/refuse.so"
    if found is None:
        return None
    subprocess.run([found, "-shared", "-fPIC", "-O1", f"{HERE}/harness/refuse.c", "-o", shim, "-ldl"], check=True)
    return Program(os.path.abspath(path), shim)


def said(case, every, outcome):
    """Says what came of a case, and gives its faults, or why it was skipped."""
    if isinstance(outcome, Skipped):
        print(f"allocations of {case.name} ... skipped: {outcome}", flush=True)
        return outcome
    counts, faults = "its process ended", outcome
    if isinstance(outcome, Swept):
        some = "" if every == 1 else f" (the first and each {every}th after it)"
        counts = f"{outcome.refused} of {outcome.requests} requests refused{some}, {outcome.passed} passed over"
        faults = outcome.faults
    for fault in faults[:9]:
        print(f"allocations of {case.name}: {fault}")
    print(f"allocations of {case.name}: {counts} ... {'FAILED' if faults else 'ok'}", flush=True)
    return faults


def main():
    tally = run_cases(sys.argv[1], *map(int, sys.argv[2:]))
    print("\n".join(tally.last_lines()))
    sys.exit(1 if tally.failed else 0)


if __name__ == "__main__":
    main()
