"""How the cases of `migrate` are run: the folders of each, the program on them, and what it must leave.

A case has a store and one or more runs over it and one destination. Of each run are compared, byte for byte: standard
output, standard error, every entry of the destination, and that the source stands as it stood; and the status.
"""

import contextlib
import os
import re
import subprocess
import sys
import tempfile

import lanes
import stores
from tally import Skipped, Tally, faults_of, needs

TEXTS = {
    1: "cannot read the source",
    2: "cannot write the destination",
    3: "cannot write the output",
    5: "not a Pairtree 0.1 store",
    6: "the prefix file is not a text of at most 1024 bytes",
    7: "a staging directory is left in the destination",
    8: "the ocfl directory of the destination cannot be used",
    9: "a source file changed during the run",
}
NO_STORE = "it holds no file pairtree_version0_1 or no directory pairtree_root"
MEANT = ("--created", "2024-05-01T12:00:00Z", "--name", "Ada")
CAUSES = ("root", "empty", "split", "past", "name", "utf8", "other", "limit", "reserved")
# The time at the end of a summary: a test asks for none.
TOOK = re.compile(rb"(pairtree2ocfl: .*), \d\d?:\d\d\n")


class Run:
    """One run and what must come of it.

    `grow` and `plant` are changed in the source and in the destination before it; `words` stand before the two folders;
    `source` and `dest` name the folders, from the folder of the case, which is put before them unless `relative`;
    `output` is where standard output goes; `commands` are run before it. `top` is the path of a fault at the top of a folder, given as the folders
    are, and its reason: these are told too.
    """

    def __init__(self, out, dest, status, err=b"", **options):
        self.out = out
        self.dest = dest
        self.status = status
        self.err = err
        self.grow = options.pop("grow", {})
        self.plant = options.pop("plant", {})
        self.words = options.pop("words", ())
        self.meant = options.pop("meant", MEANT)
        self.source = options.pop("source", "s")
        self.dest_name = options.pop("dest_name", "d")
        self.relative = options.pop("relative", False)
        self.output = options.pop("output", "pipe")
        self.commands = options.pop("commands", ())
        self.top = options.pop("top", None)
        if options:
            raise TypeError(f"no such option of a run: {options}")

    def command(self, program, folder):
        """The program with its words."""
        names = (self.source, self.dest_name)
        folders = names if self.relative else [f"{folder}/{name}" for name in names]
        return [program, "migrate", *self.meant, *self.words, *folders]

    def said(self, folder):
        """What standard error must get."""
        if self.top is None:
            return self.err
        path, reason = self.top
        return self.err + f"pairtree2ocfl: {path if self.relative else f'{folder}/{path}'}: {reason}\n".encode()


class Case:
    """A store, what stands in the destination, and the runs over both.

    `mounts` are made before the runs and taken away after them; no two readings of what is `unsteady` are alike.
    """

    def __init__(self, name, source, *runs, dest=None, mounts=(), unsteady=()):
        self.name = name
        self.source = source
        self.runs = runs
        self.dest = dest or {}
        self.mounts = mounts
        self.unsteady = unsteady

    def faults(self, program):
        """What the program does that it should not."""
        with contextlib.ExitStack() as last:
            folder = last.enter_context(tempfile.TemporaryDirectory(prefix="p"))
            last.callback(subprocess.run, ["rm", "-rf", f"{folder}/s", f"{folder}/d"], check=True)
            stores.build(folder, {"s": stores.DIR, "d": stores.DIR})
            stores.build(f"{folder}/s", self.source)
            for mount in self.mounts:
                mount_below(folder, mount, last)
            stores.build(f"{folder}/d", self.dest)
            faults = []
            for number, run in enumerate(self.runs, 1):
                faults += [f"run {number}: {fault}" for fault in self.run_faults(program, folder, run)]
            return faults

    def outcome(self, program):
        """The same, and what went wrong where the case could not be run to its end."""
        try:
            return self.faults(program)
        except (OSError, subprocess.SubprocessError) as error:
            return [repr(error)]

    def run_faults(self, program, folder, run):
        """What one run does that it should not."""
        stores.build(f"{folder}/s", run.grow)
        stores.build(f"{folder}/d", run.plant)
        for command in run.commands:
            subprocess.run(command, cwd=folder, check=True)
        wanted = self.wanted(folder, run)
        status, out, err = started(run.command(program, folder), folder, run.output)
        if status != run.status:
            yield f"the status is {status}, not {run.status}"
        for stream, found, right in (("standard output", out, run.out), ("standard error", timeless(err), run.said(folder))):
            if not (right(found) if callable(right) else found == right):
                yield f"{stream} is {stores.shown(found)}" + ("" if callable(right) else f", not {stores.shown(right)}")
        yield from stores.differences(self.steady(stores.read_tree(folder)), wanted)

    def wanted(self, folder, run):
        """All that must stand after a run: the source as it stands before it, and the destination of the run."""
        source = {path: content for path, content in stores.read_tree(folder).items() if path.split("/")[0] == "s"}
        dest = {f"d/{path}": content for path, content in run.dest.items()}
        return {**self.steady(source), **stores.with_folders({"d": stores.DIR, **dest})}

    def steady(self, tree):
        """A tree without the entries that no two readings give alike."""
        return {path: content for path, content in tree.items() if path not in self.unsteady}


def as_nobody():
    """The words before a command that run it as another user. The case is skipped where that can't be."""
    if os.geteuid() != 0:
        raise Skipped("only root can run a command as another user")
    needs("setpriv")
    return ("setpriv", "--reuid=65534", "--keep-groups")


def mount_below(folder, mount, last):
    """Makes a mount below the folder, to be taken away at the end. The case is skipped where the system doesn't allow it."""
    where = f"{folder}/{mount[-1]}"
    done = subprocess.run(["mount", *mount[:-1], where], capture_output=True)
    if done.returncode != 0:
        reason = " ".join(done.stderr.decode(errors="replace").replace(folder, "").split())
        raise Skipped(f"mount {mount[0]} {mount[1]} can't be made: {reason}")
    last.callback(subprocess.run, ["umount", "-l", where], check=True)


def started(command, folder, output):
    """The status and both streams of a command. What goes to a full or closed output is not seen."""
    options = {"cwd": folder, "stdin": subprocess.DEVNULL, "stderr": subprocess.PIPE, "timeout": 300}
    if output == "pipe":
        ended = subprocess.run(command, stdout=subprocess.PIPE, **options)
        return ended.returncode, ended.stdout, ended.stderr
    if output == "a closed output":
        ended = subprocess.run(["sh", "-c", 'exec "$@" >&-', "sh", *command], **options)
        return ended.returncode, b"", ended.stderr
    if output == "a closed pipe":
        reading, stdout = os.pipe()
        os.close(reading)
    else:
        stdout = os.open(output, os.O_WRONLY)
    try:
        ended = subprocess.run(command, stdout=stdout, **options)
    finally:
        os.close(stdout)
    return ended.returncode, b"", ended.stderr


def ends(entries, dest, **options):
    """A run that comes to its end, with these lines before the last one."""
    status = 0 if all(entry["as"] == "done" for entry in entries) else 1
    return Run(stores.whole_log(*entries), dest, status, **options)


def timeless(err):
    """Standard error with no time in a summary."""
    return TOOK.sub(rb"\1\n", err)


def summary(*entries):
    """The summary of a run whose log has these lines before the last one, without its time."""
    kinds = [entry["as"] for entry in entries]
    causes = [entry["cause"] for entry in entries if entry["as"] == "skip"]
    parts = ", ".join(f"{cause} {causes.count(cause)}" for cause in CAUSES if cause in causes)
    files, length = (sum(entry.get(key, 0) for entry in entries) for key in ("files", "bytes"))
    text = f"{kinds.count('done')} done, {kinds.count('present')} present, {len(causes)} skipped{f' ({parts})' if parts else ''}"
    return f"pairtree2ocfl: {text}, {files} file{'s' * (files != 1)}, {sized(length)}\n".encode()


def sized(length):
    """So many bytes, in the largest unit that they fill, with one decimal that isn't rounded up."""
    if length < 1000:
        return f"{length} byte{'s' * (length != 1)}"
    power = min(len(str(length)) - 1, 12) // 3
    tenths = length * 10 // 1000**power
    return f"{tenths // 10}.{tenths % 10} {'kMGT'[power - 1]}B"


def fault(number, dest, *entries, **options):
    """A run that a fault ends, after these lines. Fault 5 is one of SOURCE itself."""
    if number == 5:
        options.setdefault("top", (options.get("source", "s"), NO_STORE))
    text = f"pairtree2ocfl: fault {number}: {TEXTS[number]}\n".encode()
    return Run(stores.lines(*entries), dest, 3, text, **options)


def refused(reason, meant, *words):
    """A run whose words are refused by the program's own tests, so that nothing is done."""
    return Run(b"", {}, 2, f"pairtree2ocfl: {reason}\n".encode(), meant=meant, words=words)


def refused_by_parser(meant, *words, **options):
    """A run whose words the parser refuses, so that nothing is done."""
    return Run(b"", {}, 2, lambda err: err.startswith(b"error: "), meant=meant, words=words, **options)


def run_all(cases, program, **options):
    """Runs each case, says what is wrong, and gives what became of them."""
    tally = Tally(0, 0)
    sys.stdout.flush()
    for case, outcome in zip(cases, lanes.outcomes(cases, os.path.abspath(program), **options)):
        found = faults_of(outcome)
        skipped = isinstance(found, Skipped)
        for text in () if skipped else found:
            print(f"{case.name}: {text}")
        said = f"skipped: {found}" if skipped else "FAILED" if found else "ok"
        print(f"migrate {case.name} ... {said}", flush=True)
        tally = tally.after(case.name, found)
    return tally
