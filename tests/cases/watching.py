"""Cases of what is shown while a run, an audit or a check goes on, and of the summary at its end.
"""

import contextlib
import os
import pty
import re
import subprocess
import time

import stores
from alone import Alone, differs, many, run
from running import MEANT, summary, timeless
from stores import DIR, ONE_DONE, Link, build

TIME = rb"(?:\d+ h \d\d? min|\d\d?:\d\d)"
SIZE = rb"(?:\d\d?\d? bytes?|\d\d?\d?(?:,\d\d\d)*\.\d [kMGT]B)"
NUMBER = rb"\d\d?\d?(?:,\d\d\d)*"
COUNTS = {
    "migrate": rb"%s done, %s present, %s skipped" % (NUMBER, NUMBER, NUMBER),
    "audit": rb"%s same, %s not the same, %s skipped" % (NUMBER, NUMBER, NUMBER),
    "check": rb"(?:1 file or folder|%s files and folders)" % NUMBER,
}
SPENT = rb", %s, %s/s, %s/s, %s read, at [^\r\n]*" % (TIME, NUMBER, SIZE, SIZE)
AHEAD = rb"(\d+) %%(?:, (%s) left)?, " % TIME
HERE = {name: value for name, value in os.environ.items() if name != "COLUMNS"}


def line_of(command, ahead=b""):
    """A line that shows how far a command is."""
    return re.compile(ahead + COUNTS[command] + SPENT)


class Screen:
    """A terminal of so many columns. Of its codes it knows those of the program: to clear the rest of a row, and to wrap what is longer or not."""

    CODES = re.compile(rb"\x1b\[(K|\?7l|\?7h)|([^\x1b])", re.DOTALL)

    def __init__(self, columns):
        self.columns = columns
        self.rows, self.column, self.wraps = [[]], 0, True

    def texts(self, said):
        """The rows that stand there each time that the program goes back to the start of one."""
        for code, letter in self.CODES.findall(said):
            if letter == b"\r":
                yield [b"".join(row) for row in self.rows]
            self.take(code, letter)

    def take(self, code, letter):
        """Does what a code, or else a letter, has it do."""
        row = self.rows[-1]
        if code == b"K":
            del row[self.column :]
        elif code:
            self.wraps = code == b"?7h"
        elif letter == b"\r":
            self.column = 0
        elif letter == b"\n" or (self.column == self.columns and self.wraps):
            self.rows.append([] if letter == b"\n" else [letter])
            self.column = len(self.rows[-1])
        else:
            self.column = min(self.column, self.columns - 1)
            row[self.column :] = [*row[self.column : self.column], letter]
            self.column += 1


def on_terminal(program, folder, *words, output=True, **env):
    """What standard error gets, where it is a terminal, in a run over many objects."""
    many(folder, b"x" * 20_000)
    ours, theirs = pty.openpty()
    with open(f"{folder}/log", "wb") as log:
        command = [program, "migrate", *MEANT, *words, "s", "d"]
        how = {"cwd": folder, "stdout": log if output else theirs, "stderr": theirs, "env": {**HERE, "TERM": "xterm", **env}}
        with subprocess.Popen(command, **how) as child:
            os.close(theirs)
            said = b""
            with contextlib.suppress(OSError):
                while piece := os.read(ours, 65536):
                    said += piece
            child.wait(60)
    os.close(ours)
    subprocess.run(["rm", "-rf", f"{folder}/d"], check=True)
    os.mkdir(f"{folder}/d")
    return child.returncode, said


# The summary of a run over many objects, with the length of all.
MANY = b"pairtree2ocfl: 1,297 done, 0 present, 0 skipped, 1,297 files, %s\n"


def shown(program, folder):
    """On a terminal a line is written over, and taken away before the summary; none where the log goes there too, by `never`, or by `--quiet`."""
    status, said = on_terminal(program, folder)
    last = said.rpartition(b"\r\x1b[K")[2].replace(b"\r\n", b"\n")
    faults = differs(status=(status, 0), lines=(said.count(b"\n"), 1), last=(timeless(last), MANY % b"25.9 MB"))
    for words, output in ((("--progress", "never"), True), (("-q",), True), ((), False)):
        status, said = on_terminal(program, folder, *words, output=output)
        faults += differs(status=(status, 0), shown=(b"\x1b" in said, False))
    return faults


def wide(program, folder):
    """A line has one row of the terminal, however wide that is, with as much of it as there is room for, the front at least."""
    faults = []
    for columns, env in ((40, {}), (200, {}), (200, {"COLUMNS": "40"}), (200, {"TERM": "dumb"}), (200, {"TERM": ""}), (40, {"COLUMNS": "x"})):
        status, said = on_terminal(program, folder, **env)
        texts = list(Screen(columns).texts(said.rpartition(b"\r\x1b[K")[0]))
        faults += differs(**{f"{columns} {env} status": (status, 0), "rows": ({len(rows) for rows in texts}, {1})})
        room = {"40": 39, "dumb": 79, "": 79}.get(env.get("COLUMNS") or env.get("TERM", "xterm"), columns)
        full = [rows[0] for rows in texts if rows[0]]
        whole = line_of("migrate")
        right = [len(text) <= room and (whole.fullmatch(text) if room > 100 else re.match(COUNTS["migrate"], text)) for text in full]
        faults += differs(shown=(bool(full), True), right=(all(right), True)) + [f"it is {full[0]!r}" for one in right[:1] if not one]
    return faults


def seldom(program, folder):
    """Elsewhere a line every ten seconds, where it is asked for."""
    many(folder)
    command = [program, "migrate", *MEANT, "--progress", "always", "s", "d"]
    with subprocess.Popen(command, cwd=folder, stdout=subprocess.PIPE, stderr=subprocess.PIPE) as child:
        time.sleep(11)
        out, err = child.communicate(timeout=60)
    quiet = run(program, folder, "--progress", "auto")
    *told, last = err.splitlines(keepends=True)
    right = told and all(line_of("migrate", b"pairtree2ocfl: ").fullmatch(line.rstrip()) for line in told)
    faults = differs(status=(child.returncode, 0), lines=(out.count(b"\n"), 6**4 + 2), quiet=(quiet.stderr, b""), last=(timeless(last), MANY % b"3 bytes"))
    return faults if right else [*faults, f"standard error is {err!r}"]


def short(program, folder):
    """Of what is shorter than the interval the summary alone is shown, and after a fault its last state."""
    faults = []
    for command in (["migrate", *MEANT, "--dry-run"], ["migrate", *MEANT], ["audit"]):
        done = started(program, folder, *command, "--progress", "always")
        faults += differs(**{" ".join(command): ((done.returncode, timeless(done.stderr)), (0, summary(ONE_DONE) if command != ["audit"] else SAME))})
    os.mkdir(f"{folder}/d/staging")
    done = started(program, folder, "migrate", *MEANT, "--progress", "always")
    state, *rest = done.stderr.splitlines()
    faults += differs(rest=((done.returncode, rest), (3, [b"pairtree2ocfl: fault 7: a staging directory is left in the destination"])))
    return faults + ([] if line_of("migrate", b"pairtree2ocfl: ").fullmatch(state) else [f"the state is {state!r}"])


def started(program, folder, *words):
    """The program on the two folders of a test."""
    return subprocess.run([program, *words, "s", "d"], cwd=folder, capture_output=True, stdin=subprocess.DEVNULL, timeout=120)


SAME = b"pairtree2ocfl: 1 same, 0 absent, 0 different, 0 skipped, 1 file, 3 bytes\n"
# What lies below pairtree_root beside the first object: one of its identifier, one whose path looks like a line's own keys, and skips.
MIXED = {
    "ab/^6/3/obj/a": b"t" * 1500,
    'ab/d/o,"bytes":9,"files":9,/x': b"12345",
    "ab/e": DIR,
    "ab/f/one/x": b"",
    "ab/f/two/x": b"",
    "ab/g/one/x": b"",
    "ab/g/y": b"",
    "ab/h/obj/link": Link("none"),
    "README": b"",
}
SKIPPED = b"5 skipped (root 1, empty 1, split 2, other 1)"


def summed(program, folder):
    """The summary counts each kind of line, the skips by cause, and the files and bytes of what was carried."""
    build(f"{folder}/s", {f"pairtree_root/{path}": content for path, content in MIXED.items()})
    faults = []
    first = b"pairtree2ocfl: 2 done, 1 present, %s, 2 files, 1.5 kB\n" % SKIPPED
    again = b"pairtree2ocfl: 0 done, 3 present, %s, 0 files, 0 bytes\n" % SKIPPED
    for words, said in (("-vn", first), ("-v", first), ("-v", again), ("-vq", b"")):
        done = started(program, folder, "migrate", *MEANT, words)
        faults += differs(**{words: ((done.returncode, timeless(done.stderr)), (1, said))})
    return faults


def summed_of_audit(program, folder):
    """Of an audit what differs is counted by its reason, and the files and bytes of what is the same."""
    build(f"{folder}/s", {f"pairtree_root/{path}": content for path, content in MIXED.items()})
    run(program, folder)
    place, faults = f"{folder}/d/ocfl/{stores.place('abd')}", []
    for change, counts in {
        "true": b"2 same, 0 absent, 1 different (missing 1), %s, 2 files, 1.5 kB",
        "touch more": b"1 same, 0 absent, 2 different (missing 1, extra 1), %s, 1 file, 1.5 kB",
        "rm inventory.json": b"1 same, 0 absent, 2 different (missing 2), %s, 1 file, 1.5 kB",
        "printf other > v1/content/x": b"1 same, 0 absent, 2 different (missing 1, bytes 1), %s, 1 file, 1.5 kB",
        "rm -r v1 && touch v1": b"1 same, 0 absent, 2 different (missing 1, kind 1), %s, 1 file, 1.5 kB",
        "cd .. && rm -r abd": b"1 same, 1 absent, 1 different (missing 1), %s, 1 file, 1.5 kB",
    }.items():
        subprocess.run(["sh", "-c", change], cwd=place, check=True)
        done = started(program, folder, "audit", "-v")
        said = b"pairtree2ocfl: %s\n" % (counts % SKIPPED)
        faults += differs(**{change: ((done.returncode, timeless(done.stderr)), (1, said))})
    return faults


def expected(program, folder):
    """By a rehearsal's log the share done and the time left are shown too; a log without an end line is told, also where it is no file, and the run goes
    on."""
    many(folder)
    with open(f"{folder}/log", "wb") as log:
        log.write(run(program, folder, "--dry-run").stdout)
    faults = ahead(program, folder, ["migrate", *MEANT], "log")
    none = run(program, folder, "--expect", "s/pairtree_version0_1")
    said = b"pairtree2ocfl: s/pairtree_version0_1: it has no end line of a log\n"
    faults += differs(none=((none.returncode, none.stderr), (1, said)))
    os.mkfifo(f"{folder}/pipe")
    for name in ("none", "pipe", "d"):
        other = run(program, folder, "--expect", name)
        faults += differs(**{name: ((other.returncode, other.stderr), (1, said.replace(b"s/pairtree_version0_1", name.encode())))})
    return faults


def expected_of_audit(program, folder):
    """An audit shows the same by a run's log, and by an audit's."""
    many(folder)
    faults = []
    for number, command in enumerate((["migrate", *MEANT], ["audit"], ["audit"])):
        with open(f"{folder}/log-{number}", "wb") as log:
            subprocess.run([program, *command, "s", "d"], cwd=folder, stdout=log, check=True, timeout=120)
        faults += ahead(program, folder, ["audit"], f"log-{number}")
    return faults + expected_of_extras(program, folder)


def expected_of_extras(program, folder):
    """The log of an audit that tells what the root has beside counts as without that; and the text before its end line may be cut anywhere."""
    strays = [f"{folder}/d/ocfl/{'é' * 100}-{number:03}" for number in range(200)]
    faults = []
    for cut in ("", "x"):
        for stray in strays:
            open(stray + cut, "wb").close()
        with open(f"{folder}/log-extra{cut}", "wb") as log:
            done = subprocess.run([program, "audit", "--extra", "s", "d"], cwd=folder, stdout=log, timeout=120)
        for stray in strays:
            os.remove(stray + cut)
        faults += differs(status=(done.returncode, 1)) + ahead(program, folder, ["audit"], f"log-extra{cut}")
    return faults


def ahead(program, folder, command, log, places=("s", "d")):
    """What goes wrong where the share done is shown at each call of a command, which does what the log says."""
    words = [program, *command, "--progress", "always", "--interval", "0", "--expect", log, *places]
    done = subprocess.run(words, cwd=folder, capture_output=True, stdin=subprocess.DEVNULL, timeout=120)
    line = line_of(command[0], b"pairtree2ocfl: " + AHEAD)
    told = [line.fullmatch(text) for text in done.stderr.splitlines()[:-1]]
    shares = [int(line[1]) for line in told if line]
    faults = differs(status=(done.returncode, 0), lines=(len(told) - len(shares), 0), rises=(shares, sorted(shares)))
    return faults + differs(first=(shares[:1], [0]), last=(shares[-1:] >= [99], True), left=(all(line[2] for line in told if line and line[1] != b"0"), True))


def checks(program, folder, *words):
    """A check of the store of a test."""
    return subprocess.run([program, "check", *words, "s"], cwd=folder, capture_output=True, stdin=subprocess.DEVNULL, timeout=120)


def of_a_check(program, folder):
    """A check shows the files and folders that it came to, by an earlier check's log the share done too, and then its summary; its log stays. The log of a
    run has no end line of a check."""
    many(folder, b"x" * 100)
    plain = checks(program, folder)
    build(folder, {"log": plain.stdout, "run": run(program, folder, "--dry-run").stdout})
    faults = ahead(program, folder, ["check"], "log", ["s"]) + ahead(program, folder, ["check", "--read"], "log", ["s"])
    said = b"pairtree2ocfl: 1,297 objects, 0 told, 1,297 files, %s read\n"
    for words, read in ((["-v"], b"0 bytes"), (["--read", "--verbose"], b"129.6 kB"), (["--progress", "always"], b"0 bytes"), (["-vq"], None)):
        done = checks(program, folder, *words)
        wanted = b"" if read is None else said % read
        faults += differs(**{" ".join(words): ((done.returncode, timeless(done.stderr)), (0, wanted))})
        faults += differs(log=("--read" in words or done.stdout == plain.stdout, True))
    each = checks(program, folder, "--read", "--progress", "always", "--interval", "0").stderr.splitlines()
    right = [line_of("check", b"pairtree2ocfl: ").fullmatch(text) for text in each[:-1]]
    faults += differs(lines=(len(right) > 1297, True), right=(all(right), True), silent=(plain.stderr, b""))
    other = checks(program, folder, "--expect", "run")
    return faults + differs(other=((other.returncode, other.stderr), (0, b"pairtree2ocfl: run: it has no end line of a log\n")))


def summed_of_check(program, folder):
    """Of a check what is told is counted by its kind, and, with a name that is ignored, how often that was left out."""
    build(f"{folder}/s", {f"pairtree_root/{path}": content for path, content in MIXED.items()})
    faults = []
    told = b"pairtree2ocfl: 4 objects, %s, %d files, %s read\n"
    kinds, others = b"6 told (root 1, empty 1, split 2, spelling 1, other 1)", b"5 told (empty 1, split 2, spelling 1, other 1)"
    left = b"pairtree2ocfl: left out by their names: 1\n"
    for words, said in (
        (["-v"], told % (kinds, 8, b"0 bytes")),
        (["-v", "--read"], told % (kinds, 8, b"1.5 kB")),
        (["-v", "--ignore", "README"], told % (others, 7, b"0 bytes") + left),
        (["-vq", "--ignore", "README"], left),
    ):
        done = checks(program, folder, *words)
        faults += differs(**{" ".join(words): ((done.returncode, timeless(done.stderr)), (1, said))})
    return faults


def far_off(program, folder):
    """Of what takes long the hours and minutes that are left are shown."""
    many(folder)
    with open(f"{folder}/log", "wb") as log:
        log.write(b'{"as":"end","done":1000000000,"present":0,"skip":0}\n')
    done = run(program, folder, "--progress", "always", "--interval", "0", "--expect", "log")
    told = [line for line in done.stderr.splitlines() if b" left, " in line]
    right = [re.match(rb"pairtree2ocfl: 0 %, [1-9]\d* h [1-5]?\d min left, [1-9]", line) for line in told]
    return differs(status=(done.returncode, 0), told=(len(told) > 100, True), right=(all(right), True))


# What is run over each program that is shipped, too.
QUICK = [
    Alone("progress on a terminal", shown),
    Alone("progress of a short run", short),
    Alone("the summary of a run", summed),
    Alone("the summary of an audit", summed_of_audit),
    Alone("the summary of a check", summed_of_check),
]
CASES = [
    *QUICK,
    Alone("progress by the terminal's width", wide),
    Alone("progress elsewhere", seldom),
    Alone("progress by a rehearsal's log", expected),
    Alone("progress of an audit by a log", expected_of_audit),
    Alone("progress of a check", of_a_check),
    Alone("progress of what takes long", far_off),
]
