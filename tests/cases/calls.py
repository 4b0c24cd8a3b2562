"""Cases of single calls of the system: what each has to do beside what the cases in other files see of it. crates/pt_machine makes these calls, and
nothing of them is proved. Its mutants/ are wrong bodies of them, each of which fails a case, here or in another file (`make mutants`)."""

import contextlib
import fcntl
import os
import re
import resource
import shutil
import signal
import socket
import subprocess
import sys
import time

from alone import Alone, differs, run
from documents import TOP, code_files, edit_faults, text_of
from options import OVERLAP, TAKEN
from running import MEANT, as_nobody, mount_below
from stores import DIR, ONE, ONE_DONE, Link, build, read_tree, root, whole_log
from tally import Skipped, needs

sys.path += [f"{TOP}/tests", f"{TOP}/tools"]

import mutants

COMMANDS = {"rehearsal": ["migrate", *MEANT, "-n"], "run": ["migrate", *MEANT], "audit": ["audit"]}


def lines_of_trace(folder, calls, command):
    """How a command ends, and the lines of strace on these calls of it."""
    needs("strace")
    trace = f"{folder}/trace"
    done = subprocess.run(["strace", "-f", "-y", "-o", trace, "-e", f"trace={calls}", *command], cwd=folder, capture_output=True, timeout=120)
    with open(trace, encoding="utf-8", errors="replace") as file:
        return done.returncode, file.read().splitlines()


def opened_to_read(program, folder):
    """Whatever is opened below the store is opened only to be read, by a rehearsal, a run, an audit and a check; and the file of a list too."""
    build(folder, {"ids": b"abc\n"})
    faults = []
    for name, words in {**COMMANDS, "check": ["check"]}.items():
        more = ["s"] if name == "check" else ["--list", "ids", "s", "d"]
        status, lines = lines_of_trace(folder, "open,openat,creat", [program, *words, *more])
        opened = [line for line in lines if re.search(r'"(?:s[/"]|ids")', line)]
        wrong = [line for line in opened if not re.search(r"\bO_RDONLY\b", line) or re.search(r"\bO_(?:CREAT|TRUNC|APPEND)\b", line)]
        faults += differs(**{name: ((status, len(opened) > 2, wrong), (0, True, []))})
    return faults


# Says which process it is, and becomes the command.
NAMED = 'echo $$ > pid; exec "$@"'


def stopped_after(folder, call, command):
    """A command that its first call of this name stops, once that is made. What it says goes to a file, and so does the number of its process."""
    strace = ["strace", "-f", "-o", "/dev/null", "-e", f"trace={call}", "-e", f"inject={call}:signal=SIGSTOP:when=1"]
    with open(f"{folder}/said", "wb") as said:
        return subprocess.Popen([*strace, "sh", "-c", NAMED, "sh", *command], cwd=folder, stdout=subprocess.DEVNULL, stderr=said)


def made(going, path):
    """Whether something comes to stand at a path before a command ends."""
    while going.poll() is None and not os.path.lexists(path):
        time.sleep(0.005)
    return os.path.lexists(path)


def let_go(going, folder):
    """Has a stopped command go on to its end. It is asked again and again, since it may not have stopped yet when it is asked first."""
    with open(f"{folder}/pid", encoding="ascii") as file:
        process = int(file.read())
    while going.poll() is None:
        with contextlib.suppress(ProcessLookupError):
            os.kill(process, signal.SIGCONT)
        time.sleep(0.05)


# What is put into `staging` right after that is made: where the storage root is made, and where it stands and an object is.
APPEARING = {
    "a folder of the root": ({}, "extensions", DIR),
    "a file of the root": ({}, "ocfl_layout.json", b"mine"),
    "a folder of an object": (root(), "v1", DIR),
    "a file of an object": (root(), "0=ocfl_object_1.1", b"mine"),
}


def appearing(program, folder):
    """A folder or a file that another makes at its place, after that was looked at and before it is made there, ends the run with fault 2, and
    stays what it is."""
    needs("strace")
    faults = []
    for name, (dest, path, content) in APPEARING.items():
        shutil.rmtree(f"{folder}/d")
        build(folder, {"d": DIR})
        build(f"{folder}/d", dest)
        with stopped_after(folder, "mkdir", [program, "migrate", *MEANT, "-v", "s", "d"]) as going:
            if made(going, f"{folder}/d/staging"):
                build(f"{folder}/d/staging", {path: content})
            let_go(going, folder)
        with open(f"{folder}/said", "rb") as file:
            said = file.read().decode()
        told = f"pairtree2ocfl: fault 2: cannot write the destination\npairtree2ocfl: d/staging/{path}: File exists (os error 17)\n"
        left = read_tree(f"{folder}/d").get(f"staging/{path}")
        faults += differs(**{name: ((going.returncode, said, left), (3, told, content))})
    return faults


def cut_short(program, folder):
    """Of a write that takes only a part of its piece the rest is written too; where that can't be, the run ends with fault 2."""
    build(f"{folder}/s", {"pairtree_root/ab/c/obj/b.bin": b"b" * 100000})

    def limited():
        """No file may get longer than a part of that one; what would make it longer fails."""
        signal.signal(signal.SIGXFSZ, signal.SIG_IGN)
        resource.setrlimit(resource.RLIMIT_FSIZE, (99000, 99000))

    done = run(program, folder, "-v", preexec_fn=limited)
    said = b"pairtree2ocfl: fault 2: cannot write the destination\npairtree2ocfl: d/staging/v1/content/b.bin: File too large (os error 27)\n"
    objects = [path for path in read_tree(f"{folder}/d/ocfl") if path.endswith("/0=ocfl_object_1.1")]
    return differs(answer=((done.returncode, done.stdout, done.stderr), (3, b"", said)), objects=(objects, []))


def locked_by_link(program, folder):
    """A destination that a link leads to is locked as one that is named itself."""
    os.symlink("d", f"{folder}/link")
    holder = os.open(f"{folder}/d", os.O_RDONLY)
    faults = []
    for name, lock in (("held", fcntl.LOCK_EX), ("free", fcntl.LOCK_UN)):
        fcntl.flock(holder, lock)
        done = subprocess.run([program, "migrate", *MEANT, "-n", "s", "link"], cwd=folder, capture_output=True, timeout=120)
        wanted = (3, b"", TAKEN) if name == "held" else (0, whole_log(ONE_DONE), b"")
        faults += differs(**{name: ((done.returncode, done.stdout, done.stderr), wanted)})
    os.close(holder)
    return faults


def two_devices(program, folder):
    """Two folders that have one number, each on a device of its own, aren't taken for one another."""
    with contextlib.ExitStack() as last:
        for name in ("one", "other"):
            os.mkdir(f"{folder}/{name}")
            mount_below(folder, ("-t", "tmpfs", "none", name), last)
        numbers = {os.stat(f"{folder}/{name}").st_ino for name in ("one", "other")}
        if len(numbers) > 1:
            raise Skipped("two new file systems have no number in common here")
        build(f"{folder}/one", ONE)
        done = subprocess.run([program, "migrate", *MEANT, "one", "other"], cwd=folder, capture_output=True, timeout=120)
        found = subprocess.run([program, "audit", "one", "other"], cwd=folder, capture_output=True, timeout=120)
    return differs(run=((done.returncode, done.stdout, done.stderr), (0, whole_log(ONE_DONE), b"")), audit=((found.returncode, found.stderr), (0, b"")))


def linked_and_mounted(program, folder):
    """A store that a link leads to is found out where the destination is a second mount of it, or lies in one."""
    build(folder, {"link": Link("s"), "m": DIR})
    faults = []
    with contextlib.ExitStack() as last:
        mount_below(folder, ("--bind", f"{folder}/s", "m"), last)
        for dest in ("m", "m/pairtree_root/ab"):
            done = subprocess.run([program, "migrate", *MEANT, "link", dest], cwd=folder, capture_output=True, timeout=120)
            faults += differs(**{dest: ((done.returncode, done.stdout, done.stderr), (2, b"", OVERLAP))})
    return faults


def failing(program, folder, call, error, *words, when=1):
    """The answer of a command over the folders of a test of whose calls of this name the one of this number fails."""
    needs("strace")
    strace = ["strace", "-f", "-o", "/dev/null", "-e", f"trace={call}", "-e", f"inject={call}:error={error}:when={when}"]
    done = subprocess.run([*strace, program, *words, "s", "d"], cwd=folder, capture_output=True, timeout=120)
    return done.returncode, done.stdout, done.stderr.decode()


def without_locks(program, folder):
    """A destination whose file system has no locks isn't locked, which --verbose tells, and the run goes on."""
    status, out, said = failing(program, folder, "flock", "ENOLCK", "migrate", *MEANT, "-v")
    told = "pairtree2ocfl: d: it is not locked: No locks available (os error 37)"
    return differs(answer=((status, out, said.splitlines()[:1]), (0, whole_log(ONE_DONE), [told])))


def rename_fails(program, folder):
    """Where the root or an object can't be renamed to its place, the run ends with fault 2, and tells no object."""
    faults = []
    for when, place in ((1, "the root"), (2, "an object")):
        shutil.rmtree(f"{folder}/d")
        os.mkdir(f"{folder}/d")
        answer = failing(program, folder, "rename", "EIO", "migrate", *MEANT, when=when)
        told = "pairtree2ocfl: fault 2: cannot write the destination\n"
        faults += differs(**{place: ((answer[0], answer[1], answer[2][: len(told)]), (3, b"", told))})
    return faults


def event_fails(program, folder):
    """An event that can't be written or put onto its disk as it is begun ends the command before all else; one whose end can't be is told, and so is
    one whose end can't be renamed. All three give status 3. Here a rehearsal is recorded, which makes no such call of its own."""
    words, why = ("migrate", *MEANT, "-n", "--event"), "Input/output error (os error 5)"
    faults = []
    for number, (call, when, ends) in enumerate((("write", 1, False), ("fsync", 1, False), ("fsync", 2, True), ("rename", 1, True))):
        event = f"ev{number}"
        answer = failing(program, folder, call, "EIO", *words, event, when=when)
        at = f"{event}.part" if call == "fsync" and ends else event
        told = f"pairtree2ocfl: {'the event has no end: ' if ends else ''}cannot write FILE of --event: {at}: {why}\n"
        faults += differs(**{f"{call} {when}": (answer, (3, whole_log(ONE_DONE) if ends else b"", told))})
    return faults


def log_to_socket(program, folder):
    """With --sync a log that goes to a socket, which can't be opened once more, is written as ever, and nothing is told."""
    ours, theirs = socket.socketpair()
    with ours:
        with theirs:
            command = [program, "migrate", *MEANT, "--sync", "s", "d"]
            done = subprocess.run(command, cwd=folder, stdout=theirs, stderr=subprocess.PIPE, timeout=120)
        with ours.makefile("rb") as log:
            return differs(log=((done.returncode, done.stderr, log.read()), (0, b"", whole_log(ONE_DONE))))


def log_fails_late(program, folder):
    """With --sync a log of which a line can't be put onto the disk ends the run with fault 3."""
    needs("strace")
    with open(f"{folder}/log", "wb") as log:
        strace = ["strace", "-f", "-o", "/dev/null", "-P", f"{folder}/log", "-e", "trace=fsync", "-e", "inject=fsync:error=EIO:when=2+"]
        done = subprocess.run([*strace, program, "migrate", *MEANT, "--sync", "s", "d"], cwd=folder, stdout=log, stderr=subprocess.PIPE, timeout=120)
    return differs(answer=((done.returncode, done.stderr), (3, b"pairtree2ocfl: fault 3: cannot write the output\n")))


def log_goes_on(program, folder):
    """With --sync a log that is written behind another keeps what it has."""
    before = b"the first run\n"
    build(folder, {"log": before})
    with open(f"{folder}/log", "ab") as log:
        done = subprocess.run([program, "migrate", *MEANT, "--sync", "s", "d"], cwd=folder, stdout=log, stderr=subprocess.PIPE, timeout=120)
    with open(f"{folder}/log", "rb") as log:
        return differs(log=((done.returncode, done.stderr, log.read()), (0, b"", before + whole_log(ONE_DONE))))


def log_to_read(program, folder):
    """With --sync a log that the program may open again only to read it is put onto the disk, and nothing is told."""
    needs("strace")
    nobody = as_nobody()
    shutil.copy(program, f"{folder}/program")
    subprocess.run(["chmod", "-R", "a+rX", folder], check=True)
    os.chmod(f"{folder}/program", 0o755)
    os.chmod(f"{folder}/d", 0o777)
    strace = ["strace", "-f", "-y", "-o", f"{folder}/trace", "-e", "trace=fsync"]
    with open(f"{folder}/log", "wb", opener=lambda path, flags: os.open(path, flags | os.O_APPEND, 0o644)) as log:
        command = [*strace, *nobody, f"{folder}/program", "migrate", *MEANT, "--sync", "s", "d"]
        done = subprocess.run(command, cwd=folder, stdout=log, stderr=subprocess.PIPE, timeout=120)
    with open(f"{folder}/trace", encoding="utf-8", errors="replace") as file:
        synced = sum(bool(re.search(r"/log>\) += 0$", line)) for line in file.read().splitlines())
    with open(f"{folder}/log", "rb") as log:
        return differs(log=((done.returncode, done.stderr, log.read(), synced), (0, b"", whole_log(ONE_DONE), 3)))


def events_synced(program, folder):
    """An event's file is put onto the disk as it is made, and what is to replace it before it is renamed."""
    faults = []
    for name, words in COMMANDS.items():
        status, lines = lines_of_trace(folder, "fsync,rename", [program, *words, "--event", f"ev {name}", "s", "d"])
        calls = [(call[1], call[2]) for line in lines if (call := re.search(rf'\b(fsync|rename)\(.*?[/"](ev {name}(?:\.part)?)[>"].*= 0$', line))]
        file, part = f"ev {name}", f"ev {name}.part"
        faults += differs(**{name: ((status, calls), (0, [("fsync", file), ("fsync", part), ("rename", part)]))})
    return faults


def expected_by_link(program, folder):
    """The log of --expect may be a link."""
    build(folder, {"log": whole_log(ONE_DONE), "link": Link("log")})
    done = run(program, folder, "--expect", "link")
    return differs(answer=((done.returncode, done.stdout, done.stderr), (0, whole_log(ONE_DONE), b"")))


def linked_prefix(program, folder):
    """A prefix that is a link isn't read, neither for the run nor for what --verbose says of it."""
    build(folder, {"elsewhere": b"ark: "})
    build(f"{folder}/s", {"pairtree_prefix": Link("../elsewhere")})
    done = run(program, folder, "-v")
    first = b"pairtree2ocfl: fault 6: the prefix file is not a text of at most 1024 bytes"
    return differs(said=((done.returncode, done.stderr.splitlines()[:1]), (3, [first])))


def files_of_calls():
    """The files of crates/pt_machine by their paths in it."""
    return {path.removeprefix(f"{mutants.CRATE}/"): text_of(path) for path in code_files()["pt_machine"] if "/src/" in path}


def calls_of(text):
    """The functions of a file that make a call of the system, each with its text; asking for memory of the process is none."""
    for function in re.finditer(r"^    fn (\w+)[^{]*\{\n.*?^    \}$", text, re.MULTILINE | re.DOTALL):
        if re.search(r"self\.rt\.(?!alloc\b)|self\.(?:file|0)\.|file\.file\.|env::args", function[0]):
            yield function[1], function[0]


def changed_by(mutant):
    """The texts that a wrong body changes, each with its file."""
    path = None
    for line in mutant.text.splitlines():
        mark, _, text = line.partition(": ")
        path = text if mark == "file" else path
        if mark == "old":
            yield path, text


def bodies_faults(mutant, files):
    """Why a wrong body can't stand in the program beside the call's own, from which it differs."""
    try:
        found = mutants.with_all([mutant], lambda path: files[path])
    except ValueError as error:
        return [str(error)]
    return [] if found and all("match crate::taken_body() {\n1 => {" in text for text in found.values()) else ["it changes nothing"]


def wrong_bodies(program, folder):
    """Each wrong body of a call of the system can be applied to the code as it stands, where it changes bodies of functions alone, says what it does, and
    names cases that are there. Each call has one."""
    import migration

    files, faults, changed = files_of_calls(), [], []
    for mutant in mutants.mutants():
        found = list(edit_faults(mutant.text, files))
        faults += [f"{mutant.name}: {fault}" for fault in found or bodies_faults(mutant, files)]
        faults += [] if mutant.does and mutant.seen else [f"{mutant.name} doesn't say what it does, or what sees it"]
        faults += [f"{mutant.name}: no case has the words {words}" for words in mutant.seen if not any(migration.cases_with(words))]
        changed += changed_by(mutant)
    calls = [(path, name, text) for path in sorted(files) for name, text in calls_of(files[path])]
    faults += [f"{path}: no wrong body of {name}" for path, name, text in calls if not any(file == path and old in text for file, old in changed)]
    return faults + differs(calls=(len(calls) > 30, True))


CASES = [
    Alone("each call of the system has a wrong body", wrong_bodies),
    Alone("the store is opened to be read", opened_to_read),
    Alone("what appears before it is made", appearing),
    Alone("a write that is cut short", cut_short),
    Alone("a destination that a link leads to is locked", locked_by_link),
    Alone("folders of one number on two devices", two_devices),
    Alone("a store that a link leads to, mounted twice", linked_and_mounted),
    Alone("a file system without locks", without_locks),
    Alone("a rename that fails", rename_fails),
    Alone("an event that fails", event_fails),
    Alone("a log that goes to a socket, with --sync", log_to_socket),
    Alone("a log that fails late, with --sync", log_fails_late),
    Alone("a log that goes on, with --sync", log_goes_on),
    Alone("a log that may only be read, with --sync", log_to_read),
    Alone("events put onto the disk", events_synced),
    Alone("a log to expect that is a link", expected_by_link),
    Alone("a prefix that is a link", linked_prefix),
]
