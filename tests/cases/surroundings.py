"""Cases of what is around a run: mounts and working folders that hide where folders are, locks and logs that can't be had, outputs that
nobody reads, and prefixes and paths that look otherwise than they are."""

import contextlib
import os
import re
import shutil
import subprocess
import sys
import time

import stores
from alone import Alone, differs, run
from options import OVERLAP
from running import MEANT, as_nobody, mount_below, started, summary, timeless
from stores import DIR, FIFO, ONE, ONE_DONE, build, read_tree
from tally import needs

TOP = os.path.dirname(os.path.dirname(os.path.dirname(os.path.abspath(__file__))))
HIDDEN = b"pairtree2ocfl: the system cannot tell where SOURCE and DEST lie\n"


def second_mounts(program, folder):
    """A second mount of the store, or of a folder above or below it, is no other folder; the other way round too. Nothing is made."""
    build(folder, {"mine": DIR, "m": DIR, "other/ocfl/in": DIR, "other/staging/in": DIR, "t/pairtree_root": DIR})
    for place in ("mine/s", "other/ocfl/in", "other/staging/in"):
        build(f"{folder}/{place}", ONE)
    build(folder, {"t/pairtree_version0_1": stores.DECLARATION})
    refused = {
        ("mine/s", "mine/s", "m"): "the store",
        ("mine/s", "mine/s", "m/pairtree_root/ab"): "below the store",
        ("mine", "mine/s", "m/s"): "above the store",
        ("mine", "mine/s", "m/s/pairtree_root"): "above, and below",
        ("mine/s/pairtree_root", "mine/s", "m/ab"): "pairtree_root",
        ("other", "m/ocfl/in", "other"): "a store in ocfl",
        ("other/ocfl", "m/in", "other"): "a store in ocfl itself",
        ("other/staging", "m/in", "other"): "a store in staging",
    }
    before, faults = read_tree(folder), []
    for (what, source, dest), name in refused.items():
        with contextlib.ExitStack() as last:
            mount_below(folder, ("--bind", f"{folder}/{what}", "m"), last)
            done = subprocess.run([program, "migrate", *MEANT, source, dest], cwd=folder, capture_output=True, timeout=120)
        faults += differs(**{name: ((done.returncode, done.stdout, done.stderr), (2, b"", OVERLAP))})
        faults += [f"{name}: {text}" for text in stores.differences(read_tree(folder), before)]
    with contextlib.ExitStack() as last:
        mount_below(folder, ("--bind", f"{folder}/other/ocfl", "t/pairtree_root"), last)
        done = subprocess.run([program, "migrate", *MEANT, "t", "other"], cwd=folder, capture_output=True, timeout=120)
        faults += differs(tree=((done.returncode, done.stderr), (2, OVERLAP)))
    with contextlib.ExitStack() as last:
        mount_below(folder, ("--bind", f"{folder}/d", "m"), last)
        done = subprocess.run([program, "migrate", *MEANT, "mine/s", "m"], cwd=folder, capture_output=True, timeout=120)
        faults += differs(apart=(done.returncode, 0))
    return faults


def named_at_the_top(program, folder, *words):
    """How a command ends, and the calls in which it names the store, an entry right in it or the open folder of one, in their order."""
    trace = ["strace", "-f", "-y", "-o", f"{folder}/trace", "-s", "4096", "-e", "trace=%file,getdents64"]
    done = subprocess.run([*trace, program, *words, "s", "d"], cwd=folder, capture_output=True, timeout=120)
    with open(f"{folder}/trace", encoding="utf-8", errors="replace") as file:
        found = [re.search(rf'\b(\w+)\(.*?(?:"s(?=[/"])|<{re.escape(folder)}/s(?=[/>]))/?([^/">]*)["/>]', line) for line in file]
    return done.returncode, [(call.group(1), call.group(2)) for call in found if call]


def beside_the_pairtree(program, folder):
    """Whatever stands beside the pairtree at SOURCE's top, a name that isn't UTF-8 too, a rehearsal, a run and an audit make not one call more:
    they look for what they need by its name, and don't list the top. Where no store is, it is listed."""
    needs("strace")
    made, bad = [], b"\xff".decode(errors="surrogateescape")
    commands = {"rehearsal": ("migrate", *MEANT, "-n"), "run": ("migrate", *MEANT), "audit": ("audit",)}
    for beside in ([], [bad, *(f"beside{number:03d}" for number in range(400))]):
        subprocess.run(["rm", "-rf", f"{folder}/d"], check=True)
        build(folder, {"d": DIR, **{f"s/{name}": b"" for name in beside}})
        made.append({name: named_at_the_top(program, folder, *words) for name, words in commands.items()})
    faults = []
    for name, (status, calls) in made[0].items():
        looks = [[at for _, at in calls].count(file) for file in ("pairtree_version0_1", "pairtree_prefix")]
        faults += differs(**{name: ((status, looks, ("getdents64", "") in calls, made[1][name]), (0, [1, 1], False, (status, calls)))})
    os.unlink(f"{folder}/s/pairtree_version0_1")
    status, calls = named_at_the_top(program, folder, *commands["rehearsal"])
    return faults + differs(no_store=((status, ("getdents64", "") in calls), (3, True)))


def with_sync(folder, *command):
    """A durable run, by these words, into an empty destination: its status, its log, what it says, and what stands there then."""
    subprocess.run(["rm", "-rf", f"{folder}/d"], check=True)
    os.mkdir(f"{folder}/d")
    with open(f"{folder}/log", "wb") as log:
        ended = subprocess.run([*command, "migrate", *MEANT, "--sync", "s", "d"], cwd=folder, stdout=log, stderr=subprocess.PIPE, timeout=120)
    with open(f"{folder}/log", "rb") as log:
        return ended.returncode, log.read(), ended.stderr, read_tree(f"{folder}/d")


def made_again():
    """The calls that docs/GUARANTEES.md says are made again where a signal interrupts them."""
    with open(f"{TOP}/docs/GUARANTEES.md", encoding="utf-8") as file:
        told = file.read().split("**Interrupted calls.**", 1)[1].split("The program itself", 1)[0]
    return set(re.findall(r"`(\w+)`", told))


def designed():
    """What docs/DESIGN.md says of errors of the system."""
    with open(f"{TOP}/docs/DESIGN.md", encoding="utf-8") as file:
        return " ".join(file.read().split("**Any error of the system is a failure**", 1)[1].split("\n- ", 1)[0].split())


def interrupted(program, folder):
    """Of the calls that a signal interrupts, as docs/GUARANTEES.md says, the opening of a file, fsync and flock are made again, and the run is as if
    nothing had been; of the others each is a failure."""
    needs("strace")
    whole, trace, tried = with_sync(folder, program), f"{folder}/trace", set()
    faults = differs(documented=(made_again(), {"open", "fsync", "flock"}), designed=("library makes [three calls](GUARANTEES.md#" in designed(), True))
    for call in ("openat", "fsync", "flock", "getdents64", "mkdir", "rename", "read", "write"):
        with_sync(folder, "strace", "-y", "-o", trace, "-e", f"trace={call}", program)
        with open(trace, encoding="utf-8", errors="replace") as file:
            lines = [line for line in file if line.startswith(f"{call}(")]
        for number, line in enumerate(lines, 1):
            if not re.search(f'"[sd][/"]|"/dev/stdout"|<{re.escape(folder)}/(s|d|log)[/>]', line):
                continue
            inject = f"inject={call}:error=EINTR:when={number}"
            status, log, said, made = with_sync(folder, "strace", "-o", "/dev/null", "-e", f"trace={call}", "-e", inject, program)
            again = call in ("fsync", "flock") or (call == "openat" and "O_DIRECTORY" not in line)
            # the names in DEST itself are asked for before the run, which goes on where they can't be had
            again |= '"d", ' in line or f"<{folder}/d>, " in line
            if again:
                faults += differs(**{line.strip(): ((status, log, said, made), whole)})
            else:
                faults += differs(**{line.strip(): ((status, said.startswith(b"pairtree2ocfl: fault ")), (3, True))})
            tried.add((call, again))
    wanted = {("openat", True), ("fsync", True), ("flock", True)}
    wanted |= {(call, False) for call in ("openat", "getdents64", "mkdir", "rename", "read", "write")}
    return faults + differs(untried=(wanted - tried, set()))


DEEP = """
import os, sys
program, *words = sys.argv[1:]
for _ in range(21):
    os.mkdir("d" * 200)
    os.chdir("d" * 200)
os.makedirs("s/pairtree_root/ab/c/obj")
for path in ("s/pairtree_version0_1", "s/pairtree_root/ab/c/obj/a.txt"):
    open(path, "w").close()
os.mkdir("d")
sys.stdout.flush()
os.execv(program, [program, *words])
"""


def deep_folder(program, folder):
    """In a working folder whose path is too long for the system the store isn't written into."""
    faults = []
    for dest in ("s", "s/pairtree_root", "d"):
        words = [sys.executable, "-c", DEEP, program, "migrate", *MEANT, "s", dest]
        os.mkdir(f"{folder}/in")
        done = subprocess.run(words, cwd=f"{folder}/in", capture_output=True, timeout=120)
        faults += differs(**{dest: ((done.returncode, done.stdout, done.stderr), (2, b"", HIDDEN))})
        found = subprocess.run(["find", "in", "-name", "ocfl*", "-o", "-name", "staging"], cwd=folder, capture_output=True, check=True)
        faults += differs(made=(found.stdout, b""))
        subprocess.run(["rm", "-rf", f"{folder}/in"], check=True)
    return faults


def no_lock(program, folder):
    """A destination that can't be locked, since it can't be opened: that is told with --verbose, and the run goes on."""
    nobody = as_nobody()
    faults = []
    line = b"pairtree2ocfl: d: it is not locked: Permission denied (os error 13)\n"
    for words, err in {(): b"", ("-v",): line + summary(ONE_DONE)}.items():
        subprocess.run(["rm", "-rf", f"{folder}/d"], check=True)
        os.mkdir(f"{folder}/d")
        shutil.copy(program, f"{folder}/program")
        subprocess.run(["chmod", "-R", "a+rX", folder], check=True)
        os.chmod(f"{folder}/d", 0o333)
        command = [*nobody, f"{folder}/program", "migrate", *MEANT, *words, "s", "d"]
        done = subprocess.run(command, cwd=folder, capture_output=True, timeout=120)
        faults += differs(**{" ".join(words): ((done.returncode, timeless(done.stderr)), (0, err))})
    return faults


def no_folder(program, folder):
    """A destination that is no folder isn't opened, so that a pipe doesn't hold up what is made: that it isn't locked is told with --verbose."""
    build(folder, {"pipe": FIFO, "file": b"1"})
    os.symlink("pipe", f"{folder}/link")
    before, faults = read_tree(folder), []
    for dest in ("pipe", "file", "link"):
        unlocked = f"pairtree2ocfl: {dest}: it is not locked: not a directory\n"
        for words, what, path in ((["migrate", *MEANT], "write", f"{dest}/staging"), (["migrate", *MEANT, "-n"], "write", f"{dest}/"),
                                  (["audit"], "read", f"{dest}/")):
            told = f"pairtree2ocfl: fault 2: cannot {what} the destination\npairtree2ocfl: {path}: Not a directory (os error 20)\n"
            for more, said in (((), told), (("-v",), unlocked + told)):
                done = subprocess.run([program, *words, *more, "s", dest], cwd=folder, capture_output=True, timeout=60)
                found = (done.returncode, done.stdout, done.stderr.decode())
                faults += differs(**{" ".join([dest, *words, *more]): (found, (3, b"", said))})
    return faults + differs(changed=(read_tree(folder), before))


def another_users_log(program, folder):
    """With --sync a log that is open, and that the program can't open again, is written, and told before the run as one that isn't synced."""
    nobody = as_nobody()
    os.mkdir(f"{folder}/logs", 0o700)
    os.chmod(f"{folder}/d", 0o777)
    with open(f"{folder}/logs/log", "wb", opener=lambda path, flags: os.open(path, flags | os.O_APPEND, 0o600)) as log:
        subprocess.run(["chmod", "a+rX", folder], check=True)
        shutil.copy(program, f"{folder}/program")
        os.chmod(f"{folder}/program", 0o755)
        subprocess.run(["chmod", "-R", "a+rX", f"{folder}/s"], check=True)
        command = [*nobody, f"{folder}/program", "migrate", *MEANT, "--sync", "s", "d"]
        done = subprocess.run(command, cwd=folder, stdout=log, stderr=subprocess.PIPE, timeout=120)
    with open(f"{folder}/logs/log", "rb") as file:
        lines = file.read().splitlines()
    said = b"pairtree2ocfl: the log's file will not be put onto its disk: Permission denied (os error 13)\n"
    return differs(status=((done.returncode, done.stderr), (0, said)), lines=(len(lines), 2))


def sync_to_pipes(program, folder):
    """With --sync an output that has no disk, as a pipe, is written as ever."""
    done = run(program, folder, "--sync")
    return differs(pipe=((done.returncode, done.stderr, len(done.stdout.splitlines())), (0, b"", 2)))


def nobody_reads(program, folder):
    """Help and the version end well where nobody reads them to their end; the log of a run and names don't."""
    faults = []
    for words in (["--help"], ["migrate", "--help"], ["-V"]):
        faults += differs(**{" ".join(words): (started([program, *words], folder, "a closed pipe"), (0, b"", b""))})
    status, _, err = started([program, "names", "abc"], folder, "a closed pipe")
    return faults + differs(names=((status, err), (3, b"pairtree2ocfl: fault 3: cannot write the output\n")))


def prefixes(program, folder):
    """With --verbose a prefix with what can't be seen is told at the start of a run; without it, and of another prefix, nothing is."""
    line = b"pairtree2ocfl: s/pairtree_prefix: the prefix holds a control character, a blank at an end, or a byte order mark\n"
    faults = []
    for prefix, told in {
        b"ark:/": False,
        b"ark:/13030\r\n": False,
        b"a b\n\n": False,
        b"\xef\xbb\xbfark:": True,
        b"ark: ": True,
        b" ark:": True,
        b"one\ntwo": True,
        b"a\0b": True,
        b"a\tb": True,
    }.items():
        with open(f"{folder}/s/pairtree_prefix", "wb") as file:
            file.write(prefix)
        for words, said in {("-n", "-v"): (line if told else b"") + summary(ONE_DONE), ("-n",): b""}.items():
            done = run(program, folder, *words)
            faults += differs(**{repr((prefix, words)): ((done.returncode, timeless(done.stderr)), (0, said))})
    return faults


def strange_prefixes(program, folder):
    """A prefix that is no file doesn't hold up the warning."""
    build(f"{folder}/s", {"pairtree_prefix": FIFO})
    done = run(program, folder, "-v")
    return differs(said=((done.returncode, done.stderr.count(b"\n"), b"fault 6" in done.stderr), (3, 2, True)))


def directions(program, folder):
    """Characters that turn the text around are escaped in the path of a fault."""
    name = "x\u202ey\u2066z\u2069"
    done = subprocess.run([program, "migrate", *MEANT, "-v", "s", name], cwd=folder, capture_output=True, timeout=120)
    shown = b"pairtree2ocfl: x\\u{202e}y\\u{2066}z\\u{2069}/staging: "
    return differs(shown=(done.stderr.splitlines()[-1].startswith(shown), True))


def long_path(program, folder):
    """A rehearsal names the path that would end a run."""
    path = "/".join(["d" * 249] * 15 + ["f" * 180])
    build(f"{folder}/s", {f"pairtree_root/lo/ng/obj/{path}": b"1"})
    done = run(program, folder, "-n", "-v")
    shown = f"pairtree2ocfl: d/staging/v1/content/{path}: the path would be too long at its place in ocfl".encode()
    return differs(said=((done.returncode, done.stderr.splitlines()[1:]), (3, [shown])), made=(os.listdir(f"{folder}/d"), []))


def put_deep(folder, top, length, kind):
    """Puts a file, a folder or a link at a path of so many bytes below a folder, name by name, since the system takes no such path at once."""
    *names, last = ["d" * 249] * (length // 250) + ["f" * (length % 250)]
    above = os.open(f"{folder}/{top}", os.O_RDONLY)
    for name in names:
        os.mkdir(name, dir_fd=above)
        inner = os.open(name, os.O_RDONLY, dir_fd=above)
        os.close(above)
        above = inner
    make = {"file": lambda: os.close(os.open(last, os.O_CREAT | os.O_WRONLY, dir_fd=above)), "folder": lambda: os.mkdir(last, dir_fd=above)}
    make.get(kind, lambda: os.symlink("x", last, dir_fd=above))()
    os.close(above)


def system_limit(program, folder):
    """Whatever it is, an entry whose path, SOURCE as it was given in front, has 4,095 bytes is read, and one of 4,096 is fault 1; so says a
    rehearsal, a run and an audit. docs/REFERENCE.md tells the length of an object's path by that."""
    lines = {"file": b'{"as":"skip","at":"ab/c","cause":"limit"}\n', "link": b'{"as":"skip","at":"ab/c","cause":"other"}\n', "folder": b'"empty":1'}
    faults, top, at = [], "s/pairtree_root/ab/c/obj", "ab/c/obj"
    for source, kind in (("s", "file"), ("s", "folder"), ("s", "link"), ("./s", "file"), ("s/", "file")):
        most = 4079 - len(source) - len(at)
        for length, read in ((most, True), (most + 1, False)):
            subprocess.run(["rm", "-rf", f"{folder}/{top}", f"{folder}/d/ocfl"], check=True)
            build(folder, {top: DIR})
            put_deep(folder, top, length, kind)
            for words in (["migrate", *MEANT, "-n"], ["audit"], ["migrate", *MEANT]):
                done = subprocess.run([program, *words, "-v", source, "d"], cwd=folder, capture_output=True, timeout=120)
                name = f"{words[0]}{words[-1][:2]}, {kind} of {length} in {source}"
                if read:
                    wanted = (1 if kind != "folder" or words == ["audit"] else 0, True, 1)
                    faults += differs(**{name: ((done.returncode, words == ["audit"] or lines[kind] in done.stdout, done.stderr.count(b"\n")), wanted)})
                    continue
                told = done.stderr.splitlines()
                ends = [told[0], told[-1].endswith(b"ff: File name too long (os error 36)")] if told else []
                faults += differs(**{name: ((done.returncode, ends), (3, [b"pairtree2ocfl: fault 1: cannot read the source", True]))})
    return faults


def pipe_in_a_files_place(program, folder):
    """A pipe that is put in a file's place after its folder was listed ends the run, and doesn't make it wait."""
    inside = "s/pairtree_root/ab/c/obj"
    os.makedirs(f"{folder}/{inside}", exist_ok=True)
    with open(f"{folder}/{inside}/a", "wb") as first:
        first.truncate(1 << 29)
    open(f"{folder}/{inside}/b", "wb").close()
    command = [program, "migrate", *MEANT, "-v", "s", "d"]
    with subprocess.Popen(command, cwd=folder, stdout=subprocess.DEVNULL, stderr=subprocess.PIPE) as going:
        try:
            for _ in range(2000):
                if f"{folder}/{inside}/a" in open_files(going.pid):
                    break
                time.sleep(0.005)
            os.unlink(f"{folder}/{inside}/b")
            os.mkfifo(f"{folder}/{inside}/b")
            stderr = going.communicate(timeout=120)[1]
        finally:
            going.kill()
    said = [b"pairtree2ocfl: fault 1: cannot read the source", f"pairtree2ocfl: {inside}/b: it is no longer a file".encode()]
    return differs(said=((going.returncode, stderr.splitlines()), (3, said)))


def open_files(process):
    """The paths of the files that a process has open."""
    paths, fds = set(), f"/proc/{process}/fd"
    for fd in os.listdir(fds):
        with contextlib.suppress(OSError):
            paths.add(os.readlink(f"{fds}/{fd}"))
    return paths


CASES = [
    Alone("a pipe in a file's place", pipe_in_a_files_place),
    Alone("second mounts of folders", second_mounts),
    Alone("what stands beside the pairtree", beside_the_pairtree),
    Alone("a working folder that is too deep", deep_folder),
    Alone("a lock that can't be had", no_lock),
    Alone("a destination that is no folder", no_folder),
    Alone("calls that a signal interrupts", interrupted),
    Alone("a log of another user, with --sync", another_users_log),
    Alone("a pipe, with --sync", sync_to_pipes),
    Alone("help that nobody reads", nobody_reads),
    Alone("prefixes with what can't be seen", prefixes),
    Alone("a prefix that is a pipe", strange_prefixes),
    Alone("characters that turn text around", directions),
    Alone("a path that is too long, rehearsed", long_path),
    Alone("the longest path that the system reads", system_limit),
]
