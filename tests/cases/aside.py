"""Tests of `roots.py set-aside`, over storage roots and audits' logs that the tests write: what differs is moved, whole, and listed, and nothing else."""

import contextlib
import fcntl
import json
import os
import pty
import resource
import subprocess
import sys

import stores
from alone import Alone, differs
from joining import ROOTS, an_object, roots
from running import MEANT, mount_below
from stores import DIR, GONE, Link, build, lines, place, present, read_tree, root, skip, store, stored

TOP = os.path.dirname(os.path.dirname(os.path.dirname(os.path.abspath(__file__))))
END = {"absent": 0, "as": "end", "differs": 1, "same": 1, "skip": 0}


def line(kind, identifier, at=None, **more):
    """A line of an audit's log."""
    return {**present(at or f"{identifier}/obj", identifier), "as": kind, **more}


def differing(identifier, at=None, why="bytes", path="v1/content/f"):
    """A line of what differs."""
    return line("differs", identifier, at, path=path, why=why)


def audit(*entries, end=END):
    """The log of an audit."""
    return lines(*entries, *([end] if end else []))


def set_up(folder, log, *names, **more):
    """A root with these objects, a folder beside it, and a log."""
    build(folder, {**root(*(an_object(name) for name in names)), "away": DIR, "audit.log": log, **more})


def set_aside(folder, *words, **options):
    """What `set-aside` answers: its status, its list, and the lines that it said."""
    status, listed, said = roots(folder, "set-aside", "ocfl", "away", *(words or ("audit.log",)), **options)
    return status, listed, said.splitlines()


def below(folder, name):
    """What stands in a folder."""
    return read_tree(f"{folder}/{name}")


def moved(*names):
    """The objects of these identifiers in the other folder."""
    return stores.with_folders({path[5:]: held for name in names for path, held in an_object(name).items()})


def moves(program, folder):
    """Each object that differs is renamed to its place in the other folder as it stands, and listed, and no empty folder is left; the same command lists
    the same."""
    names, gone = ("aa", "ark:/13030/x", "cc", "é\\ d\t", "ee", "ff"), ("ark:/13030/x", "cc", "é\\ d\t")
    whys = dict(zip(gone, ("bytes", "missing", "extra")))
    entries = [line("same", "aa"), *(differing(name, why=why) for name, why in whys.items()), line("absent", "gg"), skip("hh", "empty"), line("same", "ee")]
    set_up(folder, audit(*entries, {"as": "extra", "id": "ff", "to": place("ff")}, {"as": "stray", "to": "x"}), *names)
    damaged = {f"{place('cc')}/inventory.json": b"x", f"{place('cc')}/v1/content/more": b"y"}
    build(f"{folder}/ocfl", damaged)
    before = {os.lstat(f"{above}/{name}").st_ino for above, _, files in os.walk(f"{folder}/ocfl") for name in files}
    listed = sorted(gone, key=place)
    faults = differs(first=(set_aside(folder), (0, listed, [])))
    kept = stores.with_folders({path[5:]: held for path, held in root(*(an_object(name) for name in ("aa", "ee", "ff"))).items() if path.startswith("ocfl/")})
    for _ in range(2):
        faults += list(stores.differences(below(folder, "ocfl"), kept)) + list(stores.differences(below(folder, "away"), {**moved(*gone), **damaged}))
        faults += differs(again=(set_aside(folder), (0, listed, [])))
    after = {os.lstat(f"{above}/{name}").st_ino for top in ("ocfl", "away") for above, _, files in os.walk(f"{folder}/{top}") for name in files}
    faults += differs(files=(after, before))
    build(folder, {"audit.log": GONE, "1.log": audit(line("same", "aa"), differing("ee")), "2.log": audit(differing("ff"))})
    faults += differs(shares=(set_aside(folder, "1.log", "2.log"), (0, sorted(("ee", "ff"), key=place), [])))
    build(folder, {"none.log": audit(line("same", "aa"))})
    few = {"preexec_fn": lambda: resource.setrlimit(resource.RLIMIT_NOFILE, (30, 30))}
    faults += differs(many=(set_aside(folder, *(["none.log"] * 40), **few), (0, [], [])))
    return faults + differs(none=(set_aside(folder, "none.log"), (0, [], [])), left=("0=ocfl_1.1" in below(folder, "ocfl"), True))


def twins(program, folder):
    """What is about twins stays, and is told: a line that says so, and any whose place another folder of the store leads to, whatever that one's line says.
    Of two logs the later line of a folder counts."""
    names = ("aa", "bb", "cc", "dd", "ee")
    set_up(folder, audit(
        differing("aa", "^6/1a/obj", "twin"), differing("bb", "bb/obj"), line("same", "bb", "^6/2b/obj"), differing("cc", "cc/obj"),
        differing("cc", "^6/3c/obj", "twin"), differing("dd", "dd/obj"), differing("ee"),
    ), *names)
    twin = "it stays: two folders of the store have its identifier: compare the two"
    told = [f"roots.py: ocfl/{place(name)}: {twin}" for name in sorted(("aa", "bb", "cc"), key=place)]
    build(folder, {"later.log": audit(line("same", "dd", "dd/obj"), differing("ee"))})
    faults = differs(later=(set_aside(folder, "audit.log", "later.log"), (1, ["ee"], told)))
    faults += list(stores.differences(below(folder, "away"), moved("ee")))
    faults += differs(earlier=(set_aside(folder), (1, sorted(("dd", "ee"), key=place), told)))
    return faults + [f"{name} is away" for name in ("aa", "bb", "cc") if not os.path.isdir(f"{folder}/ocfl/{place(name)}")]


def stays(program, folder):
    """What stands in the other folder already, has later versions or another program's files, can't be in a list, is no folder or isn't there is told and
    left as it is; the rest is moved."""
    names = ("aa", "ba", "bb", "bc", "bd", "be", "x\ny", "\ufeffz", "bg", "bh")
    set_up(folder, audit(*(differing(name) for name in (*names, "bi"))), *names)
    build(f"{folder}/away", {f"{place('ba')}/there": b"", place("bd"): b"", place("bg"): b""})
    build(f"{folder}/ocfl", {f"{place('bb')}/v2": DIR, f"{place('bc')}/logs/x": b"", f"{place('bh')}/0=ocfl_object_1.0": b""})
    build(f"{folder}/ocfl", {place("be"): GONE, place("bg"): GONE})
    build(f"{folder}/ocfl", {place("be"): Link("../../../other")})
    build(folder, {"other": DIR})
    before = {it: below(folder, it) for it in ("ocfl", "away")}
    why = {
        "ba": "away has something at its place",
        "bb": "it is of another version of OCFL, or has later versions",
        "bc": "another program has written in it",
        "bd": "away has something at its place",
        "be": "it is no folder",
        "bg": "away has something at its place",
        "bh": "it is of another version of OCFL, or has later versions",
        "bi": "nothing stands there any more",
        "x\ny": "its identifier can't stand in a list: move it by hand, and carry it by --only",
        "\ufeffz": "its identifier can't stand in a list: move it by hand, and carry it by --only",
    }
    told = [f"roots.py: ocfl/{place(name)}: it stays: {why[name]}" for name in sorted(why, key=place)]
    faults = differs(told=(set_aside(folder), (1, ["aa"], told)))
    after = {it: below(folder, it) for it in ("ocfl", "away")}
    faults += list(stores.differences({**after["ocfl"], **moved("aa")}, before["ocfl"]))
    faults += list(stores.differences(after["away"], {**before["away"], **moved("aa")}))
    return faults + differs(other=(os.listdir(f"{folder}/other"), []))


def only_places(program, folder):
    """Only the place of the line's own identifier is touched, in this root's tuples, and behind no link; what leads elsewhere is no line of a log."""
    set_up(folder, b"", "aa", "bb", "cc", "dd")
    build(folder, {"elsewhere": DIR, f"outside/{place('bb')}": DIR})
    for name in ("bb", "cc"):
        first = place(name).split("/")[0]
        os.rename(f"{folder}/ocfl/{first}", f"{folder}/elsewhere/{first}")
        os.symlink(f"../elsewhere/{first}", f"{folder}/ocfl/{first}")
    os.symlink("../elsewhere", f"{folder}/away/{place('dd').split('/')[0]}")
    before, faults = read_tree(folder), []
    for bad in ("../ocfl/x", f"../../{place('bb')}", "/etc", f"{place('aa')}/../x", f"./{place('aa')}", "", f"{place('aa')}/", "a\0b"):
        build(folder, {"audit.log": audit({**differing("aa"), "to": bad})})
        faults += differs(**{bad: (set_aside(folder), (2, [], ["roots.py: audit.log:1: it is no line of a log"]))})
    for bad in (place("bb"), stores.place("aa", (2, 4)), f"{place('aa')}/v1", place("aa").rsplit("/", 1)[0], "extensions"):
        build(folder, {"audit.log": audit({**differing("aa"), "to": bad})})
        faults += differs(**{bad: (set_aside(folder), (1, [], [f"roots.py: ocfl/{bad}: it stays: this isn't the place of its identifier in this root"]))})
    build(folder, {"audit.log": audit(*(differing(name) for name in ("bb", "cc", "dd")))})
    told = [f"roots.py: ocfl/{place(name)}: it stays: Not a directory" for name in sorted(("bb", "cc", "dd"), key=place)]
    faults += differs(links=(set_aside(folder), (2, [], told)))
    build(folder, {"audit.log": b""})
    return faults + list(stores.differences(read_tree(folder), before))


def refusals(program, folder):
    """A folder that is the root, lies in it or has it, that is a link or isn't there; a root in use; what is no log of an audit: nothing is moved."""
    set_up(folder, audit(differing("aa")), "aa", **{"ocfl/extensions/in": DIR, "run.log": lines(differing("aa"), present("bb/obj", "bb"))})
    build(folder, {"bad.log": audit(differing("aa")) + b"x\n", "why.log": audit({**line("differs", "aa"), "path": ""}), "other/staging": DIR})
    build(folder, {f"other/{path}": held for path, held in root(an_object("aa")).items()})
    os.symlink("away", f"{folder}/link")
    os.symlink("audit.log", f"{folder}/linked.log")
    before, faults = read_tree(folder), []
    for words, why in {
        ("ocfl", "ocfl", "audit.log"): "lie in one another",
        ("ocfl", "ocfl/extensions/in", "audit.log"): "lie in one another",
        ("ocfl", ".", "audit.log"): "lie in one another",
        ("ocfl", "other/ocfl", "audit.log"): "other/ocfl is a storage root",
        ("ocfl", "link", "audit.log"): "no folder, or a link",
        ("ocfl", "audit.log", "audit.log"): "no folder, or a link",
        ("ocfl", "none", "audit.log"): "none: No such file",
        ("ocfl", "away", "none"): "none: No such file",
        ("ocfl", "away", "away"): "away is no file: it is read twice",
        ("ocfl", "away", "audit.log", "run.log"): "run.log:2: it is no line of the log of an audit",
        ("ocfl", "away", "bad.log"): "bad.log:3: it is no line of a log",
        ("ocfl", "away", "why.log"): "why.log:1: it is no line of a log",
        ("away", "ocfl", "audit.log"): "isn't a storage root",
        ("other/ocfl", "away", "audit.log"): "staging is left",
        ("ocfl", "away"): "the words are wrong",
        ("ocfl",): "the words are wrong",
    }.items():
        status, listed, said = roots(folder, "set-aside", *words)
        faults += differs(**{" ".join(words): ((status, listed, why in said), (2, [], True))})
    lock = os.open(folder, os.O_RDONLY)
    fcntl.flock(lock, fcntl.LOCK_SH | fcntl.LOCK_NB)
    faults += differs(lock=(set_aside(folder), (2, [], ["roots.py: another run has the folder of ocfl"])))
    os.close(lock)
    command = ["sh", "-c", 'cat audit.log | "$@"', "sh", *ROOTS, "set-aside", "ocfl", "away", "/dev/stdin"]
    piped = subprocess.run(command, cwd=folder, capture_output=True, timeout=60)
    faults += differs(pipe=((piped.stdout, piped.stderr), (b"", b"roots.py: /dev/stdin is no file: it is read twice\n")))
    faults += list(stores.differences(read_tree(folder), before))
    return faults + differs(linked=(set_aside(folder, "linked.log"), (0, ["aa"], [])))


def other_systems(program, folder):
    """A folder on another file system, or behind another mount of the same, is refused with the reason, and nothing is moved."""
    with contextlib.ExitStack() as last:
        set_up(folder, audit(differing("aa")), "aa", same=DIR, f=DIR, g=DIR)
        mount_below(folder, ("-t", "tmpfs", "-o", "size=1m", "none", "f"), last)
        mount_below(folder, ("--bind", f"{folder}/same", "g"), last)
        before, faults = read_tree(folder), []
        other = "f is on another file system than ocfl: name a folder on that of ocfl"
        for to, why in {"f": other, "g": "g takes no more of ocfl: Invalid cross-device link"}.items():
            faults += differs(**{to: (roots(folder, "set-aside", "ocfl", to, "audit.log"), (2, [], f"roots.py: {why}\n"))})
            faults += [f"{to}: {text}" for text in stores.differences(read_tree(folder), before)]
        return faults


def broken_logs(program, folder):
    """A last line that was never finished is told and not acted on; a log without its end line is told. What the other lines say is done; the status is 2."""
    torn, faults = lines(differing("bb")), []
    for cut in (1, 20, len(torn) - 1):
        subprocess.run(["rm", "-rf", f"{folder}/ocfl", f"{folder}/away"], check=True)
        set_up(folder, lines(differing("aa")) + torn[:cut], "aa", "bb")
        told = ["roots.py: audit.log: its last line was never finished, and is left out"]
        faults += differs(torn=(set_aside(folder), (2, ["aa"], told)), there=(os.path.isdir(f"{folder}/ocfl/{place('bb')}"), True))
    build(folder, {"audit.log": audit(differing("bb"), end=None)})
    told = ["roots.py: audit.log: it has no end line, so its audit didn't come to its end"]
    return faults + differs(cut=(set_aside(folder), (2, ["bb"], told)), all=(set(moved("aa", "bb")) == set(below(folder, "away")), True))


def outputs(program, folder):
    """Where the list can't be written no more is moved, and the same command goes on; on a terminal no identifier writes on that."""
    set_up(folder, audit(differing("a\x1b"), differing("bb")), "a\x1b", "bb")
    with open("/dev/full", "wb") as full:
        status, _, said = set_aside(folder, stdout=full)
    faults = differs(full=((status, said), (2, ["roots.py: cannot write the output: No space left on device"])))
    faults += differs(one=(sum(os.path.isdir(f"{folder}/away/{place(name)}") for name in ("a\x1b", "bb")), 1))
    faults += differs(again=(set_aside(folder), (0, sorted(("a\x1b", "bb"), key=place), [])))
    ours, theirs = pty.openpty()
    set_aside(folder, stdout=theirs)
    os.close(theirs)
    said = b""
    with contextlib.suppress(OSError):
        while piece := os.read(ours, 65536):
            said += piece
    os.close(ours)
    return faults + differs(shown=(sorted(said.split()), [rb"a\u{1b}", b"bb"]))


def killed(program, folder):
    """Ended at 150 moments each object stands in one of the two folders, whole, and the same command again does the rest and lists all."""
    one, other, *names = ("aa", "ab", "ac", "ad", "ae")
    os.mkdir(f"{folder}/before")
    set_up(f"{folder}/before", audit(line("same", one), *(differing(name) for name in (other, *names))), one, *names)
    build(f"{folder}/before/away", {path[5:]: held for path, held in an_object(other).items()})
    words = [f"{TOP}/tests/harness/kills_of_aside.py", ROOTS[-1], folder, "150"]
    done = subprocess.run([sys.executable, "-B", *words], capture_output=True, timeout=280)
    *faults, count = done.stdout.decode().splitlines() or ["nothing was said"]
    return faults[:5] + differs(count=(count, "150"), errors=(done.stderr, b""))


def carried_anew(program, folder):
    """What the program's own audit tells is set aside, and its own `--list` takes the list: identifiers with CR, blanks and other signs come back as the store
    has them, and so the audit finds all the same; twins stay."""
    below_root = {"^0/d/o": "\r", "a^/0d/o": "a\r", "^2/0b/^2/0/o": " b ", "^c/3^/a9/o": "é", "d^/5c/o": "d\\", "e/o": "e", "^6/6/o": "f", "f/o": "f"}
    subprocess.run(["rm", "-r", f"{folder}/s"], check=True)
    build(f"{folder}/s", store({f"{path}bj/f": name.encode() for path, name in below_root.items()}, b"x:"))

    def run(*words):
        ended = subprocess.run([program, *words, "s", "d"], cwd=folder, capture_output=True, timeout=120)
        with open(f"{folder}/audit.log", "wb") as log:
            log.write(ended.stdout)
        return [entry["as"] for entry in map(json.loads, ended.stdout.splitlines())][:-1]

    faults = differs(first=(sorted(run("migrate", *MEANT)), ["done"] * 7 + ["present"]))
    build(f"{folder}/s/pairtree_root", {f"{path}bj/f": b"new" for path in below_root})
    faults += differs(audit=(run("audit"), ["differs"] * 8))
    ended = subprocess.run([*ROOTS, "set-aside", "d/ocfl", "s/../away", "audit.log"], cwd=folder, capture_output=True, timeout=60)
    faults += differs(none=(ended.returncode, 2))
    os.mkdir(f"{folder}/away")
    ended = subprocess.run([*ROOTS, "set-aside", "d/ocfl", "away", "audit.log"], cwd=folder, capture_output=True, timeout=60)
    wanted = {"\r": b"x:\r\r\n", "a\r": b"x:a\r\r\n", " b ": b"x: b \n", "é": "x:é\n".encode(), "d\\": b"x:d\\\n", "e": b"x:e\n"}
    faults += differs(listed=(ended.stdout, b"".join(wanted[name] for name in sorted(wanted, key=lambda it: place(f"x:{it}")))), status=(ended.returncode, 1))
    build(folder, {"list.txt": ended.stdout})
    faults += differs(anew=(run("migrate", *MEANT, "--list", "list.txt"), ["done"] * 6))
    return faults + differs(at_last=(sorted(run("audit")), ["differs"] * 2 + ["same"] * 6))


CASES = [
    Alone("setting aside", moves),
    Alone("twins aren't set aside", twins),
    Alone("what stays when objects are set aside", stays),
    Alone("only places are set aside", only_places),
    Alone("what can't be set aside", refusals),
    Alone("setting aside on several file systems", other_systems),
    Alone("setting aside by logs that break off", broken_logs),
    Alone("setting aside with an output that fails, or a terminal", outputs),
    Alone("setting aside, killed at 150 moments", killed),
    Alone("what was set aside is carried anew", carried_anew),
]
