"""Tests of the scripts with words, logs and numbers that are odd: what is none is refused in a line, and nothing that stands is harmed."""

import os
import pty
import resource
import subprocess
import sys

import stores
from aside import audit, differing, set_aside, set_up
from alone import Alone, differs
from joining import an_object, roots
from report import EVENT, RUN, SCRIPT, logs, report
from stores import DIR, build, lines, place, root, skip, whole_log

CHECK = {"as": "end", **dict.fromkeys(("bytes", "files", "folders", "largest", "longest", "objects", "sites", "told"), 0)}
SMALL = {"preexec_fn": lambda: resource.setrlimit(resource.RLIMIT_AS, (200 << 20, 200 << 20))}


def other_logs(program, folder):
    """An end line of a run or of a check is none of an audit: by it nothing is said to be set aside. That of a check is none for `sums`."""
    texts = {"run": whole_log(), "skips": whole_log(skip("aa", "empty")), "check": lines(CHECK), "both": audit(differing("aa")) + lines(CHECK)}
    set_up(folder, audit(differing("aa")), "aa", **{f"{name}.log": text for name, text in texts.items()})
    before, faults = stores.read_tree(folder), []
    for name, number in (("run", 1), ("skips", 2), ("check", 1), ("both", 3)):
        told = [f"roots.py: {name}.log:{number}: it is no line of the log of an audit"]
        faults += differs(**{name: (set_aside(folder, f"{name}.log"), (2, [], told))})
    told = "roots.py: check.log:1: it is no line of the log of a run or an audit\n"
    faults += differs(sums=(roots(folder, "sums", "ocfl", "check.log"), (2, [], told)))
    faults += list(stores.differences(stores.read_tree(folder), before))
    more = {"absent": 0, "as": "end", "differs": 1, "extra": 0, "same": 0, "skip": 0, "stray": 0}
    build(folder, {"audit.log": audit(differing("aa"), end=more)})
    return faults + differs(extra=(set_aside(folder), (0, ["aa"], [])))


def empty_paths(program, folder):
    """A path that is empty, as of a variable that isn't set, is refused as that, and is no other folder and no standard output."""
    set_up(folder, audit(differing("aa")), "aa")
    before, faults = stores.read_tree(folder), []
    words = (("damaged", ""), ("join", "ocfl", ""), ("join", "", "ocfl"), ("set-aside", "ocfl", "", "audit.log"))
    for kind, several in (("folder", words), ("log", (("sums", "ocfl", ""), ("set-aside", "ocfl", "away", "")))):
        for it in several:
            faults += differs(**{f"{it}": (roots(folder, *it), (2, [], f"roots.py: the path of a {kind} is empty\n"))})
    told = "report.py: the path of a log or of the output is empty\n"
    for it in (("",), ("audit.log", ""), ("audit.log", "-o", "")):
        faults += differs(**{f"report {it}": (report(folder, *it), (2, b"", told))})
    return faults + list(stores.differences(stores.read_tree(folder), before))


def huge(program, folder):
    """A log with the largest numbers has its page; a file without an end of its first line, or an inventory that memory can't hold, is told in a line."""
    most = 10**20 - 1
    line = {"as": "done", "at": "aa/obj", "bytes": most, "empty": most, "files": most, "id": "aa", "to": place("aa")}
    logs(folder, huge=lines(line, {"as": "end", "done": 1, "present": 0, "skip": 0}))
    status, text, said = report(folder, "huge.log")
    faults = differs(huge=((status, b"100 EB to 1 ZB" in text, text.endswith(b"</html>\n"), said), (0, True, True, "")))
    build(folder, {**root(an_object("aa")), "zeros.log": b"", **{f"two/{path}": held for path, held in root().items()}})
    for path in ("zeros.log", f"ocfl/{place('aa')}/inventory.json", "two/ocfl/ocfl_layout.json"):
        os.truncate(f"{folder}/{path}", 1 << 40)
    for words in (("sums", "ocfl", "zeros.log"), ("damaged", "ocfl"), ("damaged", "two/ocfl")):
        faults += differs(**{f"{words}": (roots(folder, *words, **SMALL), (2, [], "roots.py: out of memory\n"))})
    return faults + differs(report=(report(folder, "--csv", "zeros.log", "-o", "x.csv", **SMALL), (2, b"", "report.py: out of memory\n")))


def kept(program, folder):
    """No page and no table is written over a log or an event, also over one that isn't among its logs; one of either is written anew."""
    logs(folder, run=whole_log(*RUN), audit=audit(differing("aa")), event=stores.text_of(EVENT), torn=whole_log(*RUN)[:-9])
    build(folder, {"link.log": stores.Link("audit.log")})
    before, faults = stores.read_tree(folder), []
    for name, what in {"audit.log": "a log", "link.log": "a log", "torn.log": "a log", "event.log": "an event"}.items():
        for words in (("run.log",), ("--csv", "run.log")):
            told = f"report.py: {name}: it is {what}, and isn't written over: name another file\n"
            faults += differs(**{f"{name} {words}": (report(folder, *words, "-o", name), (2, b"", told))})
    faults += list(stores.differences(stores.read_tree(folder), before))
    for words in (("run.log",), ("--csv", "run.log"), ("run.log",)):
        faults += differs(**{f"anew {words}": (report(folder, *words, "-o", "made"), (0, b"", ""))})
    return faults


def between(program, folder):
    """Options of the report may stand between its logs, as they often do; what begins with `-` is a log behind `--`."""
    logs(folder, **{"run": whole_log(*RUN), "audit": audit(differing("aa")), "-x": whole_log(*RUN)})
    first = report(folder, "run.log", "audit.log", "--limit", "3")
    faults = differs(between=(report(folder, "run.log", "--limit", "3", "audit.log"), first), status=(first[::2], (0, "")))
    faults += differs(dash=(report(folder, "-o", "x.html", "--", "-x.log", "run.log"), (0, b"", "")))
    return faults + differs(none=(report(folder, "-o", "x.html")[::2], (2, report(folder)[2])))


def on_a_terminal(program, folder):
    """On a terminal no name of a table writes on that; elsewhere it is as it is."""
    logs(folder, **{"run": whole_log(stores.done("aa/\x1b[31m\u202e\n", "a\x1b]0;x\x07", {}))})
    table = report(folder, "--csv", "run.log")[1]
    outer, inner = pty.openpty()
    status = subprocess.run([sys.executable, "-B", SCRIPT, "--csv", "run.log"], cwd=folder, stdout=inner, timeout=60).returncode
    os.close(inner)
    seen = os.read(outer, 65536)
    os.close(outer)
    faults = differs(raw=((b"\x1b[31m" in table, status), (True, 0)))
    return faults + differs(seen=((b"\x1b" in seen, b"\\u{1b}[31m\\u{202e}\\u{a}" in seen), (False, True)))


CASES = [
    Alone("scripts by logs of other kinds", other_logs),
    Alone("scripts with empty paths", empty_paths),
    Alone("scripts with huge numbers and files", huge),
    Alone("what the report is never written over", kept),
    Alone("the report's table on a terminal", on_a_terminal),
    Alone("the report's options between its logs", between),
]
