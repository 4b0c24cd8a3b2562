"""Cases of --event: the record of a run, a rehearsal, an audit or a check, where its file may lie, and what is left where it can't be written.
"""

import itertools
import json
import os
import re
import shutil
import signal
import subprocess
import time
from datetime import datetime, timezone

from alone import Alone, differs, many, run
from running import MEANT
from stores import DIR, FIFO, ONE_DONE, ONE_PRESENT, ONE_ROOT, Link
from stores import build, place, read_tree, whole_log

INSIDE = b"pairtree2ocfl: FILE of --event lies in SOURCE, DEST/ocfl or DEST/staging\n"
STANDS = "FILE of --event stands already, or FILE.part does"
NO_FOLDER = "cannot write FILE of --event: %s: No such file or directory (os error 2)"
NO_END = f"the event has no end: {STANDS}: ev.part"
CAUSES = ("root", "empty", "split", "past", "name", "utf8", "other", "limit", "reserved")
REASONS = ("missing", "extra", "kind", "bytes", "twin")
TROUBLES = ("missing", "unreadable", "prefix", "doubtful", "deep", "root", "empty", "split", "name", "utf8", "reserved", "past")
TROUBLES += ("spelling", "other", "long", "many", "large", "place", "width", "desktop")

# What the options say that both commands take, where none is given.
BOTH = {"digest": "sha512", "tuple-size": 3, "tuples": 3, "gather": False, "share": "1/1", "only": [], "ignore": [], "verbose": False, "quiet": False}
BOTH |= {"progress": "auto", "interval": 10}
OF_RUN = {**BOTH, "created": MEANT[1], "name": MEANT[3], "message": "Migrated from Pairtree", "sync": False, "dry-run": False, "present-ok": False, "skips-ok": False}
OF_AUDIT = {**BOTH, "skips-ok": False, "extra": False, "quick": False}
OF_CHECK = {key: BOTH[key] for key in BOTH if key != "digest"} | {"read": False}


def line(text):
    """A line of the program's on standard error."""
    return f"pairtree2ocfl: {text}\n".encode()


def counts(words, given):
    """The numbers of these words, 0 where none is given."""
    return {word: given.get(word, 0) for word in words}


def answer(program, folder, *words):
    """The status and both streams of a command over the folders of a test."""
    done = subprocess.run([program, *words], cwd=folder, capture_output=True, stdin=subprocess.DEVNULL, timeout=120)
    return done.returncode, done.stdout, done.stderr


def recorded(path):
    """The members of a record, but for its moments, which are looked at, and those that are alike in all."""
    with open(path, "rb") as file:
        text = file.read()
    members = json.loads(text)
    faults = differs(form=(text, (json.dumps(members, sort_keys=True, separators=(",", ":"), ensure_ascii=False) + "\n").encode()))
    moments = [members.pop(key) for key in ("begin", "end") if key in members]
    now = datetime.now(timezone.utc).strftime("%Y-%m-%dT%H:%M:%SZ")
    written = all(re.fullmatch(r"\d{4}-\d\d-\d\dT\d\d:\d\d:\d\dZ", moment) for moment in moments)
    ordered = [*moments, now] == sorted([*moments, now])
    recent = all((datetime.fromisoformat(now) - datetime.fromisoformat(moment)).total_seconds() < 600 for moment in moments)
    faults += differs(written=(written, True), ordered=(ordered, True), recent=(recent, True), moments=(len(moments) > 0, True))
    return members, len(moments), faults


def wanted(program, folder, word, options, folders=(("source", "s"), ("dest", "d")), **ends):
    """What is recorded of a command over the folders of a test, by what is known of it without the program's records."""
    version = subprocess.run([program, "--version"], capture_output=True, timeout=60, check=True).stdout.decode().splitlines()
    with open("/proc/sys/kernel/hostname", encoding="utf-8") as file:
        host = file.read().rstrip("\n")
    paths = {key: {"given": name, "resolved": os.path.realpath(f"{folder}/{name}")} for key, name in folders}
    begun = {"as": word, "host": host, "options": options, "program": version[0].split()[0], "toolchain": version[1], "version": version[0].split()[1]}
    return {**begun, **paths, **ends}


def ended(lines, skips, files, content, status, **more):
    """What is recorded of how it ended."""
    return {"lines": lines, "skips": counts(CAUSES, skips), "files": files, "bytes": content, "status": status, **more}


def of_a_run(program, folder):
    """A run, whose log and destination are as without the option; every option is recorded, and what was skipped by its cause."""
    build(f"{folder}/s/pairtree_root", {"ab/c/obj/b.txt": b"defgh", "ab/d": DIR, "xy/loose": b"1", "xy/other": b"1", "xy/z/more": DIR})
    plain = answer(program, folder, "migrate", *MEANT, "s", "d")
    without = read_tree(f"{folder}/d")
    shutil.rmtree(f"{folder}/d")
    os.mkdir(f"{folder}/d")
    done = answer(program, folder, "migrate", *MEANT, "--event", "ev.json", "s", "d")
    found, moments, faults = recorded(f"{folder}/ev.json")
    lines = [json.loads(line) for line in done[1].splitlines()]
    skips = {}
    for line in lines:
        if line["as"] == "skip":
            skips[line["cause"]] = skips.get(line["cause"], 0) + 1
    ends = ended({"done": 2, "present": 0, "skip": len(lines) - 3}, skips, 2, 8, 1)
    faults += differs(record=(found, wanted(program, folder, "run", {**OF_RUN, "event": "ev.json"}, **ends)), moments=(moments, 2))
    faults += differs(answer=(done, plain), status=(done[0], 1), skips=(sum(skips.values()) > 1, True), root=(read_tree(f"{folder}/d"), without))
    return faults + differs(names=(sorted(os.listdir(folder)), ["d", "ev.json", "s"]))


def of_every_option(program, folder):
    """What each option says is recorded."""
    build(folder, {"old.log": b"", "ids": b"abc\n"})
    words = ["--address", "mailto:a@b", "--message", "M \u00e9\n\"", "--digest", "sha256", "--tuple-size", "2", "--tuples", "1", "--gather"]
    words += ["--share", "2/2", "--by-folders", "1", "--only", "ab", "--only", "\u00e9", "--ignore", ".DS_Store", "--ignore", "Thumbs.db", "--sync", "-n", "--present-ok", "--skips-ok", "-v", "-q"]
    words += ["--list", "ids", "--progress", "never", "--interval", "7", "--expect", "old.log", "--event", "./ev"]
    done = answer(program, folder, "migrate", *MEANT, *words, "s", "d")
    options = {**OF_RUN, "address": "mailto:a@b", "message": "M \u00e9\n\"", "digest": "sha256", "tuple-size": 2, "tuples": 1, "gather": True}
    options |= {"share": "2/2", "by-folders": 1, "only": ["ab", "\u00e9"], "ignore": [".DS_Store", "Thumbs.db"], "sync": True, "dry-run": True, "present-ok": True, "skips-ok": True, "verbose": True}
    options |= {"list": "ids", "quiet": True, "progress": "never", "interval": 7, "expect": "old.log", "event": "./ev"}
    found, _, faults = recorded(f"{folder}/ev")
    faults += differs(options=(found["options"], options), status=(done[0], 0))
    done = answer(program, folder, "audit", "--skips-ok", "--share", "1/2", "--event", "ev2", "s", "d")
    found, _, more = recorded(f"{folder}/ev2")
    return faults + more + differs(audit=(found["options"], {**OF_AUDIT, "skips-ok": True, "share": "1/2", "event": "ev2"}), as_=(found["as"], "audit"))


def of_a_rehearsal(program, folder):
    """A rehearsal, which changes nothing in the destination; and a second run, whose object is present."""
    done = answer(program, folder, "migrate", *MEANT, "-n", "--event", f"{folder}/ev", "s", "d")
    found, moments, faults = recorded(f"{folder}/ev")
    options = {**OF_RUN, "dry-run": True, "event": f"{folder}/ev"}
    ends = ended({"done": 1, "present": 0, "skip": 0}, {}, 1, 3, 0)
    faults += differs(record=(found, wanted(program, folder, "rehearsal", options, **ends)), moments=(moments, 2))
    faults += differs(answer=(done, (0, whole_log(ONE_DONE), b"")), dest=(read_tree(f"{folder}/d"), {}))
    build(f"{folder}/d", ONE_ROOT)
    stands = read_tree(f"{folder}/d")
    done = answer(program, folder, "migrate", *MEANT, "--event", "again", "s", "d")
    found, _, more = recorded(f"{folder}/again")
    ends = ended({"done": 0, "present": 1, "skip": 0}, {}, 0, 0, 1)
    again = wanted(program, folder, "run", {**OF_RUN, "event": "again"}, **ends)
    return faults + more + differs(again=(found, again), log=(done, (1, whole_log(ONE_PRESENT), b"")), root=(read_tree(f"{folder}/d"), stands))


def of_an_audit(program, folder):
    """An audit, of an object that is the same, one that is absent and one that differs."""
    build(f"{folder}/s/pairtree_root", {"de/f/obj/x": b"12345", "gh/i/obj/y": b"1", "jk": DIR})
    build(f"{folder}/d", ONE_ROOT)
    build(f"{folder}/d/ocfl", {f"{place('ghi')}/x": b""})
    stands = read_tree(f"{folder}/d")
    done = answer(program, folder, "audit", "--event", "d/ev", "s", "d")
    found, moments, faults = recorded(f"{folder}/d/ev")
    os.remove(f"{folder}/d/ev")
    lines = {"absent": 1, "differs": 1, "same": 1, "skip": 1}
    whys = {line["why"]: 1 for line in map(json.loads, done[1].splitlines()) if line["as"] == "differs"}
    ends = ended(lines, {"empty": 1}, 1, 3, 1, differs=counts(REASONS, whys))
    options = {**OF_AUDIT, "event": "d/ev"}
    faults += differs(record=(found, wanted(program, folder, "audit", options, **ends)), moments=(moments, 2), why=(len(whys), 1))
    return faults + differs(status=(done[0], 1), err=(done[2], b""), dest=(read_tree(f"{folder}/d"), stands))


def of_a_check(program, folder):
    """A check, whose log is as without the option, with every option; and one whose output fails. It has no destination, and asks nothing of the folder
    that --dest names."""
    build(f"{folder}/s/pairtree_root", {"ab/c/obj/l": Link("none"), "ab/d": DIR, "ab/e": DIR, "xy/obj/f": b"12345"})
    plain = answer(program, folder, "check", "--read", "s")
    done = answer(program, folder, "check", "--read", "--event", "ev", "s")
    found, moments, faults = recorded(f"{folder}/ev")
    place = [("source", "s")]
    ends = {"lines": counts(TROUBLES, {"empty": 2, "other": 1}), "objects": 2, "files": 2, "bytes": 8, "status": 1}
    faults += differs(record=(found, wanted(program, folder, "check", {**OF_CHECK, "read": True, "event": "ev"}, place, **ends)), moments=(moments, 2))
    faults += differs(answer=(done, plain), status=(done[0], 1))
    build(folder, {"D/ocfl": DIR, "old.log": done[1]})
    words = ["--gather", "--dest", "D", "--tuple-size", "2", "--tuples", "1", "--ignore", "l", "-v", "-q"]
    words += ["--progress", "always", "--interval", "7", "--expect", "old.log"]
    done = answer(program, folder, "check", *words, "--event", "D/ocfl/ev", "s")
    found, _, more = recorded(f"{folder}/D/ocfl/ev")
    options = {**OF_CHECK, "gather": True, "dest": "D", "tuple-size": 2, "tuples": 1, "ignore": ["l"], "verbose": True, "quiet": True}
    options |= {"progress": "always", "interval": 7, "expect": "old.log", "event": "D/ocfl/ev"}
    faults += more + differs(options=(found["options"], options), status=((done[0], found["status"]), (1, 1)))
    with open("/dev/full", "wb") as full:
        command = [program, "check", "--event", "failed", "s"]
        done = subprocess.run(command, cwd=folder, stdout=full, stderr=subprocess.PIPE, timeout=120)
    found, moments, more = recorded(f"{folder}/failed")
    told = {"number": 3, "text": "cannot write the output"}
    faults += more + differs(fault=(found.get("fault"), told), status=((done.returncode, found["status"], moments), (3, 3, 2)))
    return faults + differs(err=(done.stderr, b"pairtree2ocfl: fault 3: cannot write the output\n"))


def of_a_check_refused(program, folder):
    """A check's file is refused in the store, and where it or FILE.part stands; then nothing is told or made. One that can't be made is no check."""
    build(folder, {"to_s": Link("s"), "stands": b"mine", "left.part": b"mine"})
    faults, before = [], read_tree(folder)
    for path in ("s/ev", "s/pairtree_root/ab/ev", "to_s/ev", "d/../s/ev"):
        done = answer(program, folder, "check", "--event", path, "s")
        faults += differs(**{path: (done, (2, b"", INSIDE))})
    for path, what in (("stands", "stands"), ("left", "left.part")):
        done = answer(program, folder, "check", "--event", path, "s")
        faults += differs(**{path: (done, (2, b"", line(f"{STANDS}: {what}")))})
    done = answer(program, folder, "check", "--event", "absent/ev", "s")
    faults += differs(absent=(done, (3, b"", line(NO_FOLDER % "absent/ev"))), changed=(read_tree(folder), before))
    done = answer(program, folder, "check", "--event", "ev", "none")
    found, moments, more = recorded(f"{folder}/ev")
    counted = {"lines": counts(TROUBLES, {"unreadable": 1}), "objects": 0, "files": 0, "bytes": 0, "status": 3, "source": {"given": "none"}}
    told = {key: found.get(key) for key in counted}
    return faults + more + differs(none=((done[0], done[2], moments), (3, b"", 2)), counted=(told, counted))


def waiting(program, folder, *words):
    """A run that waits, since nobody reads its log, once its root is begun."""
    many(folder)
    command = [program, "migrate", *MEANT, "--event", "ev", *words, "s", "d"]
    begun = subprocess.Popen(command, cwd=folder, stdout=subprocess.PIPE, stderr=subprocess.PIPE)
    for _ in range(1000):
        if os.path.exists(f"{folder}/d/ocfl/0=ocfl_1.1"):
            break
        time.sleep(0.01)
    return begun


def of_a_killed_run(program, folder):
    """A run that is killed leaves a record without an end."""
    with waiting(program, folder) as begun:
        begun.send_signal(signal.SIGKILL)
        begun.communicate(timeout=120)
    found, moments, faults = recorded(f"{folder}/ev")
    options = {**OF_RUN, "event": "ev"}
    faults += differs(record=(found, wanted(program, folder, "run", options)), moments=(moments, 1), status=(begun.returncode, -signal.SIGKILL))
    return faults + differs(names=(sorted(os.listdir(folder)), ["d", "ev", "s"]))


def without_an_end(program, folder):
    """Where the end can't be recorded the run is as it is, and the status 3: here something came to stand beside the file."""
    with waiting(program, folder) as begun:
        build(folder, {"ev.part": b"another's"})
        log, err = begun.communicate(timeout=120)
    _, moments, faults = recorded(f"{folder}/ev")
    faults += differs(status=(begun.returncode, 3), err=(err, line(NO_END)), moments=(moments, 1), last=(json.loads(log.splitlines()[-1])["as"], "end"))
    with open(f"{folder}/ev.part", "rb") as file:
        return faults + differs(beside=(file.read(), b"another's"))


def that_stand(program, folder):
    """A file that stands is refused, whatever it is, also one at the path with .part behind it; nothing is made or changed."""
    faults = []
    build(folder, {"outside": DIR})
    for path, thing in itertools.product(("ev", "ev.part"), (b"mine", DIR, FIFO, Link("nothing"), Link("s"))):
        build(f"{folder}/outside", {path: thing})
        before = read_tree(folder)
        for words in (["migrate", *MEANT], ["migrate", *MEANT, "-n"], ["audit"]):
            done = answer(program, folder, *words, "--event", "outside/ev", "s", "d")
            stands = line(f"{STANDS}: outside/{path}")
            faults += differs(**{f"{path} {thing} {words}": (done, (2, b"", stands)), "changed": (read_tree(folder), before)})
        shutil.rmtree(f"{folder}/outside")
        os.mkdir(f"{folder}/outside")
    return faults


def with_long_names(program, folder):
    """A file is refused at the start where the name of what is to replace it would be too long for the system, which takes 255 bytes; nothing is made."""
    faults, before = [], read_tree(folder)
    for length in (251, 255, 256):
        name = "e" * length
        why = line(f"FILE.part of --event cannot be looked at: {name}.part: File name too long (os error 36)")
        for words in (["migrate", *MEANT], ["migrate", *MEANT, "-n"], ["audit"]):
            done = answer(program, folder, *words, "--event", name, "s", "d")
            faults += differs(**{f"{length} {words[0]}": (done, (2, b"", why)), "changed": (read_tree(folder), before)})
    done = answer(program, folder, "migrate", *MEANT, "--event", "e" * 250, "s", "d")
    _, moments, more = recorded(f"{folder}/{'e' * 250}")
    return faults + more + differs(longest=((done[0], done[2], moments), (0, b"", 2)))


def with_strange_names(program, folder):
    """The path of an event's file is escaped as that of a fault."""
    strange, shown = "x\n\x1b[31m\u202e\\", "x\\u{a}\\u{1b}[31m\\u{202e}\\\\"
    build(folder, {strange: b"mine"})
    done = answer(program, folder, "audit", "--event", strange, "s", "d")
    faults = differs(stands=(done, (2, b"", line(f"{STANDS}: {shown}"))))
    done = answer(program, folder, "audit", "--event", f"no{strange}/ev", "s", "d")
    return faults + differs(absent=(done, (3, b"", line(NO_FOLDER % f"no{shown}/ev"))))


def in_the_folders(program, folder):
    """A file in the store, or in ocfl or staging of the destination, is refused, however its folder is led to; nothing is made or changed."""
    build(folder, {"to_s": Link("s"), "to_tree": Link("s/pairtree_root/ab"), "to_ocfl": Link("d/ocfl"), "to_d": Link("d"), "to_staging": Link("d/staging")})
    faults = []
    bare = ["s/ev", "s/pairtree_root/ev", "s/pairtree_root/ab/c/obj/ev", "d/../s/ev", "to_s/ev", "to_tree/c/ev", f"{folder}/s/ev", "s/./ev"]
    bare += ["d/ocfl", "d/staging", "to_d/ocfl", "d/./staging", "d/ocfl/"]
    faults += refused_at(program, folder, bare)
    build(f"{folder}/d", ONE_ROOT)
    build(f"{folder}/d", {"staging": DIR})
    made = ["d/ocfl/ev", "d/staging/ev", "to_ocfl/ev", "to_staging/ev", "to_d/ocfl/ba7/ev", "d/ocfl/../ocfl/ev", f"{folder}/to_d/staging/ev"]
    return faults + refused_at(program, folder, made)


def refused_at(program, folder, paths):
    """What goes wrong where a file is named at these paths."""
    faults, before = [], read_tree(folder)
    for path in paths:
        for words in (["migrate", *MEANT], ["migrate", *MEANT, "--dry-run"], ["audit"]):
            done = answer(program, folder, *words, "--event", path, "s", "d")
            faults += differs(**{f"{path} {words[0]}": (done, (2, b"", INSIDE)), "changed": (read_tree(folder), before)})
    return faults


def in_a_linked_tree(program, folder):
    """Where pairtree_root is a link, what it leads to is the store's too; a file beside it isn't."""
    os.rename(f"{folder}/s/pairtree_root", f"{folder}/tree")
    os.symlink("../tree", f"{folder}/s/pairtree_root")
    faults = refused_at(program, folder, ["tree/ev", "tree/ab/ev"])
    done = answer(program, folder, "audit", "--event", "ev", "s", "d")
    return faults + differs(beside=(os.path.exists(f"{folder}/ev"), True), status=(done[0] in (1, 3), True))


def beside_the_folders(program, folder):
    """A file may lie in the destination itself, beside the store, and in any folder whose name only looks like one of these."""
    build(folder, {"s2": DIR, "d/ocfl2": DIR, "x/ocfl": DIR, "x/s": DIR})
    faults = []
    for path in ("d/ev.json", "ev", "s2/ev", "d/ocfl2/ev", "x/ocfl/ev", "x/s/staging2", "d/\u00e9v", "../" + os.path.basename(folder) + "/up"):
        done = answer(program, folder, "migrate", *MEANT, "--present-ok", "--event", path, "s", "d")
        found, moments, more = recorded(f"{folder}/{path}")
        faults += [*more, *differs(**{path: ((done[0], done[2], found["status"], moments), (0, b"", 0, 2))})]
    return faults


def of_faults(program, folder):
    """A run that a fault ended: its number and text, with the path and the reason where there are, also without --verbose; and an audit's."""
    build(f"{folder}/d", {"staging": DIR})
    done = answer(program, folder, "migrate", *MEANT, "--event", "left", "s", "d")
    text = "a staging directory is left in the destination"
    faults = fault_faults(f"{folder}/left", done, 7, text, {"path": "d/staging", "reason": "it stands there already"})
    os.rmdir(f"{folder}/d/staging")
    os.rename(f"{folder}/s/pairtree_version0_1", f"{folder}/s/other")
    done = answer(program, folder, "migrate", *MEANT, "-n", "-q", "--event", "none", "s", "d")
    reason = "it holds no file pairtree_version0_1 or no directory pairtree_root"
    faults += fault_faults(f"{folder}/none", done, 5, "not a Pairtree 0.1 store", {"path": "s", "reason": reason})
    done = answer(program, folder, "audit", "--event", "absent", "s/absent", "d")
    where = {"path": "s/absent/", "reason": "No such file or directory (os error 2)"}
    faults += fault_faults(f"{folder}/absent", done, 1, "cannot read the source", where)
    found, _, _ = recorded(f"{folder}/absent")
    return faults + differs(unresolved=(found["source"], {"given": "s/absent"}))


def fault_faults(path, done, number, text, where):
    """What is wrong with the record of a fault, whose path and reason are told too, but for fault 7."""
    found, moments, faults = recorded(path)
    faults += differs(fault=(found.get("fault"), {"number": number, "text": text, **where}), status=((done[0], found["status"]), (3, 3)))
    why = b"" if number == 7 else line(f"{where['path']}: {where['reason']}")
    return faults + differs(err=(done[2], line(f"fault {number}: {text}") + why), moments=(moments, 2))


def of_a_log_that_fails(program, folder):
    """A fault without a path has none in its record; lines that were put are counted."""
    with open("/dev/full", "wb") as full:
        command = [program, "migrate", *MEANT, "--event", "ev", "s", "d"]
        done = subprocess.run(command, cwd=folder, stdout=full, stderr=subprocess.PIPE, timeout=120)
    found, _, faults = recorded(f"{folder}/ev")
    told = {"number": 3, "text": "cannot write the output"}
    faults += differs(fault=(found.get("fault"), told), lines=(found["lines"], {"done": 0, "present": 0, "skip": 0}))
    return faults + differs(status=((done.returncode, found["status"]), (3, 3)))


def where_none_is_made(program, folder):
    """No file is made where its folder isn't there, or is none, which is status 3 before the run; nor where FILE is empty, or the run may not
    begin."""
    faults, command = [], ["migrate", *MEANT]
    build(folder, {"d/file": b""})
    for words in (command, [*command, "-n"], ["audit"]):
        done = answer(program, folder, *words, "--event", "absent/ev", "s", "d")
        faults += differs(absent=(done, (3, b"", line(NO_FOLDER % "absent/ev"))))
        done = answer(program, folder, *words, "--event", "d/file/ev", "s", "d")
        faults += differs(file=(done, (3, b"", line("cannot write FILE of --event: d/file/ev: Not a directory (os error 20)"))))
        done = answer(program, folder, *words, "--event", "", "s", "d")
        faults += differs(empty=(done, (2, b"", b"pairtree2ocfl: --event is empty\n")))
    done = answer(program, folder, *command, "--event", "ev", "s", "s")
    faults += differs(overlap=(done, (2, b"", b"pairtree2ocfl: SOURCE and DEST lie in one another\n")))
    done = answer(program, folder, "migrate", "--created", "today", "--name", "Ada", "--event", "ev", "s", "d")
    faults += differs(words=(done[0], 2))
    with waiting(program, folder) as begun:
        second = run(program, folder, "--event", "second")
        begun.communicate(timeout=120)
    faults += differs(taken=((second.returncode, second.stderr), (3, b"pairtree2ocfl: another run has the destination\n")))
    return faults + differs(names=(sorted(os.listdir(folder)), ["d", "ev", "s"]))


CASES = [
    Alone("the event of a run", of_a_run),
    Alone("the event of every option", of_every_option),
    Alone("the event of a rehearsal", of_a_rehearsal),
    Alone("the event of an audit", of_an_audit),
    Alone("the event of a check", of_a_check),
    Alone("the events of checks that are refused", of_a_check_refused),
    Alone("the event of a killed run", of_a_killed_run),
    Alone("an event whose end can't be recorded", without_an_end),
    Alone("events whose file stands", that_stand),
    Alone("events whose file has a long name", with_long_names),
    Alone("events whose file has a strange name", with_strange_names),
    Alone("events in the store, in ocfl or in staging", in_the_folders),
    Alone("events in a tree that a link leads to", in_a_linked_tree),
    Alone("events beside the folders", beside_the_folders),
    Alone("the events of faults", of_faults),
    Alone("the event of a log that fails", of_a_log_that_fails),
    Alone("events that aren't begun", where_none_is_made),
]
