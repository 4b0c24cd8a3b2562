"""Cases of `shares.py status`, which tells how far the shares of a store are: by logs, events, locks and OUT/joining, changing none of them."""

import contextlib
import fcntl
import json
import os
import resource
import signal
import subprocess
import sys
import time

import scripted
import stores
from alone import Alone, differs
from guide import guide_block, with_program
from running import mount_below
from scripted import LOCKLESS, SCRIPT, by_script, environment
from sharing import ran
from stores import DIR, FIFO, GONE, Link, build, differences, read_tree
from tally import Skipped, needs

TOP = os.path.dirname(os.path.dirname(os.path.dirname(os.path.abspath(__file__))))
sys.path.append(f"{TOP}/tools")

import shares_status

END = b'{"as":"end","done":3,"present":2,"skip":1}\n'
LINE = b'{"as":"skip","at":"ab","cause":"empty"}\n'
NONE = "stopped, or ended with a fault"
WANTED = ("STORE", "CREATED", "NAME", "PROGRAM", "ROOTS")


def status(folder, count, *words, out=None, **given):
    """What the script answers to `status`: its status, and its lines by what stands before the first colon. It is told only OUT, and says nothing on
    standard error."""
    given = {**dict.fromkeys(WANTED), **({"OUT": out} if out else {}), **given}
    ended, lines, said = by_script("none", folder, "status", str(count), *words, **given)
    if said:
        raise OSError(said)
    return ended, dict(line.split(": ", 1) for line in lines.decode().splitlines())


def found(folder, count, *words, **given):
    """The same without what doesn't tell of single shares."""
    ended, told = status(folder, count, *words, **given)
    others = ("the join", "lines in", "objects that", "no file", "above", "to be given")
    return ended, {what: numbers for what, numbers in told.items() if not what.startswith(others)}


def carried(folder, **shares):
    """An OUT in which some shares were carried: by their numbers, their logs."""
    build(f"{folder}/out of it", {f"{name[1:]}/ocfl": DIR for name in shares})
    build(f"{folder}/out of it", {f"{name[1:]}.log": log for name, log in shares.items()})


def state_of(top):
    """What stands below a folder with its times and modes, no link followed."""
    paths = [os.path.join(above, name) for above, folders, files in os.walk(top) for name in (*folders, *files)]
    return {path: (it.st_ino, it.st_mode, it.st_size, it.st_mtime_ns, it.st_ctime_ns) for path in (top, *paths) for it in [os.lstat(path)]}


# The program in a pipe that is smaller than its log, of which the first bytes are read and no more: so its run stands still, with its lock.
STILL = """#!/usr/bin/env python3
import fcntl, os, subprocess, sys, time
reading, writing = os.pipe()
fcntl.fcntl(writing, 1031, 4096)  # F_SETPIPE_SZ, which Python names since 3.10
with subprocess.Popen([os.environ["REAL"], *sys.argv[1:]], stdout=writing):
    os.write(1, os.read(reading, 300))
    open(sys.argv[0] + ".still", "w").close()
    time.sleep(300)
"""


def free(share):
    """Waits until no run has a share's folder."""
    fd = os.open(share, os.O_RDONLY)
    fcntl.flock(fd, fcntl.LOCK_EX)
    os.close(fd)


def one_again(program, folder):
    """A share that stands still is under way; killed, it is stopped, and by `share K N` it alone is carried again. One with a torn log, one at whose log
    a link stands and one that wasn't begun are told, and carried each by itself; the join then leaves what one run leaves."""
    scripted.many(folder, 400)
    ran(program, folder, "whole")
    still, out = f"{folder}/still", f"{folder}/out of it"
    build(folder, {"precious": END, "still": STILL.encode()})
    os.chmod(still, 0o755)
    faults = differs(first=(by_script(program, folder, "share", "1", "5"), (0, b"", "")))
    build(out, {"2.log": LINE * 3 + b'{"as":"done","at":"aa', "3.log": Link("../precious"), "2": DIR})
    with subprocess.Popen([SCRIPT, "share", "5", "5"], env={**environment(still, folder), "REAL": program}, start_new_session=True) as script:
        while not os.path.exists(f"{still}.still"):
            time.sleep(0.05)
        faults += differs(still=(found(folder, 5), (1, {"done": "1", "under way": "5", NONE: "2", "not begun": "3-4"})))
        os.killpg(script.pid, signal.SIGKILL)
    free(f"{out}/5")
    before = state_of(folder)
    ended, told = status(folder, 5)
    faults += differs(killed=((ended, told[NONE], told["not begun"]), (1, "2, 5", "3-4")), changed=(state_of(folder) == before, True))
    faults += differs(link=(told["no file, or a link, so it is no log"], "3.log"))
    faults += differs(given=(told["to be given"], "2-5, each K by: shares.py share K 5 (with the options as before)"))
    rows = [(5, {"done": "1, 5", NONE: "2", "not begun": "3-4"}), (2, {"done": "1-2, 5", "not begun": "3-4"}), (3, {"done": "1-3, 5", "not begun": "4"})]
    for number, wanted in (*rows, (4, {"done": "1-5"})):
        faults += differs(**{f"share {number}": (by_script(program, folder, "share", str(number), "5")[0], 0)})
        faults += differs(**{f"after {number}": (found(folder, 5), (int(number != 4), wanted))})
    logs = {"1.log", "2.log", "2.try2.log", "3.log", "3.try2.log", "4.log", "5.log", "5.try2.log"}
    faults += differs(logs=({name for name in os.listdir(out) if name.endswith(".log")}, logs))
    lines = status(folder, 5)[1]
    faults += differs(objects=(lines["objects that stand by these, done or present"], "400"), next=(lines["to be given"], "shares.py join 5"))
    faults += differs(join=(by_script(program, folder, "join", "5")[0], 0), precious=(read_tree(folder)["precious"], END))
    lines = status(folder, 5)[1]
    faults += differs(joined=((lines["the join"], "to be given" in lines), ("done, and each object is whole", False)))
    return faults + list(differences(read_tree(f"{out}/1"), read_tree(f"{folder}/whole")))[:3]


def killed(program, folder):
    """A share that is killed at any of many moments is told as done just where its log has its end, else as stopped or not begun; given again it is done."""
    scripted.many(folder, 60)
    faults, out = [], f"{folder}/out of it"
    begun = time.monotonic()
    by_script(program, folder, "share", "1", "2", OUT=f"{folder}/first")
    took = time.monotonic() - begun
    for moment in range(12):
        with subprocess.Popen([SCRIPT, "share", "1", "2"], env=environment(program, folder), stderr=subprocess.DEVNULL, start_new_session=True) as script:
            time.sleep(took * moment / 11)
            os.killpg(script.pid, signal.SIGKILL)
        build(out, {"1": DIR})
        free(f"{out}/1")
        log = read_tree(out).get("1.log")
        what = "not begun" if log is None else "done" if b'"as":"end"' in log and log.endswith(b"\n") else NONE
        wanted = {"not begun": "1-2"} if what == "not begun" else {what: "1", "not begun": "2"}
        faults += differs(**{f"moment {moment}": (found(folder, 2), (1, wanted))})
        faults += differs(again=(by_script(program, folder, "share", "1", "2")[0], 0), then=(found(folder, 2), (1, {"done": "1", "not begun": "2"})))
        subprocess.run(["rm", "-r", out], check=True)
    return faults


def last_tries(program, folder):
    """The last try of a share counts, by its number and not by its text; what has another name is no log of a share, and more shares than were asked for
    are named."""
    out = f"{folder}/out of it"
    carried(folder, K1=LINE, K2=END, K3=END, K4=LINE + END, K9=END, K12=END)
    build(out, {"1.try2.log": LINE, "1.try10.log": END, "1.try9.log": LINE, "2.try2.log": b"", "4.try1.log": b"", "04.log": b"", "4.try02.log": b""})
    build(out, {"3.try2.log": DIR, "3.try3.log": FIFO, "3.try4.log": Link("2.log"), "4.try2.log ": b"", "4.log.try2": b"", "4.err": b""})
    build(out, {"5.try4.log": END, "5/ocfl": DIR, "00": DIR})
    ended, told = status(folder, 6)
    wanted = {"done": "1, 3-5", NONE: "2", "not begun": "6", "the join": "not begun", "above 6 there are logs of shares too": "9, 12"}
    wanted["no file, or a link, so it is no log"] = "3.try2.log, 3.try3.log, 3.try4.log"
    wanted["lines in the last logs of those done, 4 of 6, as no others have counts"] = "12 done, 8 present, 4 skip"
    wanted["objects that stand by these, done or present"] = "20"
    wanted["to be given"] = "2, 6, each K by: shares.py share K 6 (with the options as before)"
    return differs(told=((ended, told), (1, wanted)))


# Last bytes of logs that are no end line of a run.
NO_ENDS = (
    b"", b"\n", END[:-1], END + b"\n", END + LINE, END + b"\0" * 5000, END + b'{"as"', END.replace(b"3", b"-3"), END.replace(b"3", b"3.0"), b"[]\n", b"1\n",
    END.replace(b"3", b"true"), END.replace(b"3", b"1" * 5000), END.replace(b"3", b'"3"'), END.replace(b'"skip":1', b'"skips":1'), b"\xff" + END,
    END.replace(b',"skip":1', b""), b'{"absent":0,"as":"end","differs":0,"same":2,"skip":0}\n', b"[" * 4000 + b"\n", b" " * 5000 + END, b'{"as":[]}\n',
)


def ends(program, folder):
    """A log ends with its end line, or its share isn't done. Numbers of shares are told in spans."""
    faults = differs(end=([shares_status.end_in(text) for text in (END, LINE + END)], [{"done": 3, "present": 2, "skip": 1}] * 2))
    faults += differs(spans=([shares_status.spans(it) for it in ([], [4], [1, 2], [1, 3, 4, 5, 7])], ["", "4", "1-2", "1, 3-5, 7"]))
    carried(folder, **{f"K{number}": text for number, text in enumerate(NO_ENDS, 1)})
    return faults + differs(none=(found(folder, len(NO_ENDS)), (1, {NONE: f"1-{len(NO_ENDS)}"})))


def locks(program, folder):
    """A folder that a run has is under way, with a log or without, and one that an audit has isn't. A share without a root or a folder isn't done. Where
    folders can't be locked that is told; and a folder that is a link or a file isn't looked into, with the reason."""
    carried(folder, K1=LINE, K2=LINE, K3=END, K4=b"", K5=END, K6=END, K7=LINE, K8=LINE)
    out = f"{folder}/out of it"
    build(out, {"4": GONE, "5": GONE, "6/ocfl": GONE, "7": GONE, "8": GONE, "9": DIR})
    build(out, {"4": Link("1"), "7": b""})
    held = [os.open(f"{out}/{number}", os.O_RDONLY) for number in (1, 2, 3, 9)]
    for fd, how in zip(held, (fcntl.LOCK_EX, fcntl.LOCK_SH, fcntl.LOCK_EX, fcntl.LOCK_EX)):
        fcntl.flock(fd, how)
    wanted = {"done": "3", "under way": "1, 9", NONE: "2, 8", "ended, without a root": "5-6", "not looked into": "4, 7", "share 4": "4: Not a directory"}
    faults = differs(locks=(found(folder, 9), (1, {**wanted, "share 7": "7: Not a directory"})))
    for fd in held:
        os.close(fd)
    command = [sys.executable, "-B", "-c", LOCKLESS, "status", "3"]
    done = subprocess.run(command, env=environment(program, folder), capture_output=True, timeout=60)
    first, *_, last = done.stdout.decode().splitlines()
    unlocked = "stopped or under way, which no lock tells: 1-2" in done.stdout.decode().splitlines()
    return faults + differs(lockless=((done.returncode, first, unlocked, last), (1, "done: 3", True, "to be given where no run is under way: 1-2")))


def event(share, **more):
    """An event of a share of four."""
    return json.dumps({"as": "run", "options": {"share": share}, **more}).encode() + b"\n"


def by_events(program, folder):
    """With the shares' `--event` a share that ended with a fault is told with it, also where its log has an end, and one that was killed as stopped; an
    event of another share, what is none, and a link to one tell nothing. A fault of the program's own is told so."""
    fault = {"end": "2024", "fault": {"number": 2, "text": "cannot\x1b write\n"}, "status": 3}
    carried(folder, K1=LINE, K2=LINE, K3=END, K4=LINE, K5=LINE, K6=LINE, K7=LINE, K8=LINE, K9=END)
    build(f"{folder}/out of it", {"1.try2.log": LINE})
    events = {"1": event("1/9"), "1.try2": event("1/9", **fault), "2": event("2/9"), "3": event("3/9", **fault), "4": event("5/9", **fault), "5": b"[]"}
    events |= {"6": Link("run.other.json"), "other": event("6/9", **fault), "7": event("7/9", end="2024", fault={"number": "2"})}
    events |= {"8": DIR, "9": event("9/9", end="2024")}
    build(f"{folder}/e", {f"run.{mark}.json": held for mark, held in events.items()})
    text = "ended with fault 2, cannot\\u{1b} write\\u{a}"
    faults = differs(told=(found(folder, 9, "--", "--event", "e/run.json"), (1, {"done": "9", "stopped": "2", text: "1, 3", NONE: "4-8"})))
    faults += differs(none=(found(folder, 9), (1, {"done": "3, 9", NONE: "1-2, 4-8"})))
    build(folder, {"own/2/ocfl": b""})
    given = {"OUT": f"{folder}/own"}
    faults += differs(share=(by_script(program, folder, "share", "2", "3", "--", "--event=own.json", **given)[0], 3))
    ended, told = found(folder, 3, "--", "--event=own.json", **given)
    wanted = {"not begun": "1, 3", "ended with fault 8, the ocfl directory of the destination cannot be used": "2"}
    return faults + differs(own=((ended, told), (1, wanted)))


def joins(program, folder):
    """How far the join is: by what OUT/joining notes, and by the lock. Once it has begun no share is to be given, but the join, or a run of the whole. Once
    it is done the folders of the shares, or their logs, may be gone."""
    carried(folder, K1=END, K2=END)
    out, faults = f"{folder}/out of it", []
    again, whole = "shares.py join 2", "no share is carried once the join has begun"
    rows = [(b"", "begun, and not ended"), (b"join ended", "begun, and not ended"), (b"join ended with status 2\n", "ended with status 2")]
    rows += [(b"join ended with status 0\n", "all is moved, and not yet looked at")]
    rows += [(b"damaged ended with status 1\n", "done, and the look at each object ended with status 1")]
    for held, text in rows:
        build(out, {"joining": held})
        ended, told = status(folder, 2)
        faults += differs(**{f"{held!r}": ((ended, told["the join"], told.get("to be given")), (0, text, again))})
    held = [os.open(f"{out}/{number}", os.O_RDONLY) for number in (1, 2)]
    for fd in held:
        fcntl.flock(fd, fcntl.LOCK_EX)
    ended, told = status(folder, 2)
    faults += differs(under_way=((ended, told["done"], told["the join"], "to be given" in told), (0, "1-2", "under way", False)))
    build(out, {"2.log": LINE})
    faults += differs(stopped=(status(folder, 2)[1].get(NONE), "2"))
    build(out, {"1.log": LINE, "joining": b""})
    told = status(folder, 2)[1]
    faults += differs(shares=((told["under way"], told["the join"]), ("1-2", "begun, and not ended")))
    build(out, {"1.log": END, "2.log": END, "joining": b"join ended with status 0\ndamaged ended with status 0\n"})
    faults += differs(done=(status(folder, 2)[1]["the join"], "done, and each object is whole"))
    for fd in held:
        os.close(fd)
    for number, log, ends_with, wanted in ((2, LINE, 1, {"done": "1", NONE: "2"}), (2, GONE, 0, {"done": "1", "not begun": "2"})):
        build(out, {f"{number}.log": log})
        ended, told = status(folder, 2)
        shares = {what: numbers for what, numbers in told.items() if what in ("done", NONE, "not begun")}
        faults += differs(wanting=((ended, shares, whole in told), (ends_with, wanted, bool(ends_with))))
    build(out, {"2": GONE, "2.log": END})
    faults += differs(gone=(status(folder, 2)[1]["done"], "1-2"))
    ended, told = status(folder, 1)
    return faults + differs(one=((ended, told["done"]), (0, "1")))


def join_notes(program, folder):
    """The script notes how both parts of a join ended; one whose objects aren't whole is told as that, and the join of a share that was stopped isn't
    begun."""
    scripted.many(folder, 30)
    out = f"{folder}/out of it"
    faults = differs(here=(by_script(program, folder, "here", "3")[0], 0))
    faults += differs(noted=(read_tree(out)["joining"], b"join ended with status 0\ndamaged ended with status 0\n"))
    build(f"{out}/1/ocfl/{stores.place('000001')}", {"v1/content/a": b""})
    faults += differs(damaged=(by_script(program, folder, "join", "3")[0], 1))
    faults += differs(told=(status(folder, 3)[1]["the join"], "done, and the look at each object ended with status 1"))
    build(f"{out}/2", {"staging": DIR})
    faults += differs(refused=(by_script(program, folder, "join", "3")[0], 2))
    return faults + differs(then=(status(folder, 3)[1]["the join"], "ended with status 2"))


def torn_notes(program, folder):
    """A note of how the join ended that was never finished doesn't spoil the next, and a share that isn't there is told by its path."""
    scripted.many(folder, 20)
    out, noted = f"{folder}/out of it", b"join ended with status 0\ndamaged ended with status 0\n"
    faults = differs(none=(by_script(program, folder, "join", "2"), (3, b"", f"shares.py: {out}: No such file or directory\n")))
    build(folder, {"out of it": DIR})
    lacking = f"shares.py: the shares aren't joined: {out}/1: No such file or directory\n"
    faults += differs(lacking=(by_script(program, folder, "join", "2"), (3, b"", lacking)))
    faults += differs(here=(by_script(program, folder, "here", "2")[0], 0))
    for torn in (b"join ended with sta", noted + b"j"):
        build(out, {"joining": torn})
        faults += differs(**{f"{torn!r}": (by_script(program, folder, "join", "2"), (0, b"", ""))})
        faults += differs(**{f"{torn!r} then": (read_tree(out)["joining"], torn + b"\n" + noted)})
        faults += differs(**{f"{torn!r} told": (status(folder, 2)[1]["the join"], "done, and each object is whole")})
    return faults


def read_only(program, folder):
    """A share whose folder can't be made is named with that folder's path."""
    with contextlib.ExitStack() as last:
        build(folder, {"fixed": DIR})
        mount_below(folder, ("-t", "tmpfs", "-o", "ro,size=1m", "none", "fixed"), last)
        told = f"shares.py: share 2 of 3: {folder}/fixed/2: Read-only file system\n"
        return differs(told=(by_script(program, folder, "share", "2", "3", OUT=f"{folder}/fixed"), (3, b"", told)))


def refused(program, folder):
    """Words that are wrong, an OUT that isn't set, isn't there or is no folder, and a link at OUT/joining are refused with status 2 and no line."""
    out, faults = f"{folder}/out of it", []
    carried(folder, K1=END)
    build(folder, {"file": b"", "bad/joining": Link("../s"), "worse/joining": DIR})
    one = ("status", "1")
    rows = [(words, {}, "N is a number") for words in (("status",), ("status", "0"), ("status", "4097"), ("status", "1 "), ("status", "\x1b"))]
    rows += [(("status", "1", "2"), {}, "the words are wrong"), (one, {"OUT": None}, "OUT is not set"), (one, {"OUT": ""}, "OUT is not set")]
    rows += [(one, {"OUT": f"{folder}/none\x1b"}, f"{folder}/none\\u{{1b}}: No such file"), (one, {"OUT": f"{folder}/file"}, "is no folder")]
    rows += [(one, {"OUT": f"{folder}/{name}"}, f"{folder}/{name}/joining is no file, or a link") for name in ("bad", "worse")]
    for words, given, reason in rows:
        ended, lines, said = by_script("none", folder, *words, **{**dict.fromkeys(WANTED), **given})
        faults += differs(**{f"{words} {given}": ((ended, lines, reason in said, "\x1b" in said), (2, b"", True, False))})
    with open("/dev/full", "wb") as full:
        done = subprocess.run([SCRIPT, "status", "1"], env={**os.environ, "OUT": out}, stdout=full, stderr=subprocess.PIPE, timeout=60)
    return faults + differs(full=((done.returncode, b"No space left" in done.stderr), (2, True)))


def of_the_guide(program, folder):
    """What the guide shows of `status` is what it prints there."""
    needs("bash")
    count = lambda number: 1034 if number == 64 else 1000
    ended = {f"K{number}": b'{"as":"end","done":%d,"present":0,"skip":%d}\n' % (count(number), 12 * (number == 7)) for number in (*range(1, 61), 64)}
    carried(folder, **ended, K61=LINE, K62=LINE, K63=LINE)
    fault = {"end": "2024", "fault": {"number": 2, "text": "cannot write the destination"}}
    build(folder, {"data": DIR, **{f"data/run.{number}.json": event(f"{number}/64", **fault) for number in (62, 63)}})
    block = guide_block("One store in shares", "status 64").replace("/data", "data")
    held = os.open(f"{folder}/out of it/61", os.O_RDONLY)
    fcntl.flock(held, fcntl.LOCK_EX)
    told = {**with_program(program, folder), "OUT": f"{folder}/out of it"}
    done = subprocess.run(["bash", "-eu", "-c", block], cwd=folder, env=told, capture_output=True, timeout=60)
    os.close(held)
    shown = [line.removeprefix("    # ") for line in block.splitlines() if line.startswith("    # ")]
    return differs(guide=((done.returncode, done.stdout.decode().splitlines(), done.stderr), (1, shown, b"")), shown=(len(shown), 7))


def small(program, folder):
    """4,096 shares with tries, of which some logs have 64 GiB, are told in little memory and time; nothing is written, so one who may only read is told
    too; and OUT is shown nowhere as it is."""
    out = f"{folder}/out\x1b\n of it"
    carried_all = {f"{number}/ocfl": DIR for number in range(1, 4097)}
    build(out, {**carried_all, **{f"{number}{turn}.log": END for number in range(1, 4097) for turn in ("", ".try2")}, "a\x1b.log": b"", "3.\x1b.log": b""})
    for number in range(7, 4000, 1000):
        with open(f"{out}/{number}.try2.log", "r+b") as log:
            log.seek(1 << 36)
            log.write(b"\n" + END if number > 7 else LINE)
    few = lambda: resource.setrlimit(resource.RLIMIT_AS, (200 << 20, 200 << 20))
    begun = time.monotonic()
    ended, told = status(folder, 4096, out=out, user=few)
    took = time.monotonic() - begun
    faults = differs(told=((ended, told["done"], told[NONE]), (1, "1-6, 8-4096", "7")), quick=(took < 60, True))
    faults += differs(names=(any("\x1b" in line for line in (*told, *told.values())), False))
    if os.geteuid() != 0:
        raise Skipped("only root can be somebody else")
    for path in (folder, out):
        os.chmod(path, 0o755)
    os.makedirs(f"{folder}/tools")
    for name in scripted.PARTS:
        subprocess.run(["cp", f"{TOP}/tools/{name}", f"{folder}/tools"], check=True)
    nobody = lambda: (os.setgroups([]), os.setgid(65534), os.setuid(65534))
    os.chmod(f"{out}/9.try2.log", 0)
    done = subprocess.run([f"{folder}/tools/shares.py", "status", "9"], env={**os.environ, "OUT": out}, capture_output=True, timeout=60, preexec_fn=nobody)
    first = done.stdout.decode().splitlines()[:4]
    wanted = ["done: 1-6, 8", f"{NONE}: 7", "not looked into: 9", "share 9: 9.try2.log: Permission denied"]
    return faults + differs(nobody=((done.returncode, first, done.stderr), (1, wanted, b"")))


CASES = [
    Alone("how far shares are, one given again", one_again),
    Alone("how far shares are, killed", killed),
    Alone("how far shares are, tries", last_tries),
    Alone("how far shares are, ends of logs", ends),
    Alone("how far shares are, locks", locks),
    Alone("how far shares are, events", by_events),
    Alone("how far shares are, the join", joins),
    Alone("how far shares are, the join's notes", join_notes),
    Alone("how far shares are, torn notes of the join", torn_notes),
    Alone("shares that can't be begun", read_only),
    Alone("how far shares are, refused", refused),
    Alone("how far shares are, as the guide shows it", of_the_guide),
    Alone("how far shares are, many shares and long logs", small),
]
