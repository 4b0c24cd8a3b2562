"""Ends tools/shares.py at many moments, with the runs and the join that it began or without them, and gives the same command again.

Usage: kills_of_shares.py SHARES FOLDER CALLS TIMES [OPTION..]. The environment is the script's, but for OUT; FOLDER/whole is what one run leaves, and
FOLDER/whole.log its log. So many ends come just before or just after one of the script's calls of the system, and so many at times spread over
its work. After each every object has to stand whole at one place, and each line that was put to a log speaks of one; after the command that follows
what stands has to be what one run leaves, each log is one of whole lines, and the last of each share tell together what that run tells, `done` in
place of `present`. What isn't so is printed; the last line is the number of moments.
"""

import collections
import contextlib
import fcntl
import glob
import json
import os
import shutil
import signal
import subprocess
import sys
import time

sys.dont_write_bytecode = True

import kills
import stores

CALLS = (*kills.CALLS, "fchdir", "ftruncate", "pread", "waitid")
SHARES = 3
# What the script answers where another run, or another join, has a share's folder.
REFUSES = (2, 3)


def counted(module, last):
    """Counts the calls of the system that the script makes, and the processes that it begins."""
    calls = kills.Counted(last)
    for name in CALLS:
        setattr(os, name, calls.wrap(name))
    popen = subprocess.Popen

    def begun(*words, **options):
        calls.tick()
        process = popen(*words, **options)
        calls.tick()
        return process

    module.subprocess.Popen = begun
    return calls


def begin(module, out, last, writing):
    """The script in a process that leads a group of its own."""
    child = os.fork()
    if child == 0:
        os.setpgid(0, 0)
        os.environ["OUT"] = out
        null, tell = os.open(os.devnull, os.O_WRONLY), os.write
        os.dup2(null, 1)
        os.dup2(null, 2)
        calls = counted(module, last)
        sys.argv = ["shares.py", "here", str(SHARES), "--", *sys.argv[5:]]
        status = module.main()
        tell(writing, b"%d" % calls.count)
        os._exit(status)
    with contextlib.suppress(OSError):
        os.setpgid(child, child)
    return child


def carried(module, out, last=0, after=None, alone=False):
    """Carries the shares, ended at a call or after so many seconds, with what the script began or alone; gives how it ended and its calls."""
    reading, writing = os.pipe()
    child = begin(module, out, last, writing)
    os.close(writing)
    if after is not None:
        time.sleep(after)
        (os.kill if alone else os.killpg)(child, signal.SIGKILL)
    status = os.waitid(os.P_PID, child, os.WEXITED | os.WNOWAIT)
    is_killed = status.si_code == os.CLD_KILLED
    if is_killed and not alone:
        os.killpg(child, signal.SIGKILL)
    os.waitpid(child, 0)
    told = b"" if is_killed else os.read(reading, 64)
    os.close(reading)
    return "killed" if is_killed else status.si_status, int(told or 0)


def wait(out):
    """Waits until nobody has a share's folder any more."""
    for path in glob.glob(f"{out}/[1-9]"):
        fd = os.open(path, os.O_RDONLY)
        fcntl.flock(fd, fcntl.LOCK_EX)
        os.close(fd)


def lines_of(out):
    """The lines of all logs, and what stands behind the last line of one."""
    lines, left = [], []
    for path in sorted(glob.glob(f"{out}/*.log")):
        with open(path, "rb") as file:
            *whole, rest = file.read().split(b"\n")
        lines += [json.loads(line) for line in whole]
        left += [rest] if rest else []
    return lines, left


def told_in(path):
    """What a log tells but for its end line: of an object that stands whose it is and where, and of what is passed over why."""
    with open(path, "rb") as file:
        entries = [json.loads(line) for line in file.read().splitlines()]
    return collections.Counter(tuple(entry.get(name) for name in ("at", "id", "to", "cause")) for entry in entries if entry["as"] != "end")


def told_last(out):
    """What the last logs of all shares tell."""
    by_turn = lambda path: (len(path), path)
    logs = (max(glob.glob(f"{out}/{number}.log") + glob.glob(f"{out}/{number}.try*.log"), key=by_turn) for number in range(1, SHARES + 1))
    return sum(map(told_in, logs), collections.Counter())


def places_of(out):
    """Each object's files by its place, of all shares."""
    found = {}
    for path in glob.glob(f"{out}/[1-9]/ocfl"):
        for (_, place), files in kills.objects({f"x/ocfl/{name}": held for name, held in stores.read_tree(path).items()}).items():
            if not place.startswith("extensions/"):
                found.setdefault(place, []).append(files)
    return found


def faults_of(out, wanted):
    """What isn't as it must be where the script was ended."""
    there = places_of(out)
    yield from (f"{place} isn't whole, or stands twice" for place, several in there.items() if several != wanted.get(place))
    told = {line["to"] for line in lines_of(out)[0] if line["as"] in ("done", "present")}
    yield from (f"{place} is told, and isn't there" for place in told - there.keys())


def faults_after(out, status, whole, wanted):
    """What isn't as it must be after the command that goes on. What one run leaves and its log stand beside OUT."""
    if status != 0:
        yield f"it ends with {status}"
    yield from list(stores.differences(stores.read_tree(f"{out}/1"), whole))[:3]
    lines, left = lines_of(out)
    if left or {line["to"] for line in lines if "to" in line} != wanted.keys():
        yield f"the logs don't tell of all, or have no end: {left}"
    elif told_last(out) != told_in(f"{os.path.dirname(out)}/whole.log"):
        yield "the last logs don't tell together what one run tells"


def given_again(module, out):
    """The status of the command that goes on. A run, or the join, that was left alone may be under way for a moment yet."""
    for _ in range(20):
        wait(out)
        status = carried(module, out)[0]
        if status not in REFUSES:
            break
    return status


def trial(module, folder, moment, whole):
    """Ends the script once, and gives the command again."""
    out = f"{folder}/now"
    wanted = places_of(f"{folder}/sure")
    ended = carried(module, out, **moment)[0]
    if moment["alone"]:
        at_once = carried(module, out)[0]
        if at_once not in (0, *REFUSES):
            yield f"given again at once it ends with {at_once}"
    wait(out)
    yield from ([] if ended in ("killed", 0) else [f"it ended with {ended}"])
    yield from list(faults_of(out, wanted))[:3]
    yield from faults_after(out, given_again(module, out), whole, wanted)
    shutil.rmtree(out, ignore_errors=True)


def main():
    sys.path.append(os.path.dirname(sys.argv[1]))
    module, folder, whole = kills.loaded(sys.argv[1]), sys.argv[2], stores.read_tree(f"{sys.argv[2]}/whole")
    at_calls, at_times = map(int, sys.argv[3:5])
    begun = time.monotonic()
    status, calls = carried(module, f"{folder}/sure")
    took = time.monotonic() - begun
    for fault in faults_after(f"{folder}/sure", status, whole, places_of(f"{folder}/sure")):
        print(f"undisturbed: {fault}")
    moments = [{"last": 1 + number * calls // at_calls} for number in range(at_calls)]
    moments += [{"after": number * took / at_times} for number in range(at_times)]
    for number, moment in enumerate(moments):
        moment["alone"] = number % 3 == 0
        for fault in trial(module, folder, moment, whole):
            print(f"{moment} of {calls} calls and {took:.2f} seconds: {fault}")
    print(len(moments))


if __name__ == "__main__":
    main()
