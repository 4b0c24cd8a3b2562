"""Cases of tools/shares.py, which carries a store in shares: on this machine, and on a cluster of one node, whose engine is Slurm's own.
"""

import fcntl
import glob
import itertools
import json
import os
import re
import shutil
import signal
import subprocess
import sys
import time

import slurm
from alone import Alone, differs
from running import MEANT
from sharing import ROOTS, ran
from stores import DIR, FIFO, Link, build, differences, read_tree, store
from tally import Skipped, needs

TOP = os.path.dirname(os.path.dirname(os.path.dirname(os.path.abspath(__file__))))
sys.path.append(f"{TOP}/tools")

from shown import shown

SCRIPT = f"{TOP}/tools/shares.py"
# The script, and what it needs beside it for all but the join.
PARTS = ("shares.py", "shares_notes.py", "shares_running.py", "shares_status.py", "shown.py", "starting.py")


def many(folder, objects):
    """A store of so many objects with two files each."""
    shutil.rmtree(f"{folder}/s")
    names = [f"{number:06d}" for number in range(objects)]
    below = {f"{name[:2]}/{name[2:4]}/{name[4:]}/obj/{file}": f"{name} {file}".encode() * 20 for name in names for file in "ab"}
    build(f"{folder}/s", store(below))


def environment(program, folder):
    """What the script is told."""
    told_it = {"STORE": f"{folder}/s", "OUT": f"{folder}/out of it", "CREATED": MEANT[1], "NAME": MEANT[3], "ROOTS": ROOTS, "PROGRAM": program}
    return {**os.environ, **told_it}


def here(program, folder):
    """The script carries a store in shares on this machine; by the same command it goes on where a share was stopped."""
    many(folder, 100)
    ran(program, folder, "whole")
    build(f"{folder}/out of it/2", {"staging/left": b"1"})
    faults = differs(status=(by_script(program, folder, "here", "3"), (0, b"", "")))
    faults += list(differences(read_tree(f"{folder}/out of it/1"), read_tree(f"{folder}/whole")))
    status, out, said = by_script(program, folder, "here", "3")
    return faults + differs(again=((status, out, "no share is carried any more" in said), (0, b"", True)))


def by_script(program, folder, *words, script=SCRIPT, user=None, **given):
    """What the script answers: its status, its output, and what it said; a traceback is never one of them."""
    told_it = {name: value for name, value in {**environment(program, folder), **given}.items() if value is not None}
    done = subprocess.run([script, *words], env=told_it, cwd=folder, capture_output=True, timeout=300, preexec_fn=user)
    if b"Traceback" in done.stderr:
        raise OSError(done.stderr.decode())
    return done.returncode, done.stdout, done.stderr.decode()


def wrapper(folder, text):
    """A program that the script is given: a shell script, which knows where the real one is as REAL and its share as K."""
    with open(f"{folder}/wrapper", "w", encoding="ascii") as file:
        file.write(f'#!/bin/sh\nfor word; do case $word in --share=*) K=${{word#--share=}} K=${{K%/*}} ;; esac; done\n{text}')
    os.chmod(f"{folder}/wrapper", 0o755)
    return f"{folder}/wrapper"


def logs_of(folder):
    """The entries of all logs of the shares, by the log's name. Each is read as lines of JSON, of which the last has an end too."""
    logs = {}
    for name in sorted(os.listdir(folder)):
        if name.endswith(".log"):
            with open(f"{folder}/{name}", "rb") as file:
                *lines, last = file.read().split(b"\n")
            logs[name] = [json.loads(line) for line in lines] + ([last] if last else [])
    return logs


def one_share(program, folder):
    """One share is the whole: nothing is joined, and the same command may be given again; in a checkout the script finds roots.py."""
    ran(program, folder, "whole")
    faults = []
    for _ in range(2):
        faults += differs(one=(by_script(program, folder, "here", "1", ROOTS=None), (0, b"", "")))
    return faults + list(differences(read_tree(f"{folder}/out of it/1"), read_tree(f"{folder}/whole")))


def no_number(program, folder):
    """A number of shares or of runs at once that can't be, no roots.py, no program, or what isn't set, is refused before the first share,
    with the reason; nothing is made."""
    faults = []
    for words in (("here", "5000"), ("here", "4097"), ("here", "0"), ("here", "x"), ("here",), ("here", "1 "), ("cluster", "4097"), ("here", "010")):
        status, out, said = by_script(program, folder, *words)
        faults += differs(**{" ".join(words): ((status, out, "N is a number from 1 to 4096" in said), (2, b"", True))})
    for number in ("0", "5", "x"):
        status, out, said = by_script(program, folder, "share", number, "4")
        faults += differs(**{f"share {number}": ((status, out, "K is a number from 1 to 4," in said), (2, b"", True))})
    os.mkdir(f"{folder}/alone")
    alone = [shutil.copy(f"{TOP}/tools/{name}", f"{folder}/alone") for name in PARTS][0]
    build(folder, {"plain": b"#!/bin/sh\n"})
    refusals = [({"ROOTS": None}, "name it by ROOTS", alone), ({"ROOTS": f"{folder}/none"}, "name it by ROOTS", SCRIPT)]
    refusals += [({"PROGRAM": name}, "name it by PROGRAM", SCRIPT) for name in ("no program of this name", f"{folder}/none", folder, f"{folder}/plain")]
    refusals += [({name: value}, f"{name} is not set", SCRIPT) for name in ("STORE", "OUT", "CREATED", "NAME") for value in (None, "")]
    refusals += [({"JOBS": text}, "JOBS is a number from 1 to 4096", SCRIPT) for text in ("0", "x", "-1", "4097", "1.5")]
    refusals += [({"OPTIONS": "--gather"}, "behind --", SCRIPT)]
    for given, reason, script in refusals:
        status, out, said = by_script(program, folder, "here", "2", script=script, **given)
        faults += differs(**{f"{given}": ((status, out, reason in said), (2, b"", True))})
    for words in ((), ("other", "2"), ("here", "2", "3"), ("here", "2", "--gather"), ("join", "2", "--", "--gather"), ("--", "here", "2")):
        status, _, said = by_script(program, folder, *words)
        faults += differs(**{f"words {words}": ((status, "shares.py here N" in said), (2, True))})
    for words in (("--help",), ("-h",), ("here", "--help")):
        status, out, said = by_script(program, folder, *words, **dict.fromkeys(("STORE", "OUT", "CREATED", "NAME")))
        faults += differs(**{" ".join(words): ((status, b"shares.py here N" in out, said), (0, True, ""))})
    return faults + differs(made=(os.path.exists(f"{folder}/out of it"), False))


def faulty_share(program, folder):
    """A share that ends with a fault, or whose folder another run has, is named with its status and its log, the others are carried, and none
    is joined; mended, the same command does the rest."""
    many(folder, 30)
    ran(program, folder, "whole")
    build(f"{folder}/out of it", {"2/ocfl": b"", "3": DIR})
    held = os.open(f"{folder}/out of it/3", os.O_RDONLY)
    fcntl.flock(held, fcntl.LOCK_EX)
    status, out, said = by_script(program, folder, "here", "4")
    os.close(held)
    lines = said.splitlines()
    faults = differs(status=(status, 3), out=(out, b""), last=("the shares aren't joined" in lines[-1], True))
    faults += differs(fault=(f"shares.py: share 2 of 4 ended with status 3; its log is {folder}/out of it/2.log" in lines, True))
    faults += differs(held=(f"shares.py: share 3 of 4: another run has {folder}/out of it/3" in lines, True))
    faults += differs(carried=([os.path.isdir(f"{folder}/out of it/{number}/ocfl") for number in (1, 4)], [True, True]))
    os.remove(f"{folder}/out of it/2/ocfl")
    faults += differs(mended=(by_script(program, folder, "here", "4"), (0, b"", "")))
    return faults + list(differences(read_tree(f"{folder}/out of it/1"), read_tree(f"{folder}/whole")))


# At its first try the log of share 2 ends in the middle of a line, as on a disk that is full.
TORN = """if [ "$K" = 2 ] && [ ! -e "$0.torn" ]; then : > "$0.torn"; "$REAL" "$@" | head -c 150; exit 3; fi
exec "$REAL" "$@"
"""


def torn_log(program, folder):
    """Each try of a share has a log of its own, and a line that a full disk tore is cut off and told: no two records are one, and all logs are
    read, by jq too. So is a line that was torn where nobody could end it."""
    many(folder, 100)
    out, wrapped = f"{folder}/out of it", wrapper(folder, TORN)
    torn = b'{"as":"skip","at":"ab","cause":"empty"}\n{"as":"done","at":"00/00'
    build(out, {"1.log": torn})
    status, _, said = by_script(wrapped, folder, "here", "3", REAL=program)
    faults = differs(status=(status, 3), told=(len(re.findall(r"/[12].log: its last line was never finished, and is cut off: {", said)), 2))
    first = {name: read_tree(out).get(name, b"none") for name in ("1.log", "1.try2.log", "2.log", "3.log")}
    faults += differs(cut=(first["1.log"], torn[: torn.index(b"\n") + 1]), whole=([log[-1:] for log in first.values()], [b"\n"] * 4))
    faults += differs(again=(by_script(wrapped, folder, "here", "3", REAL=program), (0, b"", "")))
    logs = logs_of(out)
    names = {"1.log", "1.try2.log", "1.try3.log", "2.log", "2.try2.log", "3.log", "3.try2.log"}
    faults += differs(logs=(set(logs), names), kept=({name: read_tree(out)[name] for name in first}, first))
    ids = {entry.get("id") for log in logs.values() for entry in log}
    faults += differs(ids=(ids - {None}, {f"{number:06d}" for number in range(100)}))
    if shutil.which("jq"):
        read = subprocess.run(["jq", "-c", ".", *(f"{out}/{name}" for name in logs)], capture_output=True, timeout=60)
        faults += differs(jq=((read.returncode, len(read.stdout.splitlines())), (0, sum(map(len, logs.values())))))
    return faults


def own_options(program, folder):
    """Options behind -- come to every run as they are, whatever is in them; and each share has a file of its own for its event, each try too."""
    many(folder, 40)
    message = "two  words; $HOME * 'and' \"these\" \\ \u00e9"
    os.mkdir(f"{folder}/events of it")
    options = ("--message", message, "--event", f"{folder}/events of it/run.json", "--tuples", "2", "--address=mailto:a b")
    build(f"{folder}/out of it", {"2/ocfl": b""})
    faults = differs(first=(by_script(program, folder, "here", "3", "--", *options)[:2], (3, b"")))
    os.remove(f"{folder}/out of it/2/ocfl")
    faults += differs(again=(by_script(program, folder, "here", "3", "--", *options), (0, b"", "")))
    ran(program, folder, "whole", "--message", message, "--tuples", "2", "--address", "mailto:a b")
    faults += list(differences(read_tree(f"{folder}/out of it/1"), read_tree(f"{folder}/whole")))
    found = {}
    for name, text in read_tree(f"{folder}/events of it").items():
        event = json.loads(text)
        found[name] = (event["options"]["share"], event["options"]["message"], event["status"])
    wanted = {f"run.{number}{turn}.json": (f"{number}/3", message, status) for turn, status in (("", 0), (".try2", 1)) for number in (1, 2, 3)}
    return faults + differs(events=(found, {**wanted, "run.2.json": ("2/3", message, 3), "run.2.try2.json": ("2/3", message, 0)}))


# Says when it begins and when it ends.
SLOW = """echo begin >> "$0.says"
sleep 0.5
"$REAL" "$@"
status=$?
echo end >> "$0.says"
exit $status
"""


def at_once(program, folder):
    """As many runs are made at once as the script may use processors, unless JOBS says otherwise."""
    faults, wrapped = [], wrapper(folder, SLOW)
    mine = sorted(os.sched_getaffinity(0))
    one = lambda: os.sched_setaffinity(0, mine[:1])
    for count, user, given, most in ((9, None, {}, len(mine)), (4, one, {}, 1), (6, one, {"JOBS": "5"}, 5), (3, None, {"JOBS": "64"}, 3)):
        status = by_script(wrapped, folder, "here", str(count), REAL=program, user=user, OUT=f"{folder}/{count}", **given)[0]
        with open(f"{wrapped}.says", encoding="ascii") as file:
            steps = [1 if line == "begin\n" else -1 for line in file]
        os.remove(f"{wrapped}.says")
        faults += differs(**{f"{count} shares {given}": ((status, len(steps), max(itertools.accumulate(steps))), (0, 2 * count, min(count, most)))})
    return faults


def no_link(program, folder):
    """No link that stands in OUT is followed: what it leads to is as it was, and nothing is made where it leads to nothing. The shares are carried
    all the same, or what stands in the way is told."""
    many(folder, 20)
    build(folder, {"precious/file": b"1", "precious/torn": b'{"as":"do', "precious/folder/staging/left": b"1", "precious/ocfl/left": b"1"})
    faults, before, top = [], read_tree(f"{folder}/precious"), f"{folder}/precious"
    rows = [("joining", name, "joining is no file, or a link") for name in ("file", "none", "")]
    rows += [("2.log", name, None) for name in ("file", "torn", "none", "")]
    rows += [("2", name, "/2 is no folder, or a link") for name in ("folder", "none")]
    rows += [("2/staging", name, "/2/staging is no folder") for name in ("folder", "none")]
    rows += [("2/ocfl", "ocfl", "/2/ocfl is a link"), ("2/ocfl", "none", "/2/ocfl is a link"), ("1/staging/out", "folder", None)]
    for number, (path, name, reason) in enumerate(rows):
        out = f"{folder}/out {number}"
        build(out, {path: Link(f"{top}/{name}")})
        status, listed, said = by_script(program, folder, "here", "3", OUT=out)
        faults += differs(**{f"{path} to {name}": ((status, listed, (reason or "") in said), (3 if reason else 0, b"", True))})
        faults += [f"{path} to {name}: {text}" for text in differences(read_tree(top), before)]
        faults += differs(**{f"{path} stays": (os.path.islink(f"{out}/{path}"), path != "1/staging/out")})
    build(f"{folder}/pipe", {"2.log": FIFO, "3.log": DIR})
    faults += differs(pipe=(by_script(program, folder, "here", "3", OUT=f"{folder}/pipe"), (0, b"", "")))
    os.mkdir(f"{folder}/named")
    build(f"{folder}/named", {"1.log": b'{"as":"do'})
    os.link(f"{folder}/named/1.log", f"{folder}/another name")
    by_script(program, folder, "here", "1", OUT=f"{folder}/named")
    return faults + differs(named=(read_tree(folder)["another name"], b'{"as":"do'))


def no_link_of_jobs(program, folder):
    """Nothing is sent to Slurm where a link stands that its output would go through."""
    faults = []
    os.mkdir(f"{folder}/bin")
    with open(f"{folder}/bin/sbatch", "w", encoding="ascii") as file:
        file.write("#!/bin/sh\n: > sent\necho 1\n")
    os.chmod(f"{folder}/bin/sbatch", 0o755)
    for name in ("3.err", "join.out", "joining"):
        build(folder, {f"{name} of it/{name}": Link(f"{folder}/s")})
        status, out, said = by_script(program, folder, "cluster", "4", OUT=f"{folder}/{name} of it", PATH=f"{folder}/bin:{os.environ['PATH']}")
        faults += differs(**{name: ((status, out, f"{name} is no file, or a link" in said), (3, b"", True))})
    nowhere = {"PATH": f"{folder}/none"}
    python = f"{folder}/none/python3"
    build(folder, {"none/python3": Link(sys.executable)})
    status, out, said = by_script(program, folder, "cluster", "4", **nowhere)
    faults += differs(no_slurm=((status, out, "there is no sbatch" in said), (2, b"", True)), python=(os.path.islink(python), True))
    return faults + differs(sent=(os.path.exists(f"{folder}/sent"), False), made=(os.path.exists(f"{folder}/out of it"), False))


def stuck_staging(program, folder):
    """Where what a stopped run left can't be removed, the reason is told, and not that another run is there."""
    if os.geteuid() != 0:
        raise Skipped("only root can be somebody else")
    many(folder, 20)
    for path in (folder, f"{folder}/s"):
        os.chmod(path, 0o755)
    build(folder, {"out of it/2/staging/left/f": b"1"})
    for path in ("out of it", "out of it/2", "out of it/2/staging"):
        os.chown(f"{folder}/{path}", 65534, 65534)
    nobody = lambda: (os.setgroups([]), os.setgid(65534), os.setuid(65534))
    copy = shutil.copy(program, f"{folder}/program")
    os.chmod(copy, 0o755)
    for name in (*PARTS, "roots.py", *glob.glob("roots_*.py", root_dir=f"{TOP}/tools")):
        shutil.copy(f"{TOP}/tools/{name}", folder)
    status, out, said = by_script(copy, folder, "here", "3", script=f"{folder}/shares.py", ROOTS=None, user=nobody)
    told_it = re.findall(r"^shares.py: share 2 of 3: (.*)$", said, re.MULTILINE)
    reason = f"{folder}/out of it/2/staging can't be removed: 'staging/left/f': Permission denied"
    faults = differs(status=(status, 3), out=(out, b""), told=(told_it, [reason]))
    shutil.rmtree(f"{folder}/out of it/2/staging")
    return faults + differs(mended=(by_script(copy, folder, "here", "3", script=f"{folder}/shares.py", ROOTS=None, user=nobody), (0, b"", "")))


# The script where folders can't be locked.
LOCKLESS = f"""import errno, fcntl, os, sys
sys.path.insert(0, {TOP + "/tools"!r})
sys.dont_write_bytecode = True
import shares
def flock(fd, how): raise OSError(errno.ENOLCK, os.strerror(errno.ENOLCK))
fcntl.flock = flock
sys.exit(shares.main())
"""


def lockless(program, folder):
    """Where a folder can't be locked shares are carried, but no staging is taken away, since a run may be under way there; and no log is cut."""
    many(folder, 20)
    build(f"{folder}/out of it", {"2/staging/left": b"1", "2.log": b'{"as"', "3.log": b'{"as"'})
    command = [sys.executable, "-B", "-c", LOCKLESS, "here", "3"]
    faults = []
    for status in (3, 0):
        done = subprocess.run(command, env=environment(program, folder), capture_output=True, timeout=300)
        left = os.path.exists(f"{folder}/out of it/2/staging/left")
        faults += differs(lockless=((done.returncode, done.stdout, b"can't be locked" in done.stderr, left), (status, b"", status == 3, status == 3)))
        faults += differs(log=([read_tree(f"{folder}/out of it")[f"{number}.log"] for number in (2, 3)], [b'{"as"'] * 2))
        shutil.rmtree(f"{folder}/out of it/2/staging", ignore_errors=True)
    return faults


def stopped(program, folder):
    """Asked to end, the script ends its runs too, and by the same command it goes on."""
    many(folder, 60)
    ran(program, folder, "whole")
    wrapped, faults = wrapper(folder, 'echo $$ >> "$0.runs"\n[ -e "$0.go" ] || exec sleep 100\nexec "$REAL" "$@"\n'), []
    told_it = {**environment(wrapped, folder), "REAL": program, "JOBS": "3"}
    for number in (signal.SIGTERM, signal.SIGINT, signal.SIGHUP):
        with subprocess.Popen([SCRIPT, "here", "3"], env=told_it, stdout=subprocess.PIPE, stderr=subprocess.PIPE, start_new_session=True) as script:
            runs = []
            while len(runs) < 3:
                time.sleep(0.05)
                if os.path.exists(f"{wrapped}.runs"):
                    with open(f"{wrapped}.runs", encoding="ascii") as file:
                        runs = [int(line) for line in file]
            script.send_signal(number)
            said = script.communicate(timeout=60)
        os.remove(f"{wrapped}.runs")
        alive = [run for run in runs if os.path.exists(f"/proc/{run}")]
        faults += differs(**{f"{number!r}": ((script.returncode, said, alive), (3, (b"", b"shares.py: stopped; the same command goes on\n"), []))})
    build(folder, {"wrapper.go": b""})
    faults += differs(again=(by_script(wrapped, folder, "here", "3", REAL=program), (0, b"", "")))
    return faults + list(differences(read_tree(f"{folder}/out of it/1"), read_tree(f"{folder}/whole")))


def ended_at(program, folder, at_calls, at_times, *options):
    """The script with these options is ended at so many of its calls, and so many times, with its runs and alone: no object is lost or in part, no log has
    a torn line in it, and by the same command what one run leaves stands, and what it tells is told."""
    build(folder, {"whole.log": b"".join(line + b"\n" for line in ran(program, folder, "whole")[1])})
    command = [sys.executable, "-B", f"{TOP}/tests/harness/kills_of_shares.py", SCRIPT, folder, str(at_calls), str(at_times), *options]
    done = subprocess.run(command, env=environment(program, folder), capture_output=True, timeout=850)
    *faults, count = done.stdout.decode().splitlines() or ["nothing was said"]
    return faults[:5] + differs(count=(count, str(at_calls + at_times)), errors=(done.stderr, b""))


def killed(program, folder):
    """Ended at 60 of its calls and at 30 times, the script goes on."""
    many(folder, 60)
    return ended_at(program, folder, 60, 30)


def killed_by_folders(program, folder):
    """The same of shares by folders, of a store of which some is passed over, at 8 of its calls and 4 times."""
    many(folder, 60)
    build(f"{folder}/s/pairtree_root", {"00/zz": DIR, "00/00/07/two": b"1", "ab/c/d": DIR})
    return ended_at(program, folder, 8, 4, "--by-folders", "3")


def no_raw_names(program, folder):
    """A name that the script tells is one that can be read: it writes nothing else on a terminal, and no line of its own."""
    bad = "out\x1b[2J\n\u202e\u2028of it "
    build(f"{folder}/{bad}", {"2/ocfl": b"", "2.log": b'{"as":"\x1b[2J', "3/staging": b"1"})
    status, _, said = by_script(program, folder, "here", "3", OUT=f"{folder}/{bad}")
    there = f"{folder}/out\\u{{1b}}[2J\\u{{a}}\\u{{202e}}\\u{{2028}}of it /"
    lines = [line for line in said.split("\n") if line.startswith("shares.py: ")]
    wanted = {f"shares.py: share 2 of 3 ended with status 3; its log is {there}2.try2.log"}
    wanted |= {f"shares.py: share 3 of 3: {there}3/staging is no folder, so no run left it"}
    wanted |= {f'shares.py: {there}2.log: its last line was never finished, and is cut off: {{"as":"\\u{{1b}}[2J'}
    faults = differs(status=(status, 3), missing=(wanted - set(lines), set()), raw=(re.findall("[\x1b\u202e\u2028]", said), []))
    for words, given, reason in ((("here", "2\x1b"), {}, "not '2\\u{1b}'"), (("here", "2"), {"PROGRAM": "no\nne"}, "no program no\\u{a}ne:")):
        said = by_script(program, folder, *words, **given)[2]
        faults += differs(**{reason: ((reason in said, "\x1b" in said), (True, False))})
    return faults


# Texts and names, and how scripts show them: as docs/REFERENCE.md says of a PATH.
SHOWN = {
    "a b/\u00e9\u4e2d": "a b/\u00e9\u4e2d",
    "a\\b": "a\\\\b",
    "a\nb\t\x1b[2J\x7f\x85": "a\\u{a}b\\u{9}\\u{1b}[2J\\u{7f}\\u{85}",
    "\u202a\u202e\u2066\u2069": "\\u{202a}\\u{202e}\\u{2066}\\u{2069}",
    "\u061c\u200e\u200f\u2028\u2029\ufeff\u00ad": "\\u{61c}\\u{200e}\\u{200f}\\u{2028}\\u{2029}\\u{feff}\\u{ad}",
    " a b\u00a0c ": "\\u{20}a b\\u{a0}c\\u{20}",
    "  ": "\\u{20}\\u{20}",
    b"caf\xe9 \xff\xc3\xa9": "caf\\xe9 \\xff\u00e9",
    "caf\udce9\ud800": "caf\\xe9\\u{d800}",
    "": "",
}


def shows(program, folder):
    """What scripts show of names."""
    return differs(**{f"{name!r}": (shown(name), text) for name, text in SHOWN.items()})


STOPPED = """#!/bin/sh
if [ "$SLURM_ARRAY_TASK_ID" = 3 ] && [ "${SLURM_RESTART_COUNT:-0}" = 0 ]; then
    timeout -s KILL 0.03 "$REAL" "$@"
    mkdir -p "$OUT/3/staging/left"
    scontrol requeue "$SLURM_JOB_ID"
    sleep 60
fi
exec "$REAL" "$@"
"""


def on_a_cluster(program, folder):
    """A job array of Slurm carries a store of 2,000 objects in shares, one of which is killed and requeued, and a job behind it joins them. The
    options come to each share as they are, and each try has a log and an event of its own."""
    if os.geteuid() != 0:
        raise Skipped("only root can start Slurm's daemons")
    needs("slurmctld", "slurmd", "munged", "sbatch")
    many(folder, 2000)
    message = "two  words; $HOME `true` 'and' \"these\" \\ %a"
    ran(program, folder, "whole", "--message", message)
    os.mkdir(f"{folder}/events")
    with open(f"{folder}/stopped", "w", encoding="ascii") as file:
        file.write(STOPPED)
    os.chmod(f"{folder}/stopped", 0o755)
    out = f"{folder}/out of %a"
    with slurm.Cluster() as cluster:
        told_it = {**environment(f"{folder}/stopped", folder), **cluster.environment, "REAL": program, "OUT": out, "ROOTS": ""}
        words = ("--", "--message", message, "--event", "events/run.json")
        done = subprocess.run([SCRIPT, "cluster", "4", *words], env=told_it, cwd=folder, capture_output=True, timeout=120)
        for _ in range(240):
            if not cluster.said("squeue", "-h"):
                break
            time.sleep(0.5)
        else:
            return [f"the jobs don't end: {cluster.said('squeue')!r}"]
    with open(f"{out}/3.err", "rb") as file:
        requeued = b"REQUEUE" in file.read()
    with open(f"{out}/join.out", "rb") as file:
        faults = differs(sent=(done.returncode, 0), requeued=(requeued, True), join=(file.read(), b""))
    logs, events = logs_of(out), {name for name, text in read_tree(f"{folder}/events").items() if b'"end":' in text}
    faults += differs(logs=(set(logs), {"1.log", "2.log", "3.log", "3.try2.log", "4.log"}))
    faults += differs(events=(events, {"run.1.json", "run.2.json", "run.3.try2.json", "run.4.json"}))
    return faults + list(differences(read_tree(f"{out}/1"), read_tree(f"{folder}/whole")))


# Those that are quick, which are run over each program that is shipped.
QUICK = [
    Alone("shares by the script, on this machine", here),
    Alone("one share by the script", one_share),
    Alone("shares that the script can't carry", no_number),
    Alone("a share that faults, by the script", faulty_share),
]
CASES = [
    *QUICK,
    Alone("shares by the script, a torn log", torn_log),
    Alone("shares by the script, options and events", own_options),
    Alone("shares by the script, runs at once", at_once),
    Alone("shares by the script, links", no_link),
    Alone("shares by the script, links in the way of jobs", no_link_of_jobs),
    Alone("shares by the script, a staging that stays", stuck_staging),
    Alone("shares by the script, no locks", lockless),
    Alone("shares by the script, asked to end", stopped),
    Alone("shares by the script, killed at 90 moments", killed),
    Alone("shares by folders by the script, killed at 12 moments", killed_by_folders),
    Alone("shares by the script, names", no_raw_names),
    Alone("names as scripts show them", shows),
    Alone("shares by the script, on a cluster", on_a_cluster),
]
