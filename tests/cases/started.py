"""Tests of how the scripts are started: by whatever Python, in whatever locale, with whatever streams, and ended while they start."""

import contextlib
import os
import re
import signal
import subprocess
import sys

from alone import Alone, differs
from joining import an_object
from scripted import environment
from stores import DIR, build, bytes_of, done, lines, place, root, stored, whole_log

LINE = lines(done("aa/obj", "aa", {}))
TOP = os.path.dirname(os.path.dirname(os.path.dirname(os.path.abspath(__file__))))
SCRIPTS = {"roots": f"{TOP}/tools/roots.py", "shares": f"{TOP}/tools/shares.py", "report": f"{TOP}/examples/report.py"}
# Where Python takes names as ASCII by the locale, and not as UTF-8.
ASCII = {"LC_ALL": "C", "PYTHONCOERCECLOCALE": "0", "PYTHONUTF8": "0"}


def ran(folder, name, *words, flags=(), given=None, **options):
    """What a script answers: its status, what it wrote and what it said."""
    environment = {**os.environ, "OUT": f"{folder}/out", **(given or {})}
    options = {"stdout": subprocess.PIPE, "stderr": subprocess.PIPE, **options}
    done = subprocess.run([sys.executable, "-B", *flags, SCRIPTS[name], *words], cwd=folder, env=environment, timeout=120, **options)
    return done.returncode, done.stdout, done.stderr


def by_any_python(program, folder):
    """Scripts find what stands beside them where Python doesn't look there by itself, and tell how they are called."""
    build(folder, {**root(an_object("aa")), "run.log": whole_log(), "out": DIR})
    faults = []
    for flags, given in ((["-I"], {}), ([], {"PYTHONSAFEPATH": "1"}), (["-I"], ASCII), (["-OO"], {})):
        how = {"flags": flags, "given": given}
        faults += differs(**{f"roots {flags} {given}": (ran(folder, "roots", "damaged", "ocfl", **how), (0, b"", b""))})
        faults += differs(**{f"report {flags} {given}": (ran(folder, "report", "run.log", "-o", "x.html", **how), (0, b"", b""))})
        faults += differs(**{f"help {flags} {given}": (ran(folder, "shares", "--help", **how)[::2], (0, b""))})
        status, text, said = ran(folder, "shares", "status", "1", **how)
        faults += differs(**{f"shares {flags} {given}": ((status, text.splitlines()[0], said), (1, b"not begun: 1", b""))})
    return faults


def by_any_locale(program, folder):
    """Names that aren't ASCII are those of the inventories where the locale isn't UTF-8: such objects are whole, and are joined."""
    objects = [stored(name, {"ä\u202e": b"1", "b/ö": name.encode()}) for name in ("aa", "é")]
    for top in ("one", "two"):
        build(folder, {f"{top}/{path}": held for path, held in root(*objects[: 1 + (top == "one")]).items()})
    build(folder, {"three": DIR, **{f"three/{path}": held for path, held in root().items()}})
    faults = differs(damaged=(ran(folder, "roots", "damaged", "one/ocfl", given=ASCII), (0, b"", b"")))
    faults += differs(join=(ran(folder, "roots", "join", "three/ocfl", "one/ocfl", given=ASCII), (0, b"", b"")))
    faults += differs(moved=(ran(folder, "roots", "damaged", "three/ocfl"), (0, b"", b"")))
    build(folder, {f"two/ocfl/{place('aa')}/v1/content/ü": b""})
    status, listed, said = ran(folder, "roots", "damaged", "two/ocfl", given=ASCII)
    faults += differs(told=((status, listed, "v1/content/ü\n" in said.decode()), (1, f"{place('aa')}\n".encode(), True)))
    status, _, said = ran(folder, "report", "né.log", given=ASCII)
    return faults + differs(report=((status, said.decode()), (2, "report.py: né.log: No such file or directory\n")))


def closed(*numbers):
    """Closes these streams of a script that is to be started."""
    return {"preexec_fn": lambda: [os.close(number) for number in numbers]}


def streams(program, folder):
    """What a script tells goes into no other file where its standard streams are closed, and its status is what it is otherwise. So it is where they are
    full."""
    torn = LINE + b'{"as":"do'
    given, faults = environment(program, folder), []
    for numbers in ((2,), (0, 2), (1, 2), (0, 1, 2)):
        out = f"out{len(numbers)}{numbers[0]}"
        build(folder, {f"{out}/2.log": torn})
        ended = ran(folder, "shares", "here", "3", given={**given, "OUT": f"{folder}/{out}"}, **closed(*numbers))[0]
        faults += differs(**{f"shares {numbers}": ((ended, bytes_of(f"{folder}/{out}/2.log")), (0, LINE))})
    build(folder, {**root(an_object("aa")), "bad.log": b"bad\n" + whole_log()})
    for numbers in ((1,), (0, 1), (1, 2), (0, 1, 2)):
        faults += differs(**{f"roots {numbers}": (ran(folder, "roots", "sums", "ocfl", **closed(*numbers))[0], 2)})
        faults += differs(**{f"report {numbers}": (ran(folder, "report", "bad.log", **closed(*numbers))[0], 2)})
    table = ran(folder, "report", "--csv", "bad.log")[1]
    for numbers in ((2,), (0, 2)):
        faults += differs(**{f"table {numbers}": (ran(folder, "report", "--csv", "bad.log", **closed(*numbers))[:2], (1, table))})
    with open("/dev/full", "wb") as full:
        for name, words in (("roots", ("damaged", "none")), ("shares", ("status", "0")), ("report", ("none",))):
            faults += differs(**{f"{name} full": (ran(folder, name, *words, stderr=full)[:2], (2, b""))})
    return faults


def interrupted(program, folder):
    """Ctrl-C ends a script while it starts, at once and without a word, and later with a line; once it has said that, nothing disturbs its end."""
    early = "import os, signal, sys; import starting; os.kill(os.getpid(), signal.SIGINT)"
    twice = """import os, signal, sys, starting
starting.heed(starting.STOPS)
try: os.kill(os.getpid(), signal.SIGTERM); signal.pause()
except KeyboardInterrupt: starting.heed_no_more()
for number in starting.STOPS: os.kill(os.getpid(), number)
print("ended")"""
    faults = []
    for text, wanted in ((early, (-signal.SIGINT, b"", b"")), (twice, (0, b"ended\n", b""))):
        done = subprocess.run([sys.executable, "-B", "-c", text], cwd=f"{TOP}/tools", capture_output=True, timeout=60)
        faults += differs(**{text[:5]: ((done.returncode, done.stdout, done.stderr), wanted)})
    for path in SCRIPTS.values():
        with open(path, encoding="utf-8") as file:
            imports = re.findall("^(?:import|from) (\\w+)", file.read(), re.MULTILINE)
        faults += differs(**{path: (imports[:3], ["os", "sys", "starting"])})
    return faults


def emptied(program, folder):
    """The demonstration and the installation remove their temporary folder where a signal ends them, whenever that comes."""
    build(folder, {"temporary": DIR})
    environment_there = {**os.environ, "TMPDIR": f"{folder}/temporary"}
    for words in (("demo/run", program), ("tools/install.sh", program, f"{folder}/installed")):
        for number in range(9):
            how = {"stdout": subprocess.DEVNULL, "stderr": subprocess.DEVNULL, "start_new_session": True}
            script = subprocess.Popen(["sh", *words], cwd=TOP, env=environment_there, **how)
            with contextlib.suppress(subprocess.TimeoutExpired):
                script.wait(0.02 * number)
            with contextlib.suppress(ProcessLookupError):
                os.killpg(script.pid, (signal.SIGINT, signal.SIGTERM, signal.SIGHUP)[number % 3])
            script.wait()
    return differs(left=(os.listdir(f"{folder}/temporary"), []))


def measured(program, folder):
    """What measures shares tells how it is called where it has no program."""
    faults = []
    for words in ((), ("none",), (program, "more")):
        done = subprocess.run([sys.executable, "-B", f"{TOP}/bench/shares.py", *words], cwd=folder, capture_output=True, timeout=60)
        faults += differs(**{f"{words}": ((done.returncode, done.stderr), (1, b"Usage: shares.py PROGRAM: PROGRAM is the path of the program\n"))})
    return faults


CASES = [
    Alone("scripts by any Python", by_any_python),
    Alone("scripts in any locale", by_any_locale),
    Alone("scripts whose streams are closed or full", streams),
    Alone("scripts that are interrupted as they start and end", interrupted),
    Alone("temporary folders of scripts that are stopped", emptied),
    Alone("shares that are measured with no program", measured),
]
