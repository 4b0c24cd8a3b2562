"""Tests of the gate itself, tests/all.py and tests/harness: what fails it, and what its last lines say."""

import contextlib
import glob
import io
import os
import re
import shutil
import signal
import subprocess
import sys
import tempfile

import completions
import lanes
import system
from alone import Alone, differs
from tally import Skipped, Tally, faults_of, needs

TOP = os.path.dirname(os.path.dirname(os.path.dirname(os.path.abspath(__file__))))

# What stands in for the toolchain: it says these lines, and ends well.
GATE = """#!/bin/sh
cat <<'END'
{lines}
3 passed, 0 failed
END
"""
REFUSED = "rt: must-fail pt_name/first.edit: refused, as it must be: src/x.rt:1:1: error"
BAD = "rt: must-fail pt_name/second.edit: BAD EDIT: it did not reach the prover; the first lines of what it said:"


def gate_over(folder, *lines):
    """The status of the gate over a toolchain that says these lines and builds no program, and the last lines."""
    with open(f"{folder}/rt", "w", encoding="ascii") as file:
        file.write(GATE.format(lines="\n".join(lines)))
    os.chmod(f"{folder}/rt", 0o755)
    return all_over(folder)


def all_over(folder):
    """The status of the gate over the toolchain in a folder, in that folder, and its lines."""
    shutil.copy(f"{TOP}/crates.txt", folder)
    command = [sys.executable, "-B", f"{TOP}/tests/all.py", f"{folder}/rt", f"{folder}/none"]
    done = subprocess.run(command, cwd=folder, capture_output=True, timeout=120)
    return done.returncode, done.stdout.decode().splitlines()


def bad_edits(program, folder):
    """An edit that can't be applied, compiled or read fails the gate, which says it again at the end; the one failure beside it is that nothing was built."""
    status, lines = gate_over(folder, REFUSED)
    faults = differs(refused=((status, lines[-1]), (1, "3 passed, 1 failed, 0 skipped")))
    status, lines = gate_over(folder, REFUSED, BAD, BAD)
    return faults + differs(bad=((status, lines[-1]), (1, "3 passed, 3 failed, 0 skipped")), said=(lines.count(BAD), 4))


def libraries(program, folder):
    """The libraries that checks made here aren't there for the gate, and stand again at its end."""
    own = f"{folder}/crates/pt_x/out/rlib"
    os.makedirs(own)
    with open(f"{folder}/rt", "w", encoding="ascii") as file:
        file.write('#!/bin/sh\nls -d crates/pt_x/out/*\nmkdir crates/pt_x/out/rlib\necho "3 passed, 0 failed"\n')
    os.chmod(f"{folder}/rt", 0o755)
    open(f"{own}/format", "w", encoding="ascii").close()
    status, lines = all_over(folder)
    return differs(seen=("crates/pt_x/out/rlib" in lines, False), left=((os.listdir(own), os.listdir(f"{folder}/bin")), (["format"], [])))


def raising(error):
    """A test that raises this."""

    def test(program, folder):
        raise error

    return test


def ended_by(*words):
    """A test whose process is ended so."""
    return lambda program, folder: os.kill(os.getpid(), *words)


def asleep(program, folder):
    """A test that never ends, nor does what it starts."""
    subprocess.run(["sleep", "1234.5"], check=True)


def broken_cases(program, folder):
    """A case whose process is killed, or that never ends or goes wrong, fails by its name, and those behind it are run."""
    cases = [
        Alone("killed", ended_by(signal.SIGKILL)),
        Alone("never ends", asleep),
        Alone("goes wrong", raising(ValueError("x"))),
        *(Alone(f"well {number}", lambda program, folder: []) for number in range(5)),
        Alone("has faults", lambda program, folder: ["a fault"]),
        Alone("can't be", raising(Skipped("no such mount"))),
    ]
    # What a case that is killed leaves goes with this one's folder.
    tempfile.tempdir = folder
    found = list(lanes.outcomes(cases, program, most=5))
    faults = differs(
        killed=(found[0], ["its process ended with -9 before the case did"]),
        never=(found[1], ["it didn't end in 5 seconds"]),
        wrong=(found[2], ["it could not be run: ValueError('x')"]),
        others=(found[3:9], [[]] * 5 + [["a fault"]]),
        skipped=(repr(found[9]), repr(Skipped("no such mount"))),
    )
    left = subprocess.run(["pgrep", "-f", "sleep 1234[.]5"], capture_output=True).stdout
    return faults + differs(left=(left, b""))


def last_lines(program, folder):
    """Skipped cases are counted apart, and named with their reasons before the last line, which CI reads."""
    tally = Tally.of_all([(7, 0), Tally(1, 0).after("a", []).after("b", ["a fault"]).after("c", Skipped("no mount")), Tally(0, 0)])
    return differs(lines=(list(tally.last_lines()), ["skipped: c: no mount", "9 passed, 1 failed, 1 skipped"]))


def wanting_programs(program, folder):
    """A case that wants a program is skipped by its name, and fails where CI is set; one that the machine can't have doesn't."""
    try:
        needs("sh", "no-such-program")
        return ["nothing was wanting"]
    except Skipped as skipped:
        wanting = skipped
    faults, before = [], os.environ.get("CI")
    for value, fails in (("true", True), ("1", True), ("", False), ("false", False)):
        os.environ["CI"] = value
        wanted = ["no no-such-program is here: .ci/run has to install it"] if fails else wanting
        faults += differs(**{f"CI={value}": (faults_of(wanting), wanted)})
        mount = Skipped("no mount")
        faults += differs(**{f"a mount, CI={value}": (faults_of(mount), mount)})
    os.environ["CI"] = before or ""
    return faults


def installed(program, folder):
    """Each program that a case needs is one that .ci/run installs."""
    with open(f"{TOP}/.ci/run", encoding="utf-8") as file:
        brought = set(re.findall(r"([\w.-]+):[\w.-]+", file.read()))
    wanted = set(completions.READERS)
    for path in glob.glob(f"{TOP}/tests/cases/*.py"):
        if path != os.path.abspath(__file__):
            with open(path, encoding="utf-8") as file:
                wanted |= {name for words in re.findall(r"needs\(([^)]*)\)", file.read()) for name in re.findall(r'"([\w.-]+)"', words)}
    return [f".ci/run doesn't install {name}" for name in sorted(wanted - brought)]


# What stands in for apt-get: it writes down what is asked of it, and can't give what has this name.
APT = """#!/bin/sh
echo "$@" >> "$0.asked"
case "$*" in *rustc*) exit 1 ;; esac
"""


def on_a_bare_machine(program, folder):
    """.ci/run installs what isn't here, all at once or, where one package can't be had, each by itself, and then runs the tests."""
    here = f"{folder}/bin"
    os.mkdir(here)
    for name in ("sh", "dirname", "sort", "tr", "cat", "python3", "jq"):
        os.symlink(shutil.which(name), f"{here}/{name}")
    for name, text in {"apt-get": APT, "make": '#!/bin/sh\necho make "$@"\n'}.items():
        with open(f"{here}/{name}", "w", encoding="ascii") as file:
            file.write(text)
        os.chmod(f"{here}/{name}", 0o755)
    done = subprocess.run(["sh", f"{TOP}/.ci/run"], env={"PATH": here}, capture_output=True, timeout=60)
    with open(f"{here}/apt-get.asked", encoding="ascii") as file:
        update, together, *apart = file.read().splitlines()
    asked = sorted(line.split()[-1] for line in apart)
    faults = differs(ran=((done.returncode, done.stdout), (0, b"make test\n")), update=(update.split()[0], "update"))
    faults += differs(rest=(sorted(it for it in together.split()[1:] if it[0] != "-"), asked), told=(b"not installed: rustc" in done.stderr, True))
    return faults + differs(some=({"rustc", "slurm-wlm", "munge", "dosfstools"} - set(asked), set()), there=({"jq", "make"} & set(asked), set()))


def sequences(program, folder):
    """A sequence of tests/system.py is one case, over as many places as there are."""
    here = [tempfile.mkdtemp(dir=folder) for _ in range(3)]
    with contextlib.redirect_stdout(io.StringIO()):
        counts = [system.run_cases(1, 4, here[:number]) for number in (1, 3)]
    return differs(counts=(counts, [(4, 0), (4, 0)]))


CASES = [
    Alone("edits that can't be read fail the gate", bad_edits),
    Alone("the libraries that checks made", libraries),
    Alone("cases that are killed or never end", broken_cases),
    Alone("the gate's last lines", last_lines),
    Alone("cases that want a program", wanting_programs),
    Alone("the programs that cases want", installed),
    Alone(".ci/run on a bare machine", on_a_bare_machine),
    Alone("sequences of the system's calls", sequences),
]
