"""Every test of the repository: the toolchain's gate, then the tests of the program that the gate built, and of those that are shipped, which
are built here over what the gate proved.

Usage: all.py RT PROGRAM. Every few minutes it says how far the gate is, and at the gate's end how long each crate
took. That, what the gate and the program's tests said of a failure, and which cases were skipped and why, is said again
at the end. The last line is 'N passed, M failed, K skipped', over all of them; the status is 0 only where nothing failed.
"""

import collections
import contextlib
import glob
import os
import re
import shutil
import subprocess
import sys
import textwrap

HERE = os.path.dirname(os.path.abspath(__file__))
sys.path += [f"{HERE}/cases", f"{HERE}/harness"]
sys.dont_write_bytecode = True

import allocations
import migration
import program
import progress
import static
import system
from tally import Tally

# What the gate says of itself, but for what went well.
WENT_WELL = re.compile(r"^rt: (must-fail .*: refused, as it must be|.* proved$|.* passed$|.*: trying its |.* ran[ ,(])")
SAID = re.compile(r"^rt: |: error: |^Traceback|^\w*Error: ")

# What it says of an edit that can't be applied, compiled or read. It fails nothing for that, but such an edit shows nothing.
BAD_EDIT = re.compile(r": BAD EDIT: ")

# The memory that a proof takes at most, in bytes.
PROOF = 4 << 30

# How many seconds building the programs that are shipped may take.
BUILDING = 1200

# What the program's tests say of what went well.
PASSED = re.compile(r"\.\.\. (ok|skipped: .*)$|^system: .* sequences, .* calls ")


class Heard:
    """An output that is written on to another, and keeps the last lines that tell of a failure."""

    def __init__(self, output):
        self.output, self.line, self.said = output, "", collections.deque(maxlen=30)

    def write(self, text):
        *lines, self.line = (self.line + text).split("\n")
        self.said += [line for line in lines if line and not PASSED.search(line)]
        return self.output.write(text)

    def flush(self):
        self.output.flush()


def proofs_at_once():
    """How many proofs are made side by side: one a processor, as far as memory goes.

    Left alone, the toolchain gives a proof that no other stands beside up to four processes, which takes a third more
    of processors for it."""
    with open("/proc/meminfo", encoding="utf-8") as file:
        free = 1024 * int(re.search(r"MemAvailable:\s+(\d+)", file.read())[1])
    return max(1, min(len(os.sched_getaffinity(0)), free // PROOF))


def run_gate(rt):
    """Runs the gate, once more where it ended without a verdict, and gives what became of its cases, what to say again, and how long each crate took."""
    verdict = run_once(rt)
    if verdict[0] is None:
        print("\n".join([*verdict[1], "the gate gave no counts at its end: once more"]), flush=True)
        verdict = run_once(rt)
    if verdict[0] is None:
        return Tally(0, 1), [*verdict[1], "the gate gave no counts at its end"], verdict[2]
    return verdict


def run_once(rt):
    """Runs the gate and shows what it says. Where it gives no counts, there is None for them."""
    counts, bad, last = None, 0, collections.deque(maxlen=30)
    how = {"stdout": subprocess.PIPE, "stderr": subprocess.STDOUT, "text": True, "errors": "replace"}
    how["env"] = {"RT_JOBS": str(proofs_at_once()), **os.environ}
    with progress.Progress(progress.read_crates("crates.txt")) as far, subprocess.Popen([rt, "ci"], **how) as gate:
        for line in gate.stdout:
            line = line.rstrip("\n")
            far.hear(line)
            told = re.fullmatch(r"(\d+) passed, (\d+) failed", line)
            counts, bad = told or counts, bad + bool(BAD_EDIT.search(line))
            print(f"the gate: {line}" if told else line, flush=True)
            if SAID.search(line) and not WENT_WELL.search(line):
                last.append(line)
    table = far.table()
    print(table, flush=True)
    last.append(f"the gate ended with status {gate.returncode}")
    if counts is None:
        return None, last, table
    passed, failed = int(counts[1]), int(counts[2]) + bad
    return Tally(passed, max(failed, int(gate.returncode != 0))), last, table


@contextlib.contextmanager
def libraries_aside(aside="bin/aside"):
    """Takes the libraries that checks made here out of the way, and gives them back at the end: what is shipped is built over the gate's own."""
    shutil.rmtree(aside, ignore_errors=True)
    moved = {path: f"{aside}/{number}" for number, path in enumerate(glob.glob("crates/*/out/rlib"))}
    os.makedirs(aside)
    try:
        for path, place in moved.items():
            os.rename(path, place)
        yield
    finally:
        for path, place in moved.items():
            if os.path.exists(place):
                shutil.rmtree(path, ignore_errors=True)
                os.makedirs(os.path.dirname(path), exist_ok=True)
                os.rename(place, path)
        os.rmdir(aside)


def build_programs(rt, path):
    """Builds the programs that are shipped, as a case, beside the one that the gate built at a path; without a C compiler cases of theirs are skipped."""
    if not os.path.exists(path):
        return Tally(0, 0), []
    shutil.rmtree(static.FOLDER, ignore_errors=True)
    if not shutil.which(os.environ.get("CC", "cc")):
        return Tally(0, 0), []
    command = ["timeout", str(BUILDING), sys.executable, "-B", f"{static.TOP}/tools/programs.py", rt, static.FOLDER]
    done = subprocess.run(command, stdin=subprocess.DEVNULL, stdout=subprocess.PIPE, stderr=subprocess.STDOUT, text=True, errors="replace")
    said = f"building what is shipped ... {f'FAILED ({done.returncode})' if done.returncode else 'ok'}"
    last = [*done.stdout.splitlines()[-20:], said] if done.returncode else [said]
    print("\n".join(last), flush=True)
    return Tally(int(not done.returncode), int(bool(done.returncode))), last


def run_tests(path):
    """Runs the tests of the program that stands at a path; gives what became of its cases, and what to say again."""
    if not os.path.exists(path):
        return Tally(0, 1), [f"{path} was not built, so its tests did not run"]
    with contextlib.redirect_stdout(Heard(sys.stdout)) as heard:
        counts = [program.run_cases(path), migration.run_cases(path), allocations.run_cases(path), system.run_cases()]
    return Tally.of_all(counts), list(heard.said)


def main():
    rt, path = sys.argv[1:]
    with libraries_aside():
        results = [run_gate(rt), build_programs(rt, path)]
    results.append(run_tests(path))
    tally = Tally.of_all([result[0] for result in results])
    if tally.failed:
        print("\n".join(line for result in results if result[0].failed for line in result[1]))
    print(textwrap.fill(" ".join(results[0][2].split()), 240))
    print("\n".join(tally.last_lines()), flush=True)
    sys.exit(1 if tally.failed else 0)


if __name__ == "__main__":
    main()
