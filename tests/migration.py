"""The built program's tests over real folders. tests/cases has the cases: carrying, refusing and options those of `migrate`, auditing and twins
those of `audit`, extras those of `--extra`, quick those of `--quick`, checking those of `check`, checkinglimits of its limits and numbers,
checkingshares of those of shares, watching of progress, events of the records beside the log, sharing of shares, dividing of shares by folders, scripted of tools/shares.py,
guarding of what it doesn't begin, sharestatus of what it tells of shares, started of how scripts are started, choosing of lists, peers beside
plain Rust, surroundings of what is around a run, calls of single calls of the system, completions of what is made of
the grammar, packages of what is shipped, anywhere of its programs, guide, guideroots and guidestores of the guide's commands, joining,
joiningfolders, sums and aside of tools/roots.py, report, reportevents and reportstate of examples/report.py, odd of what is odd for scripts,
documents of what the documents name, resting of what rests on a crate, gate of the gate itself.
tests/harness has how they are run, and what must stand.

Usage: migration.py PROGRAM [-k WORDS]. With -k only the cases are run whose file's name, with the case's name behind it, has these words, and those
of tests/program.py whose names have. The last line is 'N passed, M failed, K skipped', and before it stand the skipped cases with their reasons.
"""

import os
import sys

HERE = os.path.dirname(os.path.abspath(__file__))
sys.path += [f"{HERE}/cases", f"{HERE}/harness"]
sys.dont_write_bytecode = True

import anywhere
import aside
import auditing
import calls
import carrying
import checking
import checkinglimits
import checkingshares
import choosing
import completions
import dividing
import documents
import events
import extras
import gate
import guarding
import guide
import guideroots
import guidestores
import joining
import joiningfolders
import odd
import options
import packages
import peers
import program
import quick
import refusing
import report
import reportevents
import reportstate
import resting
import running
import scripted
import sharestatus
import sharing
import started
import sums
import surroundings
import twins
import watching
from tally import Tally

FILES = (
    carrying, auditing, twins, extras, quick, checking, checkinglimits, checkingshares, refusing, options, events, watching, surroundings, calls, sharing,
    dividing, scripted, guarding, sharestatus, started, choosing, peers, guide, guideroots, guidestores, joining, joiningfolders, sums, aside, report, reportevents,
    reportstate, odd, completions, packages, anywhere, documents, resting, gate,
)
CASES = [case for file in FILES for case in file.CASES]


def run_cases(path):
    """Runs each case, says what is wrong, and gives what became of them."""
    return run_these([*CASES, *anywhere.over()], path)


def run_these(cases, path):
    """The same of these cases."""
    if any(case in peers.CASES for case in cases):
        peers.built()
    return running.run_all(cases, path)


def cases_with(words):
    """The cases of tests/program.py, and all others, that have these words."""
    named = [(file.__name__, case) for file in FILES for case in file.CASES] + [("anywhere", case) for case in anywhere.over()]
    some = [case for case in program.CASES if words in case.name]
    return some, [case for name, case in named if words in f"{name} {case.name}"]


def run_some(path, words):
    """Runs the cases that have these words, and gives what became of them."""
    some, others = cases_with(words)
    return Tally.of_all([program.run_cases(path, some), run_these(others, path)])


def main():
    path, *rest = sys.argv[1:]
    if rest and (len(rest) != 2 or rest[0] != "-k"):
        sys.exit(__doc__)
    tally = run_some(path, rest[1]) if rest else run_cases(path)
    print("\n".join(tally.last_lines()))
    sys.exit(1 if tally.failed or not tally.passed else 0)


if __name__ == "__main__":
    main()
