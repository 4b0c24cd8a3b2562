"""What became of cases: how many passed, how many failed, and which were skipped, each with its reason.

A case that a machine can't have (a mount that isn't allowed, say) is skipped. One that lacks only a program is skipped
too, but fails where CI is set, as `CI=true`: there .ci/run has installed what the cases need.
"""

import os
import shutil
from collections import namedtuple


class Skipped(Exception):
    """Why a case can't be run here."""


class Lacking(Skipped):
    """The same of a case for want of a program."""


def needs(*programs):
    """Sees to it that these programs are here; the case is skipped where one isn't."""
    lacking = [name for name in programs if not shutil.which(name)]
    if lacking:
        raise Lacking(f"no {' and no '.join(lacking)} is here")


class Tally(namedtuple("Tally", "passed failed skipped", defaults=((),))):
    """How many cases passed and failed, and the names and reasons of those that were skipped."""

    @staticmethod
    def of_all(tallies):
        """Several together."""
        passed, failed, skipped = zip(*(Tally(*it) for it in tallies))
        return Tally(sum(passed), sum(failed), sum(map(tuple, skipped), ()))

    def after(self, name, outcome):
        """This one and one case more, which found these faults, or was skipped."""
        if isinstance(outcome, Skipped):
            return self._replace(skipped=(*self.skipped, (name, str(outcome))))
        return self._replace(passed=self.passed + (not outcome), failed=self.failed + bool(outcome))

    def last_lines(self):
        """The skipped cases with their reasons, and the counts in the last line, as CI reads them."""
        yield from (f"skipped: {name}: {reason}" for name, reason in self.skipped)
        yield f"{self.passed} passed, {self.failed} failed, {len(self.skipped)} skipped"


def faults_of(outcome):
    """What a case found: its faults, or why it was skipped. A program that is wanting is a fault where CI is set."""
    if isinstance(outcome, Lacking) and os.environ.get("CI", "") not in ("", "0", "false"):
        return [f"{outcome}: .ci/run has to install it"]
    return outcome
