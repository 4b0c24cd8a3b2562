"""Cases, each in a process of its own, four at a time.

They are processes: what a thread has open, as a lock or an end of a pipe, is open for a moment in what the others start, too. Each case
has its own, so that one that is killed, or never ends, fails by its name, and the others are run to their end.
"""

import multiprocessing
import os
import signal
import time
from multiprocessing import connection

from tally import Skipped

FORK = multiprocessing.get_context("fork")

# How many stand side by side, and how many seconds a case may take: more than any case gives its commands.
LANES, MOST = 4, 900


class Started:
    """A case in a process that leads a group of its own, to be ended with all that it started."""

    def __init__(self, number, case, program, most):
        self.number, self.most, self.ends = number, most, time.monotonic() + most
        self.answer, writing = FORK.Pipe(duplex=False)
        self.process = FORK.Process(target=answer, args=(case, program, writing))
        self.process.start()
        writing.close()

    def outcome(self):
        """What the case found, where it has told it or ended."""
        try:
            found = self.answer.recv()
        except EOFError:
            self.process.join()
            found = [f"its process ended with {self.process.exitcode} before the case did"]
        self.end()
        return found

    def end(self):
        """Ends the process and all that it left running."""
        try:
            os.killpg(self.process.pid, signal.SIGKILL)
        except ProcessLookupError:
            self.process.kill()
        self.process.join()
        self.answer.close()

    def is_late(self):
        return time.monotonic() > self.ends


def answer(case, program, writing):
    """Runs a case, and tells what it found."""
    os.setpgid(0, 0)
    try:
        found = case.outcome(program)
    except Skipped as skipped:
        found = skipped
    except Exception as error:
        found = [f"it could not be run: {error!r}"]
    writing.send(found)
    writing.close()
    os._exit(0)


def outcomes(cases, program, most=MOST):
    """What each case found, in the order of the cases, each as soon as those before it are told."""
    waiting, running, found, told = list(enumerate(cases)), [], {}, 0
    try:
        while told < len(cases):
            while waiting and len(running) < LANES:
                running.append(Started(*waiting.pop(0), program, most))
            for one in ended(running):
                running.remove(one)
                found[one.number] = one.outcome()
            for one in [it for it in running if it.is_late()]:
                running.remove(one)
                one.end()
                found[one.number] = [f"it didn't end in {one.most} seconds"]
            while told in found:
                yield found.pop(told)
                told += 1
    finally:
        for one in running:
            one.end()


def ended(running):
    """Those that have told what they found, or have ended; waits until there is one, or one is late."""
    left = max(0, min((it.ends for it in running), default=0) - time.monotonic())
    ready = connection.wait([it.answer for it in running], left + 0.1)
    return [it for it in running if it.answer in ready]
