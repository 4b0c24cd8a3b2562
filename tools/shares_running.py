"""The processes that shares.py begins."""

import os
import signal
import subprocess

from starting import STOPS


class Running:
    """Processes of this script, which are stopped where it is."""

    def __init__(self):
        self.of = {}

    def __enter__(self):
        return self

    def __exit__(self, *_):
        for process, _ in self.of.values():
            process.terminate()
        for process, _ in self.of.values():
            process.wait()

    def begin(self, command, what, **how):
        """Begins a process. A signal that asks this script to end comes before or after that, so none is forgotten."""
        before = signal.pthread_sigmask(signal.SIG_BLOCK, STOPS)
        try:
            process = subprocess.Popen(command, preexec_fn=lambda: signal.pthread_sigmask(signal.SIG_SETMASK, before), **how)
            self.of[process.pid] = process, what
        finally:
            signal.pthread_sigmask(signal.SIG_SETMASK, before)

    def ended(self):
        """The status of the next process that ends, and what it was; those of others are passed over."""
        while True:
            pid = os.waitid(os.P_ALL, 0, os.WEXITED | os.WNOWAIT).si_pid
            if pid in self.of:
                process, what = self.of[pid]
                status = process.wait()
                del self.of[pid]
                return status, what
            os.waitpid(pid, 0)
