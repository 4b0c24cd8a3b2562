"""How far the gate is, and how long each crate took, by the lines that it says as it goes.

The gate tells when a crate or its tests are proved, and when it begins to try a crate's edits. It doesn't tell when it
begins a proof: that can be once all that the crate stands on is proved, so what is counted from there is the most that
the proof took.
"""

import re
import resource
import threading
import time

# How many seconds lie between two words on how far the gate is.
EVERY = 180

PROVED = re.compile(r"rt: (\w+)(: its tests are)? (proved$|NOT PROVED)")
EDITS = re.compile(r"rt: (\w+): trying its must-fail edits \((\d+)\)$")
TRIED = re.compile(r"rt: must-fail \w+/")


def read_crates(path):
    """Each crate of crates.txt with those crates of it that it stands on, lowest first."""
    with open(path, encoding="utf-8") as file:
        lines = [line.partition("#")[0].partition(":") for line in file]
    below = {before.split()[0]: after.split() for before, _, after in lines if before.strip()}
    return {crate: [it for it in words if it in below] for crate, words in below.items()}


def minutes(seconds):
    return f"{seconds / 60:.1f} min"


class Progress:
    """What the gate has said so far. `with` says every few minutes how far it is."""

    def __init__(self, crates, clock=time.monotonic):
        self.crates, self.clock, self.start = crates, clock, clock()
        # The seconds from the start at which each was told; of the edits also how many there are.
        self.proved, self.tests, self.edits, self.tried = {}, {}, {}, None
        self.failed = set()
        self.ended, self.used = threading.Event(), processor_seconds()

    def __enter__(self):
        threading.Thread(target=self.keep_saying, daemon=True).start()
        return self

    def __exit__(self, *_):
        self.ended.set()

    def keep_saying(self):
        while not self.ended.wait(EVERY):
            print(self.how_far(), flush=True)

    def gone(self):
        return self.clock() - self.start

    def hear(self, line):
        """Takes a line of the gate."""
        proved, edits = PROVED.match(line), EDITS.match(line)
        if proved:
            (self.tests if proved[2] else self.proved)[proved[1]] = self.gone()
            if proved[3] != "proved":
                self.failed.add(proved[1])
        elif edits:
            self.edits[edits[1]] = self.gone(), int(edits[2])
        elif TRIED.match(line) and self.tried is None:
            self.tried = self.gone()

    def how_far(self):
        """One line: the time gone, the crates proved, those whose edits are begun, and those left."""
        proved = [it for it in self.crates if it in self.proved and it not in self.failed]
        left = [it for it in self.crates if it not in self.proved]
        parts = [f"{len(proved)} of {len(self.crates)} crates proved"]
        parts += [f"not proved: {' '.join(sorted(self.failed))}"] * bool(self.failed)
        parts += [f"to be proved: {' '.join(left)}"] * bool(left)
        if self.tried is not None:
            parts.append("all edits tried")
        elif self.edits:
            parts.append("edits begun: " + " ".join(f"{it} ({count})" for it, (_, count) in self.edits.items()))
        return f"the gate, after {minutes(self.gone())}: {'; '.join(parts)}"

    def since_below(self, crate, told):
        """The seconds from when all that the crate stands on was proved until it was told."""
        return told - max([self.proved.get(it, 0) for it in self.crates.get(crate, [])], default=0)

    def table(self):
        """How long the gate and each crate took, a line each."""
        used = processor_seconds() - self.used
        lines = [f"the gate took {minutes(self.gone())}, and {minutes(used)} of processors"]
        for crate in self.crates:
            parts = []
            if crate in self.proved:
                word = "not proved" if crate in self.failed else "proved"
                parts.append(f"{word} in {minutes(self.since_below(crate, self.proved[crate]))}")
            if crate in self.tests:
                parts.append(f"its tests in {minutes(self.since_below(crate, self.tests[crate]))}")
            if crate in self.edits:
                begun, count = self.edits[crate]
                parts.append(f"{count} edits begun after {minutes(begun)}")
            lines += [f"  {crate}: {', '.join(parts)}"] * bool(parts)
        if len(lines) > 1:
            lines[0] += "; each crate at most, from when what it stands on was proved:"
        if self.tried is not None:
            lines.append(f"  all proofs were made and all edits tried after {minutes(self.tried)}")
        return "\n".join(lines)


def processor_seconds():
    """The processor time of the processes that this one started and that have ended."""
    used = resource.getrusage(resource.RUSAGE_CHILDREN)
    return used.ru_utime + used.ru_stime
