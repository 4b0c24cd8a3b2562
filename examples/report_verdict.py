"""How a migration stands by its logs and events, in a sentence or two at the head of the page of report.py."""

from report_words import STOPPING, TROUBLES


def given(event, name):
    """The word that an event has for one of its folders; nothing where it has none."""
    folder = event.get(name)
    word = folder.get("given") if isinstance(folder, dict) else None
    return word if isinstance(word, str) else ""


def kept(event):
    """What is wanted of an event, which may be long: its kind, its times, its folders, and whether a fault ended it."""
    times = {key: event[key] if isinstance(event.get(key), str) else "" for key in ("begin", "end")}
    return {"as": event.get("as"), **times, "source": given(event, "source"), "dest": given(event, "dest"), "fault": "fault" in event, "ended": "end" in event}


def many(count, one, more):
    """A part of a sentence for one, or for so many."""
    return (one if count == 1 else more).format(f"{count:,}")


class Verdict:
    """What is still to be done, and what all is well of. A log of a rehearsal looks like a run's: only its event tells."""

    def __init__(self, report, runs, checks):
        self.report, self.runs, self.checks, self.state = report, runs, checks, report.state
        self.events = sorted((kept(event) for _, event in report.events()), key=lambda event: event["begin"])

    def is_good(self):
        """Whether nothing is to be done: something was carried, and nothing is open."""
        return not self.open() and bool(self.runs or self.checks)

    def text(self):
        """The sentence."""
        still = self.open()
        if still:
            return f"Not done yet: {'; '.join(still)}."
        if self.runs:
            return f"{self.rehearsed()}{self.carried()}{self.aside()}"
        if self.checks:
            return "Nothing is in the way: the check told nothing." if len(self.checks) == 1 else "Nothing is in the way: the checks told nothing."
        return "No log is given, so nothing is told of the objects."

    def rehearsed(self):
        """A warning where each event is of a rehearsal."""
        of = [event["as"] for event in self.events if event["as"] not in ("audit", "check")]
        rehearsed = of and all(kind == "rehearsal" for kind in of)
        return "This was a rehearsal, which carries nothing: what follows is what a run would leave. " if rehearsed else ""

    def carried(self):
        """What all is well of."""
        objects, same = self.state.objects, self.state.same
        if not objects:
            return "Nothing is missing: the logs name no object that was to be carried."
        whole = many(objects, "Nothing is missing: the one object stands in the root", "Nothing is missing: all {} objects stand in the root")
        if same == objects:
            return f"{whole}, found the same as in the store by an audit."
        if same:
            return f"{whole}; {many(objects - same, '{} was', '{} were')} carried since the last audit: audit the root again."
        return f"{whole}, as the runs tell. No audit has compared them yet."

    def aside(self):
        """What isn't carried and needn't be."""
        left = self.state.outside
        one = " {} folder was skipped that has no object of its own: read its cause below."
        more = " {} folders were skipped that have no object of their own: read their causes below."
        return many(left, one, more) if left else ""

    def open(self):
        """What is still to be done, each a part of the sentence."""
        state, report = self.state, self.report
        stopping, beside = self.told_by_checks()
        parts = (
            (sum(log.bad.count for log in report.logs), "{} line is none of a log", "{} lines are none of a log"),
            (sum(not log.is_whole() and not log.goes_on for log in report.logs), "{} log was cut short, and no later log goes on behind it",
             "{} logs were cut short, and no later log goes on behind them"),
            (len(state.missing), "{} folder is still missing in the root", "{} folders are still missing in the root"),
            (state.unlike, "{} object of the root is another than in the store", "{} objects of the root are others than in the store"),
            (report.twins.count, "{} identifier has several folders, of which one was carried",
             "{} identifiers have several folders, of which one each was carried"),
            (0 if report.twins.count else state.unknown, "{} folder is <code>present</code> or <code>alike</code> alone: the bytes at its place weren't compared",
             "{} folders are <code>present</code> or <code>alike</code> alone: the bytes at their places weren't compared"),
            (report.lacking.count - len(report.reasons), "{} path of the root is of nothing in the store",
             "{} paths of the root are of nothing in the store"),
            (len(report.unlisted), "{} folder of the root couldn't be listed whole", "{} folders of the root couldn't be listed whole"),
            (stopping, "the check told {} line of what would stop a run", "the check told {} lines of what would stop a run"),
            (beside, "the check told {} line of what a run skips, or what may surprise", "the check told {} lines of what a run skips, or what may surprise"),
            (self.broken(), "the last event has a fault or no end", ""),
        )
        return [many(count, one, more) for count, one, more in parts if count]

    def told_by_checks(self):
        """How many lines of checks tell of what would stop a run, and how many of anything else; none where a run was made."""
        told = [] if self.runs else [(log.kinds[kind], kind in STOPPING) for log in self.checks for kind in TROUBLES]
        return tuple(sum(count for count, stops in told if stops == which) for which in (True, False))

    def broken(self):
        """Whether the event that began last is of what a fault ended, or of what has no end."""
        return int(bool(self.events) and (self.events[-1]["fault"] or not self.events[-1]["ended"]))

    def named(self):
        """The stores, the destinations and the time from the first begin to the last end, as far as the events give them."""
        for name, key in (("Store", "source"), ("Destination", "dest")):
            words = sorted({event[key] for event in self.events} - {""})
            yield from [(name, words)] if words else []
        begins, ends = (sorted({event[key] for event in self.events} - {""}) for key in ("begin", "end"))
        yield from [("Begun", begins[:1])] if begins else []
        yield from [("Ended", ends[-1:])] if ends else []
