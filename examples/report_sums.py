"""What report.py adds up of logs: the numbers of each, and what all of them say of each folder of the store."""

import bisect
import collections
from array import array

from report_log import ID_AT, KEYS, MEASURED, STANDS, entries, event_in, is_part, may_name
from report_words import TROUBLES


class Keys:
    """A set of hashes, in sorted arrays by their highest bits."""

    def __init__(self, parts):
        self.parts = [array("q", sorted(part)) for part in parts]

    def __len__(self):
        return sum(map(len, self.parts))

    def __contains__(self, key):
        part = self.parts[key >> 56 & 255]
        found = bisect.bisect_left(part, key)
        return found < len(part) and part[found] == key


class Twins:
    """The identifiers of a log and their folders, by hashes of eight and of four bytes: an identifier that has several folders is a twin.

    They stand in 256 arrays by their highest bits, so that the lines of one after another can be held against each other in little memory."""

    def __init__(self):
        self.parts = [(array("q"), array("I")) for _ in range(256)]

    def note(self, identifier, at):
        key = hash(identifier)
        keys, folders = self.parts[key >> 56 & 255]
        keys.append(key)
        folders.append(hash(at) & 0xFFFFFFFF)

    def found(self):
        """The hashes of the twins. A line that a second run wrote behind the first makes no twin."""
        return Keys(self.found_in(*part) if len(set(part[0])) < len(part[0]) else () for part in self.parts)

    @staticmethod
    def found_in(keys, folders):
        first = {}
        return {key for key, folder in zip(keys, folders) if first.setdefault(key, folder) != folder}


class Sites:
    """What the logs say of each site, in their order: for each line eight bytes, a hash of the site with what is said in its lowest bits; and of each
    object that was carried or found the same its bytes, files and empty folders."""

    SKIP, NOTHING, DONE, PRESENT, SAME, ABSENT, DIFFERS = range(7)
    # A quick audit looks into no file, so what is alike is no more than present.
    SAYS = {"done": DONE, "present": PRESENT, "alike": PRESENT, "same": SAME, "absent": ABSENT, "differs": DIFFERS}
    # These causes name no object that is wanting.
    OF_NONE = (b"root", b"empty")

    def __init__(self):
        self.parts = [(array("q"), array("d")) for _ in range(256)]

    def note(self, kind, values):
        """Takes note of a line, and gives the hash of its site."""
        key = self.key_of(kind, values[0])
        lines, numbers = self.parts[key >> 56 & 255]
        lines.append(key | (self.SAYS[kind] if kind != "skip" else self.NOTHING if values[1] in self.OF_NONE else self.SKIP))
        if kind in MEASURED:
            numbers.extend(map(float, values[1:4]))
        return key

    @staticmethod
    def key_of(kind, at):
        """The hash of the site of a line. An object's own folder has a name of three bytes or more and lies in the site; else it is the site itself."""
        above, _, name = at.rpartition(b"/")
        return hash(above if kind != "skip" and len(name) > 2 else at) & ~7

    def last(self):
        """The last state of all sites."""
        state = State()
        state.missing = Keys([self.take(state, *part) for part in self.parts])
        return state

    @classmethod
    def take(cls, state, lines, numbers):
        """Adds the last state of these sites, and gives the hashes of those that are still missing."""
        last, stands, carried, sizes, at = {}, {}, set(), {}, 0
        for said in lines:
            key, what = said & ~7, said & 7
            last[key] = what
            # A run looks into nothing that is present: what was known of it before is still all that is known.
            if what > cls.NOTHING and not (what == cls.PRESENT and stands.get(key, cls.ABSENT) != cls.ABSENT):
                stands[key] = what
            if what in (cls.DONE, cls.PRESENT, cls.SAME):
                carried.add(key)
            if what in (cls.DONE, cls.SAME):
                sizes[key], at = at, at + 3
        for key, what in stands.items():
            state.add(what, numbers[sizes[key] : sizes[key] + 3] if key in sizes else None)
        state.skipped += sum(what in (cls.SKIP, cls.NOTHING) for what in last.values())
        state.outside += sum(what == cls.NOTHING for what in last.values())
        stand = {key for key in carried if stands[key] != cls.ABSENT}
        return {key for key, what in last.items() if what == cls.ABSENT or what == cls.SKIP and key not in stand}


class State:
    """The last state of a store by its logs: of each site what was said last counts."""

    def __init__(self):
        self.objects = self.same = self.unknown = self.unlike = self.absent = self.skipped = self.outside = 0
        self.bytes = self.files = self.empty = 0
        self.sizes, self.missing = collections.Counter(), ()

    def add(self, what, numbers):
        """Adds an object: what was said of it last, and its numbers where a log has them."""
        self.unlike += what == Sites.DIFFERS
        self.absent += what == Sites.ABSENT
        if what in (Sites.DIFFERS, Sites.ABSENT):
            return
        if numbers is None:
            self.unknown += 1
            return
        size, empty, files = map(int, numbers)
        self.objects += 1
        self.same += what == Sites.SAME
        self.bytes += size
        self.empty += empty
        self.files += files
        self.sizes[len(str(size)) if size else 0] += 1


class Rows:
    """The first rows of a list, and how many there are in all."""

    def __init__(self, most):
        self.most, self.count, self.rows = most, 0, []

    def add(self, *row):
        self.count += 1
        if len(self.rows) < self.most:
            self.rows.append(row)


class Log:
    """The numbers of a log, and what is odd about it."""

    def __init__(self, path):
        self.path = path
        self.kinds, self.causes, self.whys = (collections.Counter() for _ in range(3))
        self.objects = self.files = self.bytes = self.empty = 0
        self.met, self.last, self.goes_on = None, None, False
        self.bad, self.part, self.ended_as, self.at_end, self.uneven = Rows(20), False, set(), None, False

    def refuse(self, number, line):
        """Takes note of a line that is none of a log. The part of one at the end isn't odd, where a run was cut short."""
        if is_part(line):
            self.part = True
        else:
            self.bad.add(number)

    def end(self, what, told):
        """Takes an end line, which tells how many lines of each kind there are since the one before."""
        since = self.kinds - (self.at_end or collections.Counter())
        if what == "check":
            self.met = told
            self.uneven = self.uneven or sum(since.values()) != told["told"]
            told = {kind: told.get(kind, 0) for kind in TROUBLES}
        self.uneven = self.uneven or since != +collections.Counter(told)
        self.ended_as.add(what)
        self.at_end = self.kinds.copy()

    def is_whole(self):
        """Whether its last line is an end line."""
        return self.at_end == self.kinds and not self.part

    def what(self):
        """What it is the log of, by its lines."""
        kinds = {"run": ("done", "present"), "audit": ("same", "alike", "absent", "differs", "extra", "stray"), "check": tuple(TROUBLES)}
        found = [what for what in kinds if what in self.ended_as or any(self.kinds[kind] for kind in kinds[what])]
        return " and ".join(found).replace("run", "run or rehearsal") or "not told by its lines"

    def is_check(self):
        """Whether it is the log of a check, and of nothing else."""
        return self.what() == "check"


class Report:
    """What is on the page. The logs are read up to three times, and the events twice, so that little has to be held."""

    def __init__(self, paths, recorded, most):
        self.logs, self.recorded, self.most = [Log(path) for path in paths], recorded, most
        self.skipped, self.unlike, self.lacking, self.lost, self.twins, self.missing, self.troubles = (Rows(most) for _ in range(7))
        # Of the folders of the root that couldn't be listed whole, and of each with a reason, the hashes.
        self.unlisted, self.reasons = set(), set()
        sites, cut = Sites(), {}
        twins = Keys(set().union(*parts) for parts in zip(*[self.read(log, sites, cut).parts for log in self.logs]))
        if twins:
            self.find_twins(twins)
        self.state = sites.last()
        self.missing.count = len(self.state.missing)
        if len(paths) > 1:
            self.find_missing(self.state.missing)

    def read(self, log, sites, cut):
        """Takes the lines of a log, and gives the hashes of its twins. `cut` has the logs before that were cut short, by the site that each named last."""
        twins, met = Twins(), set()
        for kind, values in entries(log.path, log.refuse):
            if kind == "end":
                log.end(*values)
                continue
            log.kinds[kind] += 1
            if kind == "skip" or kind in ID_AT:
                log.last = sites.note(kind, values)
                met.update([log.last] if log.last in cut else [])
            self.take(log, kind, values, twins)
        log.objects = sum(log.kinds[kind] for kind in ID_AT)
        if log.is_whole():
            for other in (it for key in met for it in cut[key]):
                other.goes_on = True
        elif log.last is not None:
            cut.setdefault(log.last, []).append(log)
        return twins.found()

    def take(self, log, kind, values, twins):
        """Takes a line that is no end line."""
        if kind == "skip":
            self.take_skip(log, *values)
        elif kind in TROUBLES:
            self.troubles.add(values[0], kind, b"".join(values[1:]), log)
        elif kind not in ID_AT:
            self.take_extra(kind, *values, log)
        else:
            twins.note(values[ID_AT[kind]], values[0])
            if kind in MEASURED:
                self.take_object(log, *values)
            elif kind not in ("present", "alike"):
                self.take_unlike(log, dict(zip(KEYS[kind], values)))

    def take_extra(self, kind, said, place, log):
        """Takes a line of what the store lacks: an object with its identifier, or what is stray. A folder that couldn't be listed has its reason;
        each share tells it, so it counts once."""
        if kind == "extra" or not said:
            self.lacking.add(said, place, kind, log)
        elif hash((place, said)) not in self.reasons:
            self.reasons.add(hash((place, said)))
            self.unlisted.add(hash(place))
            self.lacking.add(b"", place or b".", b"stray: " + said, log)

    def take_skip(self, log, at, cause):
        cause = cause.decode()
        log.causes[cause] += 1
        self.skipped.add(at, cause, log)

    def take_object(self, log, at, size, empty, files, identifier, place):
        log.bytes += int(size)
        log.files += int(files)
        if empty != b"0":
            log.empty += int(empty)
            self.lost.add(identifier, at, int(empty), log)

    def take_unlike(self, log, entry):
        why = entry.get("why", b"").decode()
        log.whys.update([why] if why else [])
        self.unlike.add(entry["id"], entry["at"], entry["to"], entry.get("path", b""), why or "absent", log)

    def find_twins(self, twins):
        """Looks up the identifiers of these hashes. Of a folder that several lines name the last is told."""
        found = {}
        for log in self.logs:
            for kind, values in entries(log.path, wanted=lambda line: may_name(line, twins)):
                identifier = values[ID_AT[kind]] if kind in ID_AT else None
                if identifier is not None and hash(identifier) in twins and (identifier in found or len(found) < self.most):
                    found.setdefault(identifier, {})[values[0]] = (kind, log)
        for identifier, folders in found.items():
            self.twins.rows += [(identifier, at, *row) for at, row in folders.items() if len(folders) > 1]
        self.twins.count = len(twins)

    def find_missing(self, missing):
        """Looks up the sites of these hashes, each with its last cause."""
        found = {}
        for log in self.logs if missing else ():
            for kind, values in entries(log.path, wanted=lambda line: not line.startswith(STANDS)):
                if kind in ("skip", "absent") and Sites.key_of(kind, values[0]) in missing:
                    key, cause = Sites.key_of(kind, values[0]), values[1].decode() if kind == "skip" else kind
                    if key in found or len(found) < self.most:
                        found[key] = (values[0], cause, log)
        self.missing.rows = list(found.values())

    def events(self):
        """The path of each event and what it tells: nothing, where its file was changed since."""
        for path in self.recorded:
            yield path, event_in(path) or {}

    def total(self, name):
        """The numbers of this name, added up over all logs."""
        return sum((getattr(log, name) for log in self.logs), collections.Counter())
