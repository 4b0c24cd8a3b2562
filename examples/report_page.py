"""The page that report.py writes: its style, its words and its sections.

Whatever comes from a log or an event, or is the name of one, goes through `told`, and so is escaped."""

import html
import shlex

from report_log import CLASSES
from report_verdict import Verdict
from report_words import ADVICE, HEAD, MEANINGS, OF_LIMIT, TAIL, TROUBLES, WHYS
from shown import shown


def told(text):
    """A text of a log, or the name of one, for the page. Letters that are written from right to left turn nothing but themselves."""
    return f'<bdi dir="ltr">{html.escape(shown(text))}</bdi>'


def in_units(size):
    """A number of bytes as the program tells it: with one decimal, not rounded up."""
    if size < 1000:
        return f"{size} B"
    power = min((len(str(size)) - 1) // 3, 6)
    whole, part = divmod(size * 10 // 1000**power, 10)
    return f"{whole:,}.{part} {' kMGTPE'[power]}B"


def power_of_ten(digits):
    """The least number of bytes with so many digits."""
    return f"{10 ** ((digits - 1) % 3)} {['B', 'kB', 'MB', 'GB', 'TB', 'PB', 'EB', 'ZB'][(digits - 1) // 3]}"


def between(digits):
    """The lengths with so many digits, by the least of them and the least that is longer; 0 has none."""
    return f"{power_of_ten(digits)} to {power_of_ten(digits + 1)}" if digits else "0 B"


def member(entry, name, kind=str):
    """A member of an event where it is there and of this kind; else an empty one."""
    value = entry.get(name)
    return value if isinstance(value, kind) else kind()


def number(value):
    """A number of an event, or nothing where it is none."""
    return f"{value:,}" if type(value) is int and value >= 0 else ""


def as_words(options):
    """The options of an event as words of a command: a flag that is set by its name alone, and one of several values once for each."""
    words = []
    for name, value in options.items():
        for it in value if isinstance(value, list) else [value]:
            if it is True:
                words.append(f"--{name}")
            elif isinstance(it, str) or type(it) is int:
                words.append(f"--{name} {shlex.quote(str(it))}")
    return " ".join(words)


def as_counts(lines):
    """The lines of an event, by kind."""
    return ", ".join(f"{number(count)} {kind}" for kind, count in lines.items() if number(count))


def lines_of(event):
    """The lines of an event, of a check only the kinds that there are."""
    lines = member(event, "lines", dict)
    return {kind: count for kind, count in lines.items() if count} if event.get("as") == "check" else lines


def as_fault(fault):
    """The fault of an event as standard error tells it, with the path and the reason where it has them."""
    what, text, path, reason = number(fault.get("number")), *(member(fault, key) for key in ("text", "path", "reason"))
    told_in = (": ".join(filter(None, pair)) for pair in ((what and f"fault {what}", text), (path, reason)))
    return "; ".join(filter(None, told_in))


def cells(*texts):
    return [f"<td>{text}</td>" for text in texts]


def numbers(*counts):
    return [f'<td class="n">{count:,}</td>' for count in counts]


def bar(count, counts, name):
    """A bar as long as its share of the longest."""
    drawn = f'<i class="{name}" style="width:{100 * count / max(counts):.2f}%"></i>' if count else ""
    return [f'<td class="bar" aria-hidden="true">{drawn}</td>']


def table(name, heads, rows, foot=()):
    """A table by its heads, of which those with a `#` before them stand over numbers, and its rows of cells."""
    head = "".join(f'<th class="n">{it[1:]}</th>' if it.startswith("#") else f"<th>{it}</th>" for it in heads)
    yield f'<div class="wide"><table id="{name}"><thead><tr>{head}</tr></thead>\n<tbody>\n'
    for row in rows:
        yield f"<tr>{''.join(row)}</tr>\n"
    yield f"</tbody>{''.join(['<tfoot><tr>', *foot, '</tr></tfoot>'] if foot else [])}</table></div>\n"


def so_many(count, what):
    """So many of these, as words."""
    return f"{count:,} {what}{'s' * (count != 1)}"


def how_ended(log):
    return "end line" if log.is_whole() else "cut short"


class Page:
    """The page of a report. Each section gives its text in pieces; `sections` has their order."""

    def __init__(self, report, guide):
        self.report, self.guide, self.several = report, guide, len(report.logs) > 1
        self.checks = [log for log in report.logs if log.is_check()]
        self.runs = [log for log in report.logs if log not in self.checks]
        self.kinds, self.causes, self.whys = map(report.total, ("kinds", "causes", "whys"))

    def pieces(self):
        paths = [log.path for log in self.report.logs] + self.report.recorded
        more = f" and {len(paths) - 10:,} more" if len(paths) > 10 else ""
        yield HEAD
        yield from self.verdict()
        yield f'<p class="soft">Of {", ".join(map(told, paths[:10]))}{more}.</p>\n'
        for section in self.sections():
            yield from section
        yield TAIL

    def verdict(self):
        """How it stands, in a sentence or two; and the stores and the dates, where events give them."""
        verdict = Verdict(self.report, self.runs, self.checks)
        good = ' class="good"' if verdict.is_good() else ""
        yield f'<p id="verdict"{good}>{verdict.text()}</p>\n'
        for name, values in verdict.named():
            yield f'<p class="named">{name}: {", ".join(map(told, values))}</p>\n'

    def sections(self):
        yield from (self.tiles(),) if self.runs else ()
        yield from (self.notes(), self.by_log()) if self.report.logs else ()
        yield from (self.events(), self.missing(), self.by_kind(), self.by_cause(), self.by_why(), self.by_size())
        yield from (self.skipped(), self.unlike(), self.lacking(), self.twins(), self.lost())
        yield from (self.by_check(), self.by_depth(), self.by_length(), self.by_trouble(), self.troubles())

    def link(self, heading, text):
        """A link to a heading of the guide."""
        return f'<a href="{html.escape(self.guide)}#{heading}">{text}</a>'

    def word(self, word):
        """A word of a log; a cause is a link to what the guide says of it, and so is a trouble of a check."""
        heading = word if word in ADVICE else "limit" if word in OF_LIMIT else "before" if word in TROUBLES else None
        return self.link(heading, word) if heading else word

    def tiles(self):
        """The numbers that are looked at first: of each folder what the last line that names it says."""
        state = self.report.state
        tiles = [
            (so_many(len(state.missing), "folder"), "still missing: skipped, or absent in the root"),
            (so_many(state.objects, "object"), "in the root: carried, or found the same"),
            (in_units(state.bytes), f"in {so_many(state.files, 'file')} of these objects"),
            (so_many(state.unlike, "object"), "of the root other than in the store"),
            (so_many(state.skipped, "folder"), "skipped, whatever the cause"),
            (so_many(self.report.twins.count, "identifier"), "of several folders"),
            (so_many(state.empty, "empty folder"), "of these objects not carried"),
        ]
        yield f'<ul class="tiles">\n{"".join(f"<li><b>{text}</b>{name}</li>" for text, name in tiles)}\n</ul>\n'
        yield "<p>These are of the last state: of each folder the last line that names it counts, and a <code>present</code> or <code>alike</code> line leaves "
        yield "what was known of it. A skip of <code>root</code> or <code>empty</code> names no object, so nothing is missing there. What stands below is "
        yield "added up over the logs.</p>\n"

    def notes(self):
        """What is odd about the logs."""
        notes = [f"<li>{told(log.path)} {note}</li>\n" for log in self.report.logs for note in self.notes_of(log)]
        good = '<p id="notes">Each log has its end line, and as many lines of each kind as that counts.</p>\n'
        yield f'<ul id="notes" class="notes">\n{"".join(notes)}</ul>\n' if notes else good

    def notes_of(self, log):
        if not log.is_whole():
            what = "the last line is a part of one" if log.part else "it has no end line" if log.at_end is None else "it has lines behind its end line"
            stopped, fault = self.link("stopping-it", "stopped"), self.link("after-a-fault", "a fault")
            yield f"was cut short: {what}. What wrote it was {stopped}, ended with {fault}, or is still under way."
        if log.uneven:
            yield "has other lines than its end line counts: several runs were written into it, or lines are lost."
        if log.bad.count:
            yield f"has lines that are none of a log, and are left out: {log.bad.count:,}. The first is line {log.bad.rows[0][0]:,}."

    def by_log(self):
        """The numbers of each log, and of all."""
        def sums(logs):
            return numbers(*(sum(getattr(log, name) for log in logs) for name in ("objects", "files", "bytes", "empty")))

        if not self.runs:
            return
        yield "<h2>Numbers</h2>\n<p>Objects are the lines that name one. Files, bytes and empty folders are those of done and same lines.</p>\n"
        heads = ["Log", "Of a", "Ends", "#Objects", "#Files", "#Bytes", "#Empty folders"]
        rows = (cells(told(log.path), log.what(), how_ended(log)) + sums([log]) for log in self.runs)
        several = len(self.runs) > 1
        yield from table("numbers", heads, rows, cells("added up", "", "") + sums(self.runs) if several else ())
        for name, title, meanings in (("kinds", "Lines of", MEANINGS), ("causes", "Skips of", ADVICE)) if several else ():
            words = [word for word in meanings if self.report.total(name)[word]]
            rows = (cells(told(log.path)) + numbers(*(getattr(log, name)[word] for word in words)) for log in self.runs)
            yield from table(f"{name}-by-log", [title, *("#" + word for word in words)], rows) if words else ()

    def by_check(self):
        """What each check met."""
        if self.checks:
            yield "<h2>Checks</h2>\n<p>What a check met, by its end line. Sites are the folders that identifiers lead to, with those on their way. Bytes are "
            yield "counted with <code>--read</code> alone. Renamed are objects whose own folder has another name than those of its site join to.</p>\n"
            heads = ["Log", "Ends", "#Lines", "#Sites", "#Objects", "#Renamed", "#Folders", "#Files", "#Bytes read", "#Largest object", "#Longest path"]
            yield from table("checks", heads, map(self.check, self.checks))

    @staticmethod
    def check(log):
        """The cells of a check; of one that was cut short what its lines tell."""
        keys = ("sites", "objects", "renamed", "folders", "files", "bytes", "largest", "longest")
        met = numbers(*(log.met.get(key, 0) for key in keys)) if log.is_whole() else ['<td class="n"></td>'] * len(keys)
        return cells(told(log.path), how_ended(log)) + numbers(sum(log.kinds.values())) + met

    def classes(self, first, second):
        """Of each check that ended the classes of which it counted some: the log, the class, and how many of the first and of the second there are."""
        for log in self.checks:
            for number in range(CLASSES[first]) if log.is_whole() else ():
                counts = [log.met.get(f"{word}_{number:02}", 0) for word in (first, second)]
                if any(counts):
                    yield log, number, *counts

    def by_depth(self):
        """How many sites lie at each depth, and into how many shares a store may be divided by the folders there: each wants some twenty."""
        found = [row for row in self.classes("sites_at", "objects_at") if row[1]]
        if found:
            yield "<h2>Depths</h2>\n<p>How many sites lie so deep below <code>pairtree_root</code>, and how many of them have an object; those that lie 32 deep or "
            yield "deeper are counted together. <code>--by-folders</code> a depth serves so many shares that each has some twenty sites there.</p>\n"
            names = {CLASSES["sites_at"] - 1: "32 or more"}
            rows = (self.log_of(log) + cells(names.get(it, it)) + numbers(sites, objects, sites // 20) for log, it, sites, objects in found)
            yield from table("depths", [*["Log"] * self.several, "Depth", "#Sites", "#Objects", "#Shares"], rows)

    def by_length(self):
        """How many files there are of each power of ten, and their bytes."""
        found = list(self.classes("files_of", "bytes_of"))
        if found:
            yield "<h2>Lengths of files</h2>\n<p>Of the files that a check with <code>--read</code> read, by their length; the upper bound isn't in it.</p>\n"
            rows = (self.log_of(log) + cells(between(it)) + numbers(files, size) for log, it, files, size in found)
            yield from table("lengths", [*["Log"] * self.several, "Length", "#Files", "#Bytes"], rows)

    def log_of(self, log):
        """The cell of a log, where there are several."""
        return cells(told(log.path)) * self.several

    def by_trouble(self):
        found = self.kinds if self.report.troubles.count else {}
        return self.counted("Troubles by kind", "troubles", ["Kind", "#Lines", "", "What to do"], {it: found[it] for it in TROUBLES if it in found}, TROUBLES)

    def troubles(self):
        title = "Told by a check: Paths are from the store's folder on; an empty one is that folder. The kind leads to what the guide says of it."
        heads = ["Path", "Kind", "Reason"]
        return self.listed("told", self.report.troubles, title, heads, lambda path, kind, why: cells(told(path), self.word(kind), told(why)))

    def events(self):
        """A row for each event: what was done, and how it ended."""
        if self.report.recorded:
            stopped, fault = self.link("stopping-it", "stopped"), self.link("after-a-fault", "What to do after a fault.")
            yield f"<h2>Events: {len(self.report.recorded):,}</h2>\n<p>What <code>--event</code> recorded. Without an end it was {stopped}, "
            yield f"is still under way, or couldn't record its end. {fault}</p>\n"
            heads = ["Event", "What", "SOURCE", "DEST", "Options", "Begin", "End", "#Status", "Lines", "#Files", "#Bytes", "Fault"]
            yield from table("events", heads, (self.event(*it) for it in self.report.events()))

    @staticmethod
    def event(path, event):
        """The cells of an event. What is unknown in it is left empty."""
        folders = [member(member(event, key, dict), "given") for key in ("source", "dest")]
        end = told(member(event, "end")) if "end" in event or not event else "no end"
        counted = [f'<td class="n">{number(event.get(key))}</td>' for key in ("status", "files", "bytes")]
        begun = cells(*map(told, (path, member(event, "as"), *folders, as_words(member(event, "options", dict)), member(event, "begin"))), end)
        lines, fault = (cells(told(text)) for text in (as_counts(lines_of(event)), as_fault(member(event, "fault", dict))))
        return begun + counted[:1] + lines + counted[1:] + fault

    def counted(self, title, name, heads, of, meanings):
        """A section with a bar for each of these words that a log has."""
        found = [word for word in meanings if of.get(word)]
        if found:
            yield f"<h2>{title}</h2>\n"
            yield from table(name, heads, (cells(self.word(it)) + numbers(of[it]) + bar(of[it], of.values(), it) + cells(meanings[it]) for it in found))

    def by_kind(self):
        return self.counted("Lines by kind", "kinds", ["Kind", "#Lines", "", "Meaning"], self.kinds, MEANINGS)

    def by_cause(self):
        return self.counted("Skips by cause", "causes", ["Cause", "#Folders", "", "What to do"], self.causes, ADVICE)

    def by_why(self):
        return self.counted("First differences", "whys", ["What", "#Objects", "", "Meaning"], self.whys, WHYS)

    def by_size(self):
        """A histogram by powers of ten: objects without bytes, those of one digit, of two, and so on."""
        of = self.report.state.sizes
        if of:
            yield "<h2>Sizes of objects</h2>\n<p>Of the objects in the root, each once, with the lengths of all files added up; "
            yield "the upper bound isn't in it.</p>\n"
            names = ((it, between(it)) for it in range(min(of), max(of) + 1))
            yield from table("sizes", ["Size", "#Objects", ""], (cells(name) + numbers(of[it]) + bar(of[it], of.values(), "size") for it, name in names))

    def listed(self, name, found, title, heads, row, listed=None):
        """A section with a list: its title with what is said below it, the cells of a row without its log, and how many it leaves out."""
        if found.count:
            head, _, text = title.partition(": ")
            yield f"<h2>{head}: {found.count:,}</h2>\n<p>{text}</p>\n"
            yield from table(name, heads + ["Log"] * self.several, (row(*it[:-1]) + cells(told(it[-1].path)) * self.several for it in found.rows))
            left = found.count - (len(found.rows) if listed is None else listed)
            isnt = "isn't" if left == 1 else "aren't"
            yield f"<p>{left:,} more {isnt} listed: <code>--limit</code> lists more here, <code>--csv</code> all lines.</p>\n" if left else ""

    def skipped(self):
        title = "Skipped folders: The cause leads to what the guide says of it."
        return self.listed("skipped", self.report.skipped, title, ["Folder", "Cause"], self.site)

    def missing(self):
        if not self.several:
            return ()
        title = """Still missing: The last log that names the folder skipped it, and no log has it as done, present or same, or one has it as absent since; or
the last log that names it tells it to be absent. Skips of <code>root</code> and <code>empty</code> name no object and aren't here. A folder that was renamed
or removed since stands here too, by the log that named it last. The lines of a rehearsal are those of a run: what it alone has as done
isn't told here, so leave its log out."""
        return self.listed("missing", self.report.missing, title, ["Folder", "Cause"], self.site)

    def site(self, at, cause):
        return cells(told(at) if at else "<code>pairtree_root</code> itself", self.word(cause))

    def unlike(self):
        title = f"Absent or different: The path is where the object first differs; without one it is the place itself. {self.link('after', 'What to do.')}"
        heads = ["Identifier", "Folder", "Place", "Path", "What"]
        return self.listed("unlike", self.report.unlike, title, heads, lambda *values: cells(*map(told, values)))

    def lacking(self):
        title = f"In the root alone: What stands in the root and the store lacks, and its folders that couldn't be listed whole. {self.link('after', 'What to do.')}"
        return self.listed("lacking", self.report.lacking, title, ["Identifier", "Place", "What"], lambda *values: cells(*map(told, values)))

    def twins(self):
        found = self.report.twins
        title = f"""Twins: Several folders of the store have names that give one identifier. One of them is carried; compare them by hand, and decide what
belongs together. {self.link('reading-the-log', 'What to do.')}"""
        listed = len({identifier for identifier, *_ in found.rows})
        return self.listed("twins", found, title, ["Identifier", "Folder", "Line"], lambda *values: cells(*map(told, values)), listed)

    def lost(self):
        title = f"""Objects with empty folders: OCFL has no place for folders that hold nothing, so these aren't carried.
{self.link('after', "What isn't carried.")}"""
        heads = ["Identifier", "Folder", "#Empty folders"]
        return self.listed("lost", self.report.lost, title, heads, lambda it, at, count: cells(told(it), told(at)) + numbers(count))
