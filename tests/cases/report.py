"""Tests of examples/report.py: its page and its table, over logs that the tests write and over those of the program, held against values worked out
by hand."""

import ast
import collections
import csv
import html.parser
import io
import json
import os
import re
import subprocess
import sys

import documents
import stores
from alone import Alone, differs, run
from stores import DIR, Link, build, done, lines, present, skip, whole_log

TOP = os.path.dirname(os.path.dirname(os.path.dirname(os.path.abspath(__file__))))
SCRIPT = f"{TOP}/examples/report.py"
CAUSES = ("root", "empty", "split", "past", "name", "utf8", "other", "limit", "reserved")


def report(folder, *words, script=SCRIPT, **options):
    """What the script answers: its status, what it wrote and what it said; a traceback is never one of these."""
    options = {"stdout": subprocess.PIPE, **options}
    ended = subprocess.run([sys.executable, "-B", script, *words], cwd=folder, stderr=subprocess.PIPE, timeout=240, **options)
    said = ended.stderr.decode(errors="replace")
    if "Traceback" in said:
        raise OSError(said)
    return ended.returncode, ended.stdout or b"", said


class Page(html.parser.HTMLParser):
    """A page, read: the rows of its tables by their ids, its headings, its notes, its links and its tags with their attributes."""

    def __init__(self, text):
        super().__init__()
        self.tables, self.links, self.tags, self.texts = {}, [], [], collections.defaultdict(list)
        self.rows, self.cell, self.within = None, False, []
        self.feed(text.decode())
        self.notes, self.headings, self.tiles = ([text.strip() for text in self.texts[tag]] for tag in ("notes", "h2", "tiles"))

    def handle_starttag(self, tag, attributes):
        attributes = dict(attributes)
        self.tags.append((tag, attributes))
        self.links += [attributes["href"]] if "href" in attributes else []
        if tag == "table":
            self.rows = self.tables[attributes["id"]] = []
        elif tag == "tr":
            self.rows.append([])
        elif tag in ("td", "th"):
            self.rows[-1].append("")
            self.cell = True
        elif tag in ("ul", "h2", "li", "p"):
            self.within = [attributes.get("id") or attributes.get("class") or tag] if tag != "li" else self.within[:1]
            self.texts[self.within[0]].append("")

    def handle_endtag(self, tag):
        self.cell = self.cell and tag not in ("td", "th")
        if tag == "table":
            self.within = []

    def handle_data(self, data):
        if self.cell:
            self.rows[-1][-1] += data
        elif self.within:
            self.texts[self.within[0]][-1] += data

    def table(self, name):
        """The rows of a table without its heads, and without the cells of bars."""
        heads, *rows = self.tables.get(name, [[]])
        return [[text for head, text in zip(heads, row) if head] for row in rows]


def page(folder, *words):
    """The page of these words, and what the script said with its status."""
    status, text, said = report(folder, *words)
    return Page(text), (status, said)


def logs(folder, **texts):
    """Writes logs, and gives their names."""
    build(folder, {f"{name}.log": text for name, text in texts.items()})
    return [f"{name}.log" for name in texts]


def sized(at, identifier, size, files=1, empty=0, kind="done"):
    """The line of an object that has so many bytes."""
    return {**done(at, identifier, {}), "as": kind, "bytes": size, "files": files, "empty": empty}


def absent(at, identifier):
    return {**present(at, identifier), "as": "absent"}


def unlike(at, identifier, path, why):
    return {**present(at, identifier), "as": "differs", "path": path, "why": why}


def whole_audit(*entries):
    """The log of an audit that ends."""
    counts = collections.Counter(entry["as"] for entry in entries)
    fitting = "alike" if counts["alike"] else "same"
    return lines(*entries, {"as": "end", **{kind: counts[kind] for kind in ("absent", "differs", fitting, "skip")}})


RUN = (
    skip("", "root"),
    sized("aa/obj", "aa", 0, files=0, empty=1),
    sized("ab/obj", "ab", 9),
    sized("ac/obj", "ac", 10, files=3),
    sized("ad/obj", "ad", 99, files=20, empty=2),
    sized("ae/obj", "ae", 1234567, files=1000),
    present("a^65/obj", "ae"),
    skip("sp/li", "split"),
    skip("sp/l2", "split"),
    skip("ot/he", "other"),
)
TWINS = [["ae", "ae/obj", "done"], ["ae", "a^65/obj", "present"]]


# The least event that there is.
EVENT = {"as": "run", "begin": "2024-05-01T12:00:00Z", "dest": {"given": "d"}, "options": {}, "source": {"given": "s"}}


def one_run(program, folder):
    """The numbers of one log, by kind, by cause and by size; its skipped folders, twins and lost folders; and nothing that isn't asked of one."""
    found, said = page(folder, *logs(folder, run=whole_log(*RUN)))
    numbers = [["run.log", "run or rehearsal", "end line", "6", "1,024", "1,234,685", "3"]]
    causes = [row[:2] for row in found.table("causes")]
    sizes = [["0 B", "1"], ["1 B to 10 B", "1"], ["10 B to 100 B", "2"], ["100 B to 1 kB", "0"], ["1 kB to 10 kB", "0"], ["10 kB to 100 kB", "0"]]
    skipped = [["pairtree_root itself", "root"], ["sp/li", "split"], ["sp/l2", "split"], ["ot/he", "other"]]
    return differs(
        said=(said, (0, "")),
        numbers=(found.table("numbers"), numbers),
        kinds=([row[:2] for row in found.table("kinds")], [["done", "5"], ["present", "1"], ["skip", "4"]]),
        causes=(causes, [["root", "1"], ["split", "2"], ["other", "1"]]),
        sizes=(found.table("sizes"), [*sizes, ["100 kB to 1 MB", "0"], ["1 MB to 10 MB", "1"]]),
        skipped=(found.table("skipped"), skipped),
        twins=(found.table("twins"), TWINS),
        lost=(found.table("lost"), [["aa", "aa/obj", "1"], ["ad", "ad/obj", "2"]]),
        tables=(sorted(found.tables), sorted(["numbers", "kinds", "causes", "sizes", "skipped", "twins", "lost"])),
        headings=(found.headings[-3:], ["Skipped folders: 4", "Twins: 1", "Objects with empty folders: 2"]),
        tiles=([text for text in found.tiles if text][2], "1.2 MBin 1,024 files of these objects"),
        notes=(found.notes, ["Each log has its end line, and as many lines of each kind as that counts."]),
        widths=(widths(found, "i"), ["100.00%", "20.00%", "80.00%", "50.00%", "100.00%", "50.00%", "50.00%", "50.00%", "100.00%", "50.00%"]),
    )


def widths(found, tag):
    """How wide the bars of a page are."""
    return [attributes["style"].replace("width:", "") for name, attributes in found.tags if name == tag]


def one_audit(program, folder):
    """An audit's log: what is the same, what is absent and what differs, with its path and by its kinds."""
    entries = [sized("aa/obj", "aa", 5, kind="same"), absent("ab/obj", "ab"), unlike("ac/obj", "ac", "v1/content/a", "bytes")]
    entries += [unlike("ad/obj", "ad", "", "kind"), unlike("ae/obj", "ae", "v1/x", "bytes"), skip("af", "empty"), unlike("a^67/obj", "ag", "v1/y", "twin")]
    found, said = page(folder, *logs(folder, audit=whole_audit(*entries)))
    row = ["audit.log", "audit", "end line", "6", "1", "5", "0"]
    rest = [["v1/content/a", "bytes"], ["", "kind"], ["v1/x", "bytes"]]
    wanted = [["ab", "ab/obj", stores.place("ab"), "", "absent"]]
    wanted += [[name, f"{name}/obj", stores.place(name), *it] for name, it in zip(("ac", "ad", "ae"), rest)]
    wanted += [["ag", "a^67/obj", stores.place("ag"), "v1/y", "twin"]]
    whys = [row[:2] for row in found.table("whys")]
    faults = differs(said=(said, (0, "")), numbers=(found.table("numbers"), [row]), unlike=(found.table("unlike"), wanted))
    return faults + differs(whys=(whys, [["kind", "1"], ["bytes", "2"], ["twin", "1"]]))


def one_audit_with_extras(program, folder):
    """An audit's log with what the root has and the store lacks, which are no objects of the store; and its table."""
    denied, bad = "Permission denied (os error 13)", "a name in it is not UTF-8: caf\\xe9"
    unlisted = [{"as": "stray", "reason": denied, "to": "x"}, {"as": "stray", "reason": bad, "to": "y"}]
    entries = [sized("aa/obj", "aa", 5, kind="same"), {"as": "extra", "id": "ab", "to": stores.place("ab")}, {"as": "stray", "to": "a b"}, *unlisted]
    counts = {"absent": 0, "differs": 0, "extra": 1, "same": 1, "skip": 0, "stray": 3}
    names = logs(folder, audit=lines(*entries, {"as": "end", **counts}))
    found, said = page(folder, *names)
    lacking = [["ab", stores.place("ab"), "extra"], ["", "a b", "stray"], ["", "x", f"stray: {denied}"], ["", "y", "stray: " + bad.replace("\\", "\\\\")]]
    faults = differs(said=(said, (0, "")), numbers=(found.table("numbers"), [["audit.log", "audit", "end line", "1", "1", "5", "0"]]))
    faults += differs(lacking=(found.table("lacking"), lacking), notes=(found.notes, ["Each log has its end line, and as many lines of each kind as that counts."]))
    share = lines(*({**entry, "to": to} for entry in unlisted for to in ("", "x")), {"as": "end", **counts, "extra": 0, "same": 0, "stray": 4})
    shares, _ = page(folder, *logs(folder, one=share, two=share))
    wanted = [["", to, f"stray: {why}", "one.log"] for why in (denied, bad.replace("\\", "\\\\")) for to in (".", "x")]
    open_parts = re.findall(r"\d+ folders of the root[^,.;]*", "".join(shares.texts["verdict"]))
    faults += differs(shares=((shares.table("lacking"), open_parts), (wanted, ["2 folders of the root couldn't be listed whole"])))
    again, _ = page(folder, *names, *logs(folder, run=whole_log(skip("ab", "split"))))
    faults += differs(missing=(again.table("missing"), [["ab", "split", "run.log"]]))
    made = list(csv.DictReader(io.StringIO(report(folder, "--csv", *names)[1].decode())))
    rows = [(row["as"], row["id"], row["to"], row["at"], row["reason"]) for row in made[1:]]
    strays = [("stray", "", "a b", "", ""), ("stray", "", "x", "", denied), ("stray", "", "y", "", bad)]
    return faults + differs(table=(rows, [("extra", "ab", stores.place("ab"), "", ""), *strays]))


def of_the_program(program, folder):
    """Over logs of the program: a rehearsal, a run, a second run by which a skip is mended, and an audit."""
    twin = {"^5/Cx/obj/f": b"12", "^5/cx/obj/f": b"12"}
    build(f"{folder}/s/pairtree_root", {**twin, "ab/c/obj/e": DIR, "A/obj/f": b"", "ot/he/obj/link": Link("f"), "sp/li/f": b"1", "README": b"1"})
    texts = {"rehearsal": run(program, folder, "-n").stdout, "first": run(program, folder).stdout, "second": run(program, folder, "--gather").stdout}
    texts["audit"] = subprocess.run([program, "audit", "--gather", "s", "d"], cwd=folder, capture_output=True, timeout=120).stdout
    names = logs(folder, **texts)
    found, said = page(folder, *names)
    ends = [json.loads(text.splitlines()[-1]) for text in texts.values()]
    told = [row[1:] for row in found.table("kinds-by-log")]
    missing = [["ot/he", "other", "audit.log"]]
    folders = sorted(row[1] for row in found.table("twins"))
    faults = differs(said=(said, (0, "")), missing=(found.table("missing"), missing), twins=(folders, ["^5/Cx/obj", "^5/cx/obj"]))
    heads = found.tables["kinds-by-log"][0][1:]
    faults += differs(kinds=(told, [[str(end.get(kind, 0)) for kind in heads] for end in ends]), heads=(heads, ["done", "present", "same", "skip"]))
    causes = [["rehearsal.log", "1", "1", "1"], ["first.log", "1", "1", "1"], ["second.log", "1", "0", "1"], ["audit.log", "1", "0", "1"]]
    return faults + differs(causes=(found.table("causes-by-log"), causes))


def cut_short(program, folder):
    """A log without an end line, with lines behind it, or with a part of a line at its end is told to be cut short; one whose counts are others, too."""
    line = stores.text_of(done("aa/obj", "aa", {"f": b"1"}))
    whole, end = whole_log(*RUN), "cut short: it has no end line"
    for text, part in {
        b"": end,
        lines(*RUN): end,
        whole + lines(RUN[0]): "cut short: it has lines behind its end line",
        whole + line[:1]: "cut short: the last line is a part of one",
        whole[:-5]: "cut short: the last line is a part of one",
        lines(*RUN) + line[:-1]: "cut short: the last line is a part of one",
        lines(*RUN) + line: end,
    }.items():
        found, said = page(folder, *logs(folder, log=text))
        faults = differs(**{f"{text[-30:]}": ((said, len(found.notes[1:]), part in found.notes[-1]), ((0, ""), 1, True))})
        if faults + differs(row=(found.table("numbers")[0][2], "cut short")):
            return faults
    found, said = page(folder, *logs(folder, several=lines(RUN[1]) + whole))
    faults = differs(several=((said, found.table("numbers")[0][2], "several runs" in found.notes[-1]), ((0, ""), "end line", True)))
    found, said = page(folder, *logs(folder, twice=whole + whole))
    faults += differs(twice=((said, found.notes), ((0, ""), ["Each log has its end line, and as many lines of each kind as that counts."])))
    return faults + differs(twins=(found.table("twins"), TWINS))


BAD = [
    b"",
    b"pairtree2ocfl: fault 2: cannot write the destination",
    b"[]",
    b"1",
    b"[" * 5000,
    b'{"as":"done"}',
    b'{"as":["done"]}',
    b'{"as":"skip","at":"a"}',
    b'{"as":"skip","at":"a","cause":"other","more":1}',
    b'{"as":"skip","at":"a","cause":"none"}',
    b'{"as":"skip","at":"a","cause":["root"]}',
    b'{"as":"skip","at":"\xff","cause":"root"}',
    b'{"as":"skip","at":"\\ud800","cause":"root"}',
    b'{"as":"skip","at":"\t","cause":"root"}',
    b'{"as":"skip","at":"","cause":"root"} ,',
    b'{"as":"end","done":1}',
    b'{"as":"end","done":-1,"present":0,"skip":0}',
    b'{"as":"end","done":true,"present":0,"skip":0}',
]


def bad_lines(program, folder):
    """Each line that is none of a log is named by file and number, with status 1; the rest is on the page, and the page says so. The table does the same."""
    good = stores.text_of(RUN[2])
    names = logs(folder, good=whole_log(RUN[2]), bad=b"".join(good + b"\n" + text + b"\n" for text in BAD))
    told = "".join(f"report.py: bad.log:{2 * number + 2}: it is no line of a log\n" for number in range(len(BAD)))
    found, said = page(folder, *names)
    note = f"bad.log has lines that are none of a log, and are left out: {len(BAD)}. The first is line 2."
    faults = differs(page=((said, found.notes[-1], found.table("numbers")[1][3]), ((1, told), note, str(len(BAD)))))
    status, text, said = report(folder, "--csv", *names)
    faults += differs(table=((status, said, text.count(b"\r\n")), (1, told, len(BAD) + 2)))
    status, _, said = report(folder, *logs(folder, many=b"x\n" * 25))
    return faults + differs(many=((status, said.count("no line"), said.splitlines()[-1]), (1, 20, "report.py: many.log: 5 more lines are none of a log")))


def by_json(program, folder):
    """Lines in another form of JSON, with the same values, give the same page."""
    audit = whole_audit(sized("é/a\n", 'q"\\', 5, kind="same"), unlike("ac/obj", "ac", "v1/content/\x7f", "bytes"))
    for number, text in enumerate((whole_log(*RUN), audit)):
        entries = [json.loads(line) for line in text.splitlines()]
        other = b"".join(json.dumps(dict(reversed(list(entry.items())))).encode() + b"\r\n" for entry in entries)
        texts = []
        for it in (text, other):
            texts.append(report(folder, *logs(folder, log=it)) + report(folder, "--csv", "log.log"))
        if differs(**{str(number): (texts[1], texts[0])}):
            return differs(**{str(number): (texts[1], texts[0])})
    return differs(status=(texts[0][0], 0))


def twins(program, folder):
    """Twins are identifiers of several folders of one log: neither a line that was written twice, nor one that another log has, nor a folder renamed since."""
    first = lines(present("a/obj", "one"), done("b/obj", "two", {}), present("b^/obj", "two"), done("c/obj", 'th"ree', {}), present("d/obj", "four"))
    first += lines(present("a/obj", "one"), present("c^/obj", 'th"ree'), present("c^^/obj", 'th"ree'))
    second = lines(present("a/obj", "one"), present("d2/obj", "four"), present("b^/obj", "two"))
    found, said = page(folder, *logs(folder, first=first, second=second))
    wanted = [["two", "b/obj", "done", "first.log"], ["two", "b^/obj", "present", "second.log"]]
    wanted += [['th"ree', f"{it}/obj", kind, "first.log"] for it, kind in (("c", "done"), ("c^", "present"), ("c^^", "present"))]
    faults = differs(said=(said, (0, "")), twins=(found.table("twins"), wanted), heading=("Twins: 2" in found.headings, True))
    spelled = [done("a/obj", 'q"x', {}), present("b/obj", 'q"x'), present("c/obj", "z"), present("d/obj", "z"), present('e/,"id":"z', "w")]
    texts = [json.dumps(entry) if number % 2 else stores.text_of(entry).decode() for number, entry in enumerate(spelled)]
    texts.append(texts[0].replace("a/obj", "f/obj").replace('"id":"q', '"id":"\\u0071'))
    found, said = page(folder, *logs(folder, spelled="\n".join(texts).encode()))
    rows = [row[:2] for row in found.table("twins")]
    return faults + differs(spelled=((said, rows), ((0, ""), [['q"x', "a/obj"], ['q"x', "b/obj"], ['q"x', "f/obj"], ["z", "c/obj"], ["z", "d/obj"]])))


def escaped(program, folder):
    """What comes from a log, or is a log's name, is text on the page; what can't be seen, or turns the direction of the text, is shown by its number."""
    names = {
        "<script>alert(1)</script>": "<script>alert(1)</script>",
        "&lt;\"'": "&lt;\"'",
        "a\nb\x00\x7f\x9b": "a\\u{a}b\\u{0}\\u{7f}\\u{9b}",
        "\u202eabc\u2066\u200f\u061c": "\\u{202e}abc\\u{2066}\\u{200f}\\u{61c}",
        "\ufeff\xa0\u2028\u200b\U000e0041": "\\u{feff}\\u{a0}\\u{2028}\\u{200b}\\u{e0041}",
        "\\u{a}": "\\\\u{a}",
        "שלום é 中": "שלום é 中",
        " two  blanks ": "\\u{20}two  blanks\\u{20}",
    }
    entries = [sized(f"{number:02}/obj", name, 1, empty=1) for number, name in enumerate(names)]
    entries += [present(f"{number:02}^/obj{name}", name) for number, name in enumerate(names)] + [skip(name, "split") for name in names]
    build(folder, {"<b>\u202e.log": lines(*entries)})
    status, text, said = report(folder, "<b>\u202e.log")
    found, shown = Page(text), list(names.values())
    # Behind other letters a blank is seen.
    inside = [f"{number:02}^/obj{name}".replace("obj\\u{20}", "obj ") for number, name in enumerate(shown)]
    tags = set("html head meta title style body h1 h2 p ul li b div table thead tbody tr th td i a bdi code footer".split())
    raw = [it for it in text.decode() if not it.isprintable() and it != "\n"]
    return differs(
        said=((status, said), (0, "")),
        lost=([row[0] for row in found.table("lost")], shown),
        skipped=([row[0] for row in found.table("skipped")], shown),
        twins=([row[1] for row in found.table("twins")][1::2], inside),
        log=(found.table("numbers")[0][0], "<b>\\u{202e}.log"),
        tags=({tag for tag, _ in found.tags} - tags, set()),
        raw=(raw, []),
    )


def alone(program, folder):
    """The page loads nothing and has no script: it has links to the guide alone."""
    names = logs(folder, run=whole_log(*RUN), event=stores.text_of(EVENT))
    found, _ = page(folder, *names, "--guide", 'https://example.org/guide?a="&b')
    kinds = {(tag, name) for tag, attributes in found.tags for name in attributes if name in ("src", "href", "action", "data") or name.startswith("on")}
    policy = [attributes["content"] for tag, attributes in found.tags if tag == "meta" and attributes.get("http-equiv") == "Content-Security-Policy"]
    faults = differs(kinds=(kinds, {("a", "href")}), policy=(policy, ["default-src 'none'; style-src 'unsafe-inline'"]))
    return faults + differs(guide=({link.split("#")[0] for link in found.links}, {'https://example.org/guide?a="&b'}))


def guided(program, folder):
    """Each link leads to a heading of the guide that is there, from where the page stands; also where the script is installed."""
    entries = [skip(f"s{number}", cause) for number, cause in enumerate(CAUSES)] + [sized("a/obj", "a", 1, empty=1), present("b/obj", "a"), absent("c/obj", "c")]
    logs(folder, run=lines(*entries), event=stores.text_of(EVENT))
    os.makedirs(f"{folder}/some where/else")
    subprocess.run(["sh", f"{TOP}/tools/install.sh", program, f"{folder}/root/usr"], check=True, capture_output=True, timeout=120)
    subprocess.run(["sh", f"{TOP}/tools/install.sh", program, f"{folder}/archive", "."], check=True, capture_output=True, timeout=120)
    faults, headings = [], documents.heading_ids("docs/GUIDE.md")
    installed, archived = (f"{folder}/{name}/share/pairtree2ocfl/report.py" for name in ("root/usr", "archive"))
    guides = {SCRIPT: f"{TOP}/docs", installed: f"{folder}/root/usr/share/doc/pairtree2ocfl/docs", archived: f"{folder}/archive/docs"}
    for script, guide in guides.items():
        faults += differs(written=(report(folder, "run.log", "event.log", "-o", "some where/else/report.html", script=script), (0, b"", "")))
        with open(f"{folder}/some where/else/report.html", "rb") as file:
            links = [it.replace("%20", " ").split("#") for it in Page(file.read()).links]
        faults += differs(guides=({os.path.realpath(f"{folder}/some where/else/{path}") for path, _ in links}, {os.path.realpath(f"{guide}/GUIDE.md")}))
        faults += differs(headings=({it for _, it in links} - headings, set()), causes=(set(CAUSES) <= {it for _, it in links}, True))
    return faults + differs(left=([name for name in os.listdir(os.path.dirname(installed)) if "cache" in name], []))


def as_table(program, folder):
    """The table of RFC 4180 has a line for each of the logs' but the end lines, with the same values, below one that names its columns."""
    entries = [*RUN, done("q/obj", 'a"b,c\r\nd', {"f": b"1"}), done("é/obj", "=1+1", {"f": b""})]
    audited = [absent("ab/obj", "ab"), unlike("ac/obj", "ac", "v1/content/a, b", "bytes")]
    names = logs(folder, run=whole_log(*entries), audit=whole_audit(*audited))
    status, text, said = report(folder, "--csv", *names)
    heads, *rows = csv.reader(io.StringIO(text.decode(), newline=""), strict=True)
    wanted = [("run.log", entry) for entry in entries] + [("audit.log", entry) for entry in audited]
    faults = differs(heads=(heads, ["log", "as", "at", "id", "to", "files", "bytes", "empty", "cause", "path", "why", "reason"]), said=((status, said), (0, "")))
    faults += differs(rows=(rows, [[name, *(str(entry.get(head, "")) for head in heads[1:])] for name, entry in wanted]))
    faults += differs(ends=(text.replace(b'"a""b,c\r\nd"', b"").count(b"\r\n"), len(rows) + 1), feeds=(text.count(b"\n"), text.count(b"\r\n")))
    return faults + differs(file=((report(folder, "--csv", *names, "-o", "run.csv"), open(f"{folder}/run.csv", "rb").read()), ((0, b"", ""), text)))


def limited(program, folder):
    """Each list ends after so many lines and says how many more there are; the numbers are of all."""
    names = [f"{number:02}" for number in range(20)]
    entries = [skip(name, "name") for name in names] + [sized(f"{name}/obj", f"i{name}", 1, empty=1) for name in names]
    entries += [present(f"{name}^/obj", f"i{name}") for name in names] + [absent(f"x{name}/obj", name) for name in names]
    logs(folder, run=lines(*entries), other=lines(skip("zz", "name")))
    found, _ = page(folder, "run.log", "other.log", "--limit", "6")
    counts = {name: len(found.table(name)) for name in ("skipped", "lost", "twins", "unlike", "missing")}
    faults = differs(rows=(counts, {"skipped": 6, "lost": 6, "twins": 12, "unlike": 6, "missing": 6}))
    faults += differs(heads=(found.headings[-4:], ["Skipped folders: 21", "Absent or different: 20", "Twins: 20", "Objects with empty folders: 20"]))
    more = [text.split()[0] for text in found.texts["p"] if "aren't listed" in text]
    faults += differs(missing=(found.headings[1], "Still missing: 21"), more=(more, ["15", "15", "14", "14", "14"]))
    found, said = page(folder, "run.log", "--limit", "0")
    return faults + differs(none=((said, found.table("skipped"), "Twins: 20" in found.headings), ((0, ""), [], True)))


def refused(program, folder):
    """Wrong words, a log that isn't a file or isn't there, and an output that fails or is a log are refused with status 2, and a log is never written over."""
    logs(folder, run=whole_log(*RUN), event=stores.text_of(EVENT))
    build(folder, {"fifo": stores.FIFO, "folder": DIR, "link.log": Link("run.log")})
    before, faults = stores.read_tree(folder), []
    for words, part in {
        (): "usage: report.py",
        ("--limit", "-1", "run.log"): "usage: report.py",
        ("--limit", "x", "run.log"): "usage: report.py",
        ("--guid", "x", "run.log"): "usage: report.py",
        ("--limit", "\u202e9", "run.log"): r"report.py: error: argument --limit: '\u{202e}9' is no number" + "\n",
        ("--\x1b[2J\udce9", "run.log"): r"report.py: error: unrecognized arguments: --\u{1b}[2J\xe9" + "\n",
        ("--guide", "a\\b ", "-o", "\x9b.html", "run\r.log"): r"report.py: run\u{d}.log: No such file",
        ("none.log",): "report.py: none.log: No such file",
        ("run.log", "folder"): "report.py: folder: it is no file",
        ("run.log", "fifo"): "report.py: fifo: it is no file",
        ("run.log", "-o", "run.log"): "report.py: run.log: it is a log, and the output too",
        ("--csv", "run.log", "-o", "link.log"): "report.py: run.log: it is a log, and the output too",
        ("run.log", "event.log", "-o", "event.log"): "report.py: event.log: it is an event, and the output too",
        ("run.log", "-o", "none/page.html"): "report.py: none/page.html: No such file",
        ("run.log", "-o", "folder"): "report.py: folder: Is a directory",
    }.items():
        status, text, said = report(folder, *words)
        faults += differs(**{f"{words}": ((status, text, part in said), (2, b"", True))})
    with open("/dev/full", "wb") as full, open(f"{folder}/run.log", "ab") as log:
        faults += differs(full=(report(folder, "run.log", stdout=full)[0], 2), log=(report(folder, "--csv", "run.log", stdout=log)[0], 2))
    return faults + list(stores.differences(stores.read_tree(folder), before))


def helps(program, folder):
    """Help has each option and the statuses; the script needs nothing newer than Python 3.6."""
    status, text, said = report(folder, "--help")
    words = ("--output", "--csv", "--guide", "--limit", "--event", "The status is 0", "12 bytes")
    faults = differs(help=((status, said, [it for it in words if it not in text.decode()]), (0, "", [])))
    parts = (f"examples/report_{part}.py" for part in ("log", "page", "sums", "verdict", "words"))
    for name in ("examples/report.py", *parts, "tools/shown.py", "tools/starting.py"):
        with open(f"{TOP}/{name}", encoding="utf-8") as file:
            ast.parse(file.read(), feature_version=(3, 6))
    return faults


def peak(folder, *words):
    """The most memory that the script holds, in kB."""
    script = f"import re, sys\nsys.path.insert(0, {os.path.dirname(SCRIPT)!r})\nimport report\nreport.run(sys.argv[1:])\n"
    script += "print(re.search(r'VmHWM:\\s+([0-9]+) kB', open('/proc/self/status').read())[1])"
    return int(subprocess.run([sys.executable, "-B", "-c", script, *words], cwd=folder, capture_output=True, check=True, timeout=240).stdout)


def in_little_memory(program, folder):
    """Of 200,000 lines, each a twin of another, only hashes are held; of events one at a time."""
    pair = lines(sized("AT/obj", "identifier AT", 1), present("AT^/obj", "identifier AT"))
    with open(f"{folder}/long.log", "wb") as log:
        log.writelines(pair.replace(b"AT", b"%d" % number) for number in range(100000))
    held = peak(folder, "long.log", "--limit", "100", "-o", "long.html")
    with open(f"{folder}/long.html", "rb") as file:
        twins = [heading for heading in Page(file.read()).headings if heading.startswith("Twins")]
    event = {**EVENT, "options": {"only": [f"identifier {number}" for number in range(30000)]}}
    names = logs(folder, **{f"e{number}": stores.text_of(event) for number in range(30)})
    events = peak(folder, *names, "-o", "events.html")
    written = os.path.getsize(f"{folder}/events.html") > 10**7
    return differs(twins=(twins, ["Twins: 100,000"]), memory=(held < 40000, True), events=((events < 40000, written), (True, True)))


def documented(program, folder):
    """The README, the guide, the man page, the changelog and CONTRIBUTING name report.py, or its name on the PATH, and the guide its options."""
    texts = {path: documents.text_of(path) for path in ("README.md", "docs/GUIDE.md", "man/pairtree2ocfl.1.in", "CHANGELOG.md", "CONTRIBUTING.md")}
    faults = [f"{path} doesn't name report.py" for path, text in texts.items() if not re.search(r"report\.py|pairtree2ocfl\\?-report", text)]
    guide = next((part for part in texts["docs/GUIDE.md"].split("\n\n") if "report.py" in part), "")
    return faults + [f"GUIDE doesn't tell of {word}" for word in ("--csv", "what is still missing", "--event") if word not in guide]


CASES = [
    Alone("the report of a run", one_run),
    Alone("the report of an audit", one_audit),
    Alone("the report of an audit with extras", one_audit_with_extras),
    Alone("the report of the program's logs", of_the_program),
    Alone("the report of logs that are cut short", cut_short),
    Alone("the report names lines that are none", bad_lines),
    Alone("the report of other forms of JSON", by_json),
    Alone("what the report has as twins", twins),
    Alone("the report escapes", escaped),
    Alone("the report stands by itself", alone),
    Alone("the report leads to the guide", guided),
    Alone("the report as a table", as_table),
    Alone("the report's limits", limited),
    Alone("what the report refuses", refused),
    Alone("help of report.py", helps),
    Alone("the report's memory", in_little_memory),
    Alone("report.py is documented", documented),
]
