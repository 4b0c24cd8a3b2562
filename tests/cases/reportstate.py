"""Tests of examples/report.py: how a migration stands by several logs and events, and the logs of checks. What must stand is counted by hand."""

import collections
import csv
import io
import re

import documents
import stores
from alone import Alone, differs
from report import EVENT, absent, logs, page, report, sized, unlike, whole_audit
from stores import done, lines, present, skip, whole_log

# A store with two objects, a folder that isn't one yet, an empty one, and a README: a run, a second one when that was mended, and audits.
ASIDE = [skip("", "root"), skip("em", "empty")]
FIRST = [sized("aa/obj", "aa", 10, files=2, empty=1), sized("ab/obj", "ab", 1000, files=3), skip("sp", "split"), *ASIDE]
SECOND = [present("aa/obj", "aa"), present("ab/obj", "ab"), sized("sp/obj", "sp", 500), *ASIDE]
SAME = [sized("aa/obj", "aa", 10, files=2, empty=1, kind="same"), sized("ab/obj", "ab", 1000, files=3, kind="same")]
EARLY, LAST = [*SAME, skip("sp", "split"), *ASIDE], [*SAME, sized("sp/obj", "sp", 500, kind="same"), *ASIDE]
OTHER = [SAME[0], unlike("ab/obj", "ab", "v1/content/f", "bytes"), sized("sp/obj", "sp", 500, kind="same"), *ASIDE]
ALIKE = [{"as": "alike", "at": f"{name}/obj", "files": 1, "id": name, "to": name} for name in ("aa", "ab", "sp")]
GONE = [absent("aa/obj", "aa"), SAME[1], sized("sp/obj", "sp", 500, kind="same"), *ASIDE]
ONE = [("1 folder", 1), ("2 objects", 2), ("1.0 kB", 3), ("5 files", 3), ("0 objects", 4), ("3 folders", 5), ("0 identifiers", 6), ("1 empty folder", 7)]
ALL = [("0 folders", 1), ("3 objects", 2), ("1.5 kB", 3), ("6 files", 3), ("0 objects", 4), ("2 folders", 5), ("0 identifiers", 6), ("1 empty folder", 7)]
READ = " 2 folders were skipped that have no object of their own: read their causes below."
WHOLE = "Nothing is missing: all 3 objects stand in the root"
# Logs in their order; what is in the tiles, and the sentence at the head.
STATES = {
    "a run": ([whole_log(*FIRST)], ONE, "Not done yet: 1 folder is still missing in the root."),
    "the same run twice": ([whole_log(*FIRST)] * 2, ONE, "Not done yet: 1 folder is still missing in the root."),
    "one log of two runs": ([whole_log(*FIRST) + whole_log(*SECOND)], ALL, f"{WHOLE}, as the runs tell. No audit has compared them yet.{READ}"),
    "two runs": ([whole_log(*FIRST), whole_log(*SECOND)], ALL, f"{WHOLE}, as the runs tell. No audit has compared them yet.{READ}"),
    "an audit between": (
        [whole_log(*FIRST), whole_audit(*EARLY), whole_log(*SECOND)],
        ALL,
        f"{WHOLE}; 1 was carried since the last audit: audit the root again.{READ}",
    ),
    "two runs and an audit": (
        [whole_log(*FIRST), whole_log(*SECOND), whole_audit(*LAST)],
        ALL,
        f"{WHOLE}, found the same as in the store by an audit.{READ}",
    ),
    "a third run behind it": (
        [whole_log(*FIRST), whole_audit(*LAST), whole_log(*(present(it, it[:2]) for it in ("aa/obj", "ab/obj", "sp/obj")), *ASIDE)],
        ALL,
        f"{WHOLE}, found the same as in the store by an audit.{READ}",
    ),
    "one that differs": (
        [whole_log(*SECOND), whole_audit(*OTHER)],
        [("0 folders", 1), ("2 objects", 2), ("510 B", 3), ("3 files", 3), ("1 object", 4), ("2 folders", 5), ("1 empty folder", 7)],
        "Not done yet: 1 object of the root is another than in the store.",
    ),
    "a run that doesn't look into it": (
        [whole_audit(*OTHER), whole_log(*SECOND[:2], present("sp/obj", "sp"), *ASIDE)],
        [("0 folders", 1), ("2 objects", 2), ("510 B", 3), ("1 object", 4)],
        "Not done yet: 1 object of the root is another than in the store.",
    ),
    "it was carried anew": (
        [whole_audit(*OTHER), whole_log(present("aa/obj", "aa"), sized("ab/obj", "ab", 1000, files=3), present("sp/obj", "sp"), *ASIDE)],
        ALL,
        f"{WHOLE}; 1 was carried since the last audit: audit the root again.{READ}",
    ),
    "one that is absent": (
        [whole_log(*SECOND), whole_audit(*GONE)],
        [("1 folder", 1), ("2 objects", 2), ("1.5 kB", 3), ("4 files", 3), ("0 empty folders", 7)],
        "Not done yet: 1 folder is still missing in the root.",
    ),
    "nothing but a README": ([whole_log(skip("", "root"))], [("0 folders", 1), ("0 objects", 2), ("0 B", 3), ("0 files", 3), ("1 folder", 5)], (
        "Nothing is missing: the logs name no object that was to be carried. 1 folder was skipped that has no object of its own: read its cause below."
    )),
    "one object": ([whole_audit(SAME[0])], [("1 object", 2), ("10 B", 3), ("2 files", 3)], (
        "Nothing is missing: the one object stands in the root, found the same as in the store by an audit."
    )),
    "present alone": ([whole_log(*SECOND)], [("1 object", 2), ("500 B", 3), ("1 file", 3)], (
        "Not done yet: 2 folders are <code>present</code> or <code>alike</code> alone: the bytes at their places weren't compared."
    )),
    "alike alone": ([whole_audit(*ALIKE, *ASIDE)], [("0 objects", 2)], (
        "Not done yet: 3 folders are <code>present</code> or <code>alike</code> alone: the bytes at their places weren't compared."
    )),
    "a run and a quick audit": ([whole_log(*FIRST), whole_log(*SECOND), whole_audit(*ALIKE, *ASIDE)], ALL, (
        f"{WHOLE}, as the runs tell. No audit has compared them yet.{READ}"
    )),
    "a quick audit behind a whole one": ([whole_audit(*LAST), whole_audit(*ALIKE, *ASIDE)], ALL, f"{WHOLE}, found the same as in the store by an audit.{READ}"),
    "one that differs, and is alike": ([whole_audit(*OTHER), whole_audit(*ALIKE, *ASIDE)], [("2 objects", 2), ("1 object", 4)], (
        "Not done yet: 1 object of the root is another than in the store."
    )),
    "a twin": ([whole_log(done("a/obj", "x", {}), present("b/obj", "x"))], [("1 object", 2), ("1 identifier", 6)], (
        "Not done yet: 1 identifier has several folders, of which one was carried."
    )),
    "what the root alone has": ([whole_audit(SAME[0]) + lines({"as": "stray", "to": "x"})], [("1 object", 2)], (
        "Not done yet: 1 log was cut short, and no later log goes on behind it; 1 path of the root is of nothing in the store."
    )),
    "cut short": ([lines(*FIRST[:1])], [("1 object", 2)], "Not done yet: 1 log was cut short, and no later log goes on behind it."),
    "cut short, and begun again": ([lines(*FIRST[:2]), whole_log(*SECOND)], ALL, f"{WHOLE}, as the runs tell. No audit has compared them yet.{READ}"),
    "a share that was cut short": ([lines(done("zz/obj", "zz", {})), whole_log(*SECOND[2:])], [("2 objects", 2)], (
        "Not done yet: 1 log was cut short, and no later log goes on behind it."
    )),
    "two shares that were": ([lines(done("zz/obj", "zz", {})), lines(done("zy/obj", "zy", {}))], [("2 objects", 2)], (
        "Not done yet: 2 logs were cut short, and no later log goes on behind them."
    )),
    "no lines of a log": ([whole_log(*SECOND[2:]) + b"x\n"], [("1 object", 2)], "Not done yet: 1 line is none of a log."),
}


# What each tile says behind its number; of the third the bytes stand before `in` and the files.
SAYS = {1: "still missing: skipped, or absent in the root", 2: "in the root: carried, or found the same", 3: " of these objects"}
SAYS.update({4: "of the root other than in the store", 5: "skipped, whatever the cause", 6: "of several folders", 7: "of these objects not carried"})


def verdict_of(found):
    """The sentence at the head of a page."""
    return "".join(found.texts["verdict"]).strip()


def states(program, folder):
    """The numbers at the head are of the last state: a run, a second one and an audit of one store count each object once; and a finished
    migration is told to be one."""
    faults = []
    for name, (texts, tiles, verdict) in STATES.items():
        found, _ = page(folder, *logs(folder, **{f"l{number}": text for number, text in enumerate(texts)}))
        told = re.sub("<[^>]*>", "", verdict)
        faults += differs(**{name: (verdict_of(found), told)})
        for text, number in tiles:
            tile = [text for text in found.tiles if text][number - 1]
            faults += [] if text in tile.replace(SAYS[number], "").split("in ") else [f"{name}: {tile}, not {text}"]
    return faults


# What three logs say of a site, and what is told to be missing: its cause and the log that named it last.
HISTORIES = {
    "mended": ([skip("aa", "split"), None, done("aa/obj", "1", {})], None),
    "gathered": ([skip("ab", "split"), done("ab", "2", {}), None], None),
    "there": ([skip("ac", "split"), present("ac/obj", "3"), None], None),
    "before": ([done("ad/obj", "4", {}), skip("ad", "split"), skip("ad", "split")], None),
    "another cause": ([skip("ae", "split"), skip("ae", "other"), skip("ae", "limit")], ["limit", "third.log"]),
    "named once": ([skip("af", "name"), None, None], ["name", "first.log"]),
    "never": ([None, skip("ag", "other"), None], ["other", "second.log"]),
    "taken away": ([done("ah/obj", "5", {}), None, absent("ah/obj", "5")], ["absent", "third.log"]),
    "absent, then carried": ([None, absent("ai/obj", "6"), present("ai/obj", "6")], None),
    "absent, then skipped": ([absent("aj/obj", "7"), skip("aj", "split"), None], ["split", "second.log"]),
    "absent, then emptied": ([absent("ao/obj", "12"), skip("ao", "empty"), None], None),
    "carried, absent, then skipped": ([done("ap/obj", "13", {}), absent("ap/obj", "13"), skip("ap", "other")], ["other", "third.log"]),
    "emptied": ([skip("aq", "split"), skip("aq", "empty"), None], None),
    "empty, then filled": ([skip("ar", "empty"), skip("ar", "split"), None], ["split", "second.log"]),
    "another stands": ([skip("ak", "split"), unlike("ak/obj", "8", "v1", "kind"), None], None),
    "three bytes": ([skip("al", "split"), done("al/€", "9", {}), None], None),
    "below it": ([skip("am", "split"), done("am/a/obj", "10", {}), None], ["split", "first.log"]),
    "the root": ([skip("", "root"), skip("", "root"), None], None),
    "the same": ([skip("an", "split"), {**done("an/obj", "11", {}), "as": "same"}, None], None),
}


def still_missing(program, folder):
    """Over several logs, in their order: what the last log that names it skipped, and none has carried, or what it has as absent."""
    texts = [lines(*(said[number] for said, _ in HISTORIES.values() if said[number])) for number in range(3)]
    found, said = page(folder, *logs(folder, first=texts[0], second=texts[1], third=texts[2]))
    wanted = {}
    for entries, told in HISTORIES.values():
        at = next(entry for entry in entries if entry)["at"]
        wanted.update({at.split("/")[0]: told} if told else {})
    faults = differs(said=(said, (0, "")), missing=({row[0].split("/")[0]: row[1:] for row in found.table("missing")}, wanted))
    rows = [row for row in found.table("missing") if row[1] == "absent"]
    faults += differs(absent=(rows, [["ah/obj", "absent", "third.log"]]), heading=(found.headings[1], f"Still missing: {len(wanted)}"))
    few, _ = page(folder, "first.log", "second.log", "third.log", "--limit", "5")
    faults += differs(few=((len(few.table("missing")), few.table("missing")[0]), (5, ["ae", "limit", "third.log"])))
    other, _ = page(folder, "third.log", "second.log", "first.log")
    order = {row[0]: row[1] for row in other.table("missing")}
    return faults + differs(order=((order.get("ae"), "ah/obj" in order), ("split", False)), alone=(page(folder, "first.log")[0].table("missing"), []))


def plural(program, folder):
    """One is told as one: an identifier, an object, a file, a folder, a line; and the histogram has each object once."""
    one, _ = page(folder, *logs(folder, one=whole_log(done("a/obj", "x", {"f": b"1"}), present("b/obj", "x"), skip("sp", "split")), two=whole_log(present("a/obj", "x"))))
    tiles = [text for text in one.tiles if text]
    wanted = ["1 folderstill missing: skipped, or absent in the root", "1 objectin the root: carried, or found the same", "1 Bin 1 file of these objects"]
    wanted += ["0 objectsof the root other than in the store", "1 folderskipped, whatever the cause", "1 identifierof several folders"]
    faults = differs(one=(tiles, [*wanted, "0 empty foldersof these objects not carried"]), sizes=(one.table("sizes"), [["1 B to 10 B", "1"]]))
    two, _ = page(folder, *logs(folder, log=whole_log(*(line for it in "xy" for line in (done(f"{it}/obj", it, {}), present(f"{it}b/obj", it))))))
    faults += differs(two=([text for text in two.tiles if "identifier" in text], ["2 identifiersof several folders"]))
    left, _ = page(folder, *logs(folder, log=whole_log(skip("a", "split"), skip("b", "split"))), "--limit", "1")
    faults += differs(left=([text.split(":")[0] for text in left.texts["p"] if "listed" in text], ["1 more isn't listed"]))
    said = report(folder, *logs(folder, bad=b"x\n" * 21))[2].splitlines()[-1]
    return faults + differs(bad=(said, "report.py: bad.log: 1 more line is none of a log"))


def dated(program, folder):
    """Where events stand among the logs, the page begins with the verdict, the store, the destination and the time from the first to the last."""
    run = {**EVENT, "source": {"given": "/data/<store>"}, "dest": {"given": "/data/ocfl\u202e"}, "end": "2024-05-01T13:00:00Z", "status": 0}
    audit = {**run, "as": "audit", "begin": "2024-06-02T08:00:00Z", "end": "2024-06-02T09:30:00Z"}
    names = logs(folder, log=whole_audit(*LAST), first=stores.text_of(run), second=stores.text_of(audit))
    found, _ = page(folder, *reversed(names))
    named = ["Store: /data/<store>", "Destination: /data/ocfl\\u{202e}", "Begun: 2024-05-01T12:00:00Z", "Ended: 2024-06-02T09:30:00Z"]
    faults = differs(named=([text.strip() for text in found.texts["named"]], named), first=(list(found.texts)[:2], ["verdict", "named"]))
    good = f"{WHOLE}, found the same as in the store by an audit.{READ}"
    faults += differs(verdict=(verdict_of(found), good))
    again = {**run, "begin": "2024-07-01T00:00:00Z", "fault": {"number": 1}}
    for name, event in {"fault": again, "no end": {key: it for key, it in again.items() if key not in ("end", "fault")}}.items():
        found, _ = page(folder, *names, *logs(folder, more=stores.text_of(event)))
        faults += differs(**{name: (verdict_of(found), "Not done yet: the last event has a fault or no end.")})
    found, _ = page(folder, "log.log", *logs(folder, more=stores.text_of({**run, "as": "rehearsal"})))
    faults += differs(rehearsal=(found.texts["verdict"][0].split(":")[0], "This was a rehearsal, which carries nothing"))
    found, _ = page(folder, *logs(folder, more=stores.text_of({**EVENT, "begin": 1, "dest": 2, "source": {}, "end": "x"})))
    faults += differs(unknown=((verdict_of(found), found.texts["named"]), ("No log is given, so nothing is told of the objects.", ["Ended: x\n"])))
    plain, _ = page(folder, "log.log")
    return faults + differs(plain=((verdict_of(plain), plain.texts.get("named")), (good, None)))


def trouble(kind, path, **beside):
    return {"as": kind, "path": path, **beside}


CHECKED = [
    trouble("root", "pairtree_root"),
    trouble("unreadable", "pairtree_root/ab", reason="a name in it is not UTF-8: \\xe9"),
    trouble("unreadable", "", reason="Permission denied (os error 13)"),
    trouble("desktop", "pairtree_root/ab/c/obj/.DS_Store"),
    trouble("split", "pairtree_root/sp\u202e"),
    trouble("spelling", "pairtree_root/^6/1b"),
    trouble("many", "pairtree_root/ab/c/obj/x"),
]
MET = {"bytes": 40613, "files": 4, "folders": 7, "largest": 20307, "longest": 37, "objects": 2, "sites": 4}


def whole_check(*entries, **numbers):
    """The log of a check that ends, whose last line counts each kind of its lines."""
    kinds = collections.Counter(entry["as"] for entry in entries)
    return lines(*entries, {"as": "end", **MET, "told": len(entries), **kinds, **numbers})


TOLD = "the check told 2 lines of what would stop a run; the check told 5 lines of what a run skips, or what may surprise"


def one_check(program, folder):
    """A check's log: its troubles by kind, each with what to do and a link to the guide; each with its path and its reason; and what it met."""
    found, said = page(folder, *logs(folder, check=whole_check(*CHECKED)))
    kinds = [["unreadable", "2"], ["root", "1"], ["split", "1"], ["many", "1"], ["spelling", "1"], ["desktop", "1"]]
    told = [["pairtree_root", "root", ""], ["pairtree_root/ab", "unreadable", "a name in it is not UTF-8: \\\\xe9"], ["", "unreadable", CHECKED[2]["reason"]]]
    told += [["pairtree_root/ab/c/obj/.DS_Store", "desktop", ""], ["pairtree_root/sp\\u{202e}", "split", ""], ["pairtree_root/^6/1b", "spelling", ""]]
    faults = differs(said=(said, (0, "")), kinds=([row[:2] for row in found.table("troubles")], kinds), told=(found.table("told"), [*told, ["pairtree_root/ab/c/obj/x", "many", ""]]))
    faults += differs(met=(found.table("checks"), [["check.log", "end line", "7", "4", "2", "0", "7", "4", "40,613", "20,307", "37"]]))
    faults += differs(tables=(sorted(found.tables), ["checks", "told", "troubles"]), verdict=(verdict_of(found), f"Not done yet: {TOLD}."))
    faults += differs(notes=(found.notes, ["Each log has its end line, and as many lines of each kind as that counts."]))
    made = list(csv.DictReader(io.StringIO(report(folder, "--csv", "check.log")[1].decode())))
    rows = [{key: it for key, it in row.items() if it} for row in made]
    faults += differs(table=(rows, [{"log": "check.log", **{key: it for key, it in entry.items() if it}} for entry in CHECKED]))
    quiet, said = page(folder, *logs(folder, quiet=whole_check()))
    faults += differs(quiet=((said, verdict_of(quiet), list(quiet.tables)), ((0, ""), "Nothing is in the way: the check told nothing.", ["checks"])))
    cut, said = page(folder, *logs(folder, cut=lines(*CHECKED[:2])))
    row = ["cut.log", "cut short", "2", *[""] * 8]
    faults += differs(cut=((said, cut.table("checks"), "cut short" in cut.notes[-1]), ((0, ""), [row], True)))
    for name, numbers in {"lines": {"told": 6}, "a kind": {"root": 2}, "a kind that has none": {"width": 1}}.items():
        uneven, _ = page(folder, *logs(folder, uneven=whole_check(*CHECKED, **numbers)))
        faults += differs(**{name: ("has other lines than its end line counts" in uneven.notes[-1], True)})
    skipped, _ = page(folder, *logs(folder, skipped=whole_check(CHECKED[0])))
    faults += differs(skipped=(verdict_of(skipped), "Not done yet: the check told 1 line of what a run skips, or what may surprise."))
    both, said = page(folder, "check.log", *logs(folder, run=whole_log(SECOND[2])))
    numbers = [["run.log", "run or rehearsal", "end line", "1", "1", "500", "0"]]
    return faults + differs(both=((said, both.table("numbers"), both.texts["verdict"][0].split(",")[0]), ((0, ""), numbers, "Nothing is missing: the one object stands in the root")))


# What a check counts class by class, and what the page says of it.
SHAPE = {"bytes_of_03": 600, "bytes_of_05": 40013, "files_of_00": 1, "files_of_03": 2, "files_of_05": 1, "objects_at_03": 2, "objects_at_32": 1}
SHAPE |= {"sites_at_00": 1, "sites_at_01": 36, "sites_at_02": 1299, "sites_at_03": 19, "sites_at_32": 40}
DEPTHS = [["1", "36", "0", "1"], ["2", "1,299", "0", "64"], ["3", "19", "2", "0"], ["32 or more", "40", "1", "2"]]
LENGTHS = [["0 B", "1", "0"], ["100 B to 1 kB", "2", "600"], ["10 kB to 100 kB", "1", "40,013"]]


def shapes(program, folder):
    """How many sites and objects a check met at each depth, with how many shares by folders it serves, and files by their length; of several logs each by its own."""
    found, said = page(folder, *logs(folder, check=whole_check(**SHAPE)))
    faults = differs(said=(said, (0, "")), depths=(found.table("depths"), DEPTHS), lengths=(found.table("lengths"), LENGTHS))
    faults += differs(notes=(found.notes, ["Each log has its end line, and as many lines of each kind as that counts."]))
    renamed, _ = page(folder, *logs(folder, renamed=whole_check(renamed=2)))
    faults += differs(renamed=(renamed.table("checks")[0][3:6], ["4", "2", "2"]))
    names = logs(folder, one=whole_check(sites_at_00=1, sites_at_01=20), two=whole_check(files_of_20=3, bytes_of_20=10**19 + 2), cut=lines(*CHECKED[:1]))
    several, said = page(folder, *names, "check.log")
    depths = [["one.log", "1", "20", "0", "1"], *(["check.log", *row] for row in DEPTHS)]
    lengths = [["two.log", "10 EB to 100 EB", "3", f"{10**19 + 2:,}"], *(["check.log", *row] for row in LENGTHS)]
    faults += differs(said=(said, (0, "")), depths=(several.table("depths"), depths), lengths=(several.table("lengths"), lengths))
    for number, name in enumerate(("sites_at_33", "objects_at_33", "files_of_21", "bytes_of_21", "sites_at_1", "sites_at", "files_at_01")):
        faults += differs(**{name: (report(folder, *logs(folder, **{f"bad{number}": whole_check(**{name: 1})}))[::2], (1, f"report.py: bad{number}.log:1: it is no line of a log\n"))})
    return faults


def each_trouble(program, folder):
    """Each kind of a check that the reference has, and no other, is told with what to do about it, by a link to a heading that the guide has."""
    table = documents.text_of("docs/REFERENCE.md").split("\n## The lines of a check\n", 1)[1].split("\n## ", 1)[0]
    kinds = [kind for row in re.findall(r"^\| (`.*?) \|", table, re.MULTILINE) for kind in re.findall(r"`(\w+)`", row) if kind != "as"]
    beside = {"unreadable": {"reason": "x"}}
    found, said = page(folder, *logs(folder, check=whole_check(*(trouble(kind, "p", **beside.get(kind, {})) for kind in kinds))))
    rows = {row[0]: row[-1] for row in found.table("troubles")}
    faults = differs(said=(said, (0, "")), count=(len(kinds), 20), kinds=(set(rows), set(kinds)), short=([kind for kind, text in rows.items() if len(text) < 40], []))
    headings = {link.split("#")[1] for link in found.links}
    faults += differs(headings=(headings - documents.heading_ids("docs/GUIDE.md"), set()), before=("before" in headings, True))
    bad = [trouble("none", "p"), trouble("root", "p", reason="x"), trouble("unreadable", "p"), trouble("limit", "p"), {"as": "end", **MET}]
    status, _, said = report(folder, *logs(folder, bad=lines(*bad)))
    return faults + differs(bad=((status, said.count("it is no line of a log")), (1, len(bad))))


CASES = [
    Alone("the report of the last state", states),
    Alone("what the report has as missing", still_missing),
    Alone("the report counts one as one", plural),
    Alone("the report's store and dates", dated),
    Alone("the report of a check", one_check),
    Alone("the report of what a check counts by depth and by length", shapes),
    Alone("the report of each trouble of a check", each_trouble),
]
