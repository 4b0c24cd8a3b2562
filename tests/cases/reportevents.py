"""Tests of examples/report.py: events among the logs, of the program and as the tests write them."""

import json
import subprocess

import stores
from alone import Alone, differs
from report import EVENT, RUN, logs, page, report
from running import MEANT
from stores import DIR, build, whole_log


def recorded(program, folder, name, *words, dest="d"):
    """The log of a command, with its event in a file beside it; gives the event."""
    done = subprocess.run([program, *words, "--event", f"{name}.json", "s", dest], cwd=folder, capture_output=True, timeout=120)
    build(folder, {f"{name}.log": done.stdout})
    with open(f"{folder}/{name}.json", "rb") as file:
        return json.load(file)


OF_AUDIT = "0 absent, 0 differs, 0 extra, 1 same, 0 skip, 0 stray"


def row_of(name, event, words, *ends):
    """The row of an event over the folder s: its options as words, and how it ended."""
    return [name, event["as"], "s", event["dest"]["given"], words, event["begin"], event.get("end", "no end"), *ends]


def of_events(program, folder):
    """Events stand among logs in any order, whatever their names, a row each; the logs are told as without them, and so is the table."""
    build(folder, {"left/staging": DIR})
    chosen = ("migrate", *MEANT[:2], "--name", "Ada <b>", "--only", "ab", "--only", "it's")
    begun = ["--created 2024-05-01T12:00:00Z --digest sha512", "--interval 10 --message 'Migrated from Pairtree' --name"]
    ended = "--progress auto --share 1/1 --tuple-size 3 --tuples 3"
    named = f"""{begun[1]} 'Ada <b>' --only ab --only 'it'"'"'s' {ended}"""
    rehearsal, made = recorded(program, folder, "rehearsal", *chosen, "--dry-run"), recorded(program, folder, "run", *chosen)
    audit, fault = recorded(program, folder, "audit", "audit", "--extra"), recorded(program, folder, "fault", "migrate", *MEANT, dest="left")
    killed = {key: it for key, it in made.items() if key not in ("bytes", "end", "files", "lines", "skips", "status")}
    build(folder, {"killed.log": stores.text_of(killed) + b"\n"})
    found, said = page(folder, "killed.log", "rehearsal.log", "audit.json", "run.log", "run.json", "audit.log", "fault.json", "rehearsal.json")
    plain, _ = page(folder, "rehearsal.log", "run.log", "audit.log")
    staging = "fault 7: a staging directory is left in the destination; left/staging: it stands there already"
    rows = [
        row_of("killed.log", killed, f"{begun[0]} --event run.json {named}", "", "", "", "", ""),
        row_of("audit.json", audit, f"--digest sha512 --event audit.json --extra --interval 10 {ended}", "0", OF_AUDIT, "1", "3", ""),
        row_of("run.json", made, f"{begun[0]} --event run.json {named}", "0", "1 done, 0 present, 0 skip", "1", "3", ""),
        row_of("fault.json", fault, f"{begun[0]} --event fault.json {begun[1]} Ada {ended}", "3", "0 done, 0 present, 0 skip", "0", "0", staging),
        row_of("rehearsal.json", rehearsal, f"{begun[0]} --dry-run --event rehearsal.json {named}", "0", "1 done, 0 present, 0 skip", "1", "3", ""),
    ]
    faults = differs(said=(said, (0, "")), events=(found.table("events"), rows), heading=("Events: 5" in found.headings, True))
    faults += differs(rest=({**found.tables, "events": None}, {**plain.tables, "events": None}), tops=((found.tiles, found.notes), (plain.tiles, plain.notes)))
    tables = [report(folder, "--csv", "run.log", *names, "audit.log") for names in (["run.json", "killed.log"], [])]
    faults += differs(table=(tables[0], tables[1]), status=(tables[0][0], 0))
    single, said = page(folder, "run.json")
    return faults + differs(single=((said, list(single.tables), single.headings, single.tiles, single.notes), ((0, ""), ["events"], ["Events: 1"], [], [])))


def of_a_check(program, folder):
    """The event of a check, which has no destination, has a row too; and beside that of a rehearsal the page still says that it was one."""
    build(f"{folder}/s", {"pairtree_root/ab/d": DIR})
    done = subprocess.run([program, "check", "--event", "check.json", "s"], cwd=folder, capture_output=True, timeout=120)
    with open(f"{folder}/check.json", "rb") as file:
        check = json.load(file)
    words = "--event check.json --interval 10 --progress auto --share 1/1 --tuple-size 3 --tuples 3"
    found, said = page(folder, "check.json")
    row = ["check.json", "check", "s", "", words, check["begin"], check["end"], "1", "1 empty", "1", "0", ""]
    faults = differs(status=(done.returncode, 1), said=(said, (0, "")), events=(found.table("events"), [row]))
    recorded(program, folder, "rehearsal", "migrate", *MEANT, "--dry-run", "--ignore", "d")
    found, said = page(folder, "check.json", "rehearsal.json", "rehearsal.log")
    warned = found.texts["verdict"][0].split(":")[0]
    return faults + differs(both=(said, (0, "")), warned=(warned, "This was a rehearsal, which carries nothing"))


# What an event has otherwise than the least one, and its cells from the second on: what is unknown is empty.
EVENTS = [
    ({}, ["run", "s", "d", "", "2024-05-01T12:00:00Z", "no end", "", "", "", "", ""]),
    (
        {"as": 1, "begin": None, "dest": "d", "options": [], "source": {"given": 1}}
        | {"end": 5, "status": True, "lines": [], "files": -1, "bytes": 1.5, "fault": "x"},
        [""] * 11,
    ),
    (
        {"as": "more", "dest": {}, "end": "", "status": 9, "lines": {"done": 1000, "skip": "2", "new": 3}, "files": 1234, "bytes": 10**20, "fault": {}},
        ["more", "s", "", "", "2024-05-01T12:00:00Z", "", "9", "1,000 done, 3 new", "1,234", "100,000,000,000,000,000,000", ""],
    ),
    (
        {"options": {"a": None, "b": {"x": 1}, "c": [], "d": "", "e": ["x y", 2], "f": False, "g": True}, "fault": {"number": 4, "text": "out of memory"}},
        ["run", "s", "d", "--d '' --e 'x y' --e 2 --g", "2024-05-01T12:00:00Z", "no end", "", "", "", "", "fault 4: out of memory"],
    ),
    (
        {"as": "<b>", "begin": "\u202e", "source": {"given": "\ud800\n"}, "lines": {"<i>": 1}, "options": {"<p>": "\\"}}
        | {"fault": {"path": "<s>", "reason": "é"}, "more": 1},
        ["<b>", "\\u{d800}\\u{a}", "d", "--<p> '\\\\'", "\\u{202e}", "no end", "", "1 <i>", "", "", "<s>: é"],
    ),
]


def unknown_in_events(program, folder):
    """What an event doesn't tell, or tells otherwise, is an empty cell; and its texts are texts on the page. Its JSON may be set in any form."""
    faults = []
    for change, cells in EVENTS:
        texts = [json.dumps({**EVENT, **change}, indent=indent).encode() + end for indent, end in ((None, b""), (1, b"\n"), (None, b"\r\n\n"))]
        names = logs(folder, **{f"e{number}": text for number, text in enumerate([*texts, b"\n" + texts[0]])})
        found, said = page(folder, *names)
        raw = {it for it in report(folder, *names)[1].decode() if not it.isprintable() and it != "\n"}
        faults += differs(**{f"{change}": ((said, found.table("events"), raw), ((0, ""), [[name, *cells] for name in names], set()))})
        faults += differs(tags=({tag for tag, _ in found.tags} & {"s", "script"}, set()))
    return faults


def no_events(program, folder):
    """What lacks a key of an event, isn't one object or has more behind it is none: its lines are those of a log, or are named."""
    text, faults = json.dumps(EVENT).encode(), []
    others = [json.dumps({key: it for key, it in EVENT.items() if key != left}).encode() for left in EVENT]
    others += [text + behind for behind in (b"\n" + text, b"\n" + whole_log(*RUN), b" x", b",")] + [b"[" + text + b"]", b"[" * 5000, b"\xff" + text]
    for other in others:
        found, said = page(folder, *logs(folder, no=other))
        faults += differs(**{f"{other[:90]}": ((said[0], "no.log:1: it is no line of a log" in said[1], "events" in found.tables), (1, True, False))})
    found, said = page(folder, *logs(folder, behind=whole_log(*RUN) + text + b"\n"))
    return faults + differs(behind=((said, "events" in found.tables), ((1, f"report.py: behind.log:{len(RUN) + 2}: it is no line of a log\n"), False)))


CASES = [
    Alone("the report of events", of_events),
    Alone("the report of a check's event", of_a_check),
    Alone("what is unknown in the report's events", unknown_in_events),
    Alone("the report takes nothing else for an event", no_events),
]
