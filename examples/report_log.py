"""The lines of the logs of pairtree2ocfl, and its events, as report.py reads them."""

import json
import re

from report_words import ADVICE, TROUBLES, WHYS

OBJECT = ("at", "bytes", "empty", "files", "id", "to")
KEYS = {
    "done": OBJECT,
    "present": ("at", "id", "to"),
    "same": OBJECT,
    "alike": ("at", "files", "id", "to"),
    "absent": ("at", "id", "to"),
    "differs": ("at", "id", "path", "to", "why"),
    "skip": ("at", "cause"),
    "extra": ("id", "to"),
    "stray": ("reason", "to"),
    **{kind: ("path",) for kind in TROUBLES},
    "unreadable": ("path", "reason"),
}
# What a line of a kind may lack: a folder that can't be listed is stray for a reason.
LACKED = {"stray": {"reason"}}
# The keys of an end line, and of which log it is.
AUDIT = ("absent", "differs", "same", "skip")
QUICK = ("absent", "alike", "differs", "skip")
CHECK = ("bytes", "files", "folders", "largest", "longest", "objects", "sites", "told")
AUDITS = {(*keys, *more): "audit" for keys in (AUDIT, QUICK) for more in ((), ("extra", "stray"))}
ENDS = {("done", "present", "skip"): "run", **AUDITS, CHECK: "check"}
# What a check counts class by class: sites and objects by their depth, files and bytes by the digits of a length; and how many classes there are.
CLASSES = {"sites_at": 33, "objects_at": 33, "files_of": 21, "bytes_of": 21}
# The end line of a check has one of these too for each kind that it told, for each class of which it counted something, and for objects that are renamed.
BESIDE = {"check": {*TROUBLES, "renamed", *(f"{word}_{number:02}" for word, count in CLASSES.items() for number in range(count))}}
# The keys by which an event is told from a log, and how many bytes one has at most: more than a command line may have. A check has no destination.
EVENT_KEYS = {"as", "begin", "dest", "options", "source"}
LONGEST = 1 << 26
COLUMNS = ("as", "at", "id", "to", "files", "bytes", "empty", "cause", "path", "why", "reason")
NUMBERS = ("bytes", "empty", "files")
TEXT = r'"([^"\\\x00-\x1f]*)"'
WORDS = {"cause": tuple(ADVICE), "why": tuple(WHYS)}


def form_of(kind):
    """The fixed form of a line of this kind, with a group for each value. A text with an escape in it isn't of this form."""
    forms = {key: "(0|[1-9][0-9]{0,19})" for key in NUMBERS}
    forms.update({key: f'"({"|".join(words)})"' for key, words in WORDS.items()})
    members = {key: f',"{key}":{forms.get(key, TEXT)}' for key in KEYS[kind]}
    members.update({key: f"(?:{members[key]})?" for key in LACKED.get(kind, ())})
    return re.compile(rf'\{{"as":"{kind}"{"".join(members.values())}\}}\n?'.encode())


# By the first letters of the kind, which stand at the same place in every line but an audit's end line.
FORMS = {kind[:4].encode(): (kind, form_of(kind)) for kind in KEYS}
ID_AT = {kind: keys.index("id") for kind, keys in KEYS.items() if {"at", "id"} <= set(keys)}
# Lines that tell how large an object is.
MEASURED = ("done", "same")
# How lines begin that tell of nothing that is wanting.
STANDS = tuple(f'{{"as":"{kind}"'.encode() for kind in ("done", "present", "same", "alike", "differs", "extra", "stray"))


def parsed(line):
    """The kind of a line and its values, as bytes, in the order of its keys; one that it may lack is empty then. What is no line of a log is a
    `ValueError`."""
    kind, form = FORMS.get(line[7:11], (None, None))
    found = form and form.fullmatch(line)
    if not found:
        return by_json(line)
    line.decode()
    return kind, found.groups(b"")


def by_json(line):
    """The same of a line that isn't of the fixed form. The values of an end line are what it ends, and the numbers that it tells."""
    try:
        entry = json.loads(line.decode())
        kind = entry.pop("as")
        if kind == "end":
            what = next(what for keys, what in ENDS.items() if set(keys) == set(entry) - BESIDE.get(what, set()))
            return kind, (what, {key: int(value_of("files", value)) for key, value in entry.items()})
        if set(KEYS[kind]) != set(entry) | LACKED.get(kind, set()):
            raise ValueError
        return kind, tuple(value_of(key, entry.get(key, "")) for key in KEYS[kind])
    except (TypeError, AttributeError, KeyError, StopIteration, RecursionError):
        raise ValueError from None


def value_of(key, value):
    """A value of JSON as it stands in the fixed form."""
    if key in NUMBERS:
        if type(value) is not int or not 0 <= value < 10**20:
            raise ValueError
        return b"%d" % value
    if not isinstance(value, str) or value not in WORDS.get(key, (value,)):
        raise ValueError
    return value.encode()


def is_part(line):
    """Whether a line of a log begins so, and has no end: a run that was stopped may leave that as its last."""
    return not line.endswith(b"\n") and any(line[: len(start)] == start[: len(line)] for start in (b'{"as":"', b'{"absent":'))


def entries(path, refuse=lambda number, line: None, wanted=None):
    """The kind and the values of each line of a log that is wanted. What is no line of a log is given to a function, with its number."""
    with open(path, "rb", buffering=1 << 18) as file:
        for number, line in enumerate(file, 1):
            if wanted and not wanted(line):
                continue
            try:
                entry = parsed(line)
            except ValueError:
                refuse(number, line)
            else:
                yield entry


def event_in(path):
    """The event that a file is: one JSON object with the keys of one, and nothing behind it. `None` of a log, of which little is read."""
    with open(path, "rb") as file:
        text = file.readline(LONGEST)
        # What another program wrote anew may go on in the next line; a line of a log doesn't.
        if not text.rstrip().endswith(b"}"):
            text += file.read(LONGEST - len(text))
        try:
            event = json.loads(text.decode())
        except (ValueError, RecursionError):
            return None
        is_event = isinstance(event, dict) and keys_of(event) <= set(event) and not any(line.strip() for line in file)
        return event if is_event else None


def keys_of(event):
    """The keys that an object has to have if it is an event."""
    return EVENT_KEYS - {"dest"} if event.get("as") == "check" else EVENT_KEYS


def may_name(line, twins):
    """Whether a line may have an identifier of these hashes: the one that it has as it stands is one of them, or isn't seen so easily."""
    _, found, rest = line.partition(b',"id":"')
    return not found or b"\\" in line or hash(rest.partition(b'"')[0]) in twins
