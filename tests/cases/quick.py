"""Cases of `audit --quick`, by names and lengths alone. What it must say is found here from both trees: the files are seen as the texts of their
lengths, and an object is sought with the digests that the inventory at its place has for its paths."""

import json
import os
import re
import shutil
import subprocess

import stores
from alone import Alone, differs
from auditing import STORES, audit, below, changes, first_difference, fresh, migrate
from calls import lines_of_trace
from extras import extra, stray
from running import as_nobody
from stores import ABC, DIR, ONE, build, object_files, place, read_tree, store, stored, text_of

HEX = re.compile(r"[0-9a-f]{128}")


def length_of(content):
    """The text of a file's length; what is no file, as it is."""
    return str(len(content)).encode() if isinstance(content, bytes) else content


def claimed(found, files):
    """The digests that the inventory in the version's folder has for these paths; nothing where it lacks one, or has one for two lengths."""
    try:
        state = json.loads(found["v1/inventory.json"])["versions"]["v1"]["state"]
        digests = {path: digest for digest, paths in state.items() for path in paths if HEX.fullmatch(digest)}
        lengths = {}
        if all(lengths.setdefault(digests[path], len(content)) == len(content) for path, content in files.items()):
            return digests
    except (KeyError, ValueError, TypeError, AttributeError, RecursionError):
        pass
    return None


def difference(found, identifier, files):
    """The first difference of what stands at a place from an object, by names and lengths; None where there is none."""
    seen = {path: length_of(content) for path, content in files.items()}
    standing = {path: length_of(content) if path.startswith("v1/content/") else content for path, content in found.items()}
    return first_difference(standing, identifier, seen, digests=claimed(found, files))


def found_of(tree, at, identifier, files):
    """The line of an object over a destination."""
    line = {"at": at, "id": identifier, "to": place(identifier)}
    standing = below(tree, f"ocfl/{place(identifier)}")
    if not standing:
        return {"as": "absent", **line}
    first = difference(standing, identifier, files)
    return {"as": "differs", **line, "path": first[0], "why": first[1]} if first else {"as": "alike", **line, "files": len(files)}


def log_of(entries, *more):
    """A whole log, with its end line, which counts lines of these kinds too."""
    counts = {kind: sum(entry["as"] == kind for entry in entries) for kind in ("absent", "alike", "differs", "skip", *more)}
    return b"".join(text_of(entry) + b"\n" for entry in [*entries, {"as": "end", **counts}])


def expected(tree, objects, skips):
    """The log and the status over a destination."""
    entries = [found_of(tree, *one) for one in objects] + [{"as": "skip", "at": at, "cause": cause} for at, cause in skips]
    entries.sort(key=lambda entry: entry["at"])
    return (0 if all(entry["as"] == "alike" for entry in entries) else 1), log_of(entries), b""


def judged(program, folder, name, objects, skips=()):
    """What a quick audit says otherwise than it should, of what stands now; and what it changed."""
    before = read_tree(folder)
    dest = {path[2:]: content for path, content in before.items() if path.startswith("d/")}
    faults = differs(**{name: (audit(program, folder, "--quick"), expected(dest, objects, skips))})
    return faults + [f"{name}: {text}" for text in stores.differences(read_tree(folder), before)]


def each_change(name):
    """Each entry of each object of a store is changed in the root in each way, one after another, and put back."""

    def case(program, folder):
        below_root, objects, skips = STORES[name]
        fresh(folder, store(below_root))
        migrate(program, folder)
        faults = judged(program, folder, f"{name}, as it was made", objects, skips)
        whole = read_tree(f"{folder}/d")
        entries = [path for path in whole if any(f"{path}/".startswith(f"ocfl/{place(one)}/") for _, one, _ in objects)]
        for path in entries[:: max(1, len(entries) // 8)]:
            for what, change in changes(path, whole[path]):
                change(f"{folder}/d/{path}")
                faults += judged(program, folder, f"{name}, {path}: {what}", objects, skips)
                subprocess.run(["rm", "-rf", f"{folder}/d/ocfl"], check=True)
                build(f"{folder}/d", whole)
        return faults

    return case


def since_then(program, folder):
    """What became of the store since: a file that is longer, shorter, new or gone is told by its path, and one of the same length isn't. Of two files
    that were equal each length counts."""
    files = {"a": b"a" * 20000, "b": b"a" * 20000, "c": b"c", "d/e": b"c", "f": b""}
    fresh(folder, store({f"ab/c/obj/{path}": content for path, content in files.items()}))
    migrate(program, folder)
    others = [(path, content) for path in files for content in (b"", b"x", b"y" * 20000, b"z" * 20001)]
    faults = []
    for path, content in (*others, ("g", b""), ("d/g", b"1"), ("a", stores.GONE), ("b", stores.GONE), ("f", stores.GONE)):
        now = {**files, path: content}
        now = {one: held for one, held in now.items() if held != stores.GONE}
        build(f"{folder}/s/pairtree_root/ab/c/obj", {path: content})
        faults += judged(program, folder, f"{path}, {str(content)[:9]}", [("ab/c/obj", "abc", now)])
        build(f"{folder}/s/pairtree_root/ab/c/obj", {**({path: stores.GONE} if path not in files else {}), **files})
    same = {"a": b"b" * 20000, "b": b"c" * 20000, "c": b"d", "d/e": b"e", "f": b""}
    build(f"{folder}/s/pairtree_root/ab/c/obj", same)
    line = {"as": "alike", "at": "ab/c/obj", "files": 5, "id": "abc", "to": place("abc")}
    faults += differs(alike=(audit(program, folder, "--quick"), (0, log_of([line]), b"")))
    return faults + differs(whole=(audit(program, folder)[0], 1))


def inventories(program, folder):
    """An inventory that has other digests, or none for a file, or isn't of these files differs; one that only says another moment fits."""
    objects = [("ab/c/obj", "abc", ABC)]
    fresh(folder, ONE)
    migrate(program, folder)
    to, faults = f"{folder}/d/ocfl/{place('abc')}", []
    whole = object_files("abc", ABC)["inventory.json"]
    texts = [b"", b"{", b"null", b"\xff", b"{}", b'{"versions":{"v1":[]}}', b"[" * 10000, whole.replace(b"a.txt", b"b.txt"), whole + b"\n"]
    texts += [object_files("abd", ABC)["inventory.json"], object_files("abc", {})["inventory.json"], object_files("abc", ABC, message="m")["inventory.json"]]
    texts.append(json.dumps(json.loads(whole)).encode())
    for text in texts:
        build(to, stores.with_inventory(text))
        faults += judged(program, folder, f"inventory {text[:30]}", objects)
    other = object_files("abc", {"a.txt": b"abd"})
    build(to, {path: content for path, content in other.items() if not path.startswith("v1/content/")})
    line = {"as": "alike", "at": "ab/c/obj", "files": 1, "id": "abc", "to": place("abc")}
    return faults + differs(claimed=(audit(program, folder, "--quick"), (0, log_of([line]), b"")))


def unread(program, folder):
    """No file of an object is opened, on either side, and none has to be readable."""
    fresh(folder, store({"ab/c/obj/a": b"1", "ab/c/obj/d/b": b"22", "ab/d/obj/e": b""}))
    migrate(program, folder)
    status, lines = lines_of_trace(folder, "open,openat", [program, "audit", "--quick", "s", "d"])
    wrong = [line for line in lines if re.search(r"/obj/(?:a|d/b|e)\"|/v1/content/(?:a|d/b|e)\"", line)]
    faults = differs(opened=((status, wrong), (0, [])))
    shutil.copy(program, f"{folder}/program")
    subprocess.run(["chmod", "-R", "a+rX", folder], check=True)
    hidden = [f"{folder}/s/pairtree_root/ab/c/obj/a", f"{folder}/d/ocfl/{place('abc')}/v1/content/a"]
    for path in hidden:
        os.chmod(path, 0)
    command = [*(() if os.geteuid() else as_nobody()), f"{folder}/program", "audit", "--quick", f"{folder}/s", f"{folder}/d"]
    done = subprocess.run(command, capture_output=True, timeout=120, check=False)
    return faults + differs(unreadable=((done.returncode, done.stderr), (0, b"")))


def long_files(program, folder):
    """Files are told apart by lengths that no one would read: sparse ones of 1 TiB. One of more than a run carries is passed over as by a run."""
    fresh(folder, ONE)
    migrate(program, folder)
    to = f"{folder}/d/ocfl/{place('abc')}/v1/content/a.txt"
    at = f"{folder}/s/pairtree_root/ab/c/obj/a.txt"
    line = {"at": "ab/c/obj", "id": "abc", "to": place("abc")}
    alike = {"as": "alike", **line, "files": 1}
    unlike = {"as": "differs", **line, "path": "v1/content/a.txt", "why": "bytes"}
    limit = {"as": "skip", "at": "ab/c", "cause": "limit"}
    faults = []
    for name, here, there, wanted in (("equal", 1 << 40, 1 << 40, alike), ("longer", (1 << 40) + 1, 1 << 40, unlike), ("over", (1 << 43) + 1, 1 << 40, limit)):
        try:
            os.truncate(at, here)
            os.truncate(to, there)
        except OSError:
            continue
        faults += differs(**{name: (audit(program, folder, "--quick"), (0 if wanted is alike else 1, log_of([wanted]), b""))})
    return faults


def with_others(program, folder):
    """With `--extra`, `--skips-ok`, `--verbose` and shares it goes as any audit, and a log of it is one for `--expect`."""
    fresh(folder, store({"ab/c/obj/a.txt": b"abc", "ab/d/obj/f": b"1", "x": DIR}))
    migrate(program, folder)
    build(f"{folder}/d", {**stored("xyz", ABC), "ocfl/more": b""})
    alike = [{"as": "alike", "at": f"ab/{name}/obj", "files": 1, "id": f"ab{name}", "to": place(f"ab{name}")} for name in "cd"]
    skip = {"as": "skip", "at": "x", "cause": "empty"}
    beside = sorted([extra("xyz"), stray("more")], key=lambda entry: entry["to"])
    counts = {"absent": 0, "alike": 2, "as": "end", "differs": 0, "extra": 1, "skip": 1, "stray": 1}
    whole = b"".join(text_of(entry) + b"\n" for entry in [*alike, skip, *beside, counts])
    faults = differs(extra=(audit(program, folder, "--quick", "--extra"), (1, whole, b"")))
    faults += differs(skips=(audit(program, folder, "--quick", "--skips-ok"), (0, log_of([*alike, skip]), b"")))
    said = audit(program, folder, "--quick", "--verbose")[2].decode()
    summary = r"pairtree2ocfl: 2 alike, 0 absent, 0 different, 1 skipped \(empty 1\), 2 files, 0:0\d\n"
    faults += differs(summary=(re.fullmatch(summary, said) is not None, True))
    parts = [audit(program, folder, "--quick", "--share", f"{number}/2")[1].splitlines(keepends=True)[:-1] for number in (1, 2)]
    faults += differs(shares=(sorted(sum(parts, [])), sorted(log_of([*alike, skip]).splitlines(keepends=True)[:-1])))
    build(folder, {"quick.log": log_of([*alike, skip])})
    status, _, err = audit(program, folder, "--quick", "--expect", f"{folder}/quick.log", "--event", f"{folder}/event")
    with open(f"{folder}/event", encoding="utf-8") as file:
        event = json.load(file)
    lines = {"absent": 0, "alike": 2, "differs": 0, "skip": 1}
    return faults + differs(expected=((status, err), (1, b"")), event=((event["options"]["quick"], event["lines"], event["bytes"]), (True, lines, 0)))


CASES = [
    *(Alone(f"quick audit: each change of {name}", each_change(name)) for name in STORES),
    Alone("quick audit: what changed since", since_then),
    Alone("quick audit: inventories", inventories),
    Alone("quick audit: no file is read", unread),
    Alone("quick audit: long files", long_files),
    Alone("quick audit: beside other options", with_others),
]
