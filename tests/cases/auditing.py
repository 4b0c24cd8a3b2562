"""Cases of `audit`: the root held against the store. What it must say is found here from both trees, by the rules of OCFL 1.1 and of
extension 0003, apart from the program."""

import fcntl
import json
import os
import re
import select
import shutil
import subprocess

import stores
from alone import Alone, differs
from options import ROOT_ITSELF, many
from running import MEANT, as_nobody
from stores import ABC, DIR, ONE, Link, build, object_files, place, read_tree, root, store, stored, text_of
from tally import Skipped

RUN_IN_USE = b"pairtree2ocfl: another run has the destination\n"
MISSING, EXTRA, KIND, BYTES = "missing", "extra", "kind", "bytes"

# Stores by their names: what lies below pairtree_root, and of each object its folder, its identifier and its files; with what is skipped.
STORES = {
    "one file": ({"ab/c/obj/a.txt": b"abc"}, [("ab/c/obj", "abc", ABC)], []),
    "an empty file": ({"ab/c/obj/e": b""}, [("ab/c/obj", "abc", {"e": b""})], []),
    "equal files": (
        {"ab/c/obj/a": b"x", "ab/c/obj/d/b": b"x", "ab/c/obj/d/c": b"y"},
        [("ab/c/obj", "abc", {"a": b"x", "d/b": b"x", "d/c": b"y"})],
        [],
    ),
    "folders in one another": (
        {"ab/c/obj/d/e/f/g": b"deep", "ab/c/obj/d/h": b"h", "ab/c/obj/z": b"z"},
        [("ab/c/obj", "abc", {"d/e/f/g": b"deep", "d/h": b"h", "z": b"z"})],
        [],
    ),
    "names of the inventory": (
        {"ab/c/obj/inventory.json": b"{}", "ab/c/obj/v1/inventory.json": b"[]", "ab/c/obj/inventory.json.sha512": b"s"},
        [("ab/c/obj", "abc", {"inventory.json": b"{}", "v1/inventory.json": b"[]", "inventory.json.sha512": b"s"})],
        [],
    ),
    "blocks": (
        {"ab/c/obj/eight": b"8" * 8192, "ab/c/obj/more": b"m" * 8193, "ab/c/obj/twice": b"t" * 16384},
        [("ab/c/obj", "abc", {"eight": b"8" * 8192, "more": b"m" * 8193, "twice": b"t" * 16384})],
        [],
    ),
    "two objects": (
        {"ab/c/obj/a": b"1", "ab/d/obj/a": b"2"},
        [("ab/c/obj", "abc", {"a": b"1"}), ("ab/d/obj", "abd", {"a": b"2"})],
        [],
    ),
    "an object without files": ({"ab/c/obj/empty": DIR}, [("ab/c/obj", "abc", {})], []),
    "a skip": (
        {"ab/c/obj/a": b"1", "ab/d": DIR},
        [("ab/c/obj", "abc", {"a": b"1"})],
        [("ab/d", "empty")],
    ),
    "many files": (
        {f"ab/c/obj/{number:03}": bytes([number]) for number in range(60)},
        [("ab/c/obj", "abc", {f"{number:03}": bytes([number]) for number in range(60)})],
        [],
    ),
}


def audit(program, folder, *words, source="s", dest="d"):
    """The status and both streams of an audit."""
    command = [program, "audit", *words, f"{folder}/{source}", f"{folder}/{dest}"]
    done = subprocess.run(command, capture_output=True, timeout=300, check=False)
    return done.returncode, done.stdout, done.stderr


def fresh(folder, tree):
    """A store with these entries in place of the one that stands, and an empty destination."""
    subprocess.run(["rm", "-rf", f"{folder}/s", f"{folder}/d"], check=True)
    build(folder, {"s": DIR, "d": DIR})
    build(f"{folder}/s", tree)


def migrate(program, folder, *words):
    """A migration that has to come to its end."""
    command = [program, "migrate", *MEANT, *words, f"{folder}/s", f"{folder}/d"]
    done = subprocess.run(command, capture_output=True, timeout=300, check=False)
    if done.returncode > 1:
        raise OSError(done.stderr)
    return done.stdout


def own_order(identifier, files, algorithm, digests=None):
    """The entries of an object in the order in which it is made: its folders before what is in them."""
    made, tree = [""], object_files(identifier, files, algorithm, digests)
    inventories = [f"{above}{name}" for above in ("v1/", "") for name in ("inventory.json", f"inventory.json.{algorithm}")]
    contents = [path for path in tree if path.startswith("v1/content/")]
    for path in ["0=ocfl_object_1.1", "v1", *contents, *inventories]:
        names = path.split("/")
        made += [above for n in range(1, len(names)) if (above := "/".join(names[:n])) not in made]
        made += [path] if path not in made else []
    return made


def meta_in(text):
    """What an inventory says of its version beside its state, or nothing where a run could not have said it."""
    try:
        version = json.loads(text)["versions"]["v1"]
        meta = {key: version[key] for key in ("created", "message", "user")}
    except (ValueError, KeyError, TypeError, RecursionError):
        return {}
    texts = [meta["created"], meta["message"], *(meta["user"].values() if isinstance(meta["user"], dict) else [0])]
    return meta if all(isinstance(text, str) for text in texts) else {}


def first_difference(found, identifier, files, algorithm="sha512", digests=None):
    """The first difference of what stands at a place, by its paths there ('' the place itself), from the object with these digests, or those of its
    files; None where there is none."""
    meta = meta_in(found.get("v1/inventory.json", b""))
    wanted = object_files(identifier, files, algorithm, digests, **meta)
    order = own_order(identifier, files, algorithm, digests)
    for path in order:
        if path not in found:
            return (path, MISSING)
        content = wanted.get(path, DIR)
        if (content == DIR) != (found[path] == DIR) or not isinstance(found[path], (bytes, str)):
            return (path, KIND)
        if content != DIR and not isinstance(found[path], bytes):
            return (path, KIND)
        if content != found[path]:
            return (path, BYTES)
    extra = sorted((path for path in found if path not in order), key=str.encode)
    return (extra[0], EXTRA) if extra else None


def below(tree, path):
    """What stands at a path of a tree and below it."""
    inner = {entry[len(path) + 1 :]: content for entry, content in tree.items() if entry.startswith(path + "/")}
    return {"": tree[path], **inner} if path in tree else {}


def found_of(tree, at, identifier, files, algorithm="sha512", layout=stores.BY_DEFAULT):
    """The line of an object over a destination."""
    to = place(identifier, layout)
    line = {"at": at, "id": identifier, "to": to}
    standing = below(tree, f"ocfl/{to}")
    if not standing:
        return {"as": "absent", **line}
    difference = first_difference(standing, identifier, files, algorithm)
    if difference:
        return {"as": "differs", **line, "path": difference[0], "why": difference[1]}
    size = sum(len(content) for content in files.values())
    empty = 1 if not files else 0
    return {"as": "same", **line, "bytes": size, "empty": empty, "files": len(files)}


def log_of(entries):
    """A whole log of an audit, with its end line."""
    counts = {kind: sum(entry["as"] == kind for entry in entries) for kind in ("absent", "differs", "same", "skip")}
    return b"".join(text_of(entry) + b"\n" for entry in [*entries, {"as": "end", **counts}])


def expected(tree, objects, skips):
    """The log and the status over a destination."""
    entries = [found_of(tree, at, identifier, files) for at, identifier, files in objects]
    entries += [{"as": "skip", "at": at, "cause": cause} for at, cause in skips]
    entries.sort(key=lambda entry: entry["at"])
    return (0 if all(entry["as"] == "same" for entry in entries) else 1), log_of(entries), b""


def judged(program, folder, name, objects, skips):
    """What an audit says otherwise than it should, of what stands now; and what it changed."""
    before = read_tree(folder)
    dest = {path[2:]: content for path, content in before.items() if path.startswith("d/")}
    faults = differs(**{name: (audit(program, folder), expected(dest, objects, skips))})
    return faults + [f"{name}: {text}" for text in stores.differences(read_tree(folder), before)]


def changes(path, content):
    """Ways to change what stands at a path, each with its name."""
    if content == DIR:
        yield "a file for the folder", lambda at: (subprocess.run(["rm", "-r", at], check=True), stores.put(at, b""))
    else:
        yield "emptied", lambda at: stores.put(at, b"")
        yield "one byte more", lambda at: stores.put(at, content + b"x")
        if content:
            yield "one byte less", lambda at: stores.put(at, content[:-1])
            yield "another byte", lambda at: stores.put(at, content[:-1] + bytes([content[-1] ^ 1]))
            yield "another first byte", lambda at: stores.put(at, bytes([content[0] ^ 1]) + content[1:])
        yield "a folder for the file", lambda at: (os.remove(at), os.mkdir(at))
        yield "a link to its bytes", lambda at: (os.rename(at, f"{at}.kept"), os.symlink(f"{os.path.basename(at)}.kept", at))
    yield "taken away", lambda at: subprocess.run(["rm", "-r", at], check=True)
    yield "a file beside it", lambda at: stores.put(f"{at}.extra", b"")


def each_change(name):
    """Each entry of each object of a store is changed in each way, one after another, and put back."""

    def case(program, folder):
        below_root, objects, skips = STORES[name]
        fresh(folder, store(below_root))
        migrate(program, folder)
        faults = judged(program, folder, f"{name}, as it was made", objects, skips)
        whole = read_tree(f"{folder}/d")
        entries = [path for path in whole if any(f"{path}/".startswith(f"ocfl/{place(one)}/") for _, one, _ in objects)]
        for path in entries[:: max(1, len(entries) // 12)]:
            for what, change in changes(path, whole[path]):
                change(f"{folder}/d/{path}")
                faults += judged(program, folder, f"{name}, {path}: {what}", objects, skips)
                subprocess.run(["rm", "-rf", f"{folder}/d/ocfl"], check=True)
                build(f"{folder}/d", whole)
        return faults

    return case


def another_meta(program, folder):
    """Moment, user and message may be any that a run could give; what it could not give is a difference."""
    fresh(folder, ONE)
    to = f"{folder}/d/ocfl/{place('abc')}"
    build(f"{folder}/d", root())
    faults = []
    user = {"name": "Grace"}
    good = [
        {"created": "1999-12-31T23:59:59+01:00"},
        {"message": ""},
        {"message": "\u00e9 \"\\\u0001\n"},
        {"user": {"address": "mailto:g@example.org", "name": "Grace"}},
        {"created": "2030-01-01T00:00:00Z", "message": "m", "user": user},
    ]
    bad = [
        {"created": "yesterday"},
        {"created": 1},
        {"message": None},
        {"user": {"name": ""}},
        {"user": {"address": "", "name": "Grace"}},
        {"user": {"name": "Grace", "more": "x"}},
        {"user": "Grace"},
        {"more": 1},
    ]
    for meta in good + bad:
        subprocess.run(["rm", "-rf", to], check=True)
        build(to, object_files("abc", ABC, **meta))
        status, out, err = audit(program, folder)
        path = None if meta in good else ("v1/inventory.json", BYTES)
        line = found_of({f"ocfl/{place('abc')}": DIR}, "ab/c/obj", "abc", ABC)
        line = {key: line[key] for key in ("at", "id", "to")}
        if path:
            entries = [{"as": "differs", **line, "path": path[0], "why": path[1]}]
        else:
            entries = [{"as": "same", **line, "bytes": 3, "empty": 0, "files": 1}]
        faults += differs(**{f"{meta}": ((status, out, err), (1 if path else 0, log_of(entries), b""))})
    return faults


def another_tool(program, folder):
    """What another tool made of an object, or with other spaces in its inventory, differs."""
    fresh(folder, ONE)
    migrate(program, folder)
    to = f"{folder}/d/ocfl/{place('abc')}"
    objects = [("ab/c/obj", "abc", ABC)]
    build(f"{to}/v2", {"inventory.json": b"{}"})
    faults = judged(program, folder, "v2", objects, [])
    subprocess.run(["rm", "-r", f"{to}/v2"], check=True)
    text = json.dumps(json.loads(object_files("abc", ABC)["inventory.json"])).encode()
    build(to, stores.with_inventory(text))
    faults += judged(program, folder, "spaces", objects, [])
    for text in (b"", b"{", b"null", b"\xff", b"{}", b'{"versions":{"v1":[]}}', b"[" * 10000):
        build(to, stores.with_inventory(text))
        faults += judged(program, folder, f"inventory {text[:20]}", objects, [])
    build(to, stores.with_inventory(object_files("abc", ABC)["inventory.json"]))
    build(to, {"inventory.json": stores.with_inventory(object_files("abc", ABC, message="other")["inventory.json"])["inventory.json"]})
    faults += judged(program, folder, "two inventories that differ", objects, [])
    return faults


def no_root(program, folder):
    """Without ocfl all is absent; a root of another layout is fault 8, and a folder that isn't there fault 2, whose reason comes once, with
    --verbose too."""
    fresh(folder, ONE)
    build(folder, {"other": DIR})
    objects = [("ab/c/obj", "abc", ABC)]
    faults = judged(program, folder, "no root", objects, [])
    build(f"{folder}/d", {"staging/x": b""})
    faults += judged(program, folder, "something in staging", objects, [])
    build(f"{folder}/d", root())
    faults += judged(program, folder, "a root without objects", objects, [])
    target = b"pairtree2ocfl: fault 8: the ocfl directory of the destination cannot be used\n"
    faults += differs(layout=(audit(program, folder, "--tuples", "2"), (3, b"", target)))
    config = "ocfl/extensions/0003-hash-and-id-n-tuple-storage-layout/config.json"
    other = f"pairtree2ocfl: {folder}/d/{config}: it is not what this program makes there with these tuples\n".encode()
    faults += differs(other=(audit(program, folder, "--verbose", "--tuples", "2"), (3, b"", target + other)))
    build(f"{folder}/e", {"ocfl": b""})
    other = f"pairtree2ocfl: {folder}/e/ocfl: it is not what this program makes there with these tuples\n".encode()
    faults += differs(file=(audit(program, folder, "--verbose", dest="e"), (3, b"", target + other)))
    os.mkfifo(f"{folder}/pipe")
    for dest, reason in {"absent": "No such file or directory (os error 2)", "pipe": "Not a directory (os error 20)"}.items():
        unread = f"pairtree2ocfl: fault 2: cannot read the destination\npairtree2ocfl: {folder}/{dest}/: {reason}\n".encode()
        faults += differs(**{dest: (audit(program, folder, dest=dest), (3, b"", unread))})
        unlocked = f"pairtree2ocfl: {folder}/pipe: it is not locked: not a directory\n".encode() if dest == "pipe" else b""
        faults += differs(**{f"{dest}, verbose": (audit(program, folder, "--verbose", dest=dest), (3, b"", unlocked + unread))})
    why = f"{folder}/other: it holds no file pairtree_version0_1 or no directory pairtree_root"
    source = f"pairtree2ocfl: fault 5: not a Pairtree 0.1 store\npairtree2ocfl: {why}\n".encode()
    for words in ((), ("--verbose",)):
        faults += differs(**{f"store {words}": (audit(program, folder, *words, source="other"), (3, b"", source))})
    return faults


def two_folders(program, folder):
    """Two folders of one identifier: each is compared."""
    fresh(folder, store({"ab/c/obj/a.txt": b"abc", "ab/^6/3/obj/a.txt": b"abc"}))
    migrate(program, folder)
    objects = [("ab/^6/3/obj", "abc", ABC), ("ab/c/obj", "abc", ABC)]
    faults = judged(program, folder, "equal ones", objects, [])
    build(f"{folder}/s/pairtree_root", {"ab/c/obj/a.txt": b"abd"})
    objects = [("ab/^6/3/obj", "abc", ABC), ("ab/c/obj", "abc", {"a.txt": b"abd"})]
    return faults + judged(program, folder, "others", objects, [])


def in_use(program, folder):
    """A root that a run has isn't audited; nor is one that lies in the store, or one that is named itself."""
    fresh(folder, ONE)
    held = os.open(f"{folder}/d", os.O_RDONLY)
    try:
        fcntl.flock(held, fcntl.LOCK_EX)
        faults = differs(held=(audit(program, folder), (3, b"", RUN_IN_USE)))
    finally:
        os.close(held)
    overlap = b"pairtree2ocfl: SOURCE and DEST lie in one another\n"
    faults += differs(overlap=(audit(program, folder, dest="s"), (2, b"", overlap)))
    migrate(program, folder)
    stands = read_tree(f"{folder}/d")
    for dest in ("d/ocfl", f"d/ocfl/{place('abc')}"):
        faults += differs(**{dest: (audit(program, folder, dest=dest), (2, b"", ROOT_ITSELF))})
    return faults + differs(stands=(read_tree(f"{folder}/d"), stands))


def side_by_side(program, folder):
    """Audits of one root are made at the same time; a run or a rehearsal is refused while one is under way, and isn't afterwards. Here the first
    waits, since nobody reads its log, which is longer than a pipe holds."""
    fresh(folder, ONE)
    many(folder)
    migrate(program, folder)
    alone = audit(program, folder)
    stands = read_tree(f"{folder}/d")
    words = {"migrate": MEANT, "rehearsal": (*MEANT, "--dry-run")}
    with subprocess.Popen([program, "audit", f"{folder}/s", f"{folder}/d"], stdout=subprocess.PIPE) as first:
        select.select([first.stdout], [], [], 120)
        faults = differs(second=(audit(program, folder), alone), share=(audit(program, folder, "--share", "1/2")[0], 0))
        for name, given in words.items():
            command = [program, "migrate", *given, f"{folder}/s", f"{folder}/d"]
            done = subprocess.run(command, capture_output=True, timeout=120, check=False)
            faults += differs(**{name: ((done.returncode, done.stdout, done.stderr), (3, b"", RUN_IN_USE))})
        out, _ = first.communicate(timeout=120)
    faults += differs(first=((first.returncode, out), alone[:2]), stands=(read_tree(f"{folder}/d"), stands))
    return faults + differs(afterwards=(migrate(program, folder).count(b'"as":"present"'), out.count(b'"as":"same"')))


def options(program, folder):
    """An audit with the options of its run finds the same; with others it doesn't."""
    fresh(folder, store({"ab/c/obj/a.txt": b"abc", "ab/c/.DS_Store": b"x", "ab/d/x": b"1", "ab/d/y": b"2"}))
    words = ("--digest", "sha256", "--tuples", "1", "--tuple-size", "2", "--gather", "--ignore", ".DS_Store")
    migrate(program, folder, *words)
    status, out, err = audit(program, folder, *words)
    faults = differs(same=((status, out.count(b'"as":"same"'), err), (0, 2, b"")))
    for share in ("1/2", "2/2"):
        status, out, err = audit(program, folder, *words, "--share", share)
        faults += differs(**{share: ((status, err), (0, b""))})
    status, out, err = audit(program, folder, *words[2:])
    faults += differs(digest=((status, out.count(b'"why":"missing"') + out.count(b'"why":"bytes"'), err), (1, 2, b"")))
    status, out, err = audit(program, folder, "--share", "3/2")
    refused = b"pairtree2ocfl: --share is not K/N with N from 1 to 4096 and K from 1 to N\n"
    faults += differs(share=((status, out, err), (2, b"", refused)))
    status, out, err = audit(program, folder, "--progress", "always", *words)
    return faults + differs(progress=(status, 0))


def skip_lines(program, folder):
    """With --skips-ok an audit has status 0 whose log has same and skip lines alone; an object that is absent or differs makes it 1."""
    fresh(folder, store({"ab/c/obj/a.txt": b"abc", "ab/d": DIR}))
    absent = audit(program, folder, "--skips-ok")[0]
    migrate(program, folder)
    found = [audit(program, folder, *words) for words in ((), ("--skips-ok",))]
    faults = differs(status=([status for status, _, _ in found], [1, 0]), logs=(found[0][1:], found[1][1:]), absent=(absent, 1))
    build(f"{folder}/s/pairtree_root", {"ab/c/obj/a.txt": b"abd"})
    return faults + differs(differing=(audit(program, folder, "--skips-ok")[0], 1))


def unreadable(program, folder):
    """What can't be read in the root is fault 2; root, who can read all, asks as another user."""
    fresh(folder, ONE)
    migrate(program, folder)
    shutil.copy(program, f"{folder}/program")
    subprocess.run(["chmod", "-R", "a+rX", folder], check=True)
    os.chmod(f"{folder}/d/ocfl/{place('abc')}/v1/content/a.txt", 0)
    command = [*(() if os.geteuid() else as_nobody()), f"{folder}/program", "audit", f"{folder}/s", f"{folder}/d"]
    done = subprocess.run(command, capture_output=True, timeout=120, check=False)
    wanted = (3, b"", b"pairtree2ocfl: fault 2: cannot read the destination\n")
    return differs(unreadable=((done.returncode, done.stdout, done.stderr), wanted))


def link_on_the_way(program, folder):
    """Links on the way to a place aren't followed."""
    fresh(folder, ONE)
    migrate(program, folder)
    first = f"{folder}/d/ocfl/{place('abc').split('/')[0]}"
    os.rename(first, f"{folder}/d/elsewhere")
    build(folder, {f"d/ocfl/{place('abc').split('/')[0]}": Link("../elsewhere")})
    return judged(program, folder, "a link", [("ab/c/obj", "abc", ABC)], [])


def shared_contents(program, folder):
    """What stands where a run stores nothing, since an earlier file has the bytes, is extra, whatever it is; also where the contents before and behind it differ."""
    files = {"a": b"a" * 20000, "b": b"a" * 20000, "c": b"c", "d/e": b"c", "f": b"f" * 8192}
    objects = [("ab/c/obj", "abc", files)]
    fresh(folder, store({f"ab/c/obj/{path}": content for path, content in files.items()}))
    migrate(program, folder)
    whole, faults = read_tree(f"{folder}/d"), []
    content = f"{folder}/d/ocfl/{place('abc')}/v1/content"
    beside = [files["b"], files["b"][:-1], files["b"] + b"a", b"", files["f"]]
    for path in ("b", "d/e"):
        for entry in (*beside, files[path], DIR, Link("a")):
            for other in (None, "a", "c", "f"):
                build(content, {path: entry, **({other: b"other"} if other else {})})
                faults += judged(program, folder, f"{path}, {other}", objects, [])
                subprocess.run(["rm", "-rf", f"{folder}/d/ocfl"], check=True)
                build(f"{folder}/d", whole)
    return faults


def read_once(program, folder):
    """Each file of the store is read once, for its digest, and each of the root once, beside it: so the system counts the bytes of both."""
    files = {"a": b"a" * 500000, "b/c": b"b" * 8192, "b/d": b"d", "e": b"", "f": b"f" * 300000, "g": b"a" * 500000}
    fresh(folder, store({f"ab/{at}/obj/{path}": content for at in ("c", "d") for path, content in files.items()}))
    migrate(program, folder)
    command = [program, "audit", f"{folder}/s", f"{folder}/d"]
    with subprocess.Popen(command, stdout=subprocess.DEVNULL) as child:
        os.waitid(os.P_PID, child.pid, os.WEXITED | os.WNOWAIT)
        try:
            with open(f"/proc/{child.pid}/io", encoding="ascii") as counts:
                read = int(re.search(r"rchar: (\d+)", counts.read())[1])
        except OSError as error:
            raise Skipped(f"the system doesn't count what a process reads: {error}") from error
    sizes = [len(content) for content in files.values()]
    least = 2 * (sum(sizes) + sum(sizes[:-1]))
    return differs(status=(child.returncode, 0), read=(least <= read < least + 100000, True))


CASES = [
    *(Alone(f"audit: each change of {name}", each_change(name)) for name in STORES),
    Alone("audit: another moment, user and message", another_meta),
    Alone("audit: what another tool made", another_tool),
    Alone("audit: no root", no_root),
    Alone("audit: two folders of one identifier", two_folders),
    Alone("audit: a root in use", in_use),
    Alone("audit: two side by side", side_by_side),
    Alone("audit: options", options),
    Alone("audit: skips that are well", skip_lines),
    Alone("audit: unreadable files", unreadable),
    Alone("audit: a link on the way", link_on_the_way),
    Alone("audit: shared contents", shared_contents),
    Alone("audit: each file is read once", read_once),
]
