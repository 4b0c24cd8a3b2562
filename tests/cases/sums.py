"""Tests of `roots.py sums`, over storage roots that the tests write: the lists are those of sha512sum and sha256sum themselves, of the root and of the
store, and these read them."""

import contextlib
import hashlib
import json
import os
import pty
import resource
import subprocess
import sys

from alone import Alone, differs
from joining import ROOTS, roots
from running import MEANT
from stores import DIR, GONE, Link, build, done, lines, object_files, place, present, read_tree, root, store, stored, text_of, whole_log, with_inventory

# Names that sha512sum escapes, and names that look like those, or like lines of it.
NAMES = {
    "line\nfeed": b"1",
    "return\r": b"2",
    "back\\slash": b"3",
    "\\n": b"4",
    "\\\\": b"5",
    "\n": b"6",
    " blank  ": b"7",
    "*star": b"8",
    "#hash": b"9",
    "é\u2028\u202e": b"10",
    "a/b c/d": b"11",
    "same": b"1",
    "-": b"",
}
# The same names as lines have them, by hand, after the manual of GNU coreutils ("md5sum invocation"): with a `\` before the line, or without.
ESCAPED = {"line\nfeed": b"line\\nfeed", "return\r": b"return\\r", "back\\slash": b"back\\\\slash", "\\n": b"\\\\n", "\\\\": b"\\\\\\\\", "\n": b"\\n"}


def sums(folder, *words):
    """What `sums` answers: its status, its list as it is, and what it said."""
    done_it = subprocess.run([*ROOTS, "sums", *words], cwd=folder, capture_output=True, timeout=120)
    said = done_it.stderr.decode()
    if "Traceback" in said:
        raise OSError(said)
    return done_it.returncode, done_it.stdout, said


def by_hand(front, files, algorithm="sha512"):
    """The lines of files below a path, by hand."""
    for name in sorted(files):
        escape, shown = b"\\" * (name in ESCAPED), ESCAPED.get(name, name.encode())
        yield escape + hashlib.new(algorithm, files[name]).hexdigest().encode() + b"  " + front.encode() + shown + b"\n"


def written(folder, algorithm, paths):
    """The list that sha512sum, or sha256sum, itself writes of these files."""
    return subprocess.run([f"{algorithm}sum", "--", *sorted(paths)], cwd=folder, capture_output=True, check=True, timeout=60).stdout


def read(folder, text, algorithm="sha512"):
    """What sha512sum, or sha256sum, says of a list: its status, how many files are as they should be, and what isn't said of a file."""
    done_it = subprocess.run([f"{algorithm}sum", "-c", "--strict"], cwd=folder, input=text, capture_output=True, timeout=60)
    return done_it.returncode, done_it.stdout.count(b": OK\n"), done_it.stderr


def contents(folder):
    """The paths of the content files of a root."""
    return [path for path, held in read_tree(folder).items() if "/content/" in path and isinstance(held, bytes)]


def of_roots(program, folder):
    """The list of a root is the one that sha512sum or sha256sum itself writes of its content files, and that it reads there; equal files stand once."""
    for name, algorithm in (("a", "sha512"), ("b", "sha256")):
        two = (stored("abc", NAMES, algorithm=algorithm), stored("ark:/x", {"f": b"1"}, algorithm=algorithm))
        build(f"{folder}/{name}", root(*two, stored("é" * 60, {"g": b""})))
    faults = []
    kept = {name: held for name, held in NAMES.items() if name != "same"}
    for name, algorithm, objects in (("a", "sha512", ("abc", "ark:/x", "é" * 60)), ("b", "sha256", ("abc", "ark:/x"))):
        top = f"{folder}/{name}/ocfl"
        status, listed, said = sums(folder, *(() if name == "a" else ("--digest", "sha256")), f"{name}/ocfl")
        paths = [path for path in contents(top) if any(path.startswith(place(it)) for it in objects)]
        faults += differs(**{algorithm: ((status, said), (0, "")), f"list of {name}": (listed, written(top, algorithm, paths))})
        faults += differs(**{f"read {name}": (read(top, listed, algorithm), (0, len(paths), b""))})
        front = f"{place('abc')}/v1/content/"
        faults += differs(**{f"by hand {name}": ([it for it in listed.splitlines(True) if front.encode() in it], list(by_hand(front, kept, algorithm)))})
    build(f"{folder}/a/ocfl/{place('abc')}", {"v1/content/\n": b"other", "v1/content/\\n": GONE})
    status, right, said = read(f"{folder}/a/ocfl", sums(folder, "a/ocfl")[1])
    return faults + differs(changed=((status, right, said.count(b"WARNING")), (1, len(kept), 2)))


def of_stores(program, folder):
    """By the log of a run the list is one of the store's own files, each with its name there, which sha512sum reads in the store: of twins of the one that
    was carried, of gathered objects too, and equal files each."""
    below = {f"ab/c/obj/{name}": held for name, held in NAMES.items()}
    below |= {"no/t/one": Link("two"), "^6/1d/first/f": b"1", "ad/second/f": b"2", "sp/lit/g": b"3", "sp/li/t/h": b"4", "sp/li/u/h": b"5", "em/pty": DIR}
    subprocess.run(["rm", "-r", f"{folder}/s"], check=True)
    build(f"{folder}/s", store({**below, "gr/g": b"6", "gr/obj/h": b"7"}, b"x:"))
    logs, faults = {}, []
    for log, words in (("run-1.log", ["--gather"]), ("run-2.log", ["--gather"]), ("other.log", ["--gather", "--digest", "sha256"])):
        with open(f"{folder}/{log}", "wb") as file:
            dest = "e" if log == "other.log" else "d"
            os.makedirs(f"{folder}/{dest}", exist_ok=True)
            logs[log] = subprocess.run([program, "migrate", *MEANT, *words, "s", dest], cwd=folder, stdout=file, timeout=120).returncode
    with open(f"{folder}/audit.log", "wb") as file:
        subprocess.run([program, "audit", "--gather", "s", "d"], cwd=folder, stdout=file, timeout=120)
    files = [path for path, held in read_tree(f"{folder}/s/pairtree_root").items() if isinstance(held, bytes)]
    carried = [f"pairtree_root/{path}" for path in files if "/second/" not in path and not path.startswith("no/")]
    wanted = written(f"{folder}/s", "sha512", carried)
    for words in (("run-1.log",), ("run-2.log", "run-1.log"), ("run-1.log", "run-2.log"), ("audit.log",)):
        status, listed, said = sums(folder, "d/ocfl", *words)
        faults += differs(**{" ".join(words): ((status, said), (0, "")), f"list by {words}": (sorted(listed.splitlines()), sorted(wanted.splitlines()))})
        faults += differs(**{f"read by {words}": (read(f"{folder}/s", listed), (0, len(carried), b""))})
    status, listed, said = sums(folder, "e/ocfl", "other.log")
    faults += differs(other=((status, said), (0, "")), read=(read(f"{folder}/s", listed, "sha256"), (0, len(carried), b"")))
    return faults + differs(runs=(logs, dict.fromkeys(logs, 1)), files=(len(carried), len(NAMES) + 6))


def logs_of_several(program, folder):
    """Objects that no log names aren't listed, and are told in one line; so are those of a log that the root lacks. A line `done` goes before `present`,
    the last of several before the first; a last line without an end is told, and isn't one."""
    a, b, c = ({"f": name.encode()} for name in "abc")
    build(folder, root(stored("aa", a), stored("bb", b), stored("cc", c)))
    torn = text_of(done("cc/torn", "cc", c))
    rows = {
        "one": lines(done("aa/obj", "aa", a), present("bb/second", "bb"), {"as": "skip", "at": "x", "cause": "empty"}),
        "two": lines(done("bb/obj", "bb", b), present("bb/second", "bb"), present("aa/other", "aa"), present("cc/1", "cc"), present("cc/2", "cc")),
        "anew": whole_log(done("aa/anew", "aa", a)),
        "gone": whole_log(done("dd/obj", "dd", a), present("ee/obj", "ee")),
        "torn": lines(done("aa/obj", "aa", a)) + torn,
        "audit": lines({**done("bb/obj", "bb", b), "as": "same"}, {**present("aa/obj", "aa"), "as": "absent"}),
    }
    build(folder, rows)
    first = {it: min(map(place, it.split())) for it in ("aa bb cc", "bb cc", "aa cc", "dd ee")}
    unnamed = "roots.py: ocfl: not listed, since no log tells of them: {}, the first is {}\n"
    absent = f"roots.py: ocfl: told by a log, and not there: 2, the first is {first['dd ee']}\n"
    cut = "roots.py: torn: its last line was never finished, and is left out\n"
    faults = []
    for words, status, sites, said in (
        (("one", "two"), 0, {"aa": "aa/obj", "bb": "bb/obj", "cc": "cc/1"}, ""),
        (("two", "one", "anew"), 0, {"aa": "aa/anew", "bb": "bb/obj", "cc": "cc/1"}, ""),
        (("torn",), 1, {"aa": "aa/obj"}, cut + unnamed.format(2, first["bb cc"])),
        (("torn", "two"), 0, {"aa": "aa/obj", "bb": "bb/obj", "cc": "cc/1"}, cut),
        (("gone",), 1, {}, unnamed.format(3, first["aa bb cc"]) + absent),
        (("audit",), 1, {"bb": "bb/obj"}, unnamed.format(2, first["aa cc"])),
    ):
        wanted = b"".join(it for name in sorted(sites, key=place) for it in by_hand(f"pairtree_root/{sites[name]}/", {"f": name[:1].encode()}))
        faults += differs(**{" ".join(words): (sums(folder, "ocfl", *words), (status, wanted, said))})
    few = {"preexec_fn": lambda: resource.setrlimit(resource.RLIMIT_NOFILE, (30, 30))}
    listed = roots(folder, "sums", "ocfl", *(["one", "two"] * 20), **few)
    faults += differs(many=((listed[0], len(listed[1]), listed[2]), (0, 3, "")))
    for bad, said in {b"x\n": "no line of a log", b"[]\n": "no line of a log", b'{"as":"other"}\n': "no line of the log of a run or an audit"}.items():
        build(folder, {"bad": rows["one"] + bad})
        faults += differs(**{repr(bad): (sums(folder, "ocfl", "bad"), (2, b"", f"roots.py: bad:4: it is {said}\n"))})
    for bad in ({"at": 1}, {"at": "../x"}, {"at": "a\0"}, {"to": "/x"}, {"id": "\ud800"}, {"at": ""}):
        build(folder, {"bad": json.dumps({**done("aa/obj", "aa", a), **bad}).encode() + b"\n"})
        faults += differs(**{repr(bad): (sums(folder, "ocfl", "bad"), (2, b"", "roots.py: bad:1: it is no line of a log\n"))})
    return faults + differs(none=(sums(folder, "ocfl", "none")[:2], (2, b"")), folder=(sums(folder, "ocfl", "s")[:2], (2, b"")))


def both_algorithms(program, folder):
    """Of a root with digests of both algorithms those of the first object's are listed, and the others told in one line, with status 1; --digest lists
    either, so that both lists have all."""
    algorithms = {"aa": "sha512", "bb": "sha256", "cc": "sha512", "dd": "sha256", "ee": "sha256"}
    build(folder, root(*(stored(name, {"f": name.encode()}, algorithm=algorithm) for name, algorithm in algorithms.items())))
    build(folder, {"log": whole_log(*(done(f"{name}/obj", name, {"f": b"1"}) for name in algorithms))})
    ordered = sorted(algorithms, key=place)
    first = algorithms[ordered[0]]
    other = "sha256" if first == "sha512" else "sha512"
    left = [place(name) for name in ordered if algorithms[name] == other]
    why = f"since their digests aren't {first}, as those of the first (--digest {other} lists them)"
    told = f"roots.py: ocfl: not listed, {why}: {len(left)}, the first is {left[0]}\n"

    def wanted(algorithm, front):
        return b"".join(it for name in ordered if algorithms[name] == algorithm for it in by_hand(front(name), {"f": name.encode()}, algorithm))

    faults = []
    for front, words in ((lambda name: f"{place(name)}/v1/content/", ()), (lambda name: f"pairtree_root/{name}/obj/", ("log",))):
        faults += differs(first=(sums(folder, "ocfl", *words), (1, wanted(first, front), told)))
        for algorithm in (first, other):
            faults += differs(asked=(sums(folder, "--digest", algorithm, "ocfl", *words), (0, wanted(algorithm, front), "")))
    status, _, said = sums(folder, "--digest", "md5", "ocfl")
    return faults + differs(md5=((status, "the words are wrong" in said), (2, True)))


def later(identifier, states, manifest, algorithm="sha512"):
    """The inventory of an object with these states of its versions, as another program may write it, with its sidecar."""
    versions = {f"v{number}": {"created": "2024-05-01T12:00:00Z", "state": state} for number, state in enumerate(states, 1)}
    head = f"v{len(states)}"
    inventory = {"id": identifier, "type": "https://ocfl.io/1.1/spec/#inventory", "digestAlgorithm": algorithm, "head": head}
    text = json.dumps({**inventory, "manifest": manifest, "versions": versions}, indent=2).encode()
    sidecar = hashlib.new(algorithm, text).hexdigest().encode() + b"\tinventory.json\n"
    return {"0=ocfl_object_1.1": b"ocfl_object_1.1\n", "inventory.json": text, f"inventory.json.{algorithm}": sidecar}


def living_root(program, folder):
    """Of an object with later versions the whole manifest is listed and, by a log, the state of the last; digests are told in lower case."""
    one, two = (hashlib.sha512(text).hexdigest() for text in (b"1", b"2"))
    manifest = {one.upper(): ["v1/content/old"], two: ["v2/content/new", "v2/content/copy"]}
    files = {"v1/content/old": b"1", "v2/content/new": b"2", "v2/content/copy": b"2"}
    held = {**later("aa", [{one: ["old", "gone"]}, {two: ["new"], one.upper(): ["renamed"]}], manifest), **files}
    build(folder, root({f"ocfl/{place('aa')}/{path}": text for path, text in held.items()}))
    build(folder, {"log": whole_log(done("aa/obj", "aa", {}))})
    faults = differs(manifest=(sums(folder, "ocfl"), (0, b"".join(by_hand(f"{place('aa')}/", files)), "")))
    state = b"".join(by_hand("pairtree_root/aa/obj/", {"new": b"2", "renamed": b"1"}))
    return faults + differs(state=(sums(folder, "ocfl", "log"), (0, state, "")), read=(read(f"{folder}/ocfl", sums(folder, "ocfl")[1]), (0, 3, b"")))


def not_listed(program, folder):
    """An object whose inventory can't be read, isn't its sidecar's or has paths that lead elsewhere is told, and not listed; what is no object is told, and
    no link followed. The others are listed."""
    one = hashlib.sha512(b"1").hexdigest()
    bad = {
        "ba": ({"inventory.json": GONE}, "inventory.json isn't there"),
        "bb": ({"inventory.json": b"{}"}, "its inventory isn't whole"),
        "bc": ({"inventory.json.sha512": b"0 inventory.json\n"}, "inventory.json.sha512 isn't that of the inventory"),
        "bd": ({"inventory.json.sha512": GONE}, "inventory.json.sha512 isn't there"),
        "be": (later("other", [{}], {}), "its inventory has the identifier of another place"),
        "bf": (later("bf", [{one: ["../x"]}], {one: ["../x"]}), "its inventory isn't whole"),
        "bg": (later("bg", [{one: ["/etc/x"]}], {one: ["/etc/x"]}), "its inventory isn't whole"),
        "bh": (later("bh", [{"0\n": ["x"]}], {"0\n": ["v1/content/x"]}), "its inventory isn't whole"),
        "bi": (later("bi", [{one: "xy"}], {one: "xy"}), "its inventory isn't whole"),
        "bj": (later("bj", [{}], {}, "md5"), "its digests aren't the program's"),
        "bk": (with_inventory(b"[" * 100000), "its inventory isn't whole"),
        "bl": ({"inventory.json": GONE, "inventory.json ": b"", "x": Link("v1/inventory.json")}, "inventory.json isn't there"),
    }
    build(folder, root(*(stored(name, {"x": b"1"}) for name in ("aa", *bad))))
    for name, (damage, _) in bad.items():
        build(f"{folder}/ocfl/{place(name)}", damage)
    os.rename(f"{folder}/ocfl/{place('bl')}/x", f"{folder}/ocfl/{place('bl')}/inventory.json")
    wanted = [f"roots.py: ocfl/{place(name)}: it isn't listed: {why}" for name, (_, why) in bad.items()]
    build(folder, {"elsewhere": DIR, "log": whole_log(*(done(f"{name}/obj", name, {}) for name in ("aa", *bad)))})
    build(f"{folder}/ocfl", {"fff": Link("../elsewhere"), "notes\x1b": b""})
    strays = [f"roots.py: ocfl/{name}: it isn't a place of the program's, and is left out" for name in ("fff", r"notes\u{1b}")]
    faults = []
    for words, front in ((("ocfl",), f"{place('aa')}/v1/content/"), (("ocfl", "log"), "pairtree_root/aa/obj/")):
        status, listed, said = sums(folder, *words)
        right = (2, b"".join(by_hand(front, {"x": b"1"})), sorted(wanted + strays))
        faults += differs(**{" ".join(words): ((status, listed, sorted(said.splitlines())), right)})
    os.rename(f"{folder}/ocfl/0=ocfl_1.1", f"{folder}/ocfl/x")
    return faults + differs(refused=(sums(folder, "ocfl")[:2], (2, b"")), link=(sums(folder, "s/../ocfl/fff")[:2], (2, b"")))


def outputs(program, folder):
    """A list that can't be written is told, with status 2; where it goes to a terminal no name writes on that."""
    build(folder, root(stored("abc", {"\x1b]0;x\x07\n": b"1", "b": b"2"})))
    with open("/dev/full", "wb") as full:
        status, _, said = roots(folder, "sums", "ocfl", stdout=full)
    faults = differs(full=((status, said), (2, "roots.py: cannot write the output: No space left on device\n")))
    ours, theirs = pty.openpty()
    ended = subprocess.run([*ROOTS, "sums", "ocfl"], cwd=folder, stdout=theirs, stderr=subprocess.PIPE, timeout=60)
    os.close(theirs)
    said = b""
    with contextlib.suppress(OSError):
        while piece := os.read(ours, 65536):
            said += piece
    os.close(ours)
    one, two = said.split(b"\r\n")[:2]
    faults += differs(ended=((ended.returncode, ended.stderr), (0, b"")), two=(two.endswith(b"/b"), True))
    return faults + differs(one=(one.endswith(rb"/v1/content/\u{1b}]0;x\u{7}\\n"), True), raw=(b"\x1b" in said, False))


def memory(program, folder):
    """One object is held at a time: many whose inventories are large are listed in less memory than half of them take."""
    files = {f"{number:05}": b"%d" % number for number in range(8000)}
    for number in range(30):
        held = {path: text for path, text in object_files(f"{number}", files).items() if "content" not in path}
        build(folder, root({f"ocfl/{place(str(number))}/{path}": text for path, text in held.items()}))
    most = 100 << 20
    few = {"preexec_fn": lambda: resource.setrlimit(resource.RLIMIT_AS, (most, most))}
    done_it = subprocess.run([*ROOTS, "sums", "ocfl"], cwd=folder, capture_output=True, timeout=120, **few)
    return differs(listed=((done_it.returncode, done_it.stdout.count(b"\n"), done_it.stderr), (0, 240000, b"")))


CASES = [
    Alone("sums of roots", of_roots),
    Alone("sums of stores, by logs", of_stores),
    Alone("sums by several logs", logs_of_several),
    Alone("sums of a root with both algorithms", both_algorithms),
    Alone("sums of a root that lives on", living_root),
    Alone("what sums don't list", not_listed),
    Alone("sums with an output that fails, or a terminal", outputs),
    Alone("sums hold one object at a time", memory),
]
