"""Cases of `audit --extra`: what the root has and the store lacks is planted, and each line of it is told, and no other."""

import hashlib
import json
import os
import re
import shutil
import subprocess
import sys

from alone import Alone, differs
from auditing import audit, fresh, migrate
from inventories import NO_JSON, SPELLED
from running import as_nobody, timeless
from stores import ABC, DIR, FIFO, ONE, Link, build, object_files, place, read_tree, store, stored, text_of
from tally import needs

OBJECT = "0=ocfl_object_1.1"
ABD = place("abd")
FIRST = place("abc").split("/", maxsplit=1)[0]
TWO = {"ab/c/obj/a.txt": b"abc", "ab/d/obj/f": b"1"}
# A name that isn't UTF-8, as Python has it.
CAFE = os.fsdecode(b"caf\xe9")
DENIED = "Permission denied (os error 13)"


def extra(identifier, layout=(3, 3)):
    """The line of an object that the store lacks."""
    return {"as": "extra", "id": identifier, "to": place(identifier, layout)}


def stray(path):
    """The line of what is no part of the root or of an object."""
    return {"as": "stray", "to": path}


def unlisted(path, reason="a name in it is not UTF-8: caf\\xe9"):
    """The line of a folder that can't be listed whole."""
    return {"as": "stray", "reason": reason, "to": path}


def at(path, files):
    """An object's files at a path of the root."""
    return {f"ocfl/{path}/{name}": content for name, content in files.items()}


def with_id(path, text):
    """An object at a path of the root with this inventory."""
    return {f"ocfl/{path}/{OBJECT}": b"", f"ocfl/{path}/inventory.json": text}


# What is planted behind a run over a store with the object abc alone, and the lines that it makes.
PLANTED = {
    "nothing": ({}, []),
    "an object": (stored("abd", ABC), [extra("abd")]),
    "three objects": ({**stored("abd", ABC), **stored("x", {}), **stored("é", ABC)}, [extra("é"), extra("x"), extra("abd")]),
    "an object of OCFL 1.0": (
        {f"ocfl/{ABD}/{'0=ocfl_object_1.0' if name == OBJECT else name}": content for name, content in object_files("abd", ABC).items()},
        [extra("abd")],
    ),
    "an object whose contents are gone": (with_id(ABD, text_of({"id": "abd"})), [extra("abd")]),
    "an object in an object": (at(f"{place('abc')}/v1/more", object_files("abd", ABC)), []),
    "a file in the root": ({"ocfl/a": b""}, [stray("a")]),
    "a file among the tuples": ({f"ocfl/{FIRST}/f": b""}, [stray(f"{FIRST}/f")]),
    "files in a folder without an object": ({"ocfl/x/y/f": b"", "ocfl/x/g": b""}, [stray("x/g"), stray("x/y/f")]),
    "an empty folder": ({"ocfl/x": DIR}, [stray("x")]),
    "an empty folder among the tuples": ({f"ocfl/{FIRST}/x": DIR}, [stray(f"{FIRST}/x")]),
    "a folder as deep as objects": ({"ocfl/a/b/c/d/e/f": b"", "ocfl/a/b/c/g": b""}, [stray("a/b/c/d"), stray("a/b/c/g")]),
    "an object deeper than objects": (at("a/b/c/d/e", object_files("abd", ABC)), [stray("a/b/c/d")]),
    "an object at another place": (at("x", object_files("abd", ABC)), [stray("x")]),
    "a second copy of an object": (at(f"{FIRST}/abc", object_files("abc", ABC)), [stray(f"{FIRST}/abc")]),
    "an object with another's identifier": (at(ABD, object_files("abe", ABC)), [stray(ABD)]),
    "an object without an inventory": ({f"ocfl/{ABD}/{OBJECT}": b""}, [stray(ABD)]),
    "an inventory that isn't JSON": (with_id(ABD, b"{"), [stray(ABD)]),
    "an inventory that isn't a text": (with_id(ABD, b'{"id":"\xff"}'), [stray(ABD)]),
    "an identifier that isn't a text": (with_id(ABD, text_of({"id": 1})), [stray(ABD)]),
    "an empty identifier": (with_id(ABD, text_of({"id": ""})), [stray(ABD)]),
    "an inventory without an identifier": (with_id(ABD, text_of({"head": "v1"})), [stray(ABD)]),
    "an inventory that isn't an object": (with_id(ABD, b'["id","abd"]'), [stray(ABD)]),
    "an identifier in another object": (with_id(ABD, b'{"of":{"id":"abd"}}'), [stray(ABD)]),
    "an inventory with more behind it": (with_id(ABD, b'{"id":"abd"},'), [stray(ABD)]),
    "an inventory that breaks off": (with_id(ABD, b'{"id":"abd","of":[1'), [stray(ABD)]),
    "an inventory with a number that is too large": (with_id(ABD, b'{"id":"abd","of":[-1e999]}'), [stray(ABD)]),
    "an inventory that is too deep": (with_id(ABD, b'{"id":"abd","of":' + b"[" * 127 + b"]" * 127 + b"}"), [stray(ABD)]),
    "an inventory as deep as may be": (with_id(ABD, b'{"id":"abd","of":' + b"[" * 126 + b"]" * 126 + b"}"), [extra("abd")]),
    "an inventory with much else": (
        with_id(ABD, '{"at":[[{"id":"x"}],{},1e308,-0.5,18446744073709551616,null,true,"\\ud834\\udd1e é"], "id" : "abd" ,"of":{"id":1}}\n'.encode()),
        [extra("abd")],
    ),
    "an identifier with escapes": (with_id(ABD, b'{"\\u0069d":"ab\\u0064"}'), [extra("abd")]),
    "an identifier that comes twice": (with_id(ABD, b'{"id":"x","of":1,"id":"abd"}'), [extra("abd")]),
    "an identifier that comes again as none": (with_id(ABD, b'{"id":"abd","id":1}'), [stray(ABD)]),
    "a folder for the inventory": ({f"ocfl/{ABD}/{OBJECT}": b"", f"ocfl/{ABD}/inventory.json": DIR}, [stray(ABD)]),
    "a folder for the declaration": ({f"ocfl/{ABD}/{OBJECT}": DIR, f"ocfl/{ABD}/f": b""}, [stray(ABD)]),
    "a link": ({"ocfl/a": Link("0=ocfl_1.1")}, [stray("a")]),
    "a link to an object": ({f"ocfl/{FIRST}/l": Link(f"../{place('abc')}")}, [stray(f"{FIRST}/l")]),
    "a named pipe": ({"ocfl/p": FIFO}, [stray("p")]),
    "a name that isn't UTF-8 at the top": ({f"ocfl/{CAFE}": b"", "ocfl/x/f": b""}, [unlisted(""), stray("x/f")]),
    "a name that isn't UTF-8 among the tuples": ({f"ocfl/{FIRST}/{CAFE}": DIR, f"ocfl/{FIRST}/f": b""}, [unlisted(FIRST), stray(f"{FIRST}/f")]),
    "two names that aren't UTF-8 in a folder, and nothing else": (
        {f"ocfl/x/{os.fsdecode(name)}": b"" for name in (b"\xff", b"caf\xe9")},
        [unlisted("x"), unlisted("x", "a name in it is not UTF-8: \\xff")],
    ),
    "a name that isn't UTF-8 in a folder as deep as objects": ({f"ocfl/a/b/c/d/{CAFE}": b"", "ocfl/a/b/c/d/f": b""}, [unlisted("a/b/c/d")]),
    "a name that isn't UTF-8 in an object": ({**stored("abd", ABC), f"ocfl/{ABD}/{CAFE}": b""}, [unlisted(ABD), extra("abd")]),
    "a name that isn't UTF-8 in a folder of an object": ({**stored("abd", ABC), f"ocfl/{ABD}/v1/{CAFE}": b""}, [extra("abd")]),
    "a name that isn't UTF-8 in the root's own extensions": ({f"ocfl/extensions/{CAFE}": b""}, []),
    "what is the root's own": (
        {
            **{f"ocfl/{name}": b"" for name in ("ocfl_1.1.md", "ocfl_1.1.html", "ocfl_extensions_1.0.md", "extensions/a/b")},
            **{name: DIR for name in ("ocfl/extensions/c", "staging")},
            "more": b"",
        },
        [],
    ),
    "names of the root's own elsewhere": (
        {
            **{f"ocfl/{name}": DIR for name in ("ocfl_1.1.md", "ocfl_extensions_1.0.md")},
            **{f"ocfl/{FIRST}/{name}": b"" for name in ("extensions/f", "ocfl_layout.json", "ocfl_extensions_1.0.md")},
            "ocfl/ocfl_extensions_1.1.md": b"",
        },
        [
            *(stray(f"{FIRST}/{name}") for name in ("extensions/f", "ocfl_layout.json", "ocfl_extensions_1.0.md")),
            *(stray(name) for name in ("ocfl_1.1.md", "ocfl_extensions_1.0.md", "ocfl_extensions_1.1.md")),
        ],
    ),
}

PLANTED.update({f"an identifier with {name}": (with_id(place(text), b'{"id":"' + raw + b'"}'), [extra(text)]) for name, (raw, text) in SPELLED.items()})
PLANTED.update({f"no JSON: {name}": (with_id(ABD, text), [stray(ABD)]) for name, text in NO_JSON.items()})
PLANTED.update(
    {
        "a key that begins as the identifier's": (with_id(ABD, b'{"id":"abd","idx":"x","i":"y","ID":"z","\\u0069d2":"u","id\\n":"v"}'), [extra("abd")]),
        "the last of many identifiers, each with other escapes": (
            with_id(ABD, rb'{"id":"x","\u0069d":1,"\u0069\u0064":{"id":"y"},"i\u0064":"abd"}'),
            [extra("abd")],
        ),
        "an identifier behind each kind of space": (with_id(ABD, b'\t\r\n {\t"id"\r:\n"abd" }\t\r\n '), [extra("abd")]),
        "the greatest numbers": (with_id(ABD, b'{"id":"abd","of":[1.7976931348623157e308,-9223372036854775809,1e-999,-0,0e1,1E+2]}'), [extra("abd")]),
        "a brace as deep as may be": (with_id(ABD, b'{"id":"abd","of":' + b'{"a":' * 126 + b"0" + b"}" * 126 + b"}"), [extra("abd")]),
        "a brace that is too deep": (with_id(ABD, b'{"id":"abd","of":' + b'{"a":' * 127 + b"0" + b"}" * 127 + b"}"), [stray(ABD)]),
    }
)

# What is planted where the store and the options are others: the store, what is planted behind the run, the options of both, those of the audit alone,
# the lines, and whether the objects of the store are told as ever.
OTHERS = {
    "two tuples of two digits": (ONE, stored("abd", ABC, (2, 2)), ("--tuple-size", "2", "--tuples", "2"), (), [extra("abd", (2, 2))]),
    "no tuples": (ONE, {**stored("abd", ABC, (3, 0)), "ocfl/x/f": b""}, ("--tuple-size", "0", "--tuples", "0"), (), [extra("abd", (3, 0)), stray("x")]),
    "sha256": (ONE, stored("abd", ABC, algorithm="sha256"), ("--digest", "sha256"), (), [extra("abd")]),
    "a prefix": (
        store({"ab/c/obj/a.txt": b"abc"}, b"ark:/"),
        {**stored("abc", ABC), **stored("ark:/abd", ABC)},
        (),
        (),
        [extra("ark:/abd"), extra("abc")],
    ),
    "a store with other names than the identifier's": (store({"a^/2f/obj/f": b"1"}), {}, (), (), [extra("a/")]),
    "a folder that is gathered": (store({"ab/d/f": b"1"}), {}, ("--gather",), (), []),
    "an ignored folder": (store(TWO), {}, (), ("--ignore", "d"), [extra("abd")]),
    "an ignored name": (ONE, {"ocfl/.DS_Store": b""}, ("--ignore", ".DS_Store"), (), [stray(".DS_Store")]),
    "identifiers whose sites are as deep as may be, and deeper": (
        store({"ab/" * 600 + "obj/f": b"1"}),
        {**stored("ab" * 600 + "c", ABC), **stored("ab" * 601, ABC), **stored("ab" * 599 + "a", ABC)},
        (),
        (),
        [extra("ab" * 600 + "c"), extra("ab" * 601), extra("ab" * 599 + "a")],
    ),
    "--only": (ONE, {**stored("abd", ABC), **stored("xyz", ABC), "ocfl/a": b""}, (), ("--only", "ab"), [extra("abd"), stray("a")]),
    "--list": (ONE, {**stored("abd", ABC), **stored("xyz", ABC), "ocfl/a": b"", "ids": b"abc\nabd\n"}, (), ("--list", "{folder}/d/ids"), [extra("abd"), stray("a")]),
}


def in_order(entries):
    """The lines in the order of the walk."""
    return sorted(entries, key=lambda entry: [name.encode() for name in entry["to"].split("/")])


def with_extras(plain, entries):
    """The log of an audit with these lines before its end line, which counts them."""
    *lines, end = plain.splitlines(keepends=True)
    counts = {kind: sum(entry["as"] == kind for entry in entries) for kind in ("extra", "stray")}
    told = [text_of(entry) + b"\n" for entry in in_order(entries)]
    return b"".join([*lines, *told, text_of({**json.loads(end), **counts}) + b"\n"])


def told(program, folder, name, entries, *words):
    """What `--extra` tells otherwise than it should, beside what an audit tells without it; and what it changed."""
    before = read_tree(folder)
    status, plain, err = audit(program, folder, *words)
    wanted = (1 if entries else status), with_extras(plain, entries), err
    faults = differs(**{name: (audit(program, folder, "--extra", *words), wanted)})
    return faults + differs(**{f"{name}, changed": (read_tree(folder) == before, True)})


def of_planted(name):
    """What is told of one thing that is planted."""

    def case(program, folder):
        planted, entries = PLANTED[name]
        migrate(program, folder)
        build(f"{folder}/d", planted)
        return told(program, folder, name, entries)

    return case


def of_other(name):
    """The same with another store, and other options."""

    def case(program, folder):
        entries, planted, both, words, lines = OTHERS[name]
        words = [word.format(folder=folder) for word in words]
        fresh(folder, entries)
        migrate(program, folder, *both)
        build(f"{folder}/d", planted)
        return told(program, folder, name, lines, *both, *words)

    return case


def no_root(program, folder):
    """Where there is no root nothing is told of one."""
    return told(program, folder, "no root", [])


def of_a_skipped_object(program, folder):
    """An object that a run passes over stands in the store: nothing is told of it where the root has it. One that can't be an object doesn't."""
    migrate(program, folder)
    build(f"{folder}/d", stored("abd", ABC))
    build(f"{folder}/s/pairtree_root", {"ab/d/obj/f": Link("none")})
    faults = told(program, folder, "other", [])
    build(f"{folder}/s/pairtree_root", {"ab/d/second": DIR})
    return faults + told(program, folder, "split", [extra("abd")])


def of_shares(program, folder):
    """The shares tell together what one audit tells: of each object the share of its identifier, and of the rest the first."""
    fresh(folder, store(TWO))
    migrate(program, folder)
    names = [f"n{number}" for number in range(12)]
    for name in names:
        build(f"{folder}/d", stored(name, ABC))
    misplaced = {f"x/{name}": name for name in names[:4]}
    for path, name in misplaced.items():
        build(f"{folder}/d", at(path, object_files(name, ABC)))
    build(f"{folder}/d", {"ocfl/a": b"", "ocfl/b": DIR, **with_id("c", b"")})
    entries = [*(extra(name) for name in names), *(stray(path) for path in (*misplaced, "a", "b", "c"))]
    faults, found = told(program, folder, "whole", entries), []
    for number in (1, 2, 3):
        status, out, err = audit(program, folder, "--extra", "--share", f"{number}/3")
        lines = [line for line in map(json.loads, out.splitlines()) if line["as"] in ("extra", "stray")]
        faults += differs(**{f"{number}": ((status, err), (int(bool(lines)), b""))})
        faults += told(program, folder, f"share {number}", lines, "--share", f"{number}/3")
        faults += differs(unnamed=([line["to"] for line in lines if line["to"] in "abc"], ["a", "b", "c"] if number == 1 else []))
        found += lines
    return faults + differs(together=(in_order(found), in_order(entries)))


def statuses(program, folder):
    """Status 0 only where nothing is extra or stray; --skips-ok changes that of skips alone."""
    fresh(folder, store({"ab/c/obj/a.txt": b"abc", "ab/d": DIR}))
    migrate(program, folder)
    found = [audit(program, folder, "--extra", *words)[0] for words in ((), ("--skips-ok",))]
    build(f"{folder}/d", {"ocfl/a": b""})
    found += [audit(program, folder, *words)[0] for words in (("--skips-ok",), ("--extra", "--skips-ok"))]
    os.remove(f"{folder}/d/ocfl/a")
    build(f"{folder}/d", stored("abd", ABC))
    return differs(statuses=([*found, audit(program, folder, "--extra", "--skips-ok")[0]], [1, 0, 0, 1, 1]))


def beside_the_log(program, folder):
    """The summary and the event count both kinds; and the end line tells --expect how many lines there may be."""
    migrate(program, folder)
    build(f"{folder}/d", {**stored("abd", ABC), "ocfl/a": b"", "ocfl/b": DIR})
    status, out, err = audit(program, folder, "--extra", "--verbose", "--event", f"{folder}/ev")
    said = b"pairtree2ocfl: 1 same, 0 absent, 0 different, 1 extra, 2 stray, 0 skipped, 1 file, 3 bytes\n"
    with open(f"{folder}/ev", "rb") as file:
        event = json.load(file)
    faults = differs(summary=((status, timeless(err)), (1, said)), option=(event["options"]["extra"], True))
    faults += differs(lines=(event["lines"], {"absent": 0, "differs": 0, "extra": 1, "same": 1, "skip": 0, "stray": 2}))
    build(folder, {"log": out})
    words = ("--progress", "always", "--interval", "0", "--quiet", "--expect", f"{folder}/log")
    return faults + differs(expected=(audit(program, folder, *words)[2], b""))


def as_another(program, folder, *words):
    """An audit with extras, asked as another user by root, who can read all; its status, log and standard error."""
    shutil.copy(program, f"{folder}/program")
    command = [*(() if os.geteuid() else as_nobody()), f"{folder}/program", "audit", "--extra", *words, f"{folder}/s", f"{folder}/d"]
    done = subprocess.run(command, capture_output=True, timeout=120, check=False)
    return done.returncode, done.stdout, done.stderr


def unreadable(program, folder):
    """A folder that can't be listed is stray with the reason, in each share, and the walk goes on behind it; below it nothing is told."""
    migrate(program, folder)
    build(f"{folder}/d", {"ocfl/a": b"", "ocfl/y/x/f": b"", "ocfl/y/z/f": b"", "ocfl/z": b""})
    subprocess.run(["chmod", "-R", "a+rX", folder], check=True)
    status, plain, _ = audit(program, folder)
    os.chmod(f"{folder}/d/ocfl/y/x", 0)
    entries = [stray("a"), unlisted("y/x", DENIED), stray("y/z/f"), stray("z")]
    found = as_another(program, folder)
    shares = [as_another(program, folder, "--share", f"{number}/2") for number in (1, 2)]
    os.chmod(f"{folder}/d/ocfl/y/x", 0o755)
    told_by = [[line for line in map(json.loads, out.splitlines()) if line["as"] == "stray"] for _, out, _ in shares]
    second = [unlisted("y/x", DENIED)]
    faults = differs(status=(status, 0), unreadable=(found, (1, with_extras(plain, entries), b"")))
    return faults + differs(shares=(told_by, [entries, second]), statuses=([share[0] for share in shares], [1, 1]))


def unreadable_file(program, folder):
    """An inventory that can't be read is fault 2, and the log has no end line."""
    migrate(program, folder)
    build(f"{folder}/d", {"ocfl/0": b"", **stored("abd", ABC)})
    subprocess.run(["chmod", "-R", "a+rX", folder], check=True)
    plain = audit(program, folder)[1]
    os.chmod(f"{folder}/d/ocfl/{ABD}/inventory.json", 0)
    front = plain.splitlines(keepends=True)[0] + text_of(stray("0")) + b"\n"
    return differs(unreadable=(as_another(program, folder), (3, front, b"pairtree2ocfl: fault 2: cannot read the destination\n")))


def unnamed(program, folder):
    """Names that aren't UTF-8 are told by each share; in an object that is compared one is fault 2, with extras and without."""
    migrate(program, folder)
    build(f"{folder}/d", {f"ocfl/{CAFE}": b"", f"ocfl/x/{CAFE}": b"", "ocfl/x/f": b""})
    entries = [unlisted(""), unlisted("x"), stray("x/f")]
    faults = told(program, folder, "whole", entries)
    for number in (1, 2):
        faults += told(program, folder, f"share {number}", entries if number == 1 else entries[:2], "--share", f"{number}/2")
    build(f"{folder}/d", {f"ocfl/{place('abc')}/{CAFE}": b""})
    return faults + differs(compared=([audit(program, folder, *words)[0] for words in ((), ("--extra",))], [3, 3]))


def asked(program, folder, *words):
    """The calls by which an audit asked what stands at a path of the store, or read a folder of it, in any order."""
    trace = ["strace", "-f", "-y", "-o", f"{folder}/trace", "-s", "4096", "-e", "trace=/stat|statx|getdents"]
    done = subprocess.run([*trace, program, "audit", *words, "s", "d"], cwd=folder, capture_output=True, timeout=300, check=False)
    if done.returncode not in (0, 1):
        raise OSError(f"audit {words}: {done.returncode} {done.stderr!r}")
    with open(f"{folder}/trace", encoding="utf-8", errors="replace") as file:
        found = [re.search(rf'\b(\w*stat\w*|getdents64)\(.*?(?:"s/|<{re.escape(folder)}/s/?)([^">]*)[">]', line) for line in file]
    return sorted((call.group(1), call.group(2)) for call in found if call)


def looked_up(program, folder):
    """Whether the store has an object of the root costs a look at each name of its pairpath and one listing, of its site, however many folders
    stand beside these."""
    needs("strace")
    objects = {"ab/c": "abc", "ab/d": "abd", "cd/ef/g": "cdefg", "cd/ef/h": "cdefh"}
    looks = [path for site in objects for path in above(f"pairtree_root/{site}")]
    entries = [f"pairtree_root/{site}/obj" for site in objects]
    costs = []
    for beside in (0, 40):
        empty = {f"{at}{number:02d}": DIR for number in range(beside) for at in ("", "ab/", "cd/", "cd/ef/")}
        fresh(folder, store({**empty, **{f"{site}/obj/f": b"1" for site in objects}}))
        migrate(program, folder)
        more = asked(program, folder, "--extra")
        for call in asked(program, folder):
            more.remove(call)
        costs.append(more)
        stats = sorted(path for call, path in more if call != "getdents64")
        faults = differs(**{f"looks, {beside} beside": (stats, sorted(looks + entries))})
        if faults:
            return faults
    return differs(listings=({path for call, path in costs[0] if call == "getdents64"}, {f"pairtree_root/{site}" for site in objects}), more=(costs[1], costs[0]))


def above(path):
    """A path and those above it, from its first name on."""
    names = path.split("/")
    return ["/".join(names[: count + 1]) for count in range(len(names))]


# Runs a command, and writes into a file what it took of memory at most, in kB. Where a large process begins one, the system counts its memory too.
MEASURED = """import os, sys
child = os.posix_spawn(sys.argv[2], sys.argv[2:], os.environ)
_, ended, used = os.wait4(child, 0)
with open(sys.argv[1], "w", encoding="utf-8") as file:
    file.write(str(used.ru_maxrss))
sys.exit(os.waitstatus_to_exitcode(ended))
"""


def has_checks(program):
    """Whether the toolchain built the program with checks of its memory, which take much of it themselves."""
    with open(program, "rb") as file:
        return b"__asan_init" in file.read()


def peak_of(program, folder):
    """What an audit with extras answers, and how many bytes of memory it took at most."""
    command = [os.path.realpath(program), "audit", "--extra", f"{folder}/s", f"{folder}/d"]
    done = subprocess.run([sys.executable, "-B", "-c", MEASURED, f"{folder}/peak", *command], capture_output=True, timeout=600)
    with open(f"{folder}/peak", encoding="utf-8") as file:
        return (done.returncode, done.stdout, done.stderr), int(file.read()) << 10


LONG = 64 << 20

# Inventories of 64 MB, and the line of what is told of the object that each is of, whose place the line names. Each is made only where it is tried.
HOSTILE = {
    "numbers": lambda: (b'{"of":[' + b"0," * (LONG >> 1) + b'0],"id":"abd"}', extra("abd")),
    "a string of escapes": lambda: (b'{"of":"' + b"\\u00e9" * (LONG // 6) + b'","id":"abd"}', extra("abd")),
    "a key of escapes": lambda: (b'{"' + b"\\ud834\\udd1e" * (LONG // 12) + b'":0,"id":"abd"}', extra("abd")),
    "many identifiers": lambda: (b"{" + b'"\\u0069d":"x",' * (LONG // 15) + b'"i\\u0064":"abd"}', extra("abd")),
    "an identifier": lambda: (b'{"id":"' + b"a" * LONG + b'"}', stray(ABD)),
    "an identifier at its place": lambda: (b'{"id":"' + b"a" * LONG + b'"}', extra("a" * LONG)),
    "an identifier of escapes at its place": lambda: (b'{"id":"' + b"\\u0001" * (LONG // 6) + b'"}', extra("\x01" * (LONG // 6))),
    "an identifier of quotes at its place": lambda: (b'{"id":"' + b'\\"' * (LONG >> 1) + b'"}', extra('"' * (LONG >> 1))),
    "a string that doesn't end": lambda: (b'{"id":"abd","of":"' + b"a" * LONG, stray(ABD)),
    "brackets": lambda: (b'{"id":"abd","of":' + b"[" * LONG, stray(ABD)),
    "a number": lambda: (b'{"of":' + b"1" * LONG + b'e-99999999,"id":"abd"}', extra("abd")),
    "spaces": lambda: (b" " * LONG + b'{"id":"abd"}', extra("abd")),
}


def brief(status, out, err):
    """An answer whose log may be long."""
    return status, len(out), hashlib.sha256(out).hexdigest(), err


def in_little_memory(name):
    """Of an inventory the identifier alone is kept, whatever else it holds, and its line is made where it stands: an audit takes no more than the
    inventory's length and 16 MB beside what it takes of a small one. As the toolchain builds the program with checks it takes several times that."""

    def case(program, folder):
        text, entry = HOSTILE[name]()
        migrate(program, folder)
        plain = audit(program, folder)[1]
        build(f"{folder}/d", with_id(ABD, b'{"id":"abd"}'))
        small = peak_of(program, folder)[1]
        shutil.rmtree(f"{folder}/d/ocfl/{ABD.split('/', maxsplit=1)[0]}")
        build(f"{folder}/d", with_id(entry["to"], text))
        answer, peak = peak_of(program, folder)
        most = small + (6 if has_checks(program) else 1) * (len(text) + (16 << 20))
        faults = differs(answer=(brief(*answer), brief(1, with_extras(plain, [entry]), b"")))
        return faults + differs(memory=(peak if peak > most else "small", "small"))

    return case


CASES = [
    *(Alone(f"audit: extra, {name}", of_planted(name)) for name in PLANTED),
    *(Alone(f"audit: extra, {name}", of_other(name)) for name in OTHERS),
    Alone("audit: extra, no root", no_root),
    Alone("audit: extra, an object that is skipped", of_a_skipped_object),
    Alone("audit: extra, shares", of_shares),
    Alone("audit: extra, statuses", statuses),
    Alone("audit: extra, summary, event and --expect", beside_the_log),
    Alone("audit: extra, what can't be read", unreadable),
    Alone("audit: extra, an inventory that can't be read", unreadable_file),
    Alone("audit: extra, names that aren't UTF-8", unnamed),
    Alone("audit: extra, what it asks of the store", looked_up),
    *(Alone(f"audit: extra, an inventory in little memory: {name}", in_little_memory(name)) for name in HOSTILE),
]
