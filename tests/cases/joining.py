"""Tests of tools/roots.py, over storage roots that the tests write: joining, and telling objects that aren't whole."""

import contextlib
import fcntl
import os
import pty
import re
import resource
import subprocess
import sys

import stores
from alone import Alone, differs
from running import mount_below
from stores import DIR, GONE, Link, build, place, read_tree, root, stored

TOP = os.path.dirname(os.path.dirname(os.path.dirname(os.path.abspath(__file__))))
ROOTS = [sys.executable, "-B", f"{TOP}/tools/roots.py"]
LONG = "é" * 60
NOBODY = 65534


def roots(folder, *words, **options):
    """What roots.py answers: its status, its lines and what it said; a traceback is never one of them."""
    options = {"stdout": subprocess.PIPE, "stderr": subprocess.PIPE, **options}
    done = subprocess.run([*ROOTS, *words], cwd=folder, timeout=120, **options)
    said = (done.stderr or b"").decode(errors="replace")
    if "Traceback" in said:
        raise OSError(said)
    return done.returncode, (done.stdout or b"").decode(errors="replace").split("\n")[:-1], said


def an_object(identifier, mark=b"", **options):
    """An object with two files."""
    return stored(identifier, {"a.txt": identifier.encode(), "b/c": b"same" + mark}, **options)


def three(folder):
    """Three roots, of which each has an identifier that another has."""
    several = {
        "a": [an_object("aa"), an_object("cc", b"a")],
        "b": [an_object("ba"), an_object("cc", b"b"), an_object(LONG)],
        "c": [an_object("ca"), an_object("ba", b"c"), an_object("a/b:c")],
    }
    for name, objects in several.items():
        build(folder, {name: DIR, **{f"{name}/{path}": held for path, held in root(*objects).items()}})


def inodes(folder):
    """The files below a folder by their numbers."""
    return {os.lstat(f"{above}/{name}").st_ino for above, _, names in os.walk(folder) for name in names}


def only(tree, name):
    """What stands in one folder of a tree but for folders."""
    return {path[len(name) + 1 :]: held for path, held in tree.items() if path.startswith(f"{name}/") and held != DIR}


def joins(program, folder):
    """Objects are renamed, not copied; those whose place is taken stay and are listed, with status 1, and once more the next time."""
    three(folder)
    numbers = inodes(folder)
    taken = [f"b/ocfl/{place('cc')}", f"c/ocfl/{place('ba')}"]
    status, listed, said = roots(folder, "join", "a/ocfl", "b/ocfl/", "c/ocfl")
    faults = differs(status=(status, 1), listed=(listed, taken), said=(said, ""), files=(inodes(folder), numbers))
    found = read_tree(folder)
    kept = root(an_object("aa"), an_object("cc", b"a"), an_object("ba"), an_object(LONG), an_object("ca"), an_object("a/b:c"))
    faults += list(stores.differences(only(found, "a"), kept))
    faults += list(stores.differences(only(found, "b"), root(an_object("cc", b"b"))))
    faults += list(stores.differences(only(found, "c"), root(an_object("ba", b"c"))))
    faults += differs(again=(roots(folder, "join", "a/ocfl", "b/ocfl", "c/ocfl")[:2], (1, taken)))
    return faults + differs(same=(read_tree(folder) == found, True), whole=(roots(folder, "damaged", "a/ocfl"), (0, [], "")))


def refusals(program, folder):
    """A root that is given twice, of another layout, not the program's, a link, in another, locked or in use: nothing is moved."""
    three(folder)
    build(folder, {f"t/{path}": held for path, held in root(layout=(2, 3)).items()})
    os.symlink("b/ocfl", f"{folder}/link")
    os.symlink("b", f"{folder}/lb")
    build(folder, {f"b/ocfl/in/{path}": held for path, held in root().items()})
    build(folder, {f"m/{path}": held for path, held in root().items()})
    build(folder, {"m/ocfl/0=ocfl_1.1": GONE, "m/ocfl/0=ocfl_1.1 ": b"ocfl_1.1\n"})
    build(folder, {f"p/{path}": held for path, held in root().items()})
    build(folder, {"p/ocfl/ocfl_layout.json": GONE, "p/ocfl/ocfl_layout.json ": b"{}"})
    os.mkfifo(f"{folder}/p/ocfl/ocfl_layout.json")
    build(folder, {f"u/{path}": held for path, held in root().items()})
    build(folder, {"u/staging": DIR})
    before, faults = read_tree(folder), []
    for words, reason in {
        ("a/ocfl", "a/ocfl"): "given twice",
        ("a/ocfl", "b/ocfl", "b/../b/ocfl"): "given twice",
        ("a/ocfl", "b/ocfl", "lb/ocfl"): "given twice",
        ("a/ocfl", "link"): "no folder, or a link",
        ("a/ocfl", "b/ocfl", "t/ocfl"): "other tuples",
        ("t/ocfl", "b/ocfl"): "other tuples",
        ("a/ocfl", "m/ocfl"): "isn't a storage root",
        ("p/ocfl", "b/ocfl"): "isn't a storage root",
        ("a/ocfl", "b/ocfl", "b/ocfl/in/ocfl"): "lies in another",
        ("a/ocfl", "b/ocfl", "u/ocfl"): "staging is left",
        ("a/ocfl", "b/ocfl", "none/ocfl"): "No such file",
        ("a/ocfl", "b"): "isn't a storage root",
        ("a/ocfl",): "the words are wrong",
    }.items():
        status, listed, said = roots(folder, "join", *words)
        faults += differs(**{" ".join(words): ((status, listed, reason in said), (2, [], True))})
    for held in "ab":
        lock = os.open(f"{folder}/{held}", os.O_RDONLY)
        fcntl.flock(lock, fcntl.LOCK_EX | fcntl.LOCK_NB)
        status, listed, said = roots(folder, "join", "a/ocfl", "b/ocfl")
        os.close(lock)
        faults += differs(lock=((status, listed, "another run has" in said), (2, [], True)))
    return faults + differs(same=(read_tree(folder) == before, True))


def leaves(program, folder):
    """What is no whole object of the program's stays, what stands in the way too; the rest is moved, and the status is 2."""
    three(folder)
    bad = {"v1/content/more": b"1"}
    for name, damage in {"da": bad, "db": {"v1/content/a.txt": GONE}, "dc": {"v2": DIR}, "dd": {"0=ocfl_object_1.1": b""}}.items():
        build(folder, {f"b/{path}": held for path, held in an_object(name).items()})
        build(f"{folder}/b/ocfl/{place(name)}", damage)
    build(f"{folder}/b/ocfl", {place("df"): Link("../../.."), "zzz/x": b"", "notes.txt": b"1", f"{place('dg')}x/y": b""})
    first = place("dh").split("/")[0]
    build(folder, {f"b/{path}": held for path, held in an_object("dh").items()})
    build(f"{folder}/a/ocfl", {first: Link("../../elsewhere")})
    build(folder, {"elsewhere": DIR})
    names = place("di").split("/")
    build(folder, {f"b/{path}": held for path, held in an_object("di").items()})
    build(f"{folder}/a/ocfl", {"/".join(names[:2]): b"a file"})
    wrong = an_object("dj")
    build(folder, {f"b/{path}".replace(place("dj"), place("dk")): held for path, held in wrong.items()})
    status, listed, said = roots(folder, "join", "a/ocfl", "b/ocfl")
    faults = differs(status=(status, 2), listed=(listed, [f"b/ocfl/{place('cc')}"]))
    there = {name for name in ("aa", "ba", "cc", LONG) if os.path.isdir(f"{folder}/a/ocfl/{place(name)}")}
    faults += differs(moved=(there, {"aa", "ba", "cc", LONG}), elsewhere=(os.listdir(f"{folder}/elsewhere"), []))
    for name in ("da", "db", "dc", "dd", "dh", "di", "dk"):
        stays = os.path.isdir(f"{folder}/b/ocfl/{place(name)}") and not os.path.lexists(f"{folder}/a/ocfl/{place(name)}")
        faults += differs(**{name: ((stays, f"{place(name)}: it stays" in said), (True, True))})
    empty = [above for above, folders, names in os.walk(f"{folder}/a/ocfl") if not folders and not names]
    return faults + differs(empty=(empty, []), link=(os.path.islink(f"{folder}/b/ocfl/{place('df')}"), True))


def other_systems(program, folder):
    """Roots on another file system, or behind another mount of it, are refused, and nothing is moved."""
    with contextlib.ExitStack() as last:
        three(folder)
        os.mkdir(f"{folder}/f")
        mount_below(folder, ("-t", "tmpfs", "-o", "size=1m", "none", "f"), last)
        build(folder, {f"f/{path}": held for path, held in root(an_object("fa")).items()})
        os.mkdir(f"{folder}/g")
        mount_below(folder, ("--bind", f"{folder}/b", "g"), last)
        before, faults = read_tree(folder), []
        for other, reason in {"f/ocfl": "cp -a", "g/ocfl": "cp -a"}.items():
            status, _, said = roots(folder, "join", "a/ocfl", other)
            faults += differs(**{other: ((status, reason in said), (2, True))})
            faults += [f"{other}: {text}" for text in stores.differences(read_tree(folder), before)]
        status, _, said = roots(folder, "join", "b/ocfl", "g/ocfl")
        faults += differs(twice=((status, "given twice" in said), (2, True)))
        return faults + [f"at last: {text}" for text in stores.differences(read_tree(folder), before)]


def outputs(program, folder):
    """Where the output is closed or full that is an error and no traceback, but nothing stays for it: all is moved that is free, and the same
    command lists the rest."""
    os.mkdir(f"{folder}/whole")
    three(f"{folder}/whole")
    roots(f"{folder}/whole", "join", "a/ocfl", "b/ocfl", "c/ocfl")
    wanted, faults = read_tree(f"{folder}/whole"), []
    reading, pipe = os.pipe()
    os.close(reading)
    for name, output, why in (("pipe", pipe, "Broken pipe"), ("full", os.open("/dev/full", os.O_WRONLY), "No space left on device"), ("shut", None, "Bad file descriptor")):
        os.mkdir(f"{folder}/{name}")
        three(f"{folder}/{name}")
        shut = {"preexec_fn": lambda: os.close(1)} if output is None else {"stdout": output}
        status, _, said = roots(f"{folder}/{name}", "join", "a/ocfl", "b/ocfl", "c/ocfl", **shut)
        told = f"roots.py: cannot write the output: {why}; all was moved that can be, and the same command lists what was taken\n"
        faults += differs(**{name: ((status, said), (2, told)), f"moved {name}": (read_tree(f"{folder}/{name}") == wanted, True)})
        again = roots(f"{folder}/{name}", "join", "a/ocfl", "b/ocfl", "c/ocfl")
        faults += differs(again=(again, (1, [f"b/ocfl/{place('cc')}", f"c/ocfl/{place('ba')}"], "")))
        build(f"{folder}/{name}/a/ocfl/{place('aa')}", {"v1/content/a.txt": b"other"})
        status, _, said = roots(f"{folder}/{name}", "damaged", "a/ocfl", **shut)
        faults += differs(damaged=((status, said), (2, f"roots.py: cannot write the output: {why}\n")))
        if output is not None:
            os.close(output)
    return faults


# Runs roots.py where nothing can be made in a root, as where its file system is full; its second word is the number of the error.
FULL = """
import os, sys
sys.path.insert(0, sys.argv[1])
import roots
number = int(sys.argv[2])
def refused(path, *words, **options):
    raise OSError(number, os.strerror(number), path)
os.mkdir = os.rename = refused
del sys.argv[1:3]
sys.exit(roots.main())
"""


def full(program, folder):
    """Where the first root takes no more, both roots are named with the reason, and nothing is lost; with room the same command goes on."""
    faults = []
    for number, why in ((28, "No space left on device"), (30, "Read-only file system"), (122, "Disk quota exceeded")):
        os.mkdir(f"{folder}/{number}")
        three(f"{folder}/{number}")
        before = read_tree(f"{folder}/{number}")
        words = [sys.executable, "-B", "-c", FULL, f"{TOP}/tools", str(number), "join", "a/ocfl", "c/ocfl", "b/ocfl"]
        done = subprocess.run(words, cwd=f"{folder}/{number}", capture_output=True, timeout=120)
        said = f"roots.py: a/ocfl takes no more of c/ocfl: {why}\n".encode()
        faults += differs(**{why: ((done.returncode, done.stdout, done.stderr), (2, b"", said))})
        faults += differs(same=(read_tree(f"{folder}/{number}") == before, True))
        faults += differs(again=(roots(f"{folder}/{number}", "join", "a/ocfl", "c/ocfl", "b/ocfl")[0], 1))
    return faults


# Names as bytes, and how they are shown: by hand, after docs/REFERENCE.md ("Reasons").
NAMES = {
    b"\x1b]0;title\x07": r"\u{1b}]0;title\u{7}",
    b"x\nroots.py: y": r"x\u{a}roots.py: y",
    b"\r\x7f\t": r"\u{d}\u{7f}\u{9}",
    b"\xc2\x85\xc2\x9b": r"\u{85}\u{9b}",
    b"\xe9t\xff": r"\xe9t\xff",
    b"\xe2\x82": r"\xe2\x82",
    b"\xed\xa0\x80": r"\xed\xa0\x80",
    rb"\u{a} \xe9": r"\\u{a} \\xe9",
    "\u202e\u202agnp.exe".encode(): r"\u{202e}\u{202a}gnp.exe",
    "\u2066\u2069".encode(): r"\u{2066}\u{2069}",
    "\u061c\u200e\u200f".encode(): r"\u{61c}\u{200e}\u{200f}",
    "\u2028\u2029".encode(): r"\u{2028}\u{2029}",
    "é שלום 中 '\"`$".encode(): "é שלום 中 '\"`$",
    b"  blank ": r"\u{20}\u{20}blank\u{20}",
}
# How those that begin or end with a blank are shown within a line, and behind a blank at its end: blanks are escaped at the ends of a line alone.
INSIDE = {**NAMES, b"  blank ": "  blank "}
LAST = {**{name: f" {text}" for name, text in INSIDE.items()}, b"  blank ": r"   blank\u{20}", "\u2028\u2029".encode(): r"\u{20}\u{2028}\u{2029}"}


def escapes(program, folder):
    """A name of a root, and one on the command line, is told as the program tells a path: none writes on a terminal or looks like a line."""
    three(folder)
    for name in NAMES:
        for path in (b"b/ocfl/", f"b/ocfl/{place('ba')}/v1/".encode()):
            with open(folder.encode() + b"/" + path + name, "wb"):
                pass
    strays = [f"roots.py: b/ocfl/{text}: it isn't a place of the program's, and is left out" for text in INSIDE.values()]
    unlike = f"no inventory has v1/{NAMES[min(NAMES, key=os.fsdecode)]}"
    wanted = sorted([*strays, f"roots.py: b/ocfl/{place('ba')}: {unlike}"])
    status, listed, said = roots(folder, "damaged", "b/ocfl")
    faults = differs(damaged=((status, listed, sorted(said.split("\n")[:-1])), (2, [place("ba")], wanted)))
    latin = {**os.environ, "LC_ALL": "C", "PYTHONUTF8": "0", "PYTHONCOERCECLOCALE": "0"}
    faults += differs(elsewhere=(roots(folder, "damaged", "b/ocfl", env=latin), (status, listed, said)))
    status, listed, said = roots(folder, "join", "a/ocfl", "b/ocfl")
    wanted = sorted([*strays, f"roots.py: b/ocfl/{place('ba')}: it stays: {unlike}"])
    faults += differs(join=((status, listed, sorted(said.split("\n")[:-1])), (2, [f"b/ocfl/{place('cc')}"], wanted)))
    for name, text in INSIDE.items():
        words = os.fsdecode(name)
        faults += differs(**{text: (roots(folder, "damaged", words), (2, [], f"roots.py: {text}: No such file or directory\n"))})
        said = roots(folder, "damaged", "a/ocfl", words)[2]
        faults += differs(**{f"word {text}": ((len(said.split("\n")), f"arguments:{LAST[name]}\n" in said), (4, True))})
    os.rename(f"{folder}/c", f"{folder}/c\x1b\n\\")
    build(folder, {f"a/{path}": held for path, held in an_object("ca", b"a").items()})
    status, listed, said = roots(folder, "join", "a/ocfl", "c\x1b\n\\/ocfl")
    return faults + differs(listed=((status, listed, said), (1, [rf"c\u{{1b}}\u{{a}}\\/ocfl/{place('ca')}"], "")))


def shows(program, folder):
    """A name, as bytes and as Python has it, is shown as it must be; a text with half a character, as JSON may give one, is too."""
    sys.path.append(f"{TOP}/tools")
    from shown import shown

    faults = []
    for name, text in {**NAMES, b"": "", b"ab/c": "ab/c"}.items():
        faults += differs(**{text: ((shown(name), shown(name.decode(errors="surrogateescape"))), (text, text))})
    return faults + differs(half=(shown("\ud83d\udcff"), r"\u{d83d}\xff"))


def own_texts(program, folder):
    """The specifications that a root may hold are its own, to `damaged` and to `join`, as files at its top; by another name or as anything else
    they are strays."""
    three(folder)
    own = ("ocfl_1.1.md", "ocfl_1.1.html", "ocfl_1.1.txt", "ocfl_extensions_1.0.md")
    build(folder, {f"{name}/ocfl/{path}": b"text" for name in "ab" for path in own})
    build(folder, {f"b/ocfl/{place('cc')}": GONE})
    faults = differs(damaged=(roots(folder, "damaged", "b/ocfl"), (0, [], "")), join=(roots(folder, "join", "a/ocfl", "b/ocfl"), (0, [], "")))
    build(folder, {f"b/ocfl/{path}": GONE for path in own})
    others = {"ocfl_1.1.md": DIR, "ocfl_extensions_1.0.md": Link("ocfl_layout.json"), "ocfl_1.1": b"", "ocfl_extensions_1.1.md": b"", "abc/ocfl_1.1.md": b""}
    build(f"{folder}/b/ocfl", others)
    status, listed, said = roots(folder, "damaged", "b/ocfl")
    left = [f"roots.py: b/ocfl/{path}: it isn't a place of the program's, and is left out" for path in others]
    return faults + differs(others=((status, listed, sorted(said.splitlines())), (2, [], sorted(left))))


def killed(program, folder):
    """Ended at 200 moments no object is lost or in part, and the same command again does the rest."""
    os.mkdir(f"{folder}/before")
    three(f"{folder}/before")
    done = subprocess.run([sys.executable, "-B", f"{TOP}/tests/harness/kills.py", ROOTS[-1], folder, "200"], capture_output=True, timeout=280)
    *faults, count = done.stdout.decode().splitlines() or ["nothing was said"]
    return faults[:5] + differs(count=(count, "200"), errors=(done.stderr, b""))


def tells(program, folder):
    """`damaged` lists places below tuple folders alone; what isn't the program's, another version and what can't be read are told apart by the
    status, and the rest is looked at."""
    three(folder)
    top = f"{folder}/b/ocfl"
    tuples = place("ba").rsplit("/", 1)[0]
    others = {f"{tuples}/notes": DIR, f"{tuples}/Thumbs.db": b"1", "notes": DIR, "abc": b"1", "zzz": DIR}
    faults = differs(whole=(roots(folder, "damaged", "b/ocfl"), (0, [], "")))
    build(top, others)
    status, listed, said = roots(folder, "damaged", "b/ocfl")
    left = [f"roots.py: b/ocfl/{path}: it isn't a place of the program's, and is left out" for path in others]
    faults += differs(nothing=((status, listed, sorted(said.splitlines())), (2, [], sorted(left))))
    build(f"{top}/{place('ba')}", {"v1/content/a.txt": b"other"})
    faults += differs(both=(roots(folder, "damaged", "b/ocfl")[:2], (2, [place("ba")])))
    build(top, dict.fromkeys(others, stores.GONE))
    faults += differs(one=(roots(folder, "damaged", "b/ocfl")[:2], (1, [place("ba")])))
    build(top, others)
    build(folder, {f"b/{path}": held for path, held in {**an_object("va"), **an_object("vb"), **an_object("vc"), **an_object("vd")}.items()})
    build(f"{top}/{place('va')}", {"0=ocfl_object_1.1": GONE, "0=ocfl_object_1.0": b"ocfl_object_1.0\n"})
    build(f"{top}/{place('vb')}", {"v2": DIR, "inventory.json": b""})
    build(f"{top}/{place('vd')}", {"logs/fixity": b"1"})
    status, listed, said = roots(folder, "damaged", "b/ocfl")
    faults += differs(status=(status, 2), listed=(listed, [place("ba")]))
    faults += differs(apart=(sorted(re.findall(r"/(v[a-d]): it isn't judged", said)), ["va", "vb", "vd"]))
    if os.geteuid() == 0:
        os.chmod(folder, 0o755)
        os.chmod(f"{top}/{place('vc')}/v1/content/a.txt", 0)
        os.chmod(f"{top}/{place('cc').split('/')[0]}", 0)
        script = f"import sys, os, shutil, locale\nsys.path.insert(0, {TOP + '/tools'!r})\nimport roots\nos.setuid({NOBODY})\nsys.exit(roots.main())"
        command = [sys.executable, "-B", "-c", script, "damaged", "b/ocfl"]
        done = subprocess.run(command, cwd=folder, capture_output=True, timeout=120)
        unread = (done.returncode, done.stdout.decode().splitlines(), done.stderr.count(b"Permission denied"))
        faults += differs(unread=(unread, (2, [place("ba")], 2)))
    return faults


def helps(program, folder):
    """Help is asked for with status 0, and says the statuses; wrong words are refused with the usage."""
    faults = []
    parts = [(("--help",), "The status of `damaged`"), (("-h",), "That of `join`"), (("join", "--help"), "OTHER"), (("damaged", "-h"), "ROOT")]
    for words, part in (*parts, (("sums", "-h"), "[LOG ...]"), (("set-aside", "--help"), "AWAY"), (("--help",), "`set-aside` is 0")):
        status, lines, said = roots(folder, *words)
        faults += differs(**{" ".join(words): ((status, any(part in line for line in lines), said), (0, True, ""))})
    wrong = ((), ("join",), ("join", "a/ocfl"), ("damaged",), ("damaged", "a", "b"), ("other", "a"), ("join", "--force", "a", "b"), ("sums",))
    for words in (*wrong, ("set-aside", "a", "b")):
        status, lines, said = roots(folder, *words)
        faults += differs(**{f"words {words}": ((status, lines, "the words are wrong" in said, "usage: roots.py" in said), (2, [], True, True))})
    return faults


def all_named(program, folder):
    """Of roots whose own files are damaged all that are damaged are named at once, by `damaged` and by `join`, each by its root and its path."""
    three(folder)
    config = f"extensions/{stores.LAYOUT_NAME}/config.json"
    own, faults = ("0=ocfl_1.1", "ocfl_layout.json", config), []
    whole = {f"{name}/ocfl/{path}": read_tree(f"{folder}/b/ocfl")[path] for name in "bc" for path in own}
    for bad in (
        {"0=ocfl_1.1": b"", config: b"{}"},
        {"0=ocfl_1.1": GONE, "ocfl_layout.json": b"", config: GONE},
        {"ocfl_layout.json": GONE, config: b""},
        {"0=ocfl_1.1": b"x", "extensions": GONE},
    ):
        named = [path for path in own if path in bad or path.split("/")[0] in bad]
        for *words, damaged in (("damaged", "b/ocfl", "b"), ("join", "a/ocfl", "b/ocfl", "b"), ("join", "b/ocfl", "a/ocfl", "c/ocfl", "bc")):
            for name in damaged:
                build(f"{folder}/{name}/ocfl", bad)
            status, lines, said = roots(folder, *words)
            told = [[(name, path) for name in "abc" for path in own if re.match(f"roots.py: {name}/ocfl[^a-z].*{path}", line)] for line in said.splitlines()]
            wanted = [[(name, path)] for name in damaged for path in named]
            faults += differs(**{f"{words} {sorted(bad)}": ((status, lines, told, "Errno" in said), (2, [], wanted, False))})
            build(folder, whole)
    return faults + differs(mended=(roots(folder, "damaged", "b/ocfl"), (0, [], "")))


def strays(program, folder):
    """What isn't the program's stays in the other root and is told, with a status that isn't that of a clean join, nor of a root that `damaged`
    finds whole."""
    three(folder)
    build(folder, {"b/ocfl/notes.txt": b"1", f"b/ocfl/{place('cc')}": GONE})
    status, lines, said = roots(folder, "join", "a/ocfl", "b/ocfl")
    faults = differs(left=((status, lines, said), (2, [], "roots.py: b/ocfl/notes.txt: it isn't a place of the program's, and is left out\n")))
    faults += differs(moved=(os.path.isdir(f"{folder}/a/ocfl/{place(LONG)}"), True), there=(os.path.exists(f"{folder}/b/ocfl/notes.txt"), True))
    faults += differs(damaged=(roots(folder, "damaged", "b/ocfl"), (2, [], said)))
    build(folder, {"b/ocfl/notes.txt": GONE, "a/ocfl/notes.txt": b"1"})
    return faults + differs(clean=(roots(folder, "join", "a/ocfl", "b/ocfl"), (0, [], "")))


def on_a_terminal(program, folder):
    """On a terminal it shows how far it is, in a line that is taken away at the end and before each other line; elsewhere nothing."""
    three(folder)
    build(f"{folder}/a/ocfl/{place('aa')}", {"v1/content/a.txt": b""})
    ours, theirs = pty.openpty()
    done = roots(folder, "damaged", "a/ocfl", stderr=theirs)
    os.close(theirs)
    said = b""
    with contextlib.suppress(OSError):
        while piece := os.read(ours, 65536):
            said += piece
    os.close(ours)
    faults = differs(listed=(done[:2], (1, [place("aa")])), one=(re.match(rb"\rroots.py: 1 object, \d+ % of a/ocfl\x1b\[K", said) is not None, True))
    told = re.search(rb"\r\x1b\[Kroots.py: a/ocfl/[^\r\n]* isn't whole\r\n", said) is not None
    return faults + differs(told=(told, True), elsewhere=("objects" in roots(folder, "damaged", "a/ocfl")[2], False))


def many_roots(program, folder):
    """More roots than files may be open at once, as the system begins with, are joined."""
    names = [f"{number:03}" for number in range(60)]
    for name in names:
        build(f"{folder}/{name}", root(an_object(name)))
    few = {"preexec_fn": lambda: resource.setrlimit(resource.RLIMIT_NOFILE, (50, resource.getrlimit(resource.RLIMIT_NOFILE)[1]))}
    faults = differs(joined=(roots(folder, "join", *(f"{name}/ocfl" for name in names), **few), (0, [], "")))
    return faults + list(stores.differences(read_tree(f"{folder}/000"), stores.with_folders(root(*map(an_object, names)))))


def installed(program, folder):
    """Installed, and called by a link elsewhere, it finds what stands beside it, and leaves nothing there."""
    three(folder)
    subprocess.run(["sh", f"{TOP}/tools/install.sh", program, f"{folder}/usr"], check=True, capture_output=True, timeout=120)
    os.symlink("usr/share/pairtree2ocfl/roots.py", f"{folder}/linked")
    before = sorted(os.listdir(f"{folder}/usr/share/pairtree2ocfl"))
    done = subprocess.run([sys.executable, "linked", "damaged", "a/ocfl"], cwd=folder, capture_output=True, timeout=120)
    after = sorted(os.listdir(f"{folder}/usr/share/pairtree2ocfl"))
    return differs(done=((done.returncode, done.stdout, done.stderr), (0, b"", b"")), left=(after, before))


CASES = [
    Alone("roots are joined", joins),
    Alone("help of roots.py", helps),
    Alone("roots.py where it is installed", installed),
    Alone("all damaged files of a root are named", all_named),
    Alone("what a join leaves out", strays),
    Alone("roots.py on a terminal", on_a_terminal),
    Alone("joining many roots", many_roots),
    Alone("roots that can't be joined", refusals),
    Alone("what stays when roots are joined", leaves),
    Alone("roots on several file systems", other_systems),
    Alone("joining with an output that fails", outputs),
    Alone("joining where the first root takes no more", full),
    Alone("roots.py escapes", escapes),
    Alone("tools/shown.py", shows),
    Alone("the specifications in a root", own_texts),
    Alone("joining, killed at 200 moments", killed),
    Alone("what damaged tells apart", tells),
]
