"""Tests of `roots.py join` where a tuple folder of another root has no like in the first: it is renamed as one, unless something in it stays.

The roots have three tuples of one digit, so identifiers for a folder are soon found: `named("789")` is one whose object lies in 7/8/9."""

import contextlib
import hashlib
import itertools
import os
import subprocess
import sys

import stores
from alone import Alone, differs
from joining import NOBODY, ROOTS, TOP, an_object, roots
from running import mount_below
from stores import DIR, GONE, Link, build, read_tree, root

LAYOUT = (1, 3)


def named(digits, number=0):
    """An identifier whose place has these tuples; by the number another one."""
    return next(name for name in map(f"{number}-{{}}".format, itertools.count()) if hashlib.sha256(name.encode()).hexdigest().startswith(digits))


def place(identifier):
    return stores.place(identifier, LAYOUT)


def made(folder, **several):
    """Roots with objects of these identifiers, which tell of which root they are."""
    for name, identifiers in several.items():
        objects = [an_object(identifier, name.encode(), layout=LAYOUT) for identifier in identifiers]
        build(folder, {name: DIR, **{f"{name}/{path}": held for path, held in root(*objects, layout=LAYOUT).items()}})


def numbers(folder, *paths):
    """The numbers of folders of a root, by which the system knows them: one that is renamed keeps its own."""
    return {path: os.lstat(f"{folder}/ocfl/{path}").st_ino if os.path.lexists(f"{folder}/ocfl/{path}") else None for path in paths}


def files(folder):
    """What stands in a root, but for folders, and for files at its top."""
    return {path: held for path, held in read_tree(f"{folder}/ocfl").items() if held != DIR and "/" in path}


def is_below(path, tops):
    """Whether a path is one of these, or leads below one."""
    return any(f"{path}/".startswith(f"{top}/") for top in tops)


def left_over(found, before, left):
    """What isn't as it must be in the roots a and b, where all of b's below its tuple folders was moved, but for what stays below these paths."""
    staying = {path: held for path, held in before["b"].items() if path.index("/") != 1 or is_below(path, left)}
    moved = {path: held for path, held in before["b"].items() if path not in staying}
    yield from stores.differences(found["b"], staying)
    yield from stores.differences(found["a"], {**before["a"], **moved})


def as_one(program, folder):
    """The outermost folder that has no like in the first root is the one that is renamed, at each depth; one that stands in both is gone through."""
    several = {"a": ["123", "456"], "b": ["124", "156", "789", "78a", "7ab"], "c": ["78b", "cde"]}
    made(folder, **{name: [named(digits) for digits in these] for name, these in several.items()})
    build(f"{folder}/b", an_object(named("123", 1), layout=LAYOUT))
    b, c = numbers(f"{folder}/b", "7", "1/5", "1/2/4", place(named("123", 1))), numbers(f"{folder}/c", "7/8/b", "c")
    held = {**files(f"{folder}/b"), **files(f"{folder}/c"), **files(f"{folder}/a")}
    faults = differs(done=(roots(folder, "join", "a/ocfl", "b/ocfl", "c/ocfl"), (0, [], "")), whole=(roots(folder, "damaged", "a/ocfl"), (0, [], "")))
    faults += differs(b=(numbers(f"{folder}/a", *b), b), c=(numbers(f"{folder}/a", *c), c))
    left = {name: {path for path, it in read_tree(f"{folder}/{name}/ocfl").items() if it == DIR and path[0] != "e"} for name in "bc"}
    return faults + differs(left=(left, {"b": {"1", "1/2", "1/2/3"}, "c": {"7", "7/8"}}), files=(files(f"{folder}/a") == held, True))


# What may be below the folder 7 of a root whose objects lie in 7/1/1, 7/8/8 (two), 7/8/9 and 7/9/9: what is added, what stays by it and why, and
# which folders are moved as one beside it.
HURT = place(named("788", 1))
STRAY = "it isn't a place of the program's, and is left out"
STAYS = {
    "a file": ({"7/8/notes.txt": b"1"}, "7/8/notes.txt", STRAY, ("7/1", "7/8/8", "7/8/9", "7/9")),
    "a link": ({"7/8/8/0": Link("..")}, "7/8/8/0", STRAY, ("7/1", "7/8/9", "7/9")),
    "a folder": ({"7/abc/d": b"1"}, "7/abc", STRAY, ("7/1", "7/8", "7/9")),
    "an object's folder": ({"7/8/9/other/0=ocfl_object_1.1": b""}, "7/8/9/other", STRAY, ("7/1", "7/8/8", "7/9")),
    "an empty folder": ({"7/9/f": DIR}, None, None, ("7/1", "7/8", "7/9/9")),
    "a file more": ({f"{HURT}/v1/content/more": b"1"}, HURT, "it stays: no inventory has v1/content/more", ("7/1", "7/8/9", "7/9")),
    "a file less": ({f"{HURT}/v1/content/a.txt": GONE}, HURT, "it stays: v1/content/a.txt isn't there", ("7/1", "7/8/9", "7/9")),
    "a version": ({f"{HURT}/v2": DIR}, HURT, "it stays: it is of another version of OCFL, or has later versions", ("7/1", "7/8/9", "7/9")),
    "an inventory": ({f"{HURT}/inventory.json": b'{"id":"x"}'}, HURT, "it stays: its inventory has the identifier of another place", ("7/1", "7/8/9", "7/9")),
}


def stays(program, folder):
    """Where something in a folder isn't to be moved it is told and left, as it is elsewhere, and the rest is moved, by as few names as can be."""
    faults = []
    for what, (more, left, why, ones) in STAYS.items():
        here = f"{folder}/{what}"
        made(here, a=[named("123")], b=[named("711"), named("788"), named("788", 1), named("789"), named("799")])
        build(f"{here}/b/ocfl", more)
        kept, before = numbers(f"{here}/b", *ones), {name: files(f"{here}/{name}") for name in "ab"}
        wanted = (2, [], f"roots.py: b/ocfl/{left}: {why}\n") if left else (0, [], "")
        faults += differs(**{what: (roots(here, "join", "a/ocfl", "b/ocfl"), wanted), f"beside {what}": (numbers(f"{here}/a", *ones), kept)})
        faults += [f"{what}: {text}" for text in left_over({name: files(f"{here}/{name}") for name in "ab"}, before, [left] if left else [])]
        faults += differs(**{f"{what} is there": (os.path.lexists(f"{here}/b/ocfl/{left or '7/9/f'}"), True)})
    return faults


def taken(program, folder):
    """Places that are taken are listed in their order, and what stands in the way of a folder is told of each object below it, beside folders that are
    moved as one."""
    made(folder, a=[named("788"), named("abc")], b=[named(digits) for digits in ("123", "788", "78a", "7ff", "abc", "d11", "d22", "ef0")])
    build(f"{folder}/a/ocfl", {"d": b"a file", "e": DIR, "e/f": Link("../7")})
    kept, before = numbers(f"{folder}/b", "1", "7/8/a", "7/f"), {name: files(f"{folder}/{name}") for name in "ab"}
    way = [place(named(digits)) for digits in ("d11", "d22", "ef0")]
    there = [place(named("788")), place(named("abc"))]
    said = "".join(f"roots.py: b/ocfl/{path}: it stays: Not a directory\n" for path in way)
    faults = differs(done=(roots(folder, "join", "a/ocfl", "b/ocfl"), (2, [f"b/ocfl/{path}" for path in there], said)))
    faults += differs(kept=(numbers(f"{folder}/a", *kept), kept))
    return faults + list(left_over({name: files(f"{folder}/{name}") for name in "ab"}, before, [*way, *there]))


def mounts(program, folder):
    """What is mounted below a folder isn't taken along: that is refused as it is anywhere else, though the folder itself could be renamed."""
    faults = []
    for what, words in {"another": ("-t", "tmpfs", "-o", "size=1m", "none"), "the same": ("--bind", "beside")}.items():
        here = f"{folder}/{what} ü"
        made(here, a=[named("123")], b=[named("711"), named("788")])
        build(here, {"beside": DIR})
        os.makedirs(f"{here}/b/ocfl/7/9")
        with contextlib.ExitStack() as last:
            mount_below(here, (*(f"{here}/beside" if word == "beside" else word for word in words), "b/ocfl/7/9"), last)
            build(here, {f"b/{path}": held for path, held in an_object(named("799"), layout=LAYOUT).items()})
            status, listed, said = roots(here, "join", "a/ocfl", "b/ocfl")
            faults += differs(**{what: ((status, listed, "takes no more of b/ocfl" in said and "cp -a" in said), (2, [], True))})
            stands = [os.path.isdir(f"{here}/{root}/ocfl/{place(named(digits))}") for root, digits in (("b", "799"), ("a", "711"), ("a", "788"))]
            faults += differs(**{f"stands with {what}": ((stands, os.path.lexists(f"{here}/a/ocfl/7/9")), ([True] * 3, False))})
            if os.path.lexists(f"{here}/a/ocfl/7/9"):
                # It goes back, to be taken away where it was made.
                os.rename(f"{here}/a/ocfl/7", f"{here}/b/ocfl/7")
    return faults


# Runs roots.py where tuple folders can't be renamed, or as somebody who may not rename all; its second word is the number of the error, its third
# the user's.
HELD = """
import os, sys, locale, shutil
sys.path.insert(0, sys.argv[1])
import roots
number, user = int(sys.argv[2]), int(sys.argv[3])
rename = os.rename
def renamed(name, *words, **options):
    if number and len(name) == 1:
        raise OSError(number, os.strerror(number), name)
    rename(name, *words, **options)
os.rename = renamed
if user:
    os.setgroups([])
    os.setuid(user)
del sys.argv[1:4]
sys.exit(roots.main())
"""


def held(folder, number, user):
    """What such a join answers."""
    words = [sys.executable, "-B", "-c", HELD, f"{TOP}/tools", str(number), str(user), "join", "a/ocfl", "b/ocfl"]
    done = subprocess.run(words, cwd=folder, capture_output=True, timeout=120)
    return done.returncode, done.stdout.decode(), done.stderr.decode()


def no_rename(program, folder):
    """Where the system renames no tuple folder its objects are renamed, as where the folder may not be written in or is on another layer."""
    faults = []
    for number in (1, 13, 16, 18):
        here = f"{folder}/{number}"
        made(here, a=[named("123")], b=[named("711"), named("788"), named("789"), named("124")])
        before = {name: files(f"{here}/{name}") for name in "ab"}
        faults += differs(**{f"{number}": (held(here, number, 0), (0, "", ""))})
        faults += list(left_over({name: files(f"{here}/{name}") for name in "ab"}, before, []))
    return faults


def read_only(program, folder):
    """An object that its user may not rename stays and is told, though the folder above it could be renamed with it."""
    if os.geteuid() != 0:
        return []
    faults = []
    for what, path in {"object": place(named("788")), "folder": "7/8/8"}.items():
        here = f"{folder}/{what}"
        made(here, a=[named("123")], b=[named("711"), named("788"), named("789")])
        for above, folders, names in os.walk(here):
            for name in (".", *names):
                os.lchown(f"{above}/{name}", NOBODY, NOBODY)
        os.chmod(folder, 0o755)
        os.chmod(f"{here}/b/ocfl/{path}", 0o555)
        before = {name: files(f"{here}/{name}") for name in "ab"}
        told = f"roots.py: b/ocfl/{place(named('788'))}: it stays: Permission denied\n"
        faults += differs(**{what: (held(here, 0, NOBODY), (2, "", told))})
        faults += list(left_over({name: files(f"{here}/{name}") for name in "ab"}, before, [place(named("788"))]))
    return faults


def killed(program, folder):
    """Ended just before and just after each of its renames, of folders and of objects, 40 times, it loses nothing, and the same command does the rest."""
    several = {
        "a": ["123", "788", "e11"],
        "b": ["124", "156", "211", "222", "311", "788", "78a", "7ab", "911", "912", "a11"],
        "c": ["78b", "311", "411", "511", "611", "812", "b11", "cde", "d11", "e12", "f11"],
    }
    made(f"{folder}/before", **{name: [named(digits) for digits in these] for name, these in several.items()})
    more = {**an_object(named("123", 1), layout=LAYOUT), **an_object(named("911", 1), layout=LAYOUT)}
    build(f"{folder}/before/b", {**more, "ocfl/2/3": DIR, "ocfl/9/2/0": DIR})
    script = f"{TOP}/tests/harness/kills.py"
    done = subprocess.run([sys.executable, "-B", script, ROOTS[-1], folder, "40", "rename"], capture_output=True, timeout=280)
    *faults, count = done.stdout.decode().splitlines() or ["nothing was said"]
    return faults[:5] + differs(count=(count, "40"), errors=(done.stderr, b""))


CASES = [
    Alone("joining renames tuple folders as one", as_one),
    Alone("what stays in a tuple folder", stays),
    Alone("places that are taken beside folders", taken),
    Alone("mounts below a tuple folder", mounts),
    Alone("tuple folders that can't be renamed", no_rename),
    Alone("objects that may not be renamed", read_only),
    Alone("joining, killed at its renames", killed),
]
