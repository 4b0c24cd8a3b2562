"""Cases of `check`: stores with each kind of trouble, as root and as another user, which it tells and passes; and what its lines and its answer must be."""

import collections
import contextlib
import os
import subprocess

from alone import Alone, differs
from running import as_nobody
from stores import DECLARATION, DIR, FIFO, SOCKET, Link, build, lines, read_tree, store
from tally import needs

DENIED = "Permission denied (os error 13)"
NAME = "a name in it is not UTF-8: "


def of_path(kind, path="", **beside):
    """The line of a trouble at a path below `pairtree_root`, or at one from the store's folder on."""
    return {"as": kind, "path": f"pairtree_root/{path}" if path else "pairtree_root", **beside}


def unread(path, reason):
    """The line of a path that can't be listed, opened or read."""
    return of_path("unreadable", path, reason=reason)


def paths_of(tree):
    """The entries of a tree below `pairtree_root`, with the folders above them."""
    whole = {}
    for path, content in tree.items():
        names = path.split("/")
        for count in range(1, len(names)):
            whole["/".join(names[:count])] = DIR
        whole[path] = content
    return {path: content for path, content in whole.items() if path.startswith("pairtree_root/")}


def is_site(names):
    """Whether shorties with these names lead to a site: none stands below one of one byte."""
    return all(len(name.encode()) == 2 for name in names[:-1]) and len("".join(names[-1:]).encode()) <= 2


def depths(met, unjudged, gathers):
    """The members that count the sites among these entries, and those that have an object, by their depth, and objects whose own folder has another name
    than those of its site join to; a folder that can't be listed whole is no site."""
    beside = {"pairtree_root": []}
    for path, content in met.items():
        above, _, name = path.rpartition("/")
        beside.setdefault(path, []) if content == DIR else None
        beside.setdefault(above, []).append((name, content)) if content != DIR or len(name.encode()) > 2 else None
    counts = collections.Counter()
    for path, entries in beside.items():
        names = path.split("/")[1:]
        if is_site(names) and "/".join(names) not in unjudged:
            encapsulated = bool(names) and [content for _, content in entries] == [DIR]
            counts[f"sites_at_{min(len(names), 32):02}"] += 1
            counts[f"objects_at_{min(len(names), 32):02}"] += encapsulated or gathers and bool(names and entries)
            counts["renamed"] += encapsulated and entries[0][0] != "".join(names)
    return +counts


def lengths(files):
    """The members that count these files, and their bytes, by how many digits their length has, which is 0 for an empty one."""
    counts = collections.Counter()
    for content in files:
        digits = len(str(len(content)).lstrip("0"))
        counts[f"files_of_{digits:02}"] += 1
        counts[f"bytes_of_{digits:02}"] += len(content)
    return +counts


def end(tree, told, sites, objects=0, unjudged=(), unread=(), gathers=False, **numbers):
    """The last line of a check that met all of a tree: what isn't given is counted here. Where it counts bytes it read each file, but for those that are `unread`."""
    met = paths_of(tree)
    files = {path: content for path, content in met.items() if isinstance(content, bytes)}
    counts = {
        "bytes": 0,
        "files": len(files),
        "folders": sum(content == DIR for content in met.values()),
        "largest": 0,
        "longest": max((len(path.encode()) for path in met), default=0),
        **(depths(met, unjudged, gathers) if sites else {}),
        **(lengths(content for path, content in files.items() if path.partition("/")[2] not in unread) if "bytes" in numbers else {}),
    }
    return {"as": "end", **counts, "objects": objects, "sites": sites, "told": told, **numbers}


def checked(program, folder, *words, before=(), source="s", **options):
    """A check of the store of a test: its status and both streams."""
    done = subprocess.run([*before, program, "check", *words, source], cwd=folder, capture_output=True, stdin=subprocess.DEVNULL, timeout=300, **options)
    return done.returncode, done.stdout, done.stderr


# What is told and would stop a run.
STOPPING = {"missing", "unreadable", "prefix", "place"}


def answer(*entries):
    """The answer of a check whose output has these lines, the last of them that of the numbers, with how many lines of each kind there are."""
    *told, last = entries
    kinds = collections.Counter(entry["as"] for entry in told)
    return 3 if STOPPING & kinds.keys() else int(bool(told)), lines(*told, {**last, **kinds}), b""


# Stores with each kind of trouble: what lies in `pairtree_root`, the lines without the last one, and how many sites and objects there are.
TROUBLES = {
    "a store with nothing in it": ({}, [], 1, 0),
    "one object": ({"ab/c/obj/f": b"abc"}, [], 3, 1),
    "objects and a folder that leads on": ({"ab/c/obj/f": b"1", "ab/cd/e/obj/dir/f": b"2", "ab/cd/obj/f": b"3"}, [], 5, 3),
    "an object with empty folders": ({"ab/c/obj/empty": DIR}, [], 3, 1),
    "a file in pairtree_root": ({"f": b""}, [of_path("root")], 1, 0),
    "an empty folder of an identifier": ({"ab/c": DIR}, [of_path("empty", "ab/c")], 3, 0),
    "a file beside an object": ({"ab/c/f": b"", "ab/c/obj/f": b""}, [of_path("split", "ab/c")], 3, 0),
    "two folders of one identifier": ({"ab/c/one/f": b"", "ab/c/two/f": b""}, [of_path("split", "ab/c")], 3, 0),
    "a folder past the end": ({"a/bc/obj/f": b""}, [of_path("past", "a/bc")], 2, 0),
    "names that read as no identifier": ({"^z/c/obj/f": b""}, [of_path("name", "^z/c")], 3, 1),
    "an identifier that isn't UTF-8": ({"^f/f/obj/f": b""}, [of_path("utf8", "^f/f")], 3, 1),
    "a link in an object": ({"ab/c/obj/l": Link("none")}, [of_path("other", "ab/c/obj/l")], 3, 1),
    "a link to a folder": ({"ab/c/obj/f": b"", "ab/d/obj/l": Link("../../c")}, [of_path("other", "ab/d/obj/l")], 4, 2),
    "a pipe and a socket": ({"ab/c/obj/p": FIFO, "ab/c/obj/s": SOCKET}, [of_path("other", "ab/c/obj/p"), of_path("other", "ab/c/obj/s")], 3, 1),
    "a link for a folder": ({"ab/c/obj/f": b"", "ad": Link("ab")}, [of_path("root"), of_path("other", "ad")], 3, 1),
    "what desktops leave in an object": (
        {"ab/c/obj/.DS_Store": b"1", "ab/c/obj/._f": b"", "ab/c/obj/Thumbs.db": b"", "ab/c/obj/desktop.ini": b"", "ab/c/obj/f._": b""},
        [of_path("desktop", f"ab/c/obj/{name}") for name in (".DS_Store", "._f", "Thumbs.db", "desktop.ini")],
        3,
        1,
    ),
    "what desktops leave beside an object": (
        {"ab/c/.DS_Store": b"1", "ab/c/obj/f": b""},
        [of_path("split", "ab/c"), of_path("desktop", "ab/c/.DS_Store")],
        3,
        0,
    ),
    "other names than the identifier's own": (
        {"^6/1b/obj/f": b"", "^5/Cx/obj/f": b"", "^5/cx/obj/f": b"", "a=/obj/f": b""},
        [of_path("spelling", "^5/Cx"), of_path("spelling", "^6/1b")],
        7,
        4,
    ),
    "pieces of three bytes": (
        {"ab/cde/f/obj/g": b"", "ab/fgh/obj/f": b"", "abc/de/f": b""},
        [of_path("root"), of_path("split", "ab"), of_path("width", "ab/cde"), of_path("width", "abc")],
        2,
        0,
    ),
    "an object with folders of two bytes beside a file": ({"ab/cd/obj/f": b"", "ab/cd/obj/v1/f": b"", "ab/ef/obj/data/v1/f": b""}, [], 4, 2),
    "characters that JSON escapes": ({'ab/c/obj/"\n\\é': Link("x")}, [of_path("other", 'ab/c/obj/"\n\\é')], 3, 1),
}


def each_trouble(program, folder):
    """Each kind of trouble is told where it lies, and nothing else is."""
    faults = []
    for number, (name, (tree, told, sites, objects)) in enumerate(TROUBLES.items()):
        build(folder, {f"t{number}": DIR})
        build(f"{folder}/t{number}", store(tree))
        before = read_tree(folder)
        faults += differs(**{name: (checked(program, folder, source=f"t{number}"), answer(*told, end(store(tree), len(told), sites, objects)))})
        faults += differs(**{f"what stands after {name}": (read_tree(folder), before)})
    return faults


# Bytes of a file of the prefix, and what is told of it.
PREFIXES = {
    b"": None,
    b"ark:/13030/\r\n\n": None,
    "é 日".encode(): None,
    b"p" * 1024: None,
    b"p" * 1025: "prefix",
    b"\n" * 9000: "prefix",
    b"a\xff": "prefix",
    b" a": "doubtful",
    b"a \n": "doubtful",
    b"a\nb\n": "doubtful",
    b"\xef\xbb\xbfark:/": "doubtful",
    "a\u0085b".encode(): "doubtful",
    b"a\x7f": "doubtful",
    DIR: "prefix",
    Link("pairtree_version0_1"): "prefix",
    FIFO: "prefix",
}


def prefixes(program, folder):
    """A file of the prefix that is none is told, and so is a prefix that reads otherwise than it looks."""
    faults = []
    for number, (prefix, kind) in enumerate(PREFIXES.items()):
        build(folder, {f"t{number}": DIR})
        build(f"{folder}/t{number}", store({}, prefix))
        told = [{"as": kind, "path": "pairtree_prefix"}] if kind else []
        faults += differs(**{f"{prefix!r:.40}": (checked(program, folder, source=f"t{number}"), answer(*told, end({}, len(told), 1)))})
    return faults


def a_top_that_lacks(program, folder):
    """What a store must have is told where it is missing, or is of another kind."""
    version, root = {"as": "missing", "path": "pairtree_version0_1"}, {"as": "missing", "path": "pairtree_root"}
    tops = {
        "nothing": ({}, [version, root], 0),
        "no version's file": ({"pairtree_root": DIR}, [version], 1),
        "no pairtree_root": ({"pairtree_version0_1": DECLARATION}, [root], 0),
        "a folder for the version's file": ({"pairtree_version0_1": DIR, "pairtree_root": DIR}, [version], 1),
        "a link to pairtree_root": ({"pairtree_version0_1": b"", "tree/ab/c/obj/f": b"", "pairtree_root": Link("tree")}, [root], 0),
    }
    faults = []
    for name, (top, told, sites) in tops.items():
        build(folder, {f"{name}": DIR})
        build(f"{folder}/{name}", top)
        faults += differs(**{name: (checked(program, folder, source=name), answer(*told, end({}, len(told), sites)))})
    for name, source, reason in (
        ("no folder", "none", "No such file or directory (os error 2)"),
        ("a file", "s/pairtree_version0_1", "Not a directory (os error 20)"),
        ("an empty word", "", "the path is empty"),
    ):
        told = {"as": "unreadable", "path": "", "reason": reason}
        faults += differs(**{name: (checked(program, folder, source=source), answer(told, end({}, 1, 0)))})
    return faults


@contextlib.contextmanager
def closed(folder, *modes):
    """These entries with these modes, and with their own again at the end."""
    try:
        for path, mode in modes:
            os.chmod(f"{folder}/{path}", mode)
        yield
    finally:
        for path, _ in modes:
            os.chmod(f"{folder}/{path}", 0o755)


def closed_to_others(program, folder):
    """What another user can't list, search or read is told, each once, and the rest is met; to root nothing of it is closed."""
    nobody = as_nobody()
    tree = {"ab/c/obj/f": b"abc", "ab/c/obj/g": b"de", "ad/e/obj/f": b"", "af/g/obj/sub/f": b"", "ah/i/obj/f": b"1"}
    os.chmod(folder, 0o755)
    build(f"{folder}/t", store(tree))
    root = "t/pairtree_root"
    with closed(folder, (f"{root}/ab/c/obj/f", 0), (f"{root}/ad", 0), (f"{root}/af/g/obj/sub", 0o444)):
        told = [unread("ab/c/obj/f", DENIED), unread("ad", DENIED), unread("af/g/obj/sub", DENIED)]
        met = {**store(tree), **store({"ad": DIR, "af/g/obj/sub": DIR})}
        met = {path: content for path, content in met.items() if "/ad/" not in path and "/sub/" not in path}
        faults = differs(nobody=(checked(program, folder, before=nobody, source="t"), answer(*told, end(met, 3, 7, 3, unjudged={"ad"}))))
        last = end(met, 3, 7, 3, unjudged={"ad"}, unread={"ab/c/obj/f"}, bytes=3, largest=2)
        faults += differs(read=(checked(program, folder, "--read", before=nobody, source="t"), answer(*told, last)))
        faults += differs(root=(checked(program, folder, source="t"), answer(end(store(tree), 0, 9, 4))))
    build(f"{folder}/t", {"pairtree_prefix": b"p"})
    with closed(folder, ("t/pairtree_prefix", 0), (root, 0)):
        told = [{"as": "unreadable", "path": "pairtree_prefix", "reason": DENIED}, unread("", DENIED)]
        faults += differs(prefix=(checked(program, folder, before=nobody, source="t"), answer(*told, end({}, 2, 0))))
    with closed(folder, ("t", 0o311)):
        faults += differs(top=(checked(program, folder, before=nobody, source="t"), answer({"as": "unreadable", "path": "", "reason": DENIED}, end({}, 1, 0))))
    return faults


def with_files(folder, path, *names):
    """Makes empty files with these bytes for names in a folder of the store of a test, the last of them first."""
    for name in reversed(names):
        with open(f"{folder}/t/{path}/".encode() + name, "wb"):
            pass


def names_that_are_no_text(program, folder):
    """A folder with a name that isn't UTF-8 is told with that name's bytes, and isn't judged; what lies in it is met."""
    tree = {"ab/c/obj/d/g": b"", "ab/c/obj/f": b"", "ad/e/obj/f": b"1"}
    build(f"{folder}/t", store(tree))
    with_files(folder, "pairtree_root/ab/c/obj/d", b"\xe9\xff")
    with_files(folder, "pairtree_root/ad/e", "é ".encode() + b"a\n\\\xff'z")
    told = [unread("ab/c/obj/d", NAME + r"\xe9\xff"), unread("ad/e", NAME + r"\xc3\xa9 a\n\\\xff\'z")]
    last = end(store(tree), 2, 4, 1, unjudged={"ad/e"}, bytes=1)
    return differs(answer=(checked(program, folder, "--read", source="t"), answer(*told, last)))


BAD = (b"a\xfe", b"\xe9z", b"\xff")


def many_names_that_are_no_text(program, folder):
    """Each name that isn't UTF-8 has a line, in the order of their bytes; sites, objects and files beside them are met, but for what is ignored."""
    tree = {"ab/c/obj/f": b"1", "ab/c/obj/l": Link("none"), "ab/d/obj/f": b"23", "ab/other/.DS_Store": b"4", "ab/other/f": b"5", "ae/f/obj/g": b"678"}
    build(f"{folder}/t", store(tree))
    with_files(folder, "pairtree_root/ab", *BAD)
    with_files(folder, "pairtree_root/ae/f/obj", *BAD)
    with_files(folder, "", *BAD)
    each = [NAME + text for text in (r"a\xfe", r"\xe9z", r"\xff")]
    top = [{"as": "unreadable", "path": "", "reason": reason} for reason in each]
    above, below = [unread("ab", reason) for reason in each], [unread("ae/f/obj", reason) for reason in each]
    told = [*top, *above, of_path("other", "ab/c/obj/l"), of_path("desktop", "ab/other/.DS_Store"), *below]
    whole = end(store(tree), len(told), 5, 3, unjudged={"ab"}, bytes=8, largest=3)
    left = {path: content for path, content in tree.items() if "ab/other" not in path and "ab/c/obj/l" not in path}
    ignoring = [*top, *above, *below]
    less = end(store(left), len(ignoring), 5, 3, unjudged={"ab"})
    return differs(
        answer=(checked(program, folder, "--read", source="t"), answer(*told, whole)),
        ignored=(checked(program, folder, "--ignore", "other", "--ignore", "l", source="t"), answer(*ignoring, less)),
    )


def further_reasons(program, folder):
    """Where a folder with such names can't be looked through either, that is told behind them, and nothing below it is met."""
    needs("strace")
    tree = {"ab/c/obj/f": b"", "ad/e/obj/f": b""}
    build(f"{folder}/t", store(tree))
    with_files(folder, "pairtree_root/ab", *BAD)
    path = f"{folder}/t/pairtree_root/ab/c"
    before = ("strace", "-o", "/dev/null", "-P", path, "-e", "trace=/stat|statx", "-e", "inject=/stat|statx:error=EIO")
    told = [*(unread("ab", NAME + text) for text in (r"a\xfe", r"\xe9z", r"\xff")), unread("ab", "Input/output error (os error 5)")]
    met = store({"ab": DIR, "ad/e/obj/f": b""})
    return differs(answer=(checked(program, folder, before=before, source=f"{folder}/t"), answer(*told, end(met, 4, 3, 1, unjudged={"ab"}))))


CASES = [
    Alone(f"check: {name}", test)
    for name, test in (
        ("each kind of trouble", each_trouble),
        ("prefixes", prefixes),
        ("a top that lacks what a store must have", a_top_that_lacks),
        ("what is closed to another user", closed_to_others),
        ("names that aren't UTF-8", names_that_are_no_text),
        ("many names that aren't UTF-8", many_names_that_are_no_text),
        ("names that aren't UTF-8 and a look that fails", further_reasons),
    )
]
