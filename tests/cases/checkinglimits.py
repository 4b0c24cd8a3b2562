"""Cases of `check`: what is over a limit, or has no place in a destination; what it gathers, counts and reads; what it leaves alone, and what it holds."""

import fcntl
import json
import os
import subprocess
import sys

from alone import Alone, differs
from checking import answer, checked, end, of_path, unread
from stores import DIR, build, lines, store, text_of
from tally import needs

TOO_LONG = "File name too long (os error 36)"

# Makes a folder in the working folder by steps, in each of which the path is short enough for the system, and in it a file.
BY_STEPS = """
import os, sys
*names, last = sys.argv[1:]
for name in names:
    os.makedirs(name, exist_ok=True)
    os.chdir(name)
open(last, "w").close()
"""


def made_by_steps(folder, path):
    """Makes a file at a path that may be longer than the system takes."""
    subprocess.run([sys.executable, "-c", BY_STEPS, *path.split("/")], cwd=folder, check=True)


def long_paths(program, folder):
    """A file whose path in its object has more than 4,000 bytes is told; so is a folder in which a path is longer than the system takes."""
    build(f"{folder}/t", store({}))
    deep, top = "/".join(letter * 199 for letter in "abcdefghijklmnopqrst"), "t/pairtree_root"
    made_by_steps(folder, f"{top}/ab/c/obj/{deep[:-1]}/f")
    made_by_steps(folder, f"{top}/ab/d/obj/{deep}/f")
    made_by_steps(folder, f"{top}/ab/e/obj/{deep}/{'u' * 90}/f")
    told = [of_path("long", f"ab/d/obj/{deep}/f"), unread(f"ab/e/obj/{deep}", TOO_LONG)]
    longest = len(f"pairtree_root/ab/d/obj/{deep}/f")
    last = {"as": "end", "bytes": 0, "files": 2, "folders": 67, "largest": 0, "longest": longest, "objects": 3, "sites": 5, "told": 2}
    last |= {"objects_at_02": 3, "renamed": 3, "sites_at_00": 1, "sites_at_01": 1, "sites_at_02": 3}
    return differs(answer=(checked(program, folder, source="t"), answer(*told, last)))


def many_files(program, folder):
    """Of an object with more than 1,000,000 files the first that is over it is told, and no other; of the next object none is."""
    top = f"{folder}/t/pairtree_root"
    build(f"{folder}/t", store({"ab/d/obj/f": b"", **{f"x{number:02}": b"" for number in range(20)}}))
    for number in range(1_000_002):
        if number % 10_000 == 0:
            os.makedirs(f"{top}/ab/c/obj/{number // 10_000:03}")
        os.link(f"{top}/x{number % 20:02}", f"{top}/ab/c/obj/{number // 10_000:03}/{number % 10_000:04}")
    for number in range(20):
        os.remove(f"{top}/x{number:02}")
    last = {"as": "end", "bytes": 0, "files": 1_000_003, "folders": 106, "largest": 0, "longest": len("pairtree_root/ab/c/obj/000/0000"), "objects": 2}
    last |= {"objects_at_02": 2, "renamed": 2, "sites_at_00": 1, "sites_at_01": 1, "sites_at_02": 2}
    told = of_path("many", "ab/c/obj/100/0000")
    return differs(answer=(checked(program, folder, source="t"), answer(told, {**last, "sites": 4, "told": 1})))


def file_at(path_bytes):
    """A path of so many bytes: folders with names of 200, and a file."""
    folders = (path_bytes - 51) // 201
    return "/".join([*("x" * 200 for _ in range(folders)), "y" * (path_bytes - 201 * folders)])


# How long a path may be that is made in DEST: what the longest place of a layout leaves of 4,095 bytes, its last name of 165 and `ocfl/` in the place of `staging`.
LONGEST_MADE = {(): 4095 - 163 - 3 * 4, ("--tuple-size", "2", "--tuples", "5"): 4095 - 163 - 5 * 3, ("--tuple-size", "0", "--tuples", "0"): 4095 - 163}


def long_in_a_destination(program, folder):
    """With --dest a file is told for which a run has no room there, and none that is a byte shorter; DEST as it is given counts, and isn't made."""
    faults = []
    for number, (layout, longest) in enumerate(LONGEST_MADE.items()):
        for dest in ("D", "away/" * 40 + "D"):
            most = longest - len(f"{dest}/staging/v1/content/")
            source = f"t{number}{len(dest)}"
            build(folder, {f"{source}/pairtree_root": DIR})
            build(f"{folder}/{source}", store({}))
            made_by_steps(folder, f"{source}/pairtree_root/ab/c/obj/{file_at(most)}")
            made_by_steps(folder, f"{source}/pairtree_root/ab/d/obj/{file_at(most + 1)}")
            long = of_path("place", f"ab/d/obj/{file_at(most + 1)}")
            status, output, errors = checked(program, folder, "--dest", dest, *layout, source=source)
            faults += differs(**{f"{source} told": (output.splitlines()[:-1], lines(long).splitlines()), f"{source} status": ((status, errors), (3, b""))})
            faults += differs(**{f"{source} without": (checked(program, folder, source=source)[0], 0)})
    faults += differs(made=(os.path.lexists(f"{folder}/D") or os.path.lexists(f"{folder}/away"), False))
    return faults + as_a_run_into_it(program, folder)


def as_a_run_into_it(program, folder):
    """A run makes the file that isn't told, and ends with fault 2 at the one that is."""
    most = LONGEST_MADE[()] - len("D/staging/v1/content/")
    words = ("migrate", "--created", "2024-05-01T12:00:00Z", "--name", "Ada", "--verbose", "--quiet")
    faults = []
    for name, count, status in (("fits", most, 0), ("long", most + 1, 3)):
        build(folder, {f"{name}/D": DIR})
        build(f"{folder}/{name}/s", store({}))
        made_by_steps(folder, f"{name}/s/pairtree_root/ab/c/obj/{file_at(count)}")
        where = f"{folder}/{name}"
        told = checked(program, where, "--dest", "D")
        run = subprocess.run([program, *words, "s", "D"], cwd=where, capture_output=True, timeout=300)
        faults += differs(**{f"{name}: status": (run.returncode, status), f"{name}: told": (b'"place"' in told[1], status == 3)})
        faults += differs(**{f"{name}: reason": (b"too long at its place" in run.stderr, status == 3)})
    return faults


NO_TUPLES = ("--tuple-size", "0", "--tuples", "0")

# Prefixes of a store, the names of a site with an object, and what is told of the store without tuples, in order.
RESERVED = {
    "the identifier": (None, "ex/te/ns/io/ns", ["reserved"]),
    "a part behind a prefix": (b"exten\n", "si/on/s", ["reserved"]),
    "the same behind another prefix": (b"extend", "si/on/s", []),
    "with another spelling": (None, "^6/5x/te/ns/io/ns", ["spelling", "reserved"]),
    "a bad prefix, which counts as none": (b"a\xff", "ex/te/ns/io/ns", ["prefix", "reserved"]),
    "a longer identifier": (None, "ex/te/ns/io/ns/a", []),
}


def a_place_of_the_roots_own(program, folder):
    """Without tuples the identifier is told whose place is `extensions`, whether a destination is named or not; with tuples none is."""
    faults = []
    for number, (name, (prefix, site, told)) in enumerate(RESERVED.items()):
        tree = store({f"{site}/obj/f": b"1"}, prefix)
        build(folder, {f"t{number}": DIR})
        build(f"{folder}/t{number}", tree)
        entries = [{"as": "prefix", "path": "pairtree_prefix"} if kind == "prefix" else of_path(kind, site) for kind in told]
        others = [entry for entry in entries if entry["as"] != "reserved"]
        sites = site.count("/") + 2
        for words, wanted in ((NO_TUPLES, entries), (("--dest", "D", *NO_TUPLES), entries), ((), others), (("--dest", "D"), others)):
            answered = checked(program, folder, *words, source=f"t{number}")
            faults += differs(**{f"{name} {words}": (answered, answer(*wanted, end(tree, len(wanted), sites, 1)))})
    return faults


def deep_folders(program, folder):
    """A folder more than 600 below pairtree_root is told, and not listed. Sites that are 32 deep or deeper are counted together."""
    chain = {count: "/".join(["ab"] * count) for count in (600, 601)}
    at = {**{f"sites_at_{depth:02}": 1 for depth in range(32)}, "sites_at_32": 601 - 32}
    faults = []
    for count, told, sites in ((600, [], 601), (601, [of_path("deep", chain[601])], 601)):
        source = f"t{count}"
        build(f"{folder}/{source}", store({}))
        os.makedirs(f"{folder}/{source}/pairtree_root/{chain[count]}")
        told = told or [of_path("empty", chain[600])]
        last = end({}, len(told), sites, folders=count, longest=len("pairtree_root") + 3 * count, **at)
        faults += differs(**{source: (checked(program, folder, source=source), answer(*told, last))})
    return faults


# A store that is carried with --gather: its objects lie in their identifiers' folders, one of them above another.
DIRECT = {"ab/cd/a": b"abc", "ab/cd/de/b": b"defg", "ab/cd/far/c": b"ghi", "gh/obj/f": b"k", "gh/xy": DIR}


def gathering(program, folder):
    """With --gather a site is told only where a run with it passes it over; what it carries counts as an object, without what is below it."""
    build(f"{folder}/t", store(DIRECT))
    plain = [of_path("split", "ab/cd"), of_path("split", "ab/cd/de"), of_path("empty", "gh/xy")]
    empty = of_path("empty", "gh/xy")
    faults = differs(
        plain=(checked(program, folder, source="t"), answer(*plain, end(store(DIRECT), 3, 6, 1))),
        gathered=(checked(program, folder, "--gather", source="t"), answer(empty, end(store(DIRECT), 1, 6, 3, gathers=True))),
        read=(checked(program, folder, "--gather", "--read", source="t"), answer(empty, end(store(DIRECT), 1, 6, 3, gathers=True, bytes=11, largest=6))),
    )
    tree = store({"ab/cd/.DS_Store": b"", "^z/a": b"", "^6/1b/f": b""})
    build(f"{folder}/u", tree)
    told = [of_path("name", "^z"), of_path("spelling", "^6/1b"), of_path("desktop", "ab/cd/.DS_Store")]
    told = sorted(told, key=lambda entry: entry["path"].encode())
    return faults + differs(names=(checked(program, folder, "--gather", source="u"), answer(*told, end(tree, 3, 6, 3, gathers=True))))


def counting(program, folder):
    """With --read each file is read whole and its bytes are counted, also those of the largest object; --ignore leaves entries out."""
    tree = {"ab/c/obj/big": b"x" * 20_000, "ab/c/obj/d/f": b"y" * 300, "ab/c/obj/.DS_Store": b"z" * 7, "ab/d/obj/f": b"w" * 20_306}
    build(f"{folder}/t", store(tree))
    desktop = of_path("desktop", "ab/c/obj/.DS_Store")
    whole = end(store(tree), 1, 4, 2)
    read = end(store(tree), 1, 4, 2, bytes=40_613, largest=20_307)
    left = end(store({path: content for path, content in tree.items() if ".DS" not in path}), 0, 4, 2, bytes=40_606, largest=20_306)
    return differs(
        opened=(checked(program, folder, source="t"), answer(desktop, whole)),
        read=(checked(program, folder, "--read", source="t"), answer(desktop, read)),
        ignored=(checked(program, folder, "--read", "--ignore", ".DS_Store", source="t"), answer(left)),
        left_out=(checked(program, folder, "--ignore", "ab", "--ignore", "x", source="t"), answer(end({}, 0, 1))),
    )


def failing_reads(program, folder):
    """A file that can be opened and not read is told with --read alone, and the files behind it are read."""
    needs("strace")
    tree = {"ab/c/obj/f": b"1", "ab/c/obj/g": b"23", "ab/c/obj/h": b"456"}
    build(f"{folder}/t", store(tree))
    path = f"{folder}/t/pairtree_root/ab/c/obj/g"
    before = ("strace", "-o", "/dev/null", "-P", path, "-e", "trace=read", "-e", "inject=read:error=EIO")
    told = unread("ab/c/obj/g", "Input/output error (os error 5)")
    last = end(store(tree), 1, 3, 1, unread={"ab/c/obj/g"}, bytes=4, largest=4)
    return differs(
        read=(checked(program, folder, "--read", before=before, source=f"{folder}/t"), answer(told, last)),
        opened=(checked(program, folder, before=before, source=f"{folder}/t"), answer(end(store(tree), 0, 3, 1))),
    )


def by_length(program, folder):
    """With --read files are counted by how many digits their length has, and so are their bytes; without it none is."""
    tree = {f"ab/c/obj/{10 ** power + more}": b"x" * (10**power + more) for power in range(6) for more in (-1, 0)}
    build(f"{folder}/t", store(tree))
    last = end(store(tree), 0, 3, 1, bytes=sum(map(len, tree.values())), largest=sum(map(len, tree.values())))
    faults = differs(
        read=(checked(program, folder, "--read", source="t"), answer(last)),
        classes=({key: it for key, it in last.items() if "_of_0" in key and int(key[-2:]) < 3}, {"bytes_of_01": 10, "bytes_of_02": 109, "files_of_00": 1} | {"files_of_01": 2, "files_of_02": 2}),
        opened=(checked(program, folder, source="t"), answer(end(store(tree), 0, 3, 1))),
    )
    return faults


def own_folders(program, folder):
    """Objects are counted whose own folder has another name than those of its site join to: as that of the identifier's cleaned form has, of which it counts."""
    faults, names = [], {"xt/12/t3/xt12t3": 0, "xt/12/t4/xt12t": 1, "xt/12/t5/xt12t5x": 1, "ab/c/abc": 0, "ab/d/ABD": 1, "^5/cx/^5cx": 0, "a=/obj": 1, "b=/b=1": 1}
    for number, (path, count) in enumerate({**names, "": sum(names.values())}.items()):
        tree = {f"{path}/f": b"" for path in ([path] if path else names)}
        build(folder, {f"t{number}": DIR})
        build(f"{folder}/t{number}", store(tree))
        last = checked(program, folder, source=f"t{number}")[1].splitlines()[-1]
        faults += differs(**{path: (json.loads(last).get("renamed", 0), count)})
    return faults


def beside_a_run(program, folder):
    """No lock is asked for: a check ends though the store's folder is locked. And it says why its output failed."""
    source = os.open(f"{folder}/s", os.O_RDONLY)
    try:
        fcntl.flock(source, fcntl.LOCK_EX)
        faults = differs(locked=(checked(program, folder), answer(end(store({"ab/c/obj/a.txt": b"abc"}), 0, 3, 1))))
    finally:
        os.close(source)
    with open("/dev/full", "wb") as full:
        done = subprocess.run([program, "check", "s"], cwd=folder, stdout=full, stderr=subprocess.PIPE, timeout=120)
    return faults + differs(full=((done.returncode, done.stderr), (3, b"pairtree2ocfl: fault 3: cannot write the output\n")))


def ends_within(program, folder, source, room):
    """Whether a check of a store ends, and tells nothing, where it may have so many KiB."""
    before = ("sh", "-c", f'ulimit -c 0; ulimit -v {room}; exec "$@"', "sh")
    return checked(program, folder, before=before, source=source)[0] == 0


def many_objects(program, folder):
    """What a check holds doesn't grow with the store: one of some 20,000 objects ends where one of a single object does, with 512 KiB more."""
    letters = "abcdefghijkl"
    tree = {f"{a}{b}/{c}{d}/obj/f": b"" for a in letters for b in letters for c in letters for d in letters}
    build(folder, {"t": DIR, "one": DIR})
    build(f"{folder}/t", store(tree))
    build(f"{folder}/one", store({"aa/aa/obj/f": b""}))
    last = end(store(tree), 0, 1 + 144 + 144 * 144, 144 * 144)
    faults = differs(answer=(checked(program, folder, source="t"), (0, text_of(last) + b"\n", b"")))
    low, high = 0, 1 << 20
    while high - low > 64:
        room = (low + high) // 2
        low, high = (low, room) if ends_within(program, folder, "one", room) else (room, high)
    return faults + differs(room=(ends_within(program, folder, "t", high + 512), True))


CASES = [
    Alone(f"check: {name}", test)
    for name, test in (
        ("long paths", long_paths),
        ("many files", many_files),
        ("paths that are too long in a destination", long_in_a_destination),
        ("an identifier whose place is the root's own", a_place_of_the_roots_own),
        ("deep folders", deep_folders),
        ("what a run gathers", gathering),
        ("what is counted", counting),
        ("files by their length", by_length),
        ("names of objects' own folders", own_folders),
        ("files that can't be read", failing_reads),
        ("no lock, and an output that fails", beside_a_run),
        ("many objects", many_objects),
    )
]
