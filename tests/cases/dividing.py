"""Cases of shares by folders: what each share of a store carries, tells and lists, and that their joined roots are what one run leaves.

The number of the share that a folder is of is computed here, apart from the program.
"""

import json
import os
import random
import re
import shutil
import subprocess
import sys

from alone import Alone, differs
from calls import lines_of_trace
from guide import guide_block
from running import MEANT
from sharing import ROOTS, WAYS, audited, joined, ran, random_store, share_number, told
from stores import ABC, DIR, Link, build, differences, read_tree, root, store, stored


def way_of(at, depth):
    """The first names, so many, of the shorties on the way to what a line tells of."""
    names = []
    for name in at.split("/") if at else []:
        if len(name.encode()) not in (1, 2):
            break
        names.append(name)
    return "/".join(names[:depth])


def of_others(log, number, count, depth):
    """What a share tells that isn't its own."""
    for entry in map(json.loads, log):
        if "at" in entry and share_number(way_of(entry["at"], depth), count) != number:
            yield f"share {number} of {count} by folders {depth} deep tells {entry}"


def by_folders(number, count, depth):
    """The words of a share by folders."""
    return "--share", f"{number}/{count}", "--by-folders", f"{depth}"


def divided_of(seed):
    """Of a random store the shares tell together what one run tells, and leave, joined, what it leaves; so do their rehearsals, and their audits tell
    what one audit tells."""
    chance = random.Random(seed)
    count, depth, words = chance.randrange(2, 6), chance.randrange(1, 4), chance.choice(WAYS)

    def test(program, folder):
        shutil.rmtree(f"{folder}/s")
        build(f"{folder}/s", random_store(chance))
        whole, logs, audits, faults = ran(program, folder, "whole", *words), [], [], []
        for number in range(1, count + 1):
            share = (*words, *by_folders(number, count, depth))
            rehearsed = ran(program, folder, "none", *share, "--dry-run")
            done = ran(program, folder, f"{number}", *share)
            faults += differs(rehearsed=(rehearsed, done))
            faults += of_others(done[1], number, count, depth)
            logs.append(done[1])
            audits += audited(program, folder, "whole", *share)
        faults += differs(told=(told(logs), told([whole[1]])))
        faults += differs(audited=(sorted(audits), sorted(audited(program, folder, "whole", *words))))
        faults += joined(folder, count)
        return faults + list(differences(read_tree(f"{folder}/1"), read_tree(f"{folder}/whole")))

    return Alone(f"shares by folders of a random store, {seed}", test)


# A store of every cause by which something is passed over, but for a reserved place, with objects beside it.
EVERY_CAUSE = {
    "ab/c/obj/f": b"1",
    "ab/cd/obj/f": b"2",
    "ab/cd/ef/obj/f": b"3",
    "ab/ce/obj/f": b"4",
    "a/obj/f": b"5",
    "a/bc/obj/f": b"6",
    "de/x/note": b"7",
    "de/y/obj/f": b"8",
    "de/fg/one/f": b"9",
    "de/fg/two/f": b"10",
    "gh/ij/kl": DIR,
    "^z/obj/f": b"11",
    "^f/f/obj/f": b"12",
    "mn/op/obj/link": Link("elsewhere"),
    "note": b"13",
}


def every_cause(program, folder):
    """Of a store of every cause each of 2 to 5 shares, by folders 1 to 3 deep, tells what is of its folders, and nothing is told twice or left out."""
    shutil.rmtree(f"{folder}/s")
    build(f"{folder}/s", store(EVERY_CAUSE))
    whole, faults = ran(program, folder, "whole")[1], []
    for count in range(2, 6):
        for depth in range(1, 4):
            logs = [ran(program, folder, "none", *by_folders(number, count, depth), "--dry-run")[1] for number in range(1, count + 1)]
            faults += [fault for number, log in enumerate(logs, 1) for fault in of_others(log, number, count, depth)]
            faults += differs(**{f"{count} shares {depth} deep": (told(logs), told([whole]))})
    causes = {entry["cause"] for entry in map(json.loads, whole) if entry["as"] == "skip"}
    return faults + differs(causes=(causes, {"root", "empty", "split", "past", "name", "utf8", "other"}))


def listed_in(lines, folder):
    """The sites that were listed, by the lines of a trace."""
    seen = set()
    for line in lines:
        for path in re.findall(rf"getdents64\(\d+<{re.escape(folder)}/s/pairtree_root((?:/[^>]*)?)>", line):
            if not any(len(name) > 2 for name in path.split("/")):
                seen.add(path[1:])
    return seen


def lists_its_own(program, folder):
    """A run, a rehearsal and an audit of a share list the folders that lie less deep than those that are divided, and of these and what is below only
    the share's own."""
    shutil.rmtree(f"{folder}/s")
    letters = "abcd"
    build(f"{folder}/s", store({f"{x}{y}/{y}{z}/{z}{x}/obj/f": b"1" for x in letters for y in letters for z in letters}))
    sites = {path[len(f"{folder}/s/pairtree_root/"):] for path, _, _ in os.walk(f"{folder}/s/pairtree_root")}
    sites = {site for site in sites if not site.endswith("obj")}
    faults = []
    for count, depth, number in ((3, 1, 2), (3, 2, 1), (4, 2, 4), (5, 3, 3)):
        own = {site for site in sites if site.count("/") + 1 < depth or not site or share_number(way_of(site, depth), count) == number}
        words = by_folders(number, count, depth)
        shutil.rmtree(f"{folder}/d")
        os.mkdir(f"{folder}/d")
        for name, command in {"rehearsal": ["migrate", *MEANT, "-n"], "run": ["migrate", *MEANT], "audit": ["audit"]}.items():
            status, lines = lines_of_trace(folder, "getdents64", [program, *command, *words, "s", "d"])
            faults += differs(**{f"{name} of {number} of {count}, {depth} deep": ((status, listed_in(lines, folder)), (0, own))})
    return faults


# Two sites whose names read one identifier, in two folders at the top.
TWINS = {"a\\/obj/f": b"1", "a^/5c/obj/f": b"2"}


def twins_apart(program, folder):
    """Of two sites of one identifier in two shares each share carries its own; joining finds the second at a taken place, tells it and leaves it."""
    shutil.rmtree(f"{folder}/s")
    build(f"{folder}/s", store(TWINS))
    count = next(count for count in range(2, 99) if share_number("a\\", count) != share_number("a^", count))
    first, second = share_number("a\\", count), share_number("a^", count)
    whole = [json.loads(line)["as"] for line in ran(program, folder, "whole")[1]]
    faults = differs(whole=(whole, ["done", "present", "end"]))
    for number in (first, second):
        lines = [json.loads(line) for line in ran(program, folder, f"{number}", *by_folders(number, count, 1))[1]]
        faults += differs(**{f"share {number}": ([entry["as"] for entry in lines], ["done", "end"])})
    roots = [f"{folder}/{number}/ocfl" for number in (first, second)]
    done = subprocess.run([sys.executable, "-B", ROOTS, "join", *roots], capture_output=True, timeout=300)
    taken = [line for line in done.stdout.decode().splitlines() if line.startswith(f"{folder}/{second}/ocfl/")]
    faults += differs(join=((done.returncode, len(taken), done.stdout.count(b"\n")), (1, 1, 1)))
    return faults + list(differences(read_tree(f"{folder}/{first}"), read_tree(f"{folder}/whole")))


# What is planted in a root beside its objects: at its top and deeper, some of it in the same entries.
STRAYS = {
    "a": b"",
    "b": DIR,
    "c/d": b"",
    "c/e/f/g/h": b"",
    "k/0=ocfl_object_1.1": b"",
    "m/0=ocfl_object_1.1": b"",
    "m/inventory.json": b'{"id":"aa"}',
    "m/n": b"",
    "p/q/0=ocfl_object_1.0": b"",
    "p/q/inventory.json": b'{"id":"none"}',
    "p/r": DIR,
}


def entries_tell_extras(program, folder):
    """What a root has more is told by the share that the name of its entry gives, in the order of the whole, and by no other; and each share tells of its
    own objects."""
    shutil.rmtree(f"{folder}/s")
    build(f"{folder}/s", store({f"{x}{y}/obj/f": b"1" for x in "abc" for y in "abcdef"}))
    ran(program, folder, "d")
    for x in "ab":
        for y in "abcdef":
            shutil.rmtree(f"{folder}/s/pairtree_root/{x}{y}")
    build(f"{folder}/d", {f"ocfl/{path}": content for path, content in STRAYS.items()})
    faults = []
    for words, wanted in ((), 20), (("--only", "a"), 13):
        whole = audited(program, folder, "d", "--extra", *words)
        extras = [entry for entry in map(json.loads, whole) if entry["as"] in ("extra", "stray")]
        faults += differs(extras=(len(extras), wanted))
        for count, depth in (1, 1), (2, 1), (3, 2), (7, 1), (7, 3):
            logs = [audited(program, folder, "d", "--extra", *words, *by_folders(number, count, depth)) for number in range(1, count + 1)]
            faults += differs(**{f"{count} shares": (sorted(sum(logs, [])), sorted(whole))})
            for number, log in enumerate(logs, 1):
                told_here = [entry for entry in map(json.loads, log) if entry["as"] in ("extra", "stray")]
                own = [entry for entry in extras if share_number(entry["to"].split("/")[0], count) == number]
                faults += differs(**{f"share {number} of {count}": (told_here, own)})
    return faults


def listed_of_root(lines, folder):
    """The folders of the root that were listed, by the lines of a trace, the root itself as the empty text."""
    found = [re.search(rf"getdents64\(\d+<{re.escape(folder)}/d/ocfl(?:/([^>]*))?>", line) for line in lines]
    return {match.group(1) or "" for match in found if match}


def lists_its_own_entries(program, folder):
    """An audit with extras of a share by folders lists the root, and of its entries and what is below only the share's own. By identifiers it lists all."""
    shutil.rmtree(f"{folder}/s")
    objects = {path: content for number in range(24) for path, content in stored(f"n{number}", ABC).items()}
    build(f"{folder}/s", store({}))
    build(f"{folder}/d", {**root(objects), **{f"ocfl/{path}": content for path, content in STRAYS.items()}})
    walked = set()
    for path, folders, names in os.walk(f"{folder}/d/ocfl"):
        walked.add(path[len(f"{folder}/d/ocfl/") :])
        if any(name.startswith("0=ocfl_object") for name in names):
            folders.clear()
        if path == f"{folder}/d/ocfl":
            folders.remove("extensions")
    faults = []
    for count, depth, number in ((1, 1, 1), (2, 1, 1), (3, 2, 3), (7, 3, 2), (7, 1, 7)):
        own = {path for path in walked if not path or share_number(path.split("/")[0], count) == number}
        command = [program, "audit", "--extra", *by_folders(number, count, depth), "s", "d"]
        lines = lines_of_trace(folder, "getdents64", command)[1]
        faults += differs(**{f"share {number} of {count}": (listed_of_root(lines, folder), own)})
    lines = lines_of_trace(folder, "getdents64", [program, "audit", "--extra", "--share", "2/3", "s", "d"])[1]
    return faults + differs(identifiers=(listed_of_root(lines, folder), walked))


def tells_what_it_misses(program, folder):
    """That a folder of the root couldn't be listed whole is told of the root itself by each share, and of an entry only by the share that looks there."""
    cafe = os.fsdecode(b"caf\xe9")
    build(f"{folder}/d", root())
    build(f"{folder}/d", {f"ocfl/{cafe}": b"", f"ocfl/x/y/{cafe}": b"", "ocfl/x/y/f": b""})
    faults = []
    for count in (1, 2, 3):
        for number in range(1, count + 1):
            found = [json.loads(line) for line in audited(program, folder, "d", "--extra", *by_folders(number, count, 1))]
            own = share_number("x", count) == number
            wanted = [("", True), *([("x/y", True), ("x/y/f", False)] if own else [])]
            lines = [(entry["to"], "reason" in entry) for entry in found if entry["as"] == "stray"]
            faults += differs(**{f"share {number} of {count}": (lines, wanted)})
    return faults


def unmet_of_each(program, folder):
    """Each share by folders tells which identifiers of a list it met no object of; those that no share met are told by all."""
    shutil.rmtree(f"{folder}/s")
    build(f"{folder}/s", store({"ab/obj/f": b"1", "cd/obj/f": b"2", "ef/obj/f": b"3"}))
    build(folder, {"ids": b"ab\ncd\nnone\n"})
    faults, unmet = [], []
    for number in (1, 2, 3):
        command = [program, "migrate", *MEANT, "--list", "ids", *by_folders(number, 3, 1), "-n", "s", "d"]
        done = subprocess.run(command, cwd=folder, capture_output=True, timeout=120)
        met = [entry["id"] for entry in map(json.loads, done.stdout.splitlines()) if entry["as"] == "done"]
        unmet.append([line.split(": ")[-1] for line in done.stderr.decode().splitlines()])
        own = [name for name in ("ab", "cd") if share_number(name, 3) == number]
        faults += differs(**{f"share {number}": ((done.returncode, met, unmet[-1]), (1, own, [i for i in ("ab", "cd", "none") if i not in own]))})
    return faults + differs(none=(set.intersection(*map(set, unmet)), {"none"}))


def counts_folders(program, folder):
    """The guide's command counts the folders that are divided."""
    shutil.rmtree(f"{folder}/s")
    build(f"{folder}/s", store({f"{x}{y}/{y}{x}/obj/f": b"1" for x in "abc" for y in "abc"} | {"ab/c/obj/f": b"2", "zz": DIR}))
    script = guide_block("One store in shares", "-mindepth").replace("SOURCE", "s")
    done = subprocess.run(["bash", "-u", "-c", script], cwd=folder, capture_output=True, timeout=120)
    return differs(count=((done.returncode, done.stdout.strip(), done.stderr), (0, b"9", b"")))


def one_share(program, folder):
    """The one share of one by folders is the whole."""
    faults = differs(log=(ran(program, folder, "a", *by_folders(1, 1, 1)), ran(program, folder, "b")))
    return faults + list(differences(read_tree(f"{folder}/a"), read_tree(f"{folder}/b")))


CASES = [
    *(divided_of(seed) for seed in range(40)),
    Alone("shares by folders of a store of every cause", every_cause),
    Alone("a share by folders lists only its own", lists_its_own),
    Alone("two sites of one identifier in two shares by folders", twins_apart),
    Alone("extras are told by the share of their entry, by folders", entries_tell_extras),
    Alone("extras: a share by folders lists only its own entries of the root", lists_its_own_entries),
    Alone("extras: what a share by folders couldn't list", tells_what_it_misses),
    Alone("a list in shares by folders", unmet_of_each),
    Alone("the folders that are divided are counted", counts_folders),
    Alone("the one share of one by folders", one_share),
]
