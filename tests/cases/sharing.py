"""Cases of shares: what each share of a store carries and tells, and that their joined roots are what one run leaves. So of what is chosen by
how identifiers begin.

The number of the share that an identifier is of is computed here, apart from the program.
"""

import collections
import hashlib
import json
import os
import random
import shutil
import subprocess
import sys

from alone import Alone, differs
from running import MEANT
from stores import DIR, Link, build, differences, read_tree, store

TOP = os.path.dirname(os.path.dirname(os.path.dirname(os.path.abspath(__file__))))
ROOTS = f"{TOP}/tools/roots.py"
OF_THE_FIRST = {"root", "empty", "split", "past", "name", "utf8", "reserved"}
WAYS = ((), ("--gather",), ("--tuple-size", "0", "--tuples", "0"), ("--tuple-size", "2", "--tuples", "4"), ("--tuple-size", "1", "--tuples", "1"))


def share_number(identifier, count):
    """The number of the share, of so many, that an identifier is of."""
    return int.from_bytes(hashlib.sha256(identifier.encode()).digest()[:4], "big") * count // 2**32 + 1


def ran(program, folder, dest, *words):
    """The status of a run into a folder below, and the lines of its log."""
    os.makedirs(f"{folder}/{dest}", exist_ok=True)
    command = [program, "migrate", *MEANT, *words, "s", dest]
    done = subprocess.run(command, cwd=folder, capture_output=True, timeout=300)
    if done.returncode not in (0, 1):
        raise OSError(f"{' '.join(words)}: {done.returncode} {done.stderr!r}")
    return done.returncode, done.stdout.splitlines()


def audited(program, folder, dest, *words):
    """The lines of an audit of a folder below, but for the end line."""
    done = subprocess.run([program, "audit", *words, "s", dest], cwd=folder, capture_output=True, timeout=300)
    if done.returncode not in (0, 1):
        raise OSError(f"{' '.join(words)}: {done.returncode} {done.stderr!r}")
    return done.stdout.splitlines()[:-1]


def random_store(chance, links=True):
    """A store of a few sites, most with an object, some with none, with several, with links if they are wanted, or of names that read nothing."""
    tree = {}
    for _ in range(chance.randrange(1, 25)):
        pieces = ["".join(chance.choice("abx^,=") for _ in range(2)) for _ in range(chance.randrange(1, 4))]
        pieces += chance.choice(([], ["".join(chance.choice("ab")), *chance.choice(([], ["cd"]))]))
        for held in chance.choice((["obj"], ["obj"], ["obj"], ["obj", "two"], [], [""])):
            at = "/".join([*pieces, held]) if held else "/".join(pieces)
            if any(at.startswith(f"{path}/") or path.startswith(f"{at}/") for path in tree):
                continue
            names = [f"{at}/{name}" for name in chance.sample(["a.txt", "b/c", "b/d", "e"], chance.randrange(1, 4))]
            tree.update({name: bytes([chance.randrange(3)]) * chance.randrange(3) for name in names})
            if links and chance.random() < 0.1:
                tree[f"{at}/link"] = Link("elsewhere")
        if not any(path.startswith("/".join(pieces)) for path in tree):
            tree["/".join(pieces)] = DIR
    return store(tree, b"ark:/1/" if chance.random() < 0.3 else None)


def told(entries):
    """How often each line stands there, the end line left out, and the numbers of the end lines together."""
    lines = collections.Counter(line for log in entries for line in log if b'"as":"end"' not in line)
    numbers = collections.Counter()
    for log in entries:
        numbers.update({name: number for name, number in json.loads(log[-1]).items() if name != "as"})
    return lines, +numbers


def of_share(log, number, count):
    """What a share tells that isn't its own."""
    for entry in map(json.loads, log):
        if "id" in entry and share_number(entry["id"], count) != number:
            yield f"share {number} of {count} tells of {entry['id']}"
        if entry.get("cause") in OF_THE_FIRST and number != 1:
            yield f"share {number} of {count} tells {entry}"


def joined(folder, count):
    """Joins the roots of the shares in the first one."""
    command = [sys.executable, "-B", ROOTS, "join", *(f"{folder}/{number}/ocfl" for number in range(1, count + 1))]
    done = subprocess.run(command, capture_output=True, timeout=300)
    return differs(join=((done.returncode, done.stdout), (0, b"")))


def shares_of(seed):
    """Of a random store the shares tell together what one run tells, and leave, joined, what it leaves; so do their rehearsals."""
    chance = random.Random(seed)
    count, words = chance.randrange(2, 17), chance.choice(WAYS)

    def test(program, folder):
        shutil.rmtree(f"{folder}/s")
        build(f"{folder}/s", random_store(chance))
        whole, logs, faults = ran(program, folder, "whole", *words), [], []
        for number in range(1, count + 1):
            share = (*words, "--share", f"{number}/{count}")
            rehearsed = ran(program, folder, "none", *share, "--dry-run")
            done = ran(program, folder, f"{number}", *share)
            faults += differs(rehearsed=(rehearsed, done))
            faults += of_share(done[1], number, count)
            logs.append(done[1])
        faults += differs(told=(told(logs), told([whole[1]])))
        faults += joined(folder, count)
        return faults + list(differences(read_tree(f"{folder}/1"), read_tree(f"{folder}/whole")))

    return Alone(f"shares of a random store, {seed}", test)


def begins_so(line, texts):
    """The line is of an object whose identifier begins with one of the texts, or of what has none; the end line isn't meant."""
    entry = json.loads(line)
    return entry["as"] != "end" and ("id" not in entry or entry["id"].startswith(texts))


def chosen_of(seed):
    """Of a random store each choice tells those of one run's lines that it chooses, and an audit of it too; choices that divide the store
    leave, joined, what one run leaves. With `--share` both hold."""
    chance = random.Random(seed)

    def test(program, folder):
        shutil.rmtree(f"{folder}/s")
        build(f"{folder}/s", random_store(chance, links=False))
        whole, faults = ran(program, folder, "whole"), []
        wholly = audited(program, folder, "whole")
        ids = [json.loads(line)["id"] for line in whole[1] if b'"id"' in line]
        heads = sorted({identifier[: len(os.path.commonprefix(ids)) + 1] for identifier in ids})
        parts = [tuple(heads[::2]) or ("none",), tuple(heads[1::2]) or ("nothing", "no")]
        for number, texts in enumerate(parts, 1):
            words = [word for text in texts for word in ("--only", text)]
            lines = [line for line in whole[1] if begins_so(line, texts)]
            done = ran(program, folder, f"{number}", *words)
            faults += differs(chosen=(done[1][:-1], lines), end=(done[0] in (0, 1), True))
            faults += differs(rehearsed=(ran(program, folder, "none", *words, "--dry-run"), done))
            faults += differs(audited=(audited(program, folder, f"{number}", *words), [line for line in wholly if begins_so(line, texts)]))
            halves = [ran(program, folder, f"half {half}", *words, "--share", f"{half}/2")[1] for half in (1, 2)]
            faults += differs(halves=(told(halves), told([done[1]])))
        faults += joined(folder, 2)
        return faults + list(differences(read_tree(f"{folder}/1"), read_tree(f"{folder}/whole")))

    return Alone(f"choices of a random store, {seed}", test)


def chosen(program, folder):
    """The identifier is compared by its bytes, with the store's prefix; a text that nothing begins with chooses nothing, and what has no
    identifier has its line."""
    shutil.rmtree(f"{folder}/s")
    build(f"{folder}/s", store({"aa/obj/f": b"1", "ab/obj/f": b"2", "xx": DIR}, b"ark:/1/"))
    faults = []
    for number, (words, ids) in enumerate(CHOSEN):
        given = [word for text in words for word in ("--only", text)]
        status, lines = ran(program, folder, f"{number}", *given)
        entries = [json.loads(line) for line in lines]
        done = [entry["id"] for entry in entries if entry["as"] == "done"]
        skips = [entry["cause"] for entry in entries if entry["as"] == "skip"]
        faults += differs(**{repr(words): ((status, done, skips, entries[-1]["done"]), (1, ids, ["empty"], len(ids)))})
    return faults


def whole_share(program, folder):
    """The one share of one is the whole."""
    faults = differs(log=(ran(program, folder, "a", "--share", "1/1"), ran(program, folder, "b")))
    return faults + list(differences(read_tree(f"{folder}/a"), read_tree(f"{folder}/b")))


# Texts of `--only`, and the objects of a store whose prefix is `ark:/1/` that are carried.
CHOSEN = [
    ([], ["ark:/1/aa", "ark:/1/ab"]),
    (["ark:/1/aa"], ["ark:/1/aa"]),
    (["ark:/1/a"], ["ark:/1/aa", "ark:/1/ab"]),
    (["ark:/1/ab", "ark:/1/aa"], ["ark:/1/aa", "ark:/1/ab"]),
    (["ark:/1/ab", "ark:/1/ab"], ["ark:/1/ab"]),
    (["a"], ["ark:/1/aa", "ark:/1/ab"]),
    (["aa"], []),
    (["ark:/1/aaa"], []),
    (["ARK:/1/aa"], []),
    (["\u00e9"], []),
]

CASES = [
    *(shares_of(seed) for seed in range(40)),
    *(chosen_of(seed) for seed in range(20)),
    Alone("objects chosen by how their identifiers begin", chosen),
    Alone("the one share of one", whole_share),
]
