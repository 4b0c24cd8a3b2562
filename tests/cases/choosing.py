"""Cases of `--list`: which objects are carried, rehearsed and audited by a list of identifiers, what is told of those of which no object
was met, and which lists are refused; and what is asked of objects that neither it nor `--only` chooses."""

import json
import os
import random
import re
import resource
import shutil
import subprocess
import time

from alone import Alone, differs
from running import MEANT
from sharing import audited, joined, random_store, share_number, told
from stores import DIR, Link, build, differences, place, read_tree, store, with_folders
from tally import needs

STORE = store({"aa/obj/f": b"1", "ab/obj/f": b"2", "ac/obj/f": b"3", "xx": DIR, "xy/one/f": b"4", "xy/two/f": b"5"}, b"ark:/1/")
UNMET = "pairtree2ocfl: no object was met: "
TOO_LONG = "the identifier has more than 65536 bytes"
MARKED = "it begins with a byte order mark"
MARK = "\ufeff".encode()


def made(program, folder, dest, *words, command="migrate"):
    """The status of a run or an audit into a folder below, its lines and what it tells beside them."""
    os.makedirs(f"{folder}/{dest}", exist_ok=True)
    meant = MEANT if command == "migrate" else ()
    done = subprocess.run([program, command, *meant, *words, "s", dest], cwd=folder, capture_output=True, timeout=300)
    return done.returncode, done.stdout.splitlines(), done.stderr.decode()


def listed(folder, content, name="list"):
    """The words of a list of these bytes."""
    with open(f"{folder}/{name}", "wb") as file:
        file.write(content)
    return ["--list", name]


def carried(lines):
    """The identifiers that the lines of a run tell as carried."""
    entries = [json.loads(line) for line in lines]
    return [entry["id"] for entry in entries if entry["as"] == "done"]


def stands_in(line, ids):
    """The line is of an object whose identifier is one of these, or of what has none; the end line isn't meant."""
    entry = json.loads(line)
    return entry["as"] != "end" and ("id" not in entry or entry["id"] in ids)


def lists_of(seed):
    """Of a random store each list tells those of one run's lines that it chooses, and an audit of it too; lists that divide the store
    leave, joined, what one run leaves. With `--share` both hold, and each share tells its own unmet identifiers alone."""
    chance = random.Random(seed)

    def test(program, folder):
        shutil.rmtree(f"{folder}/s")
        build(f"{folder}/s", random_store(chance, links=False))
        whole, faults = made(program, folder, "whole"), []
        wholly = audited(program, folder, "whole")
        ids = [json.loads(line)["id"] for line in whole[1] if b'"id"' in line]
        chance.shuffle(ids)
        cut = chance.randrange(len(ids) + 1)
        for number, part in enumerate((ids[:cut], ids[cut:]), 1):
            absent = [f"none {chance.random()}" for _ in range(chance.randrange(4))]
            words = listed(folder, "".join(f"{identifier}\n" for identifier in part + absent + part[:1]).encode(), f"list {number}")
            unmet = "".join(f"{UNMET}{identifier}\n" for identifier in sorted(absent))
            done = made(program, folder, f"{number}", *words)
            lines = [line for line in whole[1] if stands_in(line, part)]
            status = int(bool(absent) or any(b'"as":"done"' not in line for line in lines))
            faults += differs(chosen=(done, (status, [*lines, done[1][-1]], unmet)))
            faults += differs(rehearsed=(made(program, folder, "none", *words, "--dry-run"), done))
            audit = made(program, folder, f"{number}", *words, command="audit")
            faults += differs(audited=((audit[1][:-1], audit[2]), ([line for line in wholly if stands_in(line, part)], unmet)))
            halves = [made(program, folder, f"half {half}", *words, "--share", f"{half}/2") for half in (1, 2)]
            faults += differs(halves=(told([half[1] for half in halves]), told([done[1]])))
            for half in (1, 2):
                own = "".join(f"{UNMET}{identifier}\n" for identifier in sorted(absent) if share_number(identifier, 2) == half)
                faults += differs(unmet_of_the_share=(halves[half - 1][2], own))
        faults += joined(folder, 2)
        return faults + list(differences(read_tree(f"{folder}/1"), read_tree(f"{folder}/whole")))

    return Alone(f"lists over a random store, {seed}", test)


# Lists, other words, the objects that are carried, and those identifiers of which no object is met, as they are shown.
CHOSEN = [
    (b"", [], [], []),
    (b"ark:/1/aa\n", [], ["ark:/1/aa"], []),
    (b"ark:/1/aa", [], ["ark:/1/aa"], []),
    (b"ark:/1/ab\r\nark:/1/aa\r\n", [], ["ark:/1/aa", "ark:/1/ab"], []),
    (b"ark:/1/ab\nark:/1/ab\nark:/1/ab\n", [], ["ark:/1/ab"], []),
    (b"ark:/1/a\nark:/1/aaa\naa\n", [], [], ["aa", "ark:/1/a", "ark:/1/aaa"]),
    (b"ark:/1/aa\n", ["--only", "ark:/1/ac"], ["ark:/1/aa", "ark:/1/ac"], []),
    (b"none\n", ["--only", "ark:/1/a"], ["ark:/1/aa", "ark:/1/ab", "ark:/1/ac"], ["none"]),
    (b"ark:/1/xx\n", [], [], ["ark:/1/xx"]),
    (b"ark:/1/xy\n", [], [], ["ark:/1/xy"]),
    ("é\n".encode(), [], [], ["é"]),
    (b"a\\b\x07\n", ["--quiet"], [], ["a\\\\b\\u{7}"]),
    (b" ark:/1/aa\n", [], [], ["\\u{20}ark:/1/aa"]),
    (b"ark:/1/aa  \n", [], [], ["ark:/1/aa\\u{20}\\u{20}"]),
    (b"  \n", [], [], ["\\u{20}\\u{20}"]),
    (b"a  b\n", [], [], ["a  b"]),
    ("a\xa0b\u3000\n".encode(), [], [], ["a\\u{a0}b\\u{3000}"]),
    ("a\u061cb\u200ec\u200fd\n".encode(), [], [], ["a\\u{61c}b\\u{200e}c\\u{200f}d"]),
    ("a\u2028b\u2029\n".encode(), [], [], ["a\\u{2028}b\\u{2029}"]),
    (b"ark:/1/aa\n" + MARK + b"ark:/1/ab\n", [], ["ark:/1/aa"], ["\\u{feff}ark:/1/ab"]),
    ("ark:/1/aa\n\u200b\n".encode(), [], ["ark:/1/aa"], ["\\u{200b}"]),
    (b"ark:/1/aa\r", [], [], ["ark:/1/aa\\u{d}"]),
    (b"n" * 65536 + b"\r\n", [], [], ["n" * 65536]),
]


def chosen(program, folder):
    """An identifier is compared as a whole, by its bytes, with the store's prefix. One that stands twice counts once; `--only` adds what
    begins so. Of which no object was met is told, each character so that it is seen, and the status is 1 where it would be 0."""
    shutil.rmtree(f"{folder}/s")
    build(f"{folder}/s", STORE)
    faults = []
    for number, (content, words, ids, unmet) in enumerate(CHOSEN):
        status, lines, errors = made(program, folder, f"{number}", *words, *listed(folder, content))
        found = (status, carried(lines), errors)
        faults += differs(**{repr(content[-20:]): (found, (1, ids, "".join(f"{UNMET}{identifier}\n" for identifier in unmet)))})
    return faults


def statuses(program, folder):
    """Where all else is well, 1 tells that no object was met of an identifier: of a run, a rehearsal and an audit. A fault's status stays."""
    both, alone, faults = listed(folder, b"abc\nnone\n", "both"), listed(folder, b"abc\n", "alone"), []
    for number, (words, wanted) in enumerate(((both, (1, f"{UNMET}none\n")), (alone, (0, "")))):
        found = {"rehearsal": made(program, folder, f"{number}", "-n", *words), "run": made(program, folder, f"{number}", *words)}
        found["audit"] = made(program, folder, f"{number}", *words, command="audit")
        faults += differs(**{f"{name} {words}": (answer[::2], wanted) for name, answer in found.items()})
    build(f"{folder}/f", {"staging": DIR})
    status, _, errors = made(program, folder, "f", *both)
    return faults + differs(fault=((status, errors), (3, "pairtree2ocfl: fault 7: a staging directory is left in the destination\n")))


def reserved(program, folder):
    """An identifier whose place is the root's own was met: its line tells why it isn't carried."""
    shutil.rmtree(f"{folder}/s")
    build(f"{folder}/s", store({"ex/te/ns/io/ns/obj/f": b"1"}))
    words = ["--tuples", "0", "--tuple-size", "0", *listed(folder, b"extensions\n")]
    status, lines, errors = made(program, folder, "d", *words)
    causes = [json.loads(line).get("cause") for line in lines]
    return differs(reserved=((status, causes, errors), (1, ["reserved", None], "")))


# Lists that are refused, with the line and why.
BAD = [
    (b"\n", 1, "the identifier is empty"),
    (b"\r\n", 1, "the identifier is empty"),
    (b"abc\n\nabc\n", 2, "the identifier is empty"),
    (b"abc\nabc\n\r\n", 3, "the identifier is empty"),
    (b"abc\n\xff\n", 2, "the identifier is not UTF-8"),
    (b"abc\n\xc3", 2, "the identifier is not UTF-8"),
    (b"abc\n" + b"n" * 65537, 2, TOO_LONG),
    (b"n" * 65537 + b"\n\n", 1, TOO_LONG),
    (b"n" * 65537 + b"\xff", 1, TOO_LONG),
    ("é".encode() * 32768 + b"n\n", 1, TOO_LONG),
    (b"n" * 65537 + b"\r\n", 1, TOO_LONG),
    (b"n" * 65536 + b"\r\r\n", 1, TOO_LONG),
    (MARK, 1, MARKED),
    (MARK + b"\r\nabc\n", 1, MARKED),
    (MARK + b"abc\n\n", 1, MARKED),
    (MARK + MARK + b"abc", 1, MARKED),
    (MARK + b"n" * 65533 + b"\n", 1, MARKED),
    (MARK + b"n" * 65534, 1, TOO_LONG),
    (MARK + b"\xff\n", 1, "the identifier is not UTF-8"),
    (MARK[:2] + b"\n", 1, "the identifier is not UTF-8"),
    (b"abc\n" + MARK + b"\n\n", 3, "the identifier is empty"),
]


def bad_lines(program, folder):
    """A line that is no identifier refuses the list, by the list's path and the line's number, before anything is asked of the folders."""
    faults = []
    for content, number, why in BAD:
        for command in ("migrate", "audit"):
            found = made(program, folder, "d", *listed(folder, content), "--event", "ev", command=command)
            faults += differs(**{f"{command} {content[:9]!r}": (found, (2, [], f"pairtree2ocfl: list: line {number}: {why}\n"))})
    return faults + differs(left=(sorted(os.listdir(folder)), ["d", "list", "s"]), root=(os.listdir(f"{folder}/d"), []))


def unreadable(program, folder):
    """A list that can't be read is refused by its path and the reason; the other words are judged before."""
    build(folder, {"to nothing": Link("nothing"), "a\nb": DIR})
    gone, failed = "No such file or directory (os error 2)", "Input/output error (os error 5)"
    of_words = "pairtree2ocfl: --ignore is not the name of a file or folder\n"
    faults = differs(order=(made(program, folder, "d", "--list", "nothing", "--ignore", "a/b"), (2, [], of_words)))
    rows = [("nothing", "nothing", gone), ("to nothing", "to nothing", gone), ("a\nb", "a\\u{a}b", "Is a directory (os error 21)")]
    rows += [(" a\u200e ", "\\u{20}a\\u{200e}\\u{20}", gone), ("/proc/self/mem", "/proc/self/mem", failed)]
    for name, shown, why in rows:
        for command in ("migrate", "audit"):
            found = made(program, folder, "d", "--list", name, command=command)
            faults += differs(**{f"{command} {name!r}": (found, (2, [], f"pairtree2ocfl: {shown}: {why}\n"))})
    twice = made(program, folder, "d", "--list", "a", "--list", "b")
    return faults + differs(twice=((twice[0], twice[1], "--list" in twice[2]), (2, [], True)))


def followed(program, folder):
    """A list may be a link, or a pipe."""
    listed(folder, b"abc\n", "real")
    build(folder, {"link": Link("real")})
    faults = differs(link=(carried(made(program, folder, "1", "--list", "link")[1]), ["abc"]))
    command = [program, "migrate", *MEANT, "--list", "/dev/stdin", "s", "2"]
    os.mkdir(f"{folder}/2")
    done = subprocess.run(command, cwd=folder, capture_output=True, input=b"abc\nnone", timeout=60)
    return faults + differs(pipe=((done.returncode, carried(done.stdout.splitlines()), done.stderr.decode()), (1, ["abc"], f"{UNMET}none\n")))


def at_once(program, folder):
    """A bad line ends the reading where it shows, also of a FILE that has no end or gives nothing more: by less memory than a whole FILE
    would take, and without its end being waited for."""
    few = {"preexec_fn": lambda: resource.setrlimit(resource.RLIMIT_AS, (256 << 20, 256 << 20))}
    command, faults = [program, "migrate", *MEANT, "--list"], []
    done = subprocess.run([*command, "/dev/zero", "s", "d"], cwd=folder, capture_output=True, timeout=60, **few)
    faults += differs(endless=((done.returncode, done.stdout, done.stderr.decode()), (2, b"", f"pairtree2ocfl: /dev/zero: line 1: {TOO_LONG}\n")))
    for number, content in ((2, b"abc\n\n"), (1, b"n" * 65538), (2, b"abc\n" + b"n" * 65538), (1, MARK + b"abc\n")):
        with subprocess.Popen([*command, "/dev/stdin", "s", "d"], cwd=folder, stdin=subprocess.PIPE, stderr=subprocess.PIPE) as asked:
            try:
                asked.stdin.write(content)
                asked.stdin.flush()
                status = asked.wait(timeout=20)
            except subprocess.TimeoutExpired:
                status = "it waits"
                asked.kill()
            told = asked.stderr.read().decode()
        faults += differs(**{f"{content[:9]!r}": ((status, told.startswith(f"pairtree2ocfl: /dev/stdin: line {number}: ")), (2, True))})
    return faults + differs(made=(os.listdir(f"{folder}/d"), []))


# A store by the identifiers of its objects: what lies in the site of each. One stands above another, and one is an object with `--gather` alone.
SITES = {
    "aa": {"obj/file": b"1", "obj/more/file": b"2"},
    "ab": {"obj/file": b"3", "obj/more/file": b"4"},
    "abcd": {"obj/file": b"5"},
    "ac": {"file": b"6", "more/file": b"7"},
    "ad": {"obj/link": Link("none")},
}
PLACES = {identifier: re.sub("(?<=..)(?=..)", "/", identifier) for identifier in SITES}


def touched(chosen):
    """The paths of the store that are to be named in calls, and those that are to be opened: each site is listed, and what is chosen read."""
    tree = with_folders({f"{PLACES[identifier]}/{path}": held for identifier, files in SITES.items() for path, held in files.items()})
    named, opened = set(), set()
    for path in tree:
        names = path.split("/")
        site = [name for name in names if len(name) < 3]
        read = len(site) == len(names) or "".join(site) in chosen
        opened |= {path} if read else set()
        named |= {path} if read or len(names) == len(site) + 1 else set()
    return named, opened


def traced(program, folder, command, *words):
    """The paths of the store that a command named in calls and those that it opened, and the identifiers whose places it named."""
    meant = MEANT if command[0] == "migrate" else ()
    trace = ["strace", "-f", "-o", f"{folder}/trace", "-s", "4096", "-e", "trace=%file"]
    done = subprocess.run([*trace, program, *command, *meant, *words, "s", "d"], cwd=folder, capture_output=True, timeout=120)
    if done.returncode not in (0, 1):
        raise OSError(f"{command} {words}: {done.returncode} {done.stderr!r}")
    with open(f"{folder}/trace", encoding="utf-8", errors="replace") as file:
        lines = file.read().splitlines()
    named = [(line, path) for line in lines for path in re.findall('"s/pairtree_root/([^"]*)"', line)]
    found = {path for _, path in named}, {path for line, path in named if re.search(r"\bopen(at2?)?\(", line)}
    return *found, {identifier for identifier in SITES if any(place(identifier) in line for line in lines)}


def unopened(program, folder):
    """What isn't chosen costs its listing alone: of an object that neither `--only` nor a list chooses no file and no folder is opened, nor
    anything in its folder or its place asked for, by a run, its rehearsal and an audit."""
    needs("strace")
    shutil.rmtree(f"{folder}/s")
    build(f"{folder}/s", store({f"{PLACES[identifier]}/{path}": held for identifier, files in SITES.items() for path, held in files.items()}))
    both, one = listed(folder, b"abcd\naa\n", "both"), listed(folder, b"aa\n", "one")
    faults, chosen = [], {"aa", "abcd"}
    for words in (("--only", "aa", "--only", "abc"), both, (*one, "--only", "abcd")):
        for gather in ((), ("--gather",)):
            for command in (["migrate", "-n"], ["migrate"], ["audit"]):
                found = traced(program, folder, command, *words, *gather)
                faults += differs(**{f"{command} {words} {gather}": (found, (*touched(chosen), chosen))})
            shutil.rmtree(f"{folder}/d")
            os.mkdir(f"{folder}/d")
    return faults + differs(gathered=(traced(program, folder, ["migrate"], "--gather", "--only", "ac"), (*touched({"ac"}), {"ac"})))


def large(program, folder):
    """A list of 100,000 identifiers is read, sorted, searched and told in less than a minute, on a machine under any load."""
    ids = [f"ark:/13030/{number * 7919 % 100003:06d}" for number in range(100000)]
    words = listed(folder, "\n".join(["abc", *ids]).encode())
    began = time.monotonic()
    status, lines, errors = made(program, folder, "d", *words)
    took = time.monotonic() - began
    wanted = "".join(f"{UNMET}{identifier}\n" for identifier in sorted(set(ids)))
    return differs(large=((status, carried(lines), errors == wanted), (1, ["abc"], True)), quick=(took < 60, True))


# How a line may end.
ENDS = ("\n", "\r\n")


def over_blocks(program, folder):
    """A list of more than 4 MiB is read as a small one, whatever its lines: none is torn where a block ends, as it comes from a file or, in
    pieces of any length, from a pipe. A bad line behind all that is told by its number."""
    chance = random.Random(71)
    ids = {"n" * 65536, "r" * 65535 + "\r"} | {f"ark:/13030/{chance.randrange(10**9):x}{'é' * chance.randrange(40)}" for _ in range(90000)}
    lines = chance.sample(sorted(ids), len(ids))
    content = "".join(identifier + (ENDS[1] if "\r" in identifier else chance.choice(ENDS)) for identifier in lines).encode() + b"abc"
    unmet = "".join(f"{UNMET}{identifier}\n" for identifier in sorted(ids, key=str.encode)).replace("\r", "\\u{d}")
    faults = differs(large=(len(content) > 4 << 20, True))
    status, found, errors = made(program, folder, "1", *listed(folder, content))
    faults += differs(file=((status, carried(found), errors == unmet), (1, ["abc"], True)))
    os.mkdir(f"{folder}/2")
    with subprocess.Popen([program, "migrate", *MEANT, "--list", "/dev/stdin", "s", "2"], cwd=folder, stdin=subprocess.PIPE, stdout=subprocess.PIPE, stderr=subprocess.PIPE) as asked:
        rest = memoryview(content)
        while rest:
            taken = chance.choice((1, 7, 4096, 8191, 8192, 8193, 65536))
            asked.stdin.write(rest[:taken])
            asked.stdin.flush()
            rest = rest[taken:]
        out, told = asked.communicate(timeout=120)
    faults += differs(pipe=((asked.returncode, carried(out.splitlines()), told.decode() == unmet), (1, ["abc"], True)))
    bad = made(program, folder, "d", *listed(folder, content + b"\n\n"))
    return faults + differs(bad=(bad, (2, [], f"pairtree2ocfl: list: line {len(ids) + 2}: the identifier is empty\n")))


CASES = [
    *(lists_of(seed) for seed in range(20)),
    Alone("objects chosen by a list", chosen),
    Alone("the status where no object was met of an identifier", statuses),
    Alone("a listed identifier whose place is reserved", reserved),
    Alone("lists with a bad line", bad_lines),
    Alone("lists that can't be read", unreadable),
    Alone("a list that is a link or a pipe", followed),
    Alone("nothing is opened of what isn't chosen", unopened),
    Alone("a list is read as far as its first bad line", at_once),
    Alone("a list of many blocks", over_blocks),
    Alone("a long list", large),
]
