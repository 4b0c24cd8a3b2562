"""Cases of checks of shares: what each tells, counts and lists, and that all of one division tell and count together what one check of the store does.

The number of the share that an identifier or a folder is of is computed here, apart from the program.
"""

import collections
import json
import os
import random
import shutil

from alone import Alone, differs
from calls import lines_of_trace
from checking import checked
from dividing import by_folders, listed_in, way_of
from events import answer, recorded
from sharing import random_store, share_number
from stores import DIR, FIFO, Link, build, store

ROOT = "pairtree_root/"
# What is told at a site that no run carries, and of what lies at the top.
OF_NO_OBJECT = {"missing", "doubtful", "root", "empty", "split", "past", "name", "utf8"}
# What is told of an entry that is no folder.
OF_ENTRIES = {"other", "desktop"}
# The numbers of which all shares have together the greatest.
GREATEST = ("longest", "largest")

# A store with troubles of many kinds, and the identifier of each object in which one lies.
TROUBLED = {
    "note": b"",
    "ab/c/obj/fine.txt": b"abc",
    "ab/cd/obj/Thumbs.db": b"1",
    "ab/cd/ef/obj/deep/.DS_Store": b"12",
    "ab/cd/ef/obj/pipe": FIFO,
    "ab/ce/obj/link": Link("none"),
    "ab/d": DIR,
    "ab/e/note": b"",
    "ab/e/obj/._f": b"",
    "a/bc/obj/fine.txt": b"4",
    "gh/ij/one/fine.txt": b"56",
    "gh/ij/two/Thumbs.db": b"7",
    "gh/k/obj/fine.txt": b"x" * 1000,
    "^z/c/obj/link": Link("none"),
    "^f/f/obj/desktop.ini": b"8",
    "^6/1b/obj/fine.txt": b"9",
    "a=/obj/long name.txt": b"10",
    "mn/opq/rs/tuv": b"11",
    "mnop/qr/stu": b"12",
    "ex/te/ns/io/ns/obj/fine.txt": b"13",
    "xy": Link("ab"),
}
IDENTIFIERS = {"ab/cd": "abcd", "ab/cd/ef": "abcdef", "ab/ce": "abce", "^6/1b": "ab", "mn": "mn"}


def checks(program, folder, *words):
    """A check of the store of a test: its status, and what its lines say."""
    status, output, errors = checked(program, folder, *words)
    if errors or status not in (0, 1, 3):
        raise OSError(f"{' '.join(words)}: {status} {errors!r}")
    return status, [json.loads(line) for line in output.splitlines()]


def together(answers):
    """What checks come to together: the greatest status, how often each line stands there, and the numbers."""
    told, numbers = collections.Counter(), collections.Counter()
    for _, entries in answers:
        told.update(map(str, entries[:-1]))
        last = entries[-1]
        numbers.update({name: number for name, number in last.items() if name not in ("as", *GREATEST)})
        numbers.update({name: max(last[name] - numbers[name], 0) for name in GREATEST})
    return max(status for status, _ in answers), told, +numbers


def counted(entries):
    """The numbers of a last line that follow from the lines before it, and those that stand there."""
    kinds = collections.Counter(entry["as"] for entry in entries[:-1])
    last = entries[-1]
    return {**kinds, "told": len(entries) - 1}, {**{kind: last[kind] for kind in kinds}, "told": last["told"]}


def owner(entry, count, depth):
    """The number of the share that tells this: by the way to it, or by the identifier of its object, where it lies in one that is carried."""
    path = entry["path"][len(ROOT) :]
    if depth is not None:
        return share_number(way_of(path.rpartition("/")[0] if entry["as"] in OF_ENTRIES else path, depth), count)
    site = path.partition("/o")[0]
    return 1 if entry["as"] in OF_NO_OBJECT or site not in IDENTIFIERS else share_number(IDENTIFIERS[site], count)


def of_others(entries, number, count, depth=None):
    """What a share tells that isn't its own."""
    for entry in entries[:-1]:
        if owner(entry, count, depth) != number:
            yield f"share {number} of {count} tells {entry}"


def shares_told(program, folder, words, ways):
    """What is wrong with the checks of all shares of these divisions, a depth or none each, with these words too, beside one check."""
    whole, faults = checks(program, folder, *words), []
    for count, depth in ways:
        answers = []
        for number in range(1, count + 1):
            share = ("--share", f"{number}/{count}") if depth is None else by_folders(number, count, depth)
            answers.append(checks(program, folder, *words, *share))
            faults += differs(counted=counted(answers[-1][1]))
        for name, part, all_of_it in zip(("status", "lines", "numbers"), together(answers), together([whole])):
            faults += differs(**{f"{name} of {count} shares, {depth} deep, {words}": (part, all_of_it)})
    return faults


WAYS = [(count, depth) for count in (1, 2, 3, 5) for depth in (None, 1, 2, 3)]
WORDS = ((), ("--read",), ("--gather", "--read"), ("--tuple-size", "0", "--tuples", "0", "--dest", "D" * 4000))


def many_troubles(program, folder):
    """Of a store with troubles of many kinds the shares tell and count together what one check does, and each what is its own."""
    shutil.rmtree(f"{folder}/s")
    build(f"{folder}/s", store(TROUBLED, b" p\n"))
    os.remove(f"{folder}/s/pairtree_version0_1")
    faults = [fault for words in WORDS for fault in shares_told(program, folder, words, WAYS)]
    build(folder, {"s/pairtree_prefix": b""})
    told = {entry["as"] for entry in checks(program, folder)[1]}
    faults += differs(kinds=(told, {"missing", "root", "empty", "split", "past", "name", "utf8", "width", "spelling", "other", "desktop", "end"}))
    for count in (2, 3, 7):
        for number in range(1, count + 1):
            faults += of_others(checks(program, folder, "--share", f"{number}/{count}")[1], number, count)
            for depth in (1, 2):
                faults += of_others(checks(program, folder, *by_folders(number, count, depth))[1], number, count, depth)
    return faults


def lists(site, number, count, depth):
    """Whether a share lists a site: by identifiers each does, by folders where it lies above those that are divided, or is the share's own."""
    return depth is None or len(site.split("/")) < depth or share_number(way_of(site, depth), count) == number


def names_that_are_no_text(program, folder):
    """What can't be listed whole is told by each share that lists it, once for each reason: what is missed there may be of any."""
    shutil.rmtree(f"{folder}/s")
    build(f"{folder}/s", store({"ab/c/obj/f": b"1", "ab/c/obj/d/g": b"2", "ad/e/obj/f": b"3", "ad/f/obj/f": b"4", "ag/h/obj/f": b"5"}))
    for path in ("", "pairtree_root/ab/c/obj/d", "pairtree_root/ad", "pairtree_root/ag/h"):
        for name in (b"\xe9", b"z\xff"):
            with open(f"{folder}/s/{path}/".encode() + name, "wb"):
                pass
    faults = differs(told=(checks(program, folder)[1][-1]["unreadable"], 8))
    for count, depth in WAYS:
        for number in range(1, count + 1):
            share = ("--share", f"{number}/{count}") if depth is None else by_folders(number, count, depth)
            told = collections.Counter(entry["path"] for entry in checks(program, folder, *share)[1] if entry["as"] == "unreadable")
            listed = [""] + [ROOT + site for site in ("ad", "ag/h") if lists(site, number, count, depth)]
            owned = share_number("abc" if depth is None else way_of("ab/c", depth), count) == number
            expected = dict.fromkeys([*listed, *([ROOT + "ab/c/obj/d"] if owned else [])], 2)
            faults += differs(**{f"share {number} of {count}, {depth} deep": (dict(told), expected)})
    return faults


def nothing_to_read(program, folder):
    """Where there is no store at all each share tells that, as each run of a share ends with a fault."""
    faults = []
    for number in (1, 2, 3):
        status, output, _ = checked(program, folder, "--share", f"{number}/3", source="none")
        faults += differs(**{f"status of share {number}": (status, 3), f"lines of share {number}": (output.count(b"unreadable"), 2)})
    return faults


def random_of(seed):
    """The same of a random store."""
    chance = random.Random(seed)

    def test(program, folder):
        shutil.rmtree(f"{folder}/s")
        build(f"{folder}/s", random_store(chance))
        words = chance.choice(WORDS)
        return shares_told(program, folder, words, [(chance.randrange(2, 9), depth) for depth in (None, chance.randrange(1, 4))])

    return Alone(f"checks of shares of a random store, {seed}", test)


def lists_its_own(program, folder):
    """A check of a share by folders lists the folders that lie less deep than those that are divided, and of these and what is below only its own; and
    of objects that aren't its own it opens no file, by identifiers too."""
    shutil.rmtree(f"{folder}/s")
    letters = "abcd"
    tree = {f"{x}{y}/{y}{z}/{z}{x}/obj/f": b"1" for x in letters for y in letters for z in letters}
    build(f"{folder}/s", store(tree))
    sites = {"/".join(path.split("/")[:depth]) for path in tree for depth in range(4)}
    faults = []
    for count, depth, number in ((3, 1, 2), (3, 2, 1), (4, 2, 4), (5, 3, 3)):
        own = {site for site in sites if site.count("/") + 1 < depth or not site or share_number(way_of(site, depth), count) == number}
        status, traced = lines_of_trace(folder, "getdents64", [program, "check", *by_folders(number, count, depth), "s"])
        faults += differs(**{f"share {number} of {count}, {depth} deep": ((status, listed_in(traced, folder)), (0, own))})
    status, traced = lines_of_trace(folder, "openat", [program, "check", "--share", "2/3", "s"])
    opened = {path for path in tree if any(f'"s/pairtree_root/{path}"' in line or f'/{path}>' in line for line in traced)}
    own = {path for path in tree if share_number("".join(path.split("/")[:3]), 3) == 2}
    return faults + differs(status=(status, 0), opened=(opened, own))


def chosen(program, folder):
    """With --only what is told and counted is of the objects whose identifiers begin so, the prefix included, and of what has none; also of a share."""
    shutil.rmtree(f"{folder}/s")
    build(f"{folder}/s", store({f"{x}{y}/obj/{name}": b"12" for x in "ab" for y in "cd" for name in ("f", "Thumbs.db")} | {"xx": DIR}, b"ark:/1/"))
    rows = ((("ark:/1/a",), ("ac", "ad")), (("ark:/1/ac", "ark:/1/b"), ("ac", "bc", "bd")), (("ac",), ()), (("ark:/1/ac", "ark:/1/ac"), ("ac",)))
    faults = []
    for texts, sites in rows:
        words = [word for text in texts for word in ("--only", text)]
        told = [{"as": "desktop", "path": f"{ROOT}{site}/obj/Thumbs.db"} for site in sites] + [{"as": "empty", "path": f"{ROOT}xx"}]
        status, entries = checks(program, folder, "--read", *words)
        numbers = {name: entries[-1][name] for name in ("bytes", "files", "objects", "told")}
        wanted = {"bytes": 4 * len(sites), "files": 2 * len(sites), "objects": len(sites), "told": len(told)}
        faults += differs(**{f"{texts}": ((status, entries[:-1], numbers), (1, told, wanted))})
        faults += shares_told(program, folder, words, [(3, None), (3, 1)])
    return faults


# A store, lists of identifiers, other words, the sites whose objects are checked, and those identifiers of which no object is met, as they are shown.
TWO_EACH = {f"{site}/obj/{name}": b"12" for site in ("ac", "ad", "bc") for name in ("f", "Thumbs.db")}
LISTED = store({**TWO_EACH, "xx": DIR, "xy/one/f": b"", "xy/two/f": b""}, b"p/")
OF_NONE = (("empty", "xx"), ("split", "xy"))
LISTS = (
    (b"", (), (), ()),
    (b"p/ad\n", (), ("ad",), ()),
    (b"p/bc\r\np/ac\np/bc", (), ("ac", "bc"), ()),
    (b"p/ad\nnone\np/a\nad\n", (), ("ad",), ("ad", "none", "p/a")),
    (b"p/ad\np/xx\np/xy\n", (), ("ad",), ("p/xx", "p/xy")),
    (b"p/ad\nnone\n", ("--only", "p/b"), ("ad", "bc"), ("none",)),
    (b" p/ad\n", ("--quiet",), (), ("\\u{20}p/ad",)),
)


def listed(program, folder):
    """With --list what is told and counted is of the objects of these identifiers, beside those that --only names, and of what has none; at the end come those
    of which no object was met."""
    shutil.rmtree(f"{folder}/s")
    build(f"{folder}/s", LISTED)
    faults = []
    for content, words, sites, unmet in LISTS:
        build(folder, {"ids": content})
        status, output, errors = checked(program, folder, "--read", *words, "--list", "ids")
        entries = [json.loads(line) for line in output.splitlines()]
        told = [{"as": "desktop", "path": f"{ROOT}{site}/obj/Thumbs.db"} for site in sites] + [{"as": kind, "path": f"{ROOT}{path}"} for kind, path in OF_NONE]
        numbers = {name: entries[-1][name] for name in ("bytes", "objects", "told")}
        wanted = {"bytes": 4 * len(sites), "objects": len(sites), "told": len(told)}
        lines = "".join(f"pairtree2ocfl: no object was met: {identifier}\n" for identifier in unmet).encode()
        faults += differs(**{f"{content} {words}": ((status, entries[:-1], numbers, errors), (1, told, wanted, lines))})
    return faults


def list_statuses(program, folder):
    """Where nothing is told 1 says that no object was met of an identifier. An object is met whatever becomes of it. Where what would stop a run was told the
    status is 3, and nothing is said of the list: what couldn't be read may hold them."""
    faults = []
    shutil.rmtree(f"{folder}/s")
    build(f"{folder}/s", store({"ex/te/ns/io/ns/obj/f": b"1", "ab/obj/f": b"2"}))
    build(folder, {"both": b"ab\nnone\n", "alone": b"ab\n", "own": b"extensions\n"})
    none = b"pairtree2ocfl: no object was met: none\n"
    for name, wanted in (("both", (1, none)), ("alone", (0, b""))):
        faults += differs(**{name: (checked(program, folder, "--list", name)[::2], wanted)})
    status, output, errors = checked(program, folder, "--list", "own", "--tuple-size", "0", "--tuples", "0")
    faults += differs(own=((status, b'"reserved"' in output, errors), (1, True, b"")))
    os.remove(f"{folder}/s/pairtree_version0_1")
    return faults + differs(stops=(checked(program, folder, "--list", "both")[::2], (3, b"")))


def lists_of_shares(program, folder):
    """Each share tells those of its own identifiers of which it met no object, and by folders all of which it met none; its lines are as ever."""
    shutil.rmtree(f"{folder}/s")
    sites = [f"{x}{y}" for x in "abc" for y in "defg"]
    build(f"{folder}/s", store({f"{site}/obj/Thumbs.db": b"1" for site in sites}))
    absent = [f"none {number}" for number in range(9)]
    build(folder, {"ids": "".join(f"{identifier}\n" for identifier in sites[::2] + absent).encode()})
    faults = []
    for count in (1, 3):
        for number in range(1, count + 1):
            for depth in (None, 1):
                share = ("--share", f"{number}/{count}") if depth is None else by_folders(number, count, depth)
                own = [site for site in sites[::2] if share_number(site, count) == number]
                left = [identifier for identifier in absent if share_number(identifier, count) == number] if depth is None else {*absent, *sites[::2]} - {*own}
                status, output, errors = checked(program, folder, "--list", "ids", *share)
                told = [json.loads(line)["path"] for line in output.splitlines()[:-1]]
                unmet = [line.rpartition(": ")[2] for line in errors.decode().splitlines()]
                found = (status, told, unmet)
                faults += differs(**{f"{share}": (found, (1, [f"{ROOT}{site}/obj/Thumbs.db" for site in own], sorted(left)))})
    return faults


def lists_refused(program, folder):
    """A list with a line that is no identifier, or that can't be read, is refused before anything is told; the other words are judged before."""
    build(folder, {"bad": b"ab\n\n", "ids": b"ab\n"})
    faults = []
    for words, line in (
        (("--list", "bad"), b"bad: line 2: the identifier is empty"),
        (("--list", "gone"), b"gone: No such file or directory (os error 2)"),
        (("--list", ""), b"--list is empty"),
        (("--list", "", "--event", ""), b"--event is empty"),
        (("--list", "bad", "--dest", ""), b"--dest is empty"),
        (("--list", "gone", "--share", "3/2"), SHARE[len("pairtree2ocfl: ") : -1]),
    ):
        faults += differs(**{" ".join(words): (checked(program, folder, *words, "--quiet", "-v"), (2, b"", b"pairtree2ocfl: " + line + b"\n"))})
    done = answer(program, folder, "check", "--list", "bad", "--event", "ev", "s")
    faults += differs(event=((done[0], os.path.lexists(f"{folder}/ev")), (2, False)))
    done = answer(program, folder, "check", "--list", "ids", "--event", "ev", "s")
    found = recorded(f"{folder}/ev")[0]
    return faults + differs(recorded=((done[0], found["options"].get("list"), found["status"]), (1, "ids", 1)))


# Words that are refused, with the line of standard error: each but the last stands before another that is wrong too.
SHARE = b"pairtree2ocfl: --share is not K/N with N from 1 to 4096 and K from 1 to N\n"
FOLDERS = b"pairtree2ocfl: --by-folders is not a number from 1 to 600 beside --share\n"
REFUSED = (
    (("--share", "3/2", "--by-folders", "0"), SHARE),
    (("--share", "1/4097", "--ignore", "a/b"), SHARE),
    (("--share", "1"), SHARE),
    (("--by-folders", "1", "--ignore", "a/b"), FOLDERS),
    (("--by-folders", "601", "--share", "1/2", "--dest", ""), FOLDERS),
    (("--by-folders", "two", "--share", "1/2", "--event", ""), FOLDERS),
)


def refused(program, folder):
    """What is no share is refused, before anything is told, and before the words that are judged behind it."""
    faults = []
    for words, line in REFUSED:
        faults += differs(**{" ".join(words): (checked(program, folder, *words), (2, b"", line))})
    status, output, errors = checked(program, folder, "--only", "")
    return faults + differs(empty=((status, output, b"--only" in errors), (2, b"", True)))


def records(program, folder):
    """Its event says which share a check was of."""
    words = ("--share", "2/3", "--by-folders", "2", "--only", "ab", "--only", "c")
    faults = differs(status=(answer(program, folder, "check", *words, "--event", "ev", "s")[0], 0))
    options = recorded(f"{folder}/ev")[0]["options"]
    found = {name: options.get(name) for name in ("share", "by-folders", "only")}
    return faults + differs(options=(found, {"share": "2/3", "by-folders": 2, "only": ["ab", "c"]}))


def one_share(program, folder):
    """The one share of one is the whole, by folders too."""
    shutil.rmtree(f"{folder}/s")
    build(f"{folder}/s", store(TROUBLED))
    whole = checked(program, folder)
    return differs(share=(checked(program, folder, "--share", "1/1"), whole), folders=(checked(program, folder, *by_folders(1, 1, 2)), whole))


CASES = [
    *(random_of(seed) for seed in range(30)),
    Alone("checks of shares of a store with many troubles", many_troubles),
    Alone("checks of shares: names that aren't UTF-8", names_that_are_no_text),
    Alone("checks of shares of no store", nothing_to_read),
    Alone("a check of a share lists and opens only its own", lists_its_own),
    Alone("checks of what begins with a text", chosen),
    Alone("checks of shares that are refused", refused),
    Alone("the event of a check of a share", records),
    Alone("a check of the one share of one", one_share),
    Alone("checks of lists", listed),
    Alone("checks of lists: statuses", list_statuses),
    Alone("checks of lists in shares", lists_of_shares),
    Alone("checks of lists that are refused", lists_refused),
]
