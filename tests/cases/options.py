"""Cases of what users expect of a run: reasons, one run at a time, folders that lie apart, rehearsal, durability.
"""

import fcntl
import os
import re
import subprocess
import time

import carrying
import refusing
import running
from alone import Alone, differs, many, run
from running import MEANT, TEXTS, Case, Run, ends, summary, timeless
from stores import ABC, DIR, GONE, ONE, ONE_DONE, ONE_PRESENT, ONE_ROOT, Link
from stores import build, done, lines, object_files, read_tree, root, skip, staged, store, stored
from tally import needs

OVERLAP = b"pairtree2ocfl: SOURCE and DEST lie in one another\n"
TAKEN = b"pairtree2ocfl: another run has the destination\n"
ROOT_ITSELF = b"pairtree2ocfl: DEST is a storage root itself: name the folder that holds it\n"


def apart():
    """Folders that lie in one another are refused before anything is read or made; others aren't."""
    refused = Run(b"", {}, 2, OVERLAP, dest_name="s")
    yield Case("the store as its own destination", ONE, refused)
    for name, dest in {
        "an object's folder": "s/pairtree_root/ab/c/obj",
        "pairtree_root": "s/pairtree_root",
        "the store by a detour": "d/../s",
        "the store by a link": "d/link",
        "a folder of the store by a link": "d/link/pairtree_root/ab",
    }.items():
        given = {"link": Link("../s")} if "link" in dest else {}
        yield Case(f"a destination that is {name}", ONE, Run(b"", given, 2, OVERLAP, dest_name=dest), dest=given)
    for name in ("ocfl", "staging"):
        inner = {f"{name}/in/{path}": content for path, content in ONE.items()}
        run = Run(b"", inner, 2, OVERLAP, source=f"d/{name}/in")
        yield Case(f"a store in {name} of the destination", ONE, run, dest=inner)
        run = Run(b"", inner, 2, OVERLAP, source=f"s/way/{name}/in")
        yield Case(f"a store in {name}, by a link", {"way": Link("../d")}, run, dest=inner)
    beside = {f"mine/{path}": content for path, content in ONE.items()}
    run = ends([ONE_DONE], {**beside, **ONE_ROOT}, source="d/mine")
    yield Case("a store beside ocfl in the destination", ONE, run, dest=beside)
    words = {"meant": ("--created", "today", "--name", "Ada")}
    reason = b"pairtree2ocfl: --created is not a moment of RFC 3339 to the second\n"
    yield Case("words before folders", ONE, Run(b"", {}, 2, reason, dest_name="s", **words))


def roots_themselves():
    """A destination that is a storage root or an object itself is refused before anything is made, of a rehearsal too; after folders that lie in
    one another. Entries with other names are no declarations, and folders with many names are read to their end."""
    many_names = {f"{number:0255}": b"" for number in range(100)}
    refused = {
        "a storage root": {"0=ocfl_1.1": b"ocfl_1.1\n", "ocfl_layout.json": b"{}"},
        "a root of another version": {"0=ocfl_2.0": b"", "ba7/816": DIR},
        "an object": {"0=ocfl_object_1.1": b"ocfl_object_1.1\n", "v1": DIR},
        "by a folder": {"0=ocfl_": DIR},
        "by a link to nothing": {"0=ocfl_1.1": Link("nothing")},
        "among many names": {**many_names, "0=ocfl_1.1": b""},
        "after a run into it": {**ONE_ROOT, "0=ocfl_1.1": b""},
    }
    for name, dest in refused.items():
        for words in ([], ["--dry-run"], ["--verbose"]):
            yield Case(f"a root itself: {name} {' '.join(words)}".rstrip(), ONE, Run(b"", dest, 2, ROOT_ITSELF, words=words), dest=dest)
    made = {"ocfl/0=ocfl_1.1": b"ocfl_1.1\n"}
    yield Case("a root itself: an ocfl in the destination", ONE, Run(b"", {**root(), **made}, 2, ROOT_ITSELF, dest_name="d/ocfl"), dest={**root(), **made})
    others = {name: b"1" for name in ("0=ocfl", "0=OCFL_1.1", "x0=ocfl_1.1", "1=ocfl_1.1", "0=ocfl\n_1.1")}
    others |= {"beside/0=ocfl_1.1": b"1", b"\xff0=ocfl_".decode(errors="surrogateescape"): b"1", **many_names}
    yield Case("other names are no declarations", ONE, ends([ONE_DONE], {**ONE_ROOT, **others}), dest=others)
    store_and_root = {**ONE, "0=ocfl_1.1": b""}
    yield Case("a store that is a root too, as its own destination", store_and_root, Run(b"", {}, 2, OVERLAP, dest_name="s"))


def reasons():
    """With --verbose a line more tells the path and the reason of a fault; without it there is one of fault 1, 2 and 5 alone, at the top of a folder."""
    none = "No such file or directory (os error 2)"
    yield from told_always("no store", {}, 1, f"s/absent/: {none}", source="s/absent")
    yield from told_always("no store, with a slash", {}, 1, f"s/absent//: {none}", source="s/absent/")
    yield from told_always("no destination", ONE, 2, f"d/absent/staging: {none}", dest_name="d/absent")
    yield from told_always("no words for the source", ONE, 1, ": the path is empty", source="")
    yield from told_always("no words for the destination", ONE, 2, ": the path is empty", dest_name="")
    neither = "it holds no file pairtree_version0_1 or no directory pairtree_root"
    yield from told_always("no Pairtree", {"x": b""}, 5, f"s: {neither}")
    yield from told_always("a pairtree_root alone", {"pairtree_root/x": b""}, 5, f"s/pairtree_root: {neither}", source="s/pairtree_root")
    yield from told_always("a folder beside pairtree_root", {**ONE, "x/y": b""}, 5, f"s/x: {neither}", source="s/x")
    prefix = "pairtree_prefix in it is no file, has more than 1024 bytes, or is not UTF-8"
    yield from told("no prefix", store({}, DIR), 6, f"s: {prefix}")
    yield from told("a left staging", ONE, 7, "d/staging: it stands there already", dest={"staging": DIR})
    way = "it is not what this program makes there with these tuples"
    yield from told("an ocfl that is a file", ONE, 8, f"d/ocfl: {way}", dest={"ocfl": b""})
    other = {**root(), "ocfl/ocfl_layout.json": b"{}"}
    yield from told("another layout", ONE, 8, f"d/ocfl/ocfl_layout.json: {way}", dest=other)
    taken = {**root(), "ocfl/ba7": b"1"}
    left = {**taken, **staged(object_files("abc", ABC))}
    yield from told("a file for a tuple", ONE, 8, f"d/ocfl/ba7: {way}", dest=taken, left=left)
    bad = b"\xff".decode(errors="surrogateescape")
    reason = "s/pairtree_root/ab: a name in it is not UTF-8"
    yield from told("a name that isn't UTF-8", store({f"ab/{bad}": b""}), 1, reason, left=root())
    path = "/".join(["d" * 249] * 15)
    reason = f"d/staging/v1/content/{path}/{'f' * 150}: the path would be too long at its place in ocfl"
    declared = {"0=ocfl_object_1.1": b"ocfl_object_1.1\n"}
    left = {**root(), **staged({**declared, f"v1/content/{path}": DIR})}
    yield from told("a path too long", store({f"ab/c/obj/{path}/{'f' * 150}": b""}), 2, reason, left=left)
    strange = "x\n\x1b[31m\x7f\u0085\\"
    shown = "x\\u{a}\\u{1b}[31m\\u{7f}\\u{85}\\\\"
    text = f"{shown}/staging: {none}"
    yield from told_always("control characters of a path", ONE, 2, text, dest_name=strange)
    yield Case("no reason without a fault", ONE, ends([ONE_DONE], ONE_ROOT, words=["-v"], err=summary(ONE_DONE)))
    no_output = b"pairtree2ocfl: fault 3: cannot write the output\n"
    run = Run(b"", ONE_ROOT, 3, no_output, words=["-v"], output="/dev/full")
    yield Case("no reason where a fault has no path", ONE, run)


def told_always(name, held, number, reason, **options):
    """The case of a fault at the top of a folder, whose reason is told, whatever the words. Folders are given as they are here."""
    err = f"pairtree2ocfl: fault {number}: {TEXTS[number]}\npairtree2ocfl: {reason}\n".encode()
    for words in ((), ("--verbose",), ("--quiet",)):
        yield Case(f"{name}: {' '.join(words) or 'no more'}", held, Run(b"", {}, 3, err, relative=True, words=words, **options))


def told(name, held, number, reason, dest=None, left=None, **options):
    """The case of a fault, told without its reason and with it. Folders are given as they are here."""
    dest, left = dest or {}, left if left is not None else dest or {}
    line = f"pairtree2ocfl: fault {number}: {TEXTS[number]}\n".encode()
    more = f"pairtree2ocfl: {reason}\n".encode()
    for words, err in {(): line, ("--verbose",): line + more}.items():
        run = Run(b"", left, 3, err, relative=True, words=words, **options)
        yield Case(f"{name}: {' '.join(words) or 'no more'}", held, run, dest=dest)


def store_to_name(program, folder):
    """Where SOURCE is a store's pairtree_root the reason of fault 5 names the folder of the store, however it is led to; control characters as
    elsewhere. An audit says the same."""
    strange = f"{os.path.realpath(folder)}/x\n"
    os.rename(f"{folder}/s", strange)
    os.symlink("x\n/pairtree_root", f"{folder}/link")
    faults = []
    for source, folder_of in {"x\n/pairtree_root": folder, "link": folder, "link/": folder, ".": f"{strange}/pairtree_root"}.items():
        for words in (["migrate", *MEANT], ["migrate", "--dry-run", *MEANT], ["audit"]):
            command = [program, *words, "--verbose", source, f"{folder}/d"]
            done = subprocess.run(command, cwd=folder_of, capture_output=True, timeout=120)
            reason = f"{source}: it is the pairtree_root of a store: name {strange}".replace("\n", "\\u{a}")
            text = f"pairtree2ocfl: fault 5: {TEXTS[5]}\npairtree2ocfl: {reason}\n".encode()
            faults += differs(**{f"{source} {words[0]}": ((done.returncode, done.stdout, done.stderr), (3, b"", text))})
    return faults + differs(made=(os.listdir(f"{folder}/d"), []))


def locked(program, folder):
    """A run is refused while another has the destination, and isn't afterwards. No file is added."""
    holder = os.open(f"{folder}/d", os.O_RDONLY)
    fcntl.flock(holder, fcntl.LOCK_EX | fcntl.LOCK_NB)
    first = [run(program, folder), run(program, folder, "--dry-run")]
    stands = read_tree(f"{folder}/d")
    build(f"{folder}/d", {"0=ocfl_1.1": b""})
    itself = run(program, folder)
    build(f"{folder}/d", {"0=ocfl_1.1": GONE})
    os.close(holder)
    last = run(program, folder)
    wanted = (3, b"", TAKEN)
    faults = differs(stands=(stands, {}), status=(last.returncode, 0), itself=((itself.returncode, itself.stderr), (2, ROOT_ITSELF)))
    for done in first:
        faults += differs(refusal=((done.returncode, done.stdout, done.stderr), wanted))
    return faults + differs(names=(sorted(os.listdir(f"{folder}/d")), ["ocfl"]))


def holds(program, folder):
    """A run holds the destination to its end: here it waits, since nobody reads its log."""
    many(folder)
    command = [program, "migrate", *MEANT, "s", "d"]
    with subprocess.Popen(command, cwd=folder, stdout=subprocess.PIPE, stderr=subprocess.PIPE) as first:
        for _ in range(1000):
            if os.path.exists(f"{folder}/d/ocfl/0=ocfl_1.1"):
                break
            time.sleep(0.01)
        second = run(program, folder)
        first.communicate(timeout=120)
    wanted = (3, b"", TAKEN)
    return differs(second=((second.returncode, second.stdout, second.stderr), wanted), first=(first.returncode, 0))


def synced(program, folder):
    """With --sync each file is put onto the disk before it is closed, and then the folder that the object lies in; the log
    after each line, and once before, to see that it can be. Without it nothing is."""
    needs("strace")
    faults = []
    for words, least in {(): 0, ("--sync",): 1}.items():
        trace = f"{folder}/trace"
        subprocess.run(["rm", "-rf", f"{folder}/d"], check=True)
        os.mkdir(f"{folder}/d")
        with open(f"{folder}/log", "wb") as log:
            command = ["strace", "-f", "-y", "-o", trace, "-e", "trace=fsync,fdatasync,close,rename,openat,open", program]
            ended = subprocess.run([*command, "migrate", *MEANT, *words, "s", "d"], cwd=folder, stdout=log, timeout=120)
        with open(trace, encoding="utf-8", errors="replace") as file:
            calls = re.findall(r"fsync\(\d+<([^>]*)>\)\s+= 0", file.read())
        made = sum(content != DIR for content in read_tree(f"{folder}/d").values())
        folders = [path for path in calls if os.path.isdir(path)]
        files = len(calls) - len(folders) - sum(path.endswith("/log") for path in calls)
        faults += differs(status=(ended.returncode, 0), files=(files, made * least), folders=(len(folders), 2 * least))
        faults += differs(log=(sum(path.endswith("/log") for path in calls), 3 * least))
    return faults


def late(program, folder):
    """With --sync an error that comes late is fault 2."""
    needs("strace")
    faults = []
    for when in ("2", "5", "10"):
        subprocess.run(["rm", "-rf", f"{folder}/d"], check=True)
        os.mkdir(f"{folder}/d")
        command = ["strace", "-f", "-o", "/dev/null", "-e", f"inject=fsync:error=EIO:when={when}", program]
        ended = subprocess.run([*command, "migrate", *MEANT, "--sync", "-v", "s", "d"], cwd=folder, capture_output=True, timeout=120)
        line = b"pairtree2ocfl: fault 2: cannot write the destination\n"
        told = ended.stderr.startswith(line) and ended.stderr.endswith(b": Input/output error (os error 5)\n")
        faults += differs(status=(ended.returncode, 3), told=(told, True))
    return faults


def left_out():
    """The entries that --ignore names aren't there for a run, whatever they are and wherever they stand; with --verbose their number is told."""
    waste = {"pairtree_root/.DS_Store": b"1", "pairtree_root/ab/.DS_Store": Link("none"), "pairtree_root/ab/c/.DS_Store": DIR}
    waste.update({"pairtree_root/ab/c/obj/.DS_Store/x": b"2", "pairtree_root/ab/c/Thumbs.db": b"3", "pairtree_root/ab/c/.DS_Store/x/obj/f": b"4"})
    source, words = {**ONE, **waste}, ["--ignore", ".DS_Store", "--ignore=Thumbs.db"]
    yield Case("names that are left out", source, ends([ONE_DONE], ONE_ROOT, words=words))
    told = summary(ONE_DONE) + b"pairtree2ocfl: left out by their names: 5\n"
    yield Case("names that are left out, told", source, ends([ONE_DONE], ONE_ROOT, words=[*words, "-v"], err=told))
    others = store({"ab/c/obj/.DS_Storex": b"1", "ab/c/obj/x.DS_Store": b"2"})
    files = {".DS_Storex": b"1", "x.DS_Store": b"2"}
    wanted = ends([done("ab/c/obj", "abc", files)], root(stored("abc", files)), words=words)
    yield Case("names that only hold one that is left out", others, wanted)
    yield Case("a store without its pairtree", ONE, running.fault(5, {}, words=["--ignore", "pairtree_root"]))


def present_lines():
    """With --present-ok a run has status 0 whose log has done and present lines alone; a skip line makes it 1, as a present line without the option."""
    end = {"as": "end", "done": 0, "present": 1, "skip": 0}
    for words, status in {(): 1, ("--present-ok",): 0, ("--present-ok", "--dry-run"): 0}.items():
        again = Run(lines(ONE_PRESENT, end), ONE_ROOT, status, words=words)
        yield Case(f"a run again: {' '.join(words) or 'no more'}", ONE, ends([ONE_DONE], ONE_ROOT), again)
    with_skip = {**ONE, "pairtree_root/ab/d": DIR}
    first = ends([ONE_DONE, skip("ab/d", "empty")], ONE_ROOT, words=["--present-ok"])
    again = ends([ONE_PRESENT, skip("ab/d", "empty")], ONE_ROOT, words=["--present-ok"])
    yield Case("a skip where present lines are well", with_skip, first, again)
    yield Case("a run where all is carried and present lines are well", ONE, ends([ONE_DONE], ONE_ROOT, words=["--present-ok"]))


def skip_lines():
    """With --skips-ok a run has status 0 whose log has done and skip lines alone; a present line makes it 1 unless --present-ok is given too. A
    rehearsal has the status of its run, and an identifier of --list of which no object was met makes it 1 as ever."""
    with_skip = {**ONE, "pairtree_root/ab/d": DIR, "pairtree_root/notes": b"1"}
    skips = [skip("", "root"), skip("ab/d", "empty")]
    first, second = lines(skips[0], ONE_DONE, skips[1], counted(1, 0, 2)), lines(skips[0], ONE_PRESENT, skips[1], counted(0, 1, 2))
    both, alone = ("--present-ok", "--skips-ok"), ("--skips-ok",)
    for words, statuses in {(): (1, 1), ("--present-ok",): (1, 1), alone: (0, 1), both: (0, 0)}.items():
        for at_first in ((), ("-n",)):
            made = Run(first, {} if at_first else ONE_ROOT, statuses[0], words=[*words, *at_first])
            again = Run(second, ONE_ROOT, statuses[1], words=[*words, *at_first])
            yield Case(f"skip lines: {' '.join([*words, *at_first]) or 'no more'}", with_skip, made, *([Run(first, ONE_ROOT, 1), again] if at_first else [again]))
    none = b"pairtree2ocfl: no object was met: none\n"
    for words, status, err, ids in ((("--only", "abc"), 0, b"", None), (("--list", "s/ids"), 0, b"", b"abc\n"), (("--list", "s/ids"), 1, none, b"abc\nnone\n")):
        pilot = Run(first, ONE_ROOT, status, err, words=["--skips-ok", *words], relative=True)
        named = {"ids": ids} if ids else {}
        yield Case(f"a pilot's status: {' '.join(words)}, {status}", {**with_skip, **MORE, **named}, pilot)


def counted(done, present, skipped):
    """The end line of a run with so many lines of each kind."""
    return {"as": "end", "done": done, "present": present, "skip": skipped}


def rehearsals():
    """Every run of the other tests, rehearsed before it."""
    for case in (*carrying.CASES, *refusing.CASES):
        if not any(mount[-1] == "d" for mount in case.mounts):
            yield Rehearsed(f"rehearsed: {case.name}", case.source, *case.runs, dest=case.dest, mounts=case.mounts, unsteady=case.unsteady)


def at_dest(said):
    """What standard error was told, where DEST is no folder: a run finds that as it makes `staging` in it, a rehearsal as it looks at DEST itself."""
    return re.sub(rb"/staging(: (?:No such file or directory|Not a directory) )", rb"/\1", said)


class Rehearsed(Case):
    """A case whose runs are rehearsed first: the log and the status are the run's, and nothing of the destination changes."""

    def run_faults(self, program, folder, run):
        build(f"{folder}/s", run.grow)
        build(f"{folder}/d", run.plant)
        for command in run.commands:
            subprocess.run(command, cwd=folder, check=True)
        words = run.command(program, folder)
        before = stamps(folder)
        rehearsed = running.started([*words[:-2], "--dry-run", *words[-2:]], folder, run.output)
        after = stamps(folder)
        ran = running.started(words, folder, run.output)
        if before != after:
            yield f"changed: {sorted(before.items() ^ after.items())[:4]}"
        rehearsed, ran = ((*answer[:2], at_dest(timeless(answer[2]))) for answer in (rehearsed, ran))
        by_parser = ran[0] == 2 and ran[2].startswith(b"error: ")
        if rehearsed != ran and not (by_parser and rehearsed[:2] == ran[:2]):
            yield f"the rehearsal gave {rehearsed!r:.600}, and the run {ran!r:.600}"


def stamps(folder):
    """All that stands in the folder of a case, each with its number, size and times."""
    found = {}
    for top in ("s", "d"):
        for above, dirs, files in os.walk(f"{folder}/{top}"):
            for name in (".", *dirs, *files):
                told = os.stat(os.path.join(above, name), follow_symlinks=False)
                found[os.path.join(above, name)] = (told.st_ino, told.st_mode, told.st_size, told.st_mtime_ns, told.st_ctime_ns)
    return found


def short_words():
    """The short words of options."""
    yield Case("-n is --dry-run, -v is --verbose", ONE, Run(lines(ONE_DONE, END_OF_ONE), {}, 0, summary(ONE_DONE), words=["-nv"]))
    twice = store({"^6/1b/c/one/a.txt": b"abc", "ab/c/obj/a.txt": b"abc"})
    yield Rehearsed("rehearsed: one identifier in two places", twice, Run(b"", {}, 1))
    for words in (["--dry-run=1"], ["--progress", "often"], ["--sync=no"], ["-x"]):
        yield Case(f"refused by the parser: {' '.join(words)}", ONE, running.refused_by_parser(MEANT, *words))
    for words in (["--sync"], ["-q"], ["--quiet", "--progress=always", "-v"]):
        yield Case(f"the words {' '.join(words)}", ONE, ends([ONE_DONE], ONE_ROOT, words=words))
    for words in (["--progress=always"], ["--progress", "never", "--verbose"]):
        yield Case(f"the words {' '.join(words)}", ONE, ends([ONE_DONE], ONE_ROOT, words=words, err=summary(ONE_DONE)))


END_OF_ONE = {"as": "end", "done": 1, "present": 0, "skip": 0}
# An object that a pilot doesn't choose.
MORE = {"pairtree_root/xy/z/obj/a.txt": b"abc"}
ALONE = [
    Alone("the folder of a pairtree_root is named", store_to_name),
    Alone("one run at a time", locked),
    Alone("a run holds its destination", holds),
    Alone("files, folders and the log put onto the disk", synced),
    Alone("an error that comes late", late),
]
PARTS = (apart, roots_themselves, reasons, short_words, left_out, present_lines, skip_lines, rehearsals)
CASES = [*ALONE, *(case for part in PARTS for case in part())]
