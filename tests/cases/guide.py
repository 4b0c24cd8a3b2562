"""Tests of what the guide, and the README's quick start, do with the program: from the beginning, after a power cut, and after a stop."""

import contextlib
import csv
import json
import os
import re
import shlex
import signal
import subprocess
import sys

import stores
from alone import Alone, differs
from running import MEANT, mount_below
from stores import DIR, build, read_tree, store
from tally import needs

TOP = os.path.dirname(os.path.dirname(os.path.dirname(os.path.abspath(__file__))))
ROOTS = [sys.executable, "-B", f"{TOP}/tools/roots.py"]
# The scripts that come with the program, by their names on the PATH.
SCRIPTS = {"pairtree2ocfl-roots": "tools/roots.py", "pairtree2ocfl-shares": "tools/shares.py", "pairtree2ocfl-report": "examples/report.py"}
TRICKY = {"blank ": b"1", "return\r": b"2", "back\\slash": b"3", "line\nfeed": b"4", "a/b/c": b"5", "same": b"5", "empty": b""}


def migrate(program, folder, source, dest, *words):
    """A run, and its status."""
    command = [program, "migrate", *MEANT, *words, source, dest]
    return subprocess.run(command, cwd=folder, stdout=subprocess.DEVNULL, stderr=subprocess.DEVNULL, timeout=120).returncode


def roots(folder, *words):
    """What tools/roots.py answers: its status and its lines."""
    done = subprocess.run([*ROOTS, *words], cwd=folder, capture_output=True, timeout=120)
    return done.returncode, done.stdout.decode().splitlines()


def identifiers(*names):
    """A store with these identifiers of two bytes, whose objects have names of many kinds."""
    return store({f"{name}/obj/{path}": held for name in names for path, held in TRICKY.items()})


DAMAGES = {
    "aa": {"v1/content/a/b/c": stores.GONE},
    "ab": {"v1/content/a/b/c": b""},
    "ac": {"inventory.json": b""},
    "ad": {"v1/inventory.json": b"{}"},
    "ae": {"v1/inventory.json.sha512": b""},
    "af": {"inventory.json.sha512": stores.GONE},
    "ag": {"0=ocfl_object_1.1": b""},
    "ah": {"v1/content/more": b"1"},
    "ai": {"v1/content/none": DIR},
    "aj": {"v1/content/blank ": b"2"},
    "ak": {"v1/content": stores.GONE},
}


# Twins of `bb` and of `a/` of which one spelling, or the other, comes first in a walk; their files are other ones.
TWINS = {"pairtree_root/^6/2b/obj/first": b"1", "pairtree_root/a^/2f/obj/second": b"2"}


def by_guide(program, folder, heading, *parts):
    """What the block of the guide with these texts prints, over the store s and the destination d; what it says on standard error isn't judged."""
    script = guide_block(heading, *parts).replace("SOURCE", "s").replace("DEST", "d")
    done = subprocess.run(["bash", "-u", "-c", script], cwd=folder, env=with_program(program, folder), capture_output=True, timeout=120)
    return done.stdout.decode().splitlines()


def listed(folder):
    """The places that the guide's commands have listed."""
    with open(f"{folder}/damaged.txt", encoding="utf-8") as file:
        return sorted(file.read().splitlines())


def inodes(folder, name):
    """The numbers of an object's files."""
    top = f"{folder}/d/ocfl/{stores.place(name)}"
    return {f"{above}/{file}": os.stat(f"{above}/{file}").st_ino for above, _, files in os.walk(top) for file in files}


def after_power_cut(program, folder):
    """The guide's steps in their order, also where the root's own files are damaged: each damaged object is listed and no other; taken away and
    carried again they are whole. Whole objects stay, though a twin of one differs."""
    needs("jq", "bash")
    subprocess.run(["rm", "-r", f"{folder}/s"], check=True)
    build(f"{folder}/s", {**identifiers(*DAMAGES, "ba", "bb", "a="), **TWINS})
    faults, heading = differs(first=(migrate(program, folder, "s", "d"), 1)), "After a power cut"
    whole, kept = read_tree(f"{folder}/d"), [inodes(folder, name) for name in ("ba", "bb", "a/")]
    faults += differs(nothing=(roots(folder, "damaged", "d/ocfl"), (0, [])))
    for name, damage in DAMAGES.items():
        build(f"{folder}/d/ocfl/{stores.place(name)}", damage)
    bad = b"x\xff\n../y".decode(errors="surrogateescape").replace("/", "_")
    build(f"{folder}/d/ocfl", {f"aaa/bbb/ccc/{bad}": b"", "notes.txt": b"not the program's"})
    build(f"{folder}/d", {"ocfl/ocfl_layout.json": b"", "ocfl/0=ocfl_1.1": stores.GONE, "staging/left": b""})
    wanted = sorted(stores.place(name) for name in DAMAGES)
    by_guide(program, folder, heading, "rm -rf DEST/staging")
    faults += differs(refused=(listed(folder), []), staging=(os.path.exists(f"{folder}/d/staging"), False))
    by_guide(program, folder, heading, "fresh/store")
    faults += differs(listed=(listed(folder), wanted), status=(roots(folder, "damaged", "d/ocfl")[0], 2))
    by_guide(program, folder, heading, "while")
    build(f"{folder}/d/ocfl", {"aaa": stores.GONE, "notes.txt": stores.GONE})
    faults += differs(again=(migrate(program, folder, "s", "d"), 1), whole=(roots(folder, "damaged", "d/ocfl"), (0, [])))
    faults += differs(nothing=(by_guide(program, folder, heading, "damaged DEST/ocfl\n"), []))
    faults += differs(kept=([inodes(folder, name) for name in ("ba", "bb", "a/")], kept))
    told = by_guide(program, folder, heading, "audit SOURCE DEST")
    bb, slash = stores.place("bb"), stores.place("a/")
    lines = [f"{slash}\ta^/2f/obj\tv1/content/second\ttwin", f"{bb}\tbb/obj\tv1/content/a\tmissing", *sorted([bb, slash])]
    faults += differs(twins=(sorted(told), sorted(lines)))
    return faults + [f"after the mending: {fault}" for fault in stores.differences(read_tree(f"{folder}/d"), whole)]


def damaged_root(program, folder):
    """A root whose own files are damaged is told, and nothing is listed; by the guide's commands it has them again."""
    faults = differs(first=(migrate(program, folder, "s", "d"), 0))
    whole = read_tree(f"{folder}/d")
    config = f"extensions/{stores.LAYOUT_NAME}/config.json"
    for bad in ({"0=ocfl_1.1": b""}, {"ocfl_layout.json": stores.GONE}, {config: b""}, {"extensions": stores.GONE, "0=ocfl_1.1": b"x"}):
        build(f"{folder}/d/ocfl", bad)
        faults += differs(**{f"{sorted(bad)}": (roots(folder, "damaged", "d/ocfl"), (2, []))})
        faults += differs(run=(migrate(program, folder, "s", "d"), 3))
        faults += differs(said=(by_guide(program, folder, "After a power cut", "fresh/store"), []), list=(listed(folder), []))
        faults += list(stores.differences(read_tree(f"{folder}/d"), whole))
        subprocess.run(["rm", "-r", f"{folder}/fresh"], check=True)
    return faults + differs(nothing=(roots(folder, "damaged", "d/ocfl"), (0, [])))


def guide_text():
    """The guide."""
    with open(f"{TOP}/docs/GUIDE.md", encoding="utf-8") as file:
        return file.read()


def guide_block(heading, *parts):
    """The block of commands of the guide below a heading that has these texts."""
    below = guide_text().split(f"## {heading}\n", 1)[1].split("\n## ", 1)[0]
    blocks = re.findall(r"(?:^    .*\n?)+", below, re.MULTILINE)
    return next(block for block in blocks if all(part in block for part in parts))


def table(program, folder):
    """The guide's table of the log has a line for each of the log's, with the same values, below one that names its columns; an audit's too."""
    needs("jq", "bash")
    build(f"{folder}/s/pairtree_root", {**STORE, 'q"/,x/obj/f': b"1", "^0/a,/obj/f": b"1"})
    with open(f"{folder}/run-1.log", "wb") as log:
        subprocess.run([program, "migrate", *MEANT, "s", "d"], cwd=folder, stdout=log, timeout=120)
    faults = []
    for words in (None, ("audit", "s", "d")):
        if words:
            build(f"{folder}/d/ocfl/{stores.place('abce')}", {"v1/content/f": b"2"})
            with open(f"{folder}/run-1.log", "wb") as log:
                subprocess.run([program, *words], cwd=folder, stdout=log, timeout=120)
        by_guide(program, folder, "Reading the log", "@csv")
        with open(f"{folder}/run-1.log", encoding="utf-8") as log, open(f"{folder}/run-1.csv", encoding="utf-8", newline="") as made:
            *entries, _ = map(json.loads, log)
            found = [{name: value for name, value in row.items() if value} for row in csv.DictReader(made)]
        wanted = [{name: str(value) for name, value in entry.items() if value != ""} for entry in entries]
        faults += differs(lines=(len(found) > 5, True), table=(found, wanted))
    return faults


def sums(program, folder):
    """The guide's sums of a log hold a line at a time: a log of 60,000 lines takes no more memory than a short one."""
    needs("jq", "bash")
    block = guide_block("Reading the log", "bytes")
    with open(f"{folder}/run-1.log", "w", encoding="utf-8") as log:
        log.write(log_line("ab/obj", "ab") * 60000 + '{"as":"end","done":60000,"present":0,"skip":0}\n')
    done = subprocess.run(["bash", "-c", f"ulimit -v 40000; {block}"], cwd=folder, capture_output=True, timeout=300)
    found = done.stdout.decode()
    return differs(sums=(found and json.loads(found), {"files": 60000, "bytes": 60000}), said=(done.stderr, b""))


def quoted(program, folder):
    """The guide's commands that look into a folder of the log take a path with blanks, `$` and `*` as it is."""
    at = "$x/* /b"
    build(f"{folder}/s/pairtree_root", {f"{at}/one/f": b"1", f"{at}/two/l": stores.Link("f"), "b/other": b"1"})
    faults = []
    for part, wanted in (("-maxdepth 1", ["one", "two"]), ("! -type f", ["two/l"])):
        block = next(block for block in guide_blocks() if part in block and "/AT" in block)
        script = block.replace("SOURCE", "s").replace("/AT", f"/{at}")
        done = subprocess.run(["bash", "-u", "-c", script], cwd=folder, capture_output=True, timeout=60)
        lines = sorted(done.stdout.decode().splitlines())
        faults += differs(**{part: ((lines, done.stderr), ([f"s/pairtree_root/{at}/{name}" for name in wanted], b""))})
    return faults


def many_names(program, folder):
    """The guide's list of names gives the pairpath and the place of each identifier, and by it what the root doesn't have."""
    needs("bash")
    names = {"xt12t3": "xt/12/t3", "a b": "a^/20/b", "back\\slash": "ba/ck/^5/cs/la/sh", "blank ": "bl/an/k^/20", "ä": "^c/3^/a4"}
    build(f"{folder}/s/pairtree_root", {f"{names[name]}/obj/f": b"1" for name in ("xt12t3", "blank ")})
    faults = differs(run=(migrate(program, folder, "s", "d"), 0))
    with open(f"{folder}/identifiers.txt", "w", encoding="utf-8") as listed_names:
        listed_names.write("".join(f"{name}\n" for name in names))
    by_guide(program, folder, "Before", "names -")
    with open(f"{folder}/places.txt", encoding="utf-8") as file:
        found = [line.split("\t") for line in file.read().splitlines()]
    faults += differs(places=(found, [[path, stores.place(name)] for name, path in names.items()]))
    lacking = [stores.place(name) for name in ("a b", "back\\slash", "ä")]
    return faults + differs(lacking=(by_guide(program, folder, "After", "places.txt"), lacking))


def undone(program, folder):
    """By the guide's commands one run of two is taken back, and then all of it, so that the migration begins anew with other tuples."""
    needs("jq", "bash")
    build(f"{folder}/s/pairtree_root", {"ab/cd/obj/f": b"1", "^4/1b/obj/f": b"2", "xy/obj/f": b"3"})
    faults = differs(first=(migrate(program, folder, "s", "d", "--only", "ab"), 0))
    first = read_tree(f"{folder}/d")
    with open(f"{folder}/run-2.log", "wb") as log:
        subprocess.run([program, "migrate", *MEANT, "s", "d"], cwd=folder, stdout=log, timeout=120)
    faults += differs(grown=(read_tree(f"{folder}/d") != first, True))
    build(f"{folder}/d", {"staging/left": b""})
    by_guide(program, folder, "Undoing a migration", "run-2.log")
    faults += list(stores.differences(read_tree(f"{folder}/d"), first))
    build(f"{folder}/d", {"staging/left": b""})
    by_guide(program, folder, "Undoing a migration", "DEST/staging DEST/ocfl")
    faults += differs(empty=(os.listdir(f"{folder}/d"), []))
    return faults + differs(anew=(migrate(program, folder, "s", "d", "--tuples", "1"), 0))


def unseen_event(program, folder):
    """The guide warns of a FILE of --event in a mount of a folder inside the store, which isn't seen: so it is, while one in that folder itself is refused."""
    build(folder, {"m": DIR})
    event, inside = f"{folder}/m/event.json", f"{folder}/s/pairtree_root/ab/event.json"
    faults = differs(refused=(migrate(program, folder, "s", "d", "--event", inside), 2), none=(os.path.exists(inside), False))
    with contextlib.ExitStack() as last:
        mount_below(folder, ("--bind", f"{folder}/s/pairtree_root/ab", "m"), last)
        status = migrate(program, folder, "s", "d", "--event", event)
    warned = "a mount of a folder inside the store" in " ".join(guide_text().split())
    return faults + differs(ended=(status in (0, 1), True), made=(os.path.exists(inside), True), warned=(warned, True))


def with_program(program, folder):
    """An environment in which the guide's commands find the program and its scripts."""
    if not os.path.isdir(f"{folder}/bin"):
        os.mkdir(f"{folder}/bin")
        os.symlink(program, f"{folder}/bin/pairtree2ocfl")
        for name, path in SCRIPTS.items():
            os.symlink(f"{TOP}/{path}", f"{folder}/bin/{name}")
    return {**os.environ, "PATH": f"{folder}/bin:{os.environ['PATH']}", "created": "2024-05-01T12:00:00Z"}


def log_line(at, identifier):
    """A line of the log of an object with one file of one byte."""
    return stores.text_of(stores.done(at, identifier, {"f": b"1"})).decode()


STORE = {
    "README": b"1",
    "^5/Cx/obj/f": b"1",
    "^5/cx/obj/f": b"1",
    "ab/ce/obj/f": b"1",
    "ab/ce/obj/e": DIR,
    "ot/he/obj/link": stores.Link("f"),
    "sp/li/.DS_Store": b"1",
    "sp/li/obj/f": b"1",
}
SKIPS = ["other\tot/he", "root\t", "split\tsp/li"]
TWIN = "ark:/\\x"
CHECKED = [
    '{"as":"root","path":"pairtree_root"}',
    '{"as":"spelling","path":"pairtree_root/^5/Cx"}',
    '{"as":"other","path":"pairtree_root/ot/he/obj/link"}',
    '{"as":"split","path":"pairtree_root/sp/li"}',
    '{"as":"desktop","path":"pairtree_root/sp/li/.DS_Store"}',
    '{"as":"end","bytes":6,"bytes_of_01":6,"desktop":1,"files":6,"files_of_01":6,"folders":15,"largest":1,"longest":29,"objects":4,"objects_at_02":4,'
    '"other":1,"renamed":4,"root":1,"sites":10,"sites_at_00":1,"sites_at_01":4,"sites_at_02":5,"spelling":1,"split":1,"told":5}',
]

# Of each block of the guide that the walk runs: a text in it, what `AT` is there, and the lines that it prints, sorted; None for any.
WALK = [
    ("check --read", None, CHECKED),
    ("od -c", None, sorted(["0000000   a   r   k   :   /  \\n", "0000006"])),
    ("created=", None, []),
    ("--dry-run", None, ['{"as":"skip","at":"","cause":"root"}']),
    ("run-1.log\n    echo", None, ["1"]),
    ("tail -n 1", None, ['{"as":"end","done":2,"present":1,"skip":3}']),
    ("uniq -c", None, sorted([f"      1 {it.split(chr(9))[0]}" for it in SKIPS] + SKIPS)),
    ("jq -n 'reduce", None, sorted([f"{TWIN}\t^5/cx/obj".replace("\\", "\\\\"), "1\tab/ce/obj", "{", '  "files": 2,', '  "bytes": 2', "}"])),
    ("run-2.log", None, []),
    ("SOURCE/pairtree_root -mindepth 1", None, ["s/pairtree_root/README"]),
    ("-maxdepth 1", "sp/li", ["s/pairtree_root/sp/li/.DS_Store", "s/pairtree_root/sp/li/obj"]),
    ("names --prefix", None, None),
    ("! -type f", "ot/he", ["s/pairtree_root/ot/he/obj/link"]),
    ("-mindepth 5", None, ["2"]),
    ("audit SOURCE DEST > audit.log", None, []),
    ("-empty -delete", None, []),
    ("DEST/ocfl -type d -empty", None, []),
]


def walk(program, folder):
    """The guide from its beginning: each block of commands over a store with skips and twins, and what it prints."""
    needs("jq", "od", "awk", "bash")
    subprocess.run(["rm", "-r", f"{folder}/s", f"{folder}/d"], check=True)
    build(f"{folder}/s", store(STORE, b"ark:/\n"))
    environment, faults, seen = with_program(program, folder), [], []
    for block in guide_blocks():
        found = [step for step in WALK if step[0] in block and step not in seen]
        if not found:
            if not any(part in block for part in ELSEWHERE):
                faults.append(f"no test runs {block.strip()[:60]}")
            continue
        part, at, wanted = found[0]
        seen.append(found[0])
        script = block.replace("SOURCE", "s").replace("DEST", "d").replace("/AT", f"/{at}")
        done = subprocess.run(["bash", "-u", "-c", script], cwd=folder, env=environment, capture_output=True, timeout=120)
        lines = sorted(done.stdout.decode().splitlines())
        if wanted is not None and lines != sorted(wanted):
            faults.append(f"{part} prints {lines}, not {sorted(wanted)}")
        faults += differs(**{f"{part} says": (SUMMARY.sub(b"", done.stderr), b"")})
    return faults + [f"{part} isn't in the guide" for part, *_ in WALK if not any(part == step[0] for step in seen)]


# What a run whose block has `--verbose` says at its end.
SUMMARY = re.compile(rb"^pairtree2ocfl: \d+ done, \d+ present, \d+ skipped.*\n", re.MULTILINE)

# The blocks that other cases run.
ELSEWHERE = (
    "ocfl-report run-1.log", "names - ", "places.txt", "DEST/staging DEST/ocfl", "run-2.log | while", "ocfl-shares here", "ocfl-shares status", "--sshlogin",
    "--share K/N", "-mindepth",
    "damaged.txt", "damaged DEST/ocfl", "audit-2.log", "@csv", "xargs", "#SBATCH", "join out", "rm -r DEST/staging", "md5sum", "ocfl-roots sums", "comm -3",
    "kill -STOP", "ocfl-roots set-aside", "rclone copy", "rclone mount",
)


def guide_blocks():
    """The blocks of commands of the guide; a block that begins with the program's name and a colon shows what it says."""
    blocks = re.findall(r"(?:^    .*\n?)+", guide_text(), re.MULTILINE)
    return [block for block in blocks if not block.startswith("    pairtree2ocfl: ")]


def stopped(program, folder):
    """After a run that was stopped by hand the guide's steps leave what one unbroken run leaves."""
    names = [f"{a}{b}" for a in "abcdefgh" for b in "abcdefgh"]
    build(f"{folder}/s", {f"pairtree_root/{x}/{y}/obj/{'f' * 100}": b"1" for x in names for y in names[:20]})
    os.mkdir(f"{folder}/e")
    environment, faults = with_program(program, folder), differs(whole=(migrate(program, folder, "s", "e"), 0))
    script = guide_block("Stopping it", "run-2.log").replace("SOURCE", "s").replace("DEST", "d")
    script = script.replace("'Ada Lovelace'", "Ada")
    for number in (signal.SIGINT, signal.SIGTERM):
        subprocess.run(["rm", "-rf", f"{folder}/d"], check=True)
        os.mkdir(f"{folder}/d")
        command = ["env", "--default-signal=INT", program, "migrate", *MEANT, "s", "d"]
        with subprocess.Popen(command, cwd=folder, stdout=subprocess.PIPE, stderr=subprocess.PIPE) as first:
            first.stdout.readline()
            first.send_signal(number)
            first.communicate(timeout=120)
        faults += differs(ended=(first.returncode, -number))
        again = subprocess.run(["bash", "-u", "-c", script], cwd=folder, env=environment, timeout=120).returncode
        faults += differs(again=(again, 1))
        faults += list(stores.differences(read_tree(f"{folder}/d"), read_tree(f"{folder}/e")))[:3]
    return faults


def commands(program, folder):
    """Each command line of the guide is one that the shell can read, and names options that there are."""
    helped = subprocess.run([program, "migrate", "--help"], capture_output=True, check=True).stdout.decode()
    faults = []
    for block in guide_blocks():
        done = subprocess.run(["bash", "-n", "-c", block], capture_output=True, cwd=folder)
        faults += differs(**{block.strip()[:40]: (done.returncode, 0)})
        for command in re.findall(r"pairtree2ocfl migrate (.*?)(?:>|$)", block.replace("\\\n", " ")):
            faults += [f"{word} isn't in help" for word in shlex.split(command) if word.startswith("--") and word not in helped]
    return faults


def quick_start(program, folder):
    """The README's quick start, typed as it stands at the top of the repository, prints what stands there."""
    with open(f"{TOP}/README.md", encoding="utf-8") as file:
        block = re.search(r"(?:^    .*\n)+", file.read().split("## Quick start\n", 1)[1], re.MULTILINE)[0]
    subprocess.run(["cp", "-R", f"{TOP}/demo", folder], check=True)
    environment, faults = with_program(program, folder), []
    for part in re.split(r"^    \$ ", block, flags=re.MULTILINE)[1:]:
        command, *wanted = part.rstrip("\n").split("\n")
        done = subprocess.run(["bash", "-u", "-c", command], cwd=folder, env=environment, capture_output=True, timeout=120)
        faults += differs(**{command: ((done.stdout.decode().splitlines(), done.stderr), ([line.strip() for line in wanted], b""))})
    return faults + differs(shown=(block.count('{"as"') > 2, True))


def own_logs(program, folder):
    """Each run of the guide, of the README and of the man page has a log of its own: none writes over another's, or behind it."""
    faults = []
    for path in ("docs/GUIDE.md", "README.md", "man/pairtree2ocfl.1.in"):
        with open(f"{TOP}/{path}", encoding="utf-8") as file:
            text = file.read().replace("\\-", "-").replace("\\\n", " ")
        written = re.findall(r"pairtree2ocfl (?:migrate|audit) [^>\n]*>+ *\"?([\w./$-]+)", text)
        faults += [f"{path}: {name} is written twice" for name in set(written) if "$" not in name and written.count(name) > 1]
        faults += [f"{path}: {name} is the same for all" for name in written if "$" in name and "$name" not in name]
        faults += [] if written else [f"{path} has no run with a log"]
    return faults


CASES = [
    Alone("the README's quick start", quick_start),
    Alone("a log of its own for each run", own_logs),
    Alone("the guide after a power cut", after_power_cut),
    Alone("the guide at a root that is damaged itself", damaged_root),
    Alone("the guide's sums of a long log", sums),
    Alone("the guide's paths of a log are quoted", quoted),
    Alone("the guide's list of names", many_names),
    Alone("the guide undoes a migration", undone),
    Alone("the guide warns of an event in a mount", unseen_event),
    Alone("the guide from its beginning", walk),
    Alone("the guide's table of the log", table),
    Alone("the guide after a stop by hand", stopped),
    Alone("the guide's commands", commands),
]
