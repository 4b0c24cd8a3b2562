"""Tests of what the guide does with the root, and with a store that lives on: lists of checksums, the root elsewhere, a run that stands still, and what is
set aside."""

import fcntl
import json
import os
import re
import select
import shutil
import subprocess
import time

import stores
from alone import Alone, differs
from guide import guide_block, migrate, with_program
from stores import GONE, build, place, read_tree, store
from tally import Skipped, needs

# The call of fcntl by which a pipe is made smaller, which Python names since 3.10.
PIPE_SIZE = 1031
FILES = {"a.txt": b"1", "b/c d": b"2", "back\\slash": b"3", "line\nfeed": b"4", "same": b"1"}


def typed(program, folder, script, **more):
    """What a shell says of a block of the guide, over the store s and the destination d: its status, and the lines that it prints, sorted."""
    script = script.replace("SOURCE", "s").replace("DEST", "d")
    done = subprocess.run(["bash", "-u", "-c", script], cwd=folder, env={**with_program(program, folder), **more}, capture_output=True, timeout=120)
    return done.returncode, sorted(done.stdout.decode().splitlines())


def objects(folder, *names):
    """A store of these identifiers of two letters, each with several files."""
    subprocess.run(["rm", "-rf", f"{folder}/s"], check=True)
    build(f"{folder}/s", store({f"{name}/obj/{path}": held for name in names for path, held in FILES.items()}))


def logged(program, folder, log, *words):
    """What a command puts to its log, which is written there."""
    done = subprocess.run([program, *words], cwd=folder, stdout=subprocess.PIPE, stderr=subprocess.DEVNULL, timeout=120)
    with open(f"{folder}/{log}", "wb") as file:
        file.write(done.stdout)
    return [json.loads(line) for line in done.stdout.splitlines()]


def summed(folder, algorithm, top):
    """The list that a program of the system makes of the files below one of a folder's own."""
    paths = sorted(path for path, held in read_tree(folder).items() if isinstance(held, bytes) and path.startswith(top))
    return subprocess.run([f"{algorithm}sum", "--", *paths], cwd=folder, capture_output=True, check=True, timeout=60).stdout


def archives_list(program, folder):
    """By the guide's command the store is held against the archive's own list; a file that reads as something else is named, which a check doesn't tell."""
    needs("bash")
    objects(folder, "aa", "bb")
    build(folder, {"store.md5": summed(f"{folder}/s", "md5", "pairtree_root/")})
    block = guide_block("Before", "md5sum")
    faults = differs(right=(typed(program, folder, block), (0, [])))
    build(f"{folder}/s", {"pairtree_root/bb/obj/a.txt": b"x", "pairtree_root/aa/obj/same": GONE})
    wrong = ["pairtree_root/aa/obj/same: FAILED open or read", "pairtree_root/bb/obj/a.txt: FAILED"]
    checked = [entry["as"] for entry in logged(program, folder, "check.log", "check", "--read", "s")]
    return faults + differs(wrong=(typed(program, folder, block), (1, wrong)), check=(checked, ["end"]))


def lists(program, folder):
    """The guide's lists of a root and of the store are right, after two runs, and name what was changed; the archive's own list shows what wasn't carried."""
    needs("bash")
    objects(folder, "aa", "bb", "cc")
    build(f"{folder}/s/pairtree_root", {"cc/more": b"5"})
    archive = summed(f"{folder}/s", "sha512", "pairtree_root/")
    build(folder, {"archive.sha512": archive})
    for log, words in (("run-1.log", ("--only", "aa")), ("run-2.log", ())):
        logged(program, folder, log, "migrate", "--created", "2024-05-01T12:00:00Z", "--name", "Ada", *words, "s", "d")
    block = guide_block("After", "ocfl-roots sums")
    faults = differs(right=(typed(program, folder, block), (0, [])))
    with open(f"{folder}/root.sha512", "rb") as file:
        contents = [line for line in summed(f"{folder}/d/ocfl", "sha512", "").splitlines() if b"/v1/content/" in line]
        faults += differs(root=(sorted(file.read().splitlines()), sorted(contents)))
    left = [line.decode() for line in archive.splitlines() if b"pairtree_root/cc/" in line]
    faults += differs(left=(typed(program, folder, guide_block("After", "comm -3")), (0, sorted(left))))
    build(folder, {"s/pairtree_root/aa/obj/a.txt": b"x", f"d/ocfl/{place('bb')}/v1/content/a.txt": b"y"})
    wrong = [f"{place('bb')}/v1/content/a.txt: FAILED", "pairtree_root/aa/obj/a.txt: FAILED"]
    return faults + differs(wrong=(typed(program, folder, block), (1, wrong)))


def elsewhere(program, folder):
    """By the guide's commands the root is brought to another place, and a byte that is another there is found, which nothing else of the file tells."""
    needs("bash", "rclone")
    objects(folder, "aa", "bb")
    os.mkdir(f"{folder}/site")
    faults = differs(run=(migrate(program, folder, "s", "d"), 0))
    site = {"RCLONE_CONFIG": f"{folder}/none", "RCLONE_CONFIG_SITE_TYPE": "alias", "RCLONE_CONFIG_SITE_REMOTE": f"{folder}/site"}
    block = guide_block("The root elsewhere", "rclone copy")
    faults += differs(copied=(typed(program, folder, block, **site), (0, [])))
    faults += list(stores.differences(read_tree(f"{folder}/site/ocfl"), read_tree(f"{folder}/d/ocfl")))
    path = f"{folder}/site/ocfl/{place('bb')}/v1/content/a.txt"
    stood = os.stat(path)
    build(f"{folder}/site/ocfl", {f"{place('bb')}/v1/content/a.txt": b"x"})
    os.utime(path, ns=(stood.st_atime_ns, stood.st_mtime_ns))
    check = re.search("^    rclone check .*", block, re.MULTILINE)[0]
    return faults + differs(found=(typed(program, folder, check, **site)[0], 1))


def mounted(program, folder):
    """By the guide's commands the list of a root is held against another place over a mount."""
    needs("bash", "rclone", "fusermount3")
    if not os.access("/dev/fuse", os.R_OK | os.W_OK):
        raise Skipped("nothing can be mounted by FUSE")
    objects(folder, "aa", "bb")
    build(f"{folder}/s/pairtree_root", {f"{name}/obj/line\nfeed": GONE for name in ("aa", "bb")})
    os.mkdir(f"{folder}/site")
    faults = differs(run=(migrate(program, folder, "s", "d"), 0))
    site = {"RCLONE_CONFIG": f"{folder}/none", "RCLONE_CONFIG_SITE_TYPE": "alias", "RCLONE_CONFIG_SITE_REMOTE": f"{folder}/site", "HOME": folder}
    faults += differs(listed=(typed(program, folder, "pairtree2ocfl-roots sums DEST/ocfl > root.sha512"), (0, [])))
    shutil.copytree(f"{folder}/d/ocfl", f"{folder}/site/ocfl")
    begin, *rest = guide_block("The root elsewhere", "rclone mount").splitlines()
    for content, wanted in ((None, []), (b"x", [f"{place('aa')}/v1/content/a.txt: FAILED"])):
        if content:
            build(f"{folder}/site/ocfl", {f"{place('aa')}/v1/content/a.txt": content})
            os.rmdir(f"{folder}/mnt")
        if typed(program, folder, begin, **site)[0]:
            raise Skipped("rclone can't mount here")
        try:
            faults += differs(**{f"{content}": (typed(program, folder, rest[0], **site), (len(wanted), wanted))})
        finally:
            faults += differs(unmounted=(typed(program, folder, rest[1], **site), (0, [])))
    return faults


def state_of(process):
    """What the system says a process does."""
    with open(f"/proc/{process}/stat", encoding="ascii", errors="replace") as file:
        return file.read().rpartition(") ")[2][0]


def narrow_pipe(path):
    """A pipe at a path, open for reading, that holds one page, so that who writes to it waits before long."""
    os.mkfifo(path)
    log = os.open(path, os.O_RDONLY | os.O_NONBLOCK)
    fcntl.fcntl(log, PIPE_SIZE, 4096)
    return log


def still(program, folder):
    """What isn't as it must be while the run stands still: it does nothing, and keeps the lock."""
    with open(f"{folder}/run.pid", encoding="ascii") as file:
        process = int(file.read())
    ends = time.monotonic() + 60
    while state_of(process) != "T" and time.monotonic() < ends:
        time.sleep(0.01)
    before = read_tree(f"{folder}/d")
    others = [migrate(program, folder, "s", "d"), subprocess.run([program, "audit", "s", "d"], cwd=folder, capture_output=True, timeout=60).returncode]
    return differs(state=(state_of(process), "T"), others=(others, [3, 3]), still=(read_tree(f"{folder}/d") == before, True))


def stands_still(program, folder):
    """A run that the guide's commands let stand still does nothing and keeps the lock; it goes on and leaves what an unbroken run leaves, and killed as it
    stands it does too, by the guide's steps."""
    needs("bash", "nice", "ionice")
    letters = "abcdef"
    build(f"{folder}/s", {f"pairtree_root/{a}{b}/{c}{d}/obj/f": b"1" for a in letters for b in letters for c in letters for d in "gh"})
    os.mkdir(f"{folder}/e")
    faults = differs(whole=(migrate(program, folder, "s", "e"), 0))
    begin, stop, go_on = guide_block("Stopping it", "kill -STOP").splitlines()
    for is_killed in (False, True):
        subprocess.run(["rm", "-rf", f"{folder}/d", f"{folder}/run-night.log"], check=True)
        os.mkdir(f"{folder}/d")
        log = narrow_pipe(f"{folder}/run-night.log")
        script = f"{begin.replace('Ada Lovelace', 'Ada')}\nwait $!".replace("SOURCE", "s").replace("DEST", "d")
        how = {"cwd": folder, "env": with_program(program, folder), "stderr": subprocess.DEVNULL}
        with subprocess.Popen(["bash", "-u", "-c", script], **how) as shell, open(log, "rb") as file:
            select.select([log], [], [], 60)
            os.set_blocking(log, True)
            faults += differs(stop=(typed(program, folder, stop), (0, []))) + still(program, folder)
            typed(program, folder, 'kill -KILL "$(cat run.pid)"' if is_killed else go_on)
            file.read()
        faults += differs(status=(shell.returncode, 137 if is_killed else 0))
        if is_killed:
            typed(program, folder, guide_block("Stopping it", "run-2.log").replace("Ada Lovelace", "Ada"))
        faults += list(stores.differences(read_tree(f"{folder}/d"), read_tree(f"{folder}/e")))[:3]
    return faults


def lives_on(program, folder):
    """By the guide's commands a root follows a store that lives on: what was changed is carried anew, twins stay, and at the end an audit finds all the
    same but for them and what the store has lost."""
    needs("bash")
    objects(folder, "aa", "bb", "cc", "dd")
    build(f"{folder}/s/pairtree_root", {"^6/5e/obj/f": b"1", "ee/obj/f": b"2"})
    begun = logged(program, folder, "run-1.log", "migrate", "--created", "2024-05-01T12:00:00Z", "--name", "Ada", "s", "d")
    old = {it: stores.read_tree(f"{folder}/d/ocfl/{place(it)}") for it in ("aa", "bb")}
    build(f"{folder}/s/pairtree_root", {"aa/obj/a.txt": b"new", "bb/obj/more": b"new", "ff/obj/f": b"new", "dd": GONE})
    status, printed = typed(program, folder, guide_block("A store that lives on", "set-aside"))
    with open(f"{folder}/anew-1.txt", encoding="utf-8") as file:
        listed = file.read().splitlines()
    faults = differs(begun=(begun[-1], {"as": "end", "done": 5, "present": 1, "skip": 0}), status=(status, 0), printed=(printed, []))
    faults += differs(listed=(listed, sorted(("aa", "bb"), key=place)))
    faults += [f"{name}: {text}" for name in old for text in stores.differences(read_tree(f"{folder}/d/aside-1/{place(name)}"), old[name])]
    faults += differs(new=(migrate(program, folder, "s", "d"), 1))
    ended = logged(program, folder, "audit.log", "audit", "--extra", "s", "d")
    told = sorted((entry["as"], entry.get("id"), entry.get("why")) for entry in ended[:-1])
    same = [("same", name, None) for name in ("aa", "bb", "cc", "ee", "ff")]
    return faults + differs(audit=(told, sorted([("differs", "ee", "bytes"), ("extra", "dd", None), *same], key=str)))


CASES = [
    Alone("the guide's check by the archive's own list", archives_list),
    Alone("the guide's lists of checksums", lists),
    Alone("the guide's root elsewhere", elsewhere),
    Alone("the guide's root over a mount", mounted),
    Alone("the guide's run that stands still", stands_still),
    Alone("the guide's store that lives on", lives_on),
]
