"""Cases of what tools/shares.py doesn't begin, so that nothing is made of what its user can't have meant: two of it at once, another division of a store
that was begun, rehearsals, and a join before its time.
"""

import contextlib
import fcntl
import os
import subprocess
import time

from alone import Alone, differs
from scripted import SCRIPT, by_script, environment, many, wrapper
from sharestatus import END, LINE, carried, found, state_of
from sharing import ran
from stores import DIR, GONE, Link, build, differences, read_tree

# Begins its run once a file stands beside it, and tells before that that it is here.
WAITS = """: > "$0.$K"
while [ ! -e "$0.go" ]; do sleep 0.05; done
exec "$REAL" "$@"
"""


@contextlib.contextmanager
def waiting(program, folder, *words):
    """The script, of which the runs of the first shares, as many as the number behind its first word, have begun and wait, and have not their folders yet.
    At the end they go on, and it must end well."""
    wrapped = wrapper(folder, WAITS)
    told = {**environment(wrapped, folder), "REAL": program, "JOBS": "4"}
    with subprocess.Popen([SCRIPT, *words], env=told, stdout=subprocess.PIPE, stderr=subprocess.PIPE) as script:
        for number in range(1, int(words[1]) + 1):
            while not os.path.exists(f"{wrapped}.{number}") and script.poll() is None:
                time.sleep(0.05)
        try:
            yield
        finally:
            build(folder, {"wrapper.go": b""})
            ended = script.communicate(timeout=200)
    if (script.returncode, ended) != (0, (b"", b"")):
        raise OSError(f"the script ended with {script.returncode}, {ended}")


def unmoved(program, folder, *rows):
    """Each of these words, with what else the script is given, ends with a status, and a text is said; nothing is changed by it."""
    faults = []
    for words, given, ends_with, text in rows:
        before = state_of(folder)
        status, out, said = by_script(program, folder, *words, **given)
        faults += differs(**{" ".join(words): ((status, out, said if text not in said else ""), (ends_with, b"", ""))})
        faults += differs(**{f"changed by {' '.join(words)}": ({path for path, it in state_of(folder).items() if before.get(path) != it}, set())})
    return faults


def two_at_once(program, folder):
    """While the script carries all shares another one that is to do so, or to join them, is refused; what the first does is whole."""
    many(folder, 20)
    ran(program, folder, "whole")
    text = f"another shares.py carries the shares in {folder}/out of it, or joins them"
    with waiting(program, folder, "here", "2"):
        faults = unmoved(program, folder, *((words, {}, 2, text) for words in (("here", "2"), ("join", "2"))))
    faults += differs(told=(found(folder, 2), (0, {"done": "1-2"})))
    return faults + list(differences(read_tree(f"{folder}/out of it/1"), read_tree(f"{folder}/whole")))


def one_share_twice(program, folder):
    """A share whose run was begun, and hasn't its folder yet, isn't begun once more: there is one log of it, by which it is done."""
    many(folder, 20)
    text = f"shares.py: share 1 of 2: another run has {folder}/out of it/1\n"
    with waiting(program, folder, "share", "1", "2"):
        faults = unmoved(program, folder, (("share", "1", "2"), {}, 3, text))
    logs = [name for name in os.listdir(f"{folder}/out of it") if name.endswith(".log")]
    return faults + differs(logs=(logs, ["1.log"]), told=(found(folder, 2), (1, {"done": "1", "not begun": "2"})))


def no_rehearsal(program, folder):
    """A rehearsal leaves no roots, and isn't begun; nor is a division by folders that no store has."""
    rows = [((*words, "--", *more), {}, 2, "--dry-run leaves no roots") for words in (("here", "2"), ("share", "1", "2")) for more in (["--dry-run"], ["-vn"])]
    rows += [(("cluster", "2", "--", "--gather", "-n"), {}, 2, "--dry-run leaves no roots")]
    wrong = (["--by-folders", "0"], ["--by-folders=601"], ["--by-folders", "x"], ["--by-folders"])
    rows += [(("here", "2", "--", "--gather", *more), {}, 2, "D of --by-folders is a number from 1 to 600") for more in wrong]
    return unmoved(program, folder, *rows) + differs(made=(os.path.exists(f"{folder}/out of it"), False))


def join_too_early(program, folder):
    """Roots aren't joined where a log has no end or a run is under way, and those shares are named. What has no log here was carried by other means."""
    carried(folder, K1=END, K2=LINE, K3=LINE + END, K4=END, K5=b"")
    out, text = f"{folder}/out of it", "not ended well: {} of 5; shares.py status 5 tells of each"
    held = os.open(f"{out}/2", os.O_RDONLY)
    fcntl.flock(held, fcntl.LOCK_EX)
    build(out, {"3.try2.log": LINE})
    faults = unmoved(program, folder, (("join", "5"), {}, 2, text.format("2-3, 5")))
    os.close(held)
    build(out, {"3.try2.log": LINE + END, "5.log": GONE})
    faults += unmoved(program, folder, (("join", "5"), {}, 2, text.format("2")))
    build(out, {"2.log": END, "1/ocfl": GONE, "2/ocfl": GONE})
    many(folder, 8)
    for number in (1, 2, 3, 4, 5):
        build(out, {f"{number}/ocfl": GONE} if number > 2 else {})
        ran(program, folder, f"out of it/{number}", "--share", f"{number}/5")
    return faults + differs(joined=(by_script(program, folder, "join", "5"), (0, b"", "")))


def another_division(program, folder):
    """By another number than before, or by other folders, no share is begun and none joined; the same command goes on. A note that was never finished counts
    for nothing, and no link is followed to one."""
    many(folder, 20)
    out, same = f"{folder}/out of it", ("here", "3", "--", "--by-folders", "3")
    faults = differs(first=(by_script(program, folder, "share", "1", "3", "--", "--by-folders=3"), (0, b"", "")))
    faults += differs(noted=(read_tree(out)["shares"], b"3 by folders 3 deep\n"))
    noted, again = f"by {out}/shares the shares are 3 by folders 3 deep, not ", ": give what was given before, or another OUT\n"
    rows = [(("here", "3"), "3 by identifiers"), (("here", "4", "--", "--by-folders", "3"), "4 by folders 3 deep")]
    rows += [(("share", "2", "3", "--", "--by-folders", "2"), "3 by folders 2 deep"), (("cluster", "5"), "5 by identifiers")]
    build(folder, {"bin/sbatch": b"#!/bin/sh\n"})
    os.chmod(f"{folder}/bin/sbatch", 0o755)
    path = {"PATH": f"{folder}/bin:{os.environ['PATH']}"}
    faults += unmoved(program, folder, *((words, path, 2, noted + text + again) for words, text in rows))
    faults += unmoved(program, folder, *(((word, "2"), {}, 2, f"{noted}2\n") for word in ("join", "status")))
    faults += differs(goes_on=(by_script(program, folder, *same), (0, b"", "")))
    for number, held in enumerate((b"", b"3 by fol", b"4 by folders 3 ", b"x\n")):
        build(f"{folder}/torn {number}", {"shares": held})
        faults += differs(**{f"{held!r}": (by_script(program, folder, "share", "1", "3", OUT=f"{folder}/torn {number}")[0], 0)})
        written = held + b"\n" * (held[-1:] not in (b"", b"\n")) + b"3 by identifiers\n"
        faults += differs(**{f"{held!r} then": (read_tree(f"{folder}/torn {number}")["shares"], written)})
    build(folder, {"torn 9/shares": b"4 by identifiers"})
    faults += unmoved(program, folder, (("share", "1", "3"), {"OUT": f"{folder}/torn 9"}, 2, "the shares are 4 by identifiers, not 3 by identifiers"))
    build(folder, {"precious": b"4 by identifiers\n", "linked/shares": Link("../precious"), "other/shares": DIR})
    for name in ("linked", "other"):
        rows = ((("here", "3"), 3), (("join", "3"), 3), (("status", "3"), 2))
        text, given = f"{folder}/{name}/shares is no file, or a link", {"OUT": f"{folder}/{name}"}
        faults += unmoved(program, folder, *((words, given, ends_with, text) for words, ends_with in rows))
    return faults


CASES = [
    Alone("shares by the script, two of it at once", two_at_once),
    Alone("shares by the script, one share begun twice", one_share_twice),
    Alone("shares by the script, rehearsals", no_rehearsal),
    Alone("shares by the script, a join too early", join_too_early),
    Alone("shares by the script, another division", another_division),
]
