"""Tests of the programs that are shipped: they want nothing of the machine but its kernel and its processor, they say and leave what the program
that the gate built does, and they can be linked again."""

import os
import random
import re
import shutil
import struct
import subprocess

import auditing
import carrying
import options
import program as words_alone
import refusing
import scripted
import sharing
import surroundings
import twins
import watching
from alone import Alone, differs
from running import MEANT, timeless
from sharing import random_store
from static import CPUS, FOLDER, TOP, built, static
from stores import DIR, build, differences, read_tree
from tally import Skipped, needs

# How often a random store is carried by each program.
STORES = 40

RUNS = (
    ("migrate", *MEANT, "--dry-run", "--verbose", "s", "d"),
    ("migrate", *MEANT, "--verbose", "s", "d"),
    ("migrate", *MEANT, "--verbose", "s", "d"),
    ("audit", "--verbose", "s", "d"),
    ("migrate", *MEANT, "--gather", "s", "d"),
)


class Over:
    """A case of any program, of one that is shipped."""

    def __init__(self, cpu, case):
        self.cpu, self.case, self.name = cpu, case, f"{case.name}, {cpu}"

    def outcome(self, program):
        return self.case.outcome(static(self.cpu))


def over():
    """The cases of runs, audits, shares and what is around them, of each program that is shipped; none where these aren't built, which CASES tell.
    What takes long and asks nothing more of a program is left to the gate's: progress over many objects, and a cluster, which runs the same script."""
    files = (carrying, refusing, auditing, twins, options, surroundings, sharing)
    cases = [case for file in files for case in file.CASES] + watching.QUICK + scripted.QUICK
    return [Over(cpu, case) for cpu in CPUS for case in cases] if os.path.isdir(FOLDER) else []


def of_each(name, test):
    """A test of each program that is shipped: of the program that the gate built, of this one and of a folder."""
    return [Alone(f"{name}, {cpu}", lambda program, folder, cpu=cpu: test(program, static(cpu), folder)) for cpu in CPUS]


def empty_root(shipped, folder):
    """An empty root with a program in it, and the words that run it there. The case is skipped where that can't be."""
    if os.geteuid() != 0:
        raise Skipped("only root can give a command another root")
    root = f"{folder}/empty"
    os.mkdir(root)
    shutil.copy(shipped, f"{root}/pairtree2ocfl")
    return root, (shutil.which("chroot", path=f"{os.environ['PATH']}:/usr/sbin"), root, "/pairtree2ocfl")


def told(words, folder):
    """The status and both streams of each run over the folders s and d, and what is then in them."""
    found = []
    for run in RUNS:
        done = subprocess.run([*words, *run], cwd=folder, capture_output=True, stdin=subprocess.DEVNULL, timeout=120)
        found.append((done.returncode, done.stdout, timeless(done.stderr)))
    return found, {path: content for path, content in read_tree(folder).items() if path.split("/")[0] in ("s", "d")}


def alike(program, folder, root, words):
    """What a program does otherwise over the store in a root than the gate's over the same in a folder."""
    (said, left), (other, there) = told([program], folder), told(words, root)
    return differs(said=(other, said)) + list(differences(there, left))


def all_words(program, shipped, folder):
    """In an empty root it answers each case of tests/program.py."""
    words = empty_root(shipped, folder)[1]
    return [f"{case.name}: {fault}" for case in words_alone.CASES for fault in case.faults(*words)]


def demo(program, shipped, folder):
    """In an empty root it carries the demonstration's store as the gate's program does."""
    root, words = empty_root(shipped, folder)
    shutil.rmtree(f"{folder}/s")
    shutil.copytree(f"{TOP}/demo/store", f"{folder}/s", symlinks=True)
    build(f"{folder}/s", {"pairtree_root/xt/77": DIR, "pairtree_root/xt/12/t4/letters/drafts": DIR})
    shutil.copytree(f"{folder}/s", f"{root}/s", symlinks=True)
    os.mkdir(f"{root}/d")
    return alike(program, folder, root, words)


def random_stores(program, shipped, folder):
    """It carries random stores as the gate's program does."""
    faults = []
    for seed in range(STORES):
        tree = random_store(random.Random(3000 + seed))
        for of in ("gate", "shipped"):
            build(f"{folder}/{seed}/{of}", {"d": DIR})
            build(f"{folder}/{seed}/{of}/s", tree)
        faults += [f"store {seed}: {fault}" for fault in alike(program, f"{folder}/{seed}/gate", f"{folder}/{seed}/shipped", [shipped])]
    return faults


def headers(path):
    """The kinds of a program's headers, and the texts of its notes."""
    with open(path, "rb") as file:
        whole = file.read()
    at, (size, count) = struct.unpack_from("<Q", whole, 32)[0], struct.unpack_from("<HH", whole, 54)
    found = [struct.unpack_from("<IIQQQQ", whole, at + size * number) for number in range(count)]
    return {kind for kind, *_ in found}, b"".join(whole[start : start + length] for kind, _, start, _, _, length in found if kind == 4)


def alone(program, shipped, folder):
    """It names no loader and no library, and the oldest kernel that it runs on is 3.2."""
    kinds, notes = headers(shipped)
    oldest = struct.pack("<III4s4I", 4, 16, 1, b"GNU\0", 0, 3, 2, 0)
    return differs(loader=(3 in kinds, False), libraries=(2 in kinds, False), kernel=(oldest in notes, True))


def of_the_gate(program, folder):
    """The object file of one of them, linked as the toolchain links a program, is the program that was built, byte for byte."""
    rt = shutil.which(os.environ.get("RT", "rt"))
    if not rt:
        raise Skipped("no toolchain is here")
    kit = os.path.dirname(subprocess.run([rt, "doc"], capture_output=True, check=True, text=True).stdout.strip())
    archives, made = [f"{built()}/{name}" for name in ("libos_c.a", "liblibc_c.a")], []
    for cpu in CPUS:
        command = [f"{kit}/bin/rattle-link", "--target", "x86_64-unknown-linux-gnu", "--toolchain", f"{kit}/toolchain", "-o", f"{folder}/{cpu}"]
        subprocess.run([*command, f"{FOLDER}/{cpu}/pairtree2ocfl.o", *archives], check=True, capture_output=True, timeout=120)
        with open(f"{folder}/{cpu}", "rb") as linked, open(program, "rb") as whole:
            made.append(linked.read() == whole.read())
    return [] if any(made) else ["neither is built of what the program is built of: make programs builds them anew"]


def linked_again(program, folder):
    """By the README's command, in a copy of the folder, the program is linked again, to the byte as it is."""
    shutil.copytree(built(), f"{folder}/lib")
    with open(f"{folder}/lib/README", encoding="utf-8") as file:
        text = file.read()
    (command,) = re.findall(r"^    (cc .*)$", text, re.MULTILINE)
    subprocess.run(["sh", "-c", command], cwd=f"{folder}/lib", check=True, timeout=120)
    with open(f"{folder}/lib/pairtree2ocfl", "rb") as made, open(f"{FOLDER}/x86-64-v2/pairtree2ocfl", "rb") as shipped:
        faults = differs(same=(made.read() == shipped.read(), True))
    library = re.search(r"^    GNU C Library .* version [\d.]+$", text, re.MULTILINE)
    return faults + differs(library=(library is not None, True)) + words_alone_of(f"{folder}/lib/pairtree2ocfl")


def words_alone_of(path):
    """What a program doesn't answer of tests/program.py."""
    return [f"{case.name}: {fault}" for case in words_alone.CASES for fault in case.faults(path)]


def lesser_processors(program, folder):
    """On a processor that lacks what it is built for, it says so and ends with 127."""
    needs("qemu-x86_64")
    faults = []
    for processor, cpu, status in (("Nehalem", "x86-64-v2", 0), ("Nehalem", "x86-64-v3", 127), ("Haswell", "x86-64-v3", 0), ("core2duo", "x86-64-v2", 127)):
        done = subprocess.run(["qemu-x86_64", "-cpu", processor, f"{built()}/{cpu}/pairtree2ocfl", "names", "abc"], capture_output=True, timeout=120)
        wanted = (status, b"ab/c\nba7/816/bf8/abc\n" if status == 0 else b"", status != 0)
        faults += differs(**{f"{cpu} on {processor}": ((done.returncode, done.stdout, f"lacks a feature of {cpu}".encode() in done.stderr), wanted)})
    return faults


CASES = [
    *of_each("nothing but a kernel is wanted", alone),
    *of_each("the words in an empty root", all_words),
    *of_each("the demonstration in an empty root", demo),
    *of_each("random stores beside the gate's program", random_stores),
    Alone("what is shipped is the gate's program", of_the_gate),
    Alone("what is shipped can be linked again", linked_again),
    Alone("processors that lack something", lesser_processors),
]
