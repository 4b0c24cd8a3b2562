"""Cases of random stores over which the program is held against the same migration in plain Rust, bench/peer.rs, byte for byte."""

import atexit
import functools
import os
import random
import shutil
import subprocess
import tempfile

from alone import Alone, differs, run
from sharing import random_store
from stores import build, differences, read_tree
from tally import needs

SOURCE = f"{os.path.dirname(os.path.dirname(os.path.dirname(os.path.abspath(__file__))))}/bench/peer.rs"


@functools.cache
def built():
    """The peer, built once, before the cases' processes begin, and what is wrong where it can't be; None where there is no `rustc`."""
    if not shutil.which("rustc"):
        return None, []
    folder = tempfile.mkdtemp(prefix="p")
    atexit.register(shutil.rmtree, folder)
    done = subprocess.run(["rustc", "--edition", "2021", "-O", "-o", f"{folder}/peer", SOURCE], capture_output=True, timeout=300)
    return f"{folder}/peer", [f"bench/peer.rs isn't built: {done.stderr.decode()[:200]!r}"] * bool(done.returncode)


def alike(seed):
    """Over a random store, twice, the peer's log and its root are the program's."""

    def test(program, folder):
        needs("rustc")
        peer, unbuilt = built()
        if unbuilt:
            return unbuilt
        shutil.rmtree(f"{folder}/s")
        chance = random.Random(1000 + seed)
        build(f"{folder}/s", random_store(chance, links=False))
        os.mkdir(f"{folder}/e")
        faults = []
        for number in (1, 2):
            made = subprocess.run([peer, "s", "e"], cwd=folder, capture_output=True, timeout=120, check=True)
            faults += differs(**{f"log {number}": (run(program, folder).stdout, made.stdout)})
        return faults + list(differences(read_tree(f"{folder}/d"), read_tree(f"{folder}/e")))

    return Alone(f"a random store, beside plain Rust, {seed}", test)


CASES = [alike(seed) for seed in range(60)]
