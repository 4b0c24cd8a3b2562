"""How much faster a store is carried in shares that run side by side on this machine, and what a share pays for listing the rest.

Usage: shares.py PROGRAM

The stores are made in memory where that can be. Of each, one run of the whole, and then 2 and 4 runs of a share each, side by side; three times
in turn, and of the times on the clock the least counts. What listing costs is the processor time of a share that has no object of
the store, for each of its objects. From both follows what a cluster would take, on paper. Then what share 1 of 100 costs of a run, by identifiers
and by folders 2 deep, of 50,000 objects with four levels of folders.
"""

import hashlib
import os
import resource
import subprocess
import sys
import tempfile
import time

import bench
from bench import Store

REPEATS = 3
STORES = {"small": Store(20_000, 4, 2_000, 0), "large": Store(16, 4, 16_000_000, 0)}
COUNTS = (1, 2, 4)
WORDS = ["migrate", "--created", "2024-05-01T12:00:00Z", "--name", "Ada"]
OBJECTS, TASKS = 10**8, 64
PART = Store(50_000, 1, 300, 0, True)


def carried(program, source, folder, shares, *words):
    """The time on the clock and that of the processors of runs of these shares side by side, each into a folder of its own."""
    before, begun = resource.getrusage(resource.RUSAGE_CHILDREN), time.monotonic()
    running = []
    for share in shares:
        dest = f"{folder}/{share.replace('/', '-')}"
        os.mkdir(dest)
        running.append(subprocess.Popen([program, *WORDS, "--share", share, *words, source, dest], stdout=subprocess.DEVNULL))
    if any([one.wait() for one in running]):
        sys.exit(f"a run of {', '.join(shares)} failed")
    after = resource.getrusage(resource.RUSAGE_CHILDREN)
    spent = after.ru_utime + after.ru_stime - before.ru_utime - before.ru_stime
    return time.monotonic() - begun, spent


def least(program, source, above, shares, *words):
    """The least of three times, by the clock; and its processor time."""
    times = []
    for _ in range(REPEATS):
        with tempfile.TemporaryDirectory(dir=above) as folder:
            times.append(carried(program, source, folder, shares, *words))
    return min(times)


def empty_share(store):
    """A share of 4,096 that has no object of a store."""
    numbers = range(store.objects)
    taken = {int.from_bytes(hashlib.sha256(f"{number:06d}".encode()).digest()[:4], "big") >> 20 for number in numbers}
    return next(f"{share + 1}/4096" for share in range(4096) if share not in taken)


def measure(program, name, store, above):
    """Prints the figures of one store, and gives the seconds of a processor for an object that is carried, and for one that isn't."""
    source = f"{above}/store"
    bench.make_store(source, store)
    for count in COUNTS:
        wall, spent = least(program, source, above, [f"{number}/{count}" for number in range(1, count + 1)])
        if count == 1:
            alone = wall, spent
        print(
            f"{name}: {count} side by side: {wall:.2f} s, {alone[0] / wall:.2f} times as fast, {spent:.2f} s of processors, {store.objects / wall:.0f} objects/s",
            flush=True,
        )
    listing = least(program, source, above, [empty_share(store)])[1] / store.objects
    subprocess.run(["rm", "-rf", source], check=True)
    return alone[1] / store.objects, listing


def measure_part(program, above):
    """Prints what a share of 100 costs of a run."""
    source = f"{above}/store"
    bench.make_store(source, PART)
    whole = least(program, source, above, ["1/1"])[1]
    for name, words in {"identifiers": (), "folders 2 deep": ("--by-folders", "2")}.items():
        spent = least(program, source, above, ["1/100"], *words)[1]
        print(f"share 1 of 100 by {name}: {spent:.2f} s of a processor, {spent / whole:.1%} of {whole:.2f} s", flush=True)
    subprocess.run(["rm", "-rf", source], check=True)


def main():
    if len(sys.argv) != 2 or not os.access(sys.argv[1], os.X_OK):
        sys.exit(f"{__doc__.split(chr(10))[2]}: PROGRAM is the path of the program")
    program = os.path.abspath(sys.argv[1])
    memory = "/dev/shm" if os.access("/dev/shm", os.W_OK) else None
    with tempfile.TemporaryDirectory(dir=memory) as above:
        found = {name: measure(program, name, store, above) for name, store in STORES.items()}
        measure_part(program, above)
    each, listing = found["small"]
    print(f"an object of small: {each * 1e6:.0f} us where it is carried, {listing * 1e6:.1f} us where another share has it")
    whole, share = OBJECTS * each, OBJECTS * listing + OBJECTS / TASKS * each
    print(f"on paper, 10^8 such objects: {whole / 3600:.1f} hours in one run, {share / 3600:.1f} hours in {TASKS} shares side by side")


if __name__ == "__main__":
    main()
