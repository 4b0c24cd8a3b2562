"""Holds a run of `migrate` against the plainest work on the same bytes, `sha512sum` over the source and `cp -r` of it, and, where
there is a `rustc`, against the same migration in plain Rust (peer.rs), whose log has to be the same.

Usage: bench.py [--instructions] [--million] PROGRAM [STORE..], with stores of the table below; all of them where none is named.

What counts is processor time, of the user and of the system together, as the system counts it for a command and those it started:
it says less of other work on the machine than time on a clock does. Each command is run seven times, the commands of a store in
turn; its figure is the median, and beside it stand the least and the most. A run reads each file twice, digests it twice and writes
it once, so its due is sha512sum twice and cp -r once. Objects and megabytes a second are those of a second of processor time.
Then the root that a run made is held against its store by `audit`, and by `audit --extra`, as often.

--instructions  counts also the instructions of one run each of the program and its peer, by callgrind of valgrind, over the small
                stores. It would count each byte that `rep stosb` fills as one, so the C library is told to fill without it.
--million       has also the stores `myriad` and `million`, one object of ten thousand and of a million small files, thrice each, and
                says how much longer a file takes among a million. They lie in memory where that has room for MILLION_BYTES, else
                in TMPDIR, where the file system's own costs for so many files are measured with them.

The peer's digests are those of the crate sha2 where cargo finds it without a network (Debian: librust-sha2-dev); else they are its
own, slower on large files, and that is said.
"""

import argparse
import os
import random
import shutil
import statistics
import subprocess
import sys
import tempfile
from collections import namedtuple

REPEATS = 7
MIGRATE = ["migrate", "--created", "2024-05-01T12:00:00Z", "--name", "Ada"]
HERE = os.path.dirname(os.path.abspath(__file__))
PEER = os.path.join(HERE, "peer.rs")
DEBIAN = "/usr/share/cargo/registry"

# Objects, files in each, bytes in each file on average, folders above each file within its object; and whether their names are spread over
# all shorties of two letters or digits, and not counted from 0.
Store = namedtuple("Store", "objects files size depth spread", defaults=[False])
STORES = {
    "small": Store(2000, 4, 2_000, 0),
    "single": Store(6000, 1, 300, 0),
    "spread": Store(20_000, 1, 300, 0, True),
    "large": Store(4, 4, 16_000_000, 0),
    "wide": Store(1, 10_000, 200, 0),
    "deep": Store(20, 20, 2_000, 300),
}
MILLION = {"myriad": Store(1, 10_000, 64, 0), "million": Store(1, 1_000_000, 64, 0)}
MILLION_REPEATS = 3
# What a million small files and their copies take in memory, with what a run holds of them.
MILLION_BYTES = 14 << 30
# More files than this in one object lie in folders of as many.
IN_A_FOLDER = 10_000

# The C library fills and copies without `rep stosb` and `rep movsb` below these lengths.
WITHOUT_REP = "glibc.cpu.x86_rep_stosb_threshold=1099511627776:glibc.cpu.x86_rep_movsb_threshold=1099511627776"

MANIFEST = """[package]
name = "peer"
version = "0.0.0"
edition = "2021"
[[bin]]
name = "peer"
path = "peer.rs"
[features]
default = ["sha2"]
[dependencies]
sha2 = { version = "0.10", optional = true }
"""


def folder_of(store, at, file):
    """The folder of a file of an object at a folder."""
    for level in range(store.depth):
        at += f"/f{level % 10}"
    if store.files > IN_A_FOLDER:
        at += f"/{file // IN_A_FOLDER:04d}"
    return at


def name_of(store, number):
    """The identifier of an object: six digits, or eight letters and digits of which all come first, with 1,296 shorties below the root."""
    if not store.spread:
        return f"{number:06d}"
    rest, name = number * 2_654_435_761 % 36**8, ""
    for _ in range(8):
        rest, digit = divmod(rest, 36)
        name += "0123456789abcdefghijklmnopqrstuvwxyz"[digit]
    return name


def make_store(folder, store):
    """Makes a store with noise in its files, and gives how many bytes it holds."""
    noise = random.Random(1)
    os.makedirs(f"{folder}/pairtree_root")
    with open(f"{folder}/pairtree_version0_1", "w", encoding="ascii") as version:
        version.write("This directory conforms to Pairtree Version 0.1.\n")
    held = 0
    for number in range(store.objects):
        name = name_of(store, number)
        at = "/".join([f"{folder}/pairtree_root", *(name[place : place + 2] for place in range(0, len(name), 2)), "object"])
        for file in range(store.files):
            place = folder_of(store, at, file)
            if file % IN_A_FOLDER == 0:
                os.makedirs(place)
            content = noise.randbytes(noise.randrange(store.size // 2, store.size * 3 // 2))
            with open(f"{place}/{file:06d}.bin", "wb") as made:
                made.write(content)
            held += len(content)
    return held


def emptied(dest):
    shutil.rmtree(dest, ignore_errors=True)
    os.mkdir(dest)


def processor_time(command, output):
    """The processor seconds of a command and of those it started, its output in a file."""
    with open(output, "wb") as out:
        child = subprocess.Popen(command, stdout=out)
        _, status, used = os.wait4(child.pid, 0)
    child.returncode = os.waitstatus_to_exitcode(status)
    if child.returncode:
        sys.exit(f"status {child.returncode}: {' '.join(command)}")
    return used.ru_utime + used.ru_stime


def measure_times(commands, dest, repeats, output):
    """The processor times of each command over an empty destination, in turn, and the last output of each."""
    times, outputs = {name: [] for name in commands}, {}
    for _ in range(repeats):
        for name, command in commands.items():
            emptied(dest)
            times[name].append(processor_time(command, output))
            with open(output, "rb") as said:
                outputs[name] = said.read()
    return times, outputs


def audit_times(program, source, dest, repeats, output):
    """The processor times of audits of the root that a run makes of a source, without `--extra` and with it, in turn."""
    emptied(dest)
    processor_time([program, *MIGRATE, source, dest], output)
    commands = {"audit": [program, "audit", source, dest], "extra": [program, "audit", "--extra", source, dest]}
    times = {name: [] for name in commands}
    for _ in range(repeats):
        for name, command in commands.items():
            times[name].append(processor_time(command, output))
    return times


def instructions(command, dest, folder):
    """How many instructions a run takes, by callgrind."""
    emptied(dest)
    counted = f"{folder}/callgrind.out"
    words = ["valgrind", "--tool=callgrind", f"--callgrind-out-file={counted}", *command]
    env = {**os.environ, "GLIBC_TUNABLES": WITHOUT_REP}
    subprocess.run(words, env=env, stdout=subprocess.DEVNULL, stderr=subprocess.DEVNULL, check=True)
    with open(counted, encoding="utf-8", errors="replace") as lines:
        return next(int(line.split()[1]) for line in lines if line.startswith(("summary:", "totals:")))


def build_with_crate(folder):
    """The migration in plain Rust with the crate sha2, from where cargo finds it without a network; None where it doesn't."""
    if not shutil.which("cargo"):
        return None
    shutil.copy(PEER, folder)
    with open(f"{folder}/Cargo.toml", "w", encoding="ascii") as manifest:
        manifest.write(MANIFEST)
    from_debian = ["--config", 'source.crates-io.replace-with="debian"', "--config", f'source.debian.directory="{DEBIAN}"']
    for source in ([], from_debian):
        build = ["cargo", "build", "--quiet", "--release", "--offline", *source]
        if subprocess.run(build, cwd=folder, stderr=subprocess.DEVNULL, check=False).returncode == 0:
            return f"{folder}/target/release/peer"
    return None


def build_peer(folder):
    """The migration in plain Rust, built in a folder; None where there is no `rustc`."""
    if not shutil.which("rustc"):
        print("no rustc is here, so the program isn't held against bench/peer.rs", flush=True)
        return None
    peer = build_with_crate(folder)
    if peer:
        print("the peer's digests are those of the crate sha2", flush=True)
        return peer
    print("cargo finds no crate sha2 here: the peer's digests are its own code, slower on large files", flush=True)
    subprocess.run(["rustc", "--edition", "2021", "-O", "-o", f"{folder}/peer", PEER], check=True)
    return f"{folder}/peer"


def commands_of(program, peer, source, dest):
    """What is measured over a store, each by its name."""
    commands = {
        "migrate": [program, *MIGRATE, source, dest],
        "sha512sum": ["sh", "-c", 'find "$1" -type f -print0 | xargs -0 sha512sum', "sh", source],
        "cp -r": ["cp", "-r", source, f"{dest}/copy"],
    }
    if peer:
        commands["plain Rust"] = [peer, source, dest]
    return commands


def check_outputs(name, store, outputs):
    """The last line of the log must count every object as carried, and the peer's log be the same."""
    if not outputs["migrate"].endswith(b'{"as":"end","done":%d,"present":0,"skip":0}\n' % store.objects):
        sys.exit(f"{name}: not every object was carried")
    if outputs.get("plain Rust", outputs["migrate"]) != outputs["migrate"]:
        sys.exit(f"{name}: the log of the migration in plain Rust is another one")


def tell(name, store, held, times):
    """Prints the figures of one store."""
    middle = {command: statistics.median(taken) for command, taken in times.items()}
    print(f"{name}: {store.objects} objects, {store.files} files in each, {held} bytes")
    for command, taken in times.items():
        print(f"    {command:10} {middle[command]:8.3f} s ({min(taken):.3f} to {max(taken):.3f})")
    own = middle["migrate"]
    due = 2 * middle["sha512sum"] + middle["cp -r"]
    against = [f"{own / middle[other]:.2f} times {other}" for other in times if other not in ("migrate", "audit", "extra")]
    print(f"    {store.objects / own:.0f} objects, {store.objects * store.files / own:.0f} files, {held / own / 1e6:.1f} MB a second")
    audits = f"audit {middle['audit'] / own:.2f} times migrate, with --extra {middle['extra'] / middle['audit']:.2f} times that"
    print(f"    migrate takes {', '.join(against)}, {own / due:.2f} times its due; {audits}", flush=True)


def measure(program, peer, name, folder, counts):
    """Measures one store in a folder, prints its figures, and gives the seconds of each command for a file of it; counts says whether
    instructions are wanted."""
    store = {**STORES, **MILLION}[name]
    source, dest = f"{folder}/store", f"{folder}/dest"
    held = make_store(source, store)
    commands = commands_of(program, peer, source, dest)
    repeats = MILLION_REPEATS if name in MILLION else REPEATS
    times, outputs = measure_times(commands, dest, repeats, f"{folder}/output")
    check_outputs(name, store, outputs)
    times |= audit_times(program, source, dest, repeats, f"{folder}/output")
    tell(name, store, held, times)
    if counts and held < 1e8 and name not in MILLION:
        for command in ("migrate", "plain Rust"):
            if command in commands:
                print(f"    {command:10} {instructions(commands[command], dest, folder) / 1e9:8.3f} thousand million instructions", flush=True)
    files = store.objects * store.files
    return {command: statistics.median(taken) / files for command, taken in times.items()}


def tell_growth(each):
    """Prints how much longer a file takes in an object of a million files than in one of ten thousand."""
    for command, seconds in each["million"].items():
        few = each["myriad"][command]
        print(f"{command:10} {few * 1e6:6.1f} microseconds a file of ten thousand, {seconds * 1e6:6.1f} of a million: {seconds / few:.2f} times")


def memory_with(room):
    """The folder in memory, where it has room for so many bytes; else None."""
    if not os.access("/dev/shm", os.W_OK):
        return None
    with open("/proc/meminfo", encoding="ascii") as lines:
        free = next(int(line.split()[1]) * 1024 for line in lines if line.startswith("MemAvailable:"))
    return "/dev/shm" if min(free, shutil.disk_usage("/dev/shm").free) >= room else None


def main():
    parser = argparse.ArgumentParser(description="Holds the program against sha512sum, cp and plain Rust over made stores.")
    parser.add_argument("program")
    parser.add_argument("stores", nargs="*", metavar="STORE", help=f"of {', '.join([*STORES, *MILLION])}")
    parser.add_argument("--instructions", action="store_true", help="count instructions too, where valgrind is")
    parser.add_argument("--million", action="store_true", help="measure one object of a million files too")
    given = parser.parse_args()
    names = given.stores or list(STORES)
    names += [name for name in MILLION if given.million and name not in names]
    counts = given.instructions and bool(shutil.which("valgrind"))
    if given.instructions and not counts:
        print("no valgrind is here, so no instructions are counted", flush=True)
    each = {}
    with tempfile.TemporaryDirectory() as built:
        peer = build_peer(built)
        for name in names:
            memory = memory_with(MILLION_BYTES if name in MILLION else 0)
            with tempfile.TemporaryDirectory(dir=memory) as folder:
                each[name] = measure(os.path.abspath(given.program), peer, name, folder, counts)
    if all(name in each for name in MILLION):
        tell_growth(each)


if __name__ == "__main__":
    main()
