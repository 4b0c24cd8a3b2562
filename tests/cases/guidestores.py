"""Tests of what the guide does with many stores, and with one in shares: side by side, by Slurm, and joined."""

import os
import re
import subprocess

import sshd
import stores
from alone import Alone, differs
from guide import guide_block, identifiers, migrate, roots, with_program
from stores import DIR, GONE, build, read_tree, store
from tally import Skipped, needs


def many_stores(program, folder):
    """Runs side by side into folders of their own, joined, make the root that runs one after another make in one."""
    several = {"O'Brien": ["aa", "ab", "cc"], "two 2": ["ba", "bb", "cc"], "three": ["ca"], "none": []}
    os.mkdir(f"{folder}/stores")
    for name, names in several.items():
        build(f"{folder}/stores", {name: DIR})
        build(f"{folder}/stores/{name}", identifiers(*names))
        build(f"{folder}/stores/{name}", {f"pairtree_root/{x}/obj/store": name.encode() for x in names})
    environment = with_program(program, folder)
    script = guide_block("Many stores, many machines", "xargs")
    subprocess.run(["bash", "-eu", "-c", script], cwd=folder, env=environment, check=True, timeout=120)
    script = guide_block("Many stores, many machines", "#SBATCH")
    task = {**environment, "SLURM_ARRAY_TASK_ID": "2"}
    os.mkdir(f"{folder}/slurm")
    os.symlink("../stores", f"{folder}/slurm/stores")
    subprocess.run(["bash", "-eu", "-c", script], cwd=f"{folder}/slurm", env=task, check=True, timeout=120)
    one = read_tree(f"{folder}/slurm/out")
    ordered = sorted(several)
    statuses = [migrate(program, folder, f"stores/{name}", "d") for name in ordered]
    faults = differs(statuses=(sorted(statuses), [0, 0, 0, 1]))
    chosen = sorted(several)[1]
    alike = {path: held for path, held in read_tree(f"{folder}/out").items() if path.split("/")[0] == chosen}
    faults += [f"the task of an array: {text}" for text in stores.differences(one, alike)]
    script = guide_block("Many stores, many machines", "join")
    joined = subprocess.run(["bash", "-eu", "-c", script], cwd=folder, env=environment, capture_output=True, timeout=120)
    faults += differs(status=(joined.returncode, 1), taken=(len(joined.stdout.splitlines()), 1))
    place = f"ocfl/{stores.place('cc')}"
    wanted = read_tree(f"{folder}/d")
    found = {path: held for path, held in read_tree(f"{folder}/out/{ordered[0]}").items() if path != "staging"}
    faults += list(stores.differences(found, wanted))
    faults += differs(there=(place in found, True))
    logs = sorted(os.listdir(f"{folder}/logs"))
    return faults + differs(logs=(logs, sorted(f"{name}.log" for name in several)))


def faulty_store(program, folder):
    """The guide's commands for many stores name the one that wasn't carried to its end, and no other; the others are carried."""
    needs("bash")
    os.mkdir(f"{folder}/stores")
    for name in ("a good", "b'ad", "c skipped"):
        build(f"{folder}/stores", {name: DIR})
        build(f"{folder}/stores/{name}", store({"ab/cd/obj/f": b"1", **({"README": b"1"} if "skipped" in name else {})}))
    os.remove(f"{folder}/stores/b'ad/pairtree_version0_1")
    heading, environment, faults = "Many stores, many machines", with_program(program, folder), []
    # The first line and the last: between them the program may say more of the fault.
    wanted = ["pairtree2ocfl: fault 5: not a Pairtree 0.1 store", "stores/b'ad was not carried to its end"]
    runs = [("xargs", {}, (123, wanted))]
    runs += [("#SBATCH", {"SLURM_ARRAY_TASK_ID": str(place)}, (status, told)) for place, status, told in ((1, 0, []), (2, 1, wanted), (3, 0, []))]
    for part, more, ends in runs:
        script = ["bash", "-u", "-c", guide_block(heading, part)]
        done = subprocess.run(script, cwd=folder, env={**environment, **more}, capture_output=True, timeout=120)
        said = done.stderr.decode().splitlines()
        faults += differs(**{f"{part} {more}": ((done.returncode, said[:1] + said[1:][-1:]), ends)})
    for name in ("a good", "c skipped"):
        faults += differs(**{name: (os.path.isdir(f"{folder}/out/{name}/ocfl/{stores.place('abcd')}"), True)})
    return faults


def other_tuples(program, folder):
    """Roots of other tuples aren't joined, and nothing is moved."""
    os.mkdir(f"{folder}/e")
    faults = differs(one=(migrate(program, folder, "s", "d"), 0))
    faults += differs(two=(migrate(program, folder, "s", "e", "--tuples", "2"), 0))
    before = read_tree(folder)
    faults += differs(refused=(roots(folder, "join", "d/ocfl", "e/ocfl"), (2, [])))
    return faults + differs(same=(read_tree(folder) == before, True))


# Stands in for Slurm, and writes down what it is given.
SBATCH = """#!/bin/sh
echo "$@" >> sent
echo 7
"""


def store_in_shares(program, folder):
    """The guide's commands for one store in shares leave what one run leaves, and give the shares' options to each; Slurm is given an array and a join."""
    needs("bash")
    names = [f"{a}{b}" for a in "abcdefgh" for b in "abcdefgh"]
    build(folder, {f"data/store/{path}": held for path, held in identifiers(*names).items()})
    environment = with_program(program, folder)
    build(f"{folder}/bin", {"sbatch": SBATCH.encode()})
    os.chmod(f"{folder}/bin/sbatch", 0o755)
    scripts, faults = [guide_block("One store in shares", part).replace("/data", "data") for part in ("ocfl-shares here 4", "here 64 -- ")], []
    export = re.search("^    export .*", scripts[0], re.MULTILINE)[0]
    # One or the other: what is divided by 4 isn't divided by 64 too.
    scripts[0] = scripts[0].replace("pairtree2ocfl-shares cluster", "OUT=data/3 pairtree2ocfl-shares cluster")
    for number, script in enumerate((scripts[0], f"{export.replace('data/out', 'data/2')}\n{scripts[1]}")):
        done = subprocess.run(["bash", "-eu", "-c", script], cwd=folder, env=environment, capture_output=True, timeout=240)
        faults += differs(**{f"commands {number}": ((done.returncode, done.stdout, done.stderr), (0, b"" if number else b"7\n", b""))})
    with open(f"{folder}/sent", encoding="utf-8") as file:
        array, join = file.read().splitlines()
    faults += differs(array=("--array=1-64 " in array and "64 -- " in array, True), join=("afterok:7 " in join and "join 64" in join, True))
    events = [name for name in os.listdir(f"{folder}/data") if re.fullmatch(r"run\.\d+\.json", name)]
    faults += differs(events=(len(events), 64))
    for out, words in (("out", ()), ("2", ("--gather", "--message", "Moved from the old store"))):
        os.mkdir(f"{folder}/whole {out}")
        command = [program, "migrate", "--created", "2024-05-01T12:00:00Z", "--name", "Ada Lovelace", *words, "data/store", f"whole {out}"]
        subprocess.run(command, cwd=folder, stdout=subprocess.DEVNULL, check=True, timeout=120)
        faults += list(stores.differences(read_tree(f"{folder}/data/{out}/1"), read_tree(f"{folder}/whole {out}")))[:3]
    return faults


def over_hosts(program, folder):
    """By the guide's command GNU parallel carries the shares over hosts, each of which carries some, and what is joined is what one run leaves. Where a
    share ends with a fault the others are carried, none is joined, and `status` names it."""
    needs("bash", "parallel", "sshd", "ssh", "ssh-keygen")
    if b"GNU" not in subprocess.run(["parallel", "--version"], stdin=subprocess.DEVNULL, capture_output=True, timeout=60).stdout:
        raise Skipped("parallel isn't GNU's here")
    build(folder, {f"data/store/{path}": held for path, held in identifiers(*(f"a{it}" for it in "abcdefgh")).items()})
    export = re.search("^    export .*", guide_block("One store in shares", "here 4"), re.MULTILINE)[0]
    command = guide_block("One store in shares", "--sshlogin").replace("64", "6")
    script = f"{export}\n{command}".replace("/data", f"{folder}/data")
    environment, faults = with_program(program, folder), []
    build(folder, {"home": DIR, "data/out/2/ocfl": b"", "data/out": DIR})
    with sshd.Hosts(("node1", "node2"), {"PATH": environment["PATH"], "PARALLEL_HOME": f"{folder}/home"}) as hosts:
        told = {"PATH": f"{hosts.folder}/bin:{environment['PATH']}", "PARALLEL_HOME": f"{folder}/home", "PARALLEL": f"--joblog {folder}/jobs"}
        look = export.replace("/data", f"{folder}/data") + "\npairtree2ocfl-shares status 6"
        for status, share in ((1, "2"), (0, None)):
            done, looked = (
                subprocess.run(["bash", "-u", "-c", it], cwd=folder, env={**environment, **told}, stdin=subprocess.DEVNULL, capture_output=True, timeout=240)
                for it in (script, look)
            )
            failed = re.findall("^stopped, or ended with a fault: (.*)$", looked.stdout.decode(), re.MULTILINE)
            faults += differs(**{f"share {share}": ((done.returncode, looked.returncode, failed), (status, status, [share] if share else []))})
            build(f"{folder}/data/out/2", {"ocfl": GONE} if share else {})
    with open(f"{folder}/jobs", encoding="utf-8") as file:
        faults += differs(hosts=({line.split("\t")[1] for line in file.readlines()[1:]}, {"node1", "node2"}))
    os.mkdir(f"{folder}/whole")
    words = ["--created", "2024-05-01T12:00:00Z", "--name", "Ada Lovelace", "data/store", "whole"]
    subprocess.run([program, "migrate", *words], cwd=folder, stdout=subprocess.DEVNULL, check=True, timeout=120)
    return faults + list(stores.differences(read_tree(f"{folder}/data/out/1"), read_tree(f"{folder}/whole")))[:3]


def audit_in_shares(program, folder):
    """The guide's audit in shares, side by side: the lines are those of one audit, each in one share's log, and the status tells of a fault."""
    needs("bash")
    names = [f"{a}{b}" for a in "abcdefgh" for b in "abcdefgh"]
    build(f"{folder}/s", {f"pairtree_root/{x}/{y}/obj/f": b"1" for x in names for y in names[:20]})
    faults = differs(run=(migrate(program, folder, "s", "d"), 0))
    whole = subprocess.run([program, "audit", "s", "d"], cwd=folder, capture_output=True, timeout=120)
    script = guide_block("After", "audit --share").replace("SOURCE", "s").replace("DEST", "d")
    done = subprocess.run(["bash", "-u", "-c", script], cwd=folder, env=with_program(program, folder), capture_output=True, timeout=120)
    lines = []
    for index in range(1, 5):
        with open(f"{folder}/audit-{index}.log", "rb") as log:
            lines += log.read().splitlines()
    ends = sum(b'"as":"end"' in line for line in lines)
    kept = sorted(line for line in lines if b'"as":"end"' not in line)
    faults += differs(status=((done.returncode, done.stderr), (0, b"")), ends=(ends, 4))
    faults += differs(lines=(kept == sorted(whole.stdout.splitlines()[:-1]), True))
    os.remove(f"{folder}/d/ocfl/0=ocfl_1.1")
    done = subprocess.run(["bash", "-u", "-c", script], cwd=folder, env=with_program(program, folder), capture_output=True, timeout=120)
    faults += differs(damaged=((done.returncode, done.stderr.count(b"fault 8")), (123, 4)))
    named = sorted(line for line in done.stderr.decode().splitlines() if line.startswith("share "))
    return faults + differs(named=(named, [f"share {index} of 4 was not audited to its end" for index in range(1, 5)]))


CASES = [
    Alone("the guide with many stores", many_stores),
    Alone("the guide names the store that faults", faulty_store),
    Alone("roots of other tuples are not joined", other_tuples),
    Alone("the guide's audit in shares", audit_in_shares),
    Alone("the guide's store in shares", store_in_shares),
    Alone("the guide's store in shares, over hosts", over_hosts),
]
