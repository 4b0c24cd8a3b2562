"""Ends `roots.py set-aside` at many moments, each time just before or just after one of its calls of the system, and gives the same command again.

Usage: kills_of_aside.py ROOTS FOLDER COUNT. FOLDER/before holds the root ocfl, the folder away and the audit's log. After each end every object has
to stand whole in one of the two, each that differs at its place, and the list may have only such as are away. After the command that follows, the
two and the list have to be what one undisturbed command leaves. What isn't so is printed; the last line is the number of moments.
"""

import os
import shutil
import sys

sys.dont_write_bytecode = True

import kills
import stores

WORDS = ["set-aside", "ocfl", "away", "audit.log"]


def objects(tree, top):
    """Each object's files below a folder of a tree, by its place."""
    found = {}
    for path, held in tree.items():
        place, name = "/".join(path.split("/")[1:5]), "/".join(path.split("/")[5:])
        if path.split("/")[0] == top and isinstance(held, bytes) and name:
            found.setdefault(place, {})[name] = held
    return found


def faults_of(before, now, listed):
    """What isn't as it must be where the command was ended."""
    there, away = objects(now, "ocfl"), objects(now, "away")
    for place, files in {**objects(before, "ocfl"), **objects(before, "away")}.items():
        if [it[place] for it in (there, away) if place in it] != [files]:
            yield f"{place} isn't whole, or stands twice"
    *whole, _ = listed.split(b"\n")
    yield from (f"{name} is listed, and isn't away" for name in whole if stores.place(name.decode()) not in away)


def main():
    module, folder, count = kills.loaded(sys.argv[1]), sys.argv[2], int(sys.argv[3])
    before, output = stores.read_tree(f"{folder}/before"), f"{folder}/list"
    shutil.copytree(f"{folder}/before", f"{folder}/whole", symlinks=True)
    status, calls = kills.ran(module, f"{folder}/whole", 0, WORDS, output)
    wanted, listed = stores.read_tree(f"{folder}/whole"), stores.bytes_of(output)
    if status != 0 or listed.count(b"\n") < 3 or len(objects(wanted, "away")) < 3:
        print(f"undisturbed it ends with {status}")
    for number in range(count):
        last = 1 + number * calls // count
        shutil.copytree(f"{folder}/before", f"{folder}/now", symlinks=True)
        ended = kills.ran(module, f"{folder}/now", last, WORDS, output)[0]
        for fault in faults_of(before, stores.read_tree(f"{folder}/now"), stores.bytes_of(output)):
            print(f"at {last} of {calls}: {fault}")
        again = kills.ran(module, f"{folder}/now", 0, WORDS, output)[0]
        found = stores.read_tree(f"{folder}/now")
        if (ended, again, stores.bytes_of(output)) != ("killed", status, listed) or found != wanted:
            print(f"at {last} of {calls}: ended {ended}; then {again}: {list(stores.differences(found, wanted))[:3]}")
        shutil.rmtree(f"{folder}/now")
    print(min(count, calls))


if __name__ == "__main__":
    main()
