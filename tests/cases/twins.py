"""Cases of twins: folders of a store with other names than their identifier's own, which an audit tells apart from damage."""

import os
import shutil
import subprocess

from alone import Alone, differs
from auditing import audit, found_of, fresh, log_of, migrate
from running import as_nobody, timeless
from stores import DIR, Link, place, read_tree, store

# Stores in which folders have other names than their identifier's own: what lies below pairtree_root, and the options; of each object its
# folder, its identifier and what its file `f` holds; what is skipped; and the folders of twins.
SPELLINGS = {
    "second": ({"a=/obj/f": b"1", "a^/2f/obj/f": b"2"}, (), {"a=/obj": ("a/", b"1"), "a^/2f/obj": ("a/", b"2")}, [], {"a^/2f/obj"}),
    "first": ({"^6/2b/obj/f": b"1", "bb/obj/f": b"2"}, (), {"^6/2b/obj": ("bb", b"1"), "bb/obj": ("bb", b"2")}, [], {"^6/2b/obj"}),
    "equal": ({"a=/obj/f": b"1", "a^/2f/obj/f": b"1"}, (), {"a=/obj": ("a/", b"1"), "a^/2f/obj": ("a/", b"1")}, [], {"a^/2f/obj"}),
    "three": (
        {"a=/obj/f": b"1", "a^/2F/obj/f": b"2", "a^/2f/obj/f": b"3"},
        (),
        {"a=/obj": ("a/", b"1"), "a^/2F/obj": ("a/", b"2"), "a^/2f/obj": ("a/", b"3")},
        [],
        {"a^/2F/obj", "a^/2f/obj"},
    ),
    "of a last name": ({"ab/^6/3/obj/f": b"1", "ab/c/obj/f": b"2"}, (), {"ab/^6/3/obj": ("abc", b"1"), "ab/c/obj": ("abc", b"2")}, [], {"ab/^6/3/obj"}),
    "of further names": (
        {"a=/cd/ef/obj/f": b"1", "a^/2f/cd/ef/obj/f": b"2"},
        (),
        {"a=/cd/ef/obj": ("a/cdef", b"1"), "a^/2f/cd/ef/obj": ("a/cdef", b"2")},
        [],
        {"a^/2f/cd/ef/obj"},
    ),
    "of an object that is skipped": ({"a=/obj/f": Link("none"), "a^/2f/obj/f": b"2"}, (), {"a^/2f/obj": ("a/", b"2")}, [("a=", "other")], {"a^/2f/obj"}),
    "gathered": ({"a=/f": b"1", "a^/2f/f": b"2"}, ("--gather",), {"a=": ("a/", b"1"), "a^/2f": ("a/", b"2")}, [], {"a^/2f"}),
    "of a gathered one": ({"a=/f": b"1", "a^/2f/obj/f": b"2"}, ("--gather",), {"a=": ("a/", b"1"), "a^/2f/obj": ("a/", b"2")}, [], {"a^/2f/obj"}),
    "beside what is ignored": (
        {"a=/obj/f": b"1", "a=/.DS_Store": b"", "a^/2f/obj/f": b"2"},
        ("--ignore", ".DS_Store"),
        {"a=/obj": ("a/", b"1"), "a^/2f/obj": ("a/", b"2")},
        [],
        {"a^/2f/obj"},
    ),
    "alone": ({"a^/2f/obj/f": b"2"}, (), {"a^/2f/obj": ("a/", b"2")}, [], set()),
    "two, neither its own": ({"a^/2F/obj/f": b"1", "a^/2f/obj/f": b"2"}, (), {"a^/2F/obj": ("a/", b"1"), "a^/2f/obj": ("a/", b"2")}, [], set()),
    "a folder that leads on": ({"a=/cd/obj/f": b"1", "a^/2f/obj/f": b"2"}, (), {"a=/cd/obj": ("a/cd", b"1"), "a^/2f/obj": ("a/", b"2")}, [], set()),
    "an empty folder": ({"a=": DIR, "a^/2f/obj/f": b"2"}, (), {"a^/2f/obj": ("a/", b"2")}, [("a=", "empty")], set()),
    "a divided folder": ({"a=/f": b"1", "a^/2f/obj/f": b"2"}, (), {"a^/2f/obj": ("a/", b"2")}, [("a=", "split")], set()),
    "a file": ({"a=": b"1", "a^/2f/obj/f": b"2"}, (), {"a^/2f/obj": ("a/", b"2")}, [("", "root")], set()),
    "a link": ({"a=": Link("a^"), "a^/2f/obj/f": b"2"}, (), {"a^/2f/obj": ("a/", b"2")}, [("", "root")], set()),
    "a part of the way": (
        {"a=/cd/eg/obj/f": b"1", "a^/2f/cd/ef/obj/f": b"2"},
        (),
        {"a=/cd/eg/obj": ("a/cdeg", b"1"), "a^/2f/cd/ef/obj": ("a/cdef", b"2")},
        [],
        set(),
    ),
    "an ignored folder": ({"a=/obj/f": b"1", "a^/2f/obj/f": b"2"}, ("--ignore", "a="), {"a^/2f/obj": ("a/", b"2")}, [], set()),
}


def spelled(program, folder):
    """What differs in a folder whose names aren't its identifier's own is told as a twin where an object stands in the own ones, and in no
    other case: with the store as it was carried, and after each content was damaged; in a store with a prefix too."""
    faults = []
    for name, (below_root, words, objects, skips, twins) in SPELLINGS.items():
        for prefix in ("", "ark:/"):
            fresh(folder, store(below_root, prefix.encode() or None))
            migrate(program, folder, *words)
            for damage in (b"", b"damaged"):
                for identifier, _ in objects.values() if damage else ():
                    put_behind(f"{folder}/d/ocfl/{place(prefix + identifier)}/v1/content/f", damage)
                dest = {path[2:]: content for path, content in read_tree(folder).items() if path.startswith("d/")}
                entries = [found_of(dest, at, prefix + identifier, {"f": content}) for at, (identifier, content) in objects.items()]
                for entry in entries:
                    entry.update({"why": "twin"} if entry["as"] == "differs" and entry["at"] in twins else {})
                entries += [{"as": "skip", "at": at, "cause": cause} for at, cause in skips]
                entries.sort(key=lambda entry: entry["at"])
                status = 0 if all(entry["as"] == "same" for entry in entries) else 1
                faults += differs(**{f"{name}, {prefix}, {damage}": (audit(program, folder, *words), (status, log_of(entries), b""))})
    return faults


def put_behind(path, more):
    """More bytes at the end of a file."""
    with open(path, "ab") as file:
        file.write(more)


def summed(program, folder):
    """The summary counts twins by their word, and they are differences for the status, also with --skips-ok."""
    fresh(folder, store({"a=/obj/f": b"1", "a^/2f/obj/f": b"2", "ab/obj/f": b"3", "ab/c": DIR}))
    migrate(program, folder)
    put_behind(f"{folder}/d/ocfl/{place('ab')}/v1/content/f", b"damaged")
    said = b"pairtree2ocfl: 1 same, 0 absent, 2 different (bytes 1, twin 1), 1 skipped (empty 1), 1 file, 1 byte\n"
    status, _, err = audit(program, folder, "--verbose", "--skips-ok")
    return differs(summary=((status, timeless(err)), (1, said)))


def unreadable(program, folder):
    """Where the own folder of a twin can't be read, that is fault 1 with its path, and no line is put of the twin; root, who can read all, asks
    as another user."""
    fresh(folder, store({"^6/2b/obj/f": b"1", "bb/obj/f": b"2"}))
    migrate(program, folder)
    shutil.copy(program, f"{folder}/program")
    subprocess.run(["chmod", "-R", "a+rX", folder], check=True)
    own = f"{folder}/s/pairtree_root/bb"
    os.chmod(own, 0)
    command = [*(() if os.geteuid() else as_nobody()), f"{folder}/program", "audit", "--verbose", f"{folder}/s", f"{folder}/d"]
    fault, faults = b"pairtree2ocfl: fault 1: cannot read the source\n", []
    for damage, told in ((b"", 1), (b"damaged", 0)):
        put_behind(f"{folder}/d/ocfl/{place('bb')}/v1/content/f", damage)
        done = subprocess.run(command, capture_output=True, timeout=120, check=False)
        why = f"pairtree2ocfl: {own}: Permission denied (os error 13)\n".encode()
        faults += differs(**{f"{damage}": ((done.returncode, done.stdout.count(b"\n"), done.stderr), (3, told, fault + why))})
    os.chmod(own, 0o755)
    return faults


CASES = [
    Alone("audit: twins", spelled),
    Alone("audit: twins in the summary", summed),
    Alone("audit: a twin whose own folder can't be read", unreadable),
]
