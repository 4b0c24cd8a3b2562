"""Cases of `migrate`: what it refuses, the faults that end a run, and runs after them."""

from running import MEANT, Case, Run, ends, fault, refused, refused_by_parser
from stores import ABC, DIR, FIFO, GONE, LAYOUT_NAME, ONE, ONE_DONE, ONE_PRESENT, ONE_ROOT, Link
from stores import done, front_of, object_files, root, staged, store, stored, with_folders


def sources():
    """What the source must be before anything is done."""
    for name, source in {
        "an empty folder": {},
        "no version file": {"pairtree_root/ab/c/obj/a.txt": b"abc"},
        "no pairtree_root": {"pairtree_version0_1": b""},
        "a version directory": {"pairtree_version0_1": DIR, "pairtree_root": DIR},
        "a link to a version file": {"version": b"", "pairtree_version0_1": Link("version"), "pairtree_root": DIR},
        "a file pairtree_root": {"pairtree_version0_1": b"", "pairtree_root": b""},
        "a link to pairtree_root": {"pairtree_version0_1": b"", "tree": DIR, "pairtree_root": Link("tree")},
        "a version file of another version": {"pairtree_version0_2": b"", "pairtree_root": DIR},
    }.items():
        yield Case(f"not a store: {name}", source, fault(5, {}))
    for name, prefix in {
        "1025 bytes": b"p" * 1025,
        "1024 bytes and a line feed": b"p" * 1024 + b"\n",
        "a million bytes": b"\n" * 1_000_000,
        "no UTF-8": b"\xff",
        "a directory": DIR,
        "a link": Link("pairtree_version0_1"),
        "a pipe": FIFO,
    }.items():
        yield Case(f"no prefix: {name}", store({}, prefix), fault(6, {}))


def starts():
    """What the destination must be before anything is done, and which of the two is asked first."""
    left = {"staging": b"", "ocfl": b""}
    unversioned = {"pairtree_root": DIR, "pairtree_prefix": b"p" * 1025}
    yield Case(
        "the order of the faults at the start",
        unversioned,
        fault(5, left),
        fault(6, left, grow={"pairtree_version0_1": b""}),
        fault(7, left, grow={"pairtree_prefix": GONE}),
        fault(8, {"ocfl": b""}, plant={"staging": GONE}),
        ends([], root(), plant={"ocfl": GONE}),
        dest=left,
    )
    kinds = {"a directory": DIR, "a file": b"", "a link to nothing": Link("nothing"), "a pipe": FIFO}
    for name, staging in kinds.items():
        dest = {"staging": staging, "beside": b"1"}
        yield Case(f"a left staging: {name}", ONE, fault(7, dest), dest=dest)
    dest = {"beside/x": b"1", "ocfl/notes": b"2", "ocfl/extensions/0001-other/config.json": b"3", "ocfl/ba7/816": DIR}
    kept = {**ONE_ROOT, **dest}
    yield Case("other entries of the destination stay", ONE, ends([ONE_DONE], kept), dest={**root(), **dest})
    yield Case("only other entries in the root", ONE, fault(8, dest), dest=dest)


def unusable_roots():
    """Roots that are not this program's to the byte."""
    files = root()
    for path in files:
        for name, content in {
            "one byte more": files[path] + b"\n",
            "one byte less": files[path][:-1],
            "another byte": files[path][:-1] + b"?",
            "nothing in it": b"",
            "a directory in its stead": DIR,
            "a link in its stead": Link("/etc/hostname"),
        }.items():
            dest = {**files, path: content}
            yield Case(f"{path.split('/')[-1]} with {name}", ONE, fault(8, dest), dest=dest)
        dest = {other: content for other, content in files.items() if other != path}
        yield Case(f"{path.split('/')[-1]} missing", ONE, fault(8, dest), dest=dest)
    away = {path.replace("ocfl/", "away/", 1): content for path, content in files.items()}
    kinds = {"a file": {"ocfl": b""}, "a link": {**away, "ocfl": Link("away")}, "empty": {"ocfl": DIR}}
    for name, dest in kinds.items():
        yield Case(f"an ocfl that is {name}", ONE, fault(8, dest), dest=dest)
    for folder in ("extensions", f"extensions/{LAYOUT_NAME}"):
        place = f"ocfl/{folder}"
        kept = {path: content for path, content in files.items() if not path.startswith(f"{place}/")}
        moved = {path.replace(f"{place}/", "away/", 1): content for path, content in files.items() if path.startswith(f"{place}/")}
        up = "/".join([".."] * (place.count("/")))
        dest = {**kept, **moved, place: Link(f"{up}/away")}
        yield Case(f"a link to a folder in the stead of {folder}", ONE, fault(8, dest), dest=dest)


def taken_places():
    """Entries that stand where an object, or a tuple above it, must come."""
    object_staged = staged(object_files("abc", ABC))
    for name, taken in {
        "a file for the first tuple": {"ocfl/ba7": b"1"},
        "a link for the second tuple": {"ocfl/ba7/816": Link("..")},
        "a file for the third tuple": {"ocfl/ba7/816/bf8": b""},
    }.items():
        dest = {**root(), **taken}
        left = {**dest, **object_staged}
        yield Case(f"taken: {name}", ONE, fault(8, left), fault(7, left), dest=dest)
    second = store({"ab/c/obj/a.txt": b"abc", "ab/d/obj/a.txt": b"abc"})
    dest = {**root(), "ocfl/a52": b"1"}
    left = {**dest, **ONE_ROOT, **staged(object_files("abd", ABC))}
    yield Case("taken: a tuple of the second object", second, fault(8, left, ONE_DONE), dest=dest)
    for name, content in {"a file": b"1", "an empty directory": DIR, "a link to nothing": Link("nothing")}.items():
        dest = {**root(), "ocfl/ba7/816/bf8/abc": content}
        yield Case(f"{name} at the object's place", ONE, ends([ONE_PRESENT], dest), dest=dest)
    words = ["--digest", "sha256"]
    dest = root(stored("abc", ABC), stored("abd", ABC, algorithm="sha256"))
    grown = {"pairtree_root/ab/d/obj/a.txt": b"abc"}
    later = ends([ONE_PRESENT, done("ab/d/obj", "abd", ABC)], dest, words=words, grow=grown)
    yield Case("a later run carries what is new, in another digest", ONE, ends([ONE_DONE], ONE_ROOT), later)
    changed = {"pairtree_root/ab/c/obj/a.txt": b"abd"}
    again = ends([ONE_PRESENT], ONE_ROOT, grow=changed)
    yield Case("a present object isn't changed", ONE, ends([ONE_DONE], ONE_ROOT), again)


def folders():
    """Folders that aren't there, or can't be read or written."""
    none, no_folder = "No such file or directory (os error 2)", "Not a directory (os error 20)"
    yield Case("a source that isn't there", {}, fault(1, {}, source="absent", top=("absent/", none)))
    yield Case("a source that is a file", {"file": b""}, fault(1, {}, source="s/file", top=("s/file/", no_folder)))
    yield Case("a source that is a pipe", {"pipe": FIFO}, fault(1, {}, source="s/pipe", top=("s/pipe/", no_folder)))
    yield Case("an empty word for the source", ONE, fault(1, {}, source="", relative=True, top=("", "the path is empty")))
    yield Case("a destination that isn't there", ONE, fault(2, {}, dest_name="absent", top=("absent/staging", none)))
    for name, kind in {"file": b"1", "pipe": FIFO}.items():
        run = fault(2, {name: kind}, dest_name=f"d/{name}", top=(f"d/{name}/staging", no_folder))
        yield Case(f"a destination that is a {name}", ONE, run, dest={name: kind})
    yield Case("an empty word for the destination", ONE, fault(2, {}, dest_name="", relative=True, top=("", "the path is empty")))
    yield Case("no store, and no destination", {}, fault(5, {}, dest_name="absent"))
    bad = b"\xff".decode(errors="surrogateescape")
    reason = "a name in it is not UTF-8"
    yield Case("a name that isn't UTF-8 beside the pairtree", {**ONE, bad: b""}, ends([ONE_DONE], ONE_ROOT))
    yield Case("a name that isn't UTF-8 where no store is", {bad: b""}, fault(1, {}, top=("s/", reason)))
    below = {**ONE, f"pairtree_root/{bad}/x": b""}
    yield Case("a name that isn't UTF-8 in the root", below, fault(1, root(), top=("s/pairtree_root", reason)))
    two = {**ONE, "pairtree_root/ab/d/obj/a.txt": b"abc", f"pairtree_root/ab/d/obj/{bad}": b"1"}
    dest = root(stored("abc", ABC), stored("abd", ABC))
    gone = {f"pairtree_root/ab/d/obj/{bad}": GONE}
    carried = ends([ONE_PRESENT, done("ab/d/obj", "abd", ABC)], dest, grow=gone)
    yield Case("a name that isn't UTF-8 in the second object", two, fault(1, ONE_ROOT, ONE_DONE), carried)


def outputs():
    """A standard output that can't be written: the run stops after the object whose line fails."""
    two = {**ONE, "pairtree_root/ab/d/obj/a.txt": b"abc"}
    rest = ends([ONE_PRESENT, done("ab/d/obj", "abd", ABC)], root(stored("abc", ABC), stored("abd", ABC)))
    bare = store({"ab/c/obj": DIR})
    for output in ("/dev/full", "a closed pipe", "a closed output"):
        yield Case(f"{output} at an object without files", bare, fault(3, root(stored("abc", {})), output=output))
        yield Case(f"{output} at a done line", two, fault(3, ONE_ROOT, output=output), rest)
        yield Case(f"{output} at a present line", two, fault(3, ONE_ROOT, output=output), dest=ONE_ROOT)
        skipped = store({"de": DIR, "ef/obj/f": b""})
        yield Case(f"{output} at a skip line", skipped, fault(3, root(), output=output))
        yield Case(f"{output} at the last line", store({}), fault(3, root(), output=output))


def devices():
    """A destination that fills up, and a source that changes. Both need a mount."""
    most = b"z" * 1_000_000
    files = {"a.txt": b"abc", "b.bin": most}
    source = {**ONE, **store({f"ab/cd/obj/{path}": content for path, content in files.items()})}
    declaration = {"0=ocfl_object_1.1": b"ocfl_object_1.1\n"}
    left = {**declaration, "v1/content/a.txt": b"abc", "v1/content/b.bin": front_of(most)}
    full = {**ONE_ROOT, **staged(left)}
    room = [["mount", "-o", "remount,size=8m", "d"]]
    entries = [ONE_PRESENT, done("ab/cd/obj", "abcd", files)]
    rest = ends(entries, root(stored("abc", ABC), stored("abcd", files)), plant={"staging": GONE}, commands=room)
    small = ("-t", "tmpfs", "-o", "size=256k", "none", "d")
    yield Case("a destination that is full", source, fault(2, full, ONE_DONE), fault(7, full), rest, mounts=[small])
    changing = "s/pairtree_root/ab/c/obj/a.txt"
    left = {**root(), **staged({**declaration, "v1/content/a.txt": lambda held: len(held) == 37})}
    mount = ("--bind", "/proc/sys/kernel/random/uuid", changing)
    run = fault(9, left)
    yield Case("a file that changes between its two readings", ONE, run, mounts=[mount], unsteady=[changing])


    unreadable = "s/pairtree_root/ab/d/obj/a.txt"
    mount = ("--bind", "/sys/class/net/lo/speed", unreadable)
    two = {**ONE, "pairtree_root/ab/d/obj/a.txt": b"abc"}
    run = fault(1, ONE_ROOT, ONE_DONE)
    yield Case("a file that can't be read", two, run, mounts=[mount], unsteady=[unreadable])
    closed = ("-t", "tmpfs", "-o", "ro", "none", "d")
    run = fault(2, {}, top=("d/staging", "Read-only file system (os error 30)"))
    yield Case("a destination that may not be written", ONE, run, mounts=[closed])


def scripts():
    """A destination that takes only so many entries: the order in which they are made, and a run after each failure."""
    extension = f"extensions/{LAYOUT_NAME}"
    below = dict(with_folders(staged({path.removeprefix("ocfl/"): content for path, content in root().items()})))
    of_root = ["", "/extensions", f"/{extension}", f"/{extension}/config.json", "/ocfl_layout.json", "/0=ocfl_1.1"]
    made = with_folders(staged(object_files("abc", ABC)))
    versions = ["/v1", "/v1/content", "/v1/content/a.txt", "/v1/inventory.json", "/v1/inventory.json.sha512"]
    of_object = ["", "/0=ocfl_object_1.1", *versions, "/inventory.json", "/inventory.json.sha512"]
    tuples = ["ocfl/ba7", "ocfl/ba7/816", "ocfl/ba7/816/bf8"]
    for count in range(len(of_root) + len(of_object) + len(tuples)):
        left = {f"staging{name}": below[f"staging{name}"] for name in of_root[:count]}
        rest = count - len(of_root)
        if rest >= 0:
            left = root({f"staging{name}": made[f"staging{name}"] for name in of_object[:rest]})
            left.update({name: DIR for name in tuples[: max(0, rest - len(of_object))]})
        away = {"staging": GONE} if "staging" in left else {}
        room = [["mount", "-o", "remount,nr_inodes=1000", "d"]]
        again = ends([ONE_DONE], ONE_ROOT, plant=away, commands=room)
        mount = ("-t", "tmpfs", "-o", f"nr_inodes={count + 1}", "none", "d")
        # what fails right in the destination is told: `staging`, as the root's is made and the object's
        top = ("d/staging", "No space left on device (os error 28)") if rest in (-len(of_root), 0) else None
        yield Case(f"a destination of {count} entries", ONE, fault(2, left, top=top), again, mounts=[mount])


def meant(created="2024-05-01T12:00:00Z", name="Ada"):
    """The words of the moment and the name."""
    return ("--created", created, "--name", name)


MOMENTS = (
    "2024-02-29T23:59:59+05:30",
    "2024-05-01T12:00:00-00:00",
    "0000-01-01T00:00:00Z",
    "9999-12-31T00:00:00-23:59",
)


def words_taken():
    """What the words of the command give."""
    for created in MOMENTS:
        run = ends([ONE_DONE], root(stored("abc", ABC, created=created)), meant=meant(created))
        yield Case(f"--created {created}", ONE, run)
    of_ada = {"user": {"address": "mailto:ada@example.org", "name": "Ada"}}
    for given, version in {
        ("--address", "mailto:ada@example.org"): of_ada,
        ("--address", ""): {},
        ("--message", ""): {"message": ""},
        ("--message", 'a "b"\n\u00e9\\'): {"message": 'a "b"\n\u00e9\\'},
        ("--name=A\tB",): {"user": {"name": "A\tB"}},
        ("--digest=sha512", "--tuples=3", "--tuple-size=3"): {},
    }.items():
        options = {"meant": MEANT[:2]} if given[0].startswith("--name") else {}
        run = ends([ONE_DONE], root(stored("abc", ABC, **version)), words=given, **options)
        yield Case(f"the words {' '.join(given)!r}", ONE, run)
    helped = Run(lambda out: b"Usage: pairtree2ocfl migrate" in out and b"--gather" in out, {}, 0, words=["--help"])
    yield Case("help on the command", ONE, helped)


NO_MOMENT = "--created is not a moment of RFC 3339 to the second"
NO_MOMENTS = (
    "2024-02-30T00:00:00Z",
    "2023-02-29T00:00:00Z",
    "2024-05-01T24:00:00Z",
    "2024-05-01T12:60:00Z",
    "2024-05-01T12:00:60Z",
    "2024-05-01T12:00:00.5Z",
    "2024-05-01T12:00:00z",
    "2024-05-01t12:00:00Z",
    "2024-05-01 12:00:00Z",
    "2024-05-01T12:00:00+24:00",
    "2024-05-01T12:00:00+05:60",
    "2024-05-01T12:00:00",
    "2024-05-01",
    "today",
    "",
)
FOR_THE_PARSER = (
    ["--tuples", "x"],
    ["--tuples", "4294967296"],
    ["--tuple-size=-1"],
    ["--digest", "md5"],
    ["--gather=1"],
    ["--created", "today"],
    ["--force"],
    ["a third folder"],
)


NO_LAYOUT = "the tuples are out of range: --tuple-size and --tuples are each from 1 to 32, with a product of at most 64, or both 0"
NO_SHARE = "--share is not K/N with N from 1 to 4096 and K from 1 to N"
NO_DEPTH = "--by-folders is not a number from 1 to 600 beside --share"
NO_ENTRY = "--ignore is not the name of a file or folder"


def words_refused():
    """Words that are refused, and which of them first. Nothing is done then."""
    for created in NO_MOMENTS:
        both = [refused(NO_MOMENT, meant(created, name)) for name in ("Ada", "")]
        yield Case(f"--created {created!r}", ONE, *both)
    yield Case("an empty name", ONE, refused("--name is empty", meant(name="")))
    yield Case("an empty name before the tuples", ONE, refused("--name is empty", meant(name=""), "--tuples", "33"))
    yield Case("the moment before the tuples", ONE, refused(NO_MOMENT, meant("today"), "--tuple-size", "0"))
    for given in (["--tuple-size", "0"], ["--tuples", "0"], ["--tuples", "33"], ["--tuple-size", "22"]):
        yield Case(f"the tuples of {' '.join(given)}", ONE, refused(NO_LAYOUT, MEANT, *given))
    for size, count in ((32, 3), (33, 1), (1, 33), (33, 0), (4294967295, 4294967295)):
        given = ["--tuple-size", str(size), "--tuples", str(count)]
        yield Case(f"the tuples of {' '.join(given)}", ONE, refused(NO_LAYOUT, MEANT, *given))
    for share in ("", "/", "1", "1/", "/1", "0/1", "1/0", "2/1", "1/4097", "4097/4097", "1/2/3", " 1/2", "1/2 ", "-1/2", "a/b", "1/4294967296"):
        yield Case(f"--share {share!r}", ONE, refused(NO_SHARE, MEANT, f"--share={share}"))
    for depth in ("", "0", "601", "-1", "1.5", "two", " 1", "4294967296"):
        yield Case(f"--by-folders {depth!r}", ONE, refused(NO_DEPTH, MEANT, "--share=1/2", f"--by-folders={depth}"))
    yield Case("--by-folders without --share", ONE, refused(NO_DEPTH, MEANT, "--by-folders", "2"))
    yield Case("the share before the folders", ONE, refused(NO_SHARE, MEANT, "--by-folders", "0", "--share", "2/1"))
    yield Case("the folders before the names", ONE, refused(NO_DEPTH, MEANT, "--ignore", "a/b", "--by-folders", "2"))
    yield Case("an empty --only", ONE, refused_by_parser(MEANT, "--only", "x", "--only="), refused_by_parser(MEANT, "--only", ""))
    for name in ("", ".", "..", "a/b", "/", "n" * 256):
        yield Case(f"--ignore {name[:9]!r}", ONE, refused(NO_ENTRY, MEANT, "--ignore", "x", f"--ignore={name}"))
    yield Case("the tuples before the share", ONE, refused(NO_LAYOUT, MEANT, "--share", "x", "--tuples", "33"))
    yield Case("the share before the names", ONE, refused(NO_SHARE, MEANT, "--ignore", "a/b", "--share", "x"))
    yield Case("an empty --event", ONE, refused("--event is empty", MEANT, "--event", ""), refused("--event is empty", MEANT, "--list=", "--event="))
    yield Case("an empty --list", ONE, refused("--list is empty", MEANT, "--list", ""), refused("--list is empty", MEANT, "--sync", "--list="))
    yield Case("the names before an empty --event", ONE, refused(NO_ENTRY, MEANT, "--event=", "--ignore=", "--list="))
    yield Case("an empty --event before a list that can't be read", ONE, refused("--event is empty", MEANT, "--list", "none", "--event="))
    for given in FOR_THE_PARSER:
        yield Case(f"refused by the parser: {' '.join(given)}", ONE, refused_by_parser(MEANT, *given))
    yield Case("no moment", ONE, refused_by_parser(MEANT[2:]))
    yield Case("no name", ONE, refused_by_parser(MEANT[:2]))


PARTS = (sources, starts, unusable_roots, taken_places, folders, outputs, devices, scripts, words_taken, words_refused)
CASES = [case for part in PARTS for case in part()]
