"""Folders for the tests of `migrate`: stores to read, and what must stand in the destination after a run.

What must stand is written here from the rules of OCFL 1.1 and of extension 0003, apart from the program. A tree is a
dict of paths with `/` between the names: bytes for a file, DIR, a Link, FIFO or SOCKET. In a tree that is built the
folders above an entry may be left out, and GONE takes away what stands there. In a tree that is compared a function may
stand for a file: it judges the bytes.
"""

import collections
import hashlib
import json
import os
import stat
import subprocess

DIR = "a directory"
GONE = "nothing"
FIFO = "a named pipe"
SOCKET = "a socket"
Link = collections.namedtuple("Link", "target")

NODES = {FIFO: stat.S_IFIFO, SOCKET: stat.S_IFSOCK}

DECLARATION = b"This directory conforms to Pairtree Version 0.1.\n"
LAYOUT_NAME = "0003-hash-and-id-n-tuple-storage-layout"
LAYOUT_TEXT = (
    b'{"description":"SHA-256 of the identifier in tuples, then the encoded identifier",'
    b'"extension":"0003-hash-and-id-n-tuple-storage-layout"}'
)
PLAIN = frozenset(b"ABCDEFGHIJKLMNOPQRSTUVWXYZabcdefghijklmnopqrstuvwxyz0123456789-_")
BY_DEFAULT = (3, 3)


def build(folder, tree):
    """Makes these entries in a folder, in their order."""
    for path, content in tree.items():
        put(f"{folder}/{path}", content)


def put(path, content):
    """Makes one entry, and the folders above it."""
    if content == GONE:
        subprocess.run(["rm", "-r", path], check=True)
        return
    os.makedirs(path if content == DIR else os.path.dirname(path), exist_ok=True)
    if isinstance(content, Link):
        os.symlink(content.target, path)
    elif content in NODES:
        os.mknod(path, NODES[content] | 0o600)
    elif content != DIR:
        with open(path, "wb") as file:
            file.write(content)


def read_tree(folder):
    """All that stands in a folder; links aren't followed."""
    tree, waiting = {}, [""]
    while waiting:
        above = waiting.pop()
        with os.scandir(f"{folder}/{above}") as entries:
            for entry in entries:
                path = above + entry.name
                tree[path] = content_of(entry)
                if tree[path] == DIR:
                    waiting.append(path + "/")
    return tree


def content_of(entry):
    """What an entry of a folder is."""
    mode = entry.stat(follow_symlinks=False).st_mode
    if stat.S_ISLNK(mode):
        return Link(os.readlink(entry.path))
    if stat.S_ISDIR(mode):
        return DIR
    if stat.S_ISREG(mode):
        return bytes_of(entry.path)
    return next((kind for kind, bits in NODES.items() if stat.S_IFMT(mode) == bits), f"of mode {mode:o}")


def bytes_of(path):
    """What a file holds."""
    try:
        with open(path, "rb") as file:
            return file.read()
    except OSError as error:
        return f"a file that gives {error}"


def with_folders(tree):
    """A tree with the folders above each entry."""
    whole = {}
    for path, content in tree.items():
        at = path.find("/")
        while at >= 0:
            whole.setdefault(path[:at], DIR)
            at = path.find("/", at + 1)
        whole[path] = content
    return whole


def differences(found, wanted):
    """How a tree that was read differs from the one that must stand."""
    for path in sorted(wanted.keys() - found.keys()):
        yield f"{shown(path)} is missing"
    for path in sorted(found.keys() - wanted.keys()):
        yield f"{shown(path)} should not be there"
    for path in sorted(found.keys() & wanted.keys()):
        content = wanted[path]
        right = isinstance(found[path], bytes) and content(found[path]) if callable(content) else found[path] == content
        if not right:
            yield f"{shown(path)} is {shown(found[path])}" + ("" if callable(content) else f", not {shown(content)}")


def shown(value):
    """A value for a message, cut where it is long."""
    text = repr(value)
    return text if len(text) < 1200 else f"{text[:600]}..{text[-300:]} ({len(value)} in all)"


def front_of(content):
    """Judges a file that holds a part of these bytes, from their start, and not all of them."""
    return lambda found: len(found) < len(content) and content.startswith(found)


def store(below_root, prefix=None, **beside):
    """A Pairtree store with these entries in its `pairtree_root`."""
    top = {"pairtree_version0_1": DECLARATION, "pairtree_root": DIR}
    if prefix is not None:
        top["pairtree_prefix"] = prefix
    return {**top, **{f"pairtree_root/{path}": content for path, content in below_root.items()}, **beside}


def text_of(value):
    """Compact JSON with its keys in order. Only what must be is escaped."""
    return json.dumps(value, ensure_ascii=False, sort_keys=True, separators=(",", ":")).encode()


def encoded(identifier):
    """The identifier as the last name of its place, shortened where it is long."""
    name = "".join(chr(byte) if byte in PLAIN else f"%{byte:02x}" for byte in identifier.encode()[:101])
    return name if len(name) <= 100 else f"{name[:100]}-{hashlib.sha256(identifier.encode()).hexdigest()}"


def place(identifier, layout=BY_DEFAULT):
    """Where an object lies in the storage root."""
    size, count = layout
    digits = hashlib.sha256(identifier.encode()).hexdigest()
    return "/".join([digits[i * size : (i + 1) * size] for i in range(count)] + [encoded(identifier)])


def walk_order(path):
    """The key that sorts paths as a walk meets them: name by name, each by its bytes."""
    return [name.encode() for name in path.split("/")]


def object_files(identifier, files, algorithm="sha512", digests=None, **version):
    """The files of an object with these contents, and with these digests of its paths, or their own; `version` has what differs from the plain command."""
    manifest, state, tree = {}, {}, {"0=ocfl_object_1.1": b"ocfl_object_1.1\n"}
    for path in sorted(files, key=walk_order):
        digest = digests[path] if digests else hashlib.new(algorithm, files[path]).hexdigest()
        if digest not in manifest:
            manifest[digest] = [f"v1/content/{path}"]
            tree[f"v1/content/{path}"] = files[path]
        state.setdefault(digest, []).append(path)
    made = {"created": "2024-05-01T12:00:00Z", "message": "Migrated from Pairtree", "user": {"name": "Ada"}}
    inventory = {
        "digestAlgorithm": algorithm,
        "head": "v1",
        "id": identifier,
        "manifest": manifest,
        "type": "https://ocfl.io/1.1/spec/#inventory",
        "versions": {"v1": {**made, **version, "state": state}},
    }
    return {**tree, **with_inventory(text_of(inventory), algorithm)}


def with_inventory(text, algorithm="sha512"):
    """The four files that an inventory makes in its object."""
    sidecar = f"{hashlib.new(algorithm, text).hexdigest()} inventory.json\n".encode()
    names = {"inventory.json": text, f"inventory.json.{algorithm}": sidecar}
    return {f"{folder}{name}": content for folder in ("", "v1/") for name, content in names.items()}


def stored(identifier, files, layout=BY_DEFAULT, **options):
    """An object at its place in the destination."""
    tree = object_files(identifier, files, **options)
    return {f"ocfl/{place(identifier, layout)}/{path}": content for path, content in tree.items()}


def staged(tree):
    """These entries in the folder where objects are made."""
    return {"staging": DIR, **{f"staging/{path}": content for path, content in tree.items()}}


def root(*objects, layout=BY_DEFAULT):
    """A destination that holds a storage root with these objects, and nothing else."""
    numbers = {"numberOfTuples": layout[1], "tupleSize": layout[0]}
    config = {"digestAlgorithm": "sha256", "extensionName": LAYOUT_NAME, **numbers}
    tree = {
        "ocfl/0=ocfl_1.1": b"ocfl_1.1\n",
        "ocfl/ocfl_layout.json": LAYOUT_TEXT,
        f"ocfl/extensions/{LAYOUT_NAME}/config.json": text_of(config),
    }
    for entries in objects:
        tree.update(entries)
    return tree


def done(at, identifier, files, empty=0, layout=BY_DEFAULT):
    """The log's line of an object that was carried."""
    size = sum(len(content) for content in files.values())
    line = {"as": "done", "at": at, "bytes": size, "empty": empty, "files": len(files)}
    return {**line, "id": identifier, "to": place(identifier, layout)}


def present(at, identifier, layout=BY_DEFAULT):
    """The log's line of an object at whose place something stands."""
    return {"as": "present", "at": at, "id": identifier, "to": place(identifier, layout)}


def skip(at, cause):
    """The log's line of what isn't carried."""
    return {"as": "skip", "at": at, "cause": cause}


def lines(*entries):
    """Lines of a log."""
    return b"".join(text_of(entry) + b"\n" for entry in entries)


def whole_log(*entries):
    """The log of a run that ends, its last line included."""
    counts = collections.Counter(entry["as"] for entry in entries)
    return lines(*entries, {"as": "end", **{kind: counts[kind] for kind in ("done", "present", "skip")}})


ABC = {"a.txt": b"abc"}
ONE = store({"ab/c/obj/a.txt": b"abc"})
ONE_DONE = done("ab/c/obj", "abc", ABC)
ONE_PRESENT = present("ab/c/obj", "abc")
ONE_ROOT = root(stored("abc", ABC))
