"""A storage root that pairtree2ocfl made, as roots.py sees it: its own files, the places of its objects, and whether an object is whole.

Everything is opened from the folder above it, so no link is followed."""

import contextlib
import errno
import hashlib
import json
import os
import re
import stat
import urllib.parse

from roots_telling import PROGRESS, Refused, say

EXTENSION = "0003-hash-and-id-n-tuple-storage-layout"
LAYOUT = (
    '{"description":"SHA-256 of the identifier in tuples, then the encoded identifier",'
    f'"extension":"{EXTENSION}"}}'
).encode()
DECLARATION = "0=ocfl_object_1.1"
ALGORITHMS = ("sha512", "sha256")
NAME = re.compile("(?=.{1,100}$)(?:[A-Za-z0-9_-]|%[0-9a-f]{2})+")
LONG_NAME = re.compile("[A-Za-z0-9_%-]{100}-([0-9a-f]{64})")
PLAIN = re.compile(rb"[A-Za-z0-9_-]*")
LATER = re.compile("v0*([2-9]|[1-9][0-9]+)")
LEAST, PIECE = 1 << 13, 1 << 20
FOLDER = os.O_RDONLY | os.O_DIRECTORY | os.O_NOFOLLOW | os.O_CLOEXEC
FILE = os.O_RDONLY | os.O_NOFOLLOW | os.O_NONBLOCK | os.O_CLOEXEC
# What is raised where an inventory's text isn't JSON, or its members aren't what they must be.
BROKEN = (ValueError, KeyError, TypeError, AttributeError, RecursionError)


class Unlike(Exception):
    """Why an object isn't whole."""


class Foreign(Exception):
    """Why an object isn't one that this script can judge."""


@contextlib.contextmanager
def folder(path, above=None):
    """A folder, open. No link is followed at the end of its path."""
    fd = os.open(path, FOLDER, dir_fd=above)
    try:
        yield fd
    finally:
        os.close(fd)


def pieces(path, above):
    """The bytes of a file in pieces; `Unlike` where there is no file."""
    try:
        fd = os.open(path, FILE, dir_fd=above)
    except OSError as error:
        if error.errno in (errno.ENOENT, errno.ENOTDIR, errno.ELOOP, errno.ENXIO):
            raise Unlike(f"{path} isn't there") from error
        raise
    try:
        found = os.fstat(fd)
        if not stat.S_ISREG(found.st_mode):
            raise Unlike(f"{path} is no file")
        # More bytes are asked for than there are, so that the end of a short file is seen by the one call that reads it.
        asked, left = min(max(found.st_size + 1, LEAST), PIECE), found.st_size
        while piece := os.read(fd, asked):
            yield piece
            left -= len(piece)
            if left == 0 and len(piece) < asked:
                break
    finally:
        os.close(fd)


def content(path, above):
    """The bytes of a file."""
    return b"".join(pieces(path, above))


def digest_of(path, above, algorithm):
    """The digest of a file, in hex."""
    digest = hashlib.new(algorithm)
    for piece in pieces(path, above):
        digest.update(piece)
    return digest.hexdigest()


class Opened:
    """A folder that the command line names, open; it may be no link."""

    def __init__(self, path, last):
        if not path:
            raise Refused("the path of a folder is empty")
        self.path = path.rstrip("/") or "/"
        try:
            self.fd = last.enter_context(folder(self.path))
        except NotADirectoryError as error:
            raise Refused(f"{path} is no folder, or a link: name the folder itself") from error
        found = os.fstat(self.fd)
        self.device, self.key = found.st_dev, (found.st_dev, found.st_ino)

    def __str__(self):
        return self.path

    def lies_below(self, keys):
        """Whether one of the folders above it, links resolved, has one of these keys."""
        above = os.path.realpath(self.path)
        while above != os.path.dirname(above):
            above = os.path.dirname(above)
            found = os.stat(above)
            if (found.st_dev, found.st_ino) in keys:
                return True
        return False


class Root(Opened):
    """A storage root that the program made: where it is, how its places are cut, and the folder, open."""

    def __init__(self, path, last):
        super().__init__(path, last)
        self.size, self.count = self.tuples()
        self.unjudged = self.strays = 0

    def tuples(self):
        """The layout's two numbers, by the root's own three files, which have to be the program's; refused with all that aren't."""
        config = f"extensions/{EXTENSION}/config.json"
        texts, faults = {}, []
        for name, wanted in (("0=ocfl_1.1", b"ocfl_1.1\n"), ("ocfl_layout.json", LAYOUT), (config, None)):
            try:
                for above in ("extensions", f"extensions/{EXTENSION}") if name == config else ():
                    with folder(above, self.fd):
                        pass
                texts[name] = content(name, self.fd)
                if wanted not in (None, texts[name]):
                    faults.append(f"{self.path}/{name} isn't the program's")
            except (Unlike, FileNotFoundError, NotADirectoryError) as error:
                why = error if isinstance(error, Unlike) else f"{name} isn't there"
                faults.append(f"{self.path} isn't a storage root of the program: {why}")
        found = re.fullmatch(rb'.*"numberOfTuples":(\d{1,2}),"tupleSize":(\d{1,2})}', texts.get(config, b""))
        if config in texts and not (found and texts[config] == config_of(*map(int, found.groups()))):
            faults.append(f"{self.path}/{config} isn't the program's")
        if faults:
            raise Refused(*faults)
        return int(found[2]), int(found[1])

    def place_of(self, identifier):
        """The place of an identifier, given by its bytes."""
        digits = hashlib.sha256(identifier).hexdigest()
        return "/".join((*(digits[at * self.size : (at + 1) * self.size] for at in range(self.count)), last_name_of(identifier)))

    def places(self, names=(), above=None):
        """The folders at objects' places, by place, last name and the tuple folder, open. What can't be listed is told and counted."""
        above = self.fd if above is None else above
        for name, found in self.entries(names, above):
            if found is None:
                self.leave_out(names, name)
            elif len(names) == self.count:
                whole = "/".join((*names, name))
                PROGRESS.count_one(self, whole)
                yield whole, name, above
            else:
                yield from self.entered(names, name, above)

    def entered(self, names, name, above):
        """The same below a tuple folder."""
        try:
            with folder(name, above) as fd:
                yield from self.places((*names, name), fd)
        except OSError as error:
            self.tell_unread((*names, name), error)

    def entries(self, names, above):
        """What stands in the folder of these tuples, open, in order: names, each with what the system tells of the folder that it is. `None` stands for
        that where it is no place of the program's. The root's own files aren't among them."""
        for name in sorted(os.listdir(above)):
            if names or not is_own(name, above):
                found = os.stat(name, dir_fd=above, follow_symlinks=False) if self.belongs(names, name) else None
                yield name, found if found and stat.S_ISDIR(found.st_mode) else None

    def leave_out(self, names, name):
        """Tells and counts what is no place of the program's."""
        self.strays += 1
        say(f"{self}/{'/'.join((*names, name))}: it isn't a place of the program's, and is left out")

    def tell_unread(self, names, error):
        """Tells and counts a tuple folder that can't be listed."""
        self.unjudged += 1
        say(f"{self}/{'/'.join(names)}: {error.strerror}")

    def belongs(self, names, name):
        """Whether a name belongs below these: a tuple, or the last name of an object with these tuples."""
        if len(names) < self.count:
            return re.fullmatch(f"[0-9a-f]{{{self.size}}}", name) is not None
        long = LONG_NAME.fullmatch(name)
        if not long and not NAME.fullmatch(name):
            return False
        digest = long[1] if long else hashlib.sha256(urllib.parse.unquote_to_bytes(name)).hexdigest()
        return digest.startswith("".join(names))


def is_own(name, above):
    """Whether an entry of a root's top is the root's own (OCFL 1.1, "Root Structure"): its declaration, its layout, the specifications that it may
    hold, and the folder of extensions. The first two have been read."""
    kind = os.stat(name, dir_fd=above, follow_symlinks=False).st_mode
    if name == "extensions":
        return stat.S_ISDIR(kind)
    texts = ("0=ocfl_1.1", "ocfl_layout.json", "ocfl_extensions_1.0.md")
    return stat.S_ISREG(kind) and (name in texts or name.startswith("ocfl_1.1."))


def config_of(count, size):
    """The configuration of a layout as the program writes it."""
    return (
        f'{{"digestAlgorithm":"sha256","extensionName":"{EXTENSION}","numberOfTuples":{count},"tupleSize":{size}}}'
    ).encode()


def is_folder(name, above):
    """Whether a name is that of a folder, and no link."""
    return stat.S_ISDIR(os.stat(name, dir_fd=above, follow_symlinks=False).st_mode)


def last_name_of(identifier):
    """The last name of an identifier's place."""
    whole = PLAIN.fullmatch(identifier)
    encoded = identifier.decode() if whole else "".join(chr(byte) if PLAIN.fullmatch(bytes([byte])) else f"%{byte:02x}" for byte in identifier)
    return encoded if len(encoded) <= 100 else f"{encoded[:100]}-{hashlib.sha256(identifier).hexdigest()}"


def files_below(top):
    """The paths of all that stands below a folder and is no folder, and of folders with nothing in them."""
    found, waiting = set(), [""]
    while waiting:
        above = waiting.pop()
        with folder(above or ".", top) as fd:
            names = os.listdir(fd)
            if not names:
                found.add(above.rstrip("/"))
            for name in names:
                (waiting.append(f"{above}{name}/") if is_folder(name, fd) else found.add(above + name))
    return found


def see_first(names):
    """`Foreign` where these names, which stand at the top of an object, aren't those of the first version, by the program's version of OCFL."""
    other = [it for it in names if it.startswith("0=ocfl_object_") and it != DECLARATION]
    if other or any(LATER.fullmatch(it) for it in names):
        raise Foreign("it is of another version of OCFL, or has later versions")
    if "logs" in names or "extensions" in names:
        raise Foreign("another program has written in it")


def parsed(text, name):
    """An inventory by its text: `Unlike` where it isn't one of the object of this last name, `Foreign` where its digests aren't of the program's."""
    try:
        inventory = json.loads(text)
        if last_name_of(inventory["id"].encode()) != name:
            raise Unlike("its inventory has the identifier of another place")
        if inventory["digestAlgorithm"] not in ALGORITHMS:
            raise Foreign("its digests aren't the program's")
    except BROKEN as error:
        raise Unlike("its inventory isn't whole") from error
    return inventory


def inventory_of(top, name, names):
    """The digest algorithm and the manifest of an object at whose top these names stand, by its inventory, which has to be the program's with its
    sidecar."""
    see_first(names)
    if content(DECLARATION, top) != b"ocfl_object_1.1\n":
        raise Unlike("its declaration isn't whole")
    text = content("inventory.json", top)
    inventory = parsed(text, name)
    try:
        if inventory["head"] != "v1" or list(inventory["versions"]) != ["v1"]:
            raise Foreign("it has later versions, or isn't the program's")
        algorithm, manifest = inventory["digestAlgorithm"], inventory["manifest"]
        stored = {path: digest for digest, paths in manifest.items() for path in paths}
        sidecar = f"{hashlib.new(algorithm, text).hexdigest()} inventory.json\n".encode()
    except BROKEN as error:
        raise Unlike("its inventory isn't whole") from error
    for above in ("", "v1/"):
        if content(f"{above}inventory.json", top) != text:
            raise Unlike(f"{above}inventory.json isn't the inventory")
        if content(f"{above}inventory.json.{algorithm}", top) != sidecar:
            raise Unlike(f"{above}inventory.json.{algorithm} isn't that of the inventory")
    return algorithm, stored


def look_at(name, above, reads):
    """Looks at an object: `Unlike` where it isn't whole, `Foreign` where it isn't one of the program's. Contents are read if asked."""
    with folder(name, above) as top:
        found = files_below(top)
        algorithm, stored = inventory_of(top, name, {path.split("/", 1)[0] for path in found})
        own = {DECLARATION, *(f"{it}inventory.json{end}" for it in ("", "v1/") for end in ("", f".{algorithm}"))}
        for path in sorted(found ^ (own | stored.keys()), key=str):
            raise Unlike(f"{path} isn't there" if path in stored else f"no inventory has {path}")
        for path, digest in stored.items() if reads else ():
            if digest_of(path, top, algorithm) != digest:
                raise Unlike(f"{path} isn't whole")
