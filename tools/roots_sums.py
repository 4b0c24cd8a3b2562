"""What `roots.py sums` does: lists of the files of a root's objects, and of their files in the store, with their digests, as sha512sum reads them."""

import contextlib
import hashlib
import re

from roots_logs import ANY, Log, is_path
from roots_objects import ALGORITHMS, BROKEN, Foreign, Root, Unlike, content, folder, parsed
from roots_telling import put, reason, say


class Listing:
    """What is listed of the objects of a root: of which algorithm and, by logs, where their files stood in the store."""

    def __init__(self, algorithm, sites):
        self.is_asked, self.algorithm, self.sites = algorithm is not None, algorithm, sites
        self.others, self.unnamed = [], []

    def add(self, place, name, above):
        """Lists an object, or counts it where it isn't listed: of these the first is kept, and their number."""
        front = place
        if self.sites is not None:
            if place not in self.sites:
                return count_in(self.unnamed, place)
            front = f"pairtree_root/{self.sites.pop(place)}"
        with folder(name, above) as top:
            algorithm, inventory = inventory_in(top, name)
        self.algorithm = self.algorithm or algorithm
        if algorithm == self.algorithm:
            rows = rows_of(inventory, self.sites is None)
            return put(line_of_sum(digest, f"{front}/{path}".encode()) for path, digest in rows)
        return None if self.is_asked else count_in(self.others, place)

    def lacking(self):
        """Why objects aren't listed, with their number and the first."""
        other = next(it for it in ALGORITHMS if it != self.algorithm)
        absent = [min(self.sites), len(self.sites)] if self.sites else []
        yield f"not listed, since their digests aren't {self.algorithm}, as those of the first (--digest {other} lists them)", self.others
        yield "not listed, since no log tells of them", self.unnamed
        yield "told by a log, and not there", absent


def count_in(counted, place):
    """One place more of those that are counted: the first, and how many."""
    counted[:] = [counted[0], counted[1] + 1] if counted else [place, 1]


def line_of_sum(digest, name):
    """A line as GNU sha512sum writes and reads it, of a name in bytes: where that has a `\\`, LF or CR these are escaped, and the line begins with `\\`."""
    escaped = name.replace(b"\\", b"\\\\").replace(b"\n", b"\\n").replace(b"\r", b"\\r")
    return b"%s%s  %s\n" % (b"\\" * (escaped != name), digest.encode(), escaped)


def inventory_in(top, name):
    """The digest algorithm and the inventory of an object, of whatever version, which has to agree with its sidecar."""
    text = content("inventory.json", top)
    inventory = parsed(text, name)
    algorithm = inventory["digestAlgorithm"]
    sidecar = re.fullmatch(rb"([0-9A-Fa-f]+)[ \t]+inventory\.json\s*", content(f"inventory.json.{algorithm}", top))
    if not sidecar or sidecar[1].decode().lower() != hashlib.new(algorithm, text).hexdigest():
        raise Unlike(f"inventory.json.{algorithm} isn't that of the inventory")
    return algorithm, inventory


def rows_of(inventory, is_stored):
    """The paths of an inventory's manifest, or of the state of its last version, in order, each with its digest."""
    form = re.compile("[0-9A-Fa-f]{%d}" % (2 * hashlib.new(inventory["digestAlgorithm"]).digest_size))
    try:
        held = inventory["manifest"] if is_stored else inventory["versions"][inventory["head"]]["state"]
        rows = [(path, digest.lower()) for digest, paths in held.items() for path in paths]
        is_listed = all(isinstance(paths, list) for paths in held.values())
        if not (is_listed and all(is_path(path) and form.fullmatch(digest) for path, digest in rows)):
            raise ValueError
    except BROKEN as error:
        raise Unlike("its inventory isn't whole") from error
    return sorted(rows)


def sites_of(logs):
    """Where the files of each object of logs stood in the store, by its place. Of twins that is the one that was carried: the last line of `done`
    or `same` tells, and where there is none the first of `present` or `alike`."""
    carried, met = {}, {}
    for log in logs:
        for entry in log.entries(ANY):
            place, site = entry["to"], entry["at"]
            if entry["as"] in ("done", "same"):
                carried[place] = site
                met.pop(place, None)
            elif entry["as"] in ("present", "alike") and place not in carried:
                met.setdefault(place, site)
    carried.update(met)
    return carried


def sums(path, paths, algorithm):
    """Lists the files of a root's objects or, by logs, those of the store that they were made of, and gives the status."""
    with contextlib.ExitStack() as last:
        root, logs = Root(path, last), [Log(one) for one in paths]
        listing = Listing(algorithm, sites_of(logs) if logs else None)
        for place, name, above in root.places():
            try:
                listing.add(place, name, above)
            except (Unlike, Foreign, OSError) as error:
                root.unjudged += 1
                say(f"{root}/{place}: it isn't listed: {reason(error)}")
        lacking = [(why, *counted) for why, counted in listing.lacking() if counted]
        for why, first, count in lacking:
            say(f"{root}: {why}: {count}, the first is {first}")
        return 2 if root.unjudged or root.strays else min(len(lacking), 1)
