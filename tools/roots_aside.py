"""What `roots.py set-aside` does: objects that differ from the store, by an audit's log, are renamed into another folder, and their identifiers listed."""

import contextlib
import errno
import os
import stat

from roots_joining import ENDS, found_at, hold, made
from roots_logs import AUDIT, Log
from roots_objects import Foreign, Opened, Root, folder, is_folder, see_first
from roots_telling import PROGRESS, Refused, put, reason, say

# What a list begins with that `--list` refuses, and how long a line of one may be.
MARK, LONGEST = "\ufeff".encode(), 65536


class Stays(Exception):
    """Why an object isn't set aside."""


def set_aside(path, to, paths):
    """Moves the objects of a root that differ by these logs to the same places below another folder, and lists the identifiers of all that are
    there then; gives the status."""
    with contextlib.ExitStack() as last:
        root, away, logs = Root(path, last), Opened(to, last), [Log(one) for one in paths]
        see_apart(root, away)
        for log in logs:
            log.see_file()
        hold(root, set(), last)
        stay = 0
        for place, sites in sorted(differing(logs).items()):
            PROGRESS.count_one(root, place)
            try:
                put([move_one(root, away, place, sites)])
                clear(root, place)
            except (Stays, Foreign) as why:
                stay += 1
                say(f"{root}/{place}: it stays: {why}")
            except OSError as error:
                if error.errno in ENDS:
                    raise Refused(f"{away} takes no more of {root}: {error.strerror}") from error
                root.unjudged += 1
                say(f"{root}/{place}: it stays: {reason(error)}")
        wanting = [log for log in logs if not is_whole(log)]
        return 2 if root.unjudged or wanting else min(stay, 1)


def see_apart(root, away):
    """Sees to it that objects of a root can be renamed into a folder, which is no root, and neither holds this one nor lies in it."""
    if away.key == root.key or away.lies_below({root.key}) or root.lies_below({away.key}):
        raise Refused(f"{root} and {away} lie in one another")
    if away.device != root.device:
        raise Refused(f"{away} is on another file system than {root}: name a folder on that of {root}")
    if any(name.startswith("0=ocfl_") for name in os.listdir(away.fd)):
        raise Refused(f"{away} is a storage root or an object itself: name a folder that is none")


def differing(logs):
    """What the logs tell of each place of which one says that it differs: the last line of each folder of the store that leads there."""
    found = {entry["to"]: {} for log in logs for entry in log.entries(AUDIT) if entry["as"] == "differs"}
    for log in logs:
        for entry in log.again():
            if entry["to"] in found:
                found[entry["to"]][entry["at"]] = entry
    return {place: list(sites.values()) for place, sites in found.items() if any(entry["as"] == "differs" for entry in sites.values())}


def is_whole(log):
    """Whether a log has its end line, without which a line may be wanting; that is told."""
    if not (log.has_end or log.is_torn):
        say(f"{log}: it has no end line, so its audit didn't come to its end")
    return log.has_end and not log.is_torn


def move_one(root, away, place, sites):
    """Moves an object, unless it is away already, and gives the line that a list has for it."""
    if len(sites) > 1 or sites[0]["why"] == "twin":
        raise Stays("two folders of the store have its identifier: compare the two")
    identifier = sites[0]["id"].encode()
    if root.place_of(identifier) != place:
        raise Stays("this isn't the place of its identifier in this root")
    line = line_of_list(identifier)
    names = place.split("/")
    there, moved = found_at(root, names), found_at(away, names)
    if not (there or moved):
        raise Stays("nothing stands there any more")
    if moved and (there or not stat.S_ISDIR(moved.st_mode)):
        raise Stays(f"{away} has something at its place")
    if there:
        rename(root, away, names)
    return line


def line_of_list(identifier):
    """The line of an identifier in a list for `--list`, where one can have it."""
    if b"\n" in identifier or identifier.startswith(MARK) or not 0 < len(identifier) <= LONGEST:
        raise Stays("its identifier can't stand in a list: move it by hand, and carry it by --only")
    return identifier + (b"\r\n" if identifier.endswith(b"\r") else b"\n")


def rename(root, away, names):
    """Renames an object of a root, which has to be a folder and of the first version, to the same place in another folder."""
    with contextlib.ExitStack() as last:
        above = root.fd
        for name in names[:-1]:
            above = last.enter_context(folder(name, above))
        if not is_folder(names[-1], above):
            raise Stays("it is no folder")
        with folder(names[-1], above) as top:
            see_first(os.listdir(top))
        with made(away, names[:-1]) as to:
            os.rename(names[-1], names[-1], src_dir_fd=above, dst_dir_fd=to)


def clear(root, place):
    """Removes the tuple folders on the way to a place that have nothing in them any more, innermost first. What can't be removed is told."""
    tuples = place.split("/")[:-1]
    with contextlib.ExitStack() as last:
        above = [root.fd]
        try:
            with contextlib.suppress(FileNotFoundError):
                for name in tuples:
                    above.append(last.enter_context(folder(name, above[-1])))
            for name, fd in reversed(list(zip(tuples, above[: len(above) - 1]))):
                os.rmdir(name, dir_fd=fd)
        except OSError as error:
            if error.errno not in (errno.ENOTEMPTY, errno.EEXIST):
                root.unjudged += 1
                say(f"{root}/{'/'.join(tuples)}: it is left, with nothing in it: {error.strerror}")
