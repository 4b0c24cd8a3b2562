#!/usr/bin/env python3
"""What the guide does with storage roots that pairtree2ocfl made. Python 3.8 or later on Linux, and nothing else.

ROOT and OTHER are folders `ocfl` that pairtree2ocfl made, all with the same tuples. No link is followed, but for LOG. Nothing is written over,
copied or deleted, but for tuple folders in which `set-aside` leaves nothing.

`damaged` reads every file. An object is whole where its two inventories and their sidecars agree and exactly the files stand there
that the inventory has, with their digests. Only folders below tuple folders that belong to their names are listed. What can't be read,
an object of another version of OCFL, and one that has more than one version, are told on standard error and not listed.

`join` looks at each object, and reads no file's content but the inventories. Where nothing stands at the place of a tuple folder in ROOT, the folder
is renamed as one, with its owner and mode, when all in it was looked at and nothing of it is to stay; else it is gone into. It holds the locks of the
folders that ROOT and each OTHER stand in, as a run does, and moves nothing to another file system. Stopped at any moment, it goes on when the same
command is given again.

`sums` writes a list that `sha512sum -c`, or `sha256sum -c` of such a root, reads in ROOT: of each object, in the order of their places, the content
files of its manifest with their digests there, of all its versions. Inventories, sidecars and declarations aren't listed, and no content file is
opened. With LOGs, of runs or audits, it is one for the store: of each object that a line `done`, `present` or `same` tells of, the files of its last
version as they are named in the store, with pairtree_root in front. Of twins it lists the one that was carried. One algorithm is listed: that of the
first object, or that of --digest. It holds one object at a time, and of LOGs two paths of each.

`set-aside` moves each object that `differs`, by an audit's LOG (or the LOGs of its shares), to the same place below AWAY, a folder on the same file
system. It lists the identifiers of all that are there then, for `--list` of the next run. What stays is told: an object to whose place two folders of
the store lead (twins), one that has later versions or that another program has written in, and one whose place in AWAY is taken or whose identifier can't
stand in a list. It holds the lock of ROOT as `join` does. If it is stopped, at any moment, each object stands whole in ROOT or in AWAY, and the same
command goes on.

Where standard error is a terminal, a line there shows how far it is: a count of objects, and by their places the share of the root. Paths are told
as the program tells them: control and format characters, blanks that are no space and blanks at an end of a line as \\u{..}, bytes that aren't
UTF-8 as \\xe9, a \\ doubled. The lists of `sums` and `set-aside` have names as they are, unless they go to a terminal.

The status of `damaged` is 0 where every object is whole and nothing else is there, and 1 where it listed those that aren't whole. That of `join`
is 0 where all was moved and nothing is left but the roots' own files and empty folders, and 1 where the places that it lists were taken. That of
`sums` is 0 where each object is listed, or each of --digest, and 1 where some aren't, since no LOG tells of them or their digests are of another algorithm, or where one
that a LOG tells of isn't there. That of `set-aside` is 0 where all that differ are in AWAY and listed, and 1 where some stay. Each is 2 where
something was refused, or could not be judged or moved, or isn't the program's and was left out, where an audit's LOG breaks off for `set-aside`, or
the output can't be written. Standard error says what; what can be listed and moved is, also at status 2.
"""

import os
import sys

# What stands beside a script is found there, and isn't compiled into a folder.
sys.path.insert(0, os.path.dirname(os.path.realpath(__file__)))
sys.dont_write_bytecode = True

import starting

import argparse
import contextlib

from roots_aside import set_aside
from roots_joining import join
from roots_objects import ALGORITHMS, Foreign, Root, Unlike, look_at
from roots_sums import sums
from roots_telling import PROGRESS, Refused, Unwritten, reason, say, show


def damaged(path):
    """Lists the objects of a root that aren't whole, and gives the status."""
    count = 0
    with contextlib.ExitStack() as last:
        root = Root(path, last)
        for place, name, above in root.places():
            try:
                look_at(name, above, reads=True)
            except Unlike as fault:
                count += 1
                show(place)
                say(f"{root}/{place}: {fault}")
            except (Foreign, OSError) as error:
                root.unjudged += 1
                say(f"{root}/{place}: it isn't judged: {reason(error)}")
        return 2 if root.unjudged or root.strays else min(count, 1)


class Parser(argparse.ArgumentParser):
    """A parser whose refusal is this script's."""

    def error(self, message):
        raise Refused(f"the words are wrong: {message}", " ".join(self.format_usage().split()), "--help says more")


def parser():
    """The words that the script takes."""
    how = {"formatter_class": argparse.RawDescriptionHelpFormatter, "allow_abbrev": False}
    whole = Parser(prog="roots.py", description=__doc__, **how)
    commands = whole.add_subparsers(dest="command", metavar="damaged|join|sums|set-aside", required=True, parser_class=Parser)
    one = commands.add_parser("damaged", help="lists the places in ROOT of objects that aren't whole, a line each, and says why on standard error", **how)
    one.add_argument("root", metavar="ROOT", help="the root that is looked at")
    one = commands.add_parser("join", help="renames the objects of the other roots into ROOT, and lists those whose place is taken; they stay", **how)
    one.add_argument("root", metavar="ROOT", help="the root that the objects are moved into")
    one.add_argument("others", metavar="OTHER", nargs="+", help="a root whose objects are moved")
    one = commands.add_parser("sums", help="lists the content files of ROOT or, by LOGs, the files of the store, with their digests", **how)
    one.add_argument("--digest", choices=ALGORITHMS, help="lists only objects with digests of this algorithm")
    one.add_argument("root", metavar="ROOT", help="the root that is listed")
    one.add_argument("logs", metavar="LOG", nargs="*", help="a log of a run or an audit; several in their order")
    one = commands.add_parser("set-aside", help="renames the objects of ROOT that differ by LOG into AWAY, and lists their identifiers", **how)
    one.add_argument("root", metavar="ROOT", help="the root that objects are moved out of")
    one.add_argument("away", metavar="AWAY", help="the folder that they are moved to, which stands")
    one.add_argument("logs", metavar="LOG", nargs="+", help="the log of an audit; several of one that was made in shares")
    return whole


def run(words):
    """Does what the words ask for, and gives the status."""
    asked = parser().parse_args(words)
    if asked.command == "damaged":
        status = damaged(asked.root)
    elif asked.command == "join":
        status = join([asked.root, *asked.others])
    elif asked.command == "sums":
        status = sums(asked.root, asked.logs, asked.digest)
    else:
        status = set_aside(asked.root, asked.away, asked.logs)
    PROGRESS.clear()
    return status


def main():
    starting.heed()
    try:
        return run(sys.argv[1:])
    except Refused as error:
        for text in error.args:
            say(text)
    except (Unlike, Unwritten) as error:
        say(error)
    except OSError as error:
        say(f"{f'{os.fsdecode(error.filename)}: ' if isinstance(error.filename, (str, bytes)) else ''}{error.strerror}")
    except MemoryError:
        say("out of memory")
    except KeyboardInterrupt:
        starting.heed_no_more()
        say("stopped; the same command goes on")
    finally:
        starting.heed_no_more()
    return 2


if __name__ == "__main__":
    starting.begin()
    sys.exit(main())
