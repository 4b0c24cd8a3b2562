#!/usr/bin/env python3
"""Makes one HTML page of logs and events of pairtree2ocfl: of runs, rehearsals, audits and checks. Python 3.6 or later, and nothing else.

The page has no script and loads nothing, so it can be mailed, printed and kept. It begins with how the migration stands, in a sentence. It has the
numbers of objects, files and bytes, the lines by kind, the skips by cause with what to do about each, the sizes of the objects, each folder that
was skipped, what an audit found absent or different, or extra or stray in the root, twins (several folders of one identifier), and the objects that
lost empty folders; of a check its troubles by kind with what to do about each. By its lines a log is told to be that of a run (or of a rehearsal,
whose lines are the same), of an audit or of a check; one whose last line isn't an end line is told to be cut short.

Several logs are taken for those of one store, in the order in which they were written. The numbers at the head are of the last state: of each folder
the last line that names it counts. Then the page tells what is still missing: the folders that the last log that names them skipped for another cause
than root or empty, and that no log has as done, present or same; and those that the last log that names them tells to be absent. Leave the logs of
rehearsals out there, whose done lines nobody can tell from a run's. The numbers of each log are added up over all logs, so what two logs name
counts twice there.

What `--event FILE` recorded may stand among the logs, in any order. A file is taken for an event by what it holds, not by its name: one JSON object
with the keys of an event. The page has a row for each: what was done, on which folders, with which options, when, and how it ended. What one doesn't
tell is left empty there; where it has no end, that is said.

`--csv` writes the lines as a table (RFC 4180), without the end lines and the events. A spreadsheet may take a value that begins with = + - or @ for a formula.

Of each line of the log at hand 12 bytes are held in memory, and of each line of all logs 8, of a done or same line 32; to that come the lists. A log
is read once, and up to twice more where there are twins or several logs. So it has to be a file, and no pipe. Of events one at a time is held.

The status is 0 where the page or the table was written; 1 where it was, but a line is none of a log, which standard error names by file and number;
2 where the words are wrong, a log or an event can't be read, or the output can't be written, or is a log or an event: these are never written over.
"""

import os
import sys

# What stands beside a script is found there, and isn't compiled into a folder. `shown` and `starting` stand there where it is installed, and in tools/
# of a checkout.
HERE = os.path.dirname(os.path.realpath(__file__))
sys.path[:0] = [HERE, f"{HERE}/../tools"]
sys.dont_write_bytecode = True

import starting

import argparse
import contextlib
import csv
import stat
import urllib.parse

from report_log import COLUMNS, KEYS, LONGEST, entries, event_in, parsed
from report_page import Page
from report_sums import Log, Report
from shown import shown


class Refused(Exception):
    """Why nothing is written."""


def table_of(logs, out):
    """Writes the lines of the logs as a table. Names are in it as they are, unless it goes to a terminal."""
    made, is_seen = csv.writer(out), out.isatty()
    made.writerow(("log", *COLUMNS))
    places = {kind: [keys.index(name) if name in keys else None for name in COLUMNS[1:]] for kind, keys in KEYS.items()}
    for log in logs:
        for kind, values in entries(log.path, log.refuse):
            if kind != "end":
                row = [log.path, kind] + ["" if place is None else values[place].decode() for place in places[kind]]
                made.writerow(map(shown, row) if is_seen else row)


def say(text):
    """A line on standard error."""
    with contextlib.suppress(OSError):
        os.write(2, f"report.py: {text}\n".encode(errors="backslashreplace"))


def status_of(logs):
    """Names the lines that are none of a log, and gives the status."""
    for log in logs:
        for (number,) in log.bad.rows:
            say(f"{shown(log.path)}:{number}: it is no line of a log")
        if log.bad.count > len(log.bad.rows):
            more = log.bad.count - len(log.bad.rows)
            say(f"{shown(log.path)}: {more} more {'line is' if more == 1 else 'lines are'} none of a log")
    return int(any(log.bad.count for log in logs))


def kept_in(path):
    """What a file is that no page and no table is written over: a log, by its first line, or an event; nothing where it is neither."""
    if event_in(path):
        return "an event"
    with open(path, "rb") as file, contextlib.suppress(ValueError):
        parsed(file.readline(LONGEST))
        return "a log"
    return ""


def check(paths, output):
    """Sees to it that each log and each event is a file, and the output is none, whether it is among these or not."""
    if "" in (*paths, output):
        raise Refused("the path of a log or of the output is empty")
    out = os.stat(output) if output and os.path.exists(output) else None if output else os.fstat(1)
    for path in paths:
        found = os.stat(path)
        if not stat.S_ISREG(found.st_mode):
            raise Refused(f"{shown(path)}: it is no file")
        if out and os.path.samestat(found, out):
            raise Refused(f"{shown(path)}: it is {'an event' if event_in(path) else 'a log'}, and the output too")
    what = kept_in(output) if output and out and stat.S_ISREG(out.st_mode) else ""
    if what:
        raise Refused(f"{shown(output)}: it is {what}, and isn't written over: name another file")


def guide_from(folder):
    """The guide that came with this script, as a link from a folder."""
    for name in ("../docs/GUIDE.md", "../doc/pairtree2ocfl/docs/GUIDE.md", "../../docs/GUIDE.md"):
        path = os.path.normpath(f"{HERE}/{name}")
        if os.path.isfile(path):
            return urllib.parse.quote(os.path.relpath(path, os.path.realpath(folder)))
    return "docs/GUIDE.md"


def count(text):
    """A number that isn't negative."""
    if not text.isdecimal():
        raise argparse.ArgumentTypeError(f"'{text}' is no number")
    return int(text)


class Parser(argparse.ArgumentParser):
    """A parser that shows the words that it refuses: none is printed raw."""

    def error(self, message):
        super().error(shown(message))


def parser():
    """The words that the script takes."""
    whole = Parser(prog="report.py", description=__doc__, formatter_class=argparse.RawDescriptionHelpFormatter, allow_abbrev=False)
    whole.add_argument("logs", metavar="LOG", nargs="+", help="a log of a run, a rehearsal, an audit or a check, or an event")
    whole.add_argument("-o", "--output", metavar="FILE", help="where the page or the table goes; to standard output unless given")
    whole.add_argument("--csv", action="store_true", help="write the lines as a table in place of the page")
    whole.add_argument("--guide", metavar="URL", help="where the guide is, for the links to it; unless given, what came with this script")
    whole.add_argument("--limit", metavar="N", type=count, default=10000, help="how many lines each list of the page has at most; 10000 unless given")
    return whole


def run(words):
    """Does what the words ask for, and gives the status."""
    taken = parser()
    # Options may stand between the logs, from Python 3.7 on; that doesn't know `--`, behind which all are logs.
    asked = (taken.parse_args if "--" in words else getattr(taken, "parse_intermixed_args", taken.parse_args))(words)
    check(asked.logs, asked.output)
    told = [(path, bool(event_in(path))) for path in asked.logs]
    paths, recorded = ([path for path, is_event in told if is_event == wanted] for wanted in (False, True))
    report = None if asked.csv else Report(paths, recorded, asked.limit)
    logs = report.logs if report else [Log(path) for path in paths]
    how = {"encoding": "utf-8", "errors": "backslashreplace", "newline": "", "closefd": bool(asked.output)}
    with open(asked.output or 1, "w", **how) as out:
        if report:
            guide = asked.guide or guide_from(os.path.dirname(asked.output or "") or ".")
            out.writelines(Page(report, guide).pieces())
        else:
            table_of(logs, out)
    return status_of(logs)


def main():
    starting.heed()
    try:
        return run(sys.argv[1:])
    except Refused as error:
        say(error)
    except OSError as error:
        say(f"{shown(str(error.filename or 'the output'))}: {error.strerror}")
    except MemoryError:
        say("out of memory")
    except KeyboardInterrupt:
        starting.heed_no_more()
        say("stopped")
    finally:
        starting.heed_no_more()
    return 2


if __name__ == "__main__":
    starting.begin()
    sys.exit(main())
