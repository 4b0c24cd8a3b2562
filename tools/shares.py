#!/usr/bin/env python3
"""Carries one store in N shares, N from 1 to 4096, each by a run of its own into a folder of its own, and then joins their roots in
OUT/1/ocfl. Python 3.8 or later on Linux, and nothing else but roots.py.

   {called} here N [-- OPTION..]      on this machine, as many runs at once as it has processors, or as JOBS says
   {called} cluster N [-- OPTION..]   on a cluster, as a Slurm job array of N tasks with the join as a job behind it

These do the parts of it, on another cluster than Slurm's too:

   {called} share K N [-- OPTION..]   carries share K of N, as a task does
   {called} join N                    joins the roots of the shares, and looks whether each object is whole, as the job behind it does

This changes nothing, and needs only OUT:

   {called} status N [-- OPTION..]    tells which shares are done, under way, stopped or not begun, how far the join is, and what is to be given

From the environment come STORE, OUT (a folder on the file system that the root is to lie on), CREATED and NAME, and, if they are set,
PROGRAM (pairtree2ocfl on the PATH unless given), ROOTS (where roots.py is, beside this script unless given) and JOBS.

Each OPTION is one of `pairtree2ocfl migrate`, and given to every run as it is. With `--event FILE` each share has a file of its own: of
run.json share 3 has run.3.json.

Share K goes into OUT/K, and its log is OUT/K.log. Each try has a log and an event of its own: the second OUT/K.try2.log and run.K.try2.json.
A line that was never finished, as on a full disk, is cut off and shown.

What was stopped at any moment goes on by the same command. The staging that a stopped run left is taken away first, under the run's own lock.
Where this script alone is killed its runs go on, and until they end the same command says which folder another run has. Once the join has
begun, which OUT/joining tells, no share is carried any more. One share is the whole, and isn't joined. No link in OUT is followed.

OUT/shares notes N, and D where `--by-folders D` was given. Others than before are refused, and so are a second `here` in OUT while one is at work, and
a rehearsal, which leaves no roots. `join` is refused while one of the shares that have a log hasn't ended well.

By `status` a share is done where its last log ends with the end line, and under way where a run has its folder. With the `--event` that the shares
had it names faults too. Where a log has no end it shares the folder's lock for a moment: a run that begins just then is refused, and to be given again.

The status is 0 where all was done, 2 where something was refused before anything was made, and 3 where a share wasn't carried or the join
couldn't be begun. From the join on it is that of roots.py, `join` and then `damaged`, which OUT/joining notes. That of `status` is 0 where all
shares are done, 1 where some aren't, and 2 where it can't tell. Standard error says what.
"""

import os
import sys

SCRIPT = os.path.realpath(__file__)
# What stands beside a script is found there, and isn't compiled into a folder.
sys.path.insert(0, os.path.dirname(SCRIPT))
sys.dont_write_bytecode = True

import starting

import collections
import contextlib
import itertools
import re
import shlex
import shutil
import stat
import subprocess

import shares_notes as notes
from shares_notes import DIVIDED, Division
from shares_running import Running
from shares_status import DONE, JOINING, NOT_BEGUN, ROOTLESS, Shares, mode_of, spans, tell
from shown import shown

CALLED = os.path.basename(sys.argv[0])
MOST = 4096
FOLDER = os.O_RDONLY | os.O_DIRECTORY | os.O_CLOEXEC


class Refused(Exception):
    """Why nothing was begun."""


class Fault(Exception):
    """Why a share isn't carried, or nothing is joined."""


def say(text):
    """A line on standard error. Names in it are shown as `shown` has them."""
    with contextlib.suppress(OSError):
        os.write(2, f"{CALLED}: {text}\n".encode(errors="backslashreplace"))


def reason(error):
    """What an error says."""
    if not isinstance(error, OSError):
        return str(error)
    return f"{shown(error.filename)}: {error.strerror}" if isinstance(error.filename, (str, bytes)) else error.strerror


@contextlib.contextmanager
def folder(path, above=None, where=""):
    """A folder, open. Of a name in another, which `where` leads to, no link is followed."""
    try:
        fd = os.open(path, FOLDER if above is None else FOLDER | os.O_NOFOLLOW, dir_fd=above)
    except NotADirectoryError as error:
        raise Fault(f"{shown(where + path)} is no folder, or a link") from error
    except OSError as error:
        if above is None:
            raise
        raise Fault(f"{shown(where + path)}: {error.strerror}") from error
    try:
        yield fd
    finally:
        os.close(fd)


def joins(out, path):
    """Whether the join has begun, by what stands in the open folder OUT at a path that is shown so."""
    if notes.is_no_file(JOINING, out):
        raise Fault(f"{path} is no file, or a link")
    return bool(mode_of(JOINING, out))


def number_in(text, name, most=MOST):
    """A number from 1 on."""
    if not re.fullmatch("[1-9][0-9]{0,3}", text, re.ASCII) or int(text) > most:
        raise Refused(f"{name} is a number from 1 to {most}, not '{shown(text)}'")
    return int(text)


def jobs_at_once():
    """How many runs are made side by side."""
    text = os.environ.get("JOBS", "")
    return number_in(text, "JOBS") if text else len(os.sched_getaffinity(0))


def marked(options, mark):
    """The options of one try, and the files of its events: FILE of `--event` gets a mark before its ending."""
    words, files = [], []
    for before, word in zip(("", *options), options):
        head = "" if before == "--event" else "--event="
        if word.startswith(head) and os.path.basename(word[len(head) :]):
            stem, ending = os.path.splitext(word[len(head) :])
            files.append(f"{stem}.{mark}{ending}")
            word = head + files[-1]
        words.append(word)
    return words, files


def end_last_line(name, above, where):
    """Cuts off what a log has behind its last whole line, and shows it. A file that has other names too is left as it is."""
    fd = os.open(name, notes.OLD, dir_fd=above)
    try:
        found = os.fstat(fd)
        begin = notes.unfinished_from(fd) if found.st_nlink == 1 else found.st_size
        if begin < found.st_size:
            say(f"{where}{name}: its last line was never finished, and is cut off: {shown(os.pread(fd, 1000, begin))}")
            os.ftruncate(fd, begin)
    finally:
        os.close(fd)


class Store:
    """A store in so many shares: where they go, and by which words each is carried."""

    def __init__(self, count, options):
        told = {name: os.environ.get(name, "") for name in ("STORE", "OUT", "CREATED", "NAME")}
        lacking = [name for name, text in told.items() if not text]
        if lacking:
            raise Refused(f"{' and '.join(lacking)} {'is' if len(lacking) == 1 else 'are'} not set: --help says what they are")
        if os.environ.get("OPTIONS"):
            raise Refused("OPTIONS is set, and isn't read: give the options behind --, as they are")
        depth = notes.depth_of(options)
        if depth is None:
            raise Refused(f"D of --by-folders is a number from 1 to {notes.DEEPEST}")
        if notes.rehearses(options):
            raise Refused("--dry-run leaves no roots, so nothing is to be joined: give it to `pairtree2ocfl migrate`, with --share or without")
        self.count, self.options, self.division = count, options, Division(count, depth)
        self.store, self.out, self.created, self.name = told.values()
        self.out = self.out.rstrip("/") or "/"
        self.program, self.roots = program_here(), roots_here()

    def at(self, name):
        """A path in OUT, as it is shown."""
        return shown(f"{self.out}/{name}")

    def lock(self, number, share):
        """Holds the lock of a share's folder, as a run into it does, if its file system has locks."""
        is_held = notes.lock(share)
        if is_held is False:
            raise Fault(f"another run has {self.at(number)}")
        return bool(is_held)

    def take_staging(self, number, share, is_locked):
        """Takes away the staging that a stopped run left in the open folder of a share."""
        staging, mode = self.at(f"{number}/staging"), mode_of("staging", share)
        if not mode:
            return
        if not stat.S_ISDIR(mode):
            raise Fault(f"{staging} is no folder, so no run left it")
        if not is_locked:
            raise Fault(f"{staging} is left, and {self.at(number)} can't be locked: see that no run is under way there, and remove it")
        # Deep folders need no care then, and the lock is held to the end also where this script is killed.
        how = {"pass_fds": (share,), "preexec_fn": lambda: os.fchdir(share), "env": {**os.environ, "LC_ALL": "C"}}
        done = subprocess.run(["rm", "-rf", "--", "staging"], stdin=subprocess.DEVNULL, stderr=subprocess.PIPE, check=False, **how)
        if done.returncode:
            why = (done.stderr.splitlines() or [b"rm ended with status %d" % done.returncode])[0]
            raise Fault(f"{staging} can't be removed: {shown(why.replace(b'rm: cannot remove ', b''))}")

    def new_try(self, number, out, is_locked):
        """The mark of the next try of a share, its options and its log, open, which is new. The last lines of earlier logs are ended."""
        for turn in itertools.count(1):
            mark = f"{number}.try{turn}" if turn > 1 else str(number)
            words, files = marked(self.options, mark)
            mode = mode_of(f"{mark}.log", out)
            if stat.S_ISREG(mode) and is_locked:
                if notes.is_written(f"{mark}.log", out):
                    raise Fault(f"another run has {self.at(number)}")
                end_last_line(f"{mark}.log", out, self.at(""))
            if not mode and not any(os.path.lexists(path) for file in files for path in (file, f"{file}.part")):
                with contextlib.suppress(FileExistsError):
                    return mark, words, notes.new_log(f"{mark}.log", out, is_locked)

    def start(self, number, out, running):
        """Starts the run of a share."""
        try:
            os.mkdir(str(number), dir_fd=out)
        except FileExistsError:
            pass
        except OSError as error:
            raise Fault(f"{self.at(number)}: {error.strerror}") from error
        with folder(str(number), out, f"{self.out}/") as share:
            is_locked = self.lock(number, share)
            if stat.S_ISLNK(mode_of("ocfl", share)):
                raise Fault(f"{self.at(f'{number}/ocfl')} is a link")
            self.take_staging(number, share, is_locked)
            mark, words, log = self.new_try(number, out, is_locked)
        words = [f"--created={self.created}", f"--name={self.name}", *words, f"--share={number}/{self.count}"]
        try:
            command = [self.program, "migrate", *words, "--", self.store, f"{self.out}/{number}"]
            running.begin(command, (number, mark), stdin=subprocess.DEVNULL, stdout=log)
        finally:
            os.close(log)

    def begin(self, number, out, running):
        """Begins with a share, unless the join has begun. False where it can't be, which is told."""
        try:
            if not self.joins(out):
                self.start(number, out, running)
        except (Fault, OSError, subprocess.SubprocessError) as error:
            say(f"share {number} of {self.count}: {reason(error)}")
            return False
        return True

    def end(self, number, mark, status, out):
        """What is done where the run of a share has ended. False unless it ended well, which is told."""
        log = f"{mark}.log"
        try:
            end_last_line(log, out, self.at(""))
        except OSError as error:
            say(f"share {number} of {self.count}: {reason(error)}")
        if status not in (0, 1):
            how = f"ended with status {status}" if status > 0 else f"was ended by signal {-status}"
            say(f"share {number} of {self.count} {how}; its log is {self.at(log)}")
        return status in (0, 1)

    def carry(self, numbers, jobs, out):
        """Carries shares, so many at once, unless the join has begun. Where one can't be carried the others are, and False is given."""
        waiting, is_well = collections.deque(numbers), True
        with Running() as running:
            while waiting or running.of:
                if waiting and len(running.of) < jobs:
                    is_well &= self.begin(waiting.popleft(), out, running)
                else:
                    status, (number, mark) = running.ended()
                    is_well &= self.end(number, mark, status, out)
        return is_well

    def joins(self, out):
        """Whether the join has begun."""
        return joins(out, self.at(JOINING))

    def hold(self, out):
        """Sees to it that no other script carries all shares into the open folder OUT, or joins them, as long as this one does."""
        if notes.lock(out) is False:
            raise Refused(f"another {CALLED} carries the shares in {shown(self.out)}, or joins them")

    def see_division(self, out):
        """Sees to it that the store is divided as it was before by what stands in the open folder OUT, where that is noted."""
        noted = division_in(out, self.out)
        if noted is None:
            self.division.note(out)
        noted = noted or division_in(out, self.out) or self.division
        if noted != self.division:
            raise Refused(f"by {self.at(DIVIDED)} the shares are {noted}, not {self.division}: give what was given before, or another OUT")

    def see_ended(self, out):
        """Sees to it that each share of which a log stands in the open folder OUT has ended. Once the join has begun all have."""
        see_count(out, self.out, self.count)
        found = {} if self.count == 1 or self.joins(out) else Shares(out, self.count, False, lambda mark: []).found
        left = sorted(number for what, numbers in found.items() if what not in (DONE, NOT_BEGUN, ROOTLESS) for number in numbers)
        if left:
            raise Refused(f"the shares aren't joined: not ended well: {spans(left)} of {self.count}; {CALLED} status {self.count} tells of each")

    def see_roots(self, out):
        """Sees to it that each share has a root, behind no link."""
        for number in range(1, self.count + 1):
            with folder(str(number), out, f"{self.out}/") as share:
                if not stat.S_ISDIR(mode_of("ocfl", share)):
                    raise Fault(f"{self.at(f'{number}/ocfl')} isn't there, or no folder")

    def join(self, out):
        """Moves the objects of all other shares into the root of the first, and looks whether each object is whole; gives the status."""
        names = [f"{number}/ocfl" for number in range(1, self.count + 1)]
        if self.count > 1:
            self.see_roots(out)
            # Another join may have made it just now: by the locks one of the two goes on.
            with contextlib.suppress(FileExistsError):
                os.close(os.open(JOINING, notes.NEW, 0o666, dir_fd=out))
            self.joins(out)
            status = self.noted(out, "join", *names)
            if status:
                return status
        return self.noted(out, "damaged", names[0])

    def noted(self, out, *words):
        """The status of roots.py, which is noted in OUT/joining, where that stands."""
        status = self.by_roots(*words)
        try:
            if self.joins(out):
                notes.add_line(b"%s ended with status %d\n" % (words[0].encode(), status), JOINING, out)
        except (Fault, OSError) as error:
            say(f"{self.at(JOINING)}: how the join ended isn't noted: {reason(error)}")
        return status

    def by_roots(self, *words):
        """The status of roots.py, in OUT."""
        with Running() as running:
            running.begin([sys.executable, "-B", self.roots, *words], None, cwd=self.out)
            status = running.ended()[0]
        if status < 0:
            raise Fault(f"{shown(self.roots)} was ended by signal {-status}")
        return status


def program_here():
    """The program's name on the PATH, or its path."""
    name = os.environ.get("PROGRAM") or "pairtree2ocfl"
    if not shutil.which(name):
        raise Refused(f"there is no program {shown(name)}: name it by PROGRAM")
    return os.path.abspath(name) if "/" in name else name


def roots_here():
    """The path of roots.py."""
    path = os.path.abspath(os.environ.get("ROOTS") or f"{os.path.dirname(SCRIPT)}/roots.py")
    if not os.path.isfile(path):
        raise Refused(f"there is no {shown(path)}: name it by ROOTS")
    return path


def division_in(out, path):
    """How the store is divided, as the open folder OUT, at this path, notes it; `None` where it doesn't."""
    if notes.is_no_file(DIVIDED, out):
        raise Fault(f"{shown(f'{path}/{DIVIDED}')} is no file, or a link")
    return Division.noted(out)


def see_count(out, path, count):
    """Sees to it that so many shares are in the open folder OUT, at this path, where that is noted."""
    noted = division_in(out, path)
    if noted and noted.count != count:
        raise Refused(f"by {shown(f'{path}/{DIVIDED}')} the shares are {noted}, not {count}")


@contextlib.contextmanager
def opened(store, is_alone=False):
    """The folder OUT, open, made if it isn't there."""
    os.makedirs(store.out, exist_ok=True)
    with folder(store.out) as out:
        if is_alone:
            store.hold(out)
        store.joins(out)
        store.see_division(out)
        yield out


def here(store):
    """Carries all shares on this machine, and joins them; gives the status."""
    jobs = jobs_at_once()
    with opened(store, is_alone=True) as out:
        if store.joins(out):
            say(f"{store.at(JOINING)} stands: the join has begun, so no share is carried any more")
        if not store.carry(range(1, store.count + 1), jobs, out):
            raise Fault("the shares aren't joined: give the same command again where what is named above is mended")
        return join_of(store, out)


def join_of(store, out):
    """Joins the roots of the shares, and gives the status."""
    try:
        return store.join(out)
    except Fault as fault:
        raise Fault(f"the shares aren't joined: {fault}") from fault


def sent(words, environment):
    """The number of a job of Slurm's that was sent by these words."""
    done = subprocess.run(["sbatch", "--parsable", *words], env=environment, stdout=subprocess.PIPE, check=False)
    if done.returncode:
        raise Fault(f"sbatch ended with status {done.returncode}")
    return done.stdout.decode(errors="replace").strip()


def cluster(store):
    """Sends the shares to Slurm, and behind them the join, whose number is printed; gives the status."""
    if not shutil.which("sbatch"):
        raise Refused("there is no sbatch: Slurm isn't here")
    with opened(store) as out:
        for name in (*(f"{number}.err" for number in range(1, store.count + 1)), "join.out"):
            if mode_of(name, out) and not stat.S_ISREG(mode_of(name, out)):
                raise Fault(f"{store.at(name)} is no file, or a link: nothing is sent")
    told = {"STORE": store.store, "OUT": store.out, "PROGRAM": store.program, "ROOTS": store.roots}
    environment, place = {**os.environ, **told}, store.out.replace("%", "%%")
    script, options = f"exec python3 {shlex.quote(SCRIPT)}", " ".join(map(shlex.quote, store.options))
    share = ["--requeue", "--open-mode=append", f"--array=1-{store.count}", f"--output={place}/%a.err", "--job-name=share"]
    array = sent([*share, f'--wrap={script} share "$SLURM_ARRAY_TASK_ID" {store.count} -- {options}'], environment)
    after = [f"--dependency=afterok:{array.split(';')[0]}", f"--output={place}/join.out", "--job-name=join"]
    os.write(1, f"{sent([*after, f'--wrap={script} join {store.count}'], environment)}\n".encode())
    return 0


def one_share(store, number):
    """Carries one share, and gives the status."""
    with opened(store) as out:
        return 0 if store.carry([number], 1, out) else 3


def status(count, options):
    """Tells how far the shares are, and gives the status."""
    path = os.environ.get("OUT", "")
    if not path:
        raise Refused("OUT is not set: --help says what it is")
    try:
        with folder(path) as out:
            has_begun = joins(out, shown(f"{path}/{JOINING}"))
            see_count(out, path, count)
            return tell(Shares(out, count, has_begun, lambda mark: marked(options, mark)[1]), shown(CALLED))
    except (Fault, OSError) as error:
        raise Refused(reason(error)) from error


def usage():
    """How the script is called, and what it does, where Python keeps that."""
    return (__doc__ or "").replace("{called}", CALLED)


def run(words):
    """Does what the words ask for, and gives the status."""
    at = words.index("--") if "--" in words else len(words)
    own, options = words[:at], words[at + 1 :]
    if "--help" in own or "-h" in own:
        os.write(1, usage().encode())
        return 0
    command, *numbers = own or [""]
    wanted = {"here": 1, "cluster": 1, "share": 2, "join": 1, "status": 1}.get(command)
    if wanted is None or len(numbers) > wanted or (command == "join" and options):
        raise Refused(f"the words are wrong\n\n{usage()}")
    numbers += [""] * (wanted - len(numbers))
    if command == "status":
        return status(number_in(numbers[-1], "N"), options)
    store = Store(number_in(numbers[-1], "N"), options)
    if command == "share":
        return one_share(store, number_in(numbers[0], "K", store.count))
    if command == "join":
        with folder(store.out) as out:
            store.hold(out)
            store.see_ended(out)
            return join_of(store, out)
    return here(store) if command == "here" else cluster(store)


def main():
    starting.heed(starting.STOPS)
    try:
        return run(sys.argv[1:])
    except Refused as refused:
        say(refused)
        return 2
    except (Fault, OSError) as error:
        say(reason(error))
    except KeyboardInterrupt:
        starting.heed_no_more()
        say("stopped; the same command goes on")
    finally:
        starting.heed_no_more()
    return 3


if __name__ == "__main__":
    starting.begin()
    sys.exit(main())
