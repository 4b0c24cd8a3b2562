"""The built program's tests: the status and both streams of each case.

Usage: program.py PROGRAM. The last line is 'N passed, M failed'.
"""

import hashlib
import os
import re
import subprocess
import sys


class Case:
    """Arguments, and what the program must answer. A stream is given whole, or as a function that judges it. Standard input is
    nothing unless it is given: as bytes, or by what `subprocess.run` is told."""

    def __init__(self, name, args, status, out=b"", err=b"", stdout_file=None, stdin=None):
        self.name = name
        self.args = args
        self.status = status
        self.out = out
        self.err = err
        self.stdout_file = stdout_file
        self.stdin = {"input": stdin} if isinstance(stdin, bytes) else stdin or {"stdin": subprocess.DEVNULL}

    def faults(self, *program):
        """What the program does that it should not, which these words run."""
        with open(self.stdout_file or os.devnull, "wb") as stdout_file:
            done = subprocess.run(
                [*program, *self.args],
                **self.stdin,
                stdout=stdout_file if self.stdout_file else subprocess.PIPE,
                stderr=subprocess.PIPE,
                timeout=60,
            )
        if done.returncode != self.status:
            yield f"the status is {done.returncode}, not {self.status}"
        streams = (("standard output", done.stdout or b"", self.out), ("standard error", done.stderr, self.err))
        for stream, found, wanted in streams:
            if not (wanted(found) if callable(wanted) else found == wanted):
                yield f"{stream} is {found!r}" + ("" if callable(wanted) else f", not {wanted!r}")


def names(identifier, pairpath, place):
    """The case of `names`, with its two lines."""
    return Case(f"names {identifier[:40]!r}", ["names", identifier], 0, f"{pairpath}\n{place}\n".encode())


def tuples(identifier):
    """The three tuples of three digits that stand before the last name."""
    digits = hashlib.sha256(identifier).hexdigest()
    return "/".join((digits[0:3], digits[3:6], digits[6:9]))


def in_pairs(text):
    """A text in pieces of two with `/` between."""
    return "/".join(text[i : i + 2] for i in range(0, len(text), 2))


def is_help(text):
    """The parser's help, which tells how the program is used and lists its commands."""
    return b"Usage: pairtree2ocfl" in text and b"names" in text


LONGEST = 100


def fits(text):
    """No line of help has more than 100 characters."""
    return all(len(line) <= LONGEST for line in text.decode().split("\n"))


def options_of(text):
    """What help says of options: all that is indented below their heading."""
    return re.search(rb"(?m)^Options:\n((?: .*\n|\n)*)", text)[1]


def is_short_help(text):
    """Help by `-h`: an option a line, with what it is, and nothing behind the options; where it leads to more, it says so."""
    lines = options_of(text).decode().splitlines()
    told = [re.match(r" {2}(?:-\w, | {4})--[a-z-]+(?: <[A-Z/]+>)? {2,}\S", line) for line in lines]
    return fits(text) and bool(lines) and all(told) and text.endswith("\n".join(lines).encode() + b"\n") and (b"[default: 3]" in text or b"Commands:" in text)


def is_long_help(text):
    """Help by `--help`: each option has lines of its own, and behind all stands what each exit status means."""
    heads = re.findall(rb"(?m)^ +(?:-\w, )?--[a-z-]+(?: <[A-Z/]+>)?\n {10}\S", options_of(text))
    return fits(text) and len(heads) == len(re.findall(rb"(?m)^ {2}(?:-\w, | {4})--", text)) > 5 and b"\n\nExit status:\n  0  " in text


def says_more(text):
    """Help of `migrate` by `--help` says what a line of `-h` has no room for."""
    more = (b"the prefix included", b"\n          may be given again\n", b"where they don't go to a terminal", b"[possible values: auto, always, never]")
    return is_long_help(text) and all(one in text for one in more) and b"\n  skip     not carried" in text


def is_help_on_audit(text):
    """The help of `audit`, whose options say what it does, and nothing of what a run does."""
    options = options_of(text)
    said = (b"Audit only the objects of share K of N", b"Audit what lies directly", b"how far the audit is", b"a run, a rehearsal or an audit")
    return b"Usage: pairtree2ocfl audit" in text and all(one in options for one in said) and not re.search(rb"[Cc]arr|the run\b|staging", options)


def is_help_on_check(text):
    """The help of `check`, which takes a source alone, and whose line on each trouble says what it is."""
    words = (b"unreadable", b"missing", b"prefix", b"doubtful", b"spelling", b"deep", b"long", b"many", b"large", b"place", b"desktop", b"width", b"end")
    said = all(b"\n  %s  " % word in text for word in words) and b"\n  root, empty, split, past, name, utf8, reserved, other\n" in text
    return is_long_help(text) and said and b"Usage: pairtree2ocfl check [OPTIONS] <SOURCE>\n" in text and b"<DEST>" not in text.partition(b"Options:")[0]


def is_version(text):
    """The name, the version, and on a line of its own the toolchain's."""
    return re.fullmatch(rb"pairtree2ocfl \d+\.\d+\.\d+\nrattle-kit-\S+ logic [0-9a-f]{16}\n", text) is not None


def is_refusal(text):
    """The parser's refusal: what is wrong, and how the program is used."""
    return text.startswith(b"error: ") and b"Usage: pairtree2ocfl" in text


def hints(word, *behind):
    """A judge of the parser's refusal of an unexpected word: it has one hint, and that is this."""
    return lambda err: err.startswith(f"error: unexpected argument '{word}' found\n\n".encode()) and re.findall(r"(?m)^  tip: (.*)$", err.decode()) == [*behind]


def helps():
    """Help of each command, by a line an option and at length; and what is hinted at where a word isn't known."""
    for command in ([], ["migrate"], ["audit"], ["check"], ["names"]):
        yield Case(f"short help: {' '.join(command)}", [*command, "-h"], 0, is_short_help)
        yield Case(f"help in lines of 100: {' '.join(command)}", [*command, "--help"], 0, fits)
    for command in ("migrate", "audit", "check"):
        yield Case(f"long help: {command}", [command, "--help"], 0, is_long_help)
        yield Case(f"long help by help: {command}", ["help", command], 0, is_long_help)
    yield Case("what long help says more", ["migrate", "--help"], 0, says_more)
    for shown, words, tip in (
        ("-5", ["--interval", "-5"], "to pass '-5' as the value of '--interval', use '--interval=-5'"),
        ("-1", ["--gather", "--interval", "-15"], "to pass '-15' as the value of '--interval', use '--interval=-15'"),
        ("-x", ["--message", "-x y"], "to pass '-x y' as the value of '--message', use '--message=-x y'"),
        ("--zzz", ["--message", "--zzz"], "to pass '--zzz' as the value of '--message', use '--message=--zzz'"),
        ("-5", ["--gather", "-5"], "to pass '-5' as a value, use '-- -5'"),
    ):
        yield Case(f"a hint: {' '.join(words)}", ["migrate", *words, "s", "d"], 2, b"", hints(shown, tip))
    yield Case("a hint for an identifier", ["names", "-5"], 2, b"", hints("-5", "to pass '-5' as a value, use '-- -5'"))
    yield Case("the hint taken", ["names", "--", "-5"], 0, f"-5\n{tuples(b'-5')}/-5\n".encode())
    below = b"error: invalid value '-5' for '--interval <SECONDS>': -5 is not in 0..=4294967295\n"
    yield Case("a number below 0", ["audit", "--interval=-5", "s", "d"], 2, b"", lambda err: err.startswith(below))


def long_cases():
    """Last names at the limit of 100 characters, and beyond."""
    hundred = "a" * 100
    yield names(hundred, in_pairs(hundred), f"{tuples(hundred.encode())}/{hundred}")
    longer = "a" * 101
    digits = hashlib.sha256(longer.encode()).hexdigest()
    yield names(longer, in_pairs(longer), f"{tuples(longer.encode())}/{hundred}-{digits}")
    slashes = "/" * 33 + "a"
    yield names(slashes, in_pairs("=" * 33 + "a"), f"{tuples(slashes.encode())}/{'%2f' * 33}a")
    more = "/" * 34
    digits = hashlib.sha256(more.encode()).hexdigest()
    yield names(more, in_pairs("=" * 34), f"{tuples(more.encode())}/{'%2f' * 33}%-{digits}")


FULL = b"pairtree2ocfl: fault 3: cannot write the output\n"


def of_layout(words, identifier, pairpath, place):
    """The case of `names` with these options before the identifier."""
    name = f"names {' '.join(words)} {identifier}"
    return Case(name, ["names", *words, identifier], 0, f"{pairpath}\n{place}\n".encode())


NO_LAYOUT = "the tuples are out of range: --tuple-size and --tuples are each from 1 to 32, with a product of at most 64, or both 0"


def no_layout(*words):
    """The case of `names` with numbers that are no layout."""
    return Case(f"names {' '.join(words)}", ["names", *words, "a"], 2, b"", f"pairtree2ocfl: {NO_LAYOUT}\n".encode())


def layouts():
    """Places in a store's own layout, and with its prefix."""
    digits = hashlib.sha256(b"uc1.abc").hexdigest()
    yield of_layout(["--prefix", "uc1."], "abc", "ab/c", f"{tuples(b'uc1.abc')}/uc1%2eabc")
    cut = "/".join(digits[2 * i : 2 * i + 2] for i in range(4))
    four = ["--prefix", "uc1.", "--tuple-size", "2", "--tuples", "4"]
    yield of_layout(four, "abc", "ab/c", f"{cut}/uc1%2eabc")
    yield of_layout(["--tuple-size=0", "--tuples=0"], "abc", "ab/c", "abc")
    yield of_layout(["--prefix", ""], "abc", "ab/c", "ba7/816/bf8/abc")
    yield no_layout("--tuples", "0")
    yield no_layout("--tuple-size", "33")
    yield Case("the empty identifier after a prefix", ["names", "--prefix", "a", ""], 2, b"", EMPTY)
    yield Case("a number that is none", ["names", "--tuples", "x", "a"], 2, b"", lambda err: err.startswith(b"error: "))


def cleaned(identifier):
    """An identifier as Pairtree 0.1 cleans it, byte by byte."""
    for byte in identifier:
        if byte in b"/:.":
            yield "=+,"["/:.".index(chr(byte))]
        else:
            yield chr(byte) if 0x21 <= byte <= 0x7E and byte not in b'"*+,<=>?\\^|' else f"^{byte:02x}"


def line_of(identifier, prefix=b""):
    """What `names -` writes for an identifier: its pairpath, a tab, and its place in the default layout."""
    whole = prefix + identifier
    plain = b"ABCDEFGHIJKLMNOPQRSTUVWXYZabcdefghijklmnopqrstuvwxyz0123456789-_"
    last = "".join(chr(byte) if byte in plain else f"%{byte:02x}" for byte in whole)
    if len(last) > 100:
        last = f"{last[:100]}-{hashlib.sha256(whole).hexdigest()}"
    return f"{in_pairs(''.join(cleaned(identifier)))}\t{tuples(whole)}/{last}\n".encode()


def lines(name, stdin, *identifiers, bad=None, words=(), prefix=b""):
    """The case of `names -` over these bytes, in which these identifiers are, and then, if so, a line with this against it."""
    err = f"pairtree2ocfl: line {len(identifiers) + 1}: the identifier {bad}\n".encode() if bad else b""
    out = b"".join(line_of(identifier, prefix) for identifier in identifiers)
    return Case(f"names -: {name}", ["names", *words, "-"], 2 if bad else 0, out, err, stdin=stdin)


def of_input():
    """The identifiers on standard input: what is a line, what is one too many, and what ends it."""
    long, many = b"x" * 65536, [b"ark:/13030/xt%d" % number for number in range(20000)]
    short = [b"a" * 20, b"b" * 21, b"c" * 22, "\u00e9.\u65e5".encode()]
    yield lines("several lines", b"abc\nark:/13030/xt12t3\n\\ \n", b"abc", b"ark:/13030/xt12t3", b"\\ ")
    yield lines("CR LF", b"abc\r\nd\re\r\r\nf\n", b"abc", b"d\re\r", b"f")
    yield lines("a last line without LF", b"abc\nde", b"abc", b"de")
    yield lines("a last line that ends with CR alone", b"abc\nde\r", b"abc", b"de\r")
    yield lines("nothing", b"")
    yield lines("names of 20, 21 and 22 bytes", b"\n".join(short), *short)
    yield lines("a prefix", b"abc\n-\n", b"abc", b"-", words=["--prefix", "uc1."], prefix=b"uc1.")
    yield lines("many lines", b"".join(one + b"\n" for one in many), *many)
    yield lines("a line of 65536 bytes", b"a\n" + long + b"\n" + long + b"\r\nb\n" + long, b"a", long, long, b"b", long)
    for end in (b"\n", b"\r\n", b"", b"\r", b"y\nb\n"):
        bad = "has more than 65536 bytes"
        yield lines(f"a line of more, with {end!r} behind", b"a\n" + long + b"x" + end, b"a", bad=bad)
    yield lines("a line that does not end", b"a\n" + long * 40, b"a", bad="has more than 65536 bytes")
    yield lines("an empty line", b"a\n\nb\n", b"a", bad="is empty")
    yield lines("an empty line that ends with CR LF", b"a\r\n\r\nb\n", b"a", bad="is empty")
    yield lines("a line that is not UTF-8", b"a\nb\n\xff\nd\n", b"a", b"b", bad="is not UTF-8")
    unread = b"pairtree2ocfl: cannot read standard input\n"
    yield Case("names -: a closed input", ["names", "-"], 3, b"", unread, stdin={"preexec_fn": lambda: os.close(0)})
    yield Case("names -: a directory", ["names", "-"], 3, b"", unread, stdin={"stdin": os.open("/", os.O_RDONLY)})
    yield Case("names -: an output that is full", ["names", "-"], 3, b"", FULL, "/dev/full", stdin=b"abc\n")
    yield Case("names -: no line, to an output that is full", ["names", "-"], 0, b"", b"", "/dev/full", stdin=b"")


EMPTY = b"pairtree2ocfl: the identifier is empty\n"
NOT_A_NAME = b"pairtree2ocfl: --ignore is not the name of a file or folder\n"
ABSENT = (
    b'{"as":"unreadable","path":"","reason":"No such file or directory (os error 2)"}\n'
    b'{"as":"end","bytes":0,"files":0,"folders":0,"largest":0,"longest":0,"objects":0,"sites":0,"told":1,"unreadable":1}\n'
)
CASES = [
    names("abc", "ab/c", "ba7/816/bf8/abc"),
    names("ark:/13030/xt12t3", "ar/k+/=1/30/30/=x/t1/2t/3", "4b8/4fe/385/ark%3a%2f13030%2fxt12t3"),
    names("..hor/rib:le-$id", ",,/ho/r=/ri/b+/le/-$/id", "487/326/d8c/%2e%2ehor%2frib%3ale-%24id"),
    names("object-01", "ob/je/ct/-0/1", "3c0/ff4/240/object-01"),
    names(
        "what-the-*@?#!^!?",
        "wh/at/-t/he/-^/2a/@^/3f/#!/^5/e!/^3/f",
        "fd1/d8a/b04/what-the-%2a%40%3f%23%21%5e%21%3f",
    ),
    names(
        "http://n2t.info/urn:nbn:se:kb:repos-1",
        in_pairs("http+==n2t,info=urn+nbn+se+kb+repos-1"),
        tuples(b"http://n2t.info/urn:nbn:se:kb:repos-1")
        + "/http%3a%2f%2fn2t%2einfo%2furn%3anbn%3ase%3akb%3arepos-1",
    ),
    names("\u00e9", "^c/3^/a9", tuples(b"\xc3\xa9") + "/%c3%a9"),
    names("a\\ b", "a^/5c/^2/0b", tuples(b"a\\ b") + "/a%5c%20b"),
    *long_cases(),
    *layouts(),
    *of_input(),
    *helps(),
    Case("help on standard output", ["--help"], 0, is_help),
    Case("help on one command", ["names", "--help"], 0, is_help),
    Case("help on audit", ["audit", "--help"], 0, is_help_on_audit),
    Case("help on check", ["check", "--help"], 0, is_help_on_check),
    Case("a check of nothing that is named", ["check"], 2, b"", is_refusal),
    Case("a check of two stores", ["check", "s", "d"], 2, b"", is_refusal),
    Case("a check with an option of a run", ["check", "--sync", "s"], 2, b"", is_refusal),
    Case("a check that ignores what is no name", ["check", "--ignore", "a/b", "s"], 2, b"", NOT_A_NAME),
    Case("a check into an empty word", ["check", "--dest", "", "s"], 2, b"", b"pairtree2ocfl: --dest is empty\n"),
    Case("a check that ignores what is no name, into an empty word", ["check", "--dest=", "--ignore=", "s"], 2, b"", NOT_A_NAME),
    Case("a check with an empty event", ["check", "--event", "", "s"], 2, b"", b"pairtree2ocfl: --event is empty\n"),
    Case("a check into an empty word with an empty event", ["check", "--event=", "--dest=", "s"], 2, b"", b"pairtree2ocfl: --dest is empty\n"),
    Case("an audit with an empty event", ["audit", "--event", "", "s", "d"], 2, b"", b"pairtree2ocfl: --event is empty\n"),
    Case("an audit of an empty list", ["audit", "--list", "", "s", "d"], 2, b"", b"pairtree2ocfl: --list is empty\n"),
    Case("a check of what isn't there", ["check", "/none"], 3, ABSENT),
    Case("a check to an output that is full", ["check", "/none"], 3, b"", FULL, "/dev/full"),
    Case("the empty identifier", ["names", ""], 2, b"", b"pairtree2ocfl: the identifier is empty\n"),
    Case("no words at all", [], 2, b"", is_refusal),
    Case("names without an identifier", ["names"], 2, b"", is_refusal),
    Case("two identifiers", ["names", "a", "b"], 2, b"", is_refusal),
    Case("a command that there isn't", ["carry"], 2, b"", is_refusal),
    Case("the version", ["--version"], 0, is_version),
    Case("the version, shortly", ["-V"], 0, is_version),
    Case("the version to an output that is full", ["-V"], 3, b"", FULL, "/dev/full"),
    Case("a version of names", ["names", "--version"], 2, b"", is_refusal),
    Case(
        "arguments that are not UTF-8",
        ["names", b"\xff"],
        2,
        b"",
        b"pairtree2ocfl: the arguments are not text\n",
    ),
    Case(
        "an output that is full",
        ["names", "abc"],
        3,
        b"",
        b"pairtree2ocfl: fault 3: cannot write the output\n",
        "/dev/full",
    ),
    Case(
        "help to an output that is full",
        ["--help"],
        3,
        b"",
        b"pairtree2ocfl: fault 3: cannot write the output\n",
        "/dev/full",
    ),
]


def run_cases(program, cases=None):
    """Runs each case, or these, says what is wrong, and gives how many passed and failed."""
    passed = failed = 0
    for case in CASES if cases is None else cases:
        faults = list(case.faults(os.path.abspath(program)))
        for fault in faults:
            print(f"{case.name}: {fault}")
        print(f"program {case.name} ... {'FAILED' if faults else 'ok'}")
        passed, failed = passed + (not faults), failed + bool(faults)
    return passed, failed


if __name__ == "__main__":
    PASSED, FAILED = run_cases(sys.argv[1])
    print(f"{PASSED} passed, {FAILED} failed")
    sys.exit(1 if FAILED else 0)
