#!/usr/bin/env python3
"""Prints what the contracts cite, or the wrong bodies that the prover has to refuse, each with what it means.

Usage: index.py model|wrong [WORDS..]. `model` prints, crate by crate and file by file, each public definition of crates/*/specs with the comment above it;
`wrong` each edit of crates/*/must-fail with its first comment line. With WORDS only those crates, files, definitions or edits are printed whose name has one
of them.
"""

import glob
import os
import re
import sys

TOP = os.path.dirname(os.path.dirname(os.path.abspath(__file__)))
DEFINITION = re.compile(
    r"^(?:(?:abbrev|unfoldable|opaque) )*pub (?!mod\b|use\b)(?:(?:abbrev|unfoldable|opaque|data|record) )*(\S+)"
    # In a module without a name; what stands there without such a word looks as a record's field does.
    r"|^ +(?:abbrev pub|pub (?:data|record)) (\S+)"
)


def crates():
    """The crates, lowest first, as crates.txt has them."""
    with open(f"{TOP}/crates.txt", encoding="utf-8") as file:
        return re.findall(r"^(\w+):", file.read(), re.MULTILINE)


def lines_of(path):
    """The lines of a file of the repository."""
    with open(f"{TOP}/{path}", encoding="utf-8") as file:
        return file.read().splitlines()


def comment_above(lines, number):
    """The comment right above a line, as one text; lines that fix or unfold stand between them, a section's heading is none."""
    above = number - 1
    while above >= 0 and re.match(r"(?:infix[lr]? |unfolding )", lines[above]):
        above -= 1
    found = []
    while above >= 0 and lines[above].lstrip().startswith("-- ") and not lines[above].startswith("-- --"):
        found.insert(0, lines[above].lstrip().removeprefix("-- "))
        above -= 1
    return " ".join(found)


def definitions(path):
    """The public definitions of a file of specs, each with the comment above it."""
    lines = lines_of(path)
    return [(match[1] or match[2], comment_above(lines, number)) for number, line in enumerate(lines) if (match := DEFINITION.match(line))]


def specs(crate):
    """The files of definitions of a crate, but for the list of them."""
    found = glob.glob(f"crates/{crate}/specs/**/*.antt", root_dir=TOP, recursive=True)
    return sorted(path for path in found if not path.endswith("/Lib.antt"))


def edits(crate):
    """The edits of a crate, each with its first comment line, which says what the wrong body does."""
    for path in sorted(glob.glob(f"crates/{crate}/must-fail/*.edit", root_dir=TOP)):
        said = [line.removeprefix("-- ") for line in lines_of(path) if line.startswith("-- ")]
        yield os.path.basename(path), said[0] if said else ""


def model(is_asked):
    """The lines that tell of the definitions."""
    for crate in crates():
        for path in specs(crate):
            subject = lines_of(path)[0].removeprefix("-- ")
            named = [(name, text) for name, text in definitions(path) if is_asked(crate, path, name)]
            if named:
                yield f"\n{path}: {subject}"
            yield from (f"  {name}: {text}" for name, text in named)


def wrong(is_asked):
    """The lines that tell of the edits."""
    for crate in crates():
        told = [(name, text) for name, text in edits(crate) if is_asked(crate, name)]
        if told:
            yield f"\n{crate}"
        yield from (f"  {text} ({name})" for name, text in told)


def main():
    kinds = {"model": model, "wrong": wrong}
    if len(sys.argv) < 2 or sys.argv[1] not in kinds:
        sys.exit(__doc__)
    words = sys.argv[2:]
    print("\n".join(kinds[sys.argv[1]](lambda *names: not words or any(word in name for word in words for name in names))).strip("\n"))


if __name__ == "__main__":
    main()
