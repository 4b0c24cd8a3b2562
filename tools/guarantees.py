#!/usr/bin/env python3
"""Prints, crate by crate, which promises rest on the definitions of that crate, and so which guarantees of README.

Usage: guarantees.py [CRATES..]. A promise is a clause of a run (`Migrates` of pt_move), of a step (`StepPromises` there), of an audit on a machine
(`AuditsOver` of pt_host) or of a check (`Checks` of pt_check, `ChecksOver` of pt_host); what the program's own calls say beside these (`Runs`,
`Audits`, `ChecksStore`); or the laws on shares (pt_plan). It rests on a definition where its text names that, or a definition that does, and so on.
With CRATES only these are told.
"""

import collections
import glob
import os
import re
import sys

import index

START = re.compile(r"^ *(?:(?:abbrev|unfoldable|opaque|pub|data|record|infix[lr]?) )*([^\s:()]+)(?= .*:| :|$)")
TOP_LEVEL = re.compile(r"^(?:abbrev |unfoldable |opaque |pub |data |record )|^  (?:abbrev pub|pub data|pub record) ")
FIELD = re.compile(r"^ {2}pub (\w+) :")
USE = re.compile(r"^use Rattle\.(\w+)\.specs\.([\w.]+?)(?:\.\{([^}]*)\})?(?: as \w+)?$")
WORD = re.compile(r"[^\s(){}.,:→×λ◌]+")

# The records whose fields are promises, with what they are promises of.
RECORDS = {
    "a run": ("pt_move", "Migrates", "Migrates"),
    "a step": ("pt_move", "Promises", "StepPromises"),
    "an audit": ("pt_host", "Audits", "AuditsOver"),
    "a check": ("pt_check", "Visits", "Checks"),
    "a check by the command": ("pt_host", "Checking", "ChecksOver"),
}

# What the program's own calls say, of which these records are a part.
CALLS = {"Runs": ("pt_host", "Made", "Runs"), "Audits": ("pt_host", "Audits", "Audits"), "ChecksStore": ("pt_host", "Checking", "ChecksStore")}


def texts(path):
    """The definitions of a file of specs: the lines of each by its name, its comment left out."""
    found, name = {}, None
    for line in index.lines_of(path):
        if line.startswith("module "):
            # What the definitions behind it have in common is none of the one before it.
            name = None
        elif TOP_LEVEL.match(line) and not line.startswith(("pub mod", "pub use")):
            name = START.match(line)[1]
        if name and not line.lstrip().startswith(("--", "use ")):
            found.setdefault(name, []).append(line)
    return found


def constructors(lines):
    """The constructors of a definition, if it is a `data`."""
    if not re.match(r"^(?: *)(?:pub )?data ", lines[0]):
        return []
    return [match[1] for line in lines[1:] if (match := re.match(r"^ {2}(\w+) :", line))]


def uses(path):
    """The `use` lines of a file of specs, each as one line."""
    text = "\n".join(index.lines_of(path))
    return [" ".join(found.split()) for found in re.findall(r"^ *use [^{\n]*(?:\{[^}]*\})?[^{\n]*$", text, re.MULTILINE)]


class Definitions:
    """All definitions of the crates' specs, and what each names."""

    def __init__(self):
        self.lines, self.local, self.imported = {}, {}, {}
        for crate in index.crates():
            for path in index.specs(crate):
                self.read(crate, path)

    def read(self, crate, path):
        """Reads a file: its definitions, under which words they go, and what it takes from other files."""
        place = (crate, path.split("/specs/")[1].removesuffix(".antt").replace("/", "."))
        self.local[place] = {}
        for name, lines in texts(path).items():
            self.lines[(*place, name)] = lines
            for word in [name, *constructors(lines)]:
                self.local[place][word] = name
        self.imported[place] = {}
        for line in uses(path):
            if match := USE.match(line):
                for taken in (match[3] or "").split(","):
                    name, _, new = taken.strip().partition(" as ")
                    self.imported[place][new or name] = (match[1], match[2], name)

    def find(self, place, word):
        """The definition that a word of a file means; None where it is none of the crates' specs."""
        if word in self.local[place]:
            return (*place, self.local[place][word])
        taken = self.imported[place].get(word)
        if not taken or taken[:2] not in self.local:
            return None
        name = self.local[taken[:2]].get(taken[2])
        return name and (*taken[:2], name)

    def named(self, place, lines):
        """The definitions that a text of a file names."""
        return {found for line in lines for word in WORD.findall(line.split(" -- ")[0]) if (found := self.find(place, word))}

    def rests_on(self, place, lines, without=()):
        """All definitions that a text of a file rests on, but for some and what stands behind these."""
        todo, seen = self.named(place, lines) - set(without), set()
        while todo:
            one = todo.pop()
            seen.add(one)
            todo |= self.named(one[:2], self.lines[one]) - seen - set(without)
        return seen


def fields(lines):
    """The fields of a record, each with its lines."""
    found, name = {}, None
    for line in lines:
        if match := FIELD.match(line):
            name = match[1]
        if name:
            found.setdefault(name, []).append(line)
    return found


def promises(definitions):
    """Each promise by what it is of and its name, with the crates whose definitions it rests on."""
    for what, record in RECORDS.items():
        for name, lines in fields(definitions.lines[record]).items():
            yield what, name, {record[0], *(one[0] for one in definitions.rests_on(record[:2], lines))}
    for what, call in CALLS.items():
        found = definitions.rests_on(call[:2], definitions.lines[call], RECORDS.values())
        yield "the program's calls", what, {call[0], *(one[0] for one in found)}
    place = ("pt_plan", "ShareLaws")
    lines = [line for name in definitions.local[place] for line in definitions.lines.get((*place, name), [])]
    yield "shares", "their laws", {"pt_plan", *(one[0] for one in definitions.rests_on(place, lines))}


def guarantees():
    """The guarantees of README: the name of each, with the links that say on what it rests."""
    with open(f"{index.TOP}/README.md", encoding="utf-8") as file:
        section = re.search(r"^## Ten guarantees$(.*?)^## ", file.read(), re.MULTILINE | re.DOTALL)[1]
    for item in re.split(r"^\d+\. ", section, flags=re.MULTILINE)[1:]:
        name = re.match(r"\*\*(.*?)\.\*\*", item)[1]
        yield name, set(re.findall(r"`(\w+)`(?=[^(]*\]\()", item.replace("\n", " "))), item


def is_of(item, words, what, name):
    """Whether a guarantee rests on a promise: by the name that it links, or by what it speaks of."""
    if what in ("a run", "a step"):
        return name in words
    if what == "an audit":
        return "#an-audit" in item
    return what == "shares" and "#shares-of-one-store" in item


def tested_alone(crate):
    """What GUARANTEES says of a crate that no contract holds: the beginning of each such point."""
    with open(f"{index.TOP}/docs/GUARANTEES.md", encoding="utf-8") as file:
        section = re.search(r"^### What no contract holds, and why$(.*?)^## ", file.read(), re.MULTILINE | re.DOTALL)[1]
    for item in re.split(r"^- ", section, flags=re.MULTILINE)[1:]:
        crates, _, said = " ".join(item.split()).partition(": ")
        if crate in re.split(r", ", crates):
            yield said.split(". ")[0].rstrip(".")


def said(crate, definitions):
    """The definitions of other crates that the clauses of a crate's public functions name, the most named first."""
    counts = collections.Counter()
    for path in sorted(glob.glob(f"{index.TOP}/crates/{crate}/src/**/*.rt", recursive=True)):
        with open(path, encoding="utf-8") as file:
            text = file.read()
        taken = {}
        for of, place, names in re.findall(r"ghost use Rattle\.(\w+)\.specs\.([\w.]+?)\.\{([^}]*)\}", text):
            taken |= {name.strip().partition(" as ")[2] or name.strip(): (of, place, name.strip().partition(" as ")[0]) for name in names.split(",")}
        for clauses in re.findall(r"^ *pub fn .*?\n((?: +(?:requires|ensures).*\n(?: {8}.*\n)*)+)", text, re.MULTILINE):
            found = {taken[word] for word in WORD.findall(clauses) if word in taken}
            counts.update(one for one in found if one[:2] in definitions.local and one[0] != crate)
    most = sorted(counts, key=lambda one: (-counts[one], one))
    return [f"{name} of {of}" for of, _, name in most[:4]]


def resting(of_crate):
    """The guarantees that rest on these promises, by their names."""
    return [name for name, words, item in guarantees() if any(is_of(item, words, *promise) for promise in of_crate)]


def head(of_crate):
    """What the head of a crate's lib.rt says of the guarantees, where these promises rest on its definitions."""
    rest, every = resting(of_crate), [name for name, _, _ in guarantees()]
    if rest == every:
        return "All guarantees of README rest on its definitions."
    return f"Guarantees of README that rest on its definitions: {', '.join(rest)}." if rest else "No guarantee of README rests on its definitions."


def told(crate, of_crate, promised, definitions):
    """The lines that tell of a crate."""
    yield f"\n{crate}"
    if not of_crate:
        yield "  No promise rests on a definition of it."
        words = said(crate, definitions)
        yield from [f"  its functions promise in words of others: {', '.join(words)}"] if words else []
    for what in dict.fromkeys(what for what, _ in of_crate):
        names = [name for kind, name in of_crate if kind == what]
        every = [name for kind, name in promised if kind == what]
        yield f"  {what}: {'all' if names == every and len(every) > 1 else ', '.join(names)}"
    rest = resting(of_crate)
    if rest:
        yield f"  guarantees: {', '.join(rest)}"
    yield from (f"  tested, not proved: {said}" for said in tested_alone(crate))


def main():
    definitions = Definitions()
    every = list(promises(definitions))
    promised = [(what, name) for what, name, _ in every]
    for crate in index.crates():
        if sys.argv[1:] and crate not in sys.argv[1:]:
            continue
        if os.path.isdir(f"{index.TOP}/crates/{crate}/specs") or list(tested_alone(crate)):
            print("\n".join(told(crate, [(what, name) for what, name, crates in every if crate in crates], promised, definitions)).strip("\n") + "\n")


if __name__ == "__main__":
    main()
