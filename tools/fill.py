#!/usr/bin/env python3
"""Writes the man page and the completions of bash, zsh and fish into a folder, with the commands and options that the program's grammar has.

Usage: fill.py FOLDER. It fills the templates man/*.in and completions/*.in. In these `@commands@` stands for the names of the commands; what is between the
lines `@each command@` and `@end@` is written for each, with its name (`@command@`), its help (`@about@`) and what it takes (`@options@`, `@places@`). In the
completions of bash `@values@` stands for the values of all options. In the man page `@options NAME@` stands for the options of the command NAME, and a line
`@--OPTION@` behind that begins what is said of one of them beside its help.
"""

import os
import re
import sys
from typing import NamedTuple

TOP = os.path.dirname(os.path.dirname(os.path.abspath(__file__)))
IDS, ROWS, GRAMMAR = (f"crates/pt_cli/src/{name}.rt" for name in ("ids", "arg_specs", "grammar"))
PAGE = "man/pairtree2ocfl.1"
BASH, ZSH, FISH = (f"completions/{name}" for name in ("pairtree2ocfl.bash", "_pairtree2ocfl", "pairtree2ocfl.fish"))

# How help calls a value that is the path of a file, and one that is a folder's.
FILES = ("FILE", "LOG")
FOLDERS = ("SOURCE", "DEST")

# A text of the grammar, and a row.
STRING = r'"((?:[^"\\]|\\.)*)"'
MORE = rf"(?:None|Some\(\s*{STRING},?\s*\))"
ROW = re.compile(rf"ArgSpec \{{\s*id: (\w+),\s*form: Form::(\w+)(\(.*?\))?,\s*help:\s*{STRING},\s*more:\s*{MORE},\s*\}}", re.DOTALL)


class Arg(NamedTuple):
    """An argument: its name, its form, its letter, what help calls its value, which words that may be, what it is unless given, its line of help, and
    what help says at length."""

    name: str
    form: str
    letter: str
    value: str
    words: list
    default: str
    help: str
    more: str


class Command(NamedTuple):
    """A command: its name, its help, the options that it takes, and what it takes by place."""

    name: str
    about: str
    options: list
    places: list


def text_of(path):
    """A file of the repository."""
    with open(f"{TOP}/{path}", encoding="utf-8") as file:
        return file.read()


# The grammar.


def grammar_text():
    """The text of the ids and of the rows that have them."""
    return text_of(IDS) + text_of(ROWS) + text_of(GRAMMAR)


def said(text):
    """What a text of help says, on one line, and, where it ends with that, what the argument is unless given."""
    told = re.sub(r"\\(.)", lambda escaped: " " if escaped[1] == "n" else escaped[1], text)
    return re.fullmatch(r"(.*?)(?: \[default: (.*)\])?", told).groups(default="")


def arg_of(row, constants):
    """The argument of a row."""
    name, form, given, line, more = row.groups(default="")
    words = re.findall(STRING, "".join(re.findall(r"&\[.*?\]", given)))
    value, default = (re.findall(STRING, re.sub(r"&\[.*?\]", "", given)) + ["", ""])[:2]
    told, by_help = said(more or line)
    return Arg(constants[name], form, "".join(re.findall("'(.)'", given)), value, words, default or by_help, said(line)[0], told)


def args_of(table, shared, constants):
    """The arguments of a table, whose rows stand there or are shared."""
    item = re.compile(rf"({ROW.pattern}|\w+_SPEC),", re.DOTALL)
    left = item.sub("", table).strip()
    if left:
        sys.exit(f"{ROWS}: this is no row: {left}")
    return [shared[found[1]] if found[1] in shared else arg_of(ROW.match(found[1]), constants) for found in item.finditer(table)]


def about_of(name, grammar):
    """What the help of a command says first."""
    parser = re.search(rf"\nfn {name}_parser\b.*?\n\}}\n", grammar, re.DOTALL)
    about = parser and re.search(rf"\babout(?:\(| =)\s*{STRING}", parser[0])
    if not about:
        sys.exit(f"{GRAMMAR}: no {name}_parser says what {name} does")
    return about[1]


def commands_of(grammar):
    """The commands, in the grammar's order."""
    constants = dict(re.findall(rf"const (\w+): &str =\s*{STRING};", grammar))
    rows = re.finditer(rf"const (\w+_SPEC): ArgSpec =\s*({ROW.pattern});", grammar, re.DOTALL)
    shared = {row[1]: arg_of(ROW.match(row[2]), constants) for row in rows}
    commands = []
    for word, table in re.findall(r"const (\w+)_SPECS: &\[ArgSpec\] = &\[(.*?)\n\];", grammar, re.DOTALL):
        args = args_of(table, shared, constants)
        options, places = ([arg for arg in args if (arg.form == "Place") == by_place] for by_place in (False, True))
        commands.append(Command(constants[word], about_of(constants[word], grammar), options, places))
    return commands


# The templates.


def filled(text, values):
    """A text with values in the place of the words between `@`; the lines of a value are indented as its first."""

    def value(match):
        if match[2] not in values:
            sys.exit(f"a template has @{match[2]}@, for which there is nothing")
        indent = match[1] or ""
        return indent + values[match[2]].replace("\n", f"\n{indent}")

    return re.sub(r"(?m)(^ *)?@([a-z]+(?: \w+)?)@", value, text)


def completions(template, values_of, commands):
    """A template of completions, filled by what a shell's function has of each command."""
    of_all = {"commands": " ".join(command.name for command in commands), "values": bash_values(commands)}
    # What stands between the blocks, and each block behind that.
    parts = re.split(r"^@each command@\n(.*?)^@end@\n", template, flags=re.MULTILINE | re.DOTALL)
    parts[::2] = [filled(text, of_all) for text in parts[::2]]
    parts[1::2] = ["".join(filled(block, values_of(command)) for command in commands) for block in parts[1::2]]
    return "".join(parts)


def flags(option):
    """How an option is given, its letter behind its name."""
    return [f"--{option.name}", *(f"-{letter}" for letter in option.letter)]


def quoted(text, apostrophe, *signs):
    """A text to stand between apostrophes: these signs get a `\\` before them, and an apostrophe is written so."""
    for sign in ("\\", *signs):
        text = text.replace(sign, f"\\{sign}")
    return text.replace("'", apostrophe)


# The completions of bash.


def in_bash(command):
    """What the completions of bash have of a command."""
    options = " ".join(flag for option in command.options for flag in flags(option))
    return {"command": command.name, "options": options, "places": "folders" if any(place.name in FOLDERS for place in command.places) else ""}


def bash_values(commands):
    """The cases of bash by which an option's value is completed: to words, to files, to folders, or to nothing."""
    cases = {}
    for option in (option for command in commands for option in command.options if option.value):
        how = f"-W '{' '.join(option.words)}'" if option.words else "-f" if option.value in FILES else "-d" if option.value in FOLDERS else ""
        cases.setdefault(how, {})[f"--{option.name}"] = None
    completing = 'mapfile -t COMPREPLY < <(compgen -P "$front" {} -- "$current") && return'
    return "\n".join(f"{' | '.join(names)}) {completing.format(how) if how else 'return'} ;;" for how, names in cases.items())


# The completions of zsh.

ZSH_APOSTROPHE = "'\\''"


def zsh_option(option):
    """An option, as `_arguments` of zsh takes it."""
    told = f"[{quoted(option.help, ZSH_APOSTROPHE, '[', ']')}]"
    if option.letter:
        name, letter = flags(option)
        return f"'({letter} {name})'{{{letter},{name}}}'{told}'"
    if not option.value:
        return f"'--{option.name}{told}'"
    values = f":({' '.join(option.words)})" if option.words else ":_files" if option.value in FILES else ":_directories" if option.value in FOLDERS else ""
    return f"'{'*' * option.form.startswith('Repeated')}--{option.name}={told}:{option.value}{values}'"


def zsh_place(number, place):
    """What is taken by its place, as `_arguments` takes it."""
    return f"'{number}:{quoted(place.help, ZSH_APOSTROPHE, ':')}{':_directories' * (place.name in FOLDERS)}'"


def in_zsh(command):
    """What the completions of zsh have of a command."""
    options, places = map(zsh_option, command.options), (zsh_place(number, place) for number, place in enumerate(command.places, 1))
    about = quoted(command.about, ZSH_APOSTROPHE, ":")
    return {"command": command.name, "about": about, "options": " \\\n".join(options), "places": " \\\n".join(places)}


# The completions of fish.


def fish_values(option):
    """How `complete` of fish takes the value of an option."""
    if option.words:
        return f" -x -a '{' '.join(option.words)}'"
    if option.value in FOLDERS:
        return " -x -a '(__fish_complete_directories)'"
    return " -r -F" if option.value in FILES else " -x" if option.value else ""


def fish_option(command, option):
    """An option of a command, as `complete` of fish takes it."""
    letter = f"-s {option.letter} " * bool(option.letter)
    values = fish_values(option)
    told = quoted(option.help, "\\'")
    return f"complete -c pairtree2ocfl -n '__fish_seen_subcommand_from {command.name}' {letter}-l {option.name}{values} -d '{told}'"


def in_fish(command):
    """What the completions of fish have of a command."""
    folders = f"complete -c pairtree2ocfl -n '__fish_seen_subcommand_from {command.name}' -a '(__fish_complete_directories)'"
    options = [fish_option(command, option) for option in command.options] + [folders] * any(place.name in FOLDERS for place in command.places)
    return {"command": command.name, "about": quoted(command.about, "\\'"), "options": "\n".join(options)}


# The man page.


def roff(text, names=()):
    """A text as a man page has it, these names in italics."""
    text = text.replace("\\", "\\e").replace("-", "\\-")
    return re.sub(rf"\b({'|'.join(names)})\b", r"\\fI\1\\fR", text) if names else text


def what_it_is(option):
    """What the man page says of an option's value: the words that it may be, and what it is unless given."""
    if option.words:
        *words, last = (f"\\fB{word}\\fR" + " (the default)" * (word == option.default) for word in option.words)
        return f": {', '.join(words)} or {last}"
    return f" (default: {roff(option.default)})" if option.default else ""


def page_entry(option, places, more):
    """An option in the man page: its help at length, and what is said beside that. The names of its value and of places are in italics."""
    name, *letter = map(roff, flags(option))
    head = f'.BR {letter[0]} ", " {name}' if letter else f'.BI {name} " {option.value}"' if option.value else f".B {name}"
    told = roff(option.more, [*places, *filter(None, [option.value])]) + what_it_is(option)
    return f".TP\n{head}\n{told}.\n" + "Required.\n" * (option.form == "Needed") + more


def page_options(command, said):
    """The options of a command in the man page, with what is said of some beside their help."""
    unknown = set(said) - {option.name for option in command.options}
    if unknown:
        sys.exit(f"{PAGE}.in says something of options that {command.name} doesn't take: {', '.join(sorted(unknown))}")
    places = [place.name for place in command.places]
    return "".join(page_entry(option, places, said.get(option.name, "")) for option in command.options)


def section_of_page(section, commands):
    """A section of the man page, which may have the options of a command."""
    found = re.fullmatch(r"(.*\n)@options (\w+)@\n(.*)", section, re.DOTALL)
    if not found:
        return section
    command = next(command for command in commands if command.name == found[2])
    return found[1] + page_options(command, dict(re.findall(r"^@--([\w-]+)@\n((?:[^@].*\n)*)", found[3], re.MULTILINE)))


def page(template, commands):
    """The man page."""
    return "".join(section_of_page(section, commands) for section in re.split(r"^(?=\.SH )", template, flags=re.MULTILINE))


def made(grammar):
    """The files that this grammar makes, each path with its text."""
    commands = commands_of(grammar)
    shells = {BASH: in_bash, ZSH: in_zsh, FISH: in_fish}
    filled_in = {path: completions(text_of(f"{path}.in"), of, commands) for path, of in shells.items()}
    return {PAGE: page(text_of(f"{PAGE}.in"), commands), **filled_in}


def write(folder):
    """Writes the files into a folder."""
    for path, text in made(grammar_text()).items():
        with open(f"{folder}/{os.path.basename(path)}", "w", encoding="utf-8") as file:
            file.write(text)


def main():
    if len(sys.argv) != 2:
        sys.exit(__doc__)
    write(sys.argv[1])


if __name__ == "__main__":
    main()
