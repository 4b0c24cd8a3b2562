"""Tests of what tools/fill.py makes of the grammar: the man page, and the completions of three shells.
"""

import functools
import os
import pty
import re
import select
import subprocess
import sys
import time

from alone import Alone, differs
from tally import needs

TOP = os.path.dirname(os.path.dirname(os.path.dirname(os.path.abspath(__file__))))
sys.path.append(f"{TOP}/tools")

import fill

COMMANDS = ("migrate", "audit", "check", "names")


def text_of(path):
    """A file of the repository."""
    with open(f"{TOP}/{path}", encoding="utf-8") as file:
        return file.read()


def section(path, heading):
    """What stands in a document below a heading, up to the next one."""
    return text_of(path).split(f"\n## {heading}\n", 1)[1].split("\n## ", 1)[0]


def done(*command, **options):
    """What a command wrote; an error where it failed."""
    return subprocess.run(command, capture_output=True, check=True, timeout=120, **options).stdout.decode()


def options_of(program, *command):
    """The options in a command's help, long and short."""
    helped = done(program, *command, "--help")
    return set(re.findall(r"^\s+(?:(-\w), )?(--[\w-]+)", helped, re.MULTILINE))


def every_option(program):
    """Each command with each of its options, as (command, option)."""
    for command in ((), *((name,) for name in COMMANDS)):
        for pair in sorted(options_of(program, *command)):
            yield from ((command, option) for option in pair if option)


@functools.cache
def made_of(path):
    """The man page, or the completions of a shell, as tools/fill.py makes them."""
    return fill.made(fill.grammar_text())[path]


def part_of(path, command, option):
    """Where an option of a command has to stand in the man page or in the completions of zsh or fish: among that command's, but for help."""
    text, helps = made_of(path), option in ("--help", "-h")
    if path == fill.PAGE:
        heading = f"OPTIONS OF {command[0].upper()}" if command and not helps else "OTHER OPTIONS"
        return text.replace("\\-", "-").partition(f".SH {heading}\n")[2].partition("\n.SH ")[0]
    if path == fill.ZSH:
        return text.partition(f"\n        {command[0]})\n")[2].partition(";;")[0] if command else text.partition("[[ ")[0]
    of = rf"-n '__fish_seen_subcommand_from {command[0]}'" if command and not helps else ""
    return "\n".join(re.findall(rf"^complete -c pairtree2ocfl.*{of}.*$", text, re.MULTILINE))


def documented(program, folder):
    """Each option of the help stands in the reference, the guide, its command's part of the man page, and its completions of all three shells."""
    reference, faults = section("docs/REFERENCE.md", "Options"), []
    for command, option in every_option(program):
        spelled = re.escape(option) + r"(?![\w-])"
        in_fish = rf"-l {option[2:]}\b(?!-)" if option.startswith("--") else rf"-s {option[1]}\b"
        forms = {fill.PAGE: spelled, fill.ZSH: spelled, fill.FISH: in_fish}
        faults += [f"{option} of {command} isn't in {path}" for path, form in forms.items() if not re.search(form, part_of(path, command, option))]
        if not re.search(rf"^\|.*`[^`]*{spelled}", reference, re.MULTILINE):
            faults.append(f"{option} isn't in REFERENCE")
        if option not in completed(*command, option):
            faults.append(f"bash doesn't complete {' '.join(command)} {option}")
    guide = text_of("docs/GUIDE.md")
    seen = {option for _, option in every_option(program) if option.startswith("--")} - {"--help", "--version"}
    told = set(re.findall(r"(?<![\w-])--?[a-zA-Z][\w-]*", " ".join(re.findall(r"^\| (`-.*?) \|", reference, re.MULTILINE))))
    faults += [f"REFERENCE tells {option}, which isn't there" for option in sorted(told - {option for _, option in every_option(program)})]
    faults += [f"REFERENCE doesn't say that {option} is one of {command[0]}" for command, option in every_option(program) if command and not of(reference, option, command[0])]
    return faults + [f"{option} isn't in GUIDE" for option in sorted(seen) if option not in guide]


def of(reference, option, command):
    """Whether the reference's row of an option says that it is one of a command."""
    rows = re.findall(r"^\| (`-.*?) \| (.*?) \|", reference, re.MULTILINE)
    return any(re.search(rf"`{re.escape(option)}(?![\w-])", names) and (commands == "all" or command in commands.split(", ")) for names, commands in rows)


def known(program, folder):
    """The man page and the completions have no option that the program hasn't."""
    there = {option for _, option in every_option(program)}
    faults = []
    for path in (fill.PAGE, fill.BASH, fill.ZSH):
        told = set(re.findall(r"(?<![\w-])--[a-z][a-z-]*[a-z]", made_of(path).replace("\\-", "-")))
        faults += [f"{option} of {path} isn't there" for option in sorted(told - there)]
    told = {f"--{name}" for name in re.findall(r"^complete .*-l ([\w-]+)", made_of(fill.FISH), re.MULTILINE)}
    return faults + [f"{option} of fish isn't there" for option in sorted(told - there)]


def told_once(program, folder):
    """An option that the grammar gets is in the man page and the completions, of its command alone; what can't be read is refused, and so is a text on none."""
    row = 'ArgSpec {\n        id: NEW,\n        form: Form::Word("W", &["one", "two"], "two"),\n        help: "It\'s [new]: so",\n        more: Some(\n            "It\'s [new]:\\nso it is",\n        ),\n    },\n    '
    grammar = fill.grammar_text().replace("\npub(crate) const MIGRATE_SPECS", '\nconst NEW: &str = "brand-new";\n\nconst MIGRATE_SPECS')
    made = fill.made(grammar.replace("const AUDIT_SPECS: &[ArgSpec] = &[\n    ", f"const AUDIT_SPECS: &[ArgSpec] = &[\n    {row}"))
    lines = {
        fill.PAGE: '.TP\n.BI \\-\\-brand\\-new " W"\nIt\'s [new]: so it is: \\fBone\\fR or \\fBtwo\\fR (the default).\n',
        fill.BASH: "--brand-new) mapfile -t COMPREPLY < <(compgen -P \"$front\" -W 'one two' -- \"$current\") && return ;;\n",
        fill.ZSH: "'--brand-new=[It'\\''s \\[new\\]: so]:W:(one two)' \\\n",
        fill.FISH: "-n '__fish_seen_subcommand_from audit' -l brand-new -x -a 'one two' -d 'It\\'s [new]: so'\n",
    }
    faults = differs(**{path: (made[path].count(line), 1) for path, line in lines.items()})
    faults += differs(bash=("audit) options='--brand-new --digest" in made[fill.BASH], True), files=(set(made), set(lines)))
    for wrong in (fill.grammar_text().replace("id: GATHER", "id = GATHER"), fill.grammar_text().replace('SHARE: &str = "share"', 'SHARE: &str = "part"')):
        try:
            fill.made(wrong)
            faults.append("a grammar that can't be read, or another one than the page's, was taken")
        except SystemExit:
            pass
    return faults


def completed(*words):
    """What bash completes these words to."""
    script = f"{made_of(fill.BASH)}\nCOMP_WORDS=(pairtree2ocfl \"$@\")\nCOMP_CWORD=$#\n"
    script += '_pairtree2ocfl\nprintf "%s\\n" "${COMPREPLY[@]}"'
    return done("bash", "-c", script, "bash", *words, cwd=TOP).split()


def in_bash(program, folder):
    """What bash completes values, commands and folders to."""
    return differs(
        commands=(completed(""), ["names", "migrate", "audit", "check", "help", "--help", "-h", "--version", "-V"]),
        digests=(completed("migrate", "--digest", ""), ["sha512", "sha256"]),
        behind=(completed("migrate", "--digest", "="), ["sha512", "sha256"]),
        begun=(completed("migrate", "--digest", "=", "sha2"), ["sha256"]),
        whole=(completed("migrate", "--digest=sha5"), ["--digest=sha512"]),
        moment=(completed("migrate", "--created", "="), []),
        times=(completed("migrate", "--progress", "a"), ["auto", "always"]),
        moments=(completed("migrate", "--created", ""), []),
        folders=("crates" in completed("migrate", "--gather", "cr"), True),
        names=(completed("names", "--p"), ["--prefix"]),
        help=(completed("help", "n"), ["names"]),
    )


def in_fish(program, folder):
    """What fish completes commands, options and values to, each with its help."""
    needs("fish")
    fill.write(folder)

    def offered(words):
        script = f"source {folder}/pairtree2ocfl.fish; complete -C 'pairtree2ocfl {words}'"
        return dict(line.partition("\t")[::2] for line in done("fish", "-N", "-c", script, env={**os.environ, "HOME": folder}).splitlines())

    gather = "Carry what lies directly in an identifier's folder too, as one object"
    faults = differs(commands=(set(offered("")), {*COMMANDS, "help"}), gather=(offered("migrate --ga"), {"--gather": gather}))
    for command in COMMANDS:
        faults += differs(**{command: (set(offered(f"{command} --")), {name for _, name in options_of(program, command)})})
    return faults + differs(digests=(set(offered("audit --digest ")), {"sha512", "sha256"}), none=(offered("migrate --share "), {}))


def in_zsh(program, folder):
    """What zsh completes commands, options and values to, each with its help."""
    needs("zsh")
    fill.write(folder)
    wanted = {"": {*COMMANDS, "help"}, "migrate --digest=": {"sha512", "sha256"}, "migrate --ga": {"--gather"}}
    wanted |= {f"{command} --": {name for _, name in options_of(program, command)} for command in COMMANDS}
    faults = []
    for words, names in wanted.items():
        said = typed_in_zsh(folder, f"pairtree2ocfl {words}", names)
        faults += [f"zsh completes {words!r} to {said!r}, without {name}" for name in names if not re.search(rf"(?<![\w-]){name}(?![\w-])", said)]
    told = "--gather      -- Carry what lies directly in an identifier's folder too, as one object"
    return faults + differs(help=(told in typed_in_zsh(folder, "pairtree2ocfl migrate --", [told]), True))


def typed_in_zsh(folder, line, names):
    """What a terminal shows where these words are typed to zsh, and then the tab key, until it has shown these names."""
    child, terminal = pty.fork()
    if child == 0:
        os.execvpe("zsh", ["zsh", "-f", "-i"], {**os.environ, "HOME": folder, "TERM": "dumb"})
    start = "stty cols 300 rows 200; autoload -Uz compinit; compinit -D -u; LISTMAX=1000; PROMPT="
    said = b""
    try:
        os.write(terminal, f"{start}; source {folder}/_pairtree2ocfl 2> /dev/null; compdef _pairtree2ocfl pairtree2ocfl; print re''ady\n".encode())
        said = shown(terminal, ["ready"])
        os.write(terminal, f"{line}\t\t".encode())
        return shown(terminal, names).decode(errors="replace")
    finally:
        os.kill(child, 9)
        os.close(terminal)
        os.waitpid(child, 0)


def shown(terminal, names):
    """What a terminal shows until it has shown these names, or for 20 seconds."""
    said, until = b"", time.monotonic() + 20
    while time.monotonic() < until and not all(name.encode() in said for name in names):
        if select.select([terminal], [], [], 0.1)[0]:
            said += os.read(terminal, 1 << 16)
    return said


READERS = {
    "mandoc": ["-T", "lint", "-W", "warning", "pairtree2ocfl.1"],
    "groff": ["-man", "-Tutf8", "-ww", "pairtree2ocfl.1"],
    "bash": ["-n", "pairtree2ocfl.bash"],
    "zsh": ["-n", "_pairtree2ocfl"],
    "fish": ["-n", "pairtree2ocfl.fish"],
}


def read_by(tool):
    """The man page, or the completions of a shell, can be read by what reads them."""

    def test(program, folder):
        needs(tool)
        fill.write(folder)
        ended = subprocess.run([tool, *READERS[tool]], cwd=folder, capture_output=True, timeout=120)
        said = ended.stderr + (ended.stdout if tool == "mandoc" else b"")
        return differs(**{tool: ((ended.returncode, said), (0, b""))})

    return Alone(f"{READERS[tool][-1]}, read by {tool}", test)


CASES = [
    Alone("each option is documented", documented),
    Alone("no option is made up", known),
    Alone("an option is told once", told_once),
    Alone("bash completes", in_bash),
    Alone("fish completes", in_fish),
    Alone("zsh completes", in_zsh),
    *map(read_by, READERS),
]
