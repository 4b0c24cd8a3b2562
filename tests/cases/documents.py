"""Tests of the documents: each file and each word of code that they name is where they say it is, and they can be read.

- There are eight, of at most 2,200 lines and 200,000 bytes in all; no line has over 160 characters and no sentence over 40 words.
- A link leads to a file and a heading that are there. Where its text is a word of code and it leads into crates/, the file declares the
  word. A path below a folder of the repository is there (NAME stands for any name). A document that other files name is there.
- A file of code is one of a crate that its paragraph, or its row of a table, names; of any crate where it names none.
- A text that says `crate, file.rt and Module` names files of src/ and of specs/ of that crate.
- Any other word of code, which has a `_`, a `::` or a capital inside small letters, stands somewhere in the code.
- Each crate of crates.txt is on the map of docs/DESIGN.md, behind those that it stands on. CONTRIBUTING.md says what each crate of tests tests.
- The words of code at the head of a file of a crate are declared in that crate, or where `crate::word` or `word` of crate says. What stands at the
  head of its lib.rt behind `What it promises` has at most 20 lines.
- Each public definition of crates/*/specs has a comment, and each edit of crates/*/must-fail one that says what the wrong body does: `make model` and
  `make wrong` print all of them. Each edit can be applied to the code as it stands. The lemmas that Migrates.antt names are there.
- docs/GUARANTEES.md has each promise of a run, and README's ten guarantees lead there; both tell the exception where each byte is promised.
- docs/REFERENCE.md has each cause and each fault with its number and text, docs/GUIDE.md what to do at each, docs/DESIGN.md where each cause is decided.
"""

import functools
import glob
import os
import re
import subprocess
import sys

from alone import Alone, differs

TOP = os.path.dirname(os.path.dirname(os.path.dirname(os.path.abspath(__file__))))
sys.path.append(f"{TOP}/tools")

import fill
import index

DOCUMENTS = ("README.md", "CONTRIBUTING.md", "CHANGELOG.md", *sorted(f"docs/{name}" for name in os.listdir(f"{TOP}/docs")))
EIGHT = {"README.md", "CONTRIBUTING.md", "CHANGELOG.md", *(f"docs/{name}.md" for name in ("GUIDE", "REFERENCE", "GUARANTEES", "DESIGN", "PERF"))}
MOST_LINES, MOST_BYTES, LONGEST_LINE, LONGEST_SENTENCE, README_LINES = 2200, 200000, 160, 40, 120
MOST_PROMISED = 20
START = re.compile(r"[0-9a-f]{40} is the start: the last commit that had landed before the work on speed began\.\n")
LINK = re.compile(r"\[([^\]]*)\]\(([^)\s]+)\)")
PATH = re.compile(r"(?<![\w/.-])(?:completions|crates|demo|docs|tests|tools|bench|man|LICENSES)/[\w./*-]*\w")
CODE_FILE = re.compile(r"(?<![\w/.<*])(\w+\.(?:rt|antt|edit))\b")
WORD = re.compile(r"[A-Za-z_]\w*(?:::[A-Za-z_]\w*)*")
IN_CRATE = re.compile(r"\b(pt_\w+), ((?:[A-Z]\w+\b(?!\.)|\w+\.rt)(?:(?:, | and )(?:[A-Z]\w+\b(?!\.)|\w+\.rt))*)")


@functools.cache
def text_of(path):
    """A file of the repository."""
    with open(f"{TOP}/{path}", encoding="utf-8") as file:
        return file.read()


@functools.cache
def code_files():
    """The files of code and of definitions of each crate: what is proved, and not what checks leave."""
    found = {}
    for folder in ("src", "specs", "proofs", "must-fail"):
        for path in glob.glob(f"crates/*/{folder}/**/*.*", root_dir=TOP, recursive=True):
            found.setdefault(path.split("/")[1], []).append(path)
    return found


def prose(path):
    """A document without its blocks of commands."""
    return "\n".join(line for line in text_of(path).splitlines() if not line.startswith("    "))


def paragraphs(path):
    """The paragraphs of a document, each row of a table by itself."""
    for block in re.split(r"\n\s*\n", text_of(path)):
        yield from block.splitlines() if block.startswith("|") else (block,)


def backticked(text):
    """The texts between backticks."""
    return re.findall(r"(?<!`)`([^`]+)`(?!`)", text.replace("\n", " "))


def is_declared(word, path):
    """Whether a file of code or of definitions declares a word: a function, a type, a variant, a field, a clause or a law."""
    name, text = re.escape(word), text_of(path)
    if path.endswith(".antt"):
        form = rf"^(?:abbrev |unfoldable |pub |data |record )*{name}(?= )|^ +(?:(?:abbrev |pub |data |record )+{name}(?= )|(?:pub )?{name} (?=[:(]))"
    else:
        form = rf"\b(?:fn|struct|enum|trait|const|static) {name}\b|^ +(?:pub )?{name}(?:\(.*\)|: .*| \{{)?,?$|\bensures {name} \{{"
    return re.search(form, text, re.MULTILINE) is not None


def is_word_of_code(text):
    """Whether it is one name, or several with `::` between, that no plain word looks like."""
    return WORD.fullmatch(text) is not None and re.search(r"[a-z]", text) is not None and re.search(r"_|::|.[A-Z]", text) is not None


def declares(crate, words):
    """Whether files of a crate declare each of these words."""
    files = [path for path in code_files().get(crate, ()) if "/src/" in path or "/specs/" in path]
    return all(any(is_declared(word, path) for path in files) for word in words)


def heading_ids(path):
    """The headings of a document, as links name them."""
    headings = re.findall(r"^#+ (.*)$", text_of(path), re.MULTILINE)
    return {re.sub(r"[^\w -]", "", heading.lower()).replace(" ", "-") for heading in headings}


def links(program, folder):
    """Each link leads somewhere, and one with a word of code to the file that declares it."""
    faults = []
    for path in DOCUMENTS:
        for text, target in LINK.findall(text_of(path)):
            if re.match(r"\w+:", target):
                continue
            file, _, heading = target.partition("#")
            to = os.path.normpath(os.path.join(os.path.dirname(path), file)) if file else path
            if not os.path.exists(f"{TOP}/{to}"):
                faults.append(f"{path} links to {target}")
            elif heading and heading not in heading_ids(to):
                faults.append(f"{path} links to {target}, and there is no such heading")
            elif to.startswith("crates/") and not all(is_declared(word, to) for word in text.strip("`").split("::")):
                faults.append(f"{path}: {text} isn't declared in {to}")
    return faults


def paths(program, folder):
    """Each path below a folder of the repository is there."""
    faults = []
    for path in DOCUMENTS:
        for found in PATH.findall(LINK.sub(r"\1", text_of(path))):
            if not glob.glob(found.replace("NAME", "*"), root_dir=TOP):
                faults.append(f"{path} names {found}")
    return faults


def files(program, folder):
    """Each file of code is one of a crate that its paragraph names, and stands in the folder that is meant."""
    faults = []
    for path in DOCUMENTS:
        for text in paragraphs(path):
            named = set(re.findall(r"\b(?:pt_\w+|pairtree2ocfl)\b", text)) & set(code_files()) or set(code_files())
            there = {os.path.basename(file) for crate in named for file in code_files()[crate]}
            faults += [f"{path} names {file}, of {', '.join(sorted(named))}" for file in CODE_FILE.findall(text) if file not in there]
            faults += [f"{path} names {module} of {crate}" for crate, module in modules(text) if not os.path.isfile(f"{TOP}/{module}")]
    return faults


def modules(text):
    """The files that a text means by `crate, file.rt and Module`, each with its crate."""
    for crate, names in IN_CRATE.findall(text):
        for name in re.split(r", | and ", names):
            yield crate, f"crates/{crate}/src/{name}" if name.endswith(".rt") else f"crates/{crate}/specs/{name}.antt"


def items(path):
    """The paragraphs, items, headings and cells of tables of a document, each as one line without links; blocks of commands and comments left out."""
    text = LINK.sub(r"\1", re.sub(r"<!--.*?-->", "\n\n", prose(path), flags=re.DOTALL))
    found, goes_on = [], False
    for line in text.splitlines():
        if line.startswith("|"):
            found += re.split(r"(?<!\\)\|", line)
            goes_on = False
            continue
        begins = re.match(r" *(?:[-*]|\d+\.|#+) ", line)
        if begins or not goes_on:
            found.append(line[begins.end() :] if begins else line)
        else:
            found[-1] += f" {line}"
        goes_on = bool(line.strip()) and not line.startswith("#")
    return found


def sentences(item):
    """The sentences of a paragraph, a text between backticks as one word."""
    return re.split(r"(?<=[.?!])[)*]* +(?=[\[(\"*A-Z0-9])", re.sub(r"`[^`]+`", "Code", item))


def sizes(program, folder):
    """There are eight documents, of so many lines and bytes at most, and README is short; PERF begins as it always did."""
    lines, size = (sum(measured(text_of(path)) for path in DOCUMENTS) for measured in (lambda text: text.count("\n"), lambda text: len(text.encode())))
    faults = differs(documents=(set(DOCUMENTS), EIGHT), start=(bool(START.match(text_of("docs/PERF.md"))), True))
    counts = {"lines": (lines, MOST_LINES), "bytes": (size, MOST_BYTES), "lines of README.md": (text_of("README.md").count("\n"), README_LINES)}
    return faults + [f"there are {number} {what}, more than {most}" for what, (number, most) in counts.items() if number > most]


def readable(program, folder):
    """No line and no sentence of a document is too long."""
    faults = differs(sentences=(sentences("One. `two` three. *Four*? five"), ["One.", "Code three.", "*Four*? five"]))
    for path in DOCUMENTS:
        lines = enumerate(text_of(path).splitlines(), 1)
        faults += [f"{path}:{number} has {len(line)} characters" for number, line in lines if len(line) > LONGEST_LINE]
        long = [text for item in items(path) for text in sentences(item) if len(text.split()) > LONGEST_SENTENCE]
        faults += [f"{path}: a sentence of {len(text.split())} words: {text.strip()[:60]}" for text in long]
    return faults


# Passages that stood in the way of first readers, who took them for something else or for nothing.
RIDDLES = (
    "against the store", "may lead to no object", "the folders' rules", "other names than its identifier's own", "or [so](", "Remove none that", "as if by hand",
    "gives the share done", "so, as one,", "the names read nothing", "also one that wasn't", "and by its path what proves", "are opaque", "is said over files",
    "Dear is each way",
)


def plain(program, folder):
    """No passage of the documents or the man page is one of those, and `alone`, for which plain words are `only` and `by itself`, stands nowhere but in
    CONTRIBUTING's rule that the repository stands alone."""
    faults = []
    for path in (*DOCUMENTS, "man/pairtree2ocfl.1.in"):
        text = re.sub(r"\s+", " ", text_of(path))
        faults += [f"{path} says: {words}" for words in RIDDLES if words in text]
        alone = re.findall(r"\S+ \S+ alone\b", text.replace("The repository stands alone", ""))
        faults += [f"{path} says: {words}" for words in alone]
    return faults


def sources():
    """The files beside the documents that may name one."""
    found = [path for paths_of in code_files().values() for path in paths_of]
    for name in ("tests", "tests/cases", "tests/harness", "tools", "bench", "man", "completions", "demo", "examples", ".ci", "."):
        found += [path for path in glob.glob(f"{name}/*", root_dir=TOP) if os.path.isfile(f"{TOP}/{path}") and not path.endswith((".md", ".gz"))]
    return found


def mentions(program, folder):
    """Each document that a file of the repository names is there."""
    faults = differs(read=(len(sources()) > 1000, True))
    for path in sources():
        named = set(re.findall(r"(?<![\w/.])(?:docs/)?[A-Z]{4,}\.md\b", text_of(path)))
        there = {name for name in named if any(os.path.isfile(f"{TOP}/{above}{name}") for above in ("", "docs/"))}
        faults += [f"{path} names {name}" for name in sorted(named - there)]
    return faults


def printed(kind):
    """The lines that tools/index.py prints."""
    done = subprocess.run([sys.executable, f"{TOP}/tools/index.py", kind], capture_output=True, check=True, timeout=60)
    return done.stdout.decode().splitlines()


def explained(program, folder):
    """Each public definition has a comment, and each edit one that says what the wrong body does; make model and make wrong print all of them."""
    faults, model, wrong = [], printed("model"), printed("wrong")
    for crate in index.crates():
        for path in index.specs(crate):
            faults += [f"{path}: {name} has no comment" for name, text in index.definitions(path) if not text]
            faults += [f"make model doesn't print {name}" for name, text in index.definitions(path) if f"  {name}: {text}" not in model]
        for name, text in index.edits(crate):
            faults += [] if text else [f"{name} of {crate} doesn't say what the wrong body does"]
            faults += [] if f"  {text} ({name})" in wrong else [f"make wrong doesn't print {name}"]
    listed = [path for paths_of in code_files().values() for path in paths_of if path.endswith(".edit")]
    declared = [path for paths_of in code_files().values() for path in paths_of if "/specs/" in path and not path.endswith("/Lib.antt")]
    faults += differs(edits=(sum(line.endswith(".edit)") for line in wrong), len(listed)))
    return faults + [f"make model passes over {path}" for path in declared if index.definitions(path) and not any(line.startswith(f"{path}: ") for line in model)]


def head_of(path):
    """The lines of the head of a file."""
    return re.findall(r"^//! ?(.*)$", text_of(path), re.MULTILINE) if os.path.isfile(f"{TOP}/{path}") else []


def promised(head):
    """The lines of what a head promises: the list behind the paragraph that begins so."""
    text = "\n".join(head)
    return re.sub(r"\n\n(?![ -]).*", "", text.partition("\nWhat it promises")[2].partition("\n\n")[2], flags=re.DOTALL).splitlines()


def heads(program, folder):
    """The words of code at the head of each file of a crate are declared in that crate, or in the crate that is named with them. The head of its first file
    promises in few lines."""
    faults = differs(promised=(promised(["A.", "", "What it promises:", "", "- b", "  c", "", "D."]), ["- b", "  c"]))
    crates = {*code_files(), *re.findall(r"\w+", text_of("crates.txt"))}
    for crate in code_files():
        first = [head for name in ("lib", "main") if (head := head_of(f"crates/{crate}/src/{name}.rt"))]
        faults += [] if first else [f"{crate} has no head"]
        faults += [f"the head of {crate} promises in {len(promised(head))} lines" for head in first if len(promised(head)) > MOST_PROMISED]
        for path in (path for path in code_files()[crate] if path.endswith(".rt")):
            for text, of in re.findall(r"`([^`]+)`(?: of (pt_\w+))?", " ".join(head_of(path))):
                if is_word_of_code(text) and text not in crates:
                    there, *words = text.split("::") if text.startswith("pt_") else (of or crate, *text.split("::"))
                    faults += [] if declares(there, words) else [f"{path}: {text} isn't declared in {there}"]
    return faults


def crates(program, folder):
    """Each crate is on the map of docs/DESIGN.md, behind those that it stands on, and CONTRIBUTING.md says what each crate of tests tests."""
    map_of = text_of("docs/DESIGN.md").split("\n## The map\n", 1)[1].split("\n## ", 1)[0]
    rows = re.findall(r"^\| `(\w+)` \|", map_of, re.MULTILINE)
    stands = {name: below.split() for name, below in re.findall(r"^(\w+):(.*)$", text_of("crates.txt"), re.MULTILINE)}
    faults = [f"docs/DESIGN.md doesn't have {name} on its map" for name in stands if f"`{name}`" not in map_of]
    faults += [f"docs/DESIGN.md has {name} on its map, which is no crate" for name in rows if name not in stands]
    for place, name in enumerate(rows):
        faults += [f"docs/DESIGN.md has {name} before {below}, on which it stands" for below in stands.get(name, ()) if below in rows[place:]]
    tests = text_of("CONTRIBUTING.md").split("\n## Tests\n", 1)[1].split("\n## ", 1)[0]
    faults += [f"CONTRIBUTING.md doesn't say what is tested by {name}" for name in rows[rows.index("pt_base_tests") :] if f"`{name}`" not in tests]
    on = {below for belows in stands.values() for below in belows}
    return faults + [f"docs/DESIGN.md says that no code stands on {name}" for name in rows[rows.index("pt_base_tests") :] if name in on]


def proofs(program, folder):
    """The lemmas that Migrates.antt names for each promise are declared in the files of proofs that it says, and each promise is named."""
    text = text_of("crates/pt_move/specs/Migrates.antt")
    block = re.search(r"-- Where each promise is proved.*?\n--\n", text, re.DOTALL)[0]
    files = [path for paths_of in code_files().values() for path in paths_of if "/proofs/" in path]
    faults = []
    for word, module in re.findall(r"(\w+) \((\w+)\)", block):
        there = [path for path in files if path.endswith(f"/{module}.antt")]
        if not any(re.search(rf"^ *(?:pub )?{word} :", text_of(path), re.MULTILINE) for path in there):
            faults.append(f"Migrates.antt names {word} of {module}")
    told = set(re.findall(r"\w+", " ".join(re.findall(r"^--   ([\w, ]+):", block, re.MULTILINE))))
    return faults + differs(promises=(told, set(re.findall(r"^  pub (\w+) :", text, re.MULTILINE))))


def guarantees(program, folder):
    """Each promise of a run has its section in docs/GUARANTEES.md, and each of README's ten guarantees leads to a section there."""
    promises = set(re.findall(r"^  pub (\w+) :", text_of("crates/pt_move/specs/Migrates.antt"), re.MULTILINE))
    sections = {word for heading in re.findall(r"^### (.*)$", text_of("docs/GUARANTEES.md"), re.MULTILINE) for word in backticked(heading)}
    ten = text_of("README.md").split("\n## Ten guarantees\n", 1)[1].split("\n## ", 1)[0]
    told = re.findall(r"^\d+\. \*\*.*?(?=^\d+\. |^$)", ten, re.MULTILINE | re.DOTALL)
    faults = [f"docs/GUARANTEES.md has no section for {name}" for name in sorted(promises - sections)]
    faults += [f"a guarantee leads nowhere: {text[:40]}" for text in told if "](docs/GUARANTEES.md#" not in text]
    return faults + differs(guarantees=(len(told), 10), promises=(len(promises) > 15, True))


def exceptions(program, folder):
    """Where each byte of a file is promised, the one exception is told: two files of an object that share a digest. Its section says what the log and an
    audit say of them, and a run's guarantees on faults and on what is held say of which call they are proved."""
    readme, told = text_of("README.md"), text_of("docs/GUARANTEES.md")
    faults, heading = [], "two-files-with-one-digest"
    for path, text in (("README.md", readme.split("\n1. ", 1)[0]), ("docs/GUARANTEES.md", told.split("\n**The answer.**", 1)[1].split("\n## ", 1)[0])):
        faults += [] if f"#{heading})" in text else [f"{path} promises each byte, and doesn't lead to what is excepted"]
    section = told.split("\n### Two files with one digest\n", 1)[1].split("\n#", 1)[0]
    faults += [f"docs/GUARANTEES.md doesn't say of them: {word}" for word in ("`done`", "`same`", "`object_of`") if word not in section]
    blame = told.split("\n### `source`, `dest`, `log`", 1)[1].split("\n### ", 1)[0]
    small, step = (told.split(f"\n{heading}", 1)[1].split("\n## ", 1)[0] for heading in ("### `bound`, `numbers`, `holds`", "## What a step promises\n"))
    faults += [] if "`run_guarded`" in blame else ["docs/GUARANTEES.md doesn't say what the program's call hands on of a failed call"]
    faults += [] if "read by people" in small else ["docs/GUARANTEES.md doesn't say what of a whole run's memory people read"]
    return faults + ([] if "a promise of a step only" in step else ["docs/GUARANTEES.md doesn't say that the calls of a turn are promised of a step"])


def causes(program, folder):
    """Each cause stands in the reference with its number and word, in the guide in that order, and on the design's table; each fault in reference and guide."""
    numbers = dict(re.findall(r"^cause_number cause\.(\w+) = (\d+)", text_of("crates/pt_walk/specs/Cause.antt"), re.MULTILINE))
    spelled = dict(re.findall(r"^cause_word cause\.(\w+) = codes \"(\w+)\"", text_of("crates/pt_walk/specs/Cause.antt"), re.MULTILINE))
    wanted = sorted((int(number), spelled[cause]) for cause, number in numbers.items())
    told = [(int(number), word) for number, word in re.findall(r"^\| (\d+) \| `(\w+)` \|", text_of("docs/REFERENCE.md"), re.MULTILINE)]
    faults = [] if told == wanted and len(wanted) == 9 else [f"docs/REFERENCE.md tells the causes {told}"]
    guide = re.findall(r"^### `(\w+)`$", text_of("docs/GUIDE.md"), re.MULTILINE)
    faults += [f"docs/GUIDE.md doesn't say what to do at {word}" for _, word in wanted if word not in guide]
    table = text_of("docs/DESIGN.md").split("\n## Where each cause is decided\n", 1)[1].split("\n## ", 1)[0]
    faults += [f"docs/DESIGN.md doesn't say where {word} is decided" for _, word in wanted if not re.search(rf"^\|[^|]*`{word}`", table, re.MULTILINE)]
    texts = re.findall(r'#\[error\("(.*)"\)\]', text_of("crates/pt_plan/src/fault.rt"))
    for number, text in enumerate(texts, 1):
        faults += [] if f"| `fault {number}: {text}` | 3 |" in text_of("docs/REFERENCE.md") else [f"docs/REFERENCE.md doesn't tell fault {number}: {text}"]
        faults += [] if f"**{number} {text}" in text_of("docs/GUIDE.md") else [f"docs/GUIDE.md doesn't say what to do at fault {number}: {text}"]
    return faults + ([] if len(texts) == 11 else [f"there are {len(texts)} faults"])


def words(program, folder):
    """Each other word of code stands in the code."""
    sources = [path for paths_of in code_files().values() for path in paths_of]
    sources += ["Makefile", *(path for name in ("tests", "tests/cases", "tests/harness", "tools", "bench") for path in glob.glob(f"{name}/*.*", root_dir=TOP))]
    there = set(re.findall(r"\w+", "\n".join(text_of(path) for path in sources))) | set(code_files())
    faults = []
    for path in DOCUMENTS:
        for text in sorted(set(backticked(prose(path)))):
            first = text.split()[0]
            if is_word_of_code(first) and not set(re.findall(r"\w+", first)) <= there:
                faults.append(f"{path}: {text} stands nowhere in the code")
    return faults


def edit_faults(text, files):
    """Why an edit's text can't be applied to these files of its crate, a dict of their texts: each `file:` is there, and each `old:` stands in it
    once, as the earlier pairs left it."""
    path, old, pairs = None, None, 0
    for line in text.splitlines():
        if line.startswith("file: "):
            path = line.removeprefix("file: ")
            if path not in files:
                yield f"there is no file {path}"
        elif line.startswith("old: "):
            old = line.removeprefix("old: ")
        elif line.startswith("new:") and old and path in files:
            if files[path].count(old) != 1:
                yield f"{old!r} stands {files[path].count(old)} times in {path}"
            files = {**files, path: files[path].replace(old, line.removeprefix("new:").removeprefix(" "))}
            old, pairs = None, pairs + 1
    if not pairs or old:
        yield "an `old:` and a `new:` have to come in pairs, below a `file:`"


def edits(program, folder):
    """Each edit that has to be refused can be applied; and wrong ones are found out."""
    faults = []
    for crate in sorted(code_files()):
        files = {path.removeprefix(f"crates/{crate}/"): text_of(path) for path in code_files()[crate] if "/must-fail/" not in path}
        for edit in sorted(path for path in code_files()[crate] if path.endswith(".edit")):
            faults += [f"{edit}: {fault}" for fault in edit_faults(text_of(edit), files)]
    there = {"src/a.rt": "one two two"}
    good = "file: src/a.rt\nold: one\nnew: two\nold: two two two\nnew:\n"
    bad = ("file: src/b.rt\nold: one\nnew: x\n", "file: src/a.rt\nold: two\nnew: x\n", "file: src/a.rt\nold: three\nnew: x\n", "file: src/a.rt\nold: one\n", "")
    faults += [f"taken for wrong: {fault}" for fault in edit_faults(good, there)]
    return faults + [f"taken for good: {text!r}" for text in bad if not list(edit_faults(text, there))]


def shown(program, folder):
    """The lines of a log in docs/GUARANTEES.md are those of the run that the demonstration shows."""
    done = subprocess.run(["sh", f"{TOP}/demo/run", program], capture_output=True, check=True, timeout=120)
    log = done.stdout.decode().split("The first run", 1)[1].split("status", 1)[0]
    told = [text for text in backticked(text_of("docs/GUARANTEES.md")) if text.startswith('{"as"')]
    return [f"docs/GUARANTEES.md shows {line}" for line in told if line not in log.splitlines()] + ([] if told else ["no line is shown"])


def gathering(program, folder):
    """What `--gather` does is said in the same sentence everywhere."""
    helped = subprocess.run([program, "migrate", "--help"], capture_output=True, check=True, timeout=120).stdout.decode()
    sentence = re.search(r"--gather\s+Carry (.*?) \[default", " ".join(helped.split()))[1]
    made = fill.made(fill.grammar_text())
    texts = {path: text_of(path) for path in ("docs/REFERENCE.md", "docs/GUIDE.md")} | {path: made[path] for path in (fill.PAGE, fill.ZSH, fill.FISH)}
    plain = {path: re.sub(r"\s+", " ", text).replace("'\\''", "'").replace("\\'", "'") for path, text in texts.items()}
    return [f"{path} doesn't say of --gather: {sentence}" for path, text in plain.items() if sentence not in text]


CASES = [
    Alone("the documents' links", links),
    Alone("the documents' paths", paths),
    Alone("the documents' files of code", files),
    Alone("the documents' sizes", sizes),
    Alone("the documents' lines and sentences", readable),
    Alone("the documents' plain words", plain),
    Alone("the documents that other files name", mentions),
    Alone("each definition and each edit is explained", explained),
    Alone("the promises of each crate", heads),
    Alone("the documents' crates", crates),
    Alone("the proofs of a run's promises", proofs),
    Alone("the guarantees are told", guarantees),
    Alone("what the guarantees except is told", exceptions),
    Alone("the causes and faults are told", causes),
    Alone("the documents' words of code", words),
    Alone("the edits that must be refused", edits),
    Alone("the guarantees' lines are the demonstration's", shown),
    Alone("what --gather does", gathering),
]
