"""Tests of what is shipped with the program: statuses and version, licences, installing, the archive and the packages.
"""

import glob
import gzip
import hashlib
import os
import re
import shutil
import subprocess
import sys
import tarfile
import time

import static
from alone import Alone, differs
from completions import done, made_of, section, text_of
from tally import Skipped, needs

TOP = os.path.dirname(os.path.dirname(os.path.dirname(os.path.abspath(__file__))))
sys.path.append(f"{TOP}/tools")

import fill

INSTALLED = {
    "bin/pairtree2ocfl",
    "share/man/man1/pairtree2ocfl.1",
    "share/bash-completion/completions/pairtree2ocfl",
    "share/zsh/site-functions/_pairtree2ocfl",
    "share/fish/vendor_completions.d/pairtree2ocfl.fish",
    "share/pairtree2ocfl/roots.py",
    "share/pairtree2ocfl/shares.py",
    *(f"share/pairtree2ocfl/shares_{name}.py" for name in ("notes", "running", "status")),
    *(f"share/pairtree2ocfl/roots_{name}.py" for name in ("aside", "joining", "logs", "objects", "sums", "telling")),
    "share/pairtree2ocfl/shown.py",
    "share/pairtree2ocfl/starting.py",
    "share/pairtree2ocfl/report.py",
    *(f"share/pairtree2ocfl/report_{name}.py" for name in ("log", "page", "sums", "verdict", "words")),
}
SCRIPTS = ("roots", "shares", "report")
INSTALLED |= {f"{place}pairtree2ocfl-{name}{end}" for name in SCRIPTS for place, end in (("bin/", ""), ("share/man/man1/", ".1"))}
# What is installed of the programs that are shipped, beside what is installed of any.
OF_PROGRAMS = {f"lib/pairtree2ocfl/{name}" for name in ("README", "choose.sh", "libos_c.a", "liblibc_c.a")}
OF_PROGRAMS |= {f"lib/pairtree2ocfl/{cpu}/pairtree2ocfl{end}" for cpu in static.CPUS for end in ("", ".o")}
DOCUMENTS = {"README.md", *(f"docs/{os.path.basename(path)}" for path in glob.glob(f"{TOP}/docs/*.md"))}
LICENCES = {os.path.relpath(path, TOP) for path in (*glob.glob(f"{TOP}/LICENSE-*"), *glob.glob(f"{TOP}/LICENSES/*/*"))}
IN_DOC = "share/doc/pairtree2ocfl"


def statuses(program, folder):
    """The guide, the man page and docs/REFERENCE.md tell each status of a run and of an audit; the program gives them."""
    guide, page, reference = section("docs/GUIDE.md", "The run"), made_of(fill.PAGE), section("docs/REFERENCE.md", "Statuses")
    rows = {name: dict(re.findall(r"^\| ([0-3]) \| (.*) \|$", text, re.MULTILINE)) for name, text in {"GUIDE": guide, "REFERENCE": reference}.items()}
    rows["the man page"] = dict(re.findall(r"^\.B ([0-3])\n(.*?)(?=^\.TP|^\.SH)", page.split(".SH EXIT STATUS")[1], re.MULTILINE | re.DOTALL))
    words = {"0": "audit", "1": "audit", "2": "lie in one another", "3": "fault"}
    told = [(name, number, word, of.get(number, "")) for name, of in rows.items() for number, word in words.items()]
    faults = [f"{name} doesn't tell status {number} of {word}" for name, number, word, text in told if word not in text]
    done(program, "migrate", "--created", "2024-05-01T12:00:00Z", "--name", "Ada", "s", "d", cwd=folder)
    audits = [subprocess.run([program, "audit", "s", dest], cwd=folder, capture_output=True, timeout=120).returncode for dest in ("d", ".", "s", "none")]
    return faults + differs(audits=(audits, [0, 1, 2, 3]))


def versions(program, folder):
    """The version stands in the changelog first, in the man page with the changelog's day and in README; the toolchain's line has the toolchain's logic."""
    first, toolchain = done(program, "--version").splitlines()
    number = first.removeprefix("pairtree2ocfl ")
    newest, day = re.search(r"^## \[([^]]*)\] - ([\d-]+)$", text_of("CHANGELOG.md"), re.MULTILINE).groups()
    faults = differs(changelog=(newest, number), page=(f'{day} "pairtree2ocfl {number}"' in made_of(fill.PAGE), True))
    told = re.findall(r"^Version ([\d.]+\d)\.", text_of("README.md"), re.MULTILINE)
    faults += differs(readme=((f"`{toolchain}`" in text_of("README.md"), told), (True, [number])))
    rt = shutil.which(os.environ.get("RT", "rt"))
    return faults + (differs(logic=(logic_of(done(rt, "version")), logic_of(toolchain))) if rt else [])


def logic_of(line):
    """The logic that a toolchain's line names, with the words before it but for the kit's own number."""
    return re.sub(r"\Arattle-kit-\w+", "rattle-kit", line.strip())


def licences(program, folder):
    """The licences of the crates that the program holds are the toolchain's own files, where that is here, and the C library's is the system's."""
    faults = differs(own=(all(os.path.isfile(f"{TOP}/LICENSE-{name}") for name in ("MIT", "APACHE")), True))
    common = "/usr/share/common-licenses/LGPL-2.1"
    if os.path.exists(common):
        with open(common, encoding="utf-8") as file:
            faults += differs(lgpl=(text_of("LICENSES/glibc/LGPL-2.1") == file.read(), True))
    rt = shutil.which(os.environ.get("RT", "rt"))
    if rt:
        kit = os.path.dirname(done(rt, "doc").strip())
        for path in set(glob.glob(f"{TOP}/LICENSES/*/*")) - set(glob.glob(f"{TOP}/LICENSES/glibc/*")):
            name = os.path.relpath(path, f"{TOP}/LICENSES")
            with open(f"{kit}/rattle/{name}", encoding="utf-8") as file:
                faults += differs(**{name: (text_of(f"LICENSES/{name}") == file.read(), True)})
    return faults


def text_files(top):
    """The files below a folder."""
    return {os.path.relpath(os.path.join(above, name), top) for above, _, names in os.walk(top) for name in names}


def installed(program, folder):
    """What is installed runs, with the documents, whose links lead to what is there, and the licences; and what is uninstalled leaves no file, nor a
    folder of its own, whatever its scripts and an earlier version left there."""
    root = f"{folder}/root/usr"
    done("sh", f"{TOP}/tools/install.sh", program, root)
    faults = differs(files=(text_files(root), INSTALLED | {f"{IN_DOC}/{name}" for name in DOCUMENTS | LICENCES}))
    faults += dead_links(f"{root}/{IN_DOC}") + wrong_modes(root) + untold_licences(f"{root}/{IN_DOC}", f"{root}/{IN_DOC}", *sorted(LICENCES))
    faults += differs(runs=(done(f"{root}/bin/pairtree2ocfl", "names", "abc"), "ab/c\nba7/816/bf8/abc\n")) + not_on_path(root, folder)
    os.makedirs(f"{root}/share/pairtree2ocfl/__pycache__")
    for name in ("shares.sh", "__pycache__/shown.cpython-311.pyc"):
        open(f"{root}/share/pairtree2ocfl/{name}", "w", encoding="ascii").close()
    done("sh", f"{TOP}/tools/install.sh", "--remove", root)
    folders = [os.path.relpath(above, root) for above, _, _ in os.walk(root) if os.path.basename(above) == "pairtree2ocfl"]
    return faults + differs(left=(text_files(root), set()), folders=(folders, []))


def not_on_path(prefix, folder):
    """What is wrong with the scripts below a folder, called by their names: they carry a store in shares, look at its root and make a page of its logs."""
    told = {"STORE": f"{folder}/s", "OUT": f"{folder}/shares", "CREATED": "2024-05-01T12:00:00Z", "NAME": "Ada"}
    told["PATH"] = f"{prefix}/bin:{os.environ['PATH']}"
    environment, faults = {**{name: text for name, text in os.environ.items() if not name.startswith("PYTHON")}, **told}, []
    shutil.rmtree(f"{folder}/shares", ignore_errors=True)
    out = f"{folder}/shares"
    for name, *rest in (("shares", "here", "2"), ("roots", "damaged", f"{out}/1/ocfl"), ("report", f"{out}/1.log", "-o", f"{out}/page.html")):
        ended = subprocess.run([f"pairtree2ocfl-{name}", *rest], env=environment, cwd=folder, capture_output=True, timeout=120)
        faults += differs(**{name: ((ended.returncode, ended.stdout), (0, b""))})
        helped = subprocess.run([f"pairtree2ocfl-{name}", "--help"], env=environment, cwd=folder, capture_output=True, timeout=120)
        faults += differs(**{f"help of {name}": ((helped.returncode, b"Python 3." in helped.stdout), (0, True))})
        faults += differs(**{f"page of {name}": (pages(prefix, name), [".so man1/pairtree2ocfl.1\n"])})
    texts = {"the man page": made_of(fill.PAGE).replace("\\-", "-"), "README.md": text_of("README.md"), "docs/GUIDE.md": text_of("docs/GUIDE.md")}
    for where, text in texts.items():
        faults += [f"{where} doesn't tell pairtree2ocfl-{name}" for name in SCRIPTS if f"pairtree2ocfl-{name}" not in text]
    return faults + differs(page=(os.path.isfile(f"{folder}/shares/page.html"), True), shares=(os.path.isdir(f"{folder}/shares/2/ocfl"), True))


def pages(prefix, name):
    """The man pages of a script below a folder."""
    texts = []
    for path in glob.glob(f"{prefix}/share/man/man1/pairtree2ocfl-{name}.1*"):
        with (gzip.open if path.endswith(".gz") else open)(path, "rb") as file:
            texts.append(file.read().decode())
    return texts


def untold_licences(documents, place, *names):
    """What README among these documents says of licences that isn't so: each name is told there, by itself or by its folder, and is in the place."""
    with open(f"{documents}/README.md", encoding="utf-8") as file:
        text = file.read()
    faults = [f"README.md doesn't tell {name}" for name in names if name not in text and f"{name.split('/')[0]}/" not in text]
    return faults + [f"{name} isn't in {place}" for name in names if not os.path.isfile(f"{place}/{name}")]


def no_prefix(program, folder):
    """Nothing is installed or taken away with an empty PREFIX."""
    faults = []
    for target in ("install", "uninstall"):
        ended = subprocess.run(["make", "-C", TOP, target, "PREFIX=", f"PROGRAM={program}", f"DESTDIR={folder}/root"], capture_output=True, timeout=60)
        faults += differs(**{target: ((ended.returncode, b"PREFIX is empty" in ended.stderr, os.path.exists(f"{folder}/root")), (2, True, False))})
    return faults


def dead_links(top):
    """What is wrong with the documents in a folder: README isn't there, or a link of a document leads to no file there."""
    faults = [] if os.path.isfile(f"{top}/README.md") else ["README.md isn't there"]
    for path in glob.glob(f"{top}/*.md") + glob.glob(f"{top}/docs/*.md"):
        with open(path, encoding="utf-8") as file:
            targets = re.findall(r"\]\(([^)#\s]+)", file.read())
        for target in targets:
            if "://" not in target and not os.path.exists(os.path.join(os.path.dirname(path), target)):
                faults.append(f"{os.path.relpath(path, top)} links {target}, which isn't there")
    linked = re.findall(r"\]\((docs/[^)#\s]+)", text_of("README.md"))
    return faults + [f"{name} isn't there" for name in linked if not os.path.isfile(f"{top}/{name}")]


def wrong_modes(top):
    """The files and folders that not everybody may read, or that others may write."""
    modes = {}
    for above, folders, names in os.walk(top):
        modes.update({name: os.stat(os.path.join(above, name)).st_mode & 0o777 for name in (*folders, *names)})
    return [f"{name} has mode {mode:o}" for name, mode in modes.items() if mode not in (0o644, 0o755)]


def chosen(prefix):
    """What is wrong with the program that is linked below a folder: it isn't the one that this machine is to run, or doesn't run."""
    cpu = done("sh", f"{TOP}/tools/choose.sh").strip()
    faults = differs(link=(os.readlink(f"{prefix}/bin/pairtree2ocfl"), f"../lib/pairtree2ocfl/{cpu}/pairtree2ocfl"))
    return faults + differs(runs=(done(f"{prefix}/bin/pairtree2ocfl", "names", "abc"), "ab/c\nba7/816/bf8/abc\n"))


def made(kind, folder, programs=None):
    """The path of what a script of tools/ makes of the programs, where a new file is nobody's but its maker's."""
    programs = programs or static.built()
    return done("sh", "-c", 'umask 077; exec sh "$@"', "sh", f"{TOP}/tools/{kind}.sh", programs, folder).strip()


def summed(folder):
    """What is wrong with the sums in a folder: each of its files below has one, which is right."""
    sums = dict(reversed(line.split("  ", 1)) for line in open(f"{folder}/SHA256SUMS", encoding="utf-8").read().splitlines())
    faults = differs(listed=(set(sums), {name for name in text_files(folder) if not os.path.islink(f"{folder}/{name}")} - {"SHA256SUMS"}))
    for name, digest in sums.items():
        with open(f"{folder}/{name}", "rb") as file:
            faults += differs(**{name: (hashlib.sha256(file.read()).hexdigest(), digest)})
    return faults


def archived(program, folder):
    """The archive has all that its sums name, its program runs, and its own script installs the one for this machine."""
    path = made("dist", f"{folder}/dist")
    with tarfile.open(path) as archive:
        archive.extractall(folder)
    top = f"{folder}/{os.path.basename(path).removesuffix('.tar.gz')}"
    faults = summed(top) + dead_links(top) + wrong_modes(top)
    wanted = INSTALLED | OF_PROGRAMS | DOCUMENTS | LICENCES | {"CHANGELOG.md", "install.sh"}
    faults += differs(missing=(wanted - text_files(top), set()), runs=(done(f"{top}/bin/pairtree2ocfl", "-V"), done(program, "-V")))
    root = f"{folder}/root"
    for _ in range(2):
        done("sh", f"{top}/install.sh", root)
        faults += chosen(root) + dead_links(f"{root}/{IN_DOC}") + wrong_modes(root) + not_on_path(root, folder) + not_on_path(top, folder)
    wanted = INSTALLED | OF_PROGRAMS | {f"{IN_DOC}/{name}" for name in (*DOCUMENTS, *LICENCES, "CHANGELOG.md")}
    faults += untold_licences(f"{root}/{IN_DOC}", f"{root}/{IN_DOC}", *sorted(LICENCES))
    return faults + differs(not_installed=(wanted - text_files(root), set()))


def packaged(program, folder):
    """The Debian package, installed into an empty root, where the program for this machine runs."""
    needs("dpkg-deb", "dpkg")
    path = made("deb", f"{folder}/deb")
    fields = done("dpkg-deb", "-f", path, "Package", "Version", "Depends")
    number = done(program, "-V").split()[1]
    faults = differs(version=(f"Version: {number}\n" in fields, True), depends=("Depends: python3\n" in fields, True))
    root = f"{folder}/empty"
    for above in ("var/lib/dpkg/info", "var/lib/dpkg/updates", "var/lib/dpkg/triggers"):
        os.makedirs(f"{root}/{above}")
    for name in ("status", "available"):
        open(f"{root}/var/lib/dpkg/{name}", "w", encoding="utf-8").close()
    if os.geteuid() != 0:
        done("dpkg-deb", "-x", path, root)
        done("sh", f"{root}/usr/lib/pairtree2ocfl/choose.sh", "--link", f"{root}/usr")
    command = ["dpkg", f"--root={root}", "--force-not-root", "--force-depends", "--force-script-chrootless", "--log=/dev/null"]
    if os.geteuid() == 0:
        done(*command, "-i", path, env={**os.environ, "PATH": f"{os.environ['PATH']}:/usr/sbin:/sbin"})
    faults += chosen(f"{root}/usr") + missing_of_package(f"{root}/usr") + not_on_path(f"{root}/usr", folder)
    faults += untold_licences(f"{root}/usr/{IN_DOC}", f"{root}/usr/{IN_DOC}", "copyright")
    if os.geteuid() == 0:
        done(*command, "-r", "pairtree2ocfl", env={**os.environ, "PATH": f"{os.environ['PATH']}:/usr/sbin:/sbin"})
        faults += differs(left=(text_files(f"{root}/usr"), set()), folder=(os.path.exists(f"{root}/usr/share/pairtree2ocfl"), False))
    return faults


def missing_of_package(root):
    """What of a package isn't installed below a folder, or isn't as it must be."""
    files = {name.removesuffix(".gz") for name in text_files(root)}
    wanted = INSTALLED | OF_PROGRAMS | {f"{IN_DOC}/{name}" for name in (*DOCUMENTS, "CHANGELOG.md")}
    return differs(missing=(wanted - files, set())) + dead_links(f"{root}/{IN_DOC}") + wrong_modes(root)


def packaged_rpm(program, folder):
    """The RPM package, installed below a folder and taken away, where the program for this machine runs."""
    needs("rpmbuild", "rpm")
    path = made("rpm", f"{folder}/rpm")
    number = done(program, "-V").split()[1]
    wanted = done("rpm", "-qp", "--requires", path).splitlines()
    faults = differs(version=(done("rpm", "-qp", "--qf", "%{NAME} %{VERSION}", path), f"pairtree2ocfl {number}"))
    faults += differs(wants=([it for it in wanted if not it.startswith("rpmlib(")], ["/bin/sh"]))
    if os.geteuid() != 0:
        raise Skipped("only root can install an RPM package")
    database = ("--dbpath", f"{folder}/database")
    done("rpm", *database, "--prefix", f"{folder}/usr", "--nodeps", "-i", path)
    faults += chosen(f"{folder}/usr") + missing_of_package(f"{folder}/usr") + not_on_path(f"{folder}/usr", folder)
    faults += untold_licences(f"{folder}/usr/{IN_DOC}", f"{folder}/usr/share/licenses/pairtree2ocfl", *sorted(LICENCES))
    faults += differs(told=("share/licenses/pairtree2ocfl" in text_of("README.md"), True), whole=(done("rpm", *database, "-V", "pairtree2ocfl"), ""))
    done("rpm", *database, "-e", "pairtree2ocfl")
    return faults + differs(left=(text_files(f"{folder}/usr"), set()), folder=(os.path.exists(f"{folder}/usr/share/pairtree2ocfl"), False))


def twice(kind, *programs):
    """What is made twice of the same programs, at another time, in another zone and of copies, is the same to the byte, and so are its sums."""

    def test(program, folder):
        needs(*programs)
        shutil.copytree(static.built(), f"{folder}/copies", copy_function=shutil.copy)
        first = made(kind, f"{folder}/1")
        time.sleep(1.1)
        again = done("sh", f"{TOP}/tools/{kind}.sh", "copies", "2", cwd=folder, env={**os.environ, "TZ": "Asia/Tokyo", "LC_ALL": "C"}).strip()
        with open(first, "rb") as one, open(f"{folder}/{again}", "rb") as other:
            faults = differs(same=(one.read() == other.read(), True))
        faults += differs(name=(os.path.basename(first), os.path.basename(again)))
        return faults + summed(f"{folder}/1") + summed(f"{folder}/2")

    return Alone(f"tools/{kind}.sh twice", test)


def sums_of_all(program, folder):
    """Each of what is made in one folder is among its sums."""
    needs("dpkg", "dpkg-deb", "rpmbuild")
    for kind in ("dist", "deb", "rpm"):
        made(kind, f"{folder}/dist")
    return summed(f"{folder}/dist") + differs(files=(len(text_files(f"{folder}/dist")), 4))


def linted(program, folder):
    """lintian says nothing of the package but what is answered in tools/deb.sh."""
    needs("dpkg-deb", "lintian")
    path = made("deb", f"{folder}/deb")
    said = subprocess.run(["lintian", path], capture_output=True, timeout=300).stdout.decode()
    answered = re.findall(r"^# lintian: ([\w-]+): ", text_of("tools/deb.sh"), re.MULTILINE)
    left = [line for line in said.splitlines() if re.match("[EW]: ", line) and not any(f": {tag} " in f"{line} " for tag in answered)]
    return differs(said=(left, []))


# What the system tells of a processor that has all of x86-64-v3, without what no program asks for.
WHOLE = "fpu sse4_2 movbe popcnt xsave avx f16c abm bmi1 avx2 bmi2 fma"


def processors(*several):
    """What the system tells of these processors, each a vendor and flags."""
    return "\n".join(f"processor\t: {number}\nvendor_id\t: {vendor}\nflags\t\t: {flags}\nbugs\t\t: fma\n" for number, (vendor, flags) in enumerate(several))


def choosing(program, folder):
    """The program for x86-64-v3 is chosen where all processors have all of that, whoever made them; in doubt the one for x86-64-v2."""
    makers, rows = ("GenuineIntel", "AuthenticAMD", "HygonGenuine"), []
    for maker in makers:
        lacking = [(maker, WHOLE.replace(f" {flag}", "")) for flag in ("movbe", "avx", "f16c", "abm", "bmi1", "avx2", "bmi2", "fma")]
        rows += [(processors(*[(maker, WHOLE)] * count), "x86-64-v3") for count in (1, 4)]
        rows += [(processors(*several), "x86-64-v2") for one in lacking for several in ([one], [(maker, WHOLE), one], [one, (maker, WHOLE)])]
    rows += [(processors(*((maker, f"{WHOLE} {maker.lower()}") for maker in makers)), "x86-64-v3")]
    rows += [("", "x86-64-v2"), (f"flags\t\t: {WHOLE}\n", "x86-64-v3"), (f"vendor_id\t: {makers[0]}\n", "x86-64-v2")]
    faults, script = [], f"{TOP}/tools/choose.sh"
    os.mkdir(f"{folder}/bin")
    for number, (text, cpu) in enumerate(rows):
        with open(f"{folder}/cpuinfo", "w", encoding="ascii") as file:
            file.write(text)
        faults += differs(**{f"row {number}": (done("sh", script, f"{folder}/cpuinfo"), f"{cpu}\n")})
        said = done("sh", script, "--link", folder, f"{folder}/cpuinfo")
        faults += differs(**{f"link of row {number}": ((said, os.readlink(f"{folder}/bin/pairtree2ocfl")), ("", f"../lib/pairtree2ocfl/{cpu}/pairtree2ocfl"))})
    return faults + differs(none=(done("sh", script, f"{folder}/none"), "x86-64-v2\n"))


def built_for(program, folder):
    """make builds the program for what is chosen on this machine, unless CPU says otherwise; the toolchain's own choice is x86-64-v2."""
    here, faults = done("sh", f"{TOP}/tools/choose.sh").strip(), []
    for words, cpu in (([], here), *(([f"CPU={cpu}"], cpu) for cpu in static.CPUS)):
        said = done("make", "-C", TOP, "-n", "build", "RT=true", *words)
        faults += differs(**{f"{words}": (f"sh tools/build.sh true {cpu} bin/pairtree2ocfl\n" in said, True)})
    return faults


# What stands in for the toolchain: it writes down how it is called, and builds this.
RT = """#!/bin/sh
[ "$1" = version ] || { echo "$@" >> "$0.asked"; echo "$@" > out/pairtree2ocfl; chmod 755 out/pairtree2ocfl; }
"""


def built_once(program, folder):
    """The program is built for the processor that is asked for; anew where that, or a source, is another one, or where the toolchain sees to it."""
    for path in ("tools", "crates/pairtree2ocfl/src", "crates/pairtree2ocfl/out"):
        os.makedirs(f"{folder}/{path}")
    shutil.copy(f"{TOP}/tools/build.sh", f"{folder}/tools")
    for path, text in {"rt": RT, "crates.txt": "", "crates/pairtree2ocfl/src/main.rt": "1"}.items():
        with open(f"{folder}/{path}", "w", encoding="ascii") as file:
            file.write(text)
    os.chmod(f"{folder}/rt", 0o755)
    v2, v3 = "run -- --help", "run --cpu=x86-64-v3 -- --help"
    asked, faults = [], []
    for cpu, source, words in (("3", "1", v3), ("3", "1", None), ("3", "2", v3), ("2", "2", v2), ("2", "2", v2), ("3", "2", v3), ("3", "2", None)):
        with open(f"{folder}/crates/pairtree2ocfl/src/main.rt", "w", encoding="ascii") as file:
            file.write(source)
        done("sh", "tools/build.sh", f"{folder}/rt", f"x86-64-v{cpu}", "bin/program", cwd=folder)
        asked += [words] * bool(words)
        faults += differs(**{f"{cpu} {source}": ([open(f"{folder}/{name}", encoding="ascii").read().splitlines() for name in ("rt.asked", "bin/program")], [asked, asked[-1:]])})
    return faults + differs(files=(sorted(os.listdir(f"{folder}/bin")), ["program", "program.of"]))


CASES = [
    Alone("the statuses are told", statuses),
    Alone("one version", versions),
    Alone("licences", licences),
    Alone("install and uninstall", installed),
    Alone("no PREFIX", no_prefix),
    Alone("the archive", archived),
    Alone("the Debian package", packaged),
    Alone("the RPM package", packaged_rpm),
    twice("dist"),
    twice("deb", "dpkg", "dpkg-deb"),
    twice("rpm", "rpmbuild"),
    Alone("the sums of what is made", sums_of_all),
    Alone("what lintian says of the package", linted),
    Alone("the processor that is chosen", choosing),
    Alone("the processor that make builds for", built_for),
    Alone("the program is built once", built_once),
]
