#!/usr/bin/env python3
"""Builds the programs that are shipped, one for each of CPUS. Each holds the C library too, so that it runs on any Linux since 3.2, whatever stands there.

Usage: programs.py RT FOLDER. The libraries below the program stand built already, as `make` and the gate leave them; only the program's own
crate is proved here, or taken as an earlier proof left it. FOLDER then has CPU/pairtree2ocfl, CPU/pairtree2ocfl.o, the object file of the
proved program, the toolchain's own archives that are linked with it, and a README that says how to link them again.
"""

import glob
import os
import re
import shutil
import subprocess
import sys

TOP = os.path.dirname(os.path.dirname(os.path.abspath(__file__)))
NAME = "pairtree2ocfl"
CPUS = ("x86-64-v2", "x86-64-v3")
ARCHIVES = ("libos_c.a", "liblibc_c.a")
README = """The programs in x86-64-v2 and x86-64-v3 hold parts of the GNU C Library, which is Copyright (C) the Free Software Foundation, Inc. and others:

    {library}

That library is covered by the GNU Lesser General Public License, version 2.1 or later (LGPL-2.1). Its source is at
https://ftp.gnu.org/gnu/glibc/, and with what a distribution changed in the source package of that name and version.
A program can be linked with another build of it, one that you changed too, by a C compiler, in this folder:

    cc -static -o pairtree2ocfl x86-64-v2/pairtree2ocfl.o libos_c.a liblibc_c.a

pairtree2ocfl.o is what the Rattle toolchain made of the proved program, and both archives are that toolchain's own.
"""


def kit_of(rt):
    """The toolchain's folder."""
    return os.path.dirname(subprocess.run([rt, "doc"], capture_output=True, check=True, text=True).stdout.strip())


def library_of(cc):
    """What the C library that is linked says of itself."""
    path = subprocess.run([cc, "-print-file-name=libc.a"], capture_output=True, check=True, text=True).stdout.strip()
    with open(path, "rb") as file:
        return re.search(rb"GNU C Library [^\n]* version [\d.]*\d", file.read())[0].decode()


def building(kit, cpu, to):
    """Begins to prove the program's crate over the libraries, and to compile it for a processor. What is proved is kept for each processor apart."""
    with open(f"{TOP}/crates.txt", encoding="utf-8") as file:
        (below,) = re.findall(rf"^{NAME}:(.*)$", file.read(), re.MULTILINE)
    libraries = {"std": f"{kit}/rlibs/std.rlib", **{name: f"{TOP}/crates/{name}/out/rlib/{name}.rlib" for name in below.split()}}
    command = [f"{kit}/bin/rattle", "build", "--crate-name", NAME, "src/main.rt", "--cpu", cpu, "--backend", "llvm", "-o", to]
    command += [word for name, path in libraries.items() for word in ("--extern", f"{name}={path}")]
    command += [word for path in (f"{kit}/rlibs", *sorted(glob.glob(f"{TOP}/crates/*/out/rlib"))) for word in ("-L", f"dependency={path}")]
    command += ["--antt-project", f"{kit}/rattle/logic/antt-project.json", "--logic-built", f"{kit}/logic_built", "--toolchain", f"{kit}/toolchain"]
    kept = "out/incremental" if cpu == CPUS[0] else f"out/incremental-{cpu}"
    os.makedirs(f"{TOP}/crates/{NAME}/out", exist_ok=True)
    return subprocess.Popen([*command, "--links", f"{NAME}=", "--incremental", kept], cwd=f"{TOP}/crates/{NAME}")


def build_all(rt, folder):
    """Builds the programs side by side, which takes some four minutes where nothing is kept, and links them."""
    kit, cc, folder = kit_of(rt), os.environ.get("CC", "cc"), os.path.abspath(folder)
    shutil.rmtree(folder, ignore_errors=True)
    for cpu in CPUS:
        os.makedirs(f"{folder}/{cpu}")
    with open(f"{folder}/README", "w", encoding="utf-8") as file:
        file.write(README.format(library=library_of(cc)))
    for name in ARCHIVES:
        shutil.copyfile(f"{kit}/c/{name}", f"{folder}/{name}")
    begun = [building(kit, cpu, f"{folder}/{cpu}/{NAME}.o") for cpu in CPUS]
    if any([process.wait() for process in begun]):
        sys.exit("pairtree2ocfl: what is shipped could not be built")
    for cpu in CPUS:
        subprocess.run([cc, "-static", "-o", f"{cpu}/{NAME}", f"{cpu}/{NAME}.o", *ARCHIVES], cwd=folder, check=True)


if __name__ == "__main__":
    build_all(*sys.argv[1:])
