"""The programs that are shipped, which hold the C library too, where tools/programs.py has built them."""

import os
import subprocess

from tally import Lacking, Skipped

TOP = os.path.dirname(os.path.dirname(os.path.dirname(os.path.abspath(__file__))))
FOLDER = f"{TOP}/bin/static"
CPUS = ("x86-64-v2", "x86-64-v3")


def built():
    """The folder of both. The case is skipped where they aren't built."""
    if not all(os.path.exists(f"{FOLDER}/{cpu}/pairtree2ocfl") for cpu in CPUS):
        raise Lacking("no program that is shipped is here, as make programs builds them with a C compiler")
    return FOLDER


def static(cpu):
    """The program for a processor. The case is skipped where it isn't built, or this machine hasn't all of that processor."""
    path = f"{built()}/{cpu}/pairtree2ocfl"
    if subprocess.run([path, "--version"], capture_output=True, timeout=60).returncode == 127:
        raise Skipped(f"this machine hasn't all of {cpu}")
    return path
