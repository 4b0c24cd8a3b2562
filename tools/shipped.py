#!/usr/bin/env python3
"""Copies the documents that are shipped with the program: README.md and docs/*.md, into a folder that has the rest already.

Usage: shipped.py TOP FOLDER. A link to what isn't shipped, as to a source file, becomes its text.
"""

import glob
import os
import re
import sys

LINK = re.compile(r"\[([^\]]*)\]\(([^)#\s]*)(#[^)]*)?\)")


def main():
    top, folder = sys.argv[1:]
    names = ["README.md", *sorted(os.path.relpath(path, top) for path in glob.glob(f"{glob.escape(top)}/docs/*.md"))]
    os.makedirs(f"{folder}/docs", exist_ok=True)

    def kept(name, link):
        """A link, or its text where its file isn't shipped."""
        target = os.path.normpath(f"{os.path.dirname(name)}/{link[2]}".lstrip("/"))
        there = not link[2] or "://" in link[2] or target in names or os.path.exists(f"{folder}/{target}")
        return link[0] if there else link[1]

    for name in names:
        with open(f"{top}/{name}", encoding="utf-8") as file:
            text = LINK.sub(lambda link: kept(name, link), file.read())
        with open(f"{folder}/{name}", "w", encoding="utf-8") as file:
            file.write(text)


if __name__ == "__main__":
    main()
