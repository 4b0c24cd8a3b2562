"""What rests on a crate, as tools/guarantees.py (`make guarantees`) tells it: the promises whose definitions it has, and README's guarantees.

What is told is held against rows that were found by reading the definitions.
"""

import os
import re
import subprocess
import sys

from alone import Alone, differs

TOP = os.path.dirname(os.path.dirname(os.path.dirname(os.path.abspath(__file__))))
sys.path.append(f"{TOP}/tools")

import guarantees
import index

# Promises, each with definitions on which it rests and some on which it doesn't.
RESTS = {
    ("pt_move", "Migrates", "Migrates", "states"): (
        [("pt_object", "VersionState", "v1_state"), ("pt_plan", "Items", "items"), ("pt_tree", "Forest", "node_at")],
        [("pt_move", "Outcome", "LeavesAll"), ("pt_plan", "Work", "work")],
    ),
    ("pt_move", "Migrates", "Migrates", "tree"): ([("pt_tree", "Source", "tree_in")], [("pt_plan", "Items", "items"), ("pt_object", "Inventory", "inventory_text")]),
    ("pt_host", "Audits", "AuditsOver", "ends"): (
        [("pt_extra", "Findings", "is_held"), ("pt_audit", "Twin", "object_stands"), ("pt_name", "Place", "place_of")],
        [("pt_move", "Runs", "IsRun")],
    ),
}

# Of some crates the guarantees that rest on definitions of theirs.
GUARANTEES = {
    "pt_compare": ["An audit is exact"],
    "pt_guard": [],
    "pt_extra": ["An audit is exact"],
    "pt_check": [],
    "pt_scan": [],
    "pt_memory": [],
}
ALL = [
    "Complete", "Readable as OCFL", "Nothing is lost", "No half objects", "Run it again", "The log is true", "Errors are true",
    "It ends, and stays small", "An audit is exact", "Shares are the whole",
]


def printed(*crates):
    """The blocks that the script prints, by their crates."""
    done = subprocess.run([sys.executable, f"{TOP}/tools/guarantees.py", *crates], capture_output=True, check=True, timeout=120)
    blocks = [block.splitlines() for block in done.stdout.decode().strip("\n").split("\n\n")]
    return {block[0]: block[1:] for block in blocks}


def told_of(block, what):
    """What a block tells of one thing, as a list; none where it tells nothing of it."""
    lines = [line.partition(": ")[2] for line in block if line.startswith(f"  {what}: ")]
    return lines[0] if lines else None


def rests(program, folder):
    """Promises rest on what their definitions name, by way of other files too, and on nothing else."""
    definitions, faults = guarantees.Definitions(), []
    for (crate, path, record, clause), (on, not_on) in RESTS.items():
        lines = guarantees.fields(definitions.lines[(crate, path, record)])[clause]
        found = definitions.rests_on((crate, path), lines)
        faults += [f"{clause} doesn't rest on {one}" for one in on if one not in found]
        faults += [f"{clause} rests on {one}" for one in not_on if one in found or one not in definitions.lines]
    return faults


def told(program, folder):
    """Each crate with definitions is told; of the lowest all guarantees, and of some just those that were found by reading."""
    blocks = printed()
    with_specs = {crate for crate in index.crates() if index.specs(crate)}
    faults = [f"{crate} isn't told" for crate in sorted(with_specs - set(blocks))]
    for crate, wanted in {"pt_tree": ALL, "pt_plan": ALL, **GUARANTEES}.items():
        faults += differs(**{crate: (told_of(blocks[crate], "guarantees"), ", ".join(wanted) or None)})
    faults += differs(pt_move=(told_of(blocks["pt_move"], "a run"), "all"), pt_compare=(told_of(blocks["pt_compare"], "an audit"), "ends"))
    nothing = "  No promise rests on a definition of it."
    return faults + [f"{crate} is said to have promises" for crate in ("pt_scan", "pt_make", "pt_memory") if nothing not in blocks[crate]]


def some(program, folder):
    """With names of crates only these are told, and what no contract holds of them."""
    blocks = printed("pt_object", "pt_audit")
    alone = [line for line in blocks.get("pt_audit", ()) if line.startswith("  tested, not proved: ")]
    return differs(crates=(list(blocks), ["pt_object", "pt_audit"]), alone=(len(alone), 1))


def heads(program, folder):
    """The head of each crate that has definitions names at its end the guarantees that rest on these."""
    every, faults = list(guarantees.promises(guarantees.Definitions())), []
    for crate in index.crates():
        if index.specs(crate):
            with open(f"{TOP}/crates/{crate}/src/lib.rt", encoding="utf-8") as file:
                head = " ".join(re.findall(r"^//! ?(.*)$", file.read(), re.MULTILINE))
            wanted = guarantees.head([(what, name) for what, name, crates in every if crate in crates])
            faults += [] if head.endswith(f" {wanted}") else [f"the head of {crate} doesn't end with: {wanted}"]
    return faults


CASES = [
    Alone("what promises rest on", rests),
    Alone("the crates' promises and guarantees", told),
    Alone("what rests on some crates", some),
    Alone("the guarantees that the crates' heads name", heads),
]
