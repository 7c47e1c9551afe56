#!/usr/bin/env python3
"""What the gate costs, by part and by crate.

usage: bench/gate.py [--anew] [--of FOLDER]

Run it with nothing else running, in a clean clone, or name one by --of, of whichever version: it runs
`rt ci` there and then `scripts/served`, if there is one, as `.ci/run` does, whose text goes to standard
error. It looks at the checks twice a second, and prints processor seconds by crate, and the wall and
processor time of both steps. What runs before have kept is not proved again, unless by --anew.

A check has what it had used when it was last seen, so its last half second is in `other`, with
what is no check: linking, and the programs and tests themselves."""
import argparse
import os
import resource
import subprocess
import sys
import time
from pathlib import Path

TICKS = os.sysconf("SC_CLK_TCK")
PARTS = ("contracts", "tests", "edits")


def checks():
    """Each check that runs: what tells it from all others, its part and crate, its seconds."""
    for path in Path("/proc").glob("[0-9]*"):
        try:
            words = (path / "cmdline").read_text(errors="replace").split("\0")
            if not words[0].endswith("/rattle") or "--crate-name" not in words:
                continue
            fields = (path / "stat").read_text().rpartition(")")[2].split()
            folder = os.readlink(path / "cwd")
        except OSError:
            continue
        crate = words[words.index("--crate-name") + 1]
        part = "edits" if "/rt-edit-" in folder else "tests" if "--test" in words else "contracts"
        yield (path.name, fields[19]), (part, crate), (int(fields[11]) + int(fields[12])) / TICKS


def watched(run):
    """The seconds of each part of each crate, once the run has ended."""
    seen = {}
    while run.poll() is None:
        for check, key, seconds in checks():
            seen[check] = key, seconds
        time.sleep(0.5)
    spent = {}
    for key, seconds in seen.values():
        spent[key] = spent.get(key, 0) + seconds
    return spent


def used():
    """The processor seconds of all runs that have ended."""
    children = resource.getrusage(resource.RUSAGE_CHILDREN)
    return children.ru_utime + children.ru_stime


def step(folder, *words):
    """A step of the gate: its status, its checks' seconds, and its wall and processor time in seconds."""
    begun, before = time.time(), used()
    run = subprocess.Popen(words, cwd=folder, stdout=sys.stderr)
    spent = watched(run)
    return run.returncode, spent, time.time() - begun, used() - before


def row(name, seconds):
    print(f"| {name} | " + " | ".join(f"{it:,.0f}" for it in seconds) + " |")


def main():
    words = argparse.ArgumentParser(description=__doc__, formatter_class=argparse.RawDescriptionHelpFormatter)
    words.add_argument("--anew", action="store_true", help="prove all, whatever runs before have kept")
    words.add_argument("--of", type=Path, metavar="FOLDER", default=Path(__file__).resolve().parent.parent, help="a clean clone")
    asked = words.parse_args()
    status, spent, wall, processor = step(asked.of, "rt", "ci", *(["--anew"] if asked.anew else []))
    print("| Crate | " + " | ".join(PARTS) + " |\n|---" + "|---" * len(PARTS) + "|")
    crates = sorted({crate for _, crate in spent})
    for crate in crates:
        row(f"`{crate}`", [spent.get((part, crate), 0) for part in PARTS])
    row("all", [sum(it for (part, _), it in spent.items() if part == wanted) for wanted in PARTS])
    edits = len(list(asked.of.glob("crates/*/must-fail/*.edit")))
    other = processor - sum(spent.values())
    print(f"\n{len(crates)} crates, {edits} edits, other {other:,.0f} s; "
          f"`rt ci`: {wall / 60:.1f} minutes, {processor / 60:.1f} of a processor", end="")
    if status == 0 and (asked.of / "scripts/served").exists():
        status, _, wall, processor = step(asked.of, "scripts/served")
        print(f"; `scripts/served`: {wall / 60:.1f} minutes, {processor / 60:.1f} of a processor", end="")
    print()
    sys.exit(status)


if __name__ == "__main__":
    main()
