#!/usr/bin/env python3
"""How many instructions a request takes in the server, outside the kernel: in all, under the user's lock, and by
function. A busy host does not change them, so they tell of changes that times are too unsteady for.

usage: bench/instructions.py PROGRAM [PROGRAM ..] [--loads NAMES] [--functions N] [--bar LOAD<=N] [--bar LOAD>=N]

It starts each `PROGRAM serve` under valgrind's callgrind, as bench/serve.py starts it, with one worker. Ten
connections of one user ask for what `LOADS` says, over 20,000 items that were all set before the count begins. Numbers
are instructions a request; those of several programs stand side by side, and ratios are to the first. Two runs of one
program come to the same within one per cent. Under the lock is what calls of a user's book take: not what is read
ahead for several connections, nor what stands between two calls.

A bar on what the first program takes under the lock, as --bar 'many<=24800', ends a run that misses it with status 2.

What is zeroed and copied is read off the instructions: a store of a register of 16 bytes that was cleared just
before, or of a zero, and other moves of such registers to and from memory. A function begins by zeroing all places
that it has for structs and enums, and copies what it gives.

It needs valgrind, and objdump of Debian's binutils."""
import argparse
import collections
import re
import subprocess
import sys
import tempfile
from pathlib import Path

from serve import BENCH, Server, ask, fill

# how bench/load.c is asked for each load, and how many requests are counted
ALL = "-c 10 -k 20000 -v 100"
LOADS = {
    "single": (f"{ALL} -g 90", 20_000),
    "pipelined": (f"{ALL} -P 16 -g 90", 40_000),
    "many": (f"{ALL} -g 100 -m 50", 2_000),
    "sets": (f"{ALL} -P 16 -g 0", 40_000),
}
# a call of a user's book
CALL = "HallBook::call"
CLEARED = re.compile(r"(%xmm\d+),\1$")
BAR = re.compile(r"(\w+)(<=|>=)(\d+)")
STORED = re.compile(r"(%xmm\d+),.*\(")
ZERO = re.compile(r"\$0x0,.*\(")


def profile(program, words, requests, asked):
    """What callgrind wrote of a server under a load."""
    out, log = Path(asked.folder, "callgrind.out"), Path(asked.folder, "valgrind.log")
    server = Server(f"valgrind --tool=callgrind --instr-atstart=no --dump-instr=yes --compress-pos=no --compress-strings=no "
                    f"--callgrind-out-file={out} --log-file={log} {program} serve --config {{config}}", asked)
    try:
        fill(server, words, 1, asked)
        ask(server, words, 1, asked, "-F", "-n", str(requests // 4), "-w", "0")
        count(server, "on")
        run = ask(server, words, 1, asked, "-F", "-n", str(requests), "-w", "0")
        count(server, "off")
    finally:
        server.stop()
    if not run["good"]:
        sys.exit(f"bench/instructions.py: a reply that was not right: {run['first']}")
    return out.read_text().splitlines()


def count(server, state):
    """Has callgrind begin or stop to count."""
    subprocess.run(["callgrind_control", "-i", state, str(server.process.pid)], check=True, stdout=subprocess.DEVNULL,
                   stderr=subprocess.DEVNULL)


class Counts:
    """Instructions of a profile: by function, by address in the program, and of what a function calls."""

    def __init__(self, lines, program):
        self.of, self.at, self.called = collections.Counter(), collections.Counter(), collections.Counter()
        function = callee = binary = ""
        calls = False
        for line in lines:
            key, _, value = line.partition("=")
            if key == "fn":
                function = value
            elif key == "cfn":
                callee = value
            elif key == "ob":
                binary = value
            elif key == "calls":
                calls = True
            elif line.startswith("0x"):
                address, _, cost = line.split()
                if calls:
                    self.called[callee] += int(cost) if CALL not in function else 0
                else:
                    self.of[function] += int(cost)
                    if binary.endswith(Path(program).name):
                        self.at[int(address, 16)] += int(cost)
                calls = False

    def within(self, name):
        """What functions of this name took, with what they call."""
        return sum(cost for function, cost in self.called.items() if name in function)


def moved(counts, program):
    """By function, how many of its instructions zero, and how many copy 16 bytes."""
    text = subprocess.run(["objdump", "-d", "--no-show-raw-insn", program], check=True, capture_output=True, text=True).stdout
    zeroed, copied = collections.Counter(), collections.Counter()
    function, cleared = "", set()
    for line in text.splitlines():
        if line.endswith(">:"):
            function, cleared = line.partition("<")[2][:-2], set()
            continue
        found = re.match(r"\s*([0-9a-f]+):\s+(\S+)\s*(.*)", line)
        if not found:
            continue
        cost, word, operands = counts.at[int(found[1], 16)], found[2], found[3]
        wide = STORED.match(operands) if word in ("movaps", "movups") else None
        if word == "xorps" and CLEARED.match(operands):
            cleared.add(operands.partition(",")[0])
            zeroed[function] += cost
        elif wide:
            (zeroed if wide[1] in cleared else copied)[function] += cost
        elif word.startswith("mov") and ZERO.match(operands):
            zeroed[function] += cost
        elif "%xmm" in operands:
            cleared.discard(operands.rpartition(",")[2])
            copied[function] += cost if word in ("movaps", "movups") and "(" in operands else 0
    return zeroed, copied


def measured(program, load, asked):
    """The rows of a program under a load, in instructions a request."""
    words, requests = LOADS[load]
    counts = Counts(profile(program, words, requests, asked), program)
    zeroed, copied = moved(counts, program)
    rows = {"in all": sum(counts.of.values()), "under the lock": counts.within(CALL), "zeroing": sum(zeroed.values()),
            "copies by 16 bytes": sum(copied.values()),
            "memcpy": sum(cost for name, cost in counts.of.items() if "memcpy" in name or "memmove" in name)}
    functions = {re.sub(r" \[.*| .*", "", name): cost for name, cost in counts.of.items()}
    return ({name: cost / requests for name, cost in rows.items()},
            {name: cost / requests for name, cost in functions.items()})


def bar(text):
    found = BAR.fullmatch(text)
    if not found or found[1] not in LOADS:
        raise argparse.ArgumentTypeError(f"no bar: {text}")
    return found[1], found[2], int(found[3])


def missed(load, count, bars):
    """Tells which bars of a load what is taken under the lock misses; whether it does any."""
    missed = [f"{sign}{limit}" for name, sign, limit in bars
              if name == load and (count > limit if sign == "<=" else count < limit)]
    for words in missed:
        print(f"missed: {load}{words}, it is {count:,.0f}", flush=True)
    return bool(missed)


def main():
    words = argparse.ArgumentParser(description=__doc__, formatter_class=argparse.RawDescriptionHelpFormatter)
    words.add_argument("programs", nargs="+", metavar="PROGRAM", help="crates/partcached/out/partcached, as `rt run` leaves it")
    words.add_argument("--loads", default=",".join(LOADS), help="default: %(default)s")
    words.add_argument("--functions", type=int, default=20, help="so many functions are shown; default: %(default)s")
    words.add_argument("--bar", type=bar, action="append", default=[], help="as many<=24800, for what is under the lock")
    asked = words.parse_args()
    for load in asked.loads.split(","):
        if load not in LOADS:
            words.error(f"no such load: {load}")
    asked.budget, asked.workers, asked.threads = 256 << 20, 1, 1
    is_missed = False
    with tempfile.TemporaryDirectory() as asked.folder:
        asked.load = str(Path(asked.folder, "load"))
        subprocess.run(["cc", "-O2", "-pthread", "-o", asked.load, str(BENCH / "load.c"), "-lm"], check=True)
        for load in asked.loads.split(","):
            told = [measured(program, load, asked) for program in asked.programs]
            show(load, asked.programs, told, asked.functions)
            is_missed |= missed(load, told[0][0]["under the lock"], asked.bar)
    return 2 if is_missed else 0


def show(load, programs, told, most):
    """A table of a load: its rows, and the functions that take most in the first program."""
    (rows, functions), *_ = told
    print(f"| {load} | " + " | ".join(f"{program} | ratio" for program in programs) + " |")
    print("|---" * (1 + 2 * len(programs)) + "|")
    names = [*rows, *sorted(functions, key=functions.get, reverse=True)[:most]]
    for name in names:
        first = rows.get(name) or functions.get(name) or 0
        cells = [(a.get(name) or b.get(name) or 0) for a, b in told]
        print(f"| {name} | " + " | ".join(f"{cell:,.0f} | {cell / first:.2f}" if first else f"{cell:,.0f} | -" for cell in cells) + " |",
              flush=True)
    print()


if __name__ == "__main__":
    sys.exit(main())
