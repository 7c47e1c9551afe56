#!/usr/bin/env python3
"""How long a call of a user's book takes, which is what a request holds its user's lock for, by perf.

usage: bench/lock_time.py PROGRAM [PROGRAM ..] [--beside COMMAND] [--load NAME] [--rounds N] [--seconds S] [--calm SPEED]

It starts the servers as bench/serve.py does, all at once, sets every item once, and loads them in turns, each for S
seconds a round, one round the other way about. A sample of perf (`cpu-clock`, 2,000 a second) is a call's where it was
taken in a function that only calls run: those of a cache, and of its book. The program keeps no frames by which its callers
would be known, so what the C library does for a call is left out; for look-ups that is little. In loads of short requests
what is read ahead for several connections counts too, which is under the lock and in no call. A call takes that share
of the server's processor time a request. The table has the median of the rounds, the least and the most. With --beside, as
bench/serve.py has it, the last column is the call's time as a part of the processor time that the other server takes
for a whole request.

A host that is slow, or that takes processors away, lengthens both. So compare programs within one run, and runs by the
last column. bench/instructions.py counts what a call does, which no host changes.

A processor of a virtual machine is mostly one of two threads of a core, and it is half as fast while another guest uses
the other, by turns of milliseconds. With --calm SPEED, as --calm 2.4, bench/speed.c measures each processor's speed beside
the load, each two milliseconds. A second table is made of the samples around which the processor made more than SPEED
additions a nanosecond, of all rounds together, and a third of those around which it made less than SPEED - 0.4. A call's
time is then that of its samples by the replies that were sent in the same milliseconds, so each reply should be sent by
one call of the system. It needs the rights of root: for threads before all others, and for the tracepoints of perf.

It needs perf (Debian's linux-perf), which must be allowed to look at what it starts."""
import argparse
import bisect
import collections
import statistics
import subprocess
import sys
import tempfile
import threading
import time
from pathlib import Path

from serve import BENCH, LOADS, Server, ask, fill

# functions that calls of a user's book run, and nothing else but what reads ahead for several connections
CALLS = ("tc_partition::", "tc_slots::", "tc_slru::", "tc_ring::", "tc_sketch::", "tc_index::", "tc_wheel::",
         "tc_readbuf::", "tc_plain::", "tc_locked::hall_book::", "tc_locked::book::", "tc_item::blob::Blob::copy",
         "tc_item::key::KeyPartialEq::eq", "tc_stats::counters::")
# for how long a load runs before perf looks and after it
MARGIN = 0.4
# how many samples a second are taken with --calm
RATE = 4000
# by which a server may send a reply
SENDS = ("syscalls:sys_enter_sendto", "syscalls:sys_enter_sendmsg")
# below the speed that is asked for by so much, another guest uses the core too
GAP = 0.4


def sampled(server, seconds, folder):
    """The share of a server's samples that were taken within a call."""
    data = Path(folder, "perf.data")
    subprocess.run(["perf", "record", "-q", "-e", "cpu-clock", "-F", "2000", "-p", str(server.process.pid), "-o", str(data), "--",
                    "sleep", str(seconds)], check=True, stderr=subprocess.DEVNULL)
    text = subprocess.run(["perf", "script", "-i", str(data), "-F", "ip,sym"], check=True, capture_output=True, text=True,
                          errors="replace").stdout
    functions = [line.split()[1] for line in text.splitlines() if len(line.split()) > 1]
    return sum(function.startswith(CALLS) for function in functions) / max(len(functions), 1)


def measured(server, words, users, asked):
    """A round of a server: the time of a call and of a request in us, and the requests a second."""
    told = {}
    length = asked.seconds + 2 * MARGIN
    before = server.seconds()
    load = threading.Thread(target=lambda: told.update(ask(server, words, users, asked, "-F", "-w", "0", "-d", str(length))))
    load.start()
    time.sleep(MARGIN)
    share = sampled(server, asked.seconds, asked.folder)
    load.join()
    if not told.get("good"):
        sys.exit(f"bench/lock_time.py: a reply that was not right: {told.get('first')}")
    request = (server.seconds() - before) * 1e6 / (told["rps"] * length)
    return {"call": share * request, "request": request, "rps": told["rps"]}


class Tally:
    """Samples in one kind of milliseconds: all, those within a call, and the replies that were sent."""

    def __init__(self):
        self.samples = self.calls = self.sends = 0

    def add(self, event, function):
        if event.startswith("cpu-clock"):
            self.samples += 1
            self.calls += function.startswith(CALLS)
        else:
            self.sends += 1

    def time(self, samples):
        """So many samples in us a reply."""
        return samples / RATE * 1e6 / self.sends if self.sends else 0.0


def speeds(text):
    """Of each processor, when bench/speed.c looked and what it saw."""
    seen = collections.defaultdict(lambda: ([], []))
    for line in text.splitlines():
        processor, began, speed = line.split()
        seen[int(processor)][0].append(float(began))
        seen[int(processor)][1].append(float(speed))
    return seen


def kind(seen, at, least):
    """Whether a processor was fast, slow or neither in the milliseconds around a moment."""
    began, speed = seen
    place = bisect.bisect(began, at)
    around = speed[max(place - 2, 0):place + 2]
    if len(around) < 4:
        return "neither"
    return "fast" if min(around) > least else "slow" if max(around) < least - GAP else "neither"


def watched(server, words, users, asked, tallies):
    """A round of a server of which each sample is put to those of its kind of milliseconds."""
    told, data = {}, Path(asked.folder, "perf.data")
    length = asked.seconds + 2 * MARGIN
    load = threading.Thread(target=lambda: told.update(ask(server, words, users, asked, "-F", "-w", "0", "-d", str(length))))
    load.start()
    time.sleep(MARGIN)
    speed = subprocess.Popen([asked.speed, str(asked.seconds + 0.1)], stdout=subprocess.PIPE, text=True)
    events = [word for event in SENDS for word in ("-e", event)]
    subprocess.run(["perf", "record", "-q", "--sample-cpu", "-k", "CLOCK_MONOTONIC", "-c", "1", "-e",
                    f"cpu-clock/period={1_000_000_000 // RATE}/", *events, "-p", str(server.process.pid), "-o", str(data), "--",
                    "sleep", str(asked.seconds)], check=True, stderr=subprocess.DEVNULL)
    seen = speeds(speed.communicate()[0])
    load.join()
    if speed.returncode or not told.get("good"):
        sys.exit(f"bench/lock_time.py: a reply that was not right, or no speed: {told.get('first')}")
    text = subprocess.run(["perf", "script", "-i", str(data), "--ns", "-F", "cpu,time,event,ip,sym"], check=True,
                          capture_output=True, text=True, errors="replace").stdout
    for line in text.splitlines():
        processor, at, event, *place = line.split()
        of = kind(seen[int(processor.strip("[]"))], float(at.rstrip(":")), asked.calm)
        tallies[of].add(event, place[1] if len(place) > 1 else "")


def spread(runs, measure, digits=1):
    """The median of the rounds, with the least and the most."""
    values = [run[measure] for run in runs]
    return f"{statistics.median(values):,.{digits}f} ({min(values):,.{digits}f} to {max(values):,.{digits}f})"


def main():
    words = argparse.ArgumentParser(description=__doc__, formatter_class=argparse.RawDescriptionHelpFormatter)
    words.add_argument("programs", nargs="+", metavar="PROGRAM", help="crates/partcached/out/partcached, as `rt run` leaves it")
    words.add_argument("--beside", metavar="COMMAND", help="another server, as bench/serve.py has it")
    words.add_argument("--load", default="many", choices=sorted(LOADS), help="default: %(default)s")
    words.add_argument("--rounds", type=int, default=8, help="default: %(default)s")
    words.add_argument("--seconds", type=float, default=1.0, help="default: %(default)s")
    words.add_argument("--workers", type=int, help="default: as examples/partcached.toml has it")
    words.add_argument("--calm", type=float, metavar="SPEED", help="also by how fast processors were, in additions a nanosecond")
    asked = words.parse_args()
    asked.budget, asked.threads = 256 << 20, 2
    name, how, users = LOADS[asked.load]
    with tempfile.TemporaryDirectory() as asked.folder:
        asked.load = str(Path(asked.folder, "load"))
        subprocess.run(["cc", "-O2", "-pthread", "-o", asked.load, str(BENCH / "load.c"), "-lm"], check=True)
        asked.speed = str(Path(asked.folder, "speed"))
        subprocess.run(["cc", "-O2", "-pthread", "-o", asked.speed, str(BENCH / "speed.c")], check=True)
        commands = [f"{program} serve --config {{config}}" for program in asked.programs]
        commands += [asked.beside] if asked.beside else []
        servers, runs = [], [[] for _ in commands]
        tallies = [collections.defaultdict(Tally) for _ in commands]
        try:
            for command in commands:
                servers.append(Server(command, asked))
                fill(servers[-1], how, users, asked)
            for round_ in range(asked.rounds):
                for at in list(range(len(servers)))[:: -1 if round_ % 2 else 1]:
                    runs[at].append(measured(servers[at], how, users, asked))
                    if asked.calm:
                        watched(servers[at], how, users, asked, tallies[at])
        finally:
            for server in servers:
                server.stop()
    others = statistics.median(run["request"] for run in runs[-1]) if asked.beside else None
    names = [*asked.programs, *(["the other"] if asked.beside else [])]
    show(name, names, runs, others)
    if asked.calm:
        show_watched(f"{name}, more than {asked.calm} additions a nanosecond", names, [own["fast"] for own in tallies], asked)
        show_watched(f"{name}, less than {asked.calm - GAP:.1f}", names, [own["slow"] for own in tallies], asked)


def show(name, servers, runs, others):
    """The table of a load."""
    print(f"| {name} | us of a call, under the lock | us of processor a request | requests/s | a call, of the other's request |")
    print("|---|---|---|---|---|")
    for server, own in zip(servers, runs):
        call = statistics.median(run["call"] for run in own)
        cells = [server, spread(own, "call") if call else "-", spread(own, "request"), spread(own, "rps", 0),
                 f"{call / others:.2f}" if others and call else "-"]
        print("| " + " | ".join(cells) + " |", flush=True)


def show_watched(title, servers, tallies, asked):
    """The table of one kind of milliseconds."""
    others = tallies[-1].time(tallies[-1].samples) if asked.beside else None
    print(f"\n| {title} | us of a call, under the lock | us of processor a request | a call, of the other's request | samples |")
    print("|---|---|---|---|---|")
    for server, own in zip(servers, tallies):
        call, request = own.time(own.calls), own.time(own.samples)
        part = f"{call / others:.2f}" if others and call else "-"
        print(f"| {server} | {f'{call:.1f}' if call else '-'} | {request:.1f} | {part} | {own.samples:,} |", flush=True)


if __name__ == "__main__":
    sys.exit(main())
