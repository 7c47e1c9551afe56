#!/usr/bin/env python3
"""What serving costs over loopback, on this machine: requests a second, the server's processor time a
request, how long a request takes, and the server's resident memory.

usage: bench/serve.py PROGRAM [--beside COMMAND] [--loads NAMES] [--rounds N] [--seconds S] ..
       bench/serve.py PROGRAM --pages [--rounds N] [--seconds S]

It builds bench/load.c, starts `PROGRAM serve` on the settings of examples/partcached.toml, but for the
port and four users of 256 MiB each, and loads it by threads of clients. They name no journal unless
--journal does. Before each round every item is set anew; each reply is checked in full, and a run with
an unexpected one ends with status 1. With --beside, as

    --beside 'memcached -u root -l 127.0.0.1 -p {port} -U 0 -t 4 -m 1024 -c 4096 -Y {authfile}'

another server runs beside it, and both are loaded in turns, so that what else the machine does meets
both; the ratios are this server's to the other's. Numbers are medians of the rounds. A bar on a ratio,
as --bar 'million.cpu<=0.5', of rps, cpu, p50, p99, p999 or mib, ends a run that misses it with status 2.

With --pages the same server runs with several journals in turns, and with --audit, without which no
page is kept; the table says what a request
costs by the entries of a page and by how many items are held.

On a virtual machine the host may take processors away, which Linux counts as stolen. With --steal P a
round in which it took more than P per cent of the processors' time is not counted, whatever came of it,
and made again; how many were, and what was stolen in those that count, is printed."""
import argparse
import json
import os
import re
import shlex
import socket
import statistics
import subprocess
import sys
import tempfile
import time
from pathlib import Path

BENCH = Path(__file__).resolve().parent
EXAMPLE = BENCH.parent / "examples/partcached.toml"
LOGINS = ("alice one", "bob two", "carol three", "dave four")
# what each load is, how bench/load.c is asked for it, and how many users share its connections
LOADS = {
    "single": ("50 connections, one request at a time, 90 % `get` of 100 B", "-c 50 -g 90 -v 100 -k 100000", 1),
    "pipelined": ("the same, 16 in flight", "-c 50 -P 16 -g 90 -v 100 -k 100000", 1),
    "many": ("`get`s of 50 keys", "-c 50 -g 100 -m 50 -v 100 -k 100000", 1),
    "sets": ("`set`s of 100 B", "-c 50 -g 0 -v 100 -k 100000", 1),
    "large": ("`get`s of 100 KiB", "-c 50 -g 100 -v 102400 -k 1000", 1),
    "idle": ("970 idle connections beside 50 busy ones", "-c 50 -i 970 -g 90 -v 100 -k 100000", 1),
    "users": ("four users, 16 in flight", "-c 50 -P 16 -g 90 -v 100 -k 100000", 4),
    "million": ("a million keys, 16 in flight", "-c 50 -P 16 -g 90 -v 100 -k 1000000", 1),
}
# the measures by the words of bars, with those of a table's head
MEASURES = {"rps": ("rps", "requests/s"), "cpu": ("cpu", "us of processor"), "p50": ("p50_us", "p50 us"),
            "p99": ("p99_us", "p99 us"), "p999": ("p999_us", "p99.9 us"), "mib": ("mib", "MiB")}
BAR = re.compile(r"(\w+)\.(\w+)(<=|>=)([0-9.]+)")
# what --pages asks: entries a page, items held, and the calls
JOURNALS, ITEMS = (4096, 16_384, 65_536), (1_000, 100_000, 1_000_000)
CALLS = {"`get`": "-c 50 -P 16 -g 100 -v 100", "`set`": "-c 50 -P 16 -g 0 -v 100"}
TICKS = os.sysconf("SC_CLK_TCK")


def free_port():
    with socket.socket() as held:
        held.bind(("127.0.0.1", 0))
        return held.getsockname()[1]


def settings(port, users, journal=None, budget=256 << 20, workers=None):
    """The example's settings, but for the port, the users, and what else is handed in."""
    top = EXAMPLE.read_text().partition("\n[[user]]\n")[0] + "\n"
    top = re.sub(r'(?m)^listen = .*', f'listen = "127.0.0.1:{port}"', top)
    if workers:
        top = re.sub(r"(?m)^workers = .*", f"workers = {workers}", top)
    top = re.sub(r"(?m)^journal = .*\n", "", top) + (f"journal = {journal}\n" if journal else "")
    return top + "".join(f'[[user]]\nname = "{name}"\ntoken = "{token}"\nbudget = {budget}\n'
                         for name, token in (user.split() for user in users))


class Server:
    """A server that runs, with its settings in a folder of its own."""

    def __init__(self, command, asked, journal=None):
        self.port = free_port()
        self.folder = tempfile.TemporaryDirectory()
        config, authfile = Path(self.folder.name, "config.toml"), Path(self.folder.name, "authfile")
        authfile.write_text("".join(f"{login.replace(' ', ':')}\n" for login in LOGINS))
        config.write_text(settings(self.port, LOGINS, journal, asked.budget, asked.workers))
        words = [word.format(port=self.port, config=config, authfile=authfile) for word in shlex.split(command)]
        self.process = subprocess.Popen(words, stdout=subprocess.DEVNULL)
        for _ in range(200):
            try:
                socket.create_connection(("127.0.0.1", self.port), 1).close()
                return
            except OSError:
                time.sleep(0.05)
        self.stop()
        sys.exit(f"bench/serve.py: no server answers: {command}")

    def seconds(self):
        """The processor time that it used."""
        fields = Path(f"/proc/{self.process.pid}/stat").read_text().rpartition(")")[2].split()
        return (int(fields[11]) + int(fields[12])) / TICKS

    def resident(self, row="VmRSS"):
        """The MiB that are resident, or with `VmHWM` the most that were since `forget_peak`."""
        lines = Path(f"/proc/{self.process.pid}/status").read_text().splitlines()
        return next(int(line.split()[1]) for line in lines if line.startswith(row)) / 1024

    def forget_peak(self):
        Path(f"/proc/{self.process.pid}/clear_refs").write_text("5")

    def stop(self):
        self.process.terminate()
        self.process.wait()
        self.folder.cleanup()


def ask(server, words, users, asked, *more):
    """One run of the load generator, as it tells of it."""
    logins = [word for login in LOGINS[:users] for word in ("-L", login)]
    command = [asked.load, "-j", "-p", str(server.port), *logins, "-t", str(asked.threads), *words.split(), *more]
    run = subprocess.run(command, capture_output=True, text=True)
    if not run.stdout:
        sys.exit(f"bench/serve.py: {run.stderr.strip()}")
    return json.loads(run.stdout)


def fill(server, words, users, asked):
    """Sets every item of a load."""
    ask(server, words, users, asked, "-n", "1", "-w", "0")


def measured(server, words, users, asked):
    fill(server, words, users, asked)
    before = server.seconds()
    run = ask(server, words, users, asked, "-F", "-w", "0.5", "-d", str(asked.seconds))
    if not run["good"]:
        sys.exit(f"bench/serve.py: a reply that was not right: {run['first']}")
    # The processor time counts the half second of warm-up too.
    served = run["rps"] * (asked.seconds + 0.5)
    return dict(run, cpu=(server.seconds() - before) * 1e6 / served, mib=server.resident())


def machine_time():
    """What the host stole of the processors' time, and all of that time."""
    ticks = [int(word) for word in Path("/proc/stat").read_text().splitlines()[0].split()[1:9]]
    return ticks[7], sum(ticks)


def stolen(since):
    """The per cent of the processors' time that the host took since then."""
    (steal, time_), (steal_then, then) = machine_time(), since
    return 100 * (steal - steal_then) / max(time_ - then, 1)


def in_turns(name, servers, measure, asked):
    """The rounds of each server, all measured in turns, every second round the other way about."""
    runs, steals, again = [[] for _ in servers], [], 0
    while len(steals) < asked.rounds:
        order, since = range(len(servers)), machine_time()
        results = {at: measure(servers[at]) for at in (order if (len(steals) + again) % 2 == 0 else reversed(order))}
        share = stolen(since)
        if share > asked.steal:
            again += 1
            continue
        steals.append(share)
        for at, kept in enumerate(runs):
            kept.append(results[at])
    if asked.steal < 100:
        print(f"{name}: {max(steals):.1f} % stolen at most, {again} rounds made again", file=sys.stderr, flush=True)
    return runs


def median(runs, measure):
    return statistics.median(run[measure] for run in runs)


def row(*cells):
    print("| " + " | ".join(cells) + " |", flush=True)


def head(*cells):
    row(*cells)
    print("|---" * len(cells) + "|", flush=True)


def compared(ours, others, measure, scale=1, digits=0):
    """Theirs, ours, and the ratio with those of the single rounds."""
    single = [a[measure] / b[measure] for a, b in zip(ours, others)]
    mine, other = median(ours, measure), median(others, measure)
    return [f"{other / scale:,.{digits}f}", f"{mine / scale:,.{digits}f}",
            f"{mine / other:.2f} ({min(single):.2f} to {max(single):.2f})"]


def missed_bars(name, seen, bars):
    """Whether a bar of this name is missed, by what was seen of each measure."""
    missed = False
    for text, load, measure, sign, limit in bars:
        if load == name:
            found = seen(measure)
            is_met = found <= limit if sign == "<=" else found >= limit
            missed |= not is_met
            print(f"{'met' if is_met else 'MISSED'}: {text} ({found:.3f})", file=sys.stderr, flush=True)
    return missed


def run_load(name, asked, told):
    """Loads the servers in turns; whether a bar was missed."""
    about, words, users = LOADS[name]
    commands = [f"{asked.program} serve --config {{config}}"] + ([asked.beside] if asked.beside else [])
    servers = []
    try:
        for command in commands:
            servers.append(Server(command, asked, asked.journal))
        runs = in_turns(name, servers, lambda server: measured(server, words, users, asked), asked)
    finally:
        for server in servers:
            server.stop()
    told += [dict(run, load=name, server=at) for at, kept in enumerate(runs) for run in kept]
    if not asked.beside:
        row(about, *(f"{median(runs[0], key):,.1f}" for key, _ in MEASURES.values()))
        return False
    ours, others = runs
    p99, mib = (compared(ours, others, *measure)[:2] for measure in (("p99_us", 1000, 1), ("mib",)))
    row(about, *compared(ours, others, "rps"), *compared(ours, others, "cpu", digits=1), ", ".join(p99), ", ".join(mib))
    return missed_bars(name, lambda measure: median(ours, MEASURES[measure][0]) / median(others, MEASURES[measure][0]), asked.bar)


def show_loads(asked):
    """The table of the loads; whether a bar was missed."""
    if asked.beside:
        other = Path(shlex.split(asked.beside)[0]).name
        head("Load", f"{other}, requests/s", "partcached", "ratio (of rounds)", f"{other}, us of processor", "partcached",
             "ratio (of rounds)", "p99 ms, both", "MiB, both")
    else:
        head("Load", *(words for _, words in MEASURES.values()))
    told = []
    missed = [run_load(name, asked, told) for name in asked.loads.split(",")]
    if asked.json:
        Path(asked.json).write_text(json.dumps(told, indent=1))
    return any(missed)


def show_pages(asked):
    """What a call costs by the entries of a page and by the items held."""
    head("Items", "Call", *(f"{journal:,}" for journal in JOURNALS))
    for items in ITEMS:
        servers = []
        try:
            for journal in JOURNALS:
                servers.append(Server(f"{asked.program} serve --config {{config}} --until 1000000000 --audit", asked, journal))
            for call, words in CALLS.items():
                runs = in_turns(f"{items:,} {call}", servers,
                                lambda server: measured(server, f"{words} -k {items}", 1, asked), asked)
                row(f"{items:,}", call, *(f"{median(kept, 'cpu'):.2f} us, {median(kept, 'p99_us') / 1000:.1f} ms"
                                          for kept in runs))
            row(f"{items:,}", "resident", *(f"{server.resident():,.0f} MiB" for server in servers))
        finally:
            for server in servers:
                server.stop()


def bar(text):
    found = BAR.fullmatch(text)
    if not found or found[1] not in LOADS or found[2] not in MEASURES:
        raise argparse.ArgumentTypeError(f"no bar: {text}")
    return text, found[1], found[2], found[3], float(found[4])


def main():
    words = argparse.ArgumentParser(description=__doc__, formatter_class=argparse.RawDescriptionHelpFormatter)
    words.add_argument("program", help="crates/partcached/out/partcached, as `rt run` leaves it")
    words.add_argument("--beside", help="another server's command, with {port} and {authfile}")
    words.add_argument("--pages", action="store_true", help="by the entries of a page, in place of the loads")
    words.add_argument("--loads", default=",".join(LOADS), help="default: %(default)s")
    words.add_argument("--rounds", type=int, default=7)
    words.add_argument("--seconds", type=float, default=3)
    words.add_argument("--steal", type=float, default=100, help="per cent of a round that the host may take; default: all")
    words.add_argument("--threads", type=int, default=2, help="of clients")
    words.add_argument("--workers", type=int, help="default: the example's")
    words.add_argument("--journal", type=int, help="default: none is named")
    words.add_argument("--budget", type=int, default=256 << 20)
    words.add_argument("--bar", type=bar, action="append", default=[], help="as million.cpu<=0.5; with --beside")
    words.add_argument("--json", help="write every single round into this file")
    asked = words.parse_args()
    for name in asked.loads.split(","):
        if name not in LOADS:
            words.error(f"no such load: {name}")
    if asked.bar and not asked.beside:
        words.error("a bar is on a ratio, and there is none without --beside")
    with tempfile.TemporaryDirectory() as folder:
        asked.load = str(Path(folder, "load"))
        subprocess.run(["cc", "-O2", "-pthread", "-o", asked.load, str(BENCH / "load.c"), "-lm"], check=True)
        if asked.pages:
            show_pages(asked)
        elif show_loads(asked):
            sys.exit(2)


if __name__ == "__main__":
    main()
