#!/usr/bin/env python3
"""What one user notices of another: how long the requests of a quiet user take alone, and beside a
busy one with a million items.

usage: bench/neighbours.py PROGRAM [--beside COMMAND] [--workers N] [--rounds N] [--seconds S]

It starts `PROGRAM serve` on the settings of examples/partcached.toml, but for the port and two users,
once as it is and once with --spread, and COMMAND, as bench/serve.py does. The quiet user has 8 connections, one request at a time, over 10,000
keys; the busy one 25 connections with 16 requests in flight each, over a million. Nine requests of
ten are `get`s of 100 B. Numbers are medians of the rounds, in microseconds and requests a second.

Clients and servers share the machine's processors, so a busy user is noticed by whoever serves it. The
rows `asks another server` have the busy user at a second server of the same command: what they show is
no matter of sharing a server."""
import argparse
import json
import shlex
import statistics
import subprocess
import sys
import tempfile
import time
from pathlib import Path

from serve import BENCH, free_port, settings

USERS = ("quiet", "busy")
LOADS = {"quiet": "-c 8 -g 90 -v 100 -k 10000", "busy": "-c 25 -P 16 -g 90 -v 100 -k 1000000"}
MEASURES = {"p50": "p50_us", "p99": "p99_us", "p99.9": "p999_us", "longest": "max_us", "requests/s": "rps"}


def start(command, folder, workers):
    """A server that runs, and its port."""
    port = free_port()
    config, authfile = Path(folder, f"{port}.toml"), Path(folder, f"{port}.auth")
    config.write_text(settings(port, [f"{user} one" for user in USERS], workers=workers))
    authfile.write_text("".join(f"{user}:one\n" for user in USERS))
    words = [word.format(port=port, config=config, authfile=authfile) for word in shlex.split(command)]
    process = subprocess.Popen(words, stdout=subprocess.DEVNULL)
    time.sleep(0.5)
    return process, port


def load(port, user, *more):
    """A load of one user, which runs."""
    words = [load.program, "-j", "-p", str(port), "-L", f"{user} one", "-t", "1", *LOADS[user].split(), *more]
    return subprocess.Popen(words, stdout=subprocess.PIPE, text=True)


def told(run):
    """What a load tells once it has ended."""
    answer = json.loads(run.communicate()[0])
    if not answer["good"]:
        sys.exit(f"bench/neighbours.py: a reply that was not right: {answer['first']}")
    return answer


def measured(port, busy_port, asked):
    """What the quiet user sees, and how many requests the busy one has answered a second, if it asks."""
    busy = load(busy_port, "busy", "-F", "-w", "0.5", "-d", str(asked.seconds + 1)) if busy_port else None
    if busy:
        time.sleep(0.5)
    seen = told(load(port, "quiet", "-F", "-w", "0.3", "-d", str(asked.seconds)))
    return dict(seen, busy=told(busy)["rps"] if busy else 0)


def main():
    words = argparse.ArgumentParser(description=__doc__, formatter_class=argparse.RawDescriptionHelpFormatter)
    words.add_argument("program", help="crates/partcached/out/partcached, as `rt run` leaves it")
    words.add_argument("--beside", help="another server's command, with {port} and {authfile}")
    words.add_argument("--workers", type=int, help="default: the example's")
    words.add_argument("--rounds", type=int, default=3)
    words.add_argument("--seconds", type=float, default=2.5)
    asked = words.parse_args()
    commands = {"by user": f"{asked.program} serve --config {{config}}",
                "--spread": f"{asked.program} serve --spread --config {{config}}"}
    if asked.beside:
        commands[shlex.split(asked.beside)[0]] = asked.beside
    with tempfile.TemporaryDirectory() as folder:
        load.program = str(Path(folder, "load"))
        subprocess.run(["cc", "-O2", "-pthread", "-o", load.program, str(BENCH / "load.c"), "-lm"], check=True)
        print("| Server | The busy user | " + " | ".join(MEASURES) + " | its requests/s |\n|---" + "|---" * 7 + "|")
        for name, command in commands.items():
            servers = [start(command, folder, asked.workers) for _ in range(2)]
            (_, port), (_, apart) = servers
            busy = {"waits": None, "asks on": port, "asks another server": apart}
            runs = {what: [] for what in busy}
            try:
                for at, user in ((port, "quiet"), (port, "busy"), (apart, "busy")):
                    told(load(at, user, "-n", "1", "-w", "0"))
                for _ in range(asked.rounds):
                    for what, busy_port in busy.items():
                        runs[what].append(measured(port, busy_port, asked))
                for what, seen in runs.items():
                    cells = [statistics.median(run[it] for run in seen) for it in (*MEASURES.values(), "busy")]
                    print(f"| {name} | {what} | " + " | ".join(f"{cell:,.0f}" for cell in cells) + " |", flush=True)
            finally:
                for process, _ in servers:
                    process.kill()
                    process.wait()


if __name__ == "__main__":
    main()
