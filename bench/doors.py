#!/usr/bin/env python3
"""What a proxy that logs in costs: a client through examples/clients/login_proxy.py and through socat, beside one that
logs in itself.

usage: bench/doors.py PROGRAM [--rounds N] [--seconds S] [--steal P]

The three ways are loaded in turns by bench/load.c, 90 % `get`s of 100 bytes over a thousand keys, one request at a time
on each connection. Numbers are medians of the rounds; ratios are to the client without a proxy, with those of the single
rounds. The processor time is that of the proxy alone, all its processes together, without its start."""
import argparse
import ctypes
import os
import signal
import socket
import subprocess
import sys
import tempfile
import time
from pathlib import Path

from serve import BENCH, LOGINS, TICKS, Server, ask, compared, fill, free_port, head, in_turns, median, row

PROXY = BENCH.parent / "examples/clients/login_proxy.py"
LOGIN = LOGINS[0]
# as docs/CLIENTS.md has it
TALK = r"""(printf "set login 0 0 {length} noreply\r\n{login}\r\n"; cat) | socat - TCP\:127.0.0.1\:{port}\,nodelay"""
LOADS = {"one connection": "-t 1 -c 1", "16 connections": "-t 1 -c 16"}
ITEMS = "-g 90 -v 100 -k 1000"
PR_SET_CHILD_SUBREAPER = 36


class Straight:
    """No door: the client logs in."""

    name, users = "no proxy", 1

    def __init__(self, server):
        self.port = server.port

    def end(self):
        return 0.0


class Door:
    """A proxy that runs, with all processes that it starts in a group of their own."""

    users = 0

    def __init__(self, server):
        self.port = free_port()
        self.process = subprocess.Popen(self.command(server.port), stdin=subprocess.PIPE, start_new_session=True)
        self.process.stdin.write(f"{LOGIN}\n".encode())
        self.process.stdin.close()
        for _ in range(200):
            try:
                socket.create_connection(("127.0.0.1", self.port), 1).close()
                break
            except OSError:
                time.sleep(0.05)
        time.sleep(0.2)
        fields = Path(f"/proc/{self.process.pid}/stat").read_text().rpartition(")")[2].split()
        self.before = sum(map(int, fields[11:15])) / TICKS

    def end(self):
        """Ends it; the processor time that it took since it was ready."""
        os.killpg(self.process.pid, signal.SIGTERM)
        used = 0.0
        while True:
            try:
                usage = os.wait4(-self.process.pid, 0)[2]
            except ChildProcessError:
                return used - self.before
            used += usage.ru_utime + usage.ru_stime


class LoginProxy(Door):
    name = "`login_proxy.py`"

    def command(self, port):
        return ["/usr/bin/python3", PROXY, f"127.0.0.1:{self.port}", f"127.0.0.1:{port}"]


class Socat(Door):
    name = "`socat`"

    def command(self, port):
        talk = TALK.format(length=len(LOGIN), login=LOGIN, port=port)
        return ["socat", f"TCP-LISTEN:{self.port},bind=127.0.0.1,reuseaddr,fork,nodelay", f"SYSTEM:{talk}"]


def measured(server, way, load, asked):
    door = way(server)
    run = ask(door, f"{load} {ITEMS}", way.users, asked, "-F", "-w", "0.5", "-d", str(asked.seconds))
    time.sleep(0.1)  # connections close
    used = door.end()
    if not run["good"]:
        sys.exit(f"bench/doors.py: {way.name}: a reply that was not right: {run['first']}")
    # The processor time counts the half second of warm-up too.
    return dict(run, cpu=used * 1e6 / (run["rps"] * (asked.seconds + 0.5)))


def main():
    words = argparse.ArgumentParser(description=__doc__, formatter_class=argparse.RawDescriptionHelpFormatter)
    words.add_argument("program")
    words.add_argument("--rounds", type=int, default=7)
    words.add_argument("--seconds", type=float, default=2)
    words.add_argument("--steal", type=float, default=100, help="per cent of a round that the host may take; default: all")
    asked = words.parse_args()
    asked.threads, asked.workers, asked.budget = 1, None, 256 << 20
    ctypes.CDLL(None).prctl(PR_SET_CHILD_SUBREAPER, 1)  # so that what a door leaves behind is waited for here
    ways = (Straight, LoginProxy, Socat)
    with tempfile.TemporaryDirectory() as folder:
        asked.load = str(Path(folder, "load"))
        subprocess.run(["cc", "-O2", "-pthread", "-o", asked.load, str(BENCH / "load.c"), "-lm"], check=True)
        server = Server(f"{asked.program} serve --config {{config}}", asked)
        try:
            fill(server, ITEMS, 1, asked)
            head("Load", "Way", "requests/s", "ratio (of rounds)", "p50 us", "ratio (of rounds)", "p99 us",
                 "ratio (of rounds)", "us of the proxy's processor a request")
            for name, load in LOADS.items():
                runs = in_turns(name, ways, lambda way: measured(server, way, load, asked), asked)
                for way, kept in zip(ways, runs):
                    cells = [cell for key in ("rps", "p50_us", "p99_us") for cell in compared(kept, runs[0], key)[1:]]
                    row(name, way.name, *cells, f"{median(kept, 'cpu'):.1f}")
        finally:
            server.stop()


if __name__ == "__main__":
    main()
