#!/usr/bin/env python3
"""How long one `set` takes that evicts many small items, most of which were asked for again.

usage: bench/victims.py PROGRAM [--items N,N,..]

It starts `PROGRAM serve` with one user for each number of items, whose budget has room for so many of
one byte and little more. Each item is stored and asked for once, so that most stand in protected. Then
a key is asked for until it was seen more often than any of them, and an item of nearly the whole budget
is stored under it. Printed are the milliseconds of that `set`, and how many items it evicted."""
import argparse
import socket
import subprocess
import sys
import tempfile
import time
from pathlib import Path

# key, byte and record of a small item
WEIGHT = 8 + 1 + 64


def free_port():
    with socket.socket() as held:
        held.bind(("127.0.0.1", 0))
        return held.getsockname()[1]


def connect(port):
    for _ in range(200):
        try:
            return socket.create_connection(("127.0.0.1", port))
        except OSError:
            time.sleep(0.05)
    sys.exit("bench/victims.py: no server answers")


class User:
    def __init__(self, port, number):
        self.link = connect(port)
        self.replies = self.link.makefile("rb")
        login = b"u%d t" % number
        self.ask(b"set login 0 0 %d\r\n%s\r\n" % (len(login), login), b"STORED\r\n")

    def ask(self, words, last):
        """Sends requests, and reads until this line."""
        self.link.sendall(words)
        for line in self.replies:
            if line == last:
                return
        sys.exit("bench/victims.py: the server closed the connection")

    def evictions(self):
        self.link.sendall(b"stats\r\n")
        found = 0
        for line in self.replies:
            if line.startswith(b"STAT evictions "):
                found = int(line.split()[2])
            if line == b"END\r\n":
                return found
        sys.exit("bench/victims.py: the server closed the connection")


def measure(user, items):
    """Fills the user's cache, stores the large item, and prints what that took."""
    keys = [b"k%07d" % n for n in range(items)]
    for at in range(0, items, 500):
        some = keys[at:at + 500]
        user.ask(b"".join(b"set %s 0 0 1 noreply\r\nx\r\n" % key for key in some) + b"get none\r\n", b"END\r\n")
    for at in range(0, items, 50):
        user.ask(b"get " + b" ".join(keys[at:at + 50]) + b"\r\n", b"END\r\n")
    for _ in range(14):
        user.ask(b"get large\r\n", b"END\r\n")
    before = user.evictions()
    data = b"x" * (items * WEIGHT * 19 // 20)
    begun = time.time()
    user.ask(b"set large 0 0 %d\r\n%s\r\n" % (len(data), data), b"STORED\r\n")
    took = (time.time() - begun) * 1e3
    print(f"| {items:,} | {len(data):,} | {user.evictions() - before:,} | {took:,.1f} |", flush=True)


def main():
    words = argparse.ArgumentParser(description=__doc__, formatter_class=argparse.RawDescriptionHelpFormatter)
    words.add_argument("program", help="crates/partcached/out/partcached, as `rt run` leaves it")
    words.add_argument("--items", default="1000,2000,4000,8000,14000")
    asked = words.parse_args()
    counts = [int(count) for count in asked.items.split(",")]
    port = free_port()
    with tempfile.TemporaryDirectory() as folder:
        config = Path(folder, "config.toml")
        config.write_text(f'listen = "127.0.0.1:{port}"\nworkers = 1\njournal = 4096\n' + "".join(
            f'[[user]]\nname = "u{n}"\ntoken = "t"\nbudget = {max(65_536, count * WEIGHT * 21 // 20)}\n'
            for n, count in enumerate(counts)))
        server = subprocess.Popen([asked.program, "serve", "--config", str(config)], stdout=subprocess.DEVNULL)
        try:
            print("| Items | Bytes of the large one | Evicted | Its `set`, ms |\n|---|---|---|---|", flush=True)
            for number, count in enumerate(counts):
                measure(User(port, number), count)
        finally:
            server.terminate()
            server.wait()


if __name__ == "__main__":
    main()
