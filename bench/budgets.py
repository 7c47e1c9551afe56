#!/usr/bin/env python3
"""What hit rate a budget buys: replays a trace of keys and sizes against several budgets at once.

usage: bench/budgets.py PROGRAM TRACE [--budgets N,N,..] [--svg FILE] [--requests N]

It starts `PROGRAM serve` with one user for each budget and asks each for each key of the trace; where
the key is not held it is stored with the trace's size, as an application that fills its cache does.
So the rates are the server's own. Beside each stands that of plain LRU with the same budget and the
same weights: key, data and 64 bytes.

TRACE is a file with a line `<key> <data bytes>` for each request, or one of the made ones: zipf (the
n-th most popular of 20,000 keys is asked in proportion to 1/n), scan (the same, and every 10,000
requests 5,000 keys that nobody asks again), shift (the same, and every 25,000 requests other keys are
the popular ones). These are made from a fixed seed; sizes are 50 to 2,000 bytes, fixed for a key."""
import argparse
import itertools
import random
import socket
import subprocess
import sys
import tempfile
import time
from collections import OrderedDict
from pathlib import Path

KEYS = 20_000


def size_of(key):
    return 50 + random.Random(key).randrange(1_951)


def zipf(draws, count):
    weights = list(itertools.accumulate(1 / n for n in range(1, KEYS + 1)))
    return draws.choices(range(KEYS), cum_weights=weights, k=count)


def made(kind, count):
    """The requests of a made trace."""
    draws = random.Random(1)
    ranks = zipf(draws, count)
    shift = list(range(KEYS))
    for n, rank in enumerate(ranks):
        if kind == "shift" and n % 25_000 == 24_999:
            draws.shuffle(shift)
        if kind == "scan" and n % 10_000 == 9_999:
            for once in range(5_000):
                key = f"scan{n + once}"
                yield key, size_of(key)
        key = f"key{shift[rank]}"
        yield key, size_of(key)


def read(path):
    with open(path) as lines:
        for line in lines:
            key, size = line.split()
            yield key, int(size)


class Lru:
    """Plain LRU by bytes."""

    def __init__(self, budget):
        self.budget, self.used, self.items, self.hits = budget, 0, OrderedDict(), 0

    def ask(self, key, weight):
        if key in self.items:
            self.items.move_to_end(key)
            self.hits += 1
            return
        self.items[key] = weight
        self.used += weight
        while self.used > self.budget:
            self.used -= self.items.popitem(last=False)[1]


class User:
    """A connection of the user with one of the budgets."""

    def __init__(self, port, number):
        for _ in range(100):
            try:
                self.link = socket.create_connection(("127.0.0.1", port))
                break
            except ConnectionRefusedError:
                time.sleep(0.05)
        self.link.setsockopt(socket.IPPROTO_TCP, socket.TCP_NODELAY, 1)
        self.replies = self.link.makefile("rb")
        login = b"u%d t%d" % (number, number)
        self.link.sendall(b"set login 0 0 %d\r\n%s\r\n" % (len(login), login))
        if self.replies.readline() != b"STORED\r\n":
            raise OSError("the login was refused")
        self.hits = 0

    def answer(self):
        """Whether the key that was asked is held."""
        head = self.replies.readline()
        if head == b"END\r\n":
            return False
        self.replies.read(int(head.split()[3]) + 2)
        self.replies.readline()
        self.hits += 1
        return True


def replay(users, lrus, trace):
    asked = 0
    for key, size in trace:
        for user in users:
            user.link.sendall(b"get %s\r\n" % key.encode())
        for user in users:
            if not user.answer():
                user.link.sendall(b"set %s 0 0 %d noreply\r\n%s\r\n" % (key.encode(), size, b"x" * size))
        for lru in lrus:
            lru.ask(key, len(key) + size + 64)
        asked += 1
        if asked % 10_000 == 0:
            print(f"\r{asked} requests", end="", file=sys.stderr, flush=True)
    print(file=sys.stderr)
    return asked


def bars(budgets, rates):
    for budget, (ours, lru) in zip(budgets, rates):
        line = ["#" if n < 60 * ours else " " for n in range(60)]
        line[min(59, int(60 * lru))] = "|"
        print(f"{budget:>12,} {''.join(line)} {100 * ours:5.1f} %")
    print(f"{'':12} # this server, | plain LRU")


def drawing(title, budgets, rates):
    """The curves as an SVG, with a title and both axes' names."""
    wide, high = 560, 300
    across = [60 + n * wide / max(1, len(budgets) - 1) for n in range(len(budgets))]
    up = [[320 - high * row[which] for row in rates] for which in (0, 1)]
    lines = "".join(
        f'<polyline fill="none" stroke="{colour}" stroke-width="2" points="{" ".join(f"{x:.1f},{y:.1f}" for x, y in zip(across, ys))}"/>'
        f'<text x="{across[-1] + 6:.0f}" y="{ys[-1] + 4 + shift:.0f}" fill="{colour}">{name}</text>'
        for ys, colour, name, shift in ((up[0], "#1f6f3f", "partcached", -6), (up[1], "#999", "LRU", 8)))
    ticks = "".join(f'<text x="{x:.0f}" y="338" text-anchor="middle">{budget // 1024:,}</text>' for x, budget in zip(across, budgets))
    rules = "".join(f'<line x1="60" x2="{60 + wide}" y1="{320 - high * n / 5:.0f}" y2="{320 - high * n / 5:.0f}" stroke="#ddd"/>'
                    f'<text x="54" y="{324 - high * n / 5:.0f}" text-anchor="end">{20 * n} %</text>' for n in range(6))
    head = (f'<text x="340" y="-8" text-anchor="middle" font-size="14">{title}</text>'
            f'<text transform="translate(16 170) rotate(-90)" text-anchor="middle">hit rate</text>')
    return (f'<svg xmlns="http://www.w3.org/2000/svg" width="720" height="390" viewBox="0 -30 720 390" role="img" '
            f'font-family="sans-serif" font-size="11"><title>{title}</title><rect y="-30" width="720" height="390" fill="#fff"/>'
            f'{head}{rules}{lines}{ticks}<text x="340" y="356" text-anchor="middle">budget, KiB</text></svg>\n')


def main():
    words = argparse.ArgumentParser(description=__doc__.splitlines()[0])
    words.add_argument("program")
    words.add_argument("trace")
    words.add_argument("--budgets", default="262144,524288,1048576,2097152,4194304,8388608,16777216")
    words.add_argument("--requests", type=int, default=200_000, help="of a made trace")
    words.add_argument("--port", type=int, default=21400)
    words.add_argument("--svg")
    asked = words.parse_args()
    budgets = [int(budget) for budget in asked.budgets.split(",")]
    rows = "".join(f'[[user]]\nname = "u{n}"\ntoken = "t{n}"\nbudget = {budget}\n' for n, budget in enumerate(budgets))
    with tempfile.NamedTemporaryFile("w", suffix=".toml") as file:
        file.write(f'listen = "127.0.0.1:{asked.port}"\nworkers = 2\njournal = 65536\n{rows}')
        file.flush()
        server = subprocess.Popen([asked.program, "serve", "--config", file.name], stdout=subprocess.DEVNULL)
        try:
            users = [User(asked.port, number) for number in range(len(budgets))]
            lrus = [Lru(budget) for budget in budgets]
            trace = made(asked.trace, asked.requests) if asked.trace in ("zipf", "scan", "shift") else read(asked.trace)
            count = replay(users, lrus, trace)
        finally:
            server.kill()
            server.wait()
    rates = [(user.hits / count, lru.hits / count) for user, lru in zip(users, lrus)]
    print(f"{asked.trace}, {count:,} requests\n\n| Budget | Hit rate | LRU's |\n|---|---|---|")
    for budget, (ours, lru) in zip(budgets, rates):
        print(f"| {budget:,} | {100 * ours:.1f} % | {100 * lru:.1f} % |")
    print()
    bars(budgets, rates)
    if asked.svg:
        title = f"{Path(asked.trace).stem}: hit rate by budget, {count:,} requests"
        Path(asked.svg).write_text(drawing(title, budgets, rates))


if __name__ == "__main__":
    main()
