#!/usr/bin/env python3
"""How much memory a server takes, by users, budgets and the size of items, and whether `check` says so.

usage: bench/sizing.py PROGRAM [--most ITEMS] [--quick]

It starts `PROGRAM serve` once for each row, on the settings of examples/partcached.toml but for the port, the users
and, if a row has one, the journal. It fills each user's partition over loopback, and reads the process's resident
memory from /proc. The column of bytes an item is what an item takes beside its key and its data, without the empty
server of that row. Memory of the journal is in it: the entries of a page, and the data that they keep alive.

A full row has as many items as its budgets hold. It is compared with the row `all` that `PROGRAM check --key --data`
prints for the same settings: what is seen has to be within a tenth of `likely`, and not above `at most`. The
budgets of the other rows have room for twice their items.

Then it says what a user of 64 MiB takes that sets one key of 600,000 bytes 1,200 times, what a partition keeps behind a
flush, what it takes at most if it is refilled at once, and what a connection takes that has logged in and asked for a
key, by a thousand of them. The status is 1 if a full row differs from `check`, or a refilled flush takes more than
`MemoryMax`. With --quick it makes a few small full rows and prints a line for each case."""
import argparse
import re
import resource
import socket
import subprocess
import sys
import tempfile
import time
from contextlib import contextmanager
from dataclasses import dataclass
from pathlib import Path

from serve import free_port, settings

KIB, MIB = 1024, 1024 * 1024
RECORD = 64  # what an item's record weighs in a budget
LIKELY = 0.1  # how far from `likely` a full budget may be


@dataclass(frozen=True)
class Row:
    """So many items a user, or as many as a budget of bytes holds."""
    data: int = 0
    key: int = 12
    items: int | None = None
    budget: int | None = None
    users: int = 1
    journal: int | None = None

    def weight(self):
        return self.key + self.data + RECORD

    def wanted(self):
        """How many items each user has."""
        return self.budget // self.weight() if self.items is None else self.items

    def bytes(self):
        """Each user's budget."""
        return self.budget or min(max(65_536, 2 * self.items * self.weight()), 1 << 30)

    def is_full(self):
        return self.items is None


ROWS = [
    Row(items=0), Row(items=0, users=20),
    Row(64, items=1_000), Row(64, items=100_000), Row(64, items=1_000_000),
    Row(1_000, items=100_000), Row(1_000, items=500_000), Row(100_000, items=5_000),
    Row(64, items=100_000, journal=4_096), Row(64, items=100_000, journal=65_536),
    Row(1_000, items=50_000, users=20),
    Row(1_000, budget=64 * MIB, users=20),
    *(Row(data, key, budget=256 * MIB) for key in (12, 40) for data in (64, 100, 1_000)),
    *(Row(data, key, budget=64 * MIB) for key, data in ((12, 0), (22, 100), (23, 100), (250, 100), (12, 300), (12, 10_000))),
]
# bob's and alice's sizes among them: some 400,000 items in all
QUICK = [Row(100, 32, budget=16 * MIB), Row(64, 12, budget=16 * MIB), Row(1_000, 40, budget=16 * MIB, users=2),
         Row(100, 32, budget=MIB)]


@contextmanager
def settings_file(port, users, journal, budget):
    with tempfile.NamedTemporaryFile("w", suffix=".toml") as file:
        file.write(settings(port, [f"u{n} t{n}" for n in range(users)], journal, budget))
        file.flush()
        yield file


@contextmanager
def serving(program, users, journal, budget):
    """A server that runs, and its port."""
    port = free_port()
    with settings_file(port, users, journal, budget) as file:
        process = subprocess.Popen([program, "serve", "--config", file.name], stdout=subprocess.DEVNULL,
                                   preexec_fn=descriptors)
        try:
            yield process, port
        finally:
            process.kill()
            process.wait()


def connect(port, user):
    for _ in range(100):
        try:
            link = socket.create_connection(("127.0.0.1", port))
            break
        except ConnectionRefusedError:
            time.sleep(0.05)
    login = f"u{user} t{user}".encode()
    link.sendall(b"set login 0 0 %d\r\n%s\r\n" % (len(login), login))
    assert link.recv(100) == b"STORED\r\n"
    return link


def fill(link, items, size, key=12, mark=b"k"):
    """Sets so many items, whose keys begin with this mark."""
    data = b"x" * size
    step = max(1, min(2_000, 4 * MIB // (size + 50)))
    for first in range(0, items, step):
        link.sendall(b"".join(b"set %s%0*d 0 0 %d noreply\r\n%s\r\n" % (mark, key - 1, n, size, data)
                              for n in range(first, min(items, first + step))))


def stats(link):
    link.sendall(b"stats\r\n")
    text = b""
    while not text.endswith(b"END\r\n"):
        text += link.recv(65536)
    return {row.split()[1].decode(): row.split()[2].decode() for row in text.splitlines() if row.startswith(b"STAT")}


def resident(process, name="VmRSS"):
    """Resident bytes now, or by the name VmHWM at most until now."""
    lines = Path(f"/proc/{process.pid}/status").read_text().splitlines()
    return next(int(line.split()[1]) * KIB for line in lines if line.startswith(name))


def measure(program, row):
    with serving(program, row.users, row.journal, row.bytes()) as (process, port):
        links = [connect(port, user) for user in range(row.users)]
        empty = resident(process)
        held = 0
        for link in links:
            fill(link, row.wanted(), row.data, row.key)
            held += int(stats(link)["curr_items"])
        return empty, resident(process), held


def checked(program, row):
    """The MiB that `check` says for all users: likely, at most, and `MemoryMax`."""
    with settings_file(11211, row.users, row.journal, row.bytes()) as file:
        words = [program, "check", "--config", file.name, "--key", str(row.key), "--data", str(row.data)]
        said = subprocess.run(words, stdout=subprocess.PIPE, text=True, check=True).stdout
    likely, at_most = re.search(r"^all +\d+ +(\d+) +(\d+) +\d+$", said, re.M).groups()
    return int(likely), int(at_most), int(re.search(r"^MemoryMax=(\d+)M$", said, re.M)[1])


def difference(full, likely, at_most):
    """Why what is seen is not what `check` says, in MiB, or None."""
    if abs(likely - full) > LIKELY * full:
        return f"{full:.1f} MiB seen, and likely {likely}"
    return f"{full:.1f} MiB seen, and at most {at_most}" if full > at_most else None


def refilled(program, row, times=4):
    """The most bytes of a server whose user flushes a full budget and refills it at once, over and over."""
    with serving(program, 1, None, row.bytes()) as (process, port):
        link = connect(port, 0)
        for time_ in range(times + 1):
            fill(link, row.wanted(), row.data, row.key, b"%d" % time_)
            stats(link)
            if time_ < times:
                ask(link, b"flush_all\r\n", 1)
        return resident(process, "VmHWM")


def overwritten(program, size=600_000, times=1_200):
    """The bytes of a server whose one user sets one key over and over."""
    with serving(program, 1, None, 64 * MIB) as (process, port):
        link, data = connect(port, 0), b"x" * size
        for _ in range(times):
            link.sendall(b"set key 0 0 %d\r\n%s\r\n" % (size, data))
            assert link.recv(100) == b"STORED\r\n"
        return resident(process)


def ask(link, command, times):
    for _ in range(times):
        link.sendall(command)
        assert link.recv(100) in (b"END\r\n", b"OK\r\n")


def flushed(program, items=500_000, size=64):
    """The bytes of a server that is empty, that holds items, and behind a flush and so many gets in all."""
    with serving(program, 1, None, 128 * MIB) as (process, port):
        link = connect(port, 0)
        taken = [("empty", resident(process))]
        fill(link, items, size)
        assert int(stats(link)["curr_items"]) == items
        taken.append(("full", resident(process)))
        ask(link, b"flush_all\r\n", 1)
        taken.append(("flushed", resident(process)))
        done = 0
        for gets in 1_000, 10_000, 40_000:
            ask(link, b"get nothing\r\n", gets - done)
            done = gets
            taken.append((f"{gets:,} gets later", resident(process)))
        return taken


def connection(program, count=1_000):
    """The bytes that a connection takes."""
    with serving(program, 1, None, MIB) as (process, port):
        links = [connect(port, 0) for _ in range(20)]
        before = resident(process)
        links += [connect(port, 0) for _ in range(count)]
        for link in links[20:]:
            link.sendall(b"get nothing\r\n")
            assert link.recv(100) == b"END\r\n"
        return (resident(process) - before) / count


def descriptors():
    """As many as the server wants for a thousand connections, and as many for those at this end."""
    most = resource.getrlimit(resource.RLIMIT_NOFILE)[1]
    resource.setrlimit(resource.RLIMIT_NOFILE, (most, most))


def table(program, most):
    """Prints a line for each row. Returns what differs from `check`."""
    print("| Users | Journal | Items a user | Key bytes | Data bytes | Empty server, MiB | Full, MiB | `check`: likely, at most "
          "| Bytes an item beside key and data |")
    print("|---|---|---|---|---|---|---|---|---|")
    wrong = []
    for row in ROWS:
        if row.wanted() > most:
            continue
        empty, full, held = measure(program, row)
        beside = f"{(full - empty) / held - row.key - row.data:.0f}" if held else "-"
        page, said = f"{row.journal:,}" if row.journal else "none named", "-"
        if row.is_full():
            likely, at_most, _ = checked(program, row)
            said = f"{likely}, {at_most}"
            wrong += [f"{row}: {it}" for it in [difference(full / MIB, likely, at_most)] if it]
        print(f"| {row.users} | {page} | {row.wanted():,} | {row.key} | {row.data:,} | {empty / MIB:.1f} | {full / MIB:.1f} "
              f"| {said} | {beside} |", flush=True)
        if not row.is_full() and held != row.users * row.items:
            print(f"held {held} of {row.users * row.items}", file=sys.stderr)
    return wrong


def flush(program, row):
    """What a flush that is refilled at once takes, what `check` says of it, and why that is wrong, or None."""
    most = refilled(program, row) / MIB
    _, at_most, memory_max = checked(program, row)
    said = f"{row.bytes() // MIB} MiB flushed and refilled at once, 4 times: {most:.0f} MiB, at most {at_most}, MemoryMax {memory_max}"
    return said, None if most <= memory_max else said


def quick(program):
    """Prints a line for each of a few cases. Returns how many went wrong."""
    cases = []
    for row in QUICK:
        _, full, _ = measure(program, row)
        likely, at_most, _ = checked(program, row)
        name = f"{row.users} of {row.bytes() // MIB} MiB, keys of {row.key} bytes and {row.data} of data"
        cases.append((name, difference(full / MIB, likely, at_most)))
    cases.append(("a flush that is refilled at once", flush(program, QUICK[0])[1]))
    for name, wrong in cases:
        print(f"{name}: {'as it should' if wrong is None else f'WRONG: {wrong}'}", flush=True)
    return sum(wrong is not None for _, wrong in cases)


def main():
    descriptors()
    words = argparse.ArgumentParser(description=__doc__.splitlines()[0])
    words.add_argument("program")
    words.add_argument("--most", type=int, default=1 << 30, help="leave out rows of more items")
    words.add_argument("--quick", action="store_true", help="a few small budgets")
    asked = words.parse_args()
    if asked.quick:
        sys.exit(quick(asked.program) > 0)
    wrong = table(asked.program, asked.most)
    print(f"\none key of 600,000 bytes set 1,200 times: {overwritten(asked.program) / MIB:.0f} MiB")
    print("500,000 items of 64 bytes: " + ", ".join(f"{what} {bytes / MIB:.0f} MiB" for what, bytes in flushed(asked.program)))
    for row in (Row(100, 32, budget=64 * MIB), Row(64, 12, budget=16 * MIB)):
        said, over = flush(asked.program, row)
        print(said)
        wrong += [over] if over else []
    print(f"a connection: {connection(asked.program):,.0f} bytes")
    for it in wrong:
        print(f"WRONG: {it}", file=sys.stderr)
    sys.exit(len(wrong) > 0)


if __name__ == "__main__":
    main()
