#!/usr/bin/env python3
"""How long a `get` takes, of the same user and of another one, while a user's cache grows, is flushed or expires.

usage: bench/growing.py PROGRAM [PROGRAM ..] [--beside COMMAND] [--rows NAMES] [--items N] [--held N] [--rounds N]
                        [--steal P] [--bar BAR ..]

Each measurement starts a server as bench/serve.py does, with one worker and users of 512 MiB. A connection of alice's
and one of bob's `get` a thousand items of 100 bytes, one at a time, while alice does what the row says on another.

growing  Alice stores N new items of 100 bytes, 64 in flight.
behind   The same, once carol's flush has given back a table of nearly 32 MiB. From then on the C library keeps what is
         smaller in its heap, where a table that grows is copied, unless its threshold is fixed.
flush    Alice, who holds N items of 100 bytes, sends a `flush_all`, and then `set`s of a thousand keys, behind which the
         server gives back what the flush set aside.
due      N items of alice's, of 100 bytes, are due in one second. It is watched from one second before to two behind it.

What a `get` takes is counted from when that begins until it has ended. Numbers are medians of the rounds, in which the
servers take turns. Memory is what was resident before, and the most that was until the end. PROGRAM may have words
around it, as 'env GLIBC_TUNABLES=glibc.malloc.arena_max=1 PROGRAM'. With --beside, as

    --beside 'memcached -u root -l 127.0.0.1 -p {port} -U 0 -t 1 -m 2048 -c 4096 -Y {authfile}'

another server does the same. A run that misses a bar ends with status 2. `flush.other<=5` is a bar on bob's longest
`get` in ms, `growing.same.p999<=0.5` on alice's p99.9, `flush.other<=2x` on the ratio to the other server's, and
`flush.peak<=1` on the ratio of the most memory to what was resident before."""
import argparse
import re
import subprocess
import sys
import tempfile
import time
from array import array
from itertools import cycle
from multiprocessing import Pool, RawValue
from pathlib import Path

import tenants
from serve import BENCH, LOGINS, Server, ask, head, in_turns, median, missed_bars, row

ALICE, BOB, CAROL = LOGINS[:3]
WHO = {"same": ALICE, "other": BOB}
BAR = re.compile(r"(\w+)\.((?:same|other)(?:\.p999)?|peak)<=([0-9.]+)(x?)")
# what the readers `get`
KEYS = [b"k%011d" % number for number in range(1_000)]
# for so many seconds they ask before anything is counted, and behind a flush and what is due
BEFORE, AFTER = 0.5, 2
# so many items have a table of nearly 32 MiB
FREED = 430_000
# of the readers, who ask until the end
PHASE, COUNTED, ENDED = RawValue("b"), 1, 2


def logged_in(port, login):
    link = tenants.Conn(port, None)
    link.set(b"login", login.encode())
    return link


def read(port, login):
    """What each `get` of a user took while it was counted, in seconds."""
    link, taken = logged_in(port, login), array("d")
    for key in cycle(KEYS):
        began = time.perf_counter()
        data = link.get(key)
        if PHASE.value == COUNTED:
            taken.append(time.perf_counter() - began)
        if data is not None and not data.startswith(key):
            raise ValueError(f"a reply that was not right: {data}")
        if PHASE.value == ENDED:
            return taken


def store(server, asked, login, items):
    """Sets items of a user anew, as bench/load.c does before a run."""
    ask(server, f"-v 100 -k {items}", 0, asked, "-L", login, "-w", "0", "-n", "1")


def flush(server, asked, login, items):
    """Has a user's items go, and their memory."""
    if logged_in(server.port, login).ask(b"flush_all\r\n") != b"OK\r\n":
        sys.exit("bench/growing.py: a flush that was not done")
    ask(server, f"-c 1 -P 16 -g 0 -v 100 -k {len(KEYS)}", 0, asked, "-L", login, "-F", "-w", "0", "-n", str(items // 25))
    time.sleep(AFTER)


def growing(server, asked):
    return lambda: store(server, asked, ALICE, asked.items)


def behind(server, asked):
    store(server, asked, CAROL, FREED)
    flush(server, asked, CAROL, FREED)
    return growing(server, asked)


def flushed(server, asked):
    store(server, asked, ALICE, asked.held)
    return lambda: flush(server, asked, ALICE, asked.held)


def due(server, asked):
    second = int(time.time()) + 5 + asked.held // 80_000
    tenants.fill(logged_in(server.port, ALICE), asked.held, b"d" * 100, exp=second)
    left = second - 1 - BEFORE - time.time()
    if left < 0:
        sys.exit("bench/growing.py: items that came after they were due: ask for fewer")
    time.sleep(left)
    return lambda: time.sleep(second + AFTER - time.time())


# what each row makes ready, which gives what is then done beside the readers
ROWS = {"growing": growing, "behind": behind, "flush": flushed, "due": due}


def measured(command, name, asked):
    """What the readers saw beside a row's deed in ms, its seconds, and the server's memory in MiB."""
    server, PHASE.value = Server(command, asked), 0
    try:
        for login in WHO.values():
            store(server, asked, login, len(KEYS))
        deed = ROWS[name](server, asked)
        with Pool(len(WHO)) as readers:
            runs = readers.starmap_async(read, [(server.port, login) for login in WHO.values()], 1)
            time.sleep(BEFORE)
            resident, began = server.resident(), time.time()
            server.forget_peak()
            PHASE.value = COUNTED
            deed()
            PHASE.value = ENDED
            seen = {"seconds": time.time() - began, "mib": resident, "most": server.resident("VmHWM")}
            for who, taken in zip(WHO, runs.get()):
                seen |= {who: tenants.pct(taken, 1), f"{who}.p999": tenants.pct(taken, 0.999)}
        return seen | {"peak": seen["most"] / resident}
    finally:
        server.stop()


def show(name, commands, asked):
    """The lines of a row; whether a bar on it was missed."""
    runs = dict(zip(commands, in_turns(name, list(commands.values()), lambda command: measured(command, name, asked), asked)))
    for who in WHO:
        for server, kept in runs.items():
            longest = [run[who] for run in kept]
            row(name, who, server, f"{median(kept, who):.1f} ({min(longest):.1f} to {max(longest):.1f})",
                f"{median(kept, f'{who}.p999'):.2f}", *(f"{median(kept, it):.1f}" for it in ("seconds", "mib", "most")))
    others = runs.get("the other")

    def of(kept):
        return lambda it: median(kept, it[0]) / (median(others, it[0]) if it[1] else 1)
    return any([missed_bars(name, of(runs[program]), asked.bar) for program in asked.programs])


def bar(text):
    found = BAR.fullmatch(text)
    if not found or found[1] not in ROWS:
        raise argparse.ArgumentTypeError(f"no bar: {text}")
    return text, found[1], (found[2], found[4]), "<=", float(found[3])


def main():
    words = argparse.ArgumentParser(description=__doc__, formatter_class=argparse.RawDescriptionHelpFormatter)
    words.add_argument("programs", nargs="+", metavar="PROGRAM", help="crates/partcached/out/partcached, as `rt run` leaves it")
    words.add_argument("--beside", metavar="COMMAND", help="another server's command, with {port} and {authfile}")
    words.add_argument("--rows", default=",".join(ROWS), metavar="NAMES", help="default: %(default)s")
    words.add_argument("--items", type=int, default=2_000_000, help="that come while a cache grows")
    words.add_argument("--held", type=int, default=1_000_000, help="that a flush takes out, or that are due")
    words.add_argument("--rounds", type=int, default=3)
    words.add_argument("--steal", type=float, default=100, help="per cent of a round that the host may take; default: all")
    words.add_argument("--bar", type=bar, action="append", default=[], help="as flush.other<=5, or flush.other<=2x")
    asked = words.parse_args()
    for name in asked.rows.split(","):
        if name not in ROWS:
            words.error(f"no such row: {name}")
    if any(is_ratio for _, _, (_, is_ratio), _, _ in asked.bar) and not asked.beside:
        words.error("a bar on a ratio, and there is none without --beside")
    asked.budget, asked.workers, asked.threads = 512 << 20, 1, 1
    commands = {program: f"{program} serve --config {{config}}" for program in asked.programs}
    if asked.beside:
        commands["the other"] = asked.beside
    with tempfile.TemporaryDirectory() as folder:
        asked.load = str(Path(folder, "load"))
        subprocess.run(["cc", "-O2", "-pthread", "-o", asked.load, str(BENCH / "load.c"), "-lm"], check=True)
        head("Row", "`get`s of", "Server", "longest ms (of rounds)", "p99.9 ms", "seconds", "MiB before", "MiB at most")
        if any([show(name, commands, asked) for name in asked.rows.split(",")]):
            sys.exit(2)


if __name__ == "__main__":
    main()
