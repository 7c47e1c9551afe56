#!/usr/bin/env python3
"""Whether one tenant, or a stranger without a login, can hurt the others.

usage: bench/tenants.py PROGRAM [--only NAMES] [--quick] [--seconds S] [--steal P]
       bench/tenants.py --memcached          the control: memcached -t 4 -m 64 -c 1024 -Y
       bench/tenants.py --list

Each check starts a server of its own on a free port of 127.0.0.1, with the settings of
examples/partcached.toml but for eight users, and attacks it from processes of its own for a few seconds.
A quiet second tenant asks for one key each 2 ms on one connection, and each 50 ms on a new one. User u1
attacks. Users are dealt to workers by number, so u5 shares u1's worker and u2 does not. One line a check:
pass or FAIL, seconds, name, figures, and the bar in brackets. A bar is what a fair server would meet,
whatever is promised. Latencies are milliseconds, p50/p99/longest. It ends with a line 'N passed, M failed'.

Only processes that were started here are stopped, by their pids; a server that grows past --cap, or
leaves the machine less than 3.5 GiB, is stopped too. It takes some seven minutes and 3 GiB at most;
--quick is what asks for no time, in some 40 seconds.

On a virtual machine the host may take processors away, which Linux counts as stolen. With --steal P a check
that fails while it takes more than P per cent of the processors' time is made again, three times in all."""
import argparse
import collections
import os
import re
import resource
import select
import shutil
import signal
import socket
import struct
import subprocess
import sys
import tempfile
import threading
import time
from pathlib import Path

EXAMPLE = Path(__file__).resolve().parent.parent / "examples/partcached.toml"
UNIT = EXAMPLE.with_suffix(".service")
MIB = 1 << 20
O = None
CHECKS = []
P99, LONGEST = 25, 150           # the bar of a quiet tenant's gets, ms
NEW_P99 = 250                    # the same of a new connection with its login and a get
SHORT = 25                       # the longest of them where a user's tables grow
FLUSH = 10                       # the longest of them, and of the flusher's own, beside a flush, and the flush itself
GROWTH = 64                      # MiB that a tenant may take beside its budget
# what is no matter of time
QUICK = ("tables_mostly_empty", "tables_at_rest", "reply_memory", "reply_unlimited", "reply_refused_room",
         "all_connections_of_a_stranger", "endings")
FIELD = re.compile(r"^(?!listen)(\w+ = .*)$", re.M)


def check(f):
    CHECKS.append(f)
    return f


# ---- servers ----
def fields(journal):
    """the example's fields for all users, and those for its first user but its name, token and budget"""
    parts = EXAMPLE.read_text().split("[[user]]")
    top = FIELD.findall(parts[0]) + (["journal = %d" % journal] if journal else [])
    own = [line for line in FIELD.findall(parts[1]) if not re.match("name|token|budget", line)]
    return "\n".join(top), "\n".join(own)


def avail():
    with open("/proc/meminfo") as f:
        return next(int(l.split()[1]) for l in f if l.startswith("MemAvailable")) / 1024


class Server:
    """budget and largest are of u1, the attacker; the others have 64 MiB and no limit"""

    def __init__(s, journal=None, budget=64 * MIB, largest=None, limit=None, env=None):
        with socket.socket() as so:
            so.bind(("127.0.0.1", 0))
            s.port = so.getsockname()[1]
        s.dir = tempfile.mkdtemp(prefix="tenants")
        users = [("u%d" % i, "token-u%d" % i) for i in range(1, 9)]
        if O.memcached:
            path = s.dir + "/auth"
            open(path, "w").write("".join("%s:%s\n" % u for u in users))
            cmd = ["memcached", "-u", "root", "-l", "127.0.0.1", "-p", str(s.port), "-U", "0", "-t", "4", "-m", "64", "-c", "1024", "-Y", path]
        else:
            top, own = fields(journal)
            t = 'listen = "127.0.0.1:%d"\n%s\n' % (s.port, top)
            for i, (n, k) in enumerate(users):
                t += '[[user]]\nname = "%s"\ntoken = "%s"\nbudget = %d\n%s\n' % (n, k, 64 * MIB if i else budget, own)
                if largest and not i:
                    t += "largest = %d\n" % largest
            path = s.dir + "/config.toml"
            open(path, "w").write(t)
            cmd = [O.program, "serve", "--config", path]

        def pre():
            os.setpgid(0, 0)
            resource.setrlimit(resource.RLIMIT_NOFILE, (4096, 4096))
            if limit:
                resource.setrlimit(resource.RLIMIT_AS, (limit, limit))
        s.p = subprocess.Popen(cmd, preexec_fn=pre, env=env, stdout=subprocess.DEVNULL, stderr=open(s.dir + "/err", "w"))
        s.pid, s.killed, s.over = s.p.pid, False, False
        for _ in range(250):
            try:
                socket.create_connection(("127.0.0.1", s.port), 1).close()
                break
            except OSError:
                time.sleep(0.02)
        else:
            raise SystemExit("the server did not start: " + open(s.dir + "/err").read())
        threading.Thread(target=s.watch, daemon=True).start()

    def watch(s):
        while not s.over and s.p.poll() is None:
            try:
                if s.rss() > O.cap or avail() < 3500:
                    s.killed = True
                    s.p.kill()
            except (OSError, StopIteration):
                pass
            time.sleep(0.02)

    def of(s, row):
        with open("/proc/%d/status" % s.pid) as f:
            return next(int(l.split()[1]) for l in f if l.startswith(row)) / 1024

    def rss(s):
        return s.of("VmRSS")

    def peak(s):
        return s.of("VmHWM")

    def cpu(s):
        with open("/proc/%d/stat" % s.pid) as f:
            t = f.read().rsplit(")", 1)[1].split()
        return (int(t[11]) + int(t[12])) / os.sysconf("SC_CLK_TCK")

    def fds(s):
        return len(os.listdir("/proc/%d/fd" % s.pid))

    def rests(s, most=8):
        """waits until it has done what was asked"""
        end = time.time() + most
        while time.time() < end:
            c = s.cpu()
            time.sleep(0.3)
            if s.cpu() - c < 0.02:
                return

    def __enter__(s):
        return s

    def __exit__(s, *a):
        s.over = True
        if s.p.poll() is None:
            s.p.kill()
        s.p.wait()
        shutil.rmtree(s.dir, ignore_errors=True)


# ---- connections ----
class Conn:
    def __init__(s, port, user="u1", timeout=20, rcvbuf=None, sndbuf=None):
        s.s, s.b = socket.socket(), b""
        if rcvbuf:
            s.s.setsockopt(socket.SOL_SOCKET, socket.SO_RCVBUF, rcvbuf)
        if sndbuf:
            s.s.setsockopt(socket.SOL_SOCKET, socket.SO_SNDBUF, sndbuf)
        s.s.settimeout(timeout)
        s.s.connect(("127.0.0.1", port))
        s.s.setsockopt(socket.IPPROTO_TCP, socket.TCP_NODELAY, 1)
        if user:
            s.send(login(user))
            r = s.line()
            if r != b"STORED\r\n":
                raise EOFError("login answered %r" % r)

    def send(s, d):
        s.s.sendall(d)

    def more(s):
        d = s.s.recv(1 << 18)
        if not d:
            raise EOFError("closed by the server")
        s.b += d

    def line(s):
        while b"\n" not in s.b:
            s.more()
        i = s.b.index(b"\n") + 1
        r, s.b = s.b[:i], s.b[i:]
        return r

    def exactly(s, n):
        parts, have = [s.b], len(s.b)
        while have < n:
            d = s.s.recv(1 << 18)
            if not d:
                raise EOFError("closed by the server")
            parts.append(d)
            have += len(d)
        x = b"".join(parts)
        s.b = x[n:]
        return x[:n]

    def ask(s, d):
        s.send(d)
        return s.line()

    def get(s, key):
        """the data, None for a miss, or the line of a fault"""
        s.send(b"get %s\r\n" % key)
        l = s.line()
        if l == b"END\r\n":
            return None
        if not l.startswith(b"VALUE"):
            return l
        d = s.exactly(int(l.split()[3]) + 2)[:-2]
        s.line()
        return d

    def set(s, key, data):
        return s.ask(b"set %s 0 0 %d\r\n%s\r\n" % (key, len(data), data))

    def stats(s):
        s.send(b"stats\r\n")
        r = {}
        while True:
            l = s.line()
            if l == b"END\r\n":
                return r
            _, k, v = l.split(None, 2)
            r[k.decode()] = v.strip().decode()

    def close(s):
        s.s.close()


def login(user):
    t = b"%s token-%s" % (user.encode(), user.encode())
    return b"set login 0 0 %d\r\n%s\r\n" % (len(t), t)


def mget(key, n):
    return b"get " + b" ".join([key] * n) + b"\r\n"


LETTERS = b"abcdefghijklmnopqrstuvwxyzABCDEFGHIJKLMNOPQRSTUVWXYZ0123456789"


def key(i):
    k = b""
    for _ in range(4):
        k += LETTERS[i % 62:i % 62 + 1]
        i //= 62
    return k


def fill(c, n, data=b"", start=0, exp=0, batch=20000):
    for b in range(start, start + n, batch):
        c.send(b"".join(b"set %s 0 %d %d noreply\r\n%s\r\n" % (key(i), exp, len(data), data) for i in range(b, min(b + batch, start + n))))
        c.get(b"nothere")


# ---- the quiet tenant ----
def pct(a, p):
    a = sorted(a)
    return a[min(len(a) - 1, int(len(a) * p))] * 1e3


class Victim:
    def __init__(v, s, user, seconds, timeout=8):
        v.port, v.user, v.seconds, v.timeout = s.port, user, seconds, timeout
        v.lat, v.new, v.lost, v.refused, v.faults = [], [], 0, 0, 0
        t = threading.Thread(target=v.new_loop)
        t.start()
        v.loop()
        t.join()

    def loop(v):
        end, c, due = time.time() + v.seconds, None, time.time()
        while time.time() < end:
            t = time.perf_counter()
            try:
                if c is None:
                    c = Conn(v.port, v.user, v.timeout)
                    c.set(b"vk", b"v" * 100)
                t = time.perf_counter()
                r = c.get(b"vk")
                v.faults += r is not None and r.startswith(b"SERVER_ERROR")
            except (OSError, EOFError):
                v.lost += 1
                c = None
                time.sleep(0.01)
            v.lat.append(time.perf_counter() - t)
            due = max(due + 0.002, time.time())
            time.sleep(max(0, due - time.time()))

    def new_loop(v):
        end = time.time() + v.seconds
        while time.time() < end:
            t = time.perf_counter()
            try:
                c = Conn(v.port, v.user, v.timeout)
                c.get(b"vk")
                c.close()
            except (OSError, EOFError):
                v.refused += 1
            v.new.append(time.perf_counter() - t)
            time.sleep(0.05)

    def fair(v):
        return pct(v.lat, .99) <= P99 and pct(v.lat, 1) <= LONGEST and pct(v.new, .99) <= NEW_P99 and not v.lost and not v.refused and not v.faults

    def __str__(v):
        f = lambda a: "%.1f/%.0f/%.0f" % (pct(a, .5), pct(a, .99), pct(a, 1))
        return "%s get %s, new %s%s" % (v.user, f(v.lat), f(v.new), ", lost %d, refused %d, faults %d" % (v.lost, v.refused, v.faults) if v.lost + v.refused + v.faults else "")


FAIR = "p99 <= %d, longest <= %d, new p99 <= %d, none lost" % (P99, LONGEST, NEW_P99)


# ---- attackers, each a process of its own ----
class Attack:
    def __init__(a, fn, *args):
        a.pid = os.fork()
        if a.pid == 0:
            try:
                fn(*args)
            finally:
                os._exit(0)

    def __enter__(a):
        return a

    def __exit__(a, *x):
        a.stop()

    def stop(a):
        os.kill(a.pid, signal.SIGKILL)
        os.waitpid(a.pid, 0)


def flood(port, user, conns, payload, home=True, seconds=50):
    """each connection sends the payload over and over, and reads and drops what comes; at home it is
    on its user's worker first"""
    cs = []
    for _ in range(conns):
        c = Conn(port, user, sndbuf=65536 if conns < 50 else 16384)
        if user and home:
            c.get(b"nothere")
        cs.append(c)
    time.sleep(0.05)
    ep, by = select.epoll(), {}
    for c in cs:
        c.s.setblocking(False)
        ep.register(c.s.fileno(), select.EPOLLIN | select.EPOLLOUT)
        by[c.s.fileno()] = [c.s, 0]
    view, n, room, end = memoryview(payload), len(payload), bytearray(MIB), time.time() + seconds
    while time.time() < end and by:
        for fd, ev in ep.poll(0.1):
            e = by.get(fd)
            try:
                if ev & select.EPOLLIN and not e[0].recv_into(room):
                    raise ConnectionError
                if ev & select.EPOLLOUT:
                    e[1] = (e[1] + e[0].send(view[e[1]:e[1] + (1 << 17)])) % n
                if ev & (select.EPOLLHUP | select.EPOLLERR):
                    raise ConnectionError
            except BlockingIOError:
                pass
            except OSError:
                ep.unregister(fd)
                del by[fd]


def roam(port, user, payload, rate, keep=16, seconds=50):
    """so many new connections a second, each with its login and the payload at once"""
    first, cs, end = login(user) + payload, [], time.time() + seconds
    while time.time() < end:
        try:
            c = Conn(port, None, sndbuf=1 << 18)
            c.s.setblocking(False)
            c.s.send(first)
            cs.append(c)
        except OSError:
            pass
        if len(cs) > keep:
            cs.pop(0).close()
        time.sleep(1 / rate)


def churn(port, seconds=50):
    """connections that are opened and reset at once"""
    end = time.time() + seconds
    while time.time() < end:
        try:
            c = Conn(port, None)
            c.s.setsockopt(socket.SOL_SOCKET, socket.SO_LINGER, struct.pack("ii", 1, 0))
            c.close()
        except OSError:
            pass


def hold(port, user, makers, seconds=50):
    """connections that send something once and never read"""
    cs = []
    for payload, n, wait in makers:
        for _ in range(n):
            try:
                c = Conn(port, user, rcvbuf=4096)
                cs.append(c)
                c.s.settimeout(0.3)
                c.send(payload)
            except (OSError, EOFError):
                pass
            time.sleep(wait)
    time.sleep(seconds)


def under(s, users, *attack, warm=0.5, seconds=None):
    """what the quiet tenant sees before and under an attack: whether all is fair, and the text"""
    vs = [Victim(s, users[0], 0.5)]
    with Attack(*attack):
        time.sleep(warm)
        for u in users:
            vs.append(Victim(s, u, seconds or O.seconds))
    return all(v.fair() for v in vs[1:]), "alone %s; under it %s" % (vs[0], "; ".join(map(str, vs[1:])))


def sets(port, user, size, n, seconds):
    """sets of new keys; what came, the longest seconds"""
    r, longest, c, end = collections.Counter(), 0, None, time.time() + seconds
    for i in range(n):
        if time.time() > end:
            break
        t = time.time()
        try:
            c = c or Conn(port, user, timeout=6)
            r[c.set(b"s%d" % i, b"y" * size).strip().decode()] += 1
        except (OSError, EOFError):
            r["lost"] += 1
            c = None
        longest = max(longest, time.time() - t)
    return r, longest


# ---- memory ----
@check
def reply_memory():
    """4 connections ask for one key of 10 KB 32,760 times each, and read nothing"""
    with Server() as s:
        c = Conn(s.port)
        c.set(b"k", b"x" * 10000)
        r = s.rss()
        with Attack(hold, s.port, "u1", [(mget(b"k", 32760), 4, 0.5)]):
            time.sleep(4)
            h = s.rss() if not s.killed else O.cap
        s.rests()
        return h - r <= GROWTH, "+%.0f MiB held, +%.0f once they closed [<= %d]" % (h - r, s.rss() - r, GROWTH)


@check
def reply_unlimited():
    """one connection asks for one key of 1 MiB 32,760 times, with no limit but --cap"""
    with Server() as s:
        c = Conn(s.port)
        c.set(b"k", b"x" * (MIB - 300))
        r, t, p = s.rss(), time.time(), 0
        with Attack(hold, s.port, "u1", [(mget(b"k", 32760), 1, 0)]):
            while time.time() - t < 8 and not s.killed:
                time.sleep(0.05)
                try:
                    p = max(p, s.rss() - r)
                except (OSError, StopIteration):
                    break
        return p <= GROWTH, "+%.0f MiB in %.1f s%s [<= %d]" % (p, time.time() - t, ", where it was stopped" if s.killed else "", GROWTH)


@check
def reply_refused_stall():
    """one connection asks again and again for one key of 1 MiB 32,760 times; 1 GiB in all"""
    with Server(limit=1 << 30) as s:
        Conn(s.port).set(b"k", b"x" * (MIB - 300))
        ok, t = under(s, ["u5", "u2"], flood, s.port, "u1", 1, mget(b"k", 32760))
        return ok, "%s; peak %.0f MiB [%s]" % (t, s.peak(), FAIR)


@check
def reply_refused_room():
    """what a refused reply leaves in a connection with some bytes unsent; 1 GiB in all"""
    most = 0
    for asked in (280, 310, 340, 370):
        with Server(limit=1 << 30) as s:
            c = Conn(s.port, rcvbuf=4096)
            c.set(b"k", b"x" * (MIB - 300))
            c.set(b"h", b"x" * 10000)
            for _ in range(asked):
                c.send(b"get h\r\n")
                time.sleep(0.0005)
            r = s.rss()
            c.send(mget(b"k", 32760))
            time.sleep(1)
            s.rests(4)
            most = max(most, s.rss() - r)
    return most <= GROWTH, "+%.0f MiB for as long as the client reads nothing [<= %d]" % (most, GROWTH)


@check
def journal_refused_sets():
    """600 sets of 1 MiB by a user of 64 KiB whose largest item is 1,000 bytes, who then leaves"""
    with Server(budget=65536, largest=1000) as s:
        r, t0 = s.rss(), time.time()
        c = Conn(s.port)
        a = collections.Counter(c.set(b"k", b"x" * (MIB - 300)).strip().decode() for _ in range(600))
        c.close()
        t = time.time() - t0
        time.sleep(3)
        return s.rss() - r <= GROWTH, "+%.0f MiB for good, in %.1f s; answers %s [<= %d]" % (s.rss() - r, t, dict(a), GROWTH)


@check
def journal_multigets():
    """300 gets of 32,760 keys, none or all held, by a user who then leaves"""
    out = []
    for k in (b"a", b"k"):
        with Server() as s:
            c = Conn(s.port)
            c.set(b"k", b"x")
            r, t, line = s.rss(), time.time(), mget(k, 32760)
            for _ in range(300 if not O.memcached else 100):
                c.send(line)
                while not c.b.endswith(b"END\r\n"):
                    c.b = c.b[-16:]
                    c.more()
                c.b = b""
            c.close()
            t = time.time() - t
            time.sleep(2)
            out.append(s.rss() - r)
    return max(out) <= GROWTH, "+%.0f MiB for misses, +%.0f for hits, for good [<= %d]" % (out[0], out[1], GROWTH)


@check
def half_blocks():
    """200 connections of a user of 64 KiB whose largest item is 1,000 bytes stop in a block of 1 MiB"""
    with Server(budget=65536, largest=1000) as s:
        r = s.rss()
        with Attack(hold, s.port, "u1", [(b"set k 0 0 %d\r\n" % (MIB - 300) + b"x" * (MIB - 400), 200, 0)]):
            time.sleep(4)
            h = s.rss() - r
        return h <= GROWTH, "+%.0f MiB [<= %d]" % (h, GROWTH)


@check
def never_read():
    """200 connections ask on for 15,000 bytes and never read"""
    with Server() as s:
        Conn(s.port).set(b"k", b"x" * 15000)
        r = s.rss()
        with Attack(hold, s.port, "u1", [(b"get k\r\n" * 400, 200, 0)]):
            time.sleep(5)
            h = s.rss() - r
        return h <= GROWTH, "+%.0f MiB [<= %d]" % (h, GROWTH)


# ---- connections ----
def holds_all(user):
    with Server() as s:
        old = Conn(s.port, "u2")
        with Attack(hold_idle, s.port, user, 1100):
            time.sleep(2.5)
            v = Victim(s, "u2", 2)
            a = old.get(b"x") is None
        time.sleep(0.5)
        w = Victim(s, "u2", 0.5)
    n = len(v.new)
    return v.refused == 0, "%d of %d new connections of another user refused, an old one %s; %d of %d once they closed [none]" % (v.refused, n, "served" if a else "not", w.refused, len(w.new))


def hold_idle(port, user, n):
    cs = []
    for _ in range(n):
        try:
            cs.append(Conn(port, user, timeout=2))
        except (OSError, EOFError):
            pass
    time.sleep(50)


@check
def all_connections_of_a_stranger():
    """a stranger holds all connections and sends nothing"""
    return holds_all(None)


@check
def login_timeout():
    """a connection that says nothing, half a login, or a wrong login each 5 s, for 45 s"""
    with Server() as s:
        cs = {"silent": Conn(s.port, None), "half a login": Conn(s.port, None), "wrong logins": Conn(s.port, None)}
        cs["half a login"].send(b"set login 0 0 11\r\nu1 tok")
        open_, end = set(cs), time.time() + 45
        while time.time() < end:
            time.sleep(5)
            try:
                cs["wrong logins"].send(b"set a 0 0 4\r\nx yz\r\n")
            except OSError:
                pass
            for n in list(open_):
                cs[n].s.setblocking(False)
                try:
                    if not cs[n].s.recv(4096):
                        open_.discard(n)
                except BlockingIOError:
                    pass
                except OSError:
                    open_.discard(n)
                cs[n].s.setblocking(True)
        return not open_, "open after 45 s: %s [none]" % (", ".join(sorted(open_)) or "none")


@check
def churn_and_flood():
    """a stranger floods 64 connections with lines, and opens and resets others"""
    with Server() as s:
        with Attack(churn, s.port):
            ok, t = under(s, ["u2"], flood, s.port, None, 64, mget(b"a", 32760))
        return ok, "%s [%s]" % (t, FAIR)


# ---- processor ----
def flooded(payload, conns, users, prep=None, user="u1", seconds=None, **settings):
    with Server(**settings) as s:
        c = Conn(s.port, timeout=50)
        if prep:
            prep(c)
        c0, t0 = s.cpu(), time.time()
        ok, t = under(s, users, flood, s.port, user, conns, payload, warm=0.4 + conns * 0.002, seconds=seconds)
        return ok, "%s; %.1f processors [%s]" % (t, (s.cpu() - c0) / (time.time() - t0), FAIR)


@check
def flood_gets():
    """16 connections of gets of one missed key"""
    return flooded(b"get x\r\n" * 2000, 16, ["u5", "u2"])


@check
def flood_quiet_sets():
    """16 connections of sets of 1 byte with noreply"""
    return flooded(b"".join(b"set k%d 0 0 1 noreply\r\nx\r\n" % (i % 100) for i in range(2000)), 16, ["u5", "u2"])


@check
def flood_bad_lines():
    """16 connections of empty lines"""
    return flooded(b"\n" * 30000, 16, ["u5", "u2"])


@check
def flood_multigets():
    """16 connections of gets of 32,760 missed keys (memcached: 1 connection)"""
    return flooded(mget(b"a", 32760), 1 if O.memcached else 16, ["u5", "u2"])


@check
def flood_multigets_250():
    """250 connections of gets of 32,760 missed keys (memcached: 2 connections)"""
    return flooded(mget(b"a", 32760), 2 if O.memcached else 250, ["u5", "u2"])


@check
def flood_large_replies():
    """one connection that reads asks on for replies of 327 MB, 10 KB 32,760 times"""
    return flooded(mget(b"k", 32760), 1, ["u5", "u2"], lambda c: c.set(b"k", b"x" * 10000), limit=2 << 30)


@check
def stranger_long_lines():
    """100 connections without a login send gets of 65,000 bytes"""
    return flooded(mget(b"a", 32760), 100, ["u2"], user=None)


@check
def flood_wrong_logins():
    """16 connections of wrong logins"""
    return flooded(b"set a 0 0 10\r\nu1 token-u2\r\n" * 500, 16, ["u2"], user=None)


@check
def login_rate():
    """how many tokens a connection can try in a second, 400 sent at a time (memcached: 1)"""
    with Server() as s:
        c, one, n, t0 = Conn(s.port, None, timeout=3), b"set a 0 0 12\r\nu1 token-xyz\r\n", 0, time.time()
        k = 1 if O.memcached else 400
        try:
            while time.time() - t0 < 2:
                c.send(one * k)
                for _ in range(k):
                    n += b"failure" in c.line()
        except (OSError, EOFError):
            pass
        t = time.time() - t0
        said = open(s.dir + "/err").read()
        return n / t <= 1000, "%.0f a second on one connection, which stays open; logged: %r [<= 1,000]" % (n / t, said[:60])


def emptied(c):
    fill(c, 900000)
    c.ask(b"flush_all\r\n")


def both(s, seconds, act=lambda: None):
    """what another connection of u1 and one of u5, on its worker, see while something is done, and how long that takes"""
    vs = {}
    ths = [threading.Thread(target=lambda u=u: vs.update({u: Victim(s, u, seconds)})) for u in ("u1", "u5")]
    for th in ths:
        th.start()
    time.sleep(0.5)
    t = time.perf_counter()
    act()
    t = time.perf_counter() - t
    for th in ths:
        th.join()
    return vs["u1"], vs["u5"], t


@check
def growth():
    """1,100,000 items come to u1's empty partition"""
    with Server(budget=128 * MIB) as s:
        with Attack(fill, Conn(s.port, timeout=50), 1100000, b"", 0, 0, 2000):
            own, v, _ = both(s, 8)
        n = int(Conn(s.port).stats()["curr_items"])
        return pct(v.lat, 1) <= SHORT and v.fair(), "%s; %s; %d items [%s, longest <= %d]" % (v, own, n, FAIR, SHORT)


@check
def flush_cost():
    """what a flush_all of 200,000 items costs, the median of three"""
    with Server() as s:
        c, a = Conn(s.port, timeout=50), []
        for _ in range(3):
            fill(c, 200000)
            own, v, t = both(s, 1, lambda: c.ask(b"flush_all\r\n"))
            a.append((t, max(own.lat), max(v.lat)))
        t, own, other = (pct(b, .5) for b in zip(*a))
        return max(t, own, other) <= FLUSH, "%.1f ms; longest get of u1 %.1f, of u5 %.1f [<= %d]" % (t, own, other, FLUSH)


@check
def tables_mostly_empty():
    """400,000 items without data, of which all but 10,000 are deleted"""
    with Server() as s:
        c = Conn(s.port, timeout=50)
        fill(c, 400000)
        full = s.rss()
        for b in range(10000, 400000, 20000):
            c.send(b"".join(b"delete %s noreply\r\n" % key(i) for i in range(b, min(b + 20000, 400000))))
            c.get(b"nothere")
        for _ in range(200):
            c.get(b"nothere")
        left = s.rss()
        held = sum(c.get(key(i)) is not None for i in range(0, 10000, 100))
        return left <= full / 2 and held == 100, "%.0f MiB with all, %.0f with the rest, which is held: %d of 100 [half]" % (full, left, held)


@check
def tables_at_rest():
    """400,000 items without data, of which all but 60,000 are deleted, and a rest of a minute at most, where the C
    library has the unit's threshold: by its own it keeps the tables' memory"""
    threshold = re.search(r"glibc\.malloc\.mmap_threshold=\d+", UNIT.read_text())[0]
    with Server(env=dict(os.environ, GLIBC_TUNABLES=threshold)) as s:
        c = Conn(s.port, timeout=50)
        fill(c, 400000)
        full = s.rss()
        for b in range(60000, 400000, 20000):
            c.send(b"".join(b"delete %s noreply\r\n" % key(i) for i in range(b, min(b + 20000, 400000))))
            c.get(b"nothere")
        for _ in range(60):
            time.sleep(1)
            left = s.rss()
            if left <= full / 2:
                break
        held = sum(c.get(key(i)) is not None for i in range(0, 60000, 600))
        return left <= full / 2 and held == 100, "%.0f MiB with all, %.0f with the rest, which is held: %d of 100 [half]" % (full, left, held)


@check
def flush_flood():
    """one connection of flush_all noreply, 19 bytes each, on that cache"""
    return flooded(b"flush_all noreply\r\n" * 2000, 1, ["u5", "u2"], emptied)


@check
def flush_roam():
    """20 new connections a second, each with 16 flush_all noreply: 7 KB a second"""
    with Server() as s:
        c = Conn(s.port, timeout=50)
        emptied(c)
        ok, t = under(s, ["u2"], roam, s.port, "u1", b"flush_all noreply\r\n" * 16, 20)
        return ok, "%s [%s]" % (t, FAIR)


@check
def turns_256():
    """page turns with 200,000 items and a journal of 256, 16 connections"""
    return flooded(b"get x\r\n" * 2000, 16, ["u5", "u2"], lambda c: fill(c, 200000, batch=2000), journal=256)


@check
def turns_4096():
    """page turns with 900,000 items and a journal of 4,096, 16 connections"""
    return flooded(b"get x\r\n" * 2000, 16, ["u5", "u2"], lambda c: fill(c, 900000), journal=4096)


@check
def expiry():
    """900,000 items of u1 are due in one second"""
    with Server() as s:
        c, t = Conn(s.port, timeout=50), int(time.time()) + (22 if not O.memcached else 16)
        fill(c, 900000, exp=t)
        late = time.time() - t
        time.sleep(max(0, t - 0.7 - time.time()))
        own, v, _ = both(s, 3.5)
        return late < 0 and v.fair(), "%s; %s [%s]" % (v, own, FAIR)


# ---- hashes ----
def fnv(k):
    h = 0xcbf29ce484222325
    for b in k:
        h = ((h ^ b) * 0x100000001b3) & 0xffffffffffffffff
    return h


@check
def hint_collisions():
    """gets of 500 keys that share one place of the hints, to those of 500 others"""
    n, same, i = 500, [], 0
    mask = (1 << (2 * n - 1).bit_length()) - 1
    while len(same) < n:
        k = b"%x" % i
        i += 1
        h = fnv(k)
        if (h ^ (h >> 32)) & mask == 0:
            same.append(k)
    cost = []
    for ks in ([b"%x" % j for j in range(n)], same):
        with Server() as s:
            c = Conn(s.port)
            c.send(b"".join(b"set %s 0 0 1 noreply\r\nx\r\n" % k for k in ks))
            c.get(b"zz")
            line, size = b"get " + b" ".join(ks) + b"\r\n", sum(len(b"VALUE %s 0 1\r\nx\r\n" % k) for k in ks) + 5
            c0 = s.cpu()
            for _ in range(2000):
                c.send(line)
                c.exactly(size)
            cost.append((s.cpu() - c0) / 2000 / n * 1e9)
    return cost[1] <= 2 * cost[0], "%.0f ns a key to %.0f [<= twice]" % (cost[1], cost[0])


# ---- ends of connections ----
@check
def endings():
    """replies never read behind a half close, resets, closes with unread data, urgent data: processor and descriptors"""
    with Server() as s:
        c = Conn(s.port)
        c.set(b"k", b"x" * 900000)
        f0, worst = s.fds(), 0.0

        def idle():
            time.sleep(0.5)
            c0 = s.cpu()
            time.sleep(1)
            return s.cpu() - c0
        cs = [Conn(s.port, rcvbuf=4096) for _ in range(50)]
        for x in cs:
            x.send(b"get k\r\n" * 20)
            x.s.shutdown(socket.SHUT_WR)
        worst = max(worst, idle())
        for x in cs:
            x.s.setsockopt(socket.SOL_SOCKET, socket.SO_LINGER, struct.pack("ii", 1, 0))
            x.close()
        worst = max(worst, idle())
        cs = [Conn(s.port, rcvbuf=4096) for _ in range(50)]
        for x in cs:
            x.send(b"get k\r\n" * 20)
            x.close()
        worst = max(worst, idle())
        cs = [Conn(s.port) for _ in range(50)]
        for x in cs:
            x.s.send(b"!", socket.MSG_OOB)
        worst = max(worst, idle())
        for x in cs:
            x.close()
        time.sleep(0.5)
        return worst <= 0.1 and s.fds() <= f0, "%.2f processors at most while nothing is to be done, %d descriptors, %d before [<= 0.10, as before]" % (worst, s.fds(), f0)


def machine_time():
    """what the host stole of the processors' time, and all of that time, in ticks"""
    ticks = [int(word) for word in Path("/proc/stat").read_text().splitlines()[0].split()[1:9]]
    return ticks[7], sum(ticks)


def outcome(f):
    try:
        return f()
    except Exception as e:
        return False, "%s: %s" % (type(e).__name__, e)


def tried(f):
    """a check, and once more where it fails while the host takes more time than it may"""
    for tries_left in (2, 1, 0):
        steal_then, then = machine_time()
        ok, text = outcome(f)
        steal, now = machine_time()
        share = 100 * (steal - steal_then) / max(now - then, 1)
        if ok or share <= O.steal or not tries_left:
            return ok, text
        print("     again  %-29s %.1f %% stolen" % (f.__name__, share), flush=True)


def main():
    global O
    p = argparse.ArgumentParser(description=__doc__, formatter_class=argparse.RawDescriptionHelpFormatter)
    p.add_argument("program", nargs="?", default="crates/partcached/out/partcached")
    p.add_argument("--memcached", action="store_true")
    p.add_argument("--only", default="")
    p.add_argument("--quick", action="store_true")
    p.add_argument("--list", action="store_true")
    p.add_argument("--seconds", type=float, default=2.5, help="how long a quiet tenant is watched")
    p.add_argument("--steal", type=float, default=100, help="per cent of a check's time that the host may take; default: all")
    p.add_argument("--cap", type=float, default=3072, help="MiB at which a server is stopped")
    O = p.parse_args()
    if O.list:
        for f in CHECKS:
            print("%-30s %s" % (f.__name__, f.__doc__))
        return 0
    only = [x for x in O.only.split(",") if x] or (QUICK if O.quick else [f.__name__ for f in CHECKS])
    for n in only:
        if n not in [f.__name__ for f in CHECKS]:
            sys.exit("no check %s" % n)
    passed = failed = 0
    for f in CHECKS:
        if f.__name__ not in only or O.memcached and f.__name__ in ("turns_256", "turns_4096", "hint_collisions"):
            continue
        t = time.time()
        ok, text = tried(f)
        passed, failed = passed + ok, failed + (not ok)
        print("%s %5.1f s  %-29s %s" % ("pass" if ok else "FAIL", time.time() - t, f.__name__, text), flush=True)
    print("%d passed, %d failed" % (passed, failed))
    return 1 if failed else 0


if __name__ == "__main__":
    sys.exit(main())
