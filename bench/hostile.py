#!/usr/bin/env python3
"""What hostile clients can do to a server: nothing, but to themselves.

usage: bench/hostile.py PROGRAM [--port N]

It starts `PROGRAM serve` with two users, lets clients misbehave, and after each case sees that
another client is still answered at once. It prints a line for each case, and ends with status 1
where one went wrong."""
import argparse
import os
import re
import resource
import socket
import struct
import subprocess
import sys
import tempfile
import time
from pathlib import Path
from threading import Thread

LOGIN = b"set login 0 0 9\r\nalice one\r\n"
MIB = 1024 * 1024
# a MiB in which no two bytes that stand near one another are the same
BIG = (bytes(range(251)) * (MIB // 251 + 1))[:MIB]
# twenty replies to a `get` of `big`, which holds it
TWENTY = (b"VALUE big 0 1048576\r\n" + BIG + b"\r\nEND\r\n") * 20


class Server:
    """A server with these limits on connections, and these on alice's, that listens on an address, a second user of
    this name, these words behind its settings, and so many descriptors."""

    def __init__(self, program, port, limits="", alices="", address="127.0.0.1", other="bob", words=(), descriptors=None):
        self.program, self.port = program, port
        self.file = tempfile.NamedTemporaryFile("w", suffix=".toml")
        self.file.write(f'listen = "{address}:{port}"\nworkers = 2\njournal = 4096\n{limits}'
                        f'[[user]]\nname = "alice"\ntoken = "one"\nbudget = 67108864\n{alices}'
                        f'[[user]]\nname = "{other}"\ntoken = "two"\nbudget = 1048576\n')
        self.file.flush()
        self.said = tempfile.NamedTemporaryFile()
        limit = None if descriptors is None else lambda: resource.setrlimit(resource.RLIMIT_NOFILE, (descriptors,) * 2)
        self.process = subprocess.Popen([program, "serve", "--config", self.file.name, *words], stdout=self.said,
                                        preexec_fn=limit)
        self.listens()

    def listens(self):
        """Waits until it does."""
        for _ in range(100):
            if "listening on " in Path(self.said.name).read_text():
                return
            time.sleep(0.05)

    def end(self):
        self.process.kill()
        self.process.wait()

    def lines(self):
        return Path(self.said.name).read_text().splitlines()

    def says(self, line):
        """Whether it comes to print this line, in five seconds."""
        return self.comes_to(lambda: line in self.lines())

    def counts(self, number):
        """Whether the connections of alice's that it told were too many come to this number, in five seconds."""
        count = re.compile("alice has as many connections as it may: closed ([0-9]+) more").fullmatch
        return self.comes_to(lambda: sum(int(told[1]) for told in map(count, self.lines()) if told) == number)

    def comes_to(self, holds):
        """Whether this comes to hold, in five seconds."""
        for _ in range(100):
            if holds():
                return True
            time.sleep(0.05)
        return False

    def connect(self, login=None, buffer=None):
        link = socket.socket()
        if buffer:
            link.setsockopt(socket.SOL_SOCKET, socket.SO_RCVBUF, buffer)
        link.settimeout(20)
        link.connect(("127.0.0.1", self.port))
        if login:
            link.sendall(login)
            assert read(link, 8) == b"STORED\r\n"
        return link

    def counted(self):
        """A connection of alice's that counts as hers: a login may be answered before it does, and what follows is not."""
        link = self.connect(LOGIN)
        link.sendall(b"get k\r\n")
        assert read(link, 5) == b"END\r\n"
        return link

    def descriptors(self):
        return len(os.listdir(f"/proc/{self.process.pid}/fd"))

    def settled(self, most):
        """Whether the server comes down to so many descriptors, in half a minute: a busy machine takes seconds."""
        for _ in range(600):
            if self.descriptors() <= most:
                return True
            time.sleep(0.05)
        return False

    def resident(self):
        with open(f"/proc/{self.process.pid}/status") as lines:
            return next(int(line.split()[1]) for line in lines if line.startswith("VmRSS")) // 1024


def read(link, count):
    data = bytearray()
    while len(data) < count and (piece := link.recv(count - len(data))):
        data += piece
    return bytes(data)


def read_all(link):
    """All that comes until the server closes. Where it closes with bytes unread, Linux sends a reset for the end; what
    was sent before is read all the same."""
    data = bytearray()
    try:
        while piece := link.recv(MIB):
            data += piece
    except ConnectionResetError:
        pass
    return bytes(data)


def is_closed(link):
    """Whether the server closes a connection, without a byte, within a second."""
    link.settimeout(1)
    try:
        return link.recv(1) == b""
    except ConnectionResetError:
        return True
    except TimeoutError:
        return False


def reset(link):
    """Closes a connection by a reset."""
    link.setsockopt(socket.SOL_SOCKET, socket.SO_LINGER, struct.pack("ii", 1, 0))
    link.close()


def byte_by_byte(server):
    link = server.connect()
    link.setsockopt(socket.IPPROTO_TCP, socket.TCP_NODELAY, 1)
    for byte in LOGIN + b"set k 5 0 3\r\nabc\r\nget k\r\n":
        link.sendall(bytes([byte]))
    wanted = b"STORED\r\nSTORED\r\nVALUE k 5 3\r\nabc\r\nEND\r\n"
    return read(link, len(wanted)) == wanted


def half_a_line(server):
    links = [server.connect(LOGIN) for _ in range(100)]
    for link in links:
        link.sendall(b"get k")
        link.close()
    return True


def half_a_block(server):
    link = server.connect(LOGIN)
    link.sendall(b"set half 0 0 1000\r\n" + b"x" * 500)
    link.close()
    time.sleep(0.1)
    other = server.connect(LOGIN)
    other.sendall(b"get half\r\n")
    return read(other, 5) == b"END\r\n"


def garbage(server):
    link = server.connect()
    link.sendall(bytes(range(256)) * 200 + b"\r\nquit\r\n")
    return read_all(link).endswith(b"\r\n")


def a_line_without_end(server):
    link = server.connect(LOGIN)
    link.sendall(b"x" * 70_000)
    return read_all(link).startswith(b"CLIENT_ERROR line too long\r\n")


def a_huge_block(server):
    link = server.connect(LOGIN)
    link.sendall(b"set big 0 0 2147483647\r\n" + b"x" * MIB)
    return read(link, 41) == b"SERVER_ERROR object too large for cache\r\n"


def closes_its_half(server):
    link = server.connect(LOGIN)
    link.sendall(b"set big 0 0 1048576\r\n" + BIG + b"\r\n" + b"get big\r\n" * 20)
    link.shutdown(socket.SHUT_WR)
    return read_all(link) == b"STORED\r\n" + TWENTY


def never_reads(server):
    before = server.resident()
    links = [server.connect(LOGIN) for _ in range(20)]
    for link in links:
        link.setblocking(False)
        try:
            for _ in range(200):
                link.send(b"get big\r\n" * 100)
        except BlockingIOError:
            pass
    time.sleep(1)
    grown = server.resident() - before
    for link in links:
        reset(link)
    return grown < 20 * 6


def reads_slowly(server):
    """Of two clients that have 20 MiB to read, the one that reads on is served, and the one that reads nothing is closed."""
    limited = Server(server.program, server.port + 1, "stalled_seconds = 4\n")
    try:
        slow, silent = (limited.connect(LOGIN, buffer=4096) for _ in range(2))
        slow.sendall(b"set big 0 0 1048576\r\n" + BIG + b"\r\n")
        assert read(slow, 8) == b"STORED\r\n"
        for link in (slow, silent):
            link.sendall(b"get big\r\n" * 20)
        came, end = b"", time.time() + 9
        while time.time() < end:
            came += slow.recv(8000)
            time.sleep(0.1)
        number = silent.getsockname()[1]
        came += read(slow, len(TWENTY) - len(came))
        front = read_all(silent)
        return (came == TWENTY and front != TWENTY and TWENTY.startswith(front) and limited.says(
            f"127.0.0.1:{number} of alice read nothing of its replies for `stalled_seconds`: closed"))
    finally:
        limited.end()


def stays_too_long(server):
    """One that does not log in, one that asks for nothing and one that is too many are closed, and an operator told."""
    limited = Server(server.program, server.port + 1, "login_seconds = 1\n", "connections = 1\nidle_seconds = 4\n")
    try:
        stranger, alice = limited.connect(), limited.counted()
        another = limited.connect()
        another.sendall(LOGIN)
        if read_all(another) not in (b"", b"STORED\r\n") or read_all(stranger) + read_all(alice):
            return False
        numbers = [link.getsockname()[1] for link in (stranger, alice)]
        return (limited.says("alice has as many connections as it may: closed 1 more")
                and limited.says(f"127.0.0.1:{numbers[0]} did not log in within `login_seconds`: closed")
                and limited.says(f"127.0.0.1:{numbers[1]} of alice sent nothing for `idle_seconds`: closed"))
    finally:
        limited.end()


def has_ipv6():
    try:
        socket.create_server(("::", 0), family=socket.AF_INET6).close()
        return True
    except OSError:
        return False


def stays_too_long_on_ipv6(server):
    """A server that listens on IPv6 names a client of IPv4 by its own address, whatever it says of it."""
    if not has_ipv6():
        return True
    limited = Server(server.program, server.port + 1, "login_seconds = 1\n", address="[::]")
    try:
        link = limited.connect()
        peer = f"127.0.0.1:{link.getsockname()[1]}"
        return (is_refused(link, b"alice x") and read_all(link) == b""
                and limited.says(f"refused login from {peer} as alice")
                and limited.says(f"{peer} did not log in within `login_seconds`: closed"))
    finally:
        limited.end()


def too_many_beside_many(server):
    """A user's connections too many are all counted in lines, though twenty strangers are closed in one second."""
    limited = Server(server.program, server.port + 1, "login_seconds = 1\n", "connections = 1\n")
    try:
        alice, strangers = limited.counted(), [limited.connect() for _ in range(20)]
        further, end = 0, time.time() + 3
        while time.time() < end:
            with limited.connect() as another:
                another.sendall(LOGIN)
                if read_all(another) not in (b"", b"STORED\r\n"):
                    return False
            further += 1
            time.sleep(0.05)
        alice.sendall(b"quit\r\n")
        return limited.counts(further) and not any(read_all(link) for link in [alice, *strangers])
    finally:
        limited.end()


def resets(server):
    for _ in range(200):
        link = server.connect(LOGIN)
        link.sendall(b"get big\r\n" * 5)
        reset(link)
    return True


def is_refused(link, guess):
    link.sendall(b"set a 0 0 %d\r\n%s\r\n" % (len(guess), guess))
    return read(link, 37) == b"CLIENT_ERROR authentication failure\r\n"


def guesses_tokens(server):
    """Three guesses of a connection are answered at once, and the fourth after a second or two."""
    for n in range(100):
        with server.connect() as link:
            if not all(is_refused(link, b"alice x%d" % (3 * n + i)) for i in range(3)):
                return False
    with server.connect() as link:
        for _ in range(3):
            is_refused(link, b"alice x")
        began = time.time()
        return is_refused(link, b"alice x") and 1 <= time.time() - began <= 3


def guess_on(server, end, counts):
    """Wrong logins of alice's until then, three a connection."""
    while time.time() < end:
        with server.connect() as link:
            counts.append(sum(is_refused(link, b"alice x") for _ in range(3)))


def guesses_beside_another(server):
    """Of wrong logins of alice's without end few have a line, and the others are counted; bob's three have one each."""
    noted = Server(server.program, server.port + 1)
    try:
        began, counts = time.time(), []
        guessers = [Thread(target=guess_on, args=(noted, began + 3, counts)) for _ in range(4)]
        for guesser in guessers:
            guesser.start()
        time.sleep(1.5)
        with noted.connect() as link:
            three = [f"refused login from 127.0.0.1:{link.getsockname()[1]} as bob"] * 3
            good = all(is_refused(link, b"bob x") for _ in three)
        for guesser in guessers:
            guesser.join()

        def told():
            own = sum(re.fullmatch("refused login from [0-9.:]+ as alice", line) is not None for line in noted.lines())
            left_out = re.compile("left out ([0-9]+) more lines? of alice: refused logins").fullmatch
            return own, sum(int(it[1]) for it in map(left_out, noted.lines()) if it)
        good &= noted.comes_to(lambda: sum(told()) == sum(counts))
        good &= [line for line in noted.lines() if line.endswith("as bob")] == three
        return good and 0 < told()[0] < 50 < sum(counts) and len(noted.lines()) <= 1 + 10 * (time.time() - began + 1)
    finally:
        noted.end()


def has_few_descriptors(server):
    """Of 64 descriptors 3 are streams, 4 the workers' polls, 3 the listeners and a poll, and 4 are kept: 50 clients are
    answered. Others wait, which is told once; the metrics are told all the while."""
    port = server.port + 2
    metrics = f'metrics = {{ listen = "127.0.0.1:{port}" }}\n'
    short = Server(server.program, server.port + 1, metrics, descriptors=64)
    try:
        links = [short.connect() for _ in range(60)]
        for link in links:
            link.settimeout(5)
            link.sendall(LOGIN)
        good = all(read(link, 8) == b"STORED\r\n" for link in links[:50])
        good &= short.says("no descriptor for a further connection beside 50: it waits until one closes")
        with socket.create_connection(("127.0.0.1", port), 5) as scraper:
            scraper.sendall(b"GET /metrics HTTP/1.1\r\n\r\n")
            told = read_all(scraper)
        good &= told.startswith(b"HTTP/1.1 200 OK\r\n") and b"\nprocess_max_fds 64\n" in told
        for link in links[:10]:
            link.close()
        good &= all(read(link, 8) == b"STORED\r\n" for link in links[50:])
        lines = short.lines()
        return (good and sum(line.startswith("no descriptor ") for line in lines) == 1 and lines[0] ==
                "warning: 64 descriptors, 1060 wanted: without one a connection waits until another closes")
    finally:
        short.end()


def another_users_key(server):
    alice, bob = server.connect(LOGIN), server.connect(b"set login 0 0 7\r\nbob two\r\n")
    alice.sendall(b"set mine 0 0 1\r\na\r\n")
    bob.sendall(b"flush_all\r\nget mine\r\nset mine 0 0 1\r\nb\r\n")
    alice.sendall(b"get mine\r\n")
    return (read(bob, 17) == b"OK\r\nEND\r\nSTORED\r\n"
            and read(alice, 32) == b"STORED\r\nVALUE mine 0 1\r\na\r\nEND\r\n")


def three_thousand_connections(server):
    before = server.descriptors()
    for _ in range(30):
        links = [server.connect() for _ in range(100)]
        for link in links:
            link.sendall(LOGIN)
            link.close()
    return server.settled(before)


def one_more_than_most(server):
    before = server.descriptors()
    links = [server.connect() for _ in range(1024 - 1)]
    time.sleep(0.3)
    further = [server.connect() for _ in range(3)]
    closed = [is_closed(link) for link in further]
    for link in links + further:
        link.close()
    return closed == [False, True, True] and server.settled(before)


CASES = [byte_by_byte, half_a_line, half_a_block, garbage, a_line_without_end, a_huge_block, closes_its_half,
         never_reads, reads_slowly, stays_too_long, stays_too_long_on_ipv6, too_many_beside_many, resets,
         guesses_tokens, guesses_beside_another, has_few_descriptors, another_users_key, three_thousand_connections, one_more_than_most]


def is_answered(server):
    """Whether another client is answered within a second."""
    link = server.connect()
    link.settimeout(1)
    try:
        link.sendall(LOGIN + b"get nothing\r\n")
        return read(link, 13) == b"STORED\r\nEND\r\n"
    except OSError:
        return False
    finally:
        link.close()


def main():
    words = argparse.ArgumentParser(description=__doc__.splitlines()[0])
    words.add_argument("program")
    words.add_argument("--port", type=int, default=21500)
    asked = words.parse_args()
    server = Server(asked.program, asked.port)
    wrong = 0
    try:
        for case in CASES:
            try:
                good = case(server) and is_answered(server)
            except OSError as fault:
                good = False
                print(fault, file=sys.stderr)
            print(f"{case.__name__.replace('_', ' ')}: {'as it should' if good else 'WRONG'}", flush=True)
            wrong += not good
        if server.process.poll() is not None:
            print(f"the server ended with status {server.process.returncode}")
            wrong += 1
    finally:
        server.end()
    sys.exit(wrong > 0)


if __name__ == "__main__":
    main()
