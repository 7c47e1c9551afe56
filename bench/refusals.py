#!/usr/bin/env python3
"""Runs partcached where memory and threads are refused, one refusal after the other.

PROGRAM is crates/partcached/out/partcached, as `rt run` leaves it. Each call that takes memory is
refused in a run of its own, by bench/refuse_malloc.c, until a run needs no further one. A line says what
was run and found; the exit status is 1 where something was wrong."""
import argparse
import os
import resource
import signal
import socket
import subprocess
import sys
import tempfile
import time
from pathlib import Path

ROOT = Path(__file__).resolve().parent.parent
NO_MEMORY = b"partcached: out of memory\n"
BEGINNINGS = {
    (0, b"", "listening"): "served",
    (1, b"partcached: settings fault 9\n", "out of memory"): "status 1, settings fault 9",
    (5, NO_MEMORY, ""): "status 5",
    (5, NO_MEMORY, "cannot listen"): "status 5",
    (5, NO_MEMORY, "listening"): "status 5 once it listened",
}
REFUSED = b"SERVER_ERROR out of memory\r\n"
SETTINGS = """listen = "127.0.0.1:{port}"
workers = {workers}
journal = 16
[[user]]
name = "alice"
token = "one"
budget = 10000000
"""


class Wrong(Exception):
    """What a program did that it must not."""


class Refusing:
    """A program under the malloc that refuses."""

    def __init__(self, words, **how):
        self.notes = tempfile.TemporaryFile()
        env = dict(os.environ, LD_PRELOAD=str(REFUSER), REFUSE_NOTES=str(self.notes.fileno()))
        env.update({f"REFUSE_{name.upper()}": str(value) for name, value in how.items()})
        self.process = subprocess.Popen(words, stdin=subprocess.PIPE, stdout=subprocess.PIPE, stderr=subprocess.PIPE,
                                        env=env, pass_fds=[self.notes.fileno()])

    def noted(self, signs):
        """How many of these bytes the malloc wrote so far."""
        notes = os.pread(self.notes.fileno(), 1 << 20, 0)
        return sum(notes.count(sign) for sign in signs)

    def refusals(self):
        """How many calls were refused so far."""
        return self.noted([b"m", b"t"])

    def end(self, text=b"", seconds=20):
        """What it ends with: its status, and what it wrote."""
        try:
            out, err = self.process.communicate(text, seconds)
        except subprocess.TimeoutExpired:
            raise Wrong("it does not end")
        finally:
            self.process.kill()
        return self.process.returncode, out, err

    def mark(self, sign=signal.SIGUSR1):
        """Has the counting begin or end, and waits until it does."""
        before = self.noted([b"s"])
        self.process.send_signal(sign)
        for _ in range(1_000):
            if self.noted([b"s"]) > before:
                return
            time.sleep(0.005)
        raise Wrong("it takes no signal")

    def seconds(self):
        """The processor time that it used."""
        fields = Path(f"/proc/{self.process.pid}/stat").read_text().rpartition(")")[2].split()
        return (int(fields[11]) + int(fields[12])) / os.sysconf("SC_CLK_TCK")


def each_refusal(begin, judge):
    """Refuses the first call, the second and so on; how many there are, by what `judge` says of each."""
    seen = {}
    for n in range(1, 100_000):
        program = begin(n)
        try:
            what = judge(program)
        except Wrong as wrong:
            raise Wrong(f"refusal {n}: {wrong}")
        finally:
            program.process.kill()
        if program.refusals() == 0:
            return n - 1, seen
        seen[what] = seen.get(what, 0) + 1
    raise Wrong("it takes memory without end")


def say(topic, found):
    count, seen = found
    print(f"{topic}: {count} refusals, " + ", ".join(f"{times} {what}" for what, times in sorted(seen.items())), flush=True)


# partcached run

def scripts():
    crate = ROOT / "crates/partcached"
    yield "the stored run", (crate / "stdin").read_bytes(), (crate / "stdout").read_bytes()
    for path in sorted((ROOT / "examples/rows").glob("*.script")):
        yield path.name, path.read_bytes(), path.with_suffix(".out").read_bytes()


def run():
    """All of a script's output and status 0, or none of it, status 5 and its line."""
    for name, text, right in scripts():
        def judge(program):
            ended = program.end(text)
            if ended == (0, right, b""):
                return "all printed"
            if ended == (5, b"", NO_MEMORY):
                return "status 5"
            raise Wrong(f"{name} ends with {ended}")
        say(name, each_refusal(lambda n: Refusing([PROGRAM, "run", *KIND], at=n), judge))


# partcached serve

class Server(Refusing):
    def __init__(self, workers=1, until=1, audits=False, **how):
        self.settings = tempfile.NamedTemporaryFile("w", suffix=".toml")
        self.settings.write(SETTINGS.format(port=PORT, workers=workers))
        self.settings.flush()
        self.workers = workers
        words = [PROGRAM, "serve", "--config", self.settings.name, "--until", str(until)]
        super().__init__(words + ["--audit"] * audits, **how)

    def ending(self):
        """What it ends with: its status, what standard error has, and what standard output says."""
        status, out, err = self.end()
        several = "" if self.workers == 1 else "s"
        line = f"listening on 127.0.0.1:{PORT}, {self.workers} worker{several}, 1 user\n"
        said = {line: "listening", "out of memory\n": "out of memory",
                f"cannot listen on 127.0.0.1:{PORT}: out of memory\n": "cannot listen"}
        # A refused command has a line in the clock's next second, if the server is still there; several share one.
        left_out = ("audit of ", "out of memory for a command of ", "left out ", "warning: ")
        told = "".join(line for line in out.decode().splitlines(True) if not line.startswith(left_out))
        return status, err, said.get(told, told)


class Client:
    def __init__(self, server, log_in=True):
        for _ in range(500):
            if server.process.poll() is not None:
                raise ConnectionError("the server ended")
            try:
                self.socket = socket.create_connection(("127.0.0.1", PORT), 5)
                break
            except ConnectionRefusedError:
                time.sleep(0.01)
        else:
            raise Wrong("it does not listen")
        self.socket.setsockopt(socket.IPPROTO_TCP, socket.TCP_NODELAY, 1)
        if log_in and self.ask(b"set a 0 0 9\r\nalice one\r\n", b"STORED\r\n") != b"STORED\r\n":
            raise Wrong("no login")

    def ask(self, request, wanted):
        """As many bytes as are wanted, or a refusal, or nothing where the connection is closed."""
        try:
            self.socket.sendall(request)
            got = b""
            while got != wanted and got != REFUSED:
                more = self.socket.recv(len(wanted) - len(got) if wanted.startswith(got) else 4096)
                if not more:
                    return b""
                got += more
                if not wanted.startswith(got) and not REFUSED.startswith(got):
                    raise Wrong(f"{request!r} is answered {got!r}")
            return got
        except (ConnectionResetError, BrokenPipeError):
            return b""
        except TimeoutError:
            raise Wrong(f"{request!r} is not answered")

    def seconds_to_end(self):
        """How long the connection stays open."""
        began = time.time()
        try:
            while self.socket.recv(4096):
                pass
        except ConnectionResetError:
            pass
        except TimeoutError:
            raise Wrong("the connection stays")
        return time.time() - began

    def close(self):
        self.socket.close()


def connect_once(server):
    """Opens a connection and closes it, unless the server ends before."""
    try:
        Client(server, log_in=False).close()
    except ConnectionError:
        pass


def is_ended(server, may_be_refused=False):
    """A server that served ends with status 0; or with 5, where memory was refused to its end alone."""
    ended = server.ending()
    if ended != (0, b"", "listening") and not (may_be_refused and ended == (5, NO_MEMORY, "listening")):
        raise Wrong(f"it ends with {ended}")


def start():
    """A server that begins, or the status of refused memory, of the settings or else, and its line."""
    def judge(server):
        connect_once(server)
        ended = server.ending()
        if ended not in BEGINNINGS:
            raise Wrong(f"it ends with {ended}")
        return BEGINNINGS[ended]
    say("serve, from its start to a client that says nothing", each_refusal(lambda n: Server(at=n), judge))


def requests():
    """Requests, with what each is answered by what is held, and what it leaves."""
    for i in range(24):
        data = b"%d" % i * (1 + i * 7 % 40)
        yield b"set k 5 0 %d\r\n%s\r\n" % (len(data), data), lambda held: b"STORED\r\n", lambda held, data=data: (data, held[1] + 1)
        yield b"gets k\r\n", shown, lambda held: held
        yield b"append k 0 0 1\r\n!\r\n", lambda held: b"STORED\r\n" if held[0] is not None else b"NOT_STORED\r\n", appended
        yield b"gets k\r\n", shown, lambda held: held


def appended(held):
    data, last = held
    return held if data is None else (data + b"!", last + 1)


def shown(held):
    data, last = held
    return b"END\r\n" if data is None else b"VALUE k 5 %d %d\r\n%s\r\nEND\r\n" % (len(data), last, data)


def serve():
    """A session of sets, appends and gets on pages of 16 entries: each reply is right by what the
    earlier ones left, or out of memory, after which all is as before; or the connection is closed."""
    def judge(server):
        client = Client(server)
        server.mark()
        held, what = (None, 0), "answered"
        for request, reply, left in requests():
            answer = client.ask(request, reply(held))
            if answer == b"":
                what = "closed"
                break
            if answer == REFUSED:
                what = "answered out of memory"
            else:
                held = left(held)
        client.close()
        is_ended(server, may_be_refused=what == "answered")
        return what
    say("a session of 96 requests", each_refusal(lambda n: Server(at=n, mark=1), judge))


def turning():
    """Requests for a key of 42 bytes, with what each is answered and leaves after a `set` of `one`."""
    key = b"k" * 42
    value = b"VALUE %s 0 3 1\r\none\r\nEND\r\n" % key
    yield "set", b"set %s 0 0 3\r\ntwo\r\n" % key, b"STORED\r\n", (b"two", 2)
    yield "append", b"append %s 0 0 1\r\n!\r\n" % key, b"STORED\r\n", (b"one!", 2)
    yield "gets", b"gets %s\r\n" % key, value, (b"one", 1)


def turn():
    """One call on a full page of 16 entries of a server that keeps a journal, which turns it: answered and done; or answered out of
    memory, or not read and its connection closed, and undone, the turn too: another connection is then
    shown the data and the cas number from before."""
    key = b"k" * 42
    for name, request, reply, left in turning():
        def judge(server):
            client, other = Client(server), Client(server)
            client.ask(b"set %s 0 0 3\r\none\r\n" % key, b"STORED\r\n")
            for _ in range(15):
                serves(client)
            server.mark()
            answer = client.ask(request, reply)
            server.mark(signal.SIGUSR2)
            data, last = left if answer == reply else (b"one", 1)
            shown = b"VALUE %s 0 %d %d\r\n%s\r\nEND\r\n" % (key, len(data), last, data)
            for _ in range(4):
                said = other.ask(b"gets %s\r\n" % key, shown)
                if said != shown:
                    raise Wrong(f"after {answer!r} the next call is answered {said!r}")
            client.close()
            other.close()
            is_ended(server)
            return {reply: "answered", REFUSED: "answered out of memory", b"": "closed"}[answer]
        say(f"a `{name}` that turns a page", each_refusal(lambda n: Server(until=2, audits=True, at=n, mark=1), judge))


def request():
    """A request for which there is no memory is tried once more, and then answered; its connection goes on,
    and others are served all the while."""
    server = Server(until=2, **{"from": 1}, over=60_000, mark=1)
    slow, other = Client(server), Client(server)
    # All but the last byte is there before memory is scarce: what can't be kept drops a connection at once.
    large = b"set k 0 0 100000\r\n" + b"x" * 100_000 + b"\r"
    slow.socket.sendall(large)
    time.sleep(0.1)
    used = server.seconds()
    server.mark()
    began = time.monotonic()
    if slow.ask(b"\n", b"STORED\r\n") != REFUSED:
        raise Wrong("a request without memory is not answered so")
    waited = time.monotonic() - began
    serves(slow)
    serves(other)
    used = server.seconds() - used
    server.mark(signal.SIGUSR2)
    refusals = server.refusals()
    if slow.ask(large + b"\n", b"STORED\r\n") != b"STORED\r\n":
        raise Wrong("a connection does not go on")
    slow.close()
    other.close()
    is_ended(server)
    if waited > 0.5 or refusals != 2:
        raise Wrong(f"answered after {waited:.2f} s and {refusals} refusals")
    print(f"a request without memory: answered so after {waited:.3f} s and {refusals} refusals, "
          f"with {used:.2f} s of a processor; its connection goes on", flush=True)


def serves(client):
    if client.ask(b"get none\r\n", b"END\r\n") != b"END\r\n":
        raise Wrong("another connection is not served")


def add():
    """A connection for which there is no room is closed, and others are served."""
    server = Server(until=19, **{"from": 1}, mark=1)
    clients = [Client(server) for _ in range(16)]
    server.mark()
    late = Client(server, log_in=False)
    late.socket.settimeout(2)
    open_for = late.seconds_to_end()
    refusals = server.refusals()
    server.mark(signal.SIGUSR2)
    clients += [Client(server), Client(server)]
    for client in clients:
        serves(client)
        client.close()
    is_ended(server)
    print(f"a 17th connection without memory: closed after {open_for:.2f} s, {refusals} refusals; "
          "the 16 before and two after it were served", flush=True)


def threads():
    """A refused start of a thread ends the server with status 5 and its line."""
    def judge(server):
        connect_once(server)
        ended = server.ending()
        if ended not in BEGINNINGS or server.refusals() and ended[0] != 5:
            raise Wrong(f"it ends with {ended}")
        return BEGINNINGS[ended]
    say("threads of a server of 4 workers", each_refusal(lambda n: Server(workers=4, thread=n), judge))


def main():
    global PROGRAM, REFUSER, KIND, PORT
    parts = {it.__name__: it for it in (run, start, serve, turn, request, add, threads)}
    words = argparse.ArgumentParser(description=__doc__, formatter_class=argparse.RawDescriptionHelpFormatter)
    words.add_argument("program")
    words.add_argument("parts", nargs="*", choices=[*parts, []], metavar="|".join(parts), help="default: all of them")
    words.add_argument("--reference", action="store_true", help="scripts are run over the plain cache")
    words.add_argument("--port", type=int, default=21411)
    asked = words.parse_args()
    PROGRAM, PORT, KIND = str(Path(asked.program).resolve()), asked.port, ["--reference"] * asked.reference
    resource.setrlimit(resource.RLIMIT_CORE, (0, 0))
    with tempfile.TemporaryDirectory() as room:
        REFUSER = Path(room) / "refuse_malloc.so"
        subprocess.run(["cc", "-O2", "-shared", "-fPIC", "-o", REFUSER, ROOT / "bench/refuse_malloc.c"], check=True)
        for word in asked.parts or parts:
            try:
                parts[word]()
            except Wrong as wrong:
                sys.exit(f"{word}: {wrong}")


if __name__ == "__main__":
    main()
