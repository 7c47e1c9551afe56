#!/usr/bin/env python3
"""What `PROGRAM check` says of the settings in examples/settings.rows and of sizes of items, and `check` and
`serve` of addresses, of the settings' file and of descriptors.

usage: bench/settings.py PROGRAM

Of settings with a fault `check` prints that fault's words and nothing else, names the fault's number on standard error
and ends with status 1; of good ones it prints the row's lines among others, and ends with status 0. What else is
expected is by hand from docs/OPERATING.md. It prints a line for each row and each case, and ends with status 1 where
one went wrong."""
import argparse
import os
import re
import resource
import socket
import subprocess
import sys
import tempfile
from pathlib import Path

ROWS = Path(__file__).resolve().parent.parent / "examples/settings.rows"
NAMED = re.compile(r"^(@\w+)\n", re.M)


def rows():
    """The names of the rows, their settings, the number of their fault, and what is said of them."""
    texts = {}
    for row in re.split(r"^== ", ROWS.read_text(), flags=re.M)[1:]:
        name, _, text = row.partition("\n")
        text = re.sub(r"\n\n\Z", "\n", text)
        if name.startswith("@"):
            texts[name] = text
            continue
        settings, number, line = re.fullmatch(r"(.*?)^-- (\d+)\n(.*)", text, re.M | re.S).groups()
        yield name, NAMED.sub(lambda it: texts[it[1]], settings), int(number), line


def fault(program, settings, number, line):
    """None, or what is said in place of what should be."""
    with tempfile.NamedTemporaryFile("w", suffix=".toml") as file:
        file.write(settings)
        file.flush()
        ran = subprocess.run([program, "check", "--config", file.name], capture_output=True, text=True, timeout=60)
    if number == 0:
        said = ran.stdout.splitlines(True)
        is_good = (ran.returncode, ran.stderr) == (0, "") and all(it in said for it in line.splitlines(True))
    else:
        is_good = (ran.returncode, ran.stderr) == (1, f"partcached: settings fault {number}\n")
        # where no line is given, and of what the reader of TOML says, more may stand there
        is_good &= ran.stdout == line or ran.stdout.startswith(line) and (number == 1 or not line)
    return None if is_good else f"status {ran.returncode}, {ran.stdout!r}, {ran.stderr!r}"


USER = '[[user]]\nname = "alice"\ntoken = "{token}"\nbudget = 65536\nconnections = 8\n'
CANNOT = "partcached: cannot listen\n"
# 192.0.2.1 is nobody's (RFC 5737)
ADDRESSES = (
    ("an address that is none", "a", None, "cannot listen on a: it is no address and port\n"),
    ("an address of another machine", "192.0.2.1:11211", None,
     "cannot listen on 192.0.2.1:11211: Cannot assign requested address (os error 99)\n"),
    ("metrics at an address that is none", "127.0.0.1:{port}", "localhost:9150",
     "cannot tell metrics on localhost:9150: it is no address and port\n"),
    ("metrics at another machine's address", "127.0.0.1:{port}", "192.0.2.1:9150",
     "cannot tell metrics on 192.0.2.1:9150: Cannot assign requested address (os error 99)\n"))


def free_port():
    with socket.create_server(("127.0.0.1", 0)) as it:
        return it.getsockname()[1]


class File:
    """Settings of one user in a file of this mode."""

    def __init__(self, listen, metrics=None, token="one", mode=0o600):
        self.file = tempfile.NamedTemporaryFile("w", suffix=".toml")
        table = f'metrics = {{ listen = "{metrics}" }}\n' if metrics else ""
        limits = "unbound_connections = 4\n"
        self.file.write(f'listen = "{listen}"\nworkers = 2\n{limits}{table}{USER.format(token=token)}')
        self.file.flush()
        os.chmod(self.file.name, mode)
        self.name = self.file.name


def ends(program, word, name):
    """The status, output and error of a `check` or a `serve` that ends."""
    ran = subprocess.run([program, word, "--config", name], capture_output=True, text=True, timeout=60)
    return ran.returncode, ran.stdout, ran.stderr


def first_lines(program, name, descriptors=4096):
    """What a server says up to the line that it listens."""
    def limit():
        resource.setrlimit(resource.RLIMIT_NOFILE, (descriptors, descriptors))
    server = subprocess.Popen([program, "serve", "--config", name], stdout=subprocess.PIPE, text=True, preexec_fn=limit)
    try:
        lines = []
        while line := server.stdout.readline():
            lines.append(line)
            if line.startswith("listening on "):
                break
        return lines
    finally:
        server.kill()
        server.communicate()


def addresses(program):
    """`check` ends as `serve` does, with its words, where no server can listen."""
    for case, listen, metrics, line in ADDRESSES:
        file = File(listen.format(port=free_port()), metrics)
        said = {ends(program, word, file.name) for word in ("check", "serve")}
        yield case, None if said == {(4, line, CANNOT)} else repr(said)


def beside_a_server(program):
    """An address that another holds is good: it may be the server's that runs on these settings."""
    with socket.create_server(("127.0.0.1", 0)) as it:
        file = File(f"127.0.0.1:{it.getsockname()[1]}")
        status, said, wrong = ends(program, "check", file.name)
    return None if (status, wrong) == (0, "") and said.startswith("the settings are good: ") else said + wrong


def warnings(program):
    """Of a file that others can read, and of a token of the example, both words warn; of descriptors `serve` alone. 12
    connections, 2 polls of 2 descriptors and 32 others come to 48."""
    port = free_port()
    listens = f"listening on 127.0.0.1:{port}, 2 workers, 1 user\n"
    token = "warning: alice has a token of the example, which anyone can read\n"
    for mode, name, others, most in ((0o600, "one", False, 48), (0o640, "change-me-1", False, 48), (0o604, "one", True, 47),
                                     (0o644, "change-me-1", True, 47)):
        file = File(f"127.0.0.1:{port}", token=name, mode=mode)
        wanted = [f"warning: others can read the settings, and the tokens in them: their file's mode is {mode:o}\n"] * others
        wanted += [token] * (name != "one")
        _, said, _ = ends(program, "check", file.name)
        checked = [line for line in said.splitlines(True) if line.startswith("warning: ")]
        short = "warning: 47 descriptors, 48 wanted: without one a connection waits until another closes\n"
        served = first_lines(program, file.name, most)
        good = checked == wanted and served == wanted + [short] * (most == 47) + [listens]
        yield f"warnings, mode {mode:o} and the token {name}", None if good else repr((checked, served))


SIZES = (
    (["--key", "0"], "error: invalid value '0' for '--key <BYTES>': 0 is not in 1..=250\n"),
    (["--key", "251"], "error: invalid value '251' for '--key <BYTES>': 251 is not in 1..=250\n"),
    (["--data", "1048577"], "error: invalid value '1048577' for '--data <BYTES>': 1048577 is not in 0..=1048576\n"),
    (["--data", "many"], "error: invalid value 'many' for '--data <BYTES>': invalid digit found in string\n"),
    (["--key", "250", "--data", "0"], "items of 250 bytes of key and 0 of data\n"),
    (["--key", "1", "--data", "1048576"], "items of 1 bytes of key and 1048576 of data\n"),
    ([], "items of 32 bytes of key and 100 of data\n"))


def sizes(program):
    """A size out of range is refused with the command line; the others are the table's."""
    file = File("127.0.0.1:11211")
    for more, line in SIZES:
        ran = subprocess.run([program, "check", "--config", file.name, *more], capture_output=True, text=True, timeout=60)
        refused = line.startswith("error")
        good = ran.returncode == 2 and not ran.stdout and ran.stderr.startswith(line) if refused else \
            ran.returncode == 0 and not ran.stderr and line in ran.stdout
        yield " ".join(["check", *more]), None if good else f"status {ran.returncode}, {ran.stdout!r}, {ran.stderr!r}"


def main():
    words = argparse.ArgumentParser(description=__doc__, formatter_class=argparse.RawDescriptionHelpFormatter)
    words.add_argument("program", type=Path)
    program = words.parse_args().program.resolve()
    wrong = 0
    cases = [(name, fault(program, settings, number, line)) for name, settings, number, line in rows()]
    cases += [*addresses(program), ("an address in use", beside_a_server(program)), *warnings(program), *sizes(program)]
    for name, said in cases:
        print(f"{name}: {'as it should' if said is None else f'WRONG: {said}'}", flush=True)
        wrong += said is not None
    sys.exit(wrong > 0)


if __name__ == "__main__":
    main()
