#!/usr/bin/env python3
"""What `PROGRAM run` prints of scripts, over both kinds of cache.

usage: bench/scripts.py PROGRAM

It runs examples/scripts.rows and examples/sessions.rows; lines that are refused; the rows that may be cut, and
those of examples/rows, with each piece cut in two at each byte, and byte by byte; those of examples/rows with
maintenance behind each act; a user alone and beside another; streams that are drawn from a fixed seed, whole
and cut in two; and streams that fail. What is expected is by hand from docs/PROTOCOL.md. It prints a line for
each case, and ends with status 1 where one went wrong."""
import argparse
import os
import re
import resource
import signal
import socket
import subprocess
import sys
import tempfile
from concurrent.futures import ThreadPoolExecutor
from pathlib import Path

EXAMPLES = Path(__file__).resolve().parent.parent / "examples"
KINDS = ((), ("--reference",))
TOKEN = re.compile(rb"\\x[0-9a-fA-F]{2}|\\.|[^\\]", re.S)
# of a `fill` so many first bytes are cut, and so many cuts are made in one script
CUT, CUTS_AT_ONCE = 300, 50

# lines behind a user's, of which the last is refused; what follows them would be refused too
USER = b"# A user.\nuser alice one 65536\n"
REFUSED = (
    # not of their form
    "opens 1", "open", "open 1 2", "open  1", "open 1\r", "tick 00000000000001", "open 4294967296",
    "tick 1099511627776", "act 1 0", "act 1 1000001",
    # another backslash, no byte, or too many
    "piece 1 ", "piece 1 a\\t", "piece 1 a\\X41", "piece 1 a\\x4", "piece 1 a\\", "fill 1 0 41", "fill 1 2097153 41",
    "fill 1 1 041",
    # users with a fault
    "user alice two 65536", "user bob two 65535", "user b/b two 65536", "second 1 one", "second 2 two", "second 1 t t",
    "largest 1 0", "largest 1 1048577", "largest 2 5",
    # users behind a step, and what may stand once
    "open 1\nuser bob two 65536", "keep 1 0\nsecond 1 uno", "tick 0\nlargest 1 9", "second 1 uno\nsecond 1 eins",
    "largest 1 1048576\nlargest 1 9",
)

# The first does not do all that is there before it goes on; the other is cut as "a line too long closes".
NOT_CUT = ("steps that reach nothing do nothing", "a line of 65536 bytes waits and one of 65537 closes")
MAINTENANCE = (b"keep 1 0\n", b"keep 1 1\n", b"keep 1 7\n", b"keep 1 200\n")

# Two users with equal keys, and whose line it is. Alice's main has room for two of the items of 30,000 bytes;
# m, which was asked for, enters over k, x is heavier than main, and the flush takes all.
BESIDE = r"""
alice user alice one 65536
bob   user bob two 65536
alice open 1
bob   open 2
bob   piece 2 set a 0 0 7\r\nbob two\r\n
bob   act 2
alice piece 1 set a 0 0 9\r\nalice one\r\n
alice act 1
bob   piece 2 set k 0 0 1\r\nb\r\nset n 0 0 1\r\n5\r\n
bob   act 2 2
alice piece 1 get m\r\nget m\r\nset k 0 0 30000\r\n
alice fill 1 30000 78
alice piece 1 \r\nset l 0 0 30000\r\n
alice fill 1 30000 78
alice piece 1 \r\n
alice act 1 4
clock tick 5
bob   piece 2 gets k\r\nset m 0 9 1\r\nm\r\n
bob   act 2
alice piece 1 set m 0 0 30000\r\n
alice fill 1 30000 78
alice piece 1 \r\ntouch k 0\r\ntouch m 0\r\nset x 0 0 64817\r\n
alice fill 1 64817 78
alice piece 1 \r\n
alice act 1 4
bob   act 2
clock tick 9
bob   piece 2 incr n 2\r\nget k m\r\n
bob   act 2
alice piece 1 flush_all\r\ntouch m 0\r\n
alice act 1 2
bob   piece 2 stats\r\n
bob   act 2 2
"""
ALICE_IS_SENT = (rb"conn 1 open =STORED\r\nEND\r\nEND\r\nSTORED\r\nSTORED\r\nSTORED\r\nNOT_FOUND\r\nTOUCHED\r\n"
                 rb"SERVER_ERROR object too large for cache\r\nOK\r\nNOT_FOUND\r\n") + b"\n"

# whole lines and blocks, and fragments of them, of which streams are drawn, so many parts each
ALPHABET = [text.encode() for text in (
    "get k\r\n", "gets k m\r\n", "get m\r\n", "set k 0 0 1\r\nx\r\n", "set k 7 0 2 noreply\r\n12\r\n",
    "set m 0 -1 1\r\ny\r\n", "set m 0 5 3\r\n\r\n9\r\n", "add k 0 0 1\r\n5\r\n", "replace m 0 0 0\r\n\r\n",
    "append k 0 0 2\r\n34\r\n", "prepend m 0 0 1\r\n1\r\n", "cas k 0 0 1 1\r\nc\r\n",
    "cas m 0 0 1 2 noreply\r\nd\r\n", "incr k 7\r\n", "decr m 1 noreply\r\n", "touch k -1\r\n", "gat 0 k m\r\n",
    "gats 9 m\r\n", "delete k\r\n", "delete m noreply\r\n", "flush_all\r\n",
    "flush_all 3 noreply\r\n", "stats\r\n", "version\r\n", "verbosity 1\r\n",
    "quit\r\n", "set k 0 0 1048577\r\n", "set k 0 0 9\r\n", "set m 4294967296 0 2\r\n", "set ", "get ", "k", " ",
    " 0 0 1", " noreply", "\r", "\n", "\r\n", "x", "18446744073709551615")]
STREAMS, PARTS, AT_ONCE = 10_000, 8, 250


def run(script, kind):
    """What a script ends with: the status, and what is printed."""
    ran = subprocess.run([PROGRAM, "run", *kind], input=script, capture_output=True, timeout=120)
    return ran.returncode, ran.stdout, ran.stderr


def difference(ended, wanted):
    """The first line by which a run ended otherwise than it should."""
    (status, out, err), (_, right, _) = ended, wanted
    lines, rights = out.split(b"\n"), right.split(b"\n")
    at = next((at for at, (line, good) in enumerate(zip(lines, rights)) if line != good), min(len(lines), len(rights)))
    return f"status {status}, {err}, {lines[at:at + 1]} for {rights[at:at + 1]}"


def fault(script, wanted):
    """None, or how a script ends in place of what is wanted, over one kind of cache or the other."""
    for kind in KINDS:
        if (ended := run(script, kind)) != wanted:
            return " ".join([*kind, difference(ended, wanted)])
    return None


def first_fault(scripts, wanted):
    """The first fault of scripts that should all end so, with its script."""
    with ThreadPoolExecutor(os.cpu_count()) as pool:
        scripts = list(scripts)
        for script, said in zip(scripts, pool.map(lambda it: fault(it, wanted), scripts)):
            if said:
                pool.shutdown(cancel_futures=True)
                return f"{said} of {script[:1000]}"
    return None


def printing(output):
    return 0, output, b""


def read_rows():
    """The names, scripts and outputs of examples/scripts.rows."""
    for row in re.split(rb"^== ", (EXAMPLES / "scripts.rows").read_bytes(), flags=re.M)[1:]:
        name, _, text = row.partition(b"\n")
        script, _, output = re.sub(rb"\n\n\Z", b"\n", text).partition(b"--\n")
        yield name.decode(), script, output.lstrip(b"\n")


def worked_rows():
    """The same of examples/rows."""
    for path in sorted((EXAMPLES / "rows").glob("*.script")):
        yield path.stem, path.read_bytes(), path.with_suffix(".out").read_bytes()


def rows():
    for name, script, output in read_rows():
        yield f"row: {name}", fault(script, printing(output)) or fault(script.removesuffix(b"\n"), printing(output))


# sessions

WHO = r"piece 1 get who\r\n"
SHOWN = {"alice": r"VALUE who 0 5\r\nalice\r\nEND\r\n", "bob": r"VALUE who 0 3\r\nbob\r\nEND\r\n",
         "nobody": r"CLIENT_ERROR unauthenticated\r\n", "nothing": r"END\r\n", "block": ""}
SESSION = r"""user alice one 65536
user bob two 65536
second 2 zwei
open 8
piece 8 set a 0 0 9 noreply\r\nalice one\r\nset who 0 0 5 noreply\r\nalice\r\nquit\r\n
act 8 3
open 9
piece 9 set a 0 0 7 noreply\r\nbob two\r\nset who 0 0 3 noreply\r\nbob\r\nquit\r\n
act 9 3
open 1
"""
LOGIN = r"piece 1 set auth 0 0 9 noreply\r\nalice one\r\n"


def sessions():
    for line in (EXAMPLES / "sessions.rows").read_text().splitlines():
        if not line or line.startswith("#"):
            continue
        whose, said, answer, then = (cell.strip() for cell in line.split("|"))
        login = {"new": "", "alices": f"{LOGIN}\nact 1\n"}[whose]
        script = f"{SESSION}{login}piece 1 {said}\nact 1 9\n{WHO}\nact 1 9\n"
        output = f"conn 1 open ={answer}{SHOWN[then]}\nconn 8 closed =\nconn 9 closed =\n"
        yield f"session: {whose} | {said}", fault(script.encode(), printing(output.encode()))


# refused lines

def refused():
    for lines in REFUSED:
        number = 3 + lines.count("\n")
        script = USER + lines.encode() + b"\nopen\n"
        yield f"refused: {lines!r}", fault(script, (3, b"", b"partcached: script line %d\n" % number))
    for byte in (0x00, 0x20, 0x7f, 0x80, 0xff):
        script = b"user Z_%c two 65536\n" % byte
        yield f"refused: a name with byte {byte}", fault(script, (3, b"", b"partcached: script line 1\n"))
        script = b"user a-.9 !~%c 65536\n" % byte
        yield f"refused: a token with byte {byte}", fault(script, (3, b"", b"partcached: script line 1\n"))


# cuts

def parted(line):
    """The lines that bring the same bytes one by one, and the line that does what is there; nothing for a line
    that brings none."""
    words = line.rstrip(b"\n").split(b" ", 2)
    act = b"act %s 99\n" % words[1] if len(words) > 1 else b""
    if words[0] == b"piece":
        return [b"piece %s %s\n" % (words[1], token) for token in TOKEN.findall(words[2])], act
    if words[0] == b"fill":
        count, byte = words[2].split()
        first = min(int(count) - 1, CUT)
        one, rest = b"fill %s 1 %s\n" % (words[1], byte), b"fill %s %d %s\n" % (words[1], int(count) - first, byte)
        return [one] * first + [rest], act
    return [], act


def joined(parts):
    """One line that brings what these bring."""
    words = [part.rstrip(b"\n").split(b" ", 2) for part in parts]
    if words[0][0] == b"piece":
        return b"piece %s %s\n" % (words[0][1], b"".join(word[2] for word in words))
    counts = [word[2].split() for word in words]
    return b"fill %s %d %s\n" % (words[0][1], sum(int(count) for count, _ in counts), counts[0][1])


def places(script, with_fills):
    """Where a script may be cut: each line that brings bytes, and how many of its parts stand before the cut."""
    for at, line in enumerate(script.splitlines(keepends=True)):
        if with_fills or not line.startswith(b"fill"):
            for place in range(1, len(parted(line)[0])):
                yield at, place


def others_script(script, number):
    """The lines of a script with other users and connections, which are of equal length and in equal order."""
    users = len(re.findall(rb"^user ", script, re.M))
    conns = sorted({int(conn) for conn in re.findall(rb"^open (\d+)$", script, re.M)})
    lines = []
    for line in script.splitlines(keepends=True):
        word, _, rest = line.partition(b" ")
        if word in (b"second", b"largest", b"keep"):
            rest = re.sub(rb"^\d+", lambda it: b"%d" % (int(it[0]) + number * users), rest)
        elif word in (b"open", b"piece", b"fill", b"act", b"shut"):
            rest = re.sub(rb"^\d+", lambda it: b"%d" % (conns.index(int(it[0])) + number * len(conns)), rest)
        if word in (b"user", b"piece"):
            rest = rest.replace(b"alice", b"a%04d" % number).replace(b"bob", b"b%02d" % number)
        lines.append(word + b" " + rest if rest else line)
    return lines


def cut_beside(script, cuts):
    """A script in which each of these cuts of one is made, each with users and connections of its own; all are done
    line by line, since they have one clock."""
    cut = []
    for number, (at, place) in enumerate(cuts):
        lines = others_script(script, number)
        parts, act = parted(lines[at])
        lines[at] = joined(parts[:place]) + act + joined(parts[place:])
        cut.append(lines)
    return b"".join(row[0] if row[0].startswith(b"tick") else b"".join(row) for row in zip(*cut))


def fault_of_cuts(script, output, with_fills):
    """The first fault of a script that is cut in two at each place."""
    cuts, lines = list(places(script, with_fills)), output.splitlines(keepends=True)
    sent = [line.split(b" ", 2)[2] for line in lines]
    for start in range(0, len(cuts), CUTS_AT_ONCE):
        some = cuts[start:start + CUTS_AT_ONCE]
        wanted = b"".join(b"conn %d %s" % (conn, sent[conn % len(sent)]) for conn in range(len(some) * len(sent)))
        if said := first_fault([cut_beside(script, some)], printing(wanted)):
            return said
    return None


def in_bytes(script):
    """The script with all bytes brought one by one."""
    text = b""
    for line in script.splitlines(keepends=True):
        parts, act = parted(line)
        text += b"".join(part + act for part in parts) or line
    return text


def cuts():
    for name, script, output in read_rows():
        if name not in NOT_CUT and script:
            said = fault(in_bytes(script), printing(output)) or fault_of_cuts(script, output, with_fills=True)
            yield f"cut: {name}", said
    for name, script, output in worked_rows():
        yield f"cut: {name}", fault_of_cuts(script, output, with_fills=False)


def maintenance():
    for name, script, output in worked_rows():
        kept = [re.sub(rb"(^act .*\n)", rb"\1" + line, script, flags=re.M) for line in MAINTENANCE]
        yield f"maintenance: {name}", first_fault(kept, printing(output))


# a user beside another

def alone():
    lines = [line.split(None, 1) for line in BESIDE.split("\n") if line]
    both = "".join(f"{line}\n" for _, line in lines).encode()
    own = "".join(f"{line}\n" for whose, line in lines if whose != "alice").encode()
    for kind in KINDS:
        status, sent, _ = run(own, kind)
        said = run(both, kind)
        good = status == 0 and sent.startswith(b"conn 2 open =STORED") and said == printing(ALICE_IS_SENT + sent)
        name = " ".join(["a user is sent what its own lines alone have it sent", *kind])
        yield name, None if good else difference(said, printing(ALICE_IS_SENT + sent))


# drawn streams

class Draws:
    """Numbers that look random (Knuth's MMIX generator)."""

    def __init__(self):
        self.state = 1

    def below(self, end):
        self.state = (self.state * 6364136223846793005 + 1442695040888963407) % 2**64
        return (self.state >> 33) * end >> 31


def drawn(draws):
    """A stream, whole and cut in two."""
    stream = b"".join(ALPHABET[draws.below(len(ALPHABET))] for _ in range(PARTS))
    place = draws.below(len(stream) - 1) + 1
    return [stream], [stream[:place], stream[place:]]


def bringing(streams):
    """A script that brings streams, each to a user of its own."""
    users = b"".join(b"user u%03d one 65536\n" % n for n in range(len(streams)))
    for n, pieces in enumerate(streams):
        users += b"open %d\npiece %d set a 0 0 8\\r\\nu%03d one\\r\\n\nact %d\n" % (n, n, n, n)
        for piece in pieces:
            text = piece.replace(b"\r", b"\\r").replace(b"\n", b"\\n")
            users += b"piece %d %s\nact %d 99\n" % (n, text, n)
    return users


def drawn_streams():
    draws, said, some = Draws(), None, set()
    for _ in range(STREAMS // AT_ONCE):
        whole, cut = zip(*(drawn(draws) for _ in range(AT_ONCE)))
        ended = run(bringing(whole), ())
        some.update(ended[1].split(b"\n"))
        good = ended[0] == 0 and ended[1].count(b"=STORED") == AT_ONCE
        said = said or (None if good else str(ended)[:2000]) or first_fault([bringing(whole), bringing(cut)], ended)
    # they are not all answered alike
    yield "drawn streams are answered alike", said or (None if len(some) > STREAMS / 2 else "few answers")


# streams that fail

def read_for(count):
    """How a short script ends where reading fails behind so many bytes: a socket whose other end is closed with
    a byte unread gives what it has, and then an error."""
    ours, its = socket.socketpair()
    its.sendall(b"x")
    ours.sendall(b"open 1"[:count])
    ours.close()
    ran = subprocess.run([PROGRAM, "run"], stdin=its, capture_output=True, timeout=60)
    its.close()
    return ran.returncode, ran.stdout, ran.stderr


def written_for(count):
    """The same where writing fails behind so many bytes, since the file may not be larger."""
    def limit():
        signal.signal(signal.SIGXFSZ, signal.SIG_IGN)
        resource.setrlimit(resource.RLIMIT_FSIZE, (count, count))
    with tempfile.TemporaryFile() as out:
        ran = subprocess.run([PROGRAM, "run"], input=b"open 1", stdout=out, stderr=subprocess.PIPE, preexec_fn=limit,
                             timeout=60)
        out.seek(0)
        return ran.returncode, out.read(), ran.stderr


def failing():
    failed = b"partcached: stream failed\n"
    wrong = [str(ended) for count in range(7) if (ended := read_for(count)) != (6, b"", failed)]
    yield "a script that cannot be read is not run", wrong[0] if wrong else None
    right = b"conn 1 open =\n"
    wanted = [(6, right[:count], failed) for count in range(14)] + [(0, right, b"")]
    wrong = [str(ended) for count in range(15) if (ended := written_for(count)) != wanted[count]]
    yield "an output that cannot be written ends the run", wrong[0] if wrong else None


def main():
    global PROGRAM
    words = argparse.ArgumentParser(description=__doc__, formatter_class=argparse.RawDescriptionHelpFormatter)
    words.add_argument("program", type=Path)
    PROGRAM = words.parse_args().program.resolve()
    wrong = 0
    for part in (rows, sessions, refused, cuts, maintenance, alone, drawn_streams, failing):
        for name, said in part():
            print(f"{name}: {'as it should' if said is None else f'WRONG: {said}'}", flush=True)
            wrong += said is not None
    sys.exit(wrong > 0)


if __name__ == "__main__":
    main()
