"""What the Python checks share. A check whose client never comes back ends with status 1."""
import atexit
import os
import pathlib
import subprocess
import sys
import time

HERE = pathlib.Path(__file__).parent
sys.path.insert(0, str(HERE.parent))
PORT = 21321
LOST = []


@atexit.register
def fail_where_lost():
    if LOST:
        sys.stdout.flush()
        os._exit(1)


def server(*words):
    subprocess.run([HERE / "server", *words], check=True)


def tries(what, most=12, pause=0.25):
    """Calls what() until it gives True: how often it did not, and what it gave or raised then."""
    seen = []
    for n in range(most):
        try:
            got = what()
        except Exception as fault:
            got = f"{type(fault).__name__}: {fault}"
        if got is True:
            return n, seen
        seen.append(got)
        time.sleep(pause)
    return None, seen


def stores(client, value):
    return lambda: bool(client.set("k", value)) and client.get("k") == value


def recovers(when, client, value):
    count, seen = tries(stores(client, value))
    print(f"{when}: {'never' if count is None else count}", seen, flush=True)
    if count is None:
        LOST.append(when)


def check(name, client, value):
    print("==", name)
    recovers("first", client, value)
    server("bounce")
    recovers("after a restart", client, value)
    server("cut")
    recovers("after a cut", client, value)
