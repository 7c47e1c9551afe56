#!/usr/bin/env python3
"""Shows the counters of each user of a running partcached.

usage: watch.py SETTINGS [--http] [--metrics] [--every SECONDS]

It reads the names and tokens from the settings file that the server runs with, logs in as each user
in turn and asks for `stats`. With --http it logs in nowhere, and asks where the settings' [metrics]
has the server tell them. Without --metrics it prints one table; with it the text that a metrics
scraper reads (the Prometheus exposition format). --every asks again and again, on one connection a
user. A user that can't be asked is named on standard error, and the status is then 1.
"""
import argparse
import re
import socket
import sys
import time
import tomllib
import urllib.request

COUNTERS = ["get_hits", "get_misses", "cmd_set", "evictions", "store_too_large"]
GAUGES = ["curr_items", "bytes", "limit_maxbytes"]


class User:
    """One user's connection, made and logged in at the first question."""

    def __init__(self, address, row):
        self.address, self.name, self.token = address, row["name"], row["token"]
        self.replies = None

    def log_in(self):
        connection = socket.create_connection(self.address, timeout=5)
        self.replies = connection.makefile("rwb")
        data = f"{self.name} {self.token}".encode()
        self.say(b"set login 0 0 %d\r\n%s\r\n" % (len(data), data))
        if (answer := self.line()) != "STORED":
            raise OSError(answer)

    def say(self, request):
        self.replies.write(request)
        self.replies.flush()

    def line(self):
        if not (line := self.replies.readline()):
            raise OSError("the server closed the connection")
        return line.decode().rstrip()

    def stats(self):
        if self.replies is None:
            self.log_in()
        self.say(b"stats\r\n")
        rows = {}
        while (line := self.line()) != "END":
            _, name, value = line.split(" ", 2)
            rows[name] = value
        return rows


def told(listen):
    """Each user's counters, as the server's own listener tells them."""
    with urllib.request.urlopen(f"http://{listen}/metrics", timeout=5) as reply:
        text = reply.read().decode()
    users = {}
    for name, user, number in re.findall(r'^partcached_(\w+){user="(.*)"} (\d+)$', text, re.M):
        users.setdefault(user, {})[name.removesuffix("_total")] = number
    return list(users.items())


def share(part, whole):
    return f"{100 * part / whole:.1f} %" if whole else "-"


def table(answers):
    head = ["user", "hits", "misses", "hit rate", "evictions", "items", "bytes", "budget", "full"]
    rows = []
    for name, stats in answers:
        hits, misses, evictions, items, used, budget = (
            int(stats[key]) for key in ("get_hits", "get_misses", "evictions", "curr_items", "bytes", "limit_maxbytes"))
        rows.append([name, hits, misses, share(hits, hits + misses), evictions, items, used, budget, share(used, budget)])
    widths = [max(len(str(row[column])) for row in [head, *rows]) for column in range(len(head))]
    for row in [head, *rows]:
        print("  ".join(str(cell).ljust(width) if column == 0 else str(cell).rjust(width)
                        for column, (cell, width) in enumerate(zip(row, widths))))


def metrics(answers):
    for names, kind, ending in ((COUNTERS, "counter", "_total"), (GAUGES, "gauge", "")):
        for name in names:
            print(f"# TYPE partcached_{name}{ending} {kind}")
            for user, stats in answers:
                print(f'partcached_{name}{ending}{{user="{user}"}} {stats[name]}')


def main():
    words = argparse.ArgumentParser(description=__doc__.splitlines()[0])
    words.add_argument("settings")
    words.add_argument("--http", action="store_true")
    words.add_argument("--metrics", action="store_true")
    words.add_argument("--every", type=float, metavar="SECONDS")
    asked = words.parse_args()
    with open(asked.settings, "rb") as file:
        settings = tomllib.load(file)
    if asked.http and "metrics" not in settings:
        sys.exit(f"{asked.settings}: no [metrics] says where the server tells them")
    host, _, port = settings["listen"].rpartition(":")
    users = [User((host.strip("[]"), int(port)), row) for row in settings["user"]]
    while True:
        answers, lacking = [], False
        if asked.http:
            try:
                answers = told(settings["metrics"]["listen"])
            except OSError as fault:
                print(f"metrics: {fault}", file=sys.stderr)
                lacking = True
        for user in [] if asked.http else users:
            try:
                answers.append((user.name, user.stats()))
            except OSError as fault:
                print(f"{user.name}: {fault}", file=sys.stderr)
                user.replies, lacking = None, True
        (metrics if asked.metrics else table)(answers)
        if asked.every is None:
            sys.exit(lacking)
        sys.stdout.flush()
        time.sleep(asked.every)


if __name__ == "__main__":
    main()
