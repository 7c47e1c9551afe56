#!/usr/bin/env python3
"""One user's keys over several servers, by a stock client library: Debian's python3-pymemcache.

usage: three_servers.py USER TOKEN ADDRESS..

The client picks a key's server by rendezvous hashing, so a server that goes takes its own keys with
it and no others. Each connection logs in when it is made. It writes 1,000 keys, reads them, and says
how many each server holds; run it again with one server stopped to see the rest still hit."""
import sys

from pymemcache.client.base import Client
from pymemcache.client.hash import HashClient


class LoggedIn(Client):
    """A client whose connections log in: the first `set` on each is the login."""

    login = b""

    def _connect(self):
        super()._connect()
        if not self.set("login", self.login, noreply=False):
            raise ConnectionError("the login was refused")


class Servers(HashClient):
    client_class = LoggedIn


def main():
    user, token, *addresses = sys.argv[1:]
    LoggedIn.login = f"{user} {token}".encode()
    servers = Servers(addresses, ignore_exc=True, retry_attempts=0, dead_timeout=60, default_noreply=False)
    keys = [f"key{n}" for n in range(1000)]
    before = sum(servers.get(key) is not None for key in keys)
    stored = sum(bool(servers.set(key, "x" * 100)) for key in keys)
    after = sum(servers.get(key) is not None for key in keys)
    print(f"held before {before}, stored {stored}, held after {after}")
    for address in addresses:
        try:
            stats = LoggedIn(tuple([address.rpartition(":")[0], int(address.rpartition(":")[2])])).stats()
            print(f"{address} {stats[b'curr_items']} items")
        except OSError as fault:
            print(f"{address} {fault}")


main()
