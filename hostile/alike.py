#!/usr/bin/env python3
"""A server answers what its trace replays to, and the same with a trace and without: alike.py PROGRAMS [REQUESTS] [SEED]

From a seed that is printed, 10,000 random requests unless told go to two servers, one after another, by eight connections in any order:
all kinds of commands, refused ones, lists of MULTI, and now and then a connection that leaves and another that comes. A request that is
alone is handed out at once. The replay makes each step of the trace by a call of its own; so each executed request has there the reply
that its client got, and it ends with `agree`. Without a trace each request is answered alike.
"""
import os
import random
import subprocess
import sys
import tempfile
import time

from clients import Client, Server
from requests_at_random import request_at_random

TOP = os.path.join(os.path.dirname(os.path.abspath(__file__)), "..")
TABLE = os.path.join(TOP, "examples/four-shards.toml")
CONNECTIONS = 8


class Both:
    """The same connections to two servers, and what they are answered. The first server's replies are kept by connection and request."""

    def __init__(self, servers):
        self.servers, self.failed = servers, []
        self.opened, self.replies = 0, {}
        self.clients = [self.open() for _ in range(CONNECTIONS)]

    def open(self):
        """A connection to each. Its first request is answered before another is opened, so that it has the next number."""
        self.opened += 1
        made = {"number": self.opened, "asked": 0, "clients": [Client(server.port) for server in self.servers]}
        self.ask_at(made, [b"PING"])
        return made

    def ask_at(self, connection, words):
        said = []
        for client in connection["clients"]:
            client.send(*words)
            said.append(client.whole_reply())
        connection["asked"] += 1
        self.replies[b"%d.%d" % (connection["number"], connection["asked"])] = said[0] + b"\r\n"
        if said[0] != said[1]:
            number = connection["number"]
            self.failed.append(f"{words} of connection {number} is answered {said[0][:80]!r} with a trace, and {said[1][:80]!r} without")

    def ask(self, which, words):
        self.ask_at(self.clients[which], words)

    def leave_and_come(self, which):
        for client in self.clients[which]["clients"]:
            client.close()
        self.clients[which] = self.open()

    def close(self):
        for connection in self.clients:
            for client in connection["clients"]:
                client.close()


def compare(report, replies):
    """What the rows of a report say beside what was answered: at least some, and each its own."""
    rows = [line.split(b" ") for line in report.splitlines() if line.startswith(b"row ")]
    other = [row for row in rows if bytes.fromhex(row[4].decode()) != replies.get(row[2])]
    if not rows:
        return ["no request was executed"]
    return [f"{row[3].decode()} of request {row[2].decode()} is answered {replies.get(row[2])!r}, and replayed to {row[4][:80]!r}" for row in other[:3]]


def ask_all(both, dice, count):
    """Asks so many requests, as long as both answer alike."""
    for _ in range(count):
        which = dice.randrange(CONNECTIONS)
        if dice.randrange(200) == 0:
            both.leave_and_come(which)
        both.ask(which, request_at_random(dice))
        if both.failed:
            return


def end(server):
    """What a server says that has lost its input, and how it ends."""
    said, _ = server.process.communicate(timeout=60)
    return server.process.returncode, said


def main():
    folder, *more = sys.argv[1:]
    count = int(more[0]) if more else 10000
    seed = int(more[1]) if len(more) > 1 else time.time_ns()
    print(f"seed {seed}", flush=True)
    program = os.path.join(folder, "shardkv_server/out/shardkv_server")
    forever = ["--connections", "100000", "--max-steps", "100000000", "--until-input-ends"]
    faults = []
    with tempfile.TemporaryDirectory() as room:
        trace = os.path.join(room, "trace")
        with Server(program, TABLE, *forever, "--trace", trace, has_input=True) as traced, \
                Server(program, TABLE, *forever, has_input=True) as untraced:
            both = Both([traced, untraced])
            ask_all(both, random.Random(seed), count)
            both.close()
            faults += both.failed
            ends = [end(traced), end(untraced)]
        if ends[0] != ends[1] or ends[0][0] != 0:
            faults.append(f"with a trace it ends by {ends[0]}, and without by {ends[1]}")
        replay = os.path.join(folder, "shardkv_replay/out/shardkv_replay")
        said = subprocess.run([replay, "--table", TABLE, "--trace", trace], capture_output=True)
        if said.returncode != 0 or not said.stdout.endswith(b"agree\n"):
            faults.append(f"its trace is replayed to {said.returncode}: {said.stderr!r}")
        faults += compare(said.stdout, both.replies)
    for fault in faults:
        print(f"  FAILED: {fault}")
    print(f"{0 if faults else 1} passed, {len(faults)} failed")
    sys.exit(bool(faults))


main()
