#!/usr/bin/env python3
"""Sizes that no other script comes to: sizes.py PROGRAMS

PROGRAMS is the folder crates/ of this repository with the programs as the gate leaves them. One connection asks 1,200,000 small requests,
each tenth an increment; 2,000 connections ask for one increment each while a long request is run, so that theirs are one layer, the last
of them after 1,200,000 small requests; and 40,000 keys are set that collide under the fixed seed, as many such members are added to one
set and as many such fields set in one hash, each beside as many that don't collide. Each reply is the one that Redis's command reference
gives, each trace has so many steps or such a layer, and replays to `agree`; and what collides takes no longer than the rest. What comes
of the machine's haste, how large the layer is and how long keys, members and fields take, is tried again, twice at most.
"""
import os
import re
import resource
import subprocess
import sys
import tempfile
import threading
import time

from clients import Client, Ended, Server, replies, request

TOP = os.path.join(os.path.dirname(os.path.abspath(__file__)), "..")
TABLE = os.path.join(TOP, "examples/four-shards.toml")
ROUNDS, EACH = 120_000, 10
REQUESTS = ROUNDS * EACH
CLIENTS = 2000
TEXTS = 40_000
TRIES = 3
# The seed of std's FoldHasher, and what is added of a text of 16 bytes. Where these are a text's first 8 bytes, one factor of its product
# is 0, and so is its hash, whatever the other 8 bytes are.
SEED, LENGTH = 0x243F6A8885A308D3, 16
OTHERS, COLLIDING = b"8 bytes.", (SEED + LENGTH).to_bytes(8, "little")


class Room:
    """A folder with a trace, and the programs."""

    def __init__(self, programs, folder):
        self.programs, self.trace = programs, os.path.join(folder, "run.trace")

    def program(self, name):
        return os.path.join(self.programs, f"shardkv_{name}", "out", f"shardkv_{name}")

    def server(self, connections):
        return Server(self.program("server"), TABLE, "--connections", str(connections), "--max-steps", str(1 << 40), "--trace", self.trace)

    def ended(self, server, wanted):
        """What is wrong with the server's end and with the replay of its trace."""
        status, said, told = server.ended_soon()
        faults = [] if status == 0 and said.endswith(wanted) else [f"status {status}: {said[-200:]!r}, {told!r}"]
        ran = subprocess.run([self.program("replay"), "--table", TABLE, "--trace", self.trace], capture_output=True, timeout=600)
        agrees = ran.returncode == 0 and ran.stdout.endswith(b"agree\n")
        return faults + ([] if agrees else [f"the replay ended by {ran.returncode}: {ran.stderr[:200]}"])

    def steps(self):
        """The steps of the trace, each by its name."""
        with open(self.trace, encoding="ascii") as trace:
            return [line.split(" ", 1)[0].rstrip("\n") for line in trace][2:-1]


def asked(client, text, size):
    """So many bytes of what is answered to these requests, which are sent while the answers are read."""
    sender = threading.Thread(target=client.stream.sendall, args=(text,))
    sender.start()
    pieces, left = [], size
    while left > 0:
        piece = client.stream.recv(1 << 18)
        if not piece:
            raise Ended
        pieces.append(piece)
        left -= len(piece)
    sender.join()
    return b"".join(pieces)


def many_requests(room):
    with room.server(1) as server:
        client = Client(server.port, timeout=120.0)
        came = asked(client, (request(b"INCR", b"a") + request(b"PING") * (EACH - 1)) * ROUNDS,
                     sum(len(b":%d\r\n" % number) for number in range(1, ROUNDS + 1)) + len(b"+PONG\r\n") * (EACH - 1) * ROUNDS)
        client.close()
        pongs = b"+PONG\r\n" * (EACH - 1)
        right = came == b"".join(b":%d\r\n%s" % (number, pongs) for number in range(1, ROUNDS + 1))
        faults = [] if right else ["other replies came"]
        faults += room.ended(server, f"closed requests={REQUESTS} executed={ROUNDS} starved=0\n")
    steps = len(room.steps())
    # Submit and Collect of each, Deliver, Take, Run and Settle of the increments, and the connection's Open and Close.
    wanted = 2 * REQUESTS + 4 * ROUNDS + 2
    return faults + ([] if steps == wanted else [f"{steps} steps, and {wanted} were wanted"]), []


def largest_layer(steps):
    """The most packets that came between two Takes: where each of them is a Start of a request of one group, the next Take has just
    their requests."""
    most = here = 0
    for step in steps:
        here = 0 if step == "take" else here + (step == "deliver")
        most = max(most, here)
    return most


def one_layer(room):
    if resource.getrlimit(resource.RLIMIT_NOFILE)[0] < CLIENTS + 100:
        print("  too few open files are allowed: skipped")
        return [], []
    members = [b"member%d" % number for number in range(1000)]
    with room.server(CLIENTS + 1) as server:
        # It sits at the same shard: 50,000 times each of 1,000 members is looked up.
        long = Client(server.port, timeout=120.0)
        faults = [] if long.ask(b"SADD", b"{a}set", *members) == b":1000" else ["the set isn't there"]
        clients = [Client(server.port, timeout=120.0) for _ in range(CLIENTS)]
        for client in clients:
            faults += [] if client.ask(b"PING") == b"+PONG" else ["a client isn't answered"]
        # Another one's increment is the layer's first: its thread brings the layer on, and the last one's collects.
        came = asked(clients[-1], request(b"PING") * REQUESTS, len(b"+PONG\r\n") * REQUESTS)
        faults += [] if came == b"+PONG\r\n" * REQUESTS else ["other replies came"]
        long.send(b"SINTERSTORE", b"{a}set", *[b"{a}set"] * 50_000)
        time.sleep(0.3)
        for client in clients:
            client.send(b"INCR", b"a")
        numbers = sorted(int(client.reply()[1:]) for client in clients)
        faults += [] if numbers == list(range(1, CLIENTS + 1)) else ["not each number came once"]
        faults += [] if long.reply() == b":1000" else ["the long request is answered otherwise"]
        for client in [long, *clients]:
            client.close()
        faults += room.ended(server, f"closed requests={REQUESTS + 2 * CLIENTS + 2} executed={CLIENTS + 2} starved=0\n")
    largest = largest_layer(room.steps())
    print(f"  a layer of {largest} requests")
    return faults, [] if largest >= CLIENTS // 2 else [f"the largest layer has {largest} requests"]


def texts(first):
    """Texts of 16 bytes that begin so; as keys, all at one shard."""
    return [first + b"{a}%05d" % number for number in range(TEXTS)]


def seconds(client, text, wanted):
    """How long it takes until these requests are answered so; None where other replies come."""
    begun = time.time()
    came = asked(client, text, len(wanted))
    return time.time() - begun if came == wanted else None


def seconds_to_set(client, first):
    """How long it takes to set keys that begin so."""
    return seconds(client, b"".join(request(b"SET", key, b"1") for key in texts(first)), b"+OK\r\n" * TEXTS)


def seconds_to_add(client, first):
    """How long it takes to add members that begin so to one set, in one request."""
    return seconds(client, request(b"SADD", b"set" + first, *texts(first)), b":%d\r\n" % TEXTS)


def seconds_to_fill(client, first):
    """How long it takes to set fields that begin so in one hash, in one request."""
    pairs = [word for field in texts(first) for word in (field, b"1")]
    return seconds(client, request(b"HSET", b"hash" + first, *pairs), b":%d\r\n" % TEXTS)


def colliding(room, seconds_to, count):
    """Texts that collide under the fixed seed, after as many others, in so many requests each."""
    with room.server(1) as server:
        client = Client(server.port, timeout=120.0)
        others, same = seconds_to(client, OTHERS), seconds_to(client, COLLIDING)
        client.close()
        faults = room.ended(server, f"closed requests={2 * count} executed={2 * count} starved=0\n")
    if others is None or same is None:
        return faults + ["other replies came"], []
    print(f"  {others:.2f} s, and {same:.2f} s where they collide under the fixed seed")
    return faults, [] if same < 4 * others + 0.5 else ["what collides takes long"]


def colliding_keys(room):
    return colliding(room, seconds_to_set, TEXTS)


def colliding_members(room):
    return colliding(room, seconds_to_add, 1)


def colliding_fields(room):
    return colliding(room, seconds_to_fill, 1)


def tried(case, programs):
    """What is wrong with a case; with the machine's haste only where it is so each time."""
    for _ in range(TRIES):
        with tempfile.TemporaryDirectory() as folder:
            faults, slow = case(Room(programs, folder))
        if faults or not slow:
            return faults
    return slow


CASES = (("many requests", many_requests), ("one layer", one_layer), ("colliding keys", colliding_keys),
         ("colliding members", colliding_members), ("colliding fields", colliding_fields))


def main():
    passed = failed = 0
    for name, case in CASES:
        begun = time.time()
        faults = tried(case, sys.argv[1])
        print(f"{name}: {time.time() - begun:.1f} s")
        for fault in faults[:5]:
            print(f"  FAILED: {fault}")
        passed, failed = passed + (not faults), failed + bool(faults)
    print(f"{passed} passed, {failed} failed")
    sys.exit(failed > 0)


main()
