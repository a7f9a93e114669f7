#!/usr/bin/env python3
"""Transactions over several shards: transactions.py PROGRAMS [SECONDS]

32 clients move amounts between accounts that lie on different shards, each by one transaction. 32 others read all accounts the
while, by one EXEC of GETs and by one MGET: the sum never differs. So with one worker and with two; the trace replays to `agree`.

Then a list of 10,000 members is queued and run, by `solo` and by the server: each place of the array is its own member's. And where
Debian's package python3-redis is there, 1,000 pipelines of its own, which are transactions unless told, over four shards.
"""
import os
import random
import subprocess
import sys
import tempfile
import threading
import time

from clients import Client, Server, replies, request

TOP = os.path.join(os.path.dirname(os.path.abspath(__file__)), "..")
TABLE = os.path.join(TOP, "examples/four-shards.toml")
MOVERS, READERS, ACCOUNTS, EACH = 32, 32, 12, 1000
MEMBERS = 10000


def account(number):
    return b"account:%d" % number


class Course:
    """What all clients share."""

    def __init__(self, port, seconds):
        self.port, self.ends = port, time.time() + seconds
        self.faults, self.moves, self.reads, self.guard = [], 0, 0, threading.Lock()

    def goes_on(self):
        return time.time() < self.ends and not self.faults

    def fault(self, text):
        with self.guard:
            self.faults.append(text)

    def done(self, moves, reads):
        with self.guard:
            self.moves += moves
            self.reads += reads


def transaction(client, *members):
    """The replies to the members of a transaction that is sent in one piece."""
    client.stream.sendall(b"".join([request(b"MULTI"), *(request(*member) for member in members), request(b"EXEC")]))
    said = [client.whole_reply() for _ in range(len(members) + 2)]
    if said[:-1] != [b"+OK"] + [b"+QUEUED"] * len(members):
        raise AssertionError(f"{said[:-1]} came while the list was open")
    head, _, rest = said[-1].partition(b"\r\n")
    if head != b"*%d" % len(members):
        raise AssertionError(f"EXEC was answered {said[-1]!r}")
    return replies(rest + b"\r\n")[0]


def mover(course, number):
    """Moves amounts: what one account loses another one gets, in one step."""
    dice, client, moves = random.Random(number), Client(course.port), 0
    try:
        while course.goes_on():
            source, target = dice.sample(range(ACCOUNTS), 2)
            amount = b"%d" % dice.randrange(1, 50)
            left, got = transaction(client, (b"DECRBY", account(source), amount), (b"INCRBY", account(target), amount))
            if left[:1] != b":" or got[:1] != b":":
                course.fault(f"mover {number}: {left!r} and {got!r} came")
            moves += 1
    except AssertionError as fault:
        course.fault(f"mover {number}: {fault}")
    client.close()
    course.done(moves, 0)


def reader(course, number):
    """Reads all accounts at once, in both ways by turns."""
    client, reads, names = Client(course.port), 0, [account(each) for each in range(ACCOUNTS)]
    try:
        while course.goes_on():
            if reads % 2 == 0:
                said = transaction(client, *((b"GET", name) for name in names))
            else:
                client.send(b"MGET", *names)
                said = replies(client.whole_reply().partition(b"\r\n")[2] + b"\r\n")[0]
            total = sum(int(each.split(b"\r\n")[1]) for each in said)
            if len(said) != ACCOUNTS or total != ACCOUNTS * EACH:
                course.fault(f"reader {number}: {len(said)} accounts with {total} in all")
            reads += 1
    except AssertionError as fault:
        course.fault(f"reader {number}: {fault}")
    client.close()
    course.done(0, reads)


def replay_agrees(program, trace, workers):
    ran = subprocess.run([program, "--table", TABLE, "--trace", trace, "--workers", str(workers)], capture_output=True, timeout=600)
    agrees = ran.returncode == 0 and ran.stdout.endswith(b"agree\n")
    return [] if agrees else [f"the replay ended by {ran.returncode}: {ran.stderr[:200]}"]


def moved(path, workers, seconds):
    with tempfile.TemporaryDirectory() as room:
        trace = os.path.join(room, "run.trace")
        with Server(path("server"), TABLE, "--workers", str(workers), "--connections", str(MOVERS + READERS + 1),
                    "--max-steps", str(1 << 40), "--trace", trace) as server:
            first = Client(server.port)
            for number in range(ACCOUNTS):
                first.ask(b"SET", account(number), b"%d" % EACH)
            course = Course(server.port, seconds)
            clients = [threading.Thread(target=mover, args=(course, number)) for number in range(MOVERS)]
            clients += [threading.Thread(target=reader, args=(course, number)) for number in range(READERS)]
            for each in clients:
                each.start()
            for each in clients:
                each.join(timeout=seconds + 60)
            hang = sum(each.is_alive() for each in clients)
            faults = course.faults + ([f"{hang} clients hang"] if hang else [])
            first.close()
            status, said, told = server.ended_soon()
        print(f"  {course.moves} moves and {course.reads} readings; {said.strip()}")
        faults += [f"status {status}: {told}"] if status != 0 else []
        return faults + replay_agrees(path("replay"), trace, workers)


def long_list():
    """The requests of a list of many members, which count, and what comes of them."""
    members = [request(b"INCRBY", b"counted:%d" % (number % 7), b"%d" % number) for number in range(MEMBERS)]
    sums, wanted = [0] * 7, []
    for number in range(MEMBERS):
        sums[number % 7] += number
        wanted.append(b":%d\r\n" % sums[number % 7])
    text = request(b"MULTI") + b"".join(members) + request(b"EXEC")
    return text, b"+OK\r\n" + b"+QUEUED\r\n" * MEMBERS + b"*%d\r\n" % MEMBERS + b"".join(wanted)


def long_by_solo(path):
    text, wanted = long_list()
    ran = subprocess.run([path("solo")], input=text, capture_output=True, timeout=120)
    return [] if ran.returncode == 0 and ran.stdout == wanted else [f"status {ran.returncode}, {len(ran.stdout)} bytes of {len(wanted)}"]


def long_by_server(path):
    text, wanted = long_list()
    with tempfile.TemporaryDirectory() as room:
        trace = os.path.join(room, "run.trace")
        with Server(path("server"), TABLE, "--connections", "1", "--max-steps", str(1 << 40), "--trace", trace) as server:
            client = Client(server.port, timeout=120.0)
            sender = threading.Thread(target=client.stream.sendall, args=(text,))
            sender.start()
            came = b""
            while len(came) < len(wanted) and (piece := client.stream.recv(1 << 18)):
                came += piece
            sender.join()
            client.close()
            status, _, told = server.ended_soon()
        faults = [] if came == wanted else [f"{len(came)} bytes came, and {len(wanted)} others were wanted"]
        faults += [f"status {status}: {told}"] if status != 0 else []
        return faults + replay_agrees(path("replay"), trace, 1)


def pipelines(path):
    """1,000 pipelines of redis-py, each a transaction over several shards."""
    # Where Debian's packages lie, whichever Python runs this.
    sys.path.append("/usr/lib/python3/dist-packages")
    try:
        import redis
    except ImportError:
        print("  python3-redis is not there: skipped")
        return []
    with Server(path("server"), TABLE, "--connections", "8", "--max-steps", str(1 << 40)) as server:
        client = redis.Redis(port=server.port)
        for number in range(1000):
            both = client.pipeline()
            both.incr("left").incr("right").mget("left", "right").rpush("list:%d" % (number % 4), number).exists("absent")
            want = [number + 1, number + 1, [b"%d" % (number + 1)] * 2, number // 4 + 1, 0]
            came = both.execute()
            if came != want:
                return [f"pipeline {number}: {came} came, and {want} was wanted"]
        client.close()
    return []


def main():
    folder, *seconds = sys.argv[1:]

    def path(name):
        return os.path.join(folder, f"shardkv_{name}", "out", f"shardkv_{name}")
    seconds = float(seconds[0]) if seconds else 10.0
    cases = [(f"moves, workers {workers}", lambda workers=workers: moved(path, workers, seconds)) for workers in (1, 2)]
    cases += [("a long list, solo", lambda: long_by_solo(path)), ("a long list, server", lambda: long_by_server(path)),
              ("pipelines", lambda: pipelines(path))]
    passed = failed = 0
    for name, case in cases:
        print(name)
        faults = case()
        for fault in faults[:5]:
            print(f"  FAILED: {fault}")
        passed, failed = passed + (not faults), failed + bool(faults)
    print(f"{passed} passed, {failed} failed")
    sys.exit(failed > 0)


main()
