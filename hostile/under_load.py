#!/usr/bin/env python3
"""A server among clients that mean ill: under_load.py PROGRAMS [SECONDS]

64 clients ask the server with four shards, with one worker and with two, for some seconds (10 unless told). Half of them count, move
and rename over keys that they share: increments, transfers of a member between two sets, a name that goes round, and MSETs that set
two keys to one value. The others close with a request under way, send a half of one and leave, never read, send what is no request,
and reset the connection in the middle of a reply, of a request, and of a pipeline of 1,000.

Each of the first is answered rightly all the while, and no reply is another one's: each asks besides for an ECHO of its own.
At the end the sums and sets come out right, the server has counted each request, and a replay of its trace agrees.
"""
import os
import random
import re
import socket
import struct
import subprocess
import sys
import tempfile
import threading
import time

from clients import Client, Server, request

TOP = os.path.join(os.path.dirname(os.path.abspath(__file__)), "..")
TABLE = os.path.join(TOP, "examples/four-shards.toml")
GOOD, BAD = 32, 32
# How often each of the latter connects, and how many connections the server takes.
TIMES, CONNECTIONS = 60, 3000


class Course:
    """What all clients share."""

    def __init__(self, port, seconds):
        self.port, self.ends = port, time.time() + seconds
        self.faults, self.asked, self.increments, self.guard = [], 0, 0, threading.Lock()

    def goes_on(self):
        return time.time() < self.ends and not self.faults

    def done(self, asked, increments):
        with self.guard:
            self.asked += asked
            self.increments += increments

    def fault(self, text):
        with self.guard:
            self.faults.append(text)


def good(course, number):
    """A client whose every reply is looked at."""
    client, asked, increments = Client(course.port), 0, 0
    own = b"member%d" % number

    def ask(*words):
        nonlocal asked
        asked += 1
        client.send(*words)
        return client.whole_reply()

    def wants(said, *wanted):
        if said not in wanted:
            course.fault(f"client {number}: {said!r} came, one of {wanted} was wanted")
    wants(ask(b"SADD", b"here", own), b":1")
    there = False
    while course.goes_on():
        turn = asked % 5
        if turn == 0:
            said = ask(b"INCR", b"sum")
            increments += 1
            wants(said[:1], b":")
        elif turn == 1:
            wants(ask(b"SMOVE", *((b"there", b"here") if there else (b"here", b"there")), own), b":1")
            there = not there
        elif turn == 2:
            value = b"%d-%d" % (number, asked)
            wants(ask(b"MSET", b"left", value, b"right", value), b"+OK")
            both = ask(b"MGET", b"left", b"right").split(b"\r\n")
            wants(both[2], both[4])
        elif turn == 3:
            wants(ask(b"RENAME", b"round", b"round"), b"+OK", b"-ERR no such key")
            wants(ask(b"RENAMENX", b"round", b"other") and b"", b"")
            wants(ask(b"RENAMENX", b"other", b"round") and b"", b"")
        else:
            text = b"%d:%d" % (number, asked)
            wants(ask(b"ECHO", text), b"$%d\r\n%s" % (len(text), text))
    client.close()
    course.done(asked, increments)


def reset(stream):
    """The connection is cut at once, and what is under way in it is lost."""
    stream.setsockopt(socket.SOL_SOCKET, socket.SO_LINGER, struct.pack("ii", 1, 0))
    stream.close()


def bad(course, number):
    """A client that does ill, again and again."""
    dice = random.Random(number)
    text = request(b"SET", b"spoilt", b"x" * 50)
    waiting, times = [], 0
    while course.goes_on() and times < TIMES:
        times += 1
        try:
            stream = socket.create_connection(("127.0.0.1", course.port), timeout=10)
            kind = (number + dice.randrange(2)) % 8
            if kind == 0:
                stream.sendall(text)
                stream.close()
            elif kind == 1:
                stream.sendall(text[:dice.randrange(1, len(text))])
                stream.close()
            elif kind == 2 and len(waiting) < 3:
                # It never reads: the server fills what the two sides keep of it, and goes on for the others.
                stream.setblocking(False)
                try:
                    while course.goes_on():
                        stream.send(request(b"ECHO", b"x" * 10000))
                except BlockingIOError:
                    waiting.append(stream)
            elif kind == 3:
                stream.sendall(bytes(dice.randrange(256) for _ in range(dice.randrange(1, 200))))
                stream.close()
            elif kind == 4:
                stream.sendall(request(b"ECHO", b"x" * 1000000))
                stream.recv(1000)
                reset(stream)
            elif kind == 5:
                stream.sendall(text[:dice.randrange(1, len(text))])
                reset(stream)
            elif kind == 6:
                stream.sendall(text * 1000)
                stream.recv(100)
                reset(stream)
            else:
                stream.sendall(text + b"PING\r\n" + text)
                while stream.recv(1 << 16):
                    pass
                stream.close()
        except OSError:
            pass
        time.sleep(0.01)
    while waiting and course.goes_on():
        time.sleep(0.05)
    for stream in waiting:
        reset(stream)


def at_the_end(course):
    """What is left by those who were answered."""
    client = Client(course.port)
    total = client.ask(b"GET", b"sum")
    members = sum(int(client.ask(b"SCARD", name)[1:]) for name in (b"here", b"there"))
    client.close()
    return [f"a sum of {total!r} came, and {course.increments} was wanted" for _ in range(total != b"%d" % course.increments)] + [
        f"{members} members, and {GOOD} were wanted" for _ in range(members != GOOD)]


def replay_agrees(program, trace, workers):
    ran = subprocess.run([program, "--table", TABLE, "--trace", trace, "--workers", str(workers)], capture_output=True, timeout=600)
    return [] if ran.returncode == 0 and ran.stdout.endswith(b"agree\n") else [f"the replay ended by {ran.returncode}: {ran.stderr[:200]}"]


def loaded(folder, workers, seconds):
    def path(name):
        return os.path.join(folder, f"shardkv_{name}", "out", f"shardkv_{name}")
    with tempfile.TemporaryDirectory() as room:
        trace = os.path.join(room, "run.trace")
        with Server(path("server"), TABLE, "--workers", str(workers), "--connections", str(CONNECTIONS),
                    "--max-steps", str(1 << 40), "--trace", trace) as server:
            course = Course(server.port, seconds)
            clients = [threading.Thread(target=good, args=(course, number)) for number in range(GOOD)]
            clients += [threading.Thread(target=bad, args=(course, number)) for number in range(BAD)]
            for each in clients:
                each.start()
            for each in clients:
                each.join(timeout=seconds + 60)
            faults = course.faults + [f"{sum(each.is_alive() for each in clients)} clients hang" for _ in range(any(
                each.is_alive() for each in clients))]
            faults += at_the_end(course) if server.process.poll() is None else ["the server has ended"]
            status, said, told = server.ended_soon()
        print(f"  {course.asked} requests of the {GOOD} were answered; {said.strip()}")
        faults += [f"status {status}: {told}" for _ in range(status != 0)]
        counted = re.match(r"closed requests=([0-9]+) ", said)
        faults += ["not all requests are counted" for _ in range(counted is None or int(counted[1]) < course.asked)]
        return faults + replay_agrees(path("replay"), trace, workers)


def main():
    folder, *seconds = sys.argv[1:]
    passed = failed = 0
    for workers in (1, 2):
        print(f"under load, workers {workers}")
        faults = loaded(folder, workers, float(seconds[0]) if seconds else 10.0)
        for fault in faults[:5]:
            print(f"  FAILED: {fault}")
        passed, failed = passed + (not faults), failed + bool(faults)
    print(f"{passed} passed, {failed} failed")
    sys.exit(failed > 0)


main()
