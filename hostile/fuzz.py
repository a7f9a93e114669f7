#!/usr/bin/env python3
"""Random input to the programs: fuzz.py PROGRAMS [SECONDS] [SEED]

For some seconds (20 unless told), from a seed that is printed: random bytes, and valid streams of requests with some bytes changed, go
to `solo`, whole and in pieces cut anywhere, which has to answer both alike; random tables and traces, and valid ones with some bytes
changed, go to `replay` with one worker and with two. Traces of versions 2 and 3 have packets that are repeated, those of version 3
transactions of which members starve. Each program ends by a status that it has for such an input, says on standard error why where it
refuses, and writes nothing then but what came before; a trace that can be replayed agrees.
"""
import contextlib
import os
import random
import subprocess
import sys
import tempfile
import time

from clients import replies, request
from requests_at_random import request_at_random

TOP = os.path.join(os.path.dirname(os.path.abspath(__file__)), "..")
# Requests of both groups of two.
BOTH = [line.split() for line in b"MSET a 1 c 2;MSET d x b y;MGET a b c d;RENAME b d;SUNIONSTORE c a b;DEL a c;DBSIZE;FLUSHALL".split(b";")]


def changed(dice, text, most=3):
    """The text with some bytes of it changed, left out or put in."""
    for _ in range(dice.randrange(most + 1)):
        place = dice.randrange(len(text) + 1)
        kind = dice.randrange(3)
        byte = bytes([dice.choice(b"0123456789*$\r\n -ax#[]=\xff\x00")])
        text = text[:place] + (byte if kind else b"") + text[place + (kind != 2):]
    return text


def stream(dice):
    """A stream of requests, valid or not."""
    if dice.randrange(8) == 0:
        return bytes(dice.choice(b"*$0123456789\r\nPING\xff") for _ in range(dice.randrange(300)))
    return changed(dice, b"".join(request(*request_at_random(dice)) for _ in range(dice.randrange(20))))


def text_of(version, most, lines):
    """The text of a trace of this version."""
    return ("shardkv-trace %d\nmax %d\n" % (version, most) + "".join(line + "\n" for line in lines) + "end %d\n" % len(lines)).encode()


def submit(conn, words):
    return "submit %d %s" % (conn, " ".join(word.hex() or "-" for word in words))


def trace(dice):
    """A trace of any version, of some connections, with some steps that may be refused. In version 1 a `repeat` is rare, and bad; in
    versions 1 and 2 so is a `run` that names a member."""
    lines, connections, version = ["open"] * 3, 3, dice.choice([1, 2, 3])
    repeats = ["repeat 0", "repeat 1"] if version >= 2 or dice.randrange(10) == 0 else []
    members = ["run 1.2.1", "run 2.1 1.4.2"] if version >= 3 or dice.randrange(10) == 0 else []
    for _ in range(dice.randrange(60)):
        conn = dice.randrange(1, connections + 1)
        lines.append(dice.choice([
            submit(conn, request_at_random(dice)),
            "deliver 0", "deliver 0", "deliver 0", "deliver 1", *repeats, *members, "take", "run", "settle", "collect %d" % conn]))
    return changed(dice, text_of(version, dice.choice([1000, 1 << 62, 40]), lines), 1)


def brought(dice, left, may_repeat):
    """The lines that bring the four packets of a request of two groups, behind `left` copies of earlier ones, and how many copies they
    leave. Some packets are repeated, of which most copies come too."""
    lines = ["deliver 0"] * (4 + left)
    if not may_repeat:
        return lines, 0
    for _ in range(dice.randrange(3)):
        lines.insert(dice.randrange(4), "repeat 0")
        lines.append("deliver 0")
    leaves = dice.randrange(2)
    return lines[:-1] + ["repeat 0"] * leaves + lines[-1:], leaves


def asked(dice, conn, numbers):
    """The lines by which a connection asks for a transaction, and which of its members starve, by the EXEC's own number. All members
    address both groups."""
    members = [dice.choice(BOTH) for _ in range(dice.randrange(1, 4))]
    lines = []
    for words in [[b"MULTI"], *members]:
        lines += [submit(conn, words), "collect %d" % conn]
    numbers[conn] += len(members) + 2
    starved = ["%d.%d.%d" % (conn, numbers[conn], member) for member in range(1, len(members) + 1) if dice.randrange(4) == 0]
    return [*lines, submit(conn, [b"EXEC"])], "run %s" % " ".join(starved) if starved else "run"


def driven(dice):
    """A trace in which requests of two groups are brought to their ends, and the statuses that it may end by. In version 1 a `repeat` is
    rare, and bad."""
    lines, left, version, numbers = ["open"] * 3, 0, dice.choice([1, 2, 3]), [0] * 4
    may_repeat = version >= 2 or dice.randrange(10) == 0
    for _ in range(dice.randrange(1, 8)):
        conn, run = dice.randrange(1, 4), "run"
        packets, left = brought(dice, left, may_repeat)
        if version == 3 and dice.randrange(3) == 0:
            asking, run = asked(dice, conn, numbers)
        else:
            asking = [submit(conn, dice.choice(BOTH) if dice.randrange(8) else request_at_random(dice))]
            numbers[conn] += 1
        lines += [*asking, *packets, "take", run, "settle", "collect %d" % conn]
    is_bad = version == 1 and "repeat 0" in lines
    return text_of(version, 1000, lines), (3, 4) if is_bad else (0, 3, 5)


def table(dice):
    with open(os.path.join(TOP, "examples", dice.choice(["two-shards.toml", "four-shards.toml"])), "rb") as text:
        return changed(dice, text.read())


class Fuzz:
    def __init__(self, folder, seed):
        self.folder, self.dice, self.runs, self.room = folder, random.Random(seed), 0, tempfile.TemporaryDirectory()

    def program(self, name):
        return os.path.join(self.folder, f"shardkv_{name}", "out", f"shardkv_{name}")

    def file(self, name, text):
        path = os.path.join(self.room.name, name)
        with open(path, "wb") as it:
            it.write(text)
        return path

    def cut(self, text):
        """What solo says where the input comes in pieces."""
        with subprocess.Popen([self.program("solo")], bufsize=0, stdin=subprocess.PIPE, stdout=subprocess.PIPE,
                              stderr=subprocess.PIPE) as solo:
            # A store that met a fault reads no more.
            with contextlib.suppress(BrokenPipeError):
                while text:
                    size = self.dice.randrange(1, 40)
                    solo.stdin.write(text[:size])
                    text = text[size:]
            said, told = solo.communicate()
        return solo.returncode, said, told

    def solo(self):
        text = stream(self.dice)
        ran = subprocess.run([self.program("solo")], input=text, capture_output=True, timeout=60)
        faults = [f"status {ran.returncode}: {ran.stderr}"] if ran.returncode not in (0, 1) else []
        faults += [f"no reply: {left}" for left in replies(ran.stdout)[1:] if left]
        cut = self.cut(text)
        if cut != (ran.returncode, ran.stdout, ran.stderr):
            faults.append(f"cut it says {cut}, and whole {(ran.returncode, ran.stdout, ran.stderr)}")
        return text, faults

    def replay(self):
        table_text = table(self.dice) if self.dice.randrange(3) == 0 else open(os.path.join(TOP, "examples/two-shards.toml"), "rb").read()
        trace_text, wanted = (trace(self.dice), (0, 3, 4, 5)) if self.dice.randrange(2) else driven(self.dice)
        files = ["--table", self.file("table", table_text), "--trace", self.file("trace", trace_text)]
        said = []
        faults = []
        for workers in ("1", "2"):
            ran = subprocess.run([self.program("replay"), *files, "--workers", workers], capture_output=True, timeout=60)
            said.append((ran.returncode, ran.stdout, ran.stderr))
            if ran.returncode not in wanted:
                faults.append(f"status {ran.returncode}: {ran.stderr}")
            if (ran.returncode == 0) != ran.stdout.endswith(b"agree\n") or (ran.returncode != 0 and (ran.stdout or not ran.stderr)):
                faults.append(f"status {ran.returncode} with {ran.stdout[-100:]!r}, {ran.stderr!r}")
        faults += [f"one worker says {said[0]}, two say {said[1]}" for _ in range(said[0] != said[1])]
        return table_text + trace_text, faults

    def one(self):
        self.runs += 1
        return self.solo() if self.dice.randrange(2) else self.replay()


def main():
    folder, *more = sys.argv[1:]
    seconds = float(more[0]) if more else 20.0
    seed = int(more[1]) if len(more) > 1 else time.time_ns()
    print(f"seed {seed}", flush=True)
    fuzz, ends, failed = Fuzz(folder, seed), time.time() + seconds, 0
    while time.time() < ends and failed < 3:
        given, faults = fuzz.one()
        failed += bool(faults)
        for fault in faults:
            print(f"  FAILED: {fault}\n    of {given!r}")
    print(f"{fuzz.runs - failed} passed, {failed} failed")
    sys.exit(failed > 0)


main()
