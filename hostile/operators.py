#!/usr/bin/env python3
"""A server as an operator has it: operators.py PROGRAMS

PROGRAMS is the folder crates/ of this repository with the programs as the gate leaves them. `./shardkv serve` is started over them, and the
programs by themselves: they are ended by signals and by the end of their input, looked at while they run, limited in memory and in the size
of a file, and asked for help. What has to come of each is told beside it. The last line is `N passed, M failed`, and the status is 1 where one
failed.
"""
import os
import pty
import re
import resource
import select
import signal
import socket
import subprocess
import sys
import tempfile
import time

from clients import NO_MEMORY, OUT_OF_MEMORY, Client, Ended, ask_sets, memory, replies, request

TOP = os.path.join(os.path.dirname(os.path.abspath(__file__)), "..")
TABLE = os.path.join(TOP, "examples/four-shards.toml")
MIB = 1 << 20
# How many clients have requests under way when the signal comes, and how many each.
CLIENTS, EACH = 200, 20
CLOSED = re.compile(r"closed requests=(\d+) executed=(\d+) starved=0\n")
REPORT = re.compile(r"shardkv-server: (\d+) connections, \d+ requests a second, (\d+) requests, 0 starved, \d+ steps left, (\d+) keys")


class Running:
    """A server that was started by these words; it is killed where it hasn't ended."""

    def __init__(self, *words, stderr=subprocess.PIPE, **how):
        self.process = subprocess.Popen(
            words, stdin=subprocess.PIPE, stdout=subprocess.PIPE, stderr=stderr, text=True,
            start_new_session=True, env={**os.environ, "SHARDKV_BUILD": "no"}, **how)
        self.listening = self.process.stdout.readline()
        self.port = int(self.listening.rsplit(":", 1)[1]) if self.listening else None

    def __enter__(self):
        return self

    def __exit__(self, *_):
        try:
            os.killpg(self.process.pid, signal.SIGKILL)
        except ProcessLookupError:
            pass
        self.process.communicate()

    def end_input(self):
        self.process.stdin.close()
        self.process.stdin = None

    def ended(self, seconds=60):
        """The status, and what was said on both streams since it listened."""
        said, told = self.process.communicate(timeout=seconds)
        return self.process.returncode, said, told


class Tries:
    def __init__(self, programs, room):
        self.programs, self.room, self.passed, self.failed = programs, room, 0, 0

    def program(self, name):
        return os.path.join(self.programs, f"shardkv_{name}", "out", f"shardkv_{name}")

    def file(self, name):
        return os.path.join(self.room, name)

    def serve(self, *words, **how):
        return Running(os.path.join(TOP, "shardkv"), "serve", "--port", "0", *words, **how)

    def server(self, *words, **how):
        return Running(self.program("server"), "--table", TABLE, "--port", "0", *words, **how)

    def run(self, name, *words):
        return subprocess.run([self.program(name), *words], stdin=subprocess.DEVNULL, capture_output=True, text=True, timeout=60)

    def holds(self, name, holds, otherwise=""):
        self.passed, self.failed = self.passed + bool(holds), self.failed + (not holds)
        if not holds:
            print(f"FAILED: {name}: {otherwise}")

    def agrees(self, trace, *words):
        """The report of a trace that agrees, else None."""
        ran = self.run("replay", "--table", TABLE, "--trace", trace, *words)
        return ran.stdout if ran.returncode == 0 and ran.stdout.endswith("\nagree\n") else None

    def counters(self, trace, *words):
        """The counters that a trace leaves by a replay that agrees, else None."""
        report = self.agrees(trace, *words)
        if report is None:
            return None
        keys = re.findall(r"^key ([0-9a-f]+) string ([0-9a-f]+)$", report, re.M)
        return {bytes.fromhex(key): int(bytes.fromhex(value)) for key, value in keys}


def all_that_comes(client):
    """All that comes until the connection ends, be it by a reset."""
    try:
        while True:
            client.more()
    except (Ended, ConnectionError):
        return client.held


def ended_in_work(tries, workers, how):
    """200 clients have 20 increments each under way when the server is to end: what a client reads are its counter's numbers from 1 on, the
    last one whole unless the connection ended there; the store has them all; the trace agrees; the status is 0."""
    trace = tries.file("work.trace")
    with tries.serve("--workers", workers, "--trace", trace) as server:
        clients = [Client(server.port, timeout=60.0) for _ in range(CLIENTS)]
        for number, client in enumerate(clients):
            client.stream.sendall(request(b"INCR", b"counter%d" % number) * EACH)
        os.kill(server.process.pid, how)
        numbers = []
        for client in clients:
            said, rest = replies(all_that_comes(client))
            wanted = b"".join(b":%d\r\n" % (count + 1) for count in range(EACH))
            got = b"".join(reply + b"\r\n" for reply in said) + rest
            numbers.append(len(said) if wanted.startswith(got) else None)
        status, said, told = server.ended()
    name = f"{how.name} with {workers} worker(s)"
    tries.holds(f"{name}: replies in order", None not in numbers, numbers)
    closed = CLOSED.fullmatch(said)
    tries.holds(f"{name}: the end", status == 0 and closed and not told, (status, said, told))
    counters = tries.counters(trace)
    tries.holds(f"{name}: the trace agrees", counters is not None)
    if counters is not None and None not in numbers and closed:
        kept = all(numbers[n] <= counters.get(b"counter%d" % n, 0) <= EACH for n in range(CLIENTS))
        tries.holds(f"{name}: what was answered is in the trace", kept and sum(counters.values()) == int(closed[2]), (numbers, counters))


def killed_once(tries):
    """How a server ends that gets two signals while a client doesn't read what it is sent, so that an end by the first takes its 0.3 s: its
    status, what it says, and how many bytes still come to the client."""
    with tries.serve() as server:
        client = Client(server.port)
        client.ask(b"SET", b"long", b"x" * (1 << 20))
        client.stream.sendall(request(b"GET", b"long") * 64)
        time.sleep(0.2)
        os.kill(server.process.pid, signal.SIGTERM)
        # Of two signals that come at the same instant bash may see one alone.
        time.sleep(0.1)
        os.kill(server.process.pid, signal.SIGINT)
        status, said, _ = server.ended()
        return status, said, len(all_that_comes(client))


def killed(tries):
    """A second signal kills at once: in one try of three, since a machine that is busy may bring it only once the first has ended the server."""
    for _ in range(3):
        status, said, came = killed_once(tries)
        if status != 0:
            break
    tries.holds("a second signal kills", status == 128 + signal.SIGKILL and not said, (status, said))
    tries.holds("the killed server's connections end", came < 64 << 20)


def ended_by_input(tries):
    """The input of the program ends while one client is idle and one has sent half a request: also where no more connections would be taken,
    and where nobody has come."""
    for name, words in (("its input ends", ()), ("its input ends, and all connections are taken", ("--connections", "2"))):
        trace = tries.file("input.trace")
        with tries.server("--until-input-ends", "--trace", trace, *words) as server:
            idle, half = Client(server.port), Client(server.port)
            answered = idle.ask(b"INCR", b"a") == b":1"
            half.stream.sendall(b"*2\r\n$3\r\nGET\r\n$1")
            begun = time.time()
            server.end_input()
            ends = all_that_comes(idle) == b"" and all_that_comes(half) == b""
            status, said, told = server.ended()
            took = time.time() - begun
        tries.holds(name, answered and ends and status == 0 and CLOSED.fullmatch(said) and not told and took < 10, (status, said, told, took))
        tries.holds(f"{name}: the trace agrees", tries.counters(trace) == {b"a": 1})
    ran = tries.run("server", "--table", TABLE, "--port", "0", "--until-input-ends")
    tries.holds("no input", ran.returncode == 0 and ran.stdout.endswith("closed requests=0 executed=0 starved=0\n"), ran)


# How many requests a server is asked before its memory is measured, and then; and by how much it may grow meanwhile. It would be 15 MiB
# and more if a trace were kept.
FIRST, MORE, SLACK = 50_000, 400_000, 6 * MIB
UNTIL_INPUT_ENDS = ("--until-input-ends", "--connections", "1000", "--max-steps", str(1 << 40))


def traced(tries):
    """The trace is written while the server runs, which doesn't grow by it, and is whole at its end. What had its name stays until then."""
    trace = tries.file("long.trace")
    with open(trace, "w") as file:
        file.write("older")
    with tries.server("--trace", trace, *UNTIL_INPUT_ENDS) as server:
        ask_sets(server.port, FIRST)
        before = memory(server.process.pid, "VmRSS")
        ask_sets(server.port, MORE)
        after, written = memory(server.process.pid, "VmRSS"), os.path.getsize(trace + ".part")
        tries.holds("a trace isn't kept in memory", after < before + SLACK, (before, after))
        tries.holds("it is written meanwhile", written > 50 * MORE and os.path.getsize(trace) == len("older"), written)
        server.end_input()
        status, said, told = server.ended()
    tries.holds("a long trace's end", status == 0 and CLOSED.fullmatch(said) and not told, (status, said, told))
    tries.holds("it agrees", tries.agrees(trace) is not None and not os.path.exists(trace + ".part"))


def killed_with_trace(tries):
    """A server that is killed under load leaves the beginning of its trace, with what was answered a second before."""
    trace = tries.file("killed.trace")
    with tries.server("--trace", trace) as server:
        client, other = Client(server.port), Client(server.port)
        answered = [client.ask(b"INCR", b"a") for _ in range(100)]
        time.sleep(1)
        other.stream.sendall(request(b"INCR", b"b") * 5000)
        other.reply()
        server.process.kill()
        tries.holds("it is killed", server.ended()[0] == -signal.SIGKILL and answered[-1] == b":100", answered)
    tries.holds("the trace has no name", not os.path.exists(trace) and os.path.exists(trace + ".part"))
    if tries.run("replay", "--table", TABLE, "--trace", trace + ".part", "--part").returncode == 2:
        print("left out: shardkv-replay knows no --part")
        return
    counters = tries.counters(trace + ".part", "--part")
    tries.holds("a part agrees", counters is not None and counters.get(b"a") == 100 and counters.get(b"b", 0) <= 5000, counters)


def full(tries):
    """Where no more of the trace can be written, as where the disk is full, that is told at once. The server goes on, and ends by its
    status; what was written stays."""
    size, trace = 200_000, tries.file("full.trace")

    def held():
        signal.signal(signal.SIGXFSZ, signal.SIG_IGN)
        resource.setrlimit(resource.RLIMIT_FSIZE, (size, size))
    with tries.server("--trace", trace, *UNTIL_INPUT_ENDS, preexec_fn=held) as server:
        ask_sets(server.port, 10_000)
        told = select.select([server.process.stderr], [], [], 5)[0] and server.process.stderr.readline()
        tries.holds("a full disk is told", told == "shardkv-server: the trace could not be written\n", told)
        ask_sets(server.port, FIRST)
        before = memory(server.process.pid, "VmRSS")
        ask_sets(server.port, MORE)
        after = memory(server.process.pid, "VmRSS")
        tries.holds("no trace is kept then", after < before + SLACK, (before, after))
        client = Client(server.port)
        tries.holds("it goes on", [client.ask(b"SET", b"a", b"1"), client.ask(b"GET", b"a")] == [b"+OK", b"1"])
        server.end_input()
        status, said, told = server.ended()
    tries.holds("a lost trace's status", status == 6 and CLOSED.fullmatch(said) and not told, (status, said, told))
    tries.holds("what was written stays", os.path.getsize(trace + ".part") == size and not os.path.exists(trace))


def told_before(tries):
    """What can't go well is told before the server listens, with its reason."""
    folder = tries.file("folder")
    os.mkdir(folder)
    places = ["/proc/run.trace", os.path.join(tries.file("nowhere"), "run.trace"), folder]
    if os.geteuid() != 0:
        os.mkdir(tries.file("closed"), 0o500)
        places.append(os.path.join(tries.file("closed"), "run.trace"))
    for place in places:
        ran = tries.run("server", "--table", TABLE, "--port", "0", "--trace", place)
        told = ran.stderr.startswith(f"shardkv-server: the trace can't be written to {place}: ") and ran.stderr.count("\n") == 1
        tries.holds(f"a trace in {place}", ran.returncode == 6 and told and not ran.stdout, ran)
    tries.holds("nothing is left behind", os.listdir(folder) == [] and not os.path.exists(folder + ".part"))
    with socket.socket() as other:
        other.bind(("127.0.0.1", 0))
        other.listen()
        port = other.getsockname()[1]
        ran = tries.run("server", "--table", TABLE, "--port", str(port))
        told = re.fullmatch(rf"shardkv-server: 127\.0\.0\.1:{port} can't be bound: .+\n", ran.stderr)
        tries.holds("a port that is taken", ran.returncode == 4 and told and not ran.stdout, ran)
    ran = tries.run("server", "--table", TABLE, "--port", "0", "--bind", "192.0.2.1")
    tries.holds("an address of another machine", ran.returncode == 4 and "192.0.2.1:0 can't be bound: " in ran.stderr, ran)
    table = tries.file("table.toml")
    with open(table, "w") as file:
        file.write("shards = 1\n# a table\nrange = [\n")
    ran = tries.run("server", "--table", table, "--port", "0")
    told = re.fullmatch(rf"shardkv-server: the table {re.escape(table)}, line [345]: .+\n", ran.stderr)
    tries.holds("a table's line", ran.returncode == 3 and told, ran)


def bound(tries):
    """It listens at the address that is named, and at no other."""
    with tries.server("--bind", "127.0.0.2", "--until-input-ends") as server:
        tries.holds("its address", server.listening.startswith("listening 127.0.0.2:"), server.listening)
        with socket.create_connection(("127.0.0.2", server.port), timeout=5) as stream:
            stream.sendall(request(b"PING"))
            tries.holds("it is answered there", stream.recv(100) == b"+PONG\r\n")
        try:
            socket.create_connection(("127.0.0.1", server.port), timeout=1).close()
            tries.holds("no other address", False)
        except OSError:
            tries.holds("no other address", True)
        server.end_input()
        tries.holds("it ends", server.ended()[0] == 0)


def reported(tries):
    """A line a second tells how far it is; on a terminal each takes the place of the one before."""
    with tries.server("--report", "1", "--until-input-ends") as server:
        client = Client(server.port)
        for key in (b"a", b"b", b"a"):
            client.ask(b"INCR", key)
        lines = [server.process.stderr.readline()]
        while (found := REPORT.fullmatch(lines[-1].rstrip("\n"))) and found[2] != "3" and len(lines) < 5:
            lines.append(server.process.stderr.readline())
        tries.holds("a report", found and found.groups() == ("1", "3", "2"), lines)
    ours, theirs = pty.openpty()
    with tries.serve("--report", "1", stderr=theirs) as server:
        os.close(theirs)
        time.sleep(2.5)
        os.kill(server.process.pid, signal.SIGINT)
        status = server.ended()[0]
        told = b""
        try:
            while piece := os.read(ours, 4096):
                told += piece
        except OSError:
            pass
        shown = told.decode().split("\r\x1b[K")
        tries.holds("reports on a terminal", status == 0 and len(shown) > 2 and REPORT.fullmatch(shown[1]) and shown[-1] == "", told)
    os.close(ours)


def fill(client):
    """The number of strings of 4,000 bytes that were set until one is refused, and by which line; that of an ended connection comes with it."""
    for number in range(20000):
        reply = client.ask(b"SET", b"key%d" % number, b"x" * 4000)
        if reply != b"+OK":
            return number, reply
    return number, None


def limited(tries):
    """Under a limit of memory a store that is full says so, and to whoever asks then; it ends well. Where the limit is too small for a server
    none listens."""
    for memory in ("64", "96"):
        with tries.serve("--memory", memory) as server:
            client = Client(server.port)
            number, refused = fill(client)
            tries.holds(f"a store that is full with {memory} MiB", number > 1000 and refused in (OUT_OF_MEMORY, NO_MEMORY), (number, refused))
            if refused == OUT_OF_MEMORY:
                reply = client.ask(b"GET", b"key1")
                tries.holds("it goes on", reply in (b"$4000", OUT_OF_MEMORY), reply)
            os.kill(server.process.pid, signal.SIGTERM)
            status, said, _ = server.ended()
            closed = re.match(r"closed requests=(\d+) ", said)
            tries.holds("it ends", status == 0 and closed and 0 <= int(closed[1]) - number <= 2, (status, said, number))
    for memory in range(8, 41, 4):
        with tries.serve("--memory", str(memory), "--workers", "4") as server:
            if server.port is None:
                tries.holds(f"{memory} MiB don't serve", server.ended()[0] != 0)
                continue
            try:
                Client(server.port, timeout=5).ask(b"PING")
            except (Ended, ConnectionError):
                pass
            tries.holds(f"{memory} MiB serve", server.process.poll() is None)


def asked(tries):
    """Help and the version, alike of all programs, and words that are none."""
    versions = set()
    for name in ("solo", "server", "replay", "picture"):
        for word in ("--help", "-h"):
            ran = tries.run(name, word)
            tries.holds(f"{name} {word}", ran.returncode == 0 and re.search(rf"^Usage: shardkv[-_]{name} ", ran.stdout, re.M) and not ran.stderr, ran)
        for word in ("--version", "-V"):
            ran = tries.run(name, word)
            found = re.fullmatch(rf"shardkv-{name} (\d+\.\d+\.\d+)\n", ran.stdout)
            tries.holds(f"{name} {word}", ran.returncode == 0 and found and not ran.stderr, ran)
            versions.add(found and found[1])
        if name != "solo":
            ran = tries.run(name, "--tables", "t")
            tries.holds(f"{name} --tables", ran.returncode == 2 and ran.stderr.startswith("error: ") and not ran.stdout, ran)
    tries.holds("one version", len(versions) == 1, versions)


def main():
    with tempfile.TemporaryDirectory() as room:
        tries = Tries(sys.argv[1], room)
        for workers, how in (("1", signal.SIGTERM), ("2", signal.SIGINT)):
            ended_in_work(tries, workers, how)
        for tried in (killed, ended_by_input, traced, killed_with_trace, full, told_before, bound, reported, limited, asked):
            tried(tries)
    print(f"{tries.passed} passed, {tries.failed} failed")
    sys.exit(tries.failed > 0)


main()
