#!/usr/bin/env python3
"""A server that has too little memory: want_of_memory.py PROGRAM TABLE

Runs PROGRAM, which is shardkv-server, with TABLE under limits of 30, 90 and 140 MiB of address space, by one worker and by
two. Clients ask for more than there is: replies of up to 256 MB, strings of 16 MB that are taken out again, words of 16 MB from
two clients at once, and 400,000 small requests. Four others go on meanwhile: each of their requests is answered within a second,
rightly or by the error line that there is no memory, or no thread for a connection. Afterwards 100 requests are answered
rightly, and the server's processor is idle. A case in which nothing but an answer's time was wrong is tried up to three
times: a machine that has other work is late now and then, a server that waits for memory is late each time.

The last line is `N passed, M failed`, and the status is 1 where one failed.
"""
import os
import re
import resource
import sys
import threading
import time

from clients import NO_MEMORY, NO_THREAD, OUT_OF_MEMORY, Client, Ended, Server, request

MIB = 1 << 20
LATE, TRIES = 1.0, 3
# The C library else sets 64 MiB of address space aside for a thread, and tries that again at each request of memory.
ONE_ARENA = {"MALLOC_ARENA_MAX": "1"}
REFUSED = (OUT_OF_MEMORY, NO_MEMORY, NO_THREAD)


def answered(ask):
    """What came of an ask; a connection that was ended counts as an answer."""
    try:
        return ask()
    except (Ended, ConnectionError):
        return None


def long_replies(port):
    client = Client(port)
    client.ask(b"SET", b"long", b"x" * 65536)
    times = 2
    while times <= 4096:
        if answered(lambda: client.ask(b"MGET", *[b"long"] * times)) is None:
            client = Client(port)
        times *= 2
    client.close()


def long_strings_taken(port):
    client = Client(port)
    for command in (b"GETDEL", b"GETSET"):
        words = (command, b"taken") + ((b"y",) if command == b"GETSET" else ())
        if answered(lambda: client.ask(b"SET", b"taken", b"x" * (16 * MIB))) is None:
            client = Client(port)
        if answered(lambda: client.ask(*words)) is None:
            client = Client(port)
    for command in (b"LPOP", b"RPOP"):
        if answered(lambda: client.ask(b"RPUSH", b"items", b"x" * (16 * MIB))) is None:
            client = Client(port)
        if answered(lambda: client.ask(command, b"items")) is None:
            client = Client(port)
    client.close()


def long_words(port):
    def send():
        client = Client(port)
        for _ in range(2):
            if answered(lambda: client.ask(b"SET", b"words", b"x" * (16 * MIB))) is None:
                client = Client(port)
        client.close()

    both = [threading.Thread(target=send) for _ in range(2)]
    for each in both:
        each.start()
    for each in both:
        each.join()


def small_requests(port):
    client = Client(port)
    batch = request(b"GET", b"small") * 1000
    for _ in range(400):
        try:
            client.stream.sendall(batch)
            client.skip_lines(1000)
        except (Ended, ConnectionError):
            client = Client(port)
    client.close()


class Other(threading.Thread):
    """One of the four that go on: its requests are answered at once, rightly or for want of memory."""

    def __init__(self, port, number):
        super().__init__()
        self.port, self.number = port, number
        self.ends, self.faults, self.right, self.starved, self.slowest = False, [], 0, 0, 0.0

    def run(self):
        client = None
        key, count = b"other%d" % self.number, 0
        while not self.ends:
            begun = time.time()
            try:
                client = client or Client(self.port, timeout=10.0)
                said = client.ask(b"INCR", key)
            except (Ended, ConnectionError):
                client = None
                self.starved += 1
                time.sleep(0.01)
                continue
            except TimeoutError:
                self.faults.append("no answer in 10 s")
                return
            self.slowest = max(self.slowest, time.time() - begun)
            if said in REFUSED:
                self.starved += 1
            elif re.fullmatch(rb":\d+", said) and int(said[1:]) > count:
                self.right, count = self.right + 1, int(said[1:])
            else:
                self.faults.append(f"said {said!r} behind {count}")
            time.sleep(0.005)


def processor_seconds(process):
    with open(f"/proc/{process}/stat") as stat:
        fields = stat.read().rsplit(")", 1)[1].split()
    return (int(fields[11]) + int(fields[12])) / os.sysconf("SC_CLK_TCK")


def served(program, table, limit, workers, load):
    """What goes wrong with a server that has so much memory and is loaded so, and how long its slowest answer took."""
    with Server(program, table, "--workers", str(workers), "--connections", "1000000", "--max-steps", str(1 << 40),
                env={**os.environ, **ONE_ARENA},
                preexec_fn=lambda: resource.setrlimit(resource.RLIMIT_AS, (limit * MIB, limit * MIB))) as server:
        port = server.port
        others = [Other(port, number) for number in range(4)]
        for other in others:
            other.start()
        loading = threading.Thread(target=answered, args=(lambda: load(port),), daemon=True)
        loading.start()
        loading.join(timeout=60)
        faults = ["the load doesn't end"] if loading.is_alive() else []
        time.sleep(0.3)
        for other in others:
            other.ends = True
        for other in others:
            other.join()
            faults += other.faults
        faults += afterwards(server.process, port)
        slowest = max(other.slowest for other in others)
        print(f"  {sum(o.right for o in others)} right, {sum(o.starved for o in others)} starved, slowest {slowest:.2f} s")
        return faults, slowest


def in_time(case):
    """What goes wrong in a case, that each of its tries was late among it."""
    for _ in range(TRIES):
        faults, slowest = case()
        if faults or slowest <= LATE:
            return faults
    return [f"an answer took {slowest:.1f} s, in the last of {TRIES} tries that were late"]


def let_in(port):
    """A client that the server lets in: those before it have left, and their threads end within a second."""
    for _ in range(20):
        client = Client(port, timeout=10.0)
        if answered(lambda: client.ask(b"ECHO", b"in")) == b"in":
            return client
        client.close()
        time.sleep(0.1)
    raise Ended


def afterwards(server, port):
    """The server goes on, and does nothing where it isn't asked."""
    if server.poll() is not None:
        return [f"ended by {server.returncode}"]
    try:
        client = let_in(port)
        right = sum(client.ask(b"ECHO", b"%d" % i) == b"%d" % i for i in range(50))
        right += sum(client.ask(b"EXISTS", b"nothing") == b":0" for _ in range(50))
        client.close()
    except (Ended, OSError) as fault:
        return [f"afterwards: {fault!r}"]
    before = processor_seconds(server.pid)
    time.sleep(1)
    busy = processor_seconds(server.pid) - before
    return ([f"{right} of 100 right afterwards"] if right < 100 else []) + (
        [f"busy for {busy:.2f} s of a second afterwards"] if busy > 0.1 else [])


def short_of_memory(program, table):
    """Each limit, number of workers and load, and what goes wrong there."""
    for limit in (30, 90, 140):
        for workers in (1, 2):
            for load in (long_replies, long_strings_taken, long_words, small_requests):
                yield (f"{limit} MiB, workers {workers}, {load.__name__}",
                       lambda limit=limit, workers=workers, load=load: served(program, table, limit, workers, load))


def main():
    program, table = sys.argv[1:]
    passed = failed = 0
    for name, case in short_of_memory(program, table):
        print(name)
        faults = in_time(case)
        for fault in faults:
            print(f"  FAILED: {fault}")
        passed, failed = passed + (not faults), failed + bool(faults)
    print(f"{passed} passed, {failed} failed")
    sys.exit(failed > 0)


main()
