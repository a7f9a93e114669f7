#!/usr/bin/env python3
"""What a server's memory holds: memory.py PROGRAM TABLE [REQUESTS]

A string of 64 MB is set and removed. 50 clients, 16 requests in flight each, ask REQUESTS SETs of 1,000 keys (200,000 unless
told). After each the server has no more memory than before, but for 2 MiB: nothing is kept of a request that was answered.

Then it is limited to little more address space than it listens with, by the C library's own arenas and by one. One client
APPENDs 64 KiB, doubling to 4 MiB, until it is refused; another one SETs meanwhile, every 50 ms. The first one leaves, and a third
asks. Each is answered within five seconds, rightly or by an error line, in one try of three: a machine that has other work is late now
and then, a server that waits for memory is late each time.

The last line is `N passed, M failed`, and the status is 1 where one failed.
"""
import os
import resource
import sys
import threading
import time

from clients import Client, Ended, Server, ask_sets, memory

MIB = 1 << 20
SLACK = 2 * MIB
LATE, TRIES = 5.0, 3
NO_ANSWER = f"no answer for {LATE:.0f} s"
LONG_ENOUGH = ("--connections", "1000000", "--max-steps", str(1 << 40))


def large_string(program, table):
    with Server(program, table, *LONG_ENOUGH) as server:
        client = Client(server.port)
        client.ask(b"SET", b"large", b"x")
        before = memory(server.process.pid, "VmRSS")
        client.ask(b"SET", b"large", b"x" * (64 * MIB))
        for _ in range(2):
            client.ask(b"DEL", b"large")
        return kept(before, memory(server.process.pid, "VmRSS"))


def many_requests(program, table, count):
    with Server(program, table, *LONG_ENOUGH) as server:
        ask_sets(server.port, count // 4)
        before = memory(server.process.pid, "VmRSS")
        ask_sets(server.port, count)
        return kept(before, memory(server.process.pid, "VmRSS"))


def kept(before, after):
    print(f"  {before / MIB:.1f} MiB before, {after / MIB:.1f} after")
    return f"{(after - before) / MIB:.1f} MiB were kept" if after > before + SLACK else None


def limited(program, table, limit, arenas):
    """A server of eleven clients under a limit of address space in bytes, where there is one."""
    held = (lambda: resource.setrlimit(resource.RLIMIT_AS, (limit, limit))) if limit else None
    server = Server(program, table, *LONG_ENOUGH, env={**os.environ, **arenas}, preexec_fn=held)
    clients = [Client(server.port, timeout=LATE) for _ in range(11)]
    for client in clients:
        client.ask(b"PING")
    return server, clients


def growing_string(program, table, more, arenas):
    server, _ = limited(program, table, None, arenas)
    with server:
        least = memory(server.process.pid, "VmPeak")
    server, (grower, other, third, *_) = limited(program, table, least + more * MIB, arenas)
    with server:
        try:
            grow(grower, other)
            grower.close()
            time.sleep(0.5)
            third.ask(b"GET", b"beside")
        except TimeoutError:
            return NO_ANSWER
        return None if server.process.poll() is None else f"it ended by {server.process.returncode}"


def in_time(case):
    """What is wrong with a case, that nobody was answered in each of its tries among it."""
    for _ in range(TRIES):
        fault = case()
        if fault != NO_ANSWER:
            return fault
    return f"{NO_ANSWER}, in each of {TRIES} tries"


def grow(grower, other):
    """The one appends until it is refused or ended, the other one sets."""
    for doubled in range(120):
        came = []
        appending = threading.Thread(target=lambda: came.append(appended(grower, 65536 * min(2 ** doubled, 64))))
        appending.start()
        while appending.is_alive():
            answered(lambda: other.ask(b"SET", b"beside", b"1"))
            appending.join(0.05)
        if isinstance(came[0], TimeoutError):
            raise came[0]
        if not isinstance(came[0], bytes) or not came[0].startswith(b":"):
            return


def appended(client, size):
    try:
        return client.ask(b"APPEND", b"grown", b"x" * size)
    except (Ended, OSError) as fault:
        return fault


def answered(ask):
    """A connection that was ended counts as an answer."""
    try:
        ask()
    except TimeoutError:
        raise
    except (Ended, OSError):
        pass


def main():
    program, table, *count = sys.argv[1:]
    count = int(count[0]) if count else 200_000
    cases = [("a string of 64 MB", lambda: large_string(program, table)),
             (f"{count} requests", lambda: many_requests(program, table, count))]
    for arenas in ({}, {"MALLOC_ARENA_MAX": "1"}):
        for more in (8, 24, 64):
            cases.append((f"a string that grows in {more} MiB, {'one arena' if arenas else 'own arenas'}",
                          lambda more=more, arenas=arenas: growing_string(program, table, more, arenas)))
    passed = failed = 0
    for name, case in cases:
        print(name)
        fault = in_time(case)
        if fault:
            print(f"  FAILED: {fault}")
        passed, failed = passed + (not fault), failed + bool(fault)
    print(f"{passed} passed, {failed} failed")
    sys.exit(failed > 0)


main()
