#!/usr/bin/env python3
"""Each growth refused in turn: growths.py PROGRAMS REFUSE [NAME ..]

PROGRAMS is a folder with the programs shardkv_solo, shardkv_server, shardkv_replay and shardkv_picture, each in
NAME/out/NAME, and the programs of unit tests, NAME/out/NAME_tests, as the gate leaves them. REFUSE is the library that refuse.c
becomes. Each program is run with the Nth block of memory that it asks for refused, N from 1 until a run meets no refusal; then with
that block and all behind it, or, of a server, those of a streak.

- `solo`: each reply is the error line for want of memory, or what a store answers that is asked the other requests alone; so too each
  place of EXEC's array.
  Where the store ends for want of memory, its replies are the beginning of such a list.
- `server`, with one worker and with two, and without a trace: so too, over two connections, one of which may be refused or ended, with
  its list; and where a trace was written, a replay of it agrees, and has a row for each request that was answered by its shards.
- `replay` and `picture`: the whole output and its status, or the status for want of memory (or for a thread).

The line of each says how far N went and how many runs met a refusal; the last one is `N passed, M failed`.
"""
import os
import subprocess
import sys
import tempfile

from clients import NO_MEMORY, NO_THREAD, OUT_OF_MEMORY, Client, Ended, Server, replies, request, requests

TOP = os.path.join(os.path.dirname(os.path.abspath(__file__)), "..")
TABLE = os.path.join(TOP, "examples/two-shards.toml")

# Strings and whole numbers, ranges, lists beside wrong types, hashes, sets, lists of MULTI.
SOLO = [
    "SET '' ''; GET ''; GET a; SET b long-long-long-long-long; GETSET b short; DEL '' b; GET b",
    "SET a 9223372036854775807; INCR a; GET a; DECRBY a -9223372036854775808; INCR b; INCRBY b +1; GET b",
    "LPUSH a 1; GET a; MGET a c; LMOVE a c LEFT RIGHT; EXISTS a c c; LRANGE c 0 -1; RPUSH c 2 3; LINSERT c BEFORE 3 x; LRANGE c 0 9",
    "HSET a f 1 g 2 f 3; HGETALL a; HSET a f; FOO; SET b 1 NX XX; SET b 1 EX 10; HINCRBY a f 4; HDEL a g; HGETALL a; TYPE b",
    "SADD a m; SMOVE a a m; SMOVE y a m; SETRANGE b 3 x; GET b; SETRANGE b -1 x; SADD c m n o; SINTERSTORE d a c; SMEMBERS d; DBSIZE",
    "MSET a 1 c 2 a 3; MGET a c; RENAME a d; APPEND d 45; MSETNX d 1 e 2; KEYS; FLUSHALL; DBSIZE; MGET a c d e",
    "MULTI; SET a 1; INCR a; RPUSH b 1 2; LRANGE b 0 -1; GET b; EXEC; GET a; MULTI; SET a 7; DISCARD; MULTI; EXEC; MULTI; GET; EXEC; GET a",
]

# Over two shards by two connections: what lies on one, on the other and on both, and a transaction over both.
SERVER = [
    (0, "MSET a 1 c 2"), (1, "MSET a 3 c 4"), (0, "GET a"), (1, "GET c"),
    (0, "INCR a"), (0, "RPUSH y 1 2 3"), (1, "LMOVE y x LEFT RIGHT"), (0, "SADD z m n"), (1, "SINTERSTORE b z z"),
    (0, "RENAME a d"), (1, "HSET h f 1"), (0, "MGET a c d"), (1, "SMEMBERS b"), (1, "LRANGE y 0 -1"), (0, "DBSIZE"),
    (1, "MULTI"), (1, "INCR a"), (1, "RPUSH l x"), (1, "MSET e 1 f 2"), (1, "MGET a d e"), (1, "EXEC"), (0, "MGET a c e"), (0, "LLEN l"),
]

# Unit tests that are written for a block that is refused: they try again where it was one of their own. (Not the one of `layer_tests` that
# has a crew: the C library takes a block for a thread, too, and it doesn't look for a thread that is refused, as those of `system_tests` do.)
TESTS = [
    ("data_tests", "decoder::goes_on_where_memory_was_refused"),
    ("data_tests", "repeats::packets_of_an_open_request_count_once"),
    ("data_tests", "repeats::earlier_requests_of_a_connection_are_past"),
    ("shardkv_solo", "tests::connections::replies_are_whole_where_memory_fails"),
    ("shardkv_solo", "tests::transactions::transactions_where_memory_fails"),
    ("layer_tests", "memory::one_in_turn_where_memory_fails"),
    ("layer_tests", "memory::two_in_turn_where_memory_fails"),
    ("system_tests", "memory::crossing_where_memory_fails"),
    ("system_tests", "memory::large_sets_by_two_where_memory_fails"),
    ("system_tests", "memory::same_key_twice_where_memory_fails"),
    ("system_tests", "memory::repeated_where_memory_fails"),
    ("system_tests", "memory::list_where_memory_fails"),
    ("system_tests", "memory::own_faults_come_before_memory"),
    ("system_tests", "memory::runs_where_memory_fails"),
    ("system_tests", "memory::runs_by_a_crew_of_one_where_memory_fails"),
    ("system_tests", "memory::large_sets_by_a_crew_of_two_where_memory_fails"),
    ("shardkv_replay", "tests::memory::traces_are_read_and_written_where_memory_fails"),
    ("shardkv_replay", "tests::memory::a_system_is_dumped_where_memory_fails"),
    ("shardkv_replay", "tests::memory::a_store_on_one_map_is_dumped_where_memory_fails"),
    ("shardkv_replay", "tests::memory::reports_come_whole_where_memory_fails"),
    ("shardkv_replay", "tests::memory::reports_of_a_crew_come_whole_where_memory_fails"),
]

# How many blocks a server is refused in a row: then there is memory again, and each request that was let in comes to its end.
STREAK = 20

# How many lists of requests that may have been served are looked at, where some were not answered.
MOST = 32

# The statuses of the programs for want of memory, and of a thread.
STATUSES = {"solo": (3,), "replay": (6, 5), "picture": (6,), "server": (7,)}


class Programs:
    def __init__(self, folder, refuse):
        self.folder, self.refuse, self.rooms = folder, refuse, tempfile.TemporaryDirectory()
        self.mark = os.path.join(self.rooms.name, "met")

    def path(self, name):
        return os.path.join(self.folder, f"shardkv_{name}", "out", f"shardkv_{name}")

    def file(self, name):
        return os.path.join(self.rooms.name, name)

    def refusing(self, which):
        """The environment of a program that is refused `which`, N or N.., or nothing where it is empty."""
        wanted = {"REFUSE": which} if which else {}
        return {**os.environ, "LD_PRELOAD": self.refuse, "REFUSE_MET": self.mark, **wanted}

    def met(self):
        """Whether the last program met a refusal."""
        try:
            os.remove(self.mark)
            return True
        except FileNotFoundError:
            return False

    def run(self, name, words, which="", given=b""):
        return subprocess.run([self.path(name), *words], input=given, capture_output=True, env=self.refusing(which), timeout=60)


class Plain:
    """What a store answers that meets no refusal, by the list of its requests."""

    def __init__(self, programs):
        self.programs, self.known = programs, {}

    def answers(self, asked):
        key = b"".join(request(*words) for words in asked)
        if key not in self.known:
            ran = self.programs.run("solo", [], given=key)
            self.known[key] = replies(ran.stdout)[0]
        return self.known[key]

    def faults(self, asked, said):
        """What is wrong with these replies to as many requests. One for which there was no memory changed nothing; of one that wasn't
        answered (None) it isn't known, so it may have been served or not."""
        served = [[]]
        for number, (words, reply) in enumerate(zip(asked, said), 1):
            if reply is None:
                served = (served + [before + [words] for before in served])[:MOST]
            elif reply != OUT_OF_MEMORY:
                wanted = [self.answers(before + [words])[-1] for before in served]
                served = [before + [words] for before, answer in zip(served, wanted) if answer == reply]
                if not served:
                    return [f"to request {number}, {words}, came {reply}, and one of {wanted} was wanted"]
        return []


# Which blocks are refused, by how much later those of the next run begin and how many they are: each alone; each and all behind it; one streak
# behind another.
ALONE, ALL_BEHIND, STREAKS = (1, 1), (1, None), (STREAK, STREAK)


def each_refusal(programs, run, *ways):
    """Runs with blocks refused in each of these ways, until none is met: how far that went, how many runs met a refusal, and the faults.
    `run` says what is wrong."""
    faults, refusals, far = [], 0, 0
    for step, size in ways:
        number, meets = 1, True
        while meets:
            which = f"{number}..{number + size - 1 if size else ''}"
            wrong = run(which)
            meets = programs.met()
            refusals += meets
            faults += [f"REFUSE={which}: {fault}" for fault in wrong]
            number += step
        far = max(far, number - 1 - step)
    return far, refusals, faults


def without_starved_members(asked, said):
    """These requests and replies without the members of an EXEC for which there was no memory. An EXEC for which there was none drops its
    list, as DISCARD does."""
    left, members = [], []
    for words, reply in zip(asked, said):
        if reply == b"+QUEUED":
            members.append(len(left))
        elif words == [b"EXEC"]:
            if reply == OUT_OF_MEMORY:
                words, reply = [b"DISCARD"], b"+OK"
            elif members and reply is not None and reply.startswith(b"*"):
                each = replies(reply.partition(b"\r\n")[2] + b"\r\n")[0]
                starved = {place for place, one in zip(members, each) if one == OUT_OF_MEMORY}
                left = [pair for place, pair in enumerate(left) if place not in starved]
                each = [one for one in each if one != OUT_OF_MEMORY]
                reply = b"\r\n".join([b"*%d" % len(each), *each])
        if words in ([b"EXEC"], [b"DISCARD"]):
            members = []
        left.append((words, reply))
    return [words for words, _ in left], [reply for _, reply in left]


def of_one_store(asked, said):
    """What a store may have been asked of one connection's requests, of which one that wasn't answered (None) ended it: an open list went
    with it. Of an EXEC that wasn't answered it isn't known whether it was run, nor which of its members starved."""
    left, members = [], None
    for place, (words, reply) in enumerate(zip(asked, said)):
        if reply is None and members is not None:
            rest = [(words, reply) for words, reply in zip(asked[place + 1:], said[place + 1:])]
            yield [*left, ([b"DISCARD"], b"+OK"), *rest]
            for starved in range(1 << len(members) if words == [b"EXEC"] else 0):
                gone = {each for number, each in enumerate(members) if starved >> number & 1}
                yield [pair for each, pair in enumerate(left) if each not in gone] + [(words, None), *rest]
            return
        if words == [b"MULTI"] and reply == b"+OK":
            members = []
        elif words in ([b"EXEC"], [b"DISCARD"]):
            members = None
        elif reply == b"+QUEUED":
            members.append(len(left))
        left.append((words, reply))
    yield left


def solo(programs, plain, text):
    asked = requests(text)
    given = b"".join(request(*words) for words in asked)

    def run(which):
        ran = programs.run("solo", [], which, given)
        said, rest = replies(ran.stdout)
        wrong = plain.faults(*without_starved_members(asked, said)) + [f"a beginning of a reply: {rest}" for _ in range(bool(rest))]
        if ran.returncode not in (0, *STATUSES["solo"]) or (ran.returncode == 0 and len(said) != len(asked)):
            wrong.append(f"status {ran.returncode} behind {len(said)} replies")
        return wrong
    return each_refusal(programs, run, ALONE, ALL_BEHIND)


def whole_or_refused(programs, name, words):
    """A program that says all of its output, or that memory is wanting."""
    wanted = programs.run(name, words)

    def run(which):
        ran = programs.run(name, words, which)
        if ran.returncode in STATUSES[name]:
            wrong = [] if wanted.stdout.startswith(ran.stdout) else ["other output"]
        else:
            wrong = [] if (ran.returncode, ran.stdout) == (wanted.returncode, wanted.stdout) else [f"status {ran.returncode}, other output"]
        return wrong
    return each_refusal(programs, run, ALONE, ALL_BEHIND)


def unit_test(programs, crate, name):
    """A unit test that is written for a block that is refused, and so passes whichever it is."""
    program = os.path.join(programs.folder, crate, "out", f"{crate}_tests")

    def run(which):
        ran = subprocess.run([program, name], capture_output=True, env=programs.refusing(which), timeout=60)
        return [] if ran.returncode == 0 and ran.stdout.strip() == b"test result: ok" else [f"status {ran.returncode}: {ran.stdout}{ran.stderr}"]
    return each_refusal(programs, run, ALONE)


class Asking:
    """Two clients that ask one after another. One that is refused or ended isn't answered, and comes back."""

    def __init__(self, port):
        self.port, self.clients, self.said = port, {}, []

    def ask(self, who, words):
        try:
            if who not in self.clients:
                self.clients[who] = Client(self.port, timeout=5.0)
            self.clients[who].send(*words)
            said = self.clients[who].whole_reply()
        except (Ended, OSError):
            said = NO_MEMORY
        if said in (NO_MEMORY, NO_THREAD):
            self.clients.pop(who, None)
        self.said.append(None if said == NO_MEMORY else OUT_OF_MEMORY if said == NO_THREAD else said)

    def close(self):
        for client in self.clients.values():
            client.close()


def replayed(programs, trace, workers):
    """What is wrong with a trace that was written."""
    ran = programs.run("replay", ["--table", TABLE, "--trace", trace, "--workers", str(workers)])
    return [] if ran.returncode == 0 and ran.stdout.endswith(b"agree\n") else [f"the replay ended by {ran.returncode}: {ran.stderr}"]


def server(programs, plain, workers, traced=True):
    trace = programs.file("run.trace")
    tracing = ["--trace", trace] if traced else []
    asked = [(who, requests(line)[0]) for who, line in SERVER]

    def run(which):
        for left in (trace, trace + ".part"):
            if os.path.exists(left):
                os.remove(left)
        with Server(programs.path("server"), TABLE, "--workers", str(workers), "--connections", "5", *tracing,
                    env=programs.refusing(which)) as begun:
            asking = Asking(begun.port)
            if begun.port is not None:
                for who, words in asked:
                    asking.ask(who, words)
                asking.close()
            status, said, told = begun.ended_soon()
        may_be = of_one_store([words for _, words in asked[:len(asking.said)]], asking.said)
        wrong = min((plain.faults(*without_starved_members(*zip(*pairs))) for pairs in may_be if pairs), key=len, default=[])
        if status not in (0, *STATUSES["server"]):
            wrong.append(f"status {status}: {said}{told}")
        if traced and (status == 0 or os.path.exists(trace)):
            wrong += replayed(programs, trace, workers)
        return wrong
    return each_refusal(programs, run, ALONE, STREAKS)


def cases(programs):
    plain = Plain(programs)
    traces = {name: ["--table", TABLE, "--trace", os.path.join(TOP, f"examples/{name}.trace")] for name in ("crossing", "repeated")}
    for number, text in enumerate(SOLO, 1):
        yield f"solo {number}", lambda text=text: solo(programs, plain, text)
    for workers in (1, 2):
        for name, trace in traces.items():
            words = [*trace, "--workers", str(workers)]
            yield f"replay {workers} {name}", lambda words=words: whole_or_refused(programs, "replay", words)
    for crate, name in TESTS:
        yield f"{crate} {name}", lambda crate=crate, name=name: unit_test(programs, crate, name)
    for name, trace in traces.items():
        yield f"picture {name}", lambda trace=trace: whole_or_refused(programs, "picture", trace)
    for workers in (1, 2):
        yield f"server {workers}", lambda workers=workers: server(programs, plain, workers)
    yield "server untraced", lambda: server(programs, plain, 1, traced=False)


def main():
    folder, refuse, *wanted = sys.argv[1:]
    programs, passed, failed = Programs(folder, os.path.abspath(refuse)), 0, 0
    for name, case in cases(programs):
        if wanted and name.split()[0] not in wanted:
            continue
        far, refusals, faults = case()
        print(f"{name}: each of {far} blocks refused, in {refusals} runs")
        for fault in faults[:5]:
            print(f"  FAILED: {fault}")
        passed, failed = passed + (not faults), failed + bool(faults)
    print(f"{passed} passed, {failed} failed")
    sys.exit(failed > 0)


main()
