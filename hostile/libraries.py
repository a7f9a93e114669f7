#!/usr/bin/env python3
"""A server as the clients that people have know it: libraries.py PROGRAMS

PROGRAMS is the folder crates/ of this repository with the programs as the gate leaves them. One server over four shards is driven by
redis-benchmark, and then by four client libraries as Debian has them: python3-redis, hiredis (libraries/hiredis.c, which gcc compiles),
ruby-redis and node-redis. Each does the same things through its own calls: plain requests with strings of any bytes, missing keys, lists,
hashes and sets on several shards, errors, a pipeline of 1,000 requests, and a transaction over all shards as the library sends it. What each
reply has to be follows from what its command means. At the end the server's input ends: it ends by 0, and its trace replays to `agree`.

The last line is `N passed, M failed`, and what isn't there and so was left out; the status is 1 where one failed.
"""
import os
import shutil
import subprocess
import sys
import tempfile

from clients import Client

HERE = os.path.dirname(os.path.abspath(__file__))
TABLE = os.path.join(HERE, "..", "examples/four-shards.toml")
# How many requests redis-benchmark sends of each kind, and how many a pipeline has.
MANY, PIPELINE = 2000, 1000
# Keys of a library that lie on several shards, and all bytes but one, line ends among them.
ACCOUNTS = 8
BYTES = bytes(range(255))


class Otherwise(Exception):
    """Something came that isn't what the commands mean."""


def same(what, came, wanted):
    if came != wanted:
        raise Otherwise(f"{what}: {came!r} came, and {wanted!r} was wanted")


def run(words, **how):
    """What a program says that ends well within a minute."""
    ran = subprocess.run(words, capture_output=True, text=True, timeout=60, stdin=subprocess.DEVNULL, **how)
    if ran.returncode != 0:
        raise Otherwise(f"{os.path.basename(words[0])} ended by {ran.returncode}: {(ran.stdout + ran.stderr).strip()[-500:]}")
    return ran.stdout


# ---- what there is

def has_benchmark(_room):
    return shutil.which("redis-benchmark")


def has_python(_room):
    # Where Debian's packages lie, whichever Python runs this.
    sys.path.append("/usr/lib/python3/dist-packages")
    try:
        import redis
        return redis
    except ImportError:
        return None


def has_hiredis(room):
    if not shutil.which("gcc") or not os.path.isfile("/usr/include/hiredis/hiredis.h"):
        return None
    program = os.path.join(room, "hiredis")
    run(["gcc", "-O2", "-Wall", "-Werror", "-o", program, os.path.join(HERE, "libraries", "hiredis.c"), "-lhiredis"])
    return program


def answers(words, env=None):
    """Whether a program is there and ends well."""
    return bool(shutil.which(words[0])) and subprocess.run(words, capture_output=True, timeout=60, env=env).returncode == 0


def has_ruby(_room):
    return answers(["ruby", "-e", "require 'redis'"])


# Where Debian's packages lie, whichever node runs them.
NODE = {**os.environ, "NODE_PATH": "/usr/share/nodejs:/usr/lib/nodejs"}


def has_node(_room):
    return answers(["node", "-e", "require('redis')"], NODE)


# ---- what is done

def benchmark(port, _program):
    """Each kind of request so many times, by 20 connections with 16 requests in flight, and what they leave."""
    client = Client(port)
    for kinds, leaves in (
            ("set,get", [((b"STRLEN", b"key:__rand_int__"), b":3")]),
            ("incr", [((b"GET", b"counter:__rand_int__"), b"%d" % MANY)]),
            ("lpush,rpush", [((b"LLEN", b"mylist"), b":%d" % (2 * MANY))]),
            ("lpop,rpop", [((b"EXISTS", b"mylist"), b":0")]),
            ("sadd,hset", [((b"SMEMBERS", b"myset"), b"*1"), ((b"HLEN", b"myhash"), b":1")]),
            ("mset", [((b"STRLEN", b"key:__rand_int__"), b":3")])):
        told = run(["redis-benchmark", "-p", str(port), "-n", str(MANY), "-c", "20", "-P", "16", "-q", "-t", kinds])
        for kind in kinds.upper().split(","):
            if kind not in told or "requests per second" not in told:
                raise Otherwise(f"{kind} isn't told of: {told[-300:]!r}")
        for request, wanted in leaves:
            same(b" ".join(request), client.ask(*request), wanted)
    client.close()


def python(port, redis):
    client = redis.Redis(port=port)
    same("SET", client.set("py:bytes", BYTES), True)
    same("GET", client.get("py:bytes"), BYTES)
    same("SET ''", client.set("py:none", ""), True)
    same("MGET", client.mget("py:bytes", "py:none", "py:absent"), [BYTES, b"", None])
    same("SETNX", [client.setnx("py:once", "1"), client.setnx("py:once", "2")], [True, False])
    same("RPUSH", client.rpush("py:list", "a", "b", "c"), 3)
    same("LRANGE", client.lrange("py:list", 0, -1), [b"a", b"b", b"c"])
    same("HSET", client.hset("py:hash", mapping={"f": "1", "g": "2"}), 2)
    same("HGETALL", client.hgetall("py:hash"), {b"f": b"1", b"g": b"2"})
    same("SADD", [client.sadd("py:left", "x", "y"), client.sadd("py:right", "y", "z")], [2, 2])
    same("SINTER", client.sinter("py:left", "py:right"), {b"y"})
    same("SUNIONSTORE", client.sunionstore("py:both", "py:left", "py:right"), 3)
    try:
        raise Otherwise(f"INCR of a list gave {client.incr('py:list')}")
    except redis.ResponseError as error:
        same("the error", str(error)[:9], "WRONGTYPE")
    pipeline = client.pipeline(transaction=False)
    for _ in range(PIPELINE):
        pipeline.incr("py:count")
    same("a pipeline", pipeline.execute(), list(range(1, PIPELINE + 1)))
    # A pipeline as it is made by default: a transaction.
    pipeline = client.pipeline()
    for number in range(ACCOUNTS):
        pipeline.incrby(f"py:account:{number}", number)
    pipeline.mget([f"py:account:{number}" for number in range(ACCOUNTS)])
    wanted = list(range(ACCOUNTS))
    same("a transaction", pipeline.execute(), [*wanted, [b"%d" % number for number in wanted]])
    same("DEL", client.delete(*(f"py:account:{number}" for number in range(ACCOUNTS))), ACCOUNTS)
    client.close()


def hiredis(port, program):
    run([program, str(port)])


def ruby(port, _there):
    run(["ruby", os.path.join(HERE, "libraries", "ruby.rb"), str(port)])


def node(port, _there):
    run(["node", os.path.join(HERE, "libraries", "node.js"), str(port)], env=NODE)


LIBRARIES = [("redis-benchmark", has_benchmark, benchmark), ("python3-redis", has_python, python), ("hiredis", has_hiredis, hiredis),
             ("ruby-redis", has_ruby, ruby), ("node-redis", has_node, node)]


def tried(port, room):
    """By name, what came out otherwise, if something did; and the names of those that aren't there."""
    came, lacks = {}, []
    for name, finds, drives in LIBRARIES:
        try:
            there = finds(room)
            if there:
                came[name] = drives(port, there)
            else:
                lacks.append(name)
        except Exception as fault:
            came[name] = f"{type(fault).__name__}: {fault}"
    return came, lacks


def ends_well(server, replay, trace):
    """The server's input ends: it ends by 0, and its trace replays to `agree`."""
    said, told = server.communicate(timeout=60)
    if server.returncode != 0 or not said.startswith("closed "):
        return f"it ended by {server.returncode}: {told[-300:]}"
    ran = subprocess.run([replay, "--table", TABLE, "--trace", trace], capture_output=True, timeout=120)
    return None if ran.returncode == 0 and ran.stdout.endswith(b"agree\n") else f"the replay ended by {ran.returncode}"


def main():
    folder, = sys.argv[1:]

    def path(name):
        return os.path.join(folder, f"shardkv_{name}", "out", f"shardkv_{name}")
    with tempfile.TemporaryDirectory() as room:
        trace = os.path.join(room, "run.trace")
        server = subprocess.Popen(
            [path("server"), "--table", TABLE, "--port", "0", "--until-input-ends", "--connections", str(1 << 40),
             "--max-steps", str(1 << 40), "--trace", trace],
            stdin=subprocess.PIPE, stdout=subprocess.PIPE, stderr=subprocess.PIPE, text=True)
        try:
            listening = server.stdout.readline()
            if not listening:
                sys.exit(f"no server: {server.communicate()[1]}")
            came, lacks = tried(int(listening.rsplit(":", 1)[1]), room)
            came["the end"] = ends_well(server, path("replay"), trace)
        finally:
            server.kill()
    for name, fault in came.items():
        print(f"{name}: FAILED: {fault}" if fault else name)
    failed = sum(fault is not None for fault in came.values())
    print(f"{len(came) - failed} passed, {failed} failed" + (f"; not there: {', '.join(lacks)}" if lacks else ""))
    sys.exit(failed > 0)


main()
