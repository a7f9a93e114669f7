#!/usr/bin/env python3
"""A server that can't start: starts.py PROGRAMS

PROGRAMS is a folder with the program shardkv_server in shardkv_server/out/shardkv_server, as the gate leaves it. It is started with words,
tables and ports that it can't serve by. It has to end by the status of each and say why on standard error, by one line where the words
were right, and nothing on standard output.
"""
import os
import socket
import subprocess
import sys
import tempfile

WHOLE = b"shards = 1\nrange = [{ from = 0, to = 1023, shard = 0 }]\n"

# What is no table: no ranges, none of them, a slot without a shard, too many shards, and what is no text.
NO_TABLES = [
    b"shards = 1\n",
    b"shards = 1\nrange = []\n",
    b"shards = 1\nrange = [{ from = 0, to = 1022, shard = 0 }]\n",
    WHOLE.replace(b"shards = 1", b"shards = 65"),
    b"# \xff\n" + WHOLE,
]

WORDS, TABLE, NETWORK = 2, 3, 4


def ended(program, *words):
    """The status by which the program ends, where it says why; else what it said."""
    ran = subprocess.run([program, *words], stdin=subprocess.DEVNULL, capture_output=True, timeout=60)
    told = ran.stderr.decode(errors="replace")
    if ran.returncode == WORDS:
        says_why = told.startswith("error: ")
    else:
        says_why = told.startswith("shardkv-server: ") and told.count("\n") == 1
    return ran.returncode if says_why and not ran.stdout else (ran.returncode, ran.stdout, told)


def cases(program, room):
    table = os.path.join(room, "table.toml")
    yield "no words", WORDS, ended(program)
    yield "a table that isn't there", TABLE, ended(program, "--table", table)
    for text in NO_TABLES:
        with open(table, "wb") as file:
            file.write(text)
        yield f"the table {text!r}", TABLE, ended(program, "--table", table, "--port", "0")
    with open(table, "wb") as file:
        file.write(WHOLE)
    yield "a port above 65535", WORDS, ended(program, "--table", table, "--port", "65536")
    with socket.socket() as other:
        other.bind(("127.0.0.1", 0))
        other.listen()
        yield "a port that is taken", NETWORK, ended(program, "--table", table, "--port", str(other.getsockname()[1]))


def main():
    program, passed, failed = os.path.join(sys.argv[1], "shardkv_server", "out", "shardkv_server"), 0, 0
    with tempfile.TemporaryDirectory() as room:
        for name, wanted, status in cases(program, room):
            if status != wanted:
                print(f"FAILED: {name}: status {wanted} was wanted, and it ended by {status}")
            passed, failed = passed + (status == wanted), failed + (status != wanted)
    print(f"{passed} passed, {failed} failed")
    sys.exit(failed > 0)


main()
