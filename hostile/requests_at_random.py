"""Requests at random, of all commands and none, over a few keys and words that are easily wrong."""
KEYS = [b"a", b"b", b"c", b"d", b"", b"{a}1", b"key"]
WORDS = KEYS + [b"0", b"1", b"-1", b"9223372036854775807", b"-9223372036854775808", b"2x", b"NX", b"LEFT", b"BEFORE", b"\r\n", b"*1"]
NAMES = """PING ECHO GET SET SETNX GETSET GETDEL MGET STRLEN GETRANGE INCR DECR INCRBY DECRBY APPEND SETRANGE MSET MSETNX RENAME DEL UNLINK
EXISTS TYPE RENAMENX DBSIZE FLUSHALL HSET HMSET HSETNX HINCRBY HGET HMGET HDEL HEXISTS HLEN HKEYS HVALS HGETALL HSTRLEN LPUSH
RPUSH LPUSHX RPUSHX LPOP RPOP LLEN LINDEX LSET LRANGE LTRIM LREM LINSERT LMOVE RPOPLPUSH SADD SREM SISMEMBER SMISMEMBER SCARD
SMEMBERS SMOVE SINTER SUNION SDIFF SINTERSTORE SUNIONSTORE SDIFFSTORE MULTI EXEC DISCARD""".split()


def request_at_random(dice):
    """The words of a request."""
    name = dice.choice(NAMES)
    # What opens, runs and drops a list takes no word; with one it spoils the list.
    most = 1 if name in ("MULTI", "EXEC", "DISCARD") and dice.randrange(8) else 6
    return [name.encode()] + [dice.choice(WORDS) for _ in range(dice.randrange(most))]
