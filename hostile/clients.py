"""What the scripts of this folder share: requests and replies of RESP2, a client, and a server that is started for it."""
import re
import signal
import socket
import subprocess
import time

OUT_OF_MEMORY = b"-ERR out of memory"
# By these a connection ends; of its last request nothing is said.
NO_MEMORY = b"-ERR no memory for this connection"
NO_THREAD = b"-ERR no thread for this connection"


def request(*words):
    """The request of these words."""
    parts = [b"*%d\r\n" % len(words)]
    for word in words:
        parts.append(b"$%d\r\n%s\r\n" % (len(word), word))
    return b"".join(parts)


def requests(text):
    """The requests of a text in which `;` stands between requests, and a space between words; '' is the empty word."""
    return [[b"" if word == "''" else word.encode() for word in line.split()] for line in text.split(";") if line.split()]


def first_reply(held):
    """The first whole reply of these bytes, and what is behind it; None where none is whole."""
    line, found, rest = held.partition(b"\r\n")
    if not found:
        return None
    if line[:1] == b"$" and line != b"$-1":
        size = int(line[1:])
        if len(rest) < size + 2:
            return None
        return line + b"\r\n" + rest[:size], rest[size + 2:]
    if line[:1] == b"*" and line != b"*-1":
        for _ in range(int(line[1:])):
            item = first_reply(rest)
            if item is None:
                return None
            said, rest = item
            line += b"\r\n" + said
    return line, rest


def replies(held):
    """The whole replies of these bytes, and what is left behind them."""
    all_of_them = []
    while (found := first_reply(held)) is not None:
        said, held = found
        all_of_them.append(said)
    return all_of_them, held


class Ended(Exception):
    """The server ended the connection."""


class Client:
    """A connection to a server on this machine."""

    def __init__(self, port, timeout=30.0):
        self.stream = socket.create_connection(("127.0.0.1", port), timeout=timeout)
        self.held = b""

    def more(self):
        piece = self.stream.recv(1 << 18)
        if not piece:
            raise Ended
        self.held += piece

    def line(self):
        while b"\r\n" not in self.held:
            self.more()
        line, self.held = self.held.split(b"\r\n", 1)
        return line

    def skip(self, count):
        left = count - len(self.held)
        self.held = self.held[count:]
        while left > 0:
            piece = self.stream.recv(1 << 18)
            if not piece:
                raise Ended
            self.held = piece[left:]
            left -= len(piece)

    def skip_lines(self, count):
        while count > 0:
            count -= self.held.count(b"\r\n")
            self.held = self.held[-1:] if self.held.endswith(b"\r") else b""
            if count > 0:
                self.more()

    def reply(self):
        """A reply's first line; what follows is dropped, but for short strings."""
        line = self.line()
        kind, number = line[:1], line[1:]
        if kind == b"$" and int(number) >= 0:
            size = int(number)
            if size > 64:
                self.skip(size + 2)
                return line
            while len(self.held) < size + 2:
                self.more()
            text, self.held = self.held[:size], self.held[size + 2:]
            return text
        if kind == b"*":
            for _ in range(int(number)):
                self.reply()
        return line

    def whole_reply(self):
        """The next reply, all of it but for its last line end."""
        while (found := first_reply(self.held)) is None:
            self.more()
        said, self.held = found
        return said

    def send(self, *words):
        self.stream.sendall(request(*words))

    def ask(self, *words):
        self.send(*words)
        return self.reply()

    def close(self):
        self.stream.close()


def ask_sets(port, count):
    """50 clients ask so many SETs together, 16 in flight each."""
    clients = [Client(port) for _ in range(50)]
    for first in range(0, count, 16 * len(clients)):
        for number, client in enumerate(clients):
            at = first + 16 * number
            client.stream.sendall(b"".join(request(b"SET", b"key:%d" % (i % 1000), b"%d" % i) for i in range(at, at + 16)))
        for client in clients:
            client.skip_lines(16)
    for client in clients:
        client.close()


def memory(process, field):
    """What the system tells of a process's memory, in bytes."""
    with open(f"/proc/{process}/status") as status:
        return int(re.search(rf"{field}:\s+(\d+)", status.read())[1]) * 1024


class Server:
    """A server that was started with these options, at a port of its own; it is stopped where it hasn't ended."""

    def __init__(self, program, table, *options, has_input=False, **how):
        self.process = subprocess.Popen(
            [program, "--table", table, "--port", "0", *options],
            stdin=subprocess.PIPE if has_input else subprocess.DEVNULL, stdout=subprocess.PIPE, stderr=subprocess.PIPE, text=True, **how)
        listening = self.process.stdout.readline()
        # There is none where the server ended before it listened.
        self.port = int(listening.rsplit(":", 1)[1]) if listening else None

    def __enter__(self):
        return self

    def __exit__(self, *_):
        self.stop()

    def stop(self):
        self.process.send_signal(signal.SIGKILL)
        self.process.communicate()

    def ended_soon(self, seconds=60.0):
        """The status by which the server ends, and what it says last on both streams. It gets connections until it has had all
        that it takes."""
        latest = time.time() + seconds
        while self.process.poll() is None and time.time() < latest:
            try:
                socket.create_connection(("127.0.0.1", self.port), timeout=0.05).close()
            except OSError:
                time.sleep(0.001)
        self.process.send_signal(signal.SIGKILL)
        said, told = self.process.communicate()
        return self.process.returncode, said, told
