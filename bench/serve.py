#!/usr/bin/env python3
"""Clients of `serve` at once: serve.py [--hostile] [--draws] [--processes N] [CLIENTS [LINES]], 64 clients of 1,000 lines each where nothing is said.

Each client is an expert who knows a table of its own: it draws, answers by the first of its rows that refutes the
question, and else confirms; with --draws it draws and never answers. It sends a line once the one before it was answered. The clients
are shared out to N processes (1), each of one thread, which waits for whichever of its clients is answered next. With --hostile three of them are others: one says nothing, one resets its connection
after a draw, and one sends as many lines as it may and never reads. At the end the text is checked: it has what each
client was told was accepted or taken, in that place, and replayed it gives itself.
"""
import argparse
import os
import pickle
import random
import selectors
import socket
import struct
import subprocess
import sys
import tempfile
import time

sys.path.insert(0, os.path.dirname(os.path.abspath(__file__)))
import measure

ATTRIBUTES = 16


def pattern(row):
    return "".join("X" if row >> k & 1 else "." for k in range(ATTRIBUTES))


def members(text):
    return sum(1 << k for k, mark in enumerate(text) if mark == "X")


def connect(port):
    """A connection to the program, which may still be about to listen."""
    for _ in range(100):
        try:
            return socket.create_connection(("127.0.0.1", port))
        except ConnectionRefusedError:
            time.sleep(0.1)
    sys.exit("the program does not listen")


class Client:
    """One connection, and the expert at it, whose last line is `quit`."""

    def __init__(self, port, seed, lines):
        draws = random.Random(seed)
        self.rows = [draws.getrandbits(ATTRIBUTES) for _ in range(40)]
        self.link = connect(port)
        self.link.setsockopt(socket.IPPROTO_TCP, socket.TCP_NODELAY, 1)
        self.greeting, self.left, self.replies = 3 + ATTRIBUTES, lines, 0
        self.part, self.question, self.row = "", None, None
        self.recorded, self.is_done = [], False

    def refuting(self):
        """The first of the rows that refutes the question."""
        premise, conclusion = self.question
        for row in self.rows:
            if premise & ~row == 0 and conclusion & ~row != 0:
                return row
        return None

    def request(self):
        self.left -= 1
        if self.left == 0:
            return "quit"
        if self.question is None:
            return "draw"
        self.row = self.refuting()
        return "confirm" if self.row is None else "row %s r%d" % (pattern(self.row), self.row)

    def take(self, reply):
        words = reply.split(" ")
        self.replies += 1
        self.is_done = reply == "bye"
        if words[0] == "accepted":
            self.recorded.append(b"# %d %s %s " % (int(words[1]), *[pattern(part).encode() for part in self.question]))
        elif words[0] == "taken":
            self.recorded.append(b"# %d %s r%d\n" % (int(words[1]), pattern(self.row).encode(), self.row))
        if words[0] == "breaks":
            self.rows.remove(self.row)
        elif words[0] == "ask":
            self.question = (members(words[1]), members(words[2]))
        else:
            self.question = None

    def read(self):
        """Takes what came, answers each whole line with the next request, and tells whether more is to come. Connections are
        closed when all sessions have ended, so the reply to `quit` is the last that is waited for."""
        came = self.link.recv(65536)
        lines = (self.part + came.decode()).split("\n")
        self.part = lines.pop()
        for line in lines:
            if self.greeting > 0:
                self.greeting -= 1
            else:
                self.take(line)
            if self.greeting == 0 and self.left > 0:
                self.link.sendall((self.request() + "\n").encode())
        return came != b"" and not self.is_done


class Drawing(Client):
    """One who draws and never answers. It counts the replies and does not look into them, so that it takes little of the processors."""

    def read(self):
        came = self.link.recv(65536)
        ended = came.count(b"\n")
        greeted = min(self.greeting, ended)
        self.greeting -= greeted
        self.replies += ended - greeted
        if ended > 0 and self.greeting == 0 and self.left > 0:
            self.left -= 1
            self.link.send(b"draw\n" if self.left > 0 else b"quit\n")
            return True
        return came != b"" and (self.left > 0 or ended == 0)


class Silent:
    """A connection over which nothing is said."""

    def __init__(self, port):
        self.link = connect(port)

    def end(self):
        self.link.close()


class Resetting(Silent):
    """One that is reset after a draw, while its question is held."""

    def __init__(self, port):
        super().__init__(port)
        self.link.sendall(b"draw\ndraw\n")
        time.sleep(0.5)
        self.link.setsockopt(socket.SOL_SOCKET, socket.SO_LINGER, struct.pack("ii", 1, 0))
        self.link.close()


class Deaf(Silent):
    """One that sends as many lines as its buffers take, and never reads."""

    def __init__(self, port, lines):
        super().__init__(port)
        self.link.setblocking(False)
        text = b"draw\n" * lines
        try:
            while text:
                text = text[self.link.send(text) :]
        except BlockingIOError:
            pass


def talk(clients):
    """Lets the clients talk until each was answered `bye`."""
    ready = selectors.DefaultSelector()
    for client in clients:
        ready.register(client.link, selectors.EVENT_READ, client)
    while ready.get_map():
        for key, _ in ready.select():
            if not key.data.read():
                ready.unregister(key.fileobj)
                key.fileobj.close()


class Group:
    """A process with some of the clients. They connect at once, and talk when told to."""

    def __init__(self, port, seeds, lines, only_draws):
        ready, is_ready = os.pipe()
        go, self.go = os.pipe()
        self.results, results = os.pipe()
        self.process = os.fork()
        if self.process == 0:
            client = Drawing if only_draws else Client
            clients = [client(port, seed, lines) for seed in seeds]
            os.write(is_ready, b"!")
            os.read(go, 1)
            talk(clients)
            with os.fdopen(results, "wb") as out:
                pickle.dump([(client.replies, client.recorded) for client in clients], out)
            os._exit(0)
        os.close(results)
        os.read(ready, 1)

    def begin(self):
        os.write(self.go, b"!")

    def end(self):
        """How many replies each client had, and which answers it was told of as recorded."""
        with os.fdopen(self.results, "rb") as results:
            found = pickle.load(results)
        os.waitpid(self.process, 0)
        return found


def missing(said, record):
    """How many of the lines that clients were told of have no such line in the sections of the text."""
    sections = record[record.index(b"# recorded ") :].splitlines(keepends=True)
    rows = set(sections)
    rules = {line[: line.find(b"{")] for line in sections}
    return sum(line not in rows and line not in rules for line in said)


def other_endings(sessions):
    """How the sessions ended that did not end by `quit`."""
    lines = sessions.decode().splitlines()[1:]
    return ", ".join(line.split(" ", 2)[2] for line in lines if not line.endswith(" quit")) or "none"


def main():
    parser = argparse.ArgumentParser()
    parser.add_argument("--hostile", action="store_true")
    parser.add_argument("--draws", action="store_true")
    parser.add_argument("--processes", type=int, default=1)
    parser.add_argument("clients", type=int, nargs="?", default=64)
    parser.add_argument("lines", type=int, nargs="?", default=1000)
    said = parser.parse_args()
    count, lines = said.clients, said.lines
    table = measure.table(1, 0, ATTRIBUTES, 0)
    with socket.socket() as free:
        free.bind(("127.0.0.1", 0))
        port = free.getsockname()[1]
    words = [measure.FCA, "serve", table, "--experts", str(count), "--listen", "127.0.0.1:%d" % port]
    with tempfile.TemporaryFile() as out:
        server = subprocess.Popen(words, stdout=out)
        others = [Silent(port), Deaf(port, 100000), Resetting(port)] if said.hostile else []
        seeds = range(count - len(others))
        groups = [Group(port, seeds[place :: said.processes], lines, said.draws) for place in range(said.processes)]
        begin = time.time()
        for group in groups:
            group.begin()
        found = [one for group in groups for one in group.end()]
        took = time.time() - begin
        for other in others:
            other.end()
        _, ended, usage = os.wait4(server.pid, 0)
        status = os.waitstatus_to_exitcode(ended)
        out.seek(0)
        text = out.read()
    record, _, sessions = text.partition(b"# sessions ")
    begin = time.time()
    replayed = subprocess.run([measure.FCA, "replay", table], input=text, stdout=subprocess.PIPE).stdout
    again = time.time() - begin
    replies = sum(one[0] for one in found)
    served = sum(one[0] == lines for one in found)
    print("clients %d, of whom %d hostile, lines each %d, replies %d, status %d" % (count, len(others), lines, replies, status))
    print("clients whose every line was answered: %d of %d" % (served, len(found)))
    print("seconds %.2f, lines a second %.0f, bytes of text %d" % (took, replies / took, len(text)))
    print("processor seconds %.2f, peak of memory %d bytes" % (usage.ru_utime + usage.ru_stime, usage.ru_maxrss * 1024))
    told = [line for one in found for line in one[1]]
    print("answers told as recorded %d, missing from the text %d" % (len(told), missing(told, record)))
    print("sessions that ended by quit: %d, others: %s" % (sessions.count(b" quit\n"), other_endings(sessions)))
    print("replays to itself: %s, in %.2f seconds" % (replayed == record, again))


main()
