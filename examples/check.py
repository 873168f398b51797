#!/usr/bin/env python3
"""Runs the examples of the documents and compares what comes with what they show: check.py [WHAT ..]

In a fenced block a line that begins with `$ ` is a command, and the lines behind it are what it writes. The commands of
one document run in one new folder, which has the program and the examples. A command `./fca serve`, `examples/chair.py` or
`examples/expert.sh` is a terminal that stays open, numbered from 1, and so is one with `examples/student.py`; a row
`| 2 | typed | answered |` of a table types a line at terminal 2, and `| 1 | Ctrl-C | |` presses that. The port 7000 becomes a free one.
Each script of `examples/` is replayed too, and its text is fed back; other scripts have cases of their own. WHAT is a document,
`scripts`, `chair`, `plans` or `rules`, and all of them where nothing is said. The status is 0 where all is as shown. The program is
./fca of this repository, or what the variable FCA names.
"""
import os
import re
import signal
import socket
import subprocess
import sys
import tempfile
import time

import check_chair
import check_plans
import check_rules

TOP = os.path.dirname(os.path.dirname(os.path.abspath(__file__)))
FCA = os.path.abspath(os.environ.get("FCA") or os.path.join(TOP, "fca"))
DOCUMENTS = ["README.md", "docs/TUTORIAL.md", "docs/FORMATS.md"]
SECONDS = 60
TYPED = re.compile(r"\| (\d+) \| `(.*)` \| `(.*)` \|\n")
PRESSED = re.compile(r"\| (\d+) \| Ctrl-C \| \|\n")
TERMINALS = ("./fca serve ", "examples/chair.py ", "examples/expert.sh ")


class Terminal:
    """A command that stays open, and the lines that it should have written so far."""

    def __init__(self, number, command, shown, folder):
        self.number, self.shown = number, shown
        self.out, self.err, self.is_chair = tempfile.TemporaryFile(), None, command.startswith("examples/chair.py ")
        if self.is_chair:
            self.err = tempfile.TemporaryFile()
        self.child = subprocess.Popen(["bash", "-c", command], cwd=folder, stdin=subprocess.PIPE, stdout=self.out, stderr=self.err)

    def is_listening(self):
        return b" seats at " in os.pread(self.err.fileno(), 1 << 16, 0)

    def written(self):
        return os.pread(self.out.fileno(), 1 << 24, 0).decode().splitlines()

    def wait(self, is_so):
        end = time.time() + SECONDS
        while not is_so() and self.child.poll() is None and time.time() < end:
            time.sleep(0.05)

    def has_written(self):
        """Whether as many lines are written as should be there."""
        return len(self.written()) >= len(self.shown)

    def type(self, line, answer):
        """Types a line, and waits for its answer."""
        self.shown = self.shown + [answer]
        try:
            self.child.stdin.write((line + "\n").encode())
            self.child.stdin.flush()
        except BrokenPipeError:
            return  # its end is found when all that it wrote is compared
        self.wait(self.has_written)
        time.sleep(0.2)  # a session gives back what it holds behind its last answer

    def press(self):
        """Ctrl-C, and waits for the end."""
        self.child.send_signal(signal.SIGINT)
        self.child.wait(SECONDS)

    def end(self):
        try:
            self.child.stdin.close()
        except BrokenPipeError:
            pass  # a line that it did not read any more
        self.child.wait(SECONDS)


def steps(path):
    """In their order the line number of each command, or of each line typed at a terminal, with what should come of it."""
    found, shown, in_block = [], [], False
    with open(path) as text:
        for number, line in enumerate(text, 1):
            typed, pressed = TYPED.fullmatch(line), PRESSED.fullmatch(line)
            if line.startswith("```"):
                shown, in_block = [], not in_block
            elif in_block and line.startswith("$ "):
                shown = []
                found.append((number, line[2:].rstrip("\n"), shown))
            elif in_block:
                shown.append(line.rstrip("\n"))
            elif typed:
                found.append((number, int(typed[1]), (typed[2], typed[3])))
            elif pressed:
                found.append((number, int(pressed[1]), None))
    return found


LISTENS, IS_CONNECTED = "0A", "01"


def sockets(port, state):
    """How many sockets of this machine at the port are in this state."""
    with open("/proc/net/tcp") as table:
        fields = [line.split() for line in table]
    return sum(line[1].endswith(":%04X" % int(port)) and line[3] == state for line in fields)


def free_port():
    with socket.socket() as free:
        free.bind(("127.0.0.1", 0))
        return str(free.getsockname()[1])


class Run:
    """The examples of one document, and how many of them did not write what is shown."""

    def __init__(self, name, folder):
        self.name, self.folder, self.port = name, folder, free_port()
        self.terminals, self.count, self.wrong = [], 0, 0

    def compare(self, number, written, shown):
        self.count += 1
        if written != shown:
            self.wrong += 1
            print("%s:%d: shown are\n  %s\nand written were\n  %s" % (self.name, number, "\n  ".join(shown), "\n  ".join(written)))

    def open(self, number, command, shown):
        """Opens a terminal, and waits until the next one finds it listening, or connected. A chair greets at once."""
        terminal, others = Terminal(number, command, shown, self.folder), len(self.terminals)
        self.terminals.append(terminal)
        if terminal.is_chair:
            terminal.wait(terminal.is_listening)
        elif others == 0:
            terminal.wait(lambda: sockets(self.port, LISTENS) > 0)
        elif self.terminals[0].is_chair:
            terminal.wait(terminal.has_written)
        else:
            terminal.wait(lambda: sockets(self.port, IS_CONNECTED) >= others)

    def close(self):
        for terminal in reversed(self.terminals):
            terminal.end()
            self.compare(terminal.number, terminal.written(), terminal.shown)
        self.terminals = []

    def command(self, number, command, shown):
        command = command.replace("7000", self.port)
        if command.startswith(TERMINALS) or "examples/student.py " in command:
            self.open(number, command, shown)
            return
        self.close()
        words = ["bash", "-c", command]
        ran = subprocess.run(words, cwd=self.folder, stdin=subprocess.DEVNULL, stdout=subprocess.PIPE, timeout=SECONDS)
        self.compare(number, ran.stdout.decode().splitlines(), shown)

    def all(self):
        for number, what, shown in steps(os.path.join(TOP, self.name)):
            if isinstance(what, int) and shown is None:
                self.terminals[what - 1].press()
            elif isinstance(what, int):
                self.terminals[what - 1].type(*shown)
            else:
                self.command(number, what, shown)
        self.close()


def check_document(name):
    with tempfile.TemporaryDirectory() as folder:
        os.symlink(FCA, os.path.join(folder, "fca"))
        os.symlink(os.path.join(TOP, "examples"), os.path.join(folder, "examples"))
        run = Run(name, folder)
        run.all()
    print("%s: %d examples, %d not as shown" % (name, run.count, run.wrong))
    return run.wrong


def replayed(table, script):
    ran = subprocess.run([FCA, "replay", table], input=script, stdout=subprocess.PIPE, timeout=SECONDS)
    return ran.returncode, ran.stdout


def check_scripts():
    """Each script ends with no open question over the table of its name, and its text fed back gives itself."""
    folder = os.path.join(TOP, "examples")
    names = sorted(name[: -len(".script")] for name in os.listdir(folder) if name.endswith(".script"))
    wrong = 0
    for name in names:
        table = os.path.join(folder, name + ".cxt")
        with open(os.path.join(folder, name + ".script"), "rb") as script:
            status, text = replayed(table, script.read())
        if status != 0 or replayed(table, text) != (0, text):
            wrong += 1
            print("examples/%s.script: status %d, or its text fed back gives another" % (name, status))
    print("examples: %d scripts, %d not as they should be" % (len(names), wrong))
    return wrong


CASES = {"scripts": check_scripts, "chair": lambda: check_chair.check(FCA), "plans": lambda: check_plans.check(FCA), "rules": lambda: check_rules.check(FCA)}


def main():
    subprocess.run([FCA], stderr=subprocess.DEVNULL)  # builds the program where it is not built
    os.environ["FCA"] = FCA  # for the scripts of examples/
    what = sys.argv[1:] or DOCUMENTS + list(CASES)
    wrong = sum(CASES[name]() if name in CASES else check_document(name) for name in what)
    sys.exit(1 if wrong else 0)


if __name__ == "__main__":
    main()
