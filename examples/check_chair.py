"""The cases of the chair, the student's client and record.py, for check.py: over loopback, with the program that it is told."""
import os
import re
import signal
import socket
import subprocess
import sys
import tempfile
import time
import types

import student

HERE = os.path.dirname(os.path.abspath(__file__))
VEHICLES = os.path.join(HERE, "vehicles.cxt")
TABLES = [os.path.join(HERE, "vehicles-%s.csv" % name) for name in ("ann", "bob", "cleo")]
NAMES = ["Ann", "Bob", "Cleo", "Dan", "Eve"]
SECONDS = 60


def free_port():
    with socket.socket() as free:
        free.bind(("127.0.0.1", 0))
        return free.getsockname()[1]


def read(path):
    with open(path, encoding="utf-8") as file:
        return file.read()


def wait_until(is_so, what):
    end = time.time() + SECONDS
    while not is_so():
        if time.time() > end:
            raise AssertionError("waited in vain until " + what)
        time.sleep(0.02)


class Chair:
    """A chair in a folder of its own, at a free port."""

    begun_ones = []

    def __init__(self, folder, program, *words):
        self.folder, self.port = folder, free_port()
        self.err = tempfile.TemporaryFile()
        command = [sys.executable, os.path.join(HERE, "chair.py"), *words, "--program", program, "--listen", "127.0.0.1:%d" % self.port]
        self.child = subprocess.Popen(command, cwd=folder, stdin=subprocess.DEVNULL, stdout=subprocess.DEVNULL, stderr=self.err)
        self.begun_ones.append(self)

    def said(self):
        return os.pread(self.err.fileno(), 1 << 20, 0).decode()

    def begun(self):
        wait_until(lambda: " seats at " in self.said() or self.child.poll() is not None, "the chair listens")
        return self

    def ended(self, by=None):
        """The chair's status; it is asked to end by a signal."""
        if by is not None:
            self.child.send_signal(by)
        return self.child.wait(SECONDS)


class Client:
    """A connection of a student."""

    def __init__(self, port, name=None):
        self.link = socket.create_connection(("127.0.0.1", port))
        self.link.settimeout(SECONDS)
        self.lines = self.link.makefile("r", newline="\n")
        if name:
            self.link.sendall(("name %s\n" % name).encode())
        self.first = self.read()
        self.number = int(self.read().split()[1]) if self.first == "exploration 1" else None
        self.attributes = [self.read() for _ in range(int(self.read().split()[1]))] if self.number else []

    def read(self):
        return self.lines.readline().rstrip("\n")

    def ask(self, line):
        self.link.sendall((line + "\n").encode())
        return self.read()

    def close(self):
        self.lines.close()
        self.link.close()


def rows_of(path):
    """The patterns and names of a table in CSV."""
    records = [line.split(",") for line in read(path).splitlines()[1:]]
    return [("".join("X" if cell else "." for cell in cells), name) for name, *cells in records]


def refutes(row, question):
    pairs = list(zip(row, *question.split(" ")[1:3]))
    has_premise = all(mark == "X" for mark, premise, _ in pairs if premise == "X")
    return has_premise and any(mark != "X" for mark, _, conclusion in pairs if conclusion == "X")


def answered(client, rows):
    """Draws a question and answers it from the rows; the reply, `done` where none is open."""
    reply = client.ask("draw")
    if not reply.startswith("ask "):
        return reply
    for pattern, name in rows:
        if refutes(pattern, reply):
            reply_to_row = client.ask("row %s %s" % (pattern, name))
            if not reply_to_row.startswith("breaks"):
                return reply_to_row
    return client.ask("confirm")


def replayed(program, table, record):
    with open(record, "rb") as script:
        return subprocess.run([program, "replay", table], stdin=script, stdout=subprocess.PIPE).stdout.decode()


def without_head(text):
    return re.sub(r"\A((exploration|holders|known|expert) .*\n)*", "", text)


def expect(is_so, what):
    if not is_so:
        raise AssertionError(what)


def expect_whole(program, record):
    """The record replayed gives the program's own text, but for the names and the sessions; so does the record as it stands."""
    written, text = replayed(program, VEHICLES, record), read(record + ".text")
    expect(written == read(record).partition("# sessions")[0], "%s replayed gives another text" % record)
    expect(without_head(written) == without_head(text).partition("# sessions")[0], "%s is not the program's text" % record)
    expect(without_head(read(record)) == without_head(text), "%s is not whole" % record)


# ---- the cases


def killed_and_back(chair, rows):
    """A student at a terminal draws a question and is killed; the seat is kept, the question given back, and the student comes back."""
    command = ["bash", os.path.join(HERE, "expert.sh"), "127.0.0.1", str(chair.port), "Eve"]
    terminal = subprocess.Popen(command, stdin=subprocess.PIPE, stdout=subprocess.PIPE, bufsize=0)
    terminal.stdin.write(b"draw\n")
    written = b""
    while b"\nask " not in written:
        written += terminal.stdout.read(1)
    terminal.kill()
    terminal.communicate()
    wait_until(lambda: "Eve leaves seat 5" in chair.said(), "Eve is missed")
    eve = Client(chair.port, "Eve")
    expect(eve.number == 5, "Eve sits at %s" % eve.number)
    expect(eve.ask("confirm") == "not held", "Eve's question was not given back")
    return eve


def first_day(program, folder, rows):
    chair = Chair(folder, program, VEHICLES, "--names", "--experts", "5", "--record", "monday").begun()
    students = [Client(chair.port, name) for name in NAMES[:4]]
    expect([student.number for student in students] == [1, 2, 3, 4], "the seats are not in the order of coming")
    students.append(killed_and_back(chair, rows))
    for student, own in zip(students, rows):
        answered(student, own)
    lines = read(os.path.join(folder, "monday"))
    expect(replayed(program, VEHICLES, os.path.join(folder, "monday")).startswith(lines), "the live record is not what replay gives")
    expect(Client(chair.port, "Finn").first == "no seat is free", "a sixth name has a seat")
    expect(Client(chair.port, "Ann").first == "somebody sits at your seat", "two sit at one seat")
    expect(chair.ended(signal.SIGINT) == 0, chair.said())
    expect_whole(program, os.path.join(folder, "monday"))


def second_day(program, folder, rows):
    """The same five come in another order, and explore until nothing is open."""
    chair = Chair(folder, program, VEHICLES, "--experts", "5", "--record", "tuesday", "--after", "monday").begun()
    students = {name: Client(chair.port, name) for name in reversed(NAMES)}
    expect([students[name].number for name in NAMES] == [1, 2, 3, 4, 5], "the names have other seats than the day before")
    while "done" not in [answered(students[name], own) for name, own in zip(NAMES, rows)]:
        pass
    expect(students["Bob"].ask("quit") == "bye", "quit is not answered by bye")
    expect(chair.ended(signal.SIGTERM) == 0, chair.said())
    expect_whole(program, os.path.join(folder, "tuesday"))
    monday, tuesday = read(os.path.join(folder, "monday")), read(os.path.join(folder, "tuesday"))
    expect(tuesday.startswith(monday.partition("# recorded")[0]), "tuesday does not begin as monday ended")
    expect("\n# open 0\n" in tuesday, "a question is open on tuesday")


def two_days(program, folder):
    known_by = [rows_of(table) for table in TABLES]
    rows = [known_by[place % len(known_by)] for place in range(len(NAMES))]
    first_day(program, folder, rows)
    second_day(program, folder, rows)


def record_py(program, what, record):
    words = [sys.executable, os.path.join(HERE, "record.py"), what, VEHICLES, record, "--program", program]
    return subprocess.run(words, stdout=subprocess.PIPE, check=True).stdout


def broken_off(program, folder):
    """The chair itself is killed: its record has all that was answered, the program writes its text, and the next chair goes on from it."""
    chair = Chair(folder, program, VEHICLES, "--experts", "2", "--holders", "1", "--record", "broken").begun()
    question = Client(chair.port).ask("draw")
    wait_until(lambda: "leaves seat 1" in chair.said(), "the first leaves")
    holding = Client(chair.port)
    expect(holding.ask("draw") == question, "the question was not given back")
    chair.ended(signal.SIGKILL)
    record = os.path.join(folder, "broken")
    wait_until(lambda: "# sessions 2\n" in read(record + ".text"), "the program writes its text")
    expect(without_head(read(record + ".text")).startswith(without_head(read(record))), "the record is not a front of the text")
    chair = Chair(folder, program, VEHICLES, "--experts", "2", "--record", "mended", "--after", "broken").begun()
    Client(chair.port).ask("draw")
    expect(Client(chair.port).ask("draw") == question, "a question is held by nobody")
    expect(chair.ended(signal.SIGINT) == 0, chair.said())
    expect_whole(program, os.path.join(folder, "mended"))


def anew(program, folder):
    """From a record to a table and a known file: over them the same questions are open, and the rules go on from the same number."""
    for name, open_count in (("monday", None), ("tuesday", 0)):
        record, paths = os.path.join(folder, name), {}
        for what, ending in (("table", "cxt"), ("known", "known")):
            paths[what] = os.path.join(folder, "%s.%s" % (name, ending))
            with open(paths[what], "wb") as file:
                file.write(record_py(program, what, record))
        words = [program, "replay", paths["table"], "--known", paths["known"]]
        text = subprocess.run(words, input=b"", stdout=subprocess.PIPE).stdout.decode()
        before = read(record)
        expect(opened(text) == opened(before), "%s: other questions are open" % name)
        expect(text.count("\nknown ") == int(re.search(r"# accepted (\d+)\n# (\d+ [.X]|open)", before)[1]), "%s: not as many are known as were accepted" % name)


def opened(text):
    return re.search(r"# open .*\n(?:# [.X].*\n)*", text)[0]


def hostile(program, folder):
    """One who never reads, one with a line that is too long, one with half a line; a fourth is served, and what they held is given back."""
    chair = Chair(folder, program, VEHICLES, "--experts", "4", "--record", "hostile").begun()
    deaf, long, half, good = (Client(chair.port) for _ in range(4))
    flood(deaf.link, b"draw\n")
    flood(long.link, b"draw\n" + b"x" * 5000)
    half.link.sendall(b"draw\nro")
    begin = time.time()
    expect(all(good.ask("draw").startswith("ask ") for _ in range(100)), "the fourth is not served")
    expect(time.time() - begin < 20, "the fourth waits for the others")
    wait_until(lambda: "a line that is too long" in chair.said(), "the long line is refused")
    other = Client(chair.port)
    expect(other.number == 2, "the seat of the long line is not free again")
    expect(Client(chair.port).first == "no seat is free", "a fifth has a seat")
    deaf.close()
    wait_until(lambda: "leaves seat 1" in chair.said(), "the deaf one is missed")
    expect(chair.ended(signal.SIGINT) == 0, chair.said())
    expect_whole(program, os.path.join(folder, "hostile"))


def flood(link, text):
    """Sends the text as often as the buffers take it, and at least once."""
    link.sendall(text)
    link.setblocking(False)
    try:
        for _ in range(50000):
            link.send(text)
    except OSError:
        pass


def refusals(program, folder):
    """What the chair refuses at its beginning, each with its reason and status 1, and without leaving a file."""
    chair = Chair(folder, program, VEHICLES, "--experts", "2", "--record", "held").begun()
    table = os.path.join(HERE, "two-attributes.cxt")
    cases = [
        (["--experts", "1", "--record", "new", "--listen", "127.0.0.1:%d" % chair.port], "cannot listen at"),
        (["--experts", "1", "--record", "new", "--listen", "127.0.0.1:0"], "is no address"),
        (["--experts", "1", "--record", "held"], "is there already"),
        (["--experts", "4", "--record", "new", "--after", "monday"], "--experts says 4"),
        (["--experts", "5", "--record", "new", "--after", "nothing"], "No such file"),
        (["--experts", "2", "--record", "new", "--known", "nothing"], "No such file"),
        (["--experts", "2", "--record", "new", "--until", "25:00"], "not a time"),
    ]
    for words, reason in cases:
        expect_refused(program, folder, [VEHICLES, *words], reason)
    expect_refused(program, folder, [table, "--experts", "5", "--record", "new", "--after", "monday"], "another table")
    expect_refused(program, folder, ["missing.cxt", "--experts", "1", "--record", "new"], "before it listened")
    expect(chair.ended(signal.SIGHUP) == 0, chair.said())


def expect_refused(program, folder, words, reason):
    listen = [] if "--listen" in words else ["--listen", "127.0.0.1:%d" % free_port()]
    command = [sys.executable, os.path.join(HERE, "chair.py"), *words, *listen, "--program", program]
    ran = subprocess.run(command, cwd=folder, stdout=subprocess.PIPE, stderr=subprocess.PIPE, timeout=SECONDS)
    expect(ran.returncode == 1 and reason in ran.stderr.decode(), "%s: status %d, %s" % (" ".join(words), ran.returncode, ran.stderr.decode()))
    expect(not os.path.exists(os.path.join(folder, "new")) and not os.path.exists(os.path.join(folder, "new.text")), "a file is left")


def connected(program, folder):
    """The chair before a `serve` that listens already, with holders and what is known; a student who answers in words."""
    port, table = free_port(), os.path.join(HERE, "numbers.cxt")
    known = ["--known", os.path.join(HERE, "numbers.known")]
    with open(os.path.join(folder, "served"), "wb") as out:
        words = [program, "serve", table, *known, "--experts", "2", "--holders", "1", "--listen", "127.0.0.1:%d" % port]
        server = subprocess.Popen(words, stdout=out)
    words = ["--connect", "127.0.0.1:%d" % port, *known, "--holders", "1", "--experts", "2", "--record", "numbers"]
    chair = once_listening(lambda: Chair(folder, program, *words))
    typed = ["no", "8", "no", "no", "yes", "no", "no", "1", "no", "no", "no", "no", "yes", "quit"]
    said = typed_to_student(chair.port, "\n".join(typed) + "\n")
    for part in ("it breaks rule 1, that every number that has", "Noted, as row 1: 1 says no", "Noted, as rule 3: every number", "Goodbye."):
        expect(part in said, "the student is not told: %s\n%s" % (part, said))
    expect(chair.ended(signal.SIGINT) == 0, chair.said())
    expect(server.wait(SECONDS) in (0, 6), "the program's status")
    record, served = read(os.path.join(folder, "numbers")), read(os.path.join(folder, "served"))
    expect(served.startswith(record.rstrip("\n")) or without_head(served).startswith(without_head(record)), "the record is not the program's text")


def once_listening(begin):
    """A chair that has found its program, which may still be about to listen."""
    end = time.time() + SECONDS
    while True:
        chair = begin().begun()
        if chair.child.poll() is None or time.time() > end:
            return chair
        time.sleep(0.1)


def typed_to_student(port, typed):
    words = [sys.executable, os.path.join(HERE, "student.py"), "127.0.0.1:%d" % port, "--one", "number"]
    return subprocess.run(words, input=typed.encode(), stdout=subprocess.PIPE, timeout=SECONDS).stdout.decode()


SENTENCES = [  # a reply, what the student is told, and whether the question stays
    ("accepted 7", "Noted, as rule 7: every pet that has \"barks\" has \"has fur\".", False),
    ("taken 7", "Noted, as row 7: Rex says no to this question.", False),
    ("refuted 3 .X", "Somebody was quicker. Row 3, which has \"barks\", says no to this question already.", False),
    ("superseded row 3 ..", "Somebody was quicker. Row 3, which has nothing, says no to this question already.", False),
    ("superseded accepted 2 .X XX {barks} -> {has fur}", "Somebody was quicker. Rule 2 is noted already: every pet that has \"barks\" has \"has fur\".", False),
    ("misses 2 barks", "Rex does not count here: it lacks \"barks\", and the question is only about what has that.", True),
    ("keeps", "Rex does not count here: it has all that the question asks for, so it speaks for yes.", True),
    ("breaks 2 .. XX {} -> {has fur, barks}", "Rex cannot be noted: it breaks rule 2, that every pet has \"has fur\" and \"barks\".", True),
    ("not held", "You do not hold a question any more.", False),
    ("bad line", "The program says: bad line.", True),
    ("no memory", "The program has no memory for that just now.", True),
    ("all held", "Others think about each question that is open.", False),
]


def sentences(program, folder):
    """What student.py says to each kind of reply."""
    talk = student.Talk(types.SimpleNamespace(attributes=["has fur", "barks"]), "pet")
    talk.question, talk.name = student.Question(talk.line.attributes, ".X", "XX"), "Rex"
    for reply, sentence, stays in SENTENCES:
        expect(talk.sentence(reply).startswith(sentence), "%s: %s" % (reply, talk.sentence(reply)))
        expect(student.stays(reply) == stays, "%s: whether the question stays" % reply)


def nameless(program, folder):
    """A student who gives no name where names are wanted is told so; and the chair says how to go on while a question is open."""
    chair = Chair(folder, program, VEHICLES, "--experts", "1", "--names", "--record", "nameless").begun()
    said = typed_to_student(chair.port, "")
    expect("start again with --name" in said and "There is no seat for you" in said, "the student is not told: %s" % said)
    expect(chair.ended(signal.SIGINT) == 0 and "--after nameless" in chair.said(), chair.said())


def at_a_time(program, folder):
    """A chair that ends by the clock."""
    until = time.localtime(time.time() + 60)
    chair = Chair(folder, program, VEHICLES, "--experts", "1", "--record", "timed", "--until", time.strftime("%H:%M", until)).begun()
    Client(chair.port).ask("draw")
    expect(chair.child.wait(SECONDS + 10) == 0, chair.said())
    expect_whole(program, os.path.join(folder, "timed"))


def end_all():
    """Ends what a case that went wrong has left."""
    for chair in Chair.begun_ones:
        if chair.child.poll() is None:
            chair.ended(signal.SIGTERM)
    Chair.begun_ones.clear()


def check(program):
    """How many cases are not as they should be."""
    wrong, cases = 0, (two_days, broken_off, anew, hostile, refusals, connected, sentences, nameless, at_a_time)
    with tempfile.TemporaryDirectory() as folder:
        for case in cases:
            try:
                case(program, folder)
            except (AssertionError, OSError, subprocess.SubprocessError) as error:
                wrong += 1
                print("the chair, %s: %s" % (case.__name__, error))
            finally:
                end_all()
    print("the chair: %d cases, %d not as they should be" % (len(cases), wrong))
    return wrong
