#!/usr/bin/env python3
"""A chair for a class: stands before `serve`, lets students come, go and come back, and keeps a record as it happens.

    chair.py F --experts N --record R [--after OLD] [--names [NAMES]] [--listen A] [--until HH:MM]

The chair starts `serve` for the table F, holds all its N ends, and listens at A (127.0.0.1:7000) for students. To them it is what
`serve` is (docs/FORMATS.md, Lines of a session), and besides:

- A student is greeted at once, and does not wait for the others. Who goes, also without a word, may come back; the chair gives back
  what the student held, and the seat is free. Where no seat is free, the chair says so in a line.
- With --names a student first sends `name NAME`, and is greeted then. The first who says a name gets a free seat, and it is kept for that
  name; while somebody sits there nobody else can take it. With NAMES (Ann,Bob,Cleo) these have the seats 1, 2, 3.
- Each event is written into R with its reply, and only then the student hears the reply. R is a script that `replay` takes, at any time.
- `quit`, 4,097 bytes without a line feed, or the last of the 1,000,000 lines that a seat has ends a visit; each student is served one
  line at a time, and who does not read waits alone.
- On Ctrl-C, SIGTERM, SIGHUP or at the time of --until the chair says `quit` for all. Then the program writes its own text, into R.text.
  The chair compares it with R, and puts behind R what the text has beyond, so that R is whole too.

With --after OLD the events of the record OLD are given again through their seats before anybody comes; what OLD sets (holders, what is
known, names) is set again. Where an event is answered otherwise than OLD says, the chair stops: it is another table then.

With --connect ADDRESS in place of F the chair starts nothing, and takes all N ends of a `serve` that listens there. --known and
--holders must be as that `serve` has them, and the text is written where that `serve` writes it.

What it trusts: the program for every reply, and the order of coming or a name for who is who. There is no password and no encryption.
It says nothing of what the network does. What it wrote into R outlives the chair, even one that is killed; R is put on the disk about once a
second, so where the power fails the last second may be lost.
"""
import argparse
import contextlib
import errno
import os
import re
import select
import signal
import socket
import subprocess
import sys
import tempfile
import time

from record import EVENTS, FCA, Event, Refused, Script, lines_of, read_script, read_text, up_to_64

LINE_BYTES = 4096  # before a line feed, as `serve` has it
SEAT_LINES = 1000000  # in the life of a seat, as `serve` has it; the last two are kept for `leave` and `quit`
UNREAD_BYTES = 65536  # so much may wait for a student who does not read; then no further line of that student is served
STRANGERS = 64  # may be there at once before they have said a name
ANSWERED_OTHERWISE = """event %d of the record, `%s`, was answered `%s`, and is now answered `%s`.
Either the record is of another table, or a line was taken out of it: then replay it first, and go on from what that writes."""
ASKS_NAME = b"send your name first: name NAME\n"
NAME_SECONDS = 10  # to say a name
FAREWELL_SECONDS = 5  # to read the last reply
LOST_SECONDS = 15  # of silence before a connection is looked after; 3 looks, 5 seconds apart
HEADS = ("exploration", "holders", "known")  # the first words of the lines of a text before its first event
NOT_RECORDED = ("bad line", "bad width", "no memory")


def say(text):
    """Tells who leads the class. What could move the cursor is not shown."""
    print("chair: " + re.sub(r"[\x00-\x1f\x7f-\x9f]", "?", text), file=sys.stderr, flush=True)


# ---- the program's side


def address_of(text):
    """The host and the port of HOST:PORT, where an address of IPv6 stands in brackets."""
    host, colon, port = text.rpartition(":")
    if host.startswith("[") and host.endswith("]"):
        host = host[1:-1]
    elif ":" in host:
        host = ""
    if not (colon and host and port.isascii() and port.isdigit() and port[0] != "0" and int(port) < 65536):
        raise Refused("%s is no address; one is HOST:PORT, as 127.0.0.1:7000, with a port of 1 to 65535" % text)
    return host, int(port)


def free_port():
    with socket.socket() as free:
        free.bind(("127.0.0.1", 0))
        return free.getsockname()[1]


def connected(address):
    """A connection to the program."""
    link = socket.create_connection(address)
    if link.getsockname() == link.getpeername():  # where nobody listens, a connection may meet itself
        link.close()
        raise ConnectionRefusedError(errno.ECONNREFUSED, "Connection refused")
    link.setsockopt(socket.IPPROTO_TCP, socket.TCP_NODELAY, 1)
    return link


def first_connected(address, child):
    """As `connected`, to a program that is about to listen, or even to be built."""
    while True:
        try:
            return connected(address)
        except OSError:
            if child.poll() is not None:
                raise Refused("the program ended with status %d before it listened" % child.returncode)
            time.sleep(0.02)


class Seat:
    """One end of the program: an expert, whoever sits there."""

    def __init__(self, link):
        self.link, self.lines_read = link, link.makefile("rb")
        self.student, self.lines, self.is_gone = None, 0, False
        self.number, self.greeting = 0, b""

    def read_greeting(self):
        try:
            first = [self.lines_read.readline() for _ in range(3)]
            names = [self.lines_read.readline() for _ in range(int(first[2].split()[1]))]
            self.number, self.greeting = int(first[1].split()[1]), b"".join(first + names)
        except (OSError, IndexError, ValueError):
            raise Refused("the program does not greet all seats: it has ended, or somebody else is connected to it")

    def is_free(self):
        return self.student is None and not self.is_gone and not self.is_spent()

    def is_spent(self):
        return self.lines >= SEAT_LINES - 2

    def answered(self, line):
        """The program's reply to the line, without its line feed; None where the session has ended."""
        if self.is_gone:
            return None
        try:
            self.link.sendall(line + b"\n")
            reply = self.lines_read.readline()
        except OSError:
            reply = b""
        self.lines += 1
        self.is_gone = not reply.endswith(b"\n")
        return None if self.is_gone else reply[:-1]


class Program:
    """`serve` with all its seats, by their numbers from 1; the chair started it, or it listened already."""

    def __init__(self, address, count, child=None):
        self.child = child
        try:
            seats = [Seat(first_connected(address, child) if child else connected(address))]
            seats += [Seat(connected(address)) for _ in range(count - 1)]
        except OSError as error:
            raise Refused("the program at %s:%d: %s" % (*address, error.strerror))
        for seat in seats:
            seat.read_greeting()
        self.seats = sorted(seats, key=lambda seat: seat.number)
        if [seat.number for seat in self.seats] != list(range(1, count + 1)):
            raise Refused("the program has more experts than these %d seats" % count)

    def is_gone(self):
        return all(seat.is_gone for seat in self.seats)

    def quit(self):
        """Ends all sessions, and waits for the program's end; its status, where the chair started it."""
        for seat in self.seats:
            seat.answered(b"quit")
            seat.link.close()
        return None if self.child is None else self.child.wait()


def started(said, script, known, text):
    """`serve` at a port of its own. It does not hear the Ctrl-C of this terminal: it has to write its text when all is over."""
    port = free_port()
    words = [said.program, "serve", said.table] + (["--known", known] if known else []) + ["--experts", str(said.experts)]
    words += ["--holders", str(script.holders)] if script.holders else []
    words += ["--listen", "127.0.0.1:%d" % port]
    try:
        child = subprocess.Popen(words, stdin=subprocess.DEVNULL, stdout=text, start_new_session=True)
    except OSError as error:
        raise Refused("%s: %s" % (said.program, error.strerror))
    try:
        return Program(("127.0.0.1", port), said.experts, child)
    except BaseException:
        with contextlib.suppress(ProcessLookupError):
            os.killpg(child.pid, signal.SIGTERM)  # with it goes what ./fca started to build the program
        child.wait()
        raise


# ---- the record


class Record:
    """The file R: what is set, and each event with its reply, written as it happens."""

    def __init__(self, path, script):
        self.path, self.script, self.events, self.kept = path, script, [], time.monotonic()
        try:
            self.file = open(path, "x", encoding="utf-8", errors="surrogateescape", newline="\n")
        except FileExistsError:
            raise Refused("%s is there already; choose another name, and go on from it by --after %s" % (path, path))
        except OSError as error:
            raise Refused("%s: %s" % (path, error.strerror))
        self.write(script.head())

    def write(self, text):
        try:
            self.file.write(text)
            self.file.flush()
        except OSError as error:
            raise Refused("%s: %s" % (self.path, error.strerror))

    def keep(self):
        """Has the system put what was written on the disk, about once a second."""
        if time.monotonic() - self.kept > 1:
            self.kept = time.monotonic()
            try:
                os.fsync(self.file.fileno())
            except OSError as error:
                raise Refused("%s: %s" % (self.path, error.strerror))

    def add(self, event):
        self.events.append(event.text())
        self.write(self.events[-1])

    def name(self, expert, name):
        """Names stand at the head of a script, so a new file takes the place of the old one, once it is whole."""
        self.script.names[expert] = name
        old, part = self.file, self.path + ".part"
        try:
            self.file = open(part, "w", encoding="utf-8", errors="surrogateescape", newline="\n")
            self.write(self.script.head() + "".join(self.events))
            os.replace(part, self.path)
        except OSError as error:
            raise Refused("%s: %s" % (self.path, error.strerror))
        old.close()

    def complete(self, text_path):
        """Puts what the program's text has beyond behind the record; whether the text has the record's events, each in its place."""
        lines = read_text(text_path).split("\n")
        heads = sum(line.partition(" ")[0] in HEADS for line in lines)
        begun, told = "".join(self.events), "\n".join(lines[heads:])
        if not told.startswith(begun):
            return False
        self.write(told[len(begun) :])
        return True


# ---- the students' side


class Student:
    """One connection of a student; without a seat it is that of a stranger, or of one who is about to go."""

    def __init__(self, link, address):
        self.link, self.address, self.since = link, address, time.monotonic()
        self.came, self.going = b"", b""
        self.seat, self.name, self.is_first_line = None, None, True
        self.is_leaving, self.has_ended = False, False

    def who(self):
        return self.name or "somebody"

    def has_line(self):
        return b"\n" in self.came or len(self.came) > LINE_BYTES

    def wants_line(self):
        return not self.is_leaving and self.has_line() and len(self.going) <= UNREAD_BYTES

    def wants_read(self):
        return not self.has_ended and (self.is_leaving or not self.has_line())

    def take_line(self):
        """The next whole line, without its line feed and one carriage return; None where it is too long."""
        line, feed, rest = self.came.partition(b"\n")
        if len(line) > LINE_BYTES or not feed:
            return None
        self.came = rest
        return line[:-1] if line.endswith(b"\r") else line

    def send(self):
        """Sends as much as is taken now."""
        self.going = self.going[self.link.send(self.going) :]

    def is_gone(self):
        """Whether all was sent to one who leaves, and the student has closed, too."""
        return self.is_leaving and not self.going and self.has_ended


def watched(link):
    """A lost student is seen also where no farewell came, as after a fall of the network."""
    link.setblocking(False)
    link.setsockopt(socket.SOL_SOCKET, socket.SO_KEEPALIVE, 1)
    looks = (("TCP_KEEPIDLE", LOST_SECONDS), ("TCP_KEEPINTVL", 5), ("TCP_KEEPCNT", 3), ("TCP_USER_TIMEOUT", 2000 * LOST_SECONDS))
    for option, value in looks:
        if hasattr(socket, option):
            link.setsockopt(socket.IPPROTO_TCP, getattr(socket, option), value)
    return link


def listener(address):
    """The socket at which students come; loopback unless another address is said."""
    try:
        family, kind, _, _, place = socket.getaddrinfo(*address, type=socket.SOCK_STREAM)[0]
        link = socket.socket(family, kind)
        link.setsockopt(socket.SOL_SOCKET, socket.SO_REUSEADDR, 1)
        link.bind(place)
        link.listen(128)
    except OSError as error:
        raise Refused("cannot listen at %s:%d: %s" % (*address, error.strerror))
    link.setblocking(False)
    return link


def name_in(line):
    """The name that a line `name NAME` says."""
    word, _, name = line.partition(b" ")
    try:
        return name.decode() if word == b"name" and 0 < len(name) < 256 and b"\r" not in name else None
    except UnicodeDecodeError:
        return None


class Chair:
    """The students, their seats, and the record."""

    def __init__(self, program, record, doors, by_name, end):
        self.program, self.record, self.doors, self.by_name, self.end = program, record, doors, by_name, end
        self.students, self.is_ended, self.is_done_told = [], False, False

    # -- events

    def event(self, seat, line):
        """Puts the line to the program and records the event that it makes; the reply, or None where the session has ended."""
        reply = seat.answered(line)
        if reply is None:
            say("the program has ended the session of seat %d" % seat.number)
            return None
        answer = reply.decode("utf-8", "surrogateescape")
        if answer not in NOT_RECORDED:
            self.record.add(Event(seat.number, line.decode("utf-8", "surrogateescape"), answer))
        return reply

    def give_again(self, events):
        """Gives the events of an earlier record through their seats. Where it broke off, what was held then is given back."""
        last = {}
        for place, event in enumerate(events, 1):
            reply = self.event(self.program.seats[event.expert - 1], event.line.encode("utf-8", "surrogateescape"))
            answer = None if reply is None else reply.decode("utf-8", "surrogateescape")
            if answer is None or answer in NOT_RECORDED or event.reply not in (None, answer):
                raise Refused(ANSWERED_OTHERWISE % (place, event.script_line(), event.reply, answer))
            last[event.expert] = event.line
        for expert in sorted(last):
            if last[expert] != "leave":
                self.event(self.program.seats[expert - 1], b"leave")

    # -- coming and going

    def come(self):
        try:
            link, address = self.doors.accept()
            student = Student(watched(link), address[0])
        except OSError:
            time.sleep(0.05)  # it went again, or the system has no more files
            return
        self.students.append(student)
        strangers = [other for other in self.students if other.seat is None]
        if len(strangers) > STRANGERS:
            self.drop(strangers[0])
        if not self.by_name:
            self.sit(student, next((seat for seat in self.program.seats if seat.is_free()), None))

    def sit(self, student, seat):
        """Greets the student at this seat; without one the student goes."""
        if seat is None:
            self.bid_farewell(student, b"no seat is free\n")
            return
        student.seat, seat.student = seat, student
        student.going += seat.greeting
        say("%s comes to seat %d, from %s" % (student.who(), seat.number, student.address))

    def say_name(self, student, line):
        """The first line of a student who says a name."""
        student.name = name = name_in(line)
        if name is None:
            self.bid_farewell(student, ASKS_NAME)
            return
        names, seats = self.record.script.names, self.program.seats
        kept = next((seat for seat in seats if names.get(seat.number) == name), None)
        if kept is not None and kept.student is not None:
            self.bid_farewell(student, b"somebody sits at your seat\n")
            return
        seat = kept or next((seat for seat in seats if seat.number not in names and seat.is_free()), None)
        if seat is not None and kept is None:
            self.record.name(seat.number, name)
        self.sit(student, seat if seat is None or seat.is_free() else None)

    def free_seat(self, student):
        """Gives back what the student holds."""
        seat, student.seat = student.seat, None
        if seat is not None:
            seat.student = None
            self.event(seat, b"leave")
            say("%s leaves seat %d" % (student.who(), seat.number))

    def bid_farewell(self, student, last):
        """The student hears a last line, may read it for a while, and is not heard any more."""
        student.going, student.came = student.going + last, b""
        student.is_leaving, student.since = True, time.monotonic()
        self.free_seat(student)

    def drop(self, student):
        """The connection has ended, or ends here."""
        if student in self.students:
            self.students.remove(student)
            student.link.close()
            self.free_seat(student)

    # -- one line

    def serve(self, student):
        """Serves the student's next line."""
        line = student.take_line()
        if line is None:
            say("%s sent a line that is too long" % student.who())
            self.bid_farewell(student, b"")
        elif student.seat is None:
            self.say_name(student, line)
        elif student.is_first_line and not self.by_name and name_in(line):
            student.name = name_in(line)
        elif line == b"quit":
            self.bid_farewell(student, b"bye\n")
        else:
            self.answer(student, line)
        student.is_first_line = False

    def answer(self, student, line):
        reply = self.event(student.seat, line)
        if reply is not None:
            student.going += reply + b"\n"
        if reply is None or student.seat.is_spent():
            self.bid_farewell(student, b"")
        if reply == b"done" and not self.is_done_told:
            self.is_done_told = True
            say("no question is open any more; Ctrl-C ends the exploration")

    # -- all

    def wait(self):
        """Waits until there is something to do: which sockets may be read, and which may be written."""
        served = any(student.wants_line() for student in self.students)
        reads = [student.link for student in self.students if student.wants_read()]
        reads += [self.doors] + [seat.link for seat in self.program.seats if not seat.is_gone]
        writes = [student.link for student in self.students if student.going]
        ready = select.select(reads, writes, [], 0 if served else 1)
        return set(ready[0])

    def hear(self, student):
        """Takes what came. What comes behind a farewell is thrown away, so that the last reply is not lost with it."""
        came = student.link.recv(4096)
        if not came:
            student.has_ended = True
        if not came and not student.is_leaving:
            self.bid_farewell(student, b"")
        elif not student.is_leaving:
            student.came += came

    def turn(self, student, reads):
        """What there is to do for one student."""
        try:
            if student.link in reads:
                self.hear(student)
            if student.wants_line():
                self.serve(student)
            if student.going:
                student.send()
            if student.is_leaving and not student.going:
                student.link.shutdown(socket.SHUT_WR)
        except BlockingIOError:
            pass
        except OSError:
            self.drop(student)

    def look_after(self, student):
        """Ends what takes too long: a farewell, and a stranger who says no name."""
        waited = time.monotonic() - student.since
        if student.is_gone() or student.is_leaving and waited > FAREWELL_SECONDS:
            self.drop(student)
        elif student.seat is None and not student.is_leaving and waited > NAME_SECONDS:
            self.bid_farewell(student, ASKS_NAME)

    def run(self):
        """Serves until the end is asked for or its time has come, or the program has ended."""
        while not self.is_ended and not self.program.is_gone() and time.time() < self.end:
            reads = self.wait()
            for seat in self.program.seats:
                seat.is_gone = seat.is_gone or seat.link in reads  # it says nothing unasked, so this is its end
            for student in list(self.students):
                self.turn(student, reads)
                self.look_after(student)
            if self.doors in reads:
                self.come()
            self.record.keep()

    def close(self):
        """Sends what is taken at once, and closes."""
        self.doors.close()
        for student in self.students:
            with contextlib.suppress(OSError):
                student.send()
            student.link.close()

    def stop(self, *_):
        """Ends within a second; asked for again, at once."""
        if self.is_ended:
            raise KeyboardInterrupt
        self.is_ended = True


# ---- the words


def end_of(said):
    """The time at which the chair ends, in seconds since 1970."""
    if said.until is None:
        return float("inf")
    try:
        clock = time.strptime(said.until, "%H:%M")
    except ValueError:
        raise Refused("--until %s: not a time, as 11:45" % said.until)
    now = time.localtime()
    wanted = time.mktime((now.tm_year, now.tm_mon, now.tm_mday, clock.tm_hour, clock.tm_min, 0, 0, 0, -1))
    return wanted if wanted > time.time() else wanted + 24 * 60 * 60


def what_is_set(said):
    """What the words and the record before set for this exploration, and the events of that record."""
    script = read_script(said.after) if said.after else Script()
    if said.known and script.known:
        raise Refused("%s says what is known, so --known has no place" % said.after)
    if said.known:
        lines = lines_of(read_text(said.known))
        script.known = [line for line in lines if line.strip(" \t") and not line.startswith("#")]
    if said.holders is not None and script.holders not in (None, said.holders):
        raise Refused("%s has holders %d" % (said.after, script.holders))
    script.holders = script.holders if said.holders is None else said.holders
    set_names(said, script)
    seats = max([event.expert for event in script.events] + list(script.names) + [1])
    if seats > said.experts:
        raise Refused("%d seats are in use, and --experts says %d" % (seats, said.experts))
    return script


def set_names(said, script):
    """Keeps the first seats for the names of --names."""
    names = said.names.split(",") if said.names else []
    if len(set(names)) < len(names) or not all(name_in(b"name " + name.encode("utf-8", "surrogateescape")) for name in names):
        raise Refused("--names %s: not one name for each" % said.names)
    for expert, name in enumerate(names, 1):
        if script.names.setdefault(expert, name) != name:
            raise Refused("%s has %s at seat %d" % (said.after, script.names[expert], expert))


def options():
    parser = argparse.ArgumentParser(description=__doc__, formatter_class=argparse.RawDescriptionHelpFormatter)
    parser.add_argument("table", metavar="F", nargs="?", help="the table that is explored")
    parser.add_argument("--connect", metavar="ADDRESS", help="a `serve` that listens already, in place of F")
    parser.add_argument("--experts", metavar="N", type=up_to_64, required=True, help="how many seats there are, 1 to 64")
    parser.add_argument("--record", metavar="R", required=True, help="the file for the record; it must not be there yet")
    parser.add_argument("--after", metavar="OLD", help="a record whose events are given again first")
    parser.add_argument("--names", metavar="NAMES", nargs="?", const="", help="students say their names, each of whom has one seat")
    parser.add_argument("--listen", metavar="A", default="127.0.0.1:7000", help="where students come (%(default)s)")
    parser.add_argument("--until", metavar="HH:MM", help="ends at this time of the day")
    parser.add_argument("--known", metavar="S", help="a known file")
    parser.add_argument("--holders", metavar="H", type=up_to_64, help="how many may hold one question")
    parser.add_argument("--program", metavar="P", default=FCA, help="the program, if it is not %(default)s")
    said = parser.parse_args()
    if (said.table is None) == (said.connect is None):
        parser.error("either F or --connect ADDRESS")
    return said


def program_of(said, script, undo):
    """The program with all its seats, and where its text will be, if the chair started it."""
    if said.connect:
        return Program(address_of(said.connect), said.experts), None
    path = said.record + ".text"
    try:
        text = open(path, "xb")
    except OSError as error:
        raise Refused("%s: %s" % (path, error.strerror))
    undo.callback(os.unlink, path)
    with text, tempfile.NamedTemporaryFile("w", encoding="utf-8", errors="surrogateescape", newline="\n") as known:
        known.write("".join(line + "\n" for line in script.known))
        known.flush()
        return started(said, script, said.known or (known.name if script.known else None), text), path


def ended(program, record, text_path):
    """Says how all ended; the chair's status."""
    status = program.quit()
    if status is None:
        say("all sessions are ended; %s has the events" % record.path)
        return 0
    if status not in (0, 6):
        say("the program ended with status %d; %s has the events up to then" % (status, record.path))
        return 1
    if not record.complete(text_path):
        say("%s and the program's text %s have not the same events; the text is right" % (record.path, text_path))
        return 1
    say("%s is whole, and %s is the program's own text" % (record.path, text_path))
    if status == 6:
        say("questions are open: to go on another day, give a new name to --record, and say --after %s" % record.path)
    return 0


def opened(said, undo):
    """The chair, with the program, the record and the events of the record before; what was made is undone where that fails."""
    end, script = end_of(said), what_is_set(said)
    doors = listener(address_of(said.listen))
    record = Record(said.record, script)
    undo.callback(os.unlink, record.path)
    program, text_path = program_of(said, script, undo)
    if program.child is not None:
        undo.callback(program.child.kill)
    chair = Chair(program, record, doors, said.names is not None or bool(script.names), end)
    chair.give_again(script.events)
    return chair, text_path


def interrupt(*_):
    raise KeyboardInterrupt


def set_signals(handler):
    for number in (signal.SIGINT, signal.SIGTERM, signal.SIGHUP):
        signal.signal(number, handler)


def chaired(said):
    """One sitting, from the first word to the last; the chair's status."""
    set_signals(interrupt)
    with contextlib.ExitStack() as undo:
        chair, text_path = opened(said, undo)
        undo.pop_all()
    set_signals(chair.stop)
    say("%d seats at %s, record %s%s" % (said.experts, said.listen, said.record, time.strftime(", until %A %H:%M", time.localtime(chair.end)) if said.until else ""))
    problem = None
    try:
        chair.run()
    except Refused as refused:
        problem = refused
    chair.close()
    status = ended(chair.program, chair.record, text_path)
    if problem is not None:
        raise problem
    return status


def main():
    try:
        sys.exit(chaired(options()))
    except Refused as refused:
        sys.exit("chair: %s" % refused)
    except KeyboardInterrupt:
        sys.exit("chair: stopped")


if __name__ == "__main__":
    main()
