#!/usr/bin/env python3
"""The program where the system refuses: hostile.py [--quick] [PART ..], all parts where none is said.

    stacks     the ordinal scale of 1,024 in both orders, every command, with stacks from 256 KB up; the threads of the program have such stacks, too
    addresses  every command with a limit on addresses, in steps up to what it needs
    growth     a session that records more and more, until it is told `no memory`; it goes on, and ends by `quit`
    files      every command with 0 to 12 open files
    threads    the commands that use threads, with 1 to 24 of them; as root, by a user that nobody else is, and else not
    memory     every command with each of its allocations refused in turn (bench/refused_memory.py, which wants cc)
    calls      every command with each call that asks the system for memory, and each that begins a thread, refused in turn (wants strace)
    streams    every command with closed and full streams
    endless    answers that are longer than the 256 MB of addresses that a command may have
    machine    the same by the limit that `fca` sets, on a machine that says it has 256 MB left (wants unshare, and the right to mount)
    replies    replies to lines that were sent at once, with bytes behind `quit` or a line that is too long; and a client too many
    listen     addresses that are none

Each run has to come to the whole answer, or to one of the ends that docs/FORMATS.md names, with its line on err and nothing on out but a front of
the text where the output fails. Where the system does not begin the program at all (its loader is refused), the run does not count. A part that the
machine does not have is told as not tried. The program is that of the variable BENCH_FCA, or of this repository, without its script `fca`.

The last line sums up. KNOWN lists what is known to be wrong; the status is 0 where nothing else is.
"""
import argparse
import collections
import os
import resource
import shutil
import socket
import subprocess
import sys
import tempfile
import threading
import time

sys.path.insert(0, os.path.dirname(os.path.abspath(__file__)))
import measure
import refused_memory

SECONDS = 600
ORDINAL = 1024
STACKS = [256, 320, 512, 1024, 8192]  # in KB
NOBODY = 61234  # the number of a user that has no other processes
NO_MEMORY = b"fca: no memory\n"

# What is known to be wrong: a part, and the first words of its commands. The list is empty where all is right.
KNOWN = []

SMALL = refused_memory.COMMANDS + [
    ("replay empty.cxt --known empty.known", "draw 1\n"),
    ("explore bare.cxt --known bare.known --names --expert beings.cxt", ""),
    ("convert beings.cxt cxt", ""),
    ("convert beings.csv cxt", ""),
    ("direct beings.cxt", ""),
    ("concepts beings.cxt", ""),
]
FILES = dict(refused_memory.FILES)
FILES["empty.known"] = "X. XX\n"
FILES["bare.known"] = "........X ......XX.\n"
FILES["beings.csv"] = "object,a,b\nleech,X,\nfrog,,X\n"
THREADED = ("explore", "survey", "concepts")

Ran = collections.namedtuple("Ran", "status out err")


class Place:
    """A folder with the program and the files of the commands, which every user may read."""

    def __init__(self, folder):
        self.folder, self.program = folder, os.path.join(folder, "program")
        os.chmod(folder, 0o755)
        shutil.copy(measure.built_program(), self.program)
        os.chmod(self.program, 0o755)
        for name, text in FILES.items():
            self.write(name, text)

    def write(self, name, text):
        with open(os.path.join(self.folder, name), "w") as out:
            out.write(text)

    def run(self, words, stdin="", limit=None, before=None, begin=None):
        """What a run came to; `limit` are words of ulimit, `begin` words before the program, `before` is done in the new process."""
        command = (begin or []) + [self.program] + words.split()
        if limit:
            command = ["bash", "-c", 'ulimit %s && exec "$@"' % limit, "bash"] + command
        measure.set_tunables(words.partition(" ")[0])
        try:
            ran = subprocess.run(command, input=stdin.encode(), stdout=subprocess.PIPE, stderr=subprocess.PIPE, cwd=self.folder, preexec_fn=before, timeout=SECONDS)
        except subprocess.TimeoutExpired:
            return Ran(None, b"", b"")
        return Ran(ran.returncode, ran.stdout, ran.stderr)


# ---- what a run came to


def is_same(words, out, whole):
    """Whether it is the whole text; explorations by threads end alike, whoever was asked first."""
    return out == whole or words.startswith("explore") and b"# open " in out and refused_memory.is_same_end(out, whole)


def is_read_fault(words, ran):
    """Whether a file of the command, or its input, could not be read."""
    names = words.split()[1:] + ["input"]
    return ran.status == 3 and ran.out == b"" and ran.err in [("fca: %s: read fault\n" % name).encode() for name in names]


def end_of(words, ran, whole, may=()):
    """`answered`, `refused`, `not begun` or `wrong`; `may` says which ends are right besides."""
    if ran.status == whole.status and is_same(words, ran.out, whole.out):
        return "answered"
    if (ran.status, ran.out, ran.err) == (5, b"", NO_MEMORY) or "read" in may and is_read_fault(words, ran):
        return "refused"
    return "not begun" if "not begun" in may and ran.out == b"" and not ran.err.startswith(b"fca: ") else "wrong"


def below(limit, begins):
    """Below the least limit with which the program says a word, the system may not begin it."""
    return ("not begun",) if limit < begins else ()


class Report:
    """Counts how runs ended, by part."""

    def __init__(self):
        self.all, self.known, self.part, self.ends = collections.Counter(), 0, "", collections.Counter()

    def begin(self, part):
        self.part, self.ends, self.since = part, collections.Counter(), time.time()

    def add(self, end, words, *told):
        """Counts a run; `told` is what it came to and under which limit, in any order."""
        self.ends[end] += 1
        if end == "wrong":
            is_known = any(self.part == part and words.startswith(command) for part, command in KNOWN)
            self.known += is_known
            what = ["status %s, %d bytes, %r" % (it.status, len(it.out), it.err[-100:]) if isinstance(it, Ran) else it for it in told]
            print("%s: %s: %s: %s" % ("known" if is_known else "wrong", self.part, words, ", ".join(what)), flush=True)

    def end(self):
        self.all.update(self.ends)
        print("%-10s %s, in %.0f seconds" % (self.part, told(self.ends), time.time() - self.since), flush=True)

    def skip(self, why):
        print("%-10s not tried: %s" % (self.part, why), flush=True)


def told(ends):
    return "runs %d, answered %d, refused %d, not begun %d, wrong %d" % (sum(ends.values()), *(ends[end] for end in ("answered", "refused", "not begun", "wrong")))


# ---- small stacks


def ordinal(is_first_special):
    """The ordinal scale, whose row i has i crosses; the first attribute is the rarest, or the last one."""
    head = "B\n\n%d\n%d\n\n" % (ORDINAL, ORDINAL) + "".join("%s%d\n" % (kind, place) for kind in "gm" for place in range(ORDINAL))
    rows = (("X" * (ORDINAL - i) + "." * i)[:: 1 if is_first_special else -1] for i in range(ORDINAL))
    return head + "".join(row + "\n" for row in rows)


def tall_commands(order):
    """Every command over the ordinal scale of this order; what it reads besides stands in the folder."""
    table, bare = order + ".cxt", order + "-bare.cxt"
    return [
        ("concepts " + table, ""),
        ("concepts %s --json" % table, ""),
        ("lattice " + table, ""),
        ("basis " + table, ""),
        ("basis %s --json" % table, ""),
        ("direct " + table, ""),
        ("follows %s m5 m9" % table, ""),
        ("follows %s m9 m5" % table, ""),
        ("convert %s csv" % table, ""),
        ("convert %s cxt" % table, ""),
        ("reduce " + table, ""),
        ("arrows " + table, ""),
        ("replay " + bare, "draw 1\nconfirm 1\ndraw 2\n"),
        ("replay " + table, "draw 1\nconfirm 1\ndraw 1\nconfirm 1\ndraw 2\n"),
        ("replay %s --known %s.known" % (table, order), "draw 1\n"),
        ("explore %s --expert %s" % (bare, table), ""),
        ("explore %s --known %s.known --expert %s --expert %s" % (bare, order, table, table), ""),
        ("scale values.csv plan.csv", ""),
        ("make 7 1024 1024 4", ""),
        ("survey 7 60 46 4 8", ""),
    ]


def write_tall(place, order):
    table = ordinal(order == "first")
    place.write(order + ".cxt", table)
    head = table.split("\n")
    place.write(order + "-bare.cxt", "\n".join(["B", "", "0", str(ORDINAL), ""] + head[5 + ORDINAL : 5 + 2 * ORDINAL]) + "\n")
    rarer = (7, 8) if order == "first" else (8, 7)
    place.write(order + ".known", "%s %s\n" % tuple("".join("X" if k == member else "." for k in range(ORDINAL)) for member in reversed(rarer)))


def stacks(place, report, is_quick):
    """Every command over both orders with small stacks; the threads of a program have stacks of the size of the limit."""
    sizes = STACKS[:1] if is_quick else STACKS
    for order in ("first", "last"):
        write_tall(place, order)
        for words, stdin in tall_commands(order):
            whole = place.run(words, stdin, limit="-s %d" % 65536)
            if whole.status not in (0, 6):
                report.add("wrong", words, "with a stack of 64 MB", whole)
                continue
            for size in sizes:
                ran = place.run(words, stdin, limit="-s %d" % size)
                report.add(end_of(words, ran, whole), words, "stack %d KB" % size, ran)
        for size in sizes:
            report.add(*served(place, order + ".cxt", 64, limit="-s %d" % size), "stack %d KB" % size)


# ---- limits in steps


def least(is_enough, low, high, step):
    """About the least limit that is enough."""
    while high - low > step:
        middle = (low + high) // 2
        low, high = (low, middle) if is_enough(middle) else (middle, high)
    return high


def begins(place, letter, high, step):
    """The least limit with which the program says that no word is no command."""
    return least(lambda limit: place.run("", limit="-%s %d" % (letter, limit)).err == b"fca: no such command\n", 0, high, step)


def addresses(place, report, is_quick):
    begin, steps = begins(place, "v", 1 << 22, 16), 16 if is_quick else 64
    for words, stdin in SMALL:
        whole = place.run(words, stdin)
        most = least(lambda limit: end_of(words, place.run(words, stdin, limit="-v %d" % limit), whole) == "answered", 1024, 1 << 22, 256) + 1024
        for step in range(steps):
            limit = 1024 + (most - 1024) * (step + 1) // steps
            ran = place.run(words, stdin, limit="-v %d" % limit)
            report.add(end_of(words, ran, whole, below(limit, begin)), words, "addresses %d KB" % limit, ran)
    for step in range(4 if is_quick else 24):
        limit = 8192 + 16384 * step
        report.add(*served(place, "empty.cxt", 8, below(limit, begin), limit="-v %d" % limit), "addresses %d KB" % limit)


def growth(place, report, is_quick):
    """In steps of 512 KB above what a session needs."""
    enough = least(lambda limit: served(place, "empty.cxt", 1, limit="-v %d" % limit)[0] == "answered", 1024, 1 << 20, 1024)
    for step in range(1, 5 if is_quick else 17):
        replies, limit = [], enough + 512 * step
        end, words, ran = served(place, "empty.cxt", 1, limit="-v %d" % limit, given=LONG, replies=replies)
        is_right = end == "answered" and b"no memory\n" in replies and replies[-1] == b"bye\n"
        report.add(end if is_right or end != "answered" else "wrong", words, "addresses %d KB" % limit, "last reply %r" % replies[-1:], ran)


def files(place, report, is_quick):
    begin = begins(place, "n", 64, 1)
    for words, stdin in SMALL:
        whole = place.run(words, stdin)
        for count in range(13):
            ran = place.run(words, stdin, limit="-n %d" % count)
            report.add(end_of(words, ran, whole, ("read",) + below(count, begin)), words, "files %d" % count, ran)
    for count in range(begin, begin + 13):
        report.add(*served(place, "empty.cxt", 8, limit="-n %d" % count), "files %d" % count)


def as_nobody(count):
    """In the new process: a user that nobody else is, who may have so many threads."""

    def before():
        resource.setrlimit(resource.RLIMIT_NPROC, (count, count))
        os.setgid(NOBODY)
        os.setuid(NOBODY)

    return before


def threads(place, report, is_quick):
    if os.getuid() != 0:
        report.skip("it wants root, to run as a user that nobody else is")
        return
    for words, stdin in [case for case in SMALL if case[0].startswith(THREADED)]:
        whole = place.run(words, stdin)
        for count in range(1, 9 if is_quick else 25):
            ran = place.run(words, stdin, before=as_nobody(count))
            report.add(end_of(words, ran, whole), words, "threads %d" % count, ran)
    for count in range(1, 9 if is_quick else 25):
        report.add(*served(place, "empty.cxt", 8, before=as_nobody(count)), "threads %d" % count)


# ---- one by one


def memory(place, report, is_quick):
    if shutil.which("cc") is None:
        report.skip("it wants cc")
        return
    library = refused_memory.build(place.folder)
    for words, stdin in SMALL:
        whole = refused_memory.ran(words.split(), stdin, place.folder, library, 0)
        for refused in range(1, whole[3] + 1, 8 if is_quick else 1):
            ran = Ran(*refused_memory.ran(words.split(), stdin, place.folder, library, refused)[:3])
            report.add(end_of(words, ran, Ran(*whole[:3])), words, "allocation %d refused" % refused, ran)
    calls, wrong = refused_memory.report_session(place.folder, library)
    report.ends.update({"wrong": wrong, "answered": calls - wrong})


CALLS = (("mmap,brk,mremap", "ENOMEM"), ("clone,clone3", "EAGAIN"))


def refusing(calls, error, place):
    """The words that have strace refuse the call of this place."""
    return ["strace", "-f", "-q", "-o", "/dev/null", "-e", "trace=" + calls, "-e", "inject=%s:error=%s:when=%d" % (calls, error, place)]


def count_of(place, words, stdin, calls):
    """How many such calls a run makes, those of the loader among them."""
    path = os.path.join(place.folder, "calls")
    place.run(words, stdin, begin=["strace", "-f", "-q", "-o", path, "-e", "trace=" + calls])
    with open(path, errors="replace") as lines:
        return sum("(" in line and "resumed" not in line for line in lines)


def calls(place, report, is_quick):
    probe = subprocess.run(refusing("mmap", "ENOMEM", 1000) + ["true"], stderr=subprocess.DEVNULL) if shutil.which("strace") else None
    if probe is None or probe.returncode != 0:
        report.skip("it wants strace, and the right to use it")
        return
    for names, error in CALLS:
        begin = count_of(place, "", "", names)
        for words, stdin in SMALL:
            whole = place.run(words, stdin)
            for number in range(1, count_of(place, words, stdin, names) + 1, 4 if is_quick else 1):
                ran = place.run(words, stdin, begin=refusing(names, error, number))
                report.add(end_of(words, ran, whole, below(number, begin + 1)), words, "%s %d refused" % (names, number), ran)


# ---- streams


STREAMS = [
    ("out closed", ">&-"),
    ("out full", ">/dev/full"),
    ("out into a pipe that nobody reads", "| true"),
    ("err closed", "2>&-"),
    ("err full", "2>/dev/full"),
    ("input closed", "<&-"),
    ("input a folder", "</"),
    ("all closed", "<&- >&- 2>&-"),
]


def streamed(place, words, stdin, form):
    """A run whose streams the shell closes; its status is that of the program, also before a pipe."""
    measure.set_tunables(words.split()[0])
    command = "set -o pipefail; %s %s %s" % (place.program, words, form)
    try:
        ran = subprocess.run(["bash", "-c", command], input=stdin.encode(), stdout=subprocess.PIPE, stderr=subprocess.PIPE, cwd=place.folder, timeout=SECONDS)
    except subprocess.TimeoutExpired:
        return Ran(None, b"", b"")
    return Ran(ran.returncode, ran.stdout, ran.stderr)


def is_streams_end(words, name, ran, whole):
    """Whether the run ended as it should, where a stream is closed or full."""
    if name.startswith("out"):
        return ran.status == 4 and ran.err == b"fca: write fault\n" or name.endswith("reads") and ran.status == whole.status
    if name.startswith("err"):
        return ran.status == whole.status and is_same(words, ran.out, whole.out)
    if name == "all closed":
        return ran.status in (3, 4) and ran.out + ran.err == b""
    if words.startswith("replay"):
        return (ran.status, ran.out, ran.err) == (3, b"", b"fca: input: read fault\n")
    return ran.status == whole.status and is_same(words, ran.out, whole.out)


def streams(place, report, is_quick):
    for words, stdin in SMALL:
        whole = place.run(words, stdin)
        for name, form in STREAMS:
            ran = streamed(place, words, stdin, form)
            is_right = is_streams_end(words, name, ran, whole)
            report.add("wrong" if not is_right else "answered" if ran.status == whole.status else "refused", words, name, ran)
    refused = place.run("concepts missing.cxt")
    for name, form in STREAMS[3:5]:
        ran = streamed(place, "concepts missing.cxt", "", form)
        report.add("answered" if (ran.status, ran.out) == (refused.status, refused.out) else "wrong", "concepts missing.cxt", name, ran)


# ---- sessions


LINES = [b"draw\n", b"confirm\n", b"draw\n", b"leave\n", b"quit\n"]
LONG = [b"row .. %s\n" % (b"n" * 255)] * 100000  # each is recorded with its name, also where nothing is held


def talk(port, given, replies):
    """A session of these lines, as far as it comes; `quit` follows the third `no memory`."""
    try:
        with socket.create_connection(("127.0.0.1", port)) as link, link.makefile("rb") as lines:
            link.settimeout(SECONDS)
            head = [lines.readline() for _ in range(3)]
            for _ in range(int(head[2].split()[1]) if head[2] else 0):
                lines.readline()
            for line in given:
                is_last = replies.count(b"no memory\n") >= 3
                link.sendall(b"quit\n" if is_last else line)
                replies.append(lines.readline())
                if is_last or not replies[-1].endswith(b"\n"):
                    return
    except OSError:
        pass


def is_listening(child, port):
    """Waits until the program listens; whether it does, and has not ended."""
    end = time.time() + SECONDS
    line = " %08X:%04X " % (0x0100007F, port)
    while child.poll() is None and time.time() < end:
        with open("/proc/net/tcp") as sockets:
            if any(line in one and " 0A " in one for one in sockets):
                return True
        time.sleep(0.002)
    return False


def served(place, table, experts, may=(), limit=None, before=None, given=LINES, replies=None):
    """How sessions of so many experts end under a limit, the words, and what the run came to; `replies` are those of all."""
    port = refused_memory.free_port()
    words = "serve %s --experts %d --listen 127.0.0.1:%d" % (table, experts, port)
    command = (["bash", "-c", 'ulimit %s && exec "$@"' % limit, "bash"] if limit else []) + [place.program] + words.split()
    measure.set_tunables("serve")
    with tempfile.TemporaryFile() as out, tempfile.TemporaryFile() as err:
        child = subprocess.Popen(command, stdin=subprocess.DEVNULL, stdout=out, stderr=err, cwd=place.folder, preexec_fn=before)
        if is_listening(child, port):
            clients = [threading.Thread(target=talk, args=(port, given, [] if replies is None else replies)) for _ in range(experts)]
            for client in clients:
                client.start()
            for client in clients:
                client.join()
        try:
            status = child.wait(SECONDS)
        except subprocess.TimeoutExpired:
            child.kill()
            status = child.wait() and None
        out.seek(0)
        err.seek(0)
        ran = Ran(status, out.read(), err.read())
    return session_end(place, table, experts, ran, may), words, ran


def session_end(place, table, experts, ran, may):
    """As `end_of`, of sessions: their text is whole and replays to itself."""
    if (ran.status, ran.out, ran.err) in ((5, b"", NO_MEMORY), (7, b"", b"fca: listener fault\n"), (3, b"", ("fca: %s: read fault\n" % table).encode())):
        return "refused"
    if "not begun" in may and ran.out == b"" and not ran.err.startswith(b"fca: "):
        return "not begun"
    record, _, sessions = ran.out.partition(b"# sessions %d\n" % experts)
    again = subprocess.run([place.program, "replay", table], input=record, stdout=subprocess.PIPE, cwd=place.folder).stdout
    return "answered" if ran.status in (0, 6) and sessions.count(b"\n") == experts and again == record else "wrong"


# ---- what no machine can list


def without_one(count):
    """The table in which object i has all but attribute i: each set of attributes is an intent."""
    return table_of(count, ["X" * i + "." + "X" * (count - i - 1) for i in range(count)])


def without_pairs(count):
    """Object i has all but two attributes of its own and the last one, which is implied by whatever has one of each pair."""
    return table_of(2 * count + 1, ["X" * (2 * i) + ".." + "X" * (2 * (count - i - 1)) + "." for i in range(count)])


def table_of(width, rows):
    names = ["g%d" % i for i in range(len(rows))] + ["m%d" % i for i in range(width)]
    return "".join(line + "\n" for line in ["B", "", str(len(rows)), str(width), ""] + names + rows)


def nominal(count):
    """Each object has an attribute of its own: two of them imply all others."""
    return table_of(count, ["." * i + "X" + "." * (count - i - 1) for i in range(count)])


SMALL_MEMORY = 256 * 1024  # in KB
ENDLESS = [
    ("concepts sets.cxt", ""),
    ("concepts sets.cxt --json", ""),
    ("lattice sets.cxt", ""),
    ("direct pairs.cxt", ""),
    ("basis alone.cxt", ""),
    ("basis alone.cxt --json", ""),
    ("explore bare-alone.cxt --expert alone.cxt", ""),
    ("replay empty.cxt", "draw 1\n" * 2000000),
]


def run_endless(place, report, **how):
    """Each command on a table or a script whose answer is longer than the memory that it may have."""
    place.write("sets.cxt", without_one(48))
    place.write("pairs.cxt", without_pairs(40))
    place.write("alone.cxt", nominal(512))
    place.write("bare-alone.cxt", table_of(512, []))
    for words, stdin in ENDLESS:
        ran = place.run(words, stdin, **how)
        report.add("refused" if ran == Ran(5, b"", NO_MEMORY) else "wrong", words, ran)


def endless(place, report, is_quick):
    run_endless(place, report, limit="-v %d" % SMALL_MEMORY)


def machine(place, report, is_quick):
    begin = ["unshare", "--mount", "sh", "-c", 'mount --bind meminfo /proc/meminfo && exec sh limited "$@"', "sh"]
    write_limited(place)
    if shutil.which("unshare") is None or place.run("concepts beings.cxt", begin=begin) != place.run("concepts beings.cxt"):
        report.skip("it wants unshare, and the right to mount")
        return
    run_endless(place, report, begin=begin)


def write_limited(place):
    """What `fca` does before it runs the program, as a script of its own, and what a machine of little memory says of itself."""
    with open(os.path.join(measure.TOP, "fca")) as script:
        lines = script.read().split("\n")
    first = next(at for at, line in enumerate(lines) if line.startswith("# What stands from here"))
    place.write("limited", "\n".join(["program=$1", "shift"] + lines[first : lines.index("# ----")] + ['run "$@"', ""]))
    place.write("meminfo", "MemAvailable: %d kB\n" % SMALL_MEMORY)


# ---- the door


def connections(place, experts, count):
    """A session for so many experts, and so many connections to it."""
    port = refused_memory.free_port()
    words = [place.program, "serve", "empty.cxt", "--experts", str(experts), "--listen", "127.0.0.1:%d" % port]
    measure.set_tunables("serve")
    child = subprocess.Popen(words, stdin=subprocess.DEVNULL, stdout=subprocess.DEVNULL, cwd=place.folder)
    links = [socket.create_connection(("127.0.0.1", port)) for _ in range(count)] if is_listening(child, port) else []
    for link in links:
        link.settimeout(SECONDS)
    return child, links


def lines_until_closed(link):
    """How many lines come."""
    count = 0
    try:
        while True:
            came = link.recv(65536)
            if not came:
                return count
            count += came.count(b"\n")
    except OSError:
        return count


def arrive(place, behind):
    """How many replies arrive to 20,000 lines that are sent at once with these bytes behind them."""
    child, links = connections(place, 1, 1)
    text = b"draw\n" * 20000 + behind
    sender = threading.Thread(target=send_all, args=(links[0], text))
    sender.start()
    count = lines_until_closed(links[0]) - 5
    sender.join()
    links[0].close()
    child.wait(SECONDS)
    return count


def send_all(link, text):
    try:
        link.sendall(text)
    except OSError:
        pass  # the program has closed the connection


def is_let_go(address):
    """Whether a client at this address is not let in, or hears the end of its connection soon."""
    try:
        with socket.create_connection(address, 10) as link:
            return link.recv(1) == b""
    except socket.timeout:
        return False
    except OSError:
        return True


def is_door_closed(place):
    """Whether one too many is let go while the others are still there."""
    child, links = connections(place, 2, 2)
    is_closed = is_let_go(links[0].getpeername())
    is_running = child.poll() is None
    for link in links:
        link.close()
    child.wait(SECONDS)
    return is_closed and is_running


def replies(place, report, is_quick):
    for behind, expected in ((b"quit\n" + b"draw\n" * 2000, 20001), (b"x" * 9000, 20000)):
        for _ in range(2 if is_quick else 10):
            count = arrive(place, behind)
            report.add("answered" if count == expected else "wrong", "serve", "%d of %d replies arrive, behind them %r .." % (count, expected, behind[:5]))
    report.add("answered" if is_door_closed(place) else "wrong", "serve", "a client too many waits")


ADDRESSES = ["127.0.0.1:0", "127.0.0.1:+48397", "127.0.0.1:048397", "127.0.0.1:65536", "127.0.0.1:", "127.0.0.1", ":48397", "127.0.0.1:48397 ", "no.such.host.invalid:48397"]


def listen(place, report, is_quick):
    for address in ADDRESSES:
        measure.set_tunables("serve")
        words = [place.program, "serve", "empty.cxt", "--experts", "1", "--listen", address]
        try:
            ran = subprocess.run(words, stdin=subprocess.DEVNULL, stdout=subprocess.PIPE, stderr=subprocess.PIPE, cwd=place.folder, timeout=30)
            ran = Ran(ran.returncode, ran.stdout, ran.stderr)
        except subprocess.TimeoutExpired:
            ran = Ran(None, b"", b"")
        report.add("refused" if ran == Ran(7, b"", b"fca: listener fault\n") else "wrong", "serve --listen " + repr(address), ran)


PARTS = {
    part.__name__: part for part in (stacks, addresses, growth, files, threads, memory, calls, streams, endless, machine, replies, listen)
}


def main():
    parser = argparse.ArgumentParser(description=__doc__, formatter_class=argparse.RawDescriptionHelpFormatter)
    parser.add_argument("--quick", action="store_true", help="fewer steps, a minute or two")
    parser.add_argument("parts", nargs="*", metavar="PART", default=list(PARTS), help=", ".join(PARTS))
    said = parser.parse_args()
    if not set(said.parts) <= set(PARTS):
        parser.error("a part is one of " + ", ".join(PARTS))
    report, begin = Report(), time.time()
    with tempfile.TemporaryDirectory() as folder:
        place = Place(folder)
        measure.FCA = place.program
        for part in said.parts:
            report.begin(part)
            PARTS[part](place, report, said.quick)
            report.end()
    print("in all: %s, of which known %d, in %.0f seconds" % (told(report.all), report.known, time.time() - begin))
    sys.exit(1 if report.all["wrong"] > report.known else 0)


if __name__ == "__main__":
    main()
