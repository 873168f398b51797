#!/usr/bin/env python3
"""Memory refused one allocation at a time: refused_memory.py [COMMANDS], all where no part of a command is said.

Each command is run once for each of its allocations, and that allocation alone is refused (a library that stands before malloc
is built with cc). Each run must come to the command's whole answer, or to want of memory: status 5, its line on err, and
nothing on out. A session (`serve`) goes on after `no memory`, so its text may be another; it must replay to itself. Told are
the allocations of each command, and how its runs ended.
"""
import os
import socket
import subprocess
import sys
import tempfile
import time

sys.path.insert(0, os.path.dirname(os.path.abspath(__file__)))
import measure

# Refuses call number REFUSED of those that ask for memory, and writes at the end how many there were.
SHIM = r"""
#define _GNU_SOURCE
#include <errno.h>
#include <fcntl.h>
#include <stdatomic.h>
#include <stdio.h>
#include <stdlib.h>
#include <sys/syscall.h>
#include <unistd.h>
extern void *__libc_malloc(size_t), *__libc_realloc(void *, size_t);
static atomic_long calls;
static long refused = -1;
static int is_refused(void) {
    if (refused == -1) { const char *text = getenv("REFUSED"); refused = text ? atol(text) : 0; }
    if (atomic_fetch_add(&calls, 1) + 1 != refused) return 0;
    errno = ENOMEM;
    return 1;
}
void *malloc(size_t size) { return is_refused() ? NULL : __libc_malloc(size); }
void *realloc(void *old, size_t size) { return is_refused() ? NULL : __libc_realloc(old, size); }
void _exit(int status) {
    char text[32];
    int length = snprintf(text, sizeof text, "%ld", atomic_load(&calls));
    int out = open(getenv("REFUSED_CALLS"), O_WRONLY | O_CREAT | O_TRUNC, 0600);
    if (write(out, text, length) == length) close(out);
    syscall(SYS_exit_group, status);
    __builtin_unreachable();
}
"""

EMPTY = "B\n\n0\n2\n\na\nb\n"
THREE = "B\n\n3\n3\n\n1\n2\n3\na\nb\nc\n.XX\nX.X\nXX.\n"
BARE = "B\n\n0\n9\n\na\nb\nc\nd\ne\nf\ng\nh\ni\n"
BEINGS = """B

8
9

leech
bream
frog
dog
spike-weed
reed
bean
maize
a
b
c
d
e
f
g
h
i
XX....X..
XX....XX.
XXX...XX.
X.X...XXX
XX.X.X...
XXXX.X...
X.XXX....
X.XX.X...
"""
VALUES = "x,age,size\ntim,21,s\nann,35,l\n"
PLAN = "ordinal,age,30,40\nnominal,size,s,m,l\n"
SCRIPT = "draw 1\nrow 1 .. p\ndraw 1\ndraw 2\nrow 1 .X q\nconfirm 2\ndraw 1\n"
FILES = {"empty.cxt": EMPTY, "three.cxt": THREE, "bare.cxt": BARE, "beings.cxt": BEINGS, "values.csv": VALUES, "plan.csv": PLAN}

COMMANDS = [
    ("replay empty.cxt", SCRIPT),
    ("concepts three.cxt", ""),
    ("lattice three.cxt", ""),
    ("basis three.cxt", ""),
    ("concepts three.cxt --json", ""),
    ("basis three.cxt --json", ""),
    ("basis beings.cxt", ""),
    ("direct three.cxt", ""),
    ("follows beings.cxt b c", ""),
    ("follows beings.cxt i g", ""),
    ("convert beings.cxt csv", ""),
    ("reduce beings.cxt", ""),
    ("arrows beings.cxt", ""),
    ("scale values.csv plan.csv", ""),
    ("make 7 20 10 4", ""),
    ("survey 7 6 5 4 2", ""),
    ("explore bare.cxt --expert beings.cxt --expert beings.cxt --expert beings.cxt", ""),
]


def build(folder):
    """The library that stands before malloc."""
    source, library = os.path.join(folder, "refused.c"), os.path.join(folder, "refused.so")
    with open(source, "w") as out:
        out.write(SHIM)
    subprocess.run(["cc", "-O2", "-shared", "-fPIC", "-o", library, source], check=True)
    return library


def ran(words, stdin, folder, library, refused):
    """The status of the command, what it wrote, what it said on err, and how often it asked for memory."""
    counted = os.path.join(folder, "calls")
    set_to = dict(os.environ, LD_PRELOAD=library, REFUSED=str(refused), REFUSED_CALLS=counted)
    done = subprocess.run([measure.FCA] + words, input=stdin.encode(), capture_output=True, cwd=folder, env=set_to, timeout=60)
    with open(counted) as told:
        return done.returncode, done.stdout, done.stderr, int(told.read())


def is_same_end(text, whole):
    """Whether both texts of explorations end alike; who was asked first is another each time."""
    return text[text.index(b"# open ") :] == whole[whole.index(b"# open ") :]


def report(words, stdin, folder, library):
    """Refuses each allocation of the command once; how many runs came to something else than its answer or want of memory."""
    status, whole, _, calls = ran(words, stdin, folder, library, 0)
    answers, wants, wrong = 0, 0, 0
    for refused in range(1, calls + 1):
        ended, out, err, _ = ran(words, stdin, folder, library, refused)
        if ended == status and (out == whole or words[0] == "explore" and is_same_end(out, whole)):
            answers += 1
        elif (ended, out, err) == (5, b"", b"fca: no memory\n"):
            wants += 1
        else:
            wrong += 1
            print("wrong: %s, allocation %d refused: status %d, %d bytes, %r" % (" ".join(words), refused, ended, len(out), err), flush=True)
    print("%-50s allocations %4d, answered %4d, want of memory %4d, wrong %d" % (" ".join(words)[:50], calls, answers, wants, wrong), flush=True)
    return calls, wrong


LINES = ["draw", "row .. p", "draw", "row XX q", "confirm", "draw", "leave", "quit"]


def free_port():
    with socket.socket() as free:
        free.bind(("127.0.0.1", 0))
        return free.getsockname()[1]


def talk(port, server):
    """The replies to the lines of a session, as far as they come; none where the program does not listen any more."""
    while server.poll() is None:
        try:
            link = socket.create_connection(("127.0.0.1", port))
            break
        except ConnectionRefusedError:
            time.sleep(0.002)
    else:
        return None
    replies = []
    with link, link.makefile("rw", newline="\n") as lines:
        for _ in range(5):
            lines.readline()
        for line in LINES:
            try:
                lines.write(line + "\n")
                lines.flush()
                reply = lines.readline()
            except OSError:
                break
            if not reply:
                break
            replies.append(reply.strip())
    return replies


def served(folder, library, refused):
    """A session while an allocation is refused: the status, the text, the replies, and how often the program asked for memory."""
    port, counted = free_port(), os.path.join(folder, "calls")
    set_to = dict(os.environ, LD_PRELOAD=library, REFUSED=str(refused), REFUSED_CALLS=counted)
    words = [measure.FCA, "serve", "empty.cxt", "--experts", "1", "--listen", "127.0.0.1:%d" % port]
    server = subprocess.Popen(words, stdout=subprocess.PIPE, stderr=subprocess.PIPE, cwd=folder, env=set_to)
    replies = talk(port, server)
    out, err = server.communicate(timeout=60)
    with open(counted) as told:
        return server.returncode, out, err, replies, int(told.read())


def is_served(status, out, replies, folder):
    """Whether the text is whole, tells how the session ended, replays to itself, and each line was answered up to that end."""
    if status not in (0, 6) or b"# sessions 1\n# 1 " not in out:
        return False
    record, _, ending = out.partition(b"# sessions 1\n# 1 ")
    replayed = subprocess.run([measure.FCA, "replay", "empty.cxt"], input=out, capture_output=True, cwd=folder).stdout
    ended = len(replies) == len(LINES) and replies[-1] == "bye" if ending == b"quit\n" else ending == b"no memory\n"
    return ended and replayed == record


def report_session(folder, library):
    """As `report`, of a session over TCP."""
    status, out, _, replies, calls = served(folder, library, 0)
    answers, wants, wrong = 0, 0, 0
    for refused in range(1, calls + 1):
        status, out, err, replies, _ = served(folder, library, refused)
        if (status, out, err) == (5, b"", b"fca: no memory\n"):
            wants += 1
        elif is_served(status, out, replies or [], folder):
            answers += 1
        else:
            wrong += 1
            print("wrong: session, allocation %d refused: status %d, %r, %r, %r" % (refused, status, out[-60:], err, replies), flush=True)
    print("%-50s allocations %4d, answered %4d, want of memory %4d, wrong %d" % ("a session over TCP", calls, answers, wants, wrong), flush=True)
    return calls, wrong


def main():
    wanted = sys.argv[1:]
    runs, wrong, begin = 0, 0, time.time()
    with tempfile.TemporaryDirectory() as folder:
        library = build(folder)
        for name, text in FILES.items():
            with open(os.path.join(folder, name), "w") as out:
                out.write(text)
        for words, stdin in COMMANDS:
            if not wanted or any(part in words for part in wanted):
                more, bad = report(words.split(), stdin, folder, library)
                runs, wrong = runs + more, wrong + bad
        if not wanted or "serve" in wanted:
            more, bad = report_session(folder, library)
            runs, wrong = runs + more, wrong + bad
    print("runs %d, wrong %d, in %.0f seconds" % (runs, wrong, time.time() - begin))
    sys.exit(wrong > 0)


if __name__ == "__main__":
    main()
