#!/usr/bin/env python3
"""The gate, `rt ci --anew`, and each crate's share of its processor time.

gate.py [WORD ..]: runs `rt ci --anew` (or `rt ci WORD ..`) at the top of this repository, writes what it says, and then a table of processor
seconds by crate: its proof, the proof of its tests, its must-fail edits, and the sum. A process is looked at each half second, so the last
half second of each may be missing; the line `in all` is what the system counted for all processes of the run, and the wall time.
"""
import os
import subprocess
import sys
import threading
import time

TOP = os.path.dirname(os.path.dirname(os.path.abspath(__file__)))
TICKS = os.sysconf("SC_CLK_TCK")
KINDS = ("proof", "tests", "edits")


def descendants(root):
    """The processes that stand below this one."""
    parents = {}
    for name in os.listdir("/proc"):
        if name.isdigit():
            try:
                with open("/proc/%s/stat" % name) as it:
                    fields = it.read().rpartition(")")[2].split()
            except OSError:
                continue
            parents[int(name)] = (int(fields[1]), (int(fields[11]) + int(fields[12])) / TICKS)
    below = {root}
    while True:
        more = {pid for pid, (parent, _) in parents.items() if parent in below} - below
        if not more:
            return {pid: parents[pid][1] for pid in below if pid in parents}
        below |= more


def share_of(pid):
    """The crate and the kind of work of a process of the prover, if it is one."""
    try:
        with open("/proc/%d/cmdline" % pid, "rb") as it:
            words = it.read().decode(errors="replace").split("\0")
        folder = os.readlink("/proc/%d/cwd" % pid)
    except OSError:
        return None
    if not words[0].endswith("/rattle") or "--crate-name" not in words:
        return None
    crate = words[words.index("--crate-name") + 1]
    if "/rt-edit-" in folder:
        return crate, "edits"
    return crate, "tests" if "--test" in words else "proof"


def look(root, seconds, shares, ended):
    """Looks at the processes until the run has ended."""
    while not ended.is_set():
        for pid, took in descendants(root).items():
            # a process that is no prover's yet may become one's
            shares[pid] = shares.get(pid) or share_of(pid)
            if shares[pid]:
                seconds[pid] = max(seconds.get(pid, 0), took)
        ended.wait(0.5)


def report(seconds, shares):
    """A line for each crate, the dearest first."""
    table = {}
    for pid, took in seconds.items():
        crate, kind = shares[pid]
        table.setdefault(crate, dict.fromkeys(KINDS, 0))[kind] += took
    print("%-20s %8s %8s %8s %8s" % ("crate", *KINDS, "sum"))
    for crate, row in sorted(table.items(), key=lambda it: -sum(it[1].values())):
        print("%-20s %8.0f %8.0f %8.0f %8.0f" % (crate, *(row[kind] for kind in KINDS), sum(row.values())))
    sums = [sum(row[kind] for row in table.values()) for kind in KINDS]
    print("%-20s %8.0f %8.0f %8.0f %8.0f" % ("all", *sums, sum(sums)))


def main():
    begin = time.time()
    child = subprocess.Popen(["rt", "ci", *(sys.argv[1:] or ["--anew"])], cwd=TOP, stdout=subprocess.PIPE, stderr=subprocess.STDOUT, text=True)
    seconds, shares, ended = {}, {}, threading.Event()
    watch = threading.Thread(target=look, args=(child.pid, seconds, shares, ended))
    watch.start()
    for line in child.stdout:
        print("%6.1f  %s" % ((time.time() - begin) / 60, line), end="", flush=True)
    _, status, usage = os.wait4(child.pid, 0)
    ended.set()
    watch.join()
    report(seconds, shares)
    print("in all: %.0f seconds of processor (%.0f of the system), %.1f minutes" % (usage.ru_utime + usage.ru_stime, usage.ru_stime, (time.time() - begin) / 60))
    sys.exit(os.waitstatus_to_exitcode(status))


main()
