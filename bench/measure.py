"""Runs a command of the program and tells its seconds, its peak of memory and its status. A peak below that of this script itself, some 20 MB,
is not seen, since a child begins as its copy; `usage_alone` sees it.
"""
import ctypes
import hashlib
import os
import random
import subprocess
import tempfile
import time

TOP = os.path.dirname(os.path.dirname(os.path.abspath(__file__)))
FCA = os.environ.get("BENCH_FCA", os.path.join(TOP, "fca"))
LIMIT = int(os.environ.get("BENCH_LIMIT", "60"))
TUNABLES = "glibc.malloc.hugetlb=1"
AREAS = ":glibc.malloc.arena_max=1:glibc.malloc.mmap_threshold=4194304"
GIVEN_BACK = "glibc.malloc.mmap_threshold=65536:glibc.malloc.trim_threshold=65536"
SET_BY_CALLER = "GLIBC_TUNABLES" in os.environ


def set_tunables(command):
    """Has the C library do as `fca` has it for that command, also where another program is measured, unless the caller has set that."""
    if not SET_BY_CALLER:
        tunables = {"concepts": TUNABLES + AREAS, "basis": GIVEN_BACK}
        os.environ["GLIBC_TUNABLES"] = tunables.get(command, TUNABLES)


set_tunables(None)


def built_program():
    """The program itself, and not the script `fca`, which is asked first and builds it where that is needed."""
    if "BENCH_FCA" in os.environ:
        return os.path.abspath(FCA)
    subprocess.run([FCA], stderr=subprocess.DEVNULL)
    return os.path.join(TOP, "crates", "fca_program", "out", "fca_program")


def tables_folder():
    """Where the tables are kept."""
    folder = os.environ.get("BENCH_TABLES", "/tmp/fca-bench")
    os.makedirs(folder, exist_ok=True)
    return folder


def table(seed, objects, attributes, density, form="cxt"):
    """The path of the table that `make` gives of these numbers, in this form; it is made where it is not there yet."""
    path = os.path.join(tables_folder(), "%d-%d-%d-%d.%s" % (seed, objects, attributes, density, form))
    if not os.path.exists(path):
        words = ["make"] + [str(number) for number in (seed, objects, attributes, density)]
        if form != "cxt":
            words = ["convert", table(seed, objects, attributes, density), form]
        with open(path + ".part", "wb") as out:
            subprocess.run([FCA] + words, stdout=out, check=True)
        os.rename(path + ".part", path)
    return path


def run(words, stdin=b"", repeat=3):
    """The least wall time of some runs in seconds, the peak of memory in bytes, and the status and the bytes of the last run."""
    least, peak, status, text = None, 0, None, b""
    for _ in range(repeat):
        with tempfile.TemporaryFile() as given, tempfile.TemporaryFile() as out:
            given.write(stdin)
            given.seek(0)
            begin = time.time()
            child = subprocess.Popen([FCA] + words, stdin=given, stdout=out)
            _, ended, usage = os.wait4(child.pid, 0)
            took = time.time() - begin
            least = took if least is None else min(least, took)
            peak = max(peak, usage.ru_maxrss * 1024)
            status = os.waitstatus_to_exitcode(ended)
            out.seek(0)
            text = out.read()
    return least, peak, status, text


SUBREAPER = 36  # of prctl: a process whose parent has ended becomes a child of this one


def usage_alone(words):
    """What the system tells of a run into the null device. A shell begins it and ends at once, so its peak of memory is its own, however small."""
    ctypes.CDLL(None).prctl(SUBREAPER, 1, 0, 0, 0)
    with open(os.devnull, "wb") as out:
        subprocess.run(["sh", "-c", '"$@" &', "sh"] + words, stdout=out, stderr=out, check=True)
    _, ended, usage = os.wait4(-1, 0)
    if ended:
        raise subprocess.CalledProcessError(os.waitstatus_to_exitcode(ended), words)
    return usage


def written(words):
    """A digest of what the command writes; nothing past the limit."""
    with tempfile.TemporaryFile() as out:
        child = subprocess.run(["timeout", str(LIMIT)] + words, stdout=out, stderr=subprocess.DEVNULL)
        if child.returncode != 0:
            return None
        out.seek(0)
        return hashlib.file_digest(out, "sha256").hexdigest()


class Times:
    """Processor seconds, wall seconds and peaks of memory of some runs of a command into the null device."""

    def __init__(self, words):
        self.words, self.processor, self.wall, self.peak = words, [], [], 0

    def run(self):
        begin = time.time()
        child = subprocess.Popen(self.words, stdout=subprocess.DEVNULL, stderr=subprocess.DEVNULL)
        _, _, usage = os.wait4(child.pid, 0)
        self.wall.append(time.time() - begin)
        self.processor.append(usage.ru_utime + usage.ru_stime)
        self.peak = max(self.peak, usage.ru_maxrss / 1024)


def in_turns(commands, repeat):
    """The times of the commands, which run in turns, in another order each time."""
    times = [Times(words) for words in commands]
    for _ in range(repeat):
        for one in random.sample(times, len(times)):
            one.run()
    return times


def median(numbers):
    return sorted(numbers)[len(numbers) // 2]
