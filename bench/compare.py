#!/usr/bin/env python3
"""Concepts, lattices and bases: seconds and memory of the program, and of other programs in the same run.

compare.py [FOLDER [FILE ..]]: FOLDER has programs `concepts`, `lattice` and `basis` that are called as `concepts ALGORITHM print FILE`
and write the same bytes. They are no part of this repository; without FOLDER the program alone is timed. The tables are generated ones,
and each FILE besides, for all three commands; BENCH_JOBS names some of the commands. All programs run into the null device, in turns and in
another order each time, BENCH_REPEAT times (9). Seconds are of the processor and by the clock, each the least and the median, and so are the
ratios, of the program's beside those of the algorithm. `differs` marks other bytes.
"""
import os
import sys

sys.path.insert(0, os.path.dirname(os.path.abspath(__file__)))
import measure

# seed, objects, attributes, density
CASES = {
    "concepts": [(1, 1000, 40, 2), (3, 200, 30, 4), (5, 300, 18, 6), (9, 10000, 60, 1), (11, 65536, 20, 3), (3, 400, 40, 4), (1, 300, 120, 1), (1, 100, 240, 2)],
    "lattice": [(1, 1000, 40, 2), (3, 200, 30, 4), (5, 300, 18, 6), (9, 10000, 60, 1), (11, 65536, 20, 3), (1, 300, 120, 1)],
    "basis": [(1, 1000, 40, 2), (3, 200, 30, 4), (11, 65536, 20, 3), (5, 300, 18, 6), (7, 60, 40, 1)],
}
REPEAT = int(os.environ.get("BENCH_REPEAT", "9"))
ALGORITHMS = {"concepts": ["inclose5", "fcbo"], "lattice": ["lindig"], "basis": ["lincbo", "lincbop"]}


def line(job, name, program, times, mine=None, differs=False):
    """A line of the table."""
    numbers = [min(times.processor), measure.median(times.processor), min(times.wall), measure.median(times.wall)]
    text = "%-10s %-18s %-10s" % (job, name, program) + "".join(" %8.3f" % number for number in numbers) + " %9.1f" % times.peak
    if mine:
        pairs = [(min, "processor"), (measure.median, "processor"), (min, "wall"), (measure.median, "wall")]
        text += "".join(" %6.2f" % (of(getattr(mine, which)) / of(getattr(times, which))) for of, which in pairs)
    print(text + (" differs" if differs else ""), flush=True)


def report(job, name, path, folder):
    """A line for the program, and one for each algorithm that comes to an end. Whether all wrote the same bytes."""
    commands = [("fca", [measure.FCA, job, path])]
    commands += [(algorithm, [os.path.join(folder, job), algorithm, "print", path]) for algorithm in ALGORITHMS[job]] if folder else []
    digests = [measure.written(words) for _, words in commands]
    ended = [place for place, digest in enumerate(digests) if digest]
    times = measure.in_turns([commands[place][1] for place in ended], REPEAT)
    mine = times[0] if ended and ended[0] == 0 else None
    for place, one in zip(ended, times):
        line(job, name, commands[place][0], one, mine if place else None, digests[place] != digests[0])
    for place in set(range(len(commands))) - set(ended):
        print("%-10s %-18s %-10s %8s" % (job, name, commands[place][0], ">%d" % measure.LIMIT), flush=True)
    return len({digests[place] for place in ended}) < 2


def main():
    folder = sys.argv[1] if len(sys.argv) > 1 else None
    print("%-10s %-18s %-10s %17s %17s %9s %13s %13s" % ("command", "table", "program", "processor seconds", "by the clock", "MB", "ratios", "by the clock"))
    wanted = os.environ.get("BENCH_JOBS", " ".join(CASES)).split()
    for job, cases in CASES.items():
        if job not in wanted:
            continue
        measure.set_tunables(job)
        for case in cases:
            report(job, "%dx%dx%dx%d" % case, measure.table(*case), folder)
        for path in sys.argv[2:]:
            report(job, os.path.basename(path), path, folder)


if __name__ == "__main__":
    main()
