#!/usr/bin/env python3
"""How time and memory grow: growth.py [--plot FILE] [COMMAND ..], all of concepts, lattice, basis and explore where none is said.

A command runs on generated tables in which one number grows over five sizes: the objects, the attributes, the density, or the lines of the answer
while the number of cells stays about the same. `explore` is by one oracle, from no object on. Of three runs into the null device the least
processor seconds and the most memory count. An exponent is the slope of a line that is fitted to the logarithms by least squares: with
exponent 2, twice the size takes four times as much. Seconds and memory are fitted without what a table of one cell
takes, and without the runs that take less than 1.2 times as much.

Printed are the tables of docs/PERFORMANCE.md in Markdown: the runs with their exponents; what the exponents come to at the most objects and the
most attributes, which is not measured; and how many concepts are expected of the largest tables at random. --plot FILE draws all runs as an SVG
picture.
"""
import argparse
import collections
import math
import os
import subprocess
import sys

sys.path.insert(0, os.path.dirname(os.path.abspath(__file__)))
import log_plot
import measure

SEED = 1
MOST = [65536, 1024]  # objects and attributes of a table
LONG = 0.05  # seconds of a run of which a line's cost is told
LARGEST = [(65536, 248), (16260, 1024), (65536, 1024)]  # the first two have room in a file
WAYS = ["objects", "attributes", "density", "answer"]
# objects, attributes, density
SIZES = {
    "concepts": {
        "objects": [(n, 20, 3) for n in (4096, 8192, 16384, 32768, 65536)],
        "attributes": [(100, n, 2) for n in (140, 180, 230, 290, 370)],
        "density": [(250, 26, d) for d in (1, 2, 3, 4, 5)],
        "answer": [(n, 24000 // n, 4) for n in (1200, 1090, 960, 857, 774)],
    },
    "lattice": {
        "objects": [(n, 20, 3) for n in (2048, 4096, 8192, 16384, 32768)],
        "attributes": [(100, n, 2) for n in (85, 110, 145, 190, 245)],
        "density": [(200, 24, d) for d in (1, 2, 3, 4, 5)],
        "answer": [(n, 12000 // n, 4) for n in (705, 600, 545, 480, 428)],
    },
    "basis": {
        "objects": [(n, 24, 3) for n in (400, 800, 1600, 3200, 6400)],
        "attributes": [(300, n, 1) for n in (62, 74, 88, 104, 122)],
        "density": [(250, 25, d) for d in (1, 2, 3, 4, 5)],
        "answer": [(n, 40000 // n, 2) for n in (1600, 1428, 1250, 1081, 952)],
    },
    "explore": {
        "objects": [(n, 22, 3) for n in (300, 600, 1200, 2400, 4800)],
        "attributes": [(300, n, 1) for n in (62, 74, 88, 104, 122)],
        "density": [(300, 22, d) for d in (1, 2, 3, 4, 5)],
        "answer": [(n, 30000 // n, 2) for n in (1500, 1200, 1000, 857, 790)],
    },
}

Run = collections.namedtuple("Run", "case size lines seconds memory")
Fit = collections.namedtuple("Fit", "exponent off")


# ---- measuring


def words_of(command, case):
    """The words of the command on the table of this case."""
    table = measure.table(SEED, *case)
    return [command, measure.table(SEED, 0, *case[1:]), "--expert", table] if command == "explore" else [command, table]


def lines_of(words):
    """How many lines the answer has."""
    with subprocess.Popen(words, stdout=subprocess.PIPE) as child:
        count = sum(part.count(b"\n") for part in iter(lambda: child.stdout.read(1 << 20), b""))
    if child.returncode:
        sys.exit("%s: status %d" % (" ".join(words), child.returncode))
    return count


def run(program, command, case, size):
    """What three runs on this table come to; the size is that of the way, or else the lines of the answer."""
    words = [program] + words_of(command, case)
    lines = lines_of(words)
    usages = [measure.usage_alone(words) for _ in range(3)]
    seconds = min(usage.ru_utime + usage.ru_stime for usage in usages)
    memory = max(usage.ru_maxrss for usage in usages) * 1024
    return Run(case, size or lines, lines, seconds, memory)


def runs_of(program, command):
    """The runs of a command, by what grows, each list from the least size on."""
    measure.set_tunables(command)
    runs = {}
    for way in WAYS:
        place = WAYS.index(way)
        runs[way] = sorted(run(program, command, case, case[place] if place < 3 else None) for case in SIZES[command][way])
        runs[way].sort(key=lambda one: one.size)
    return runs


# ---- fitting


def fit(sizes, values):
    """The exponent of the values in the sizes, and by which factor a value is off at most."""
    xs, ys = [math.log(size) for size in sizes], [math.log(value) for value in values]
    x, y = sum(xs) / len(xs), sum(ys) / len(ys)
    slope = sum((a - x) * (b - y) for a, b in zip(xs, ys)) / sum((a - x) ** 2 for a in xs)
    return Fit(slope, math.exp(max(abs(b - y - slope * (a - x)) for a, b in zip(xs, ys))))


def fits(runs, least):
    """Of lines, seconds and memory; of the latter without what the least run takes, and without the runs that take hardly more."""
    found = [fit([one.size for one in runs], [one.lines for one in runs])]
    for of in (lambda one: one.seconds, lambda one: one.memory):
        some = [one for one in runs if of(one) > 1.2 * of(least)]
        found.append(fit([one.size for one in some], [of(one) - of(least) for one in some]))
    return found


# ---- the tables


def span(form, values):
    return "%s to %s" % (form(values[0]), form(values[-1]))


def number(value):
    return format(round(value), ",")


def seconds(value):
    return "%.3f" % value


def megabytes(value):
    return "%.1f" % (value / 2**20) if value < 10 * 2**20 else number(value / 2**20)


def told(fit):
    return "%.2f (%.2f)" % fit


def tables_of(way, runs):
    """The tables, as SEED x OBJECTS x ATTRIBUTES x DENSITY; what grows has its first and its last size."""
    parts = [str(SEED)] + [number(a) if a == b else "(%s to %s)" % (number(a), number(b)) for a, b in zip(runs[0].case, runs[-1].case)]
    return " x ".join(parts)


def print_fits(command, runs, least):
    for way in WAYS:
        some = runs[way]
        cells = ["`%s`" % command, way, tables_of(way, some), span(number, [one.lines for one in some]), span(seconds, [one.seconds for one in some])]
        cells += [span(megabytes, [one.memory for one in some])] + [told(one) for one in fits(some, least)]
        print("| " + " | ".join(cells) + " |", flush=True)


# ---- past what was measured


TIMES = [("years", 31557600), ("days", 86400), ("hours", 3600), ("minutes", 60), ("seconds", 1)]
BYTES = [("TB", 2**40), ("GB", 2**30), ("MB", 2**20)]


def in_units(units, value):
    """In the largest unit that the value fills twice."""
    unit, size = next((one for one in units if value >= 2 * one[1]), units[-1])
    return "%s %s" % (rounded(value / size), unit)


def rounded(value):
    """In two digits, as nothing more is known."""
    return number(float("%.1e" % value)) if value < 1e9 else "10^%.1f" % math.log10(value)


def print_beyond(command, runs, least):
    """From the largest run to the most objects, or the most attributes, that a table may have, by the exponents."""
    for place, way in enumerate(WAYS[:2]):
        last, most = runs[way][-1], MOST[place]
        if last.size == most:
            continue
        by = [(most / last.size) ** one.exponent for one in fits(runs[way], least)]
        case = [number(most) if at == place else number(part) for at, part in enumerate(last.case)]
        cells = ["`%s`" % command, " x ".join([str(SEED)] + case), rounded(last.lines * by[0])]
        cells += [in_units(TIMES, last.seconds * by[1]), in_units(BYTES, last.memory * by[2])]
        print("| " + " | ".join(cells) + " |")


def sum_of_logs(logs):
    most = max(logs)
    return most + math.log(sum(math.exp(one - most) for one in logs))


def concepts_expected(objects, attributes, density):
    """The logarithm of how many concepts are expected if each cell is a cross with this probability of eighths, whatever the others are. A set of i
    objects and one of j attributes are a concept if all their cells are crosses, no other object has all j, and no other attribute all i.
    """
    chance, logs = density / 8, []
    for j in range(attributes + 1):
        having = chance**j  # how likely an object has all j
        mean = objects * having
        room = 10 * math.sqrt(mean + 1)
        for i in range(max(0, int(mean - room)), min(objects, int(mean + room) + 60) + 1):
            if (i > 0 or j == attributes) and (j > 0 or i == objects):
                closed = (attributes - j) * math.log1p(-(chance**i)) if j < attributes else 0
                others = (objects - i) * math.log1p(-having) if i < objects else 0
                logs.append(choices(objects, i) + choices(attributes, j) + i * j * math.log(chance) + closed + others)
    return sum_of_logs(logs)


def choices(many, some):
    """The logarithm of the number of ways to choose some of many."""
    return math.lgamma(many + 1) - math.lgamma(some + 1) - math.lgamma(many - some + 1)


def print_expected(runs):
    """The concepts of the largest tables, expected, with seconds and memory if each takes as little, or as much, as in the runs that were measured."""
    every = [one for some in runs.values() for one in some]
    ratios = [one.lines / math.exp(concepts_expected(*one.case)) for one in every]
    print("\nConcepts of the runs above by those expected: %.2f to %.2f" % (min(ratios), max(ratios)))
    long = [one for one in every if one.seconds > LONG]
    times, sizes = ends([one.seconds / one.lines for one in long]), ends([one.memory / one.lines for one in long])
    heads = span(lambda it: "%.2g" % (1e6 * it), times), span(lambda it: "%.0f" % it, sizes)
    print("\n| table | concepts expected | at %s microseconds each | at %s bytes each |" % heads)
    print("|---|---|---|---|")
    for density in (1, 2):
        for objects, attributes in LARGEST:
            expected = math.exp(concepts_expected(objects, attributes, density))
            cells = ["%s x %s x %d" % (number(objects), number(attributes), density), rounded(expected)]
            cells += [span(lambda it: in_units(TIMES, expected * it), times), span(lambda it: in_units(BYTES, expected * it), sizes)]
            print("| " + " | ".join(cells) + " |")


def ends(values):
    return min(values), max(values)


# ---- the picture

AXES = {"objects": "objects", "attributes": "attributes", "density": "crosses in eight cells", "answer": "lines of the answer"}


def panel(every, way, title, value):
    curves = [(command, [(one.size, value(one)) for one in runs[way]]) for command, (runs, _) in every.items()]
    return log_plot.Panel(title, AXES[way], curves)


def write_plot(every, path):
    """Seconds in the upper row and megabytes in the lower one, by what grows."""
    panels = [panel(every, way, "seconds", lambda one: one.seconds) for way in WAYS]
    panels += [panel(every, way, "MB of memory", lambda one: one.memory / 2**20) for way in WAYS]
    with open(path, "w", encoding="utf-8") as out:
        out.write(log_plot.draw(panels, len(WAYS)))


# ---- main


def main():
    parser = argparse.ArgumentParser(description=__doc__, formatter_class=argparse.RawDescriptionHelpFormatter)
    parser.add_argument("--plot", metavar="FILE")
    parser.add_argument("commands", nargs="*", metavar="COMMAND", help=", ".join(SIZES))
    said = parser.parse_args()
    if not set(said.commands) <= set(SIZES):
        parser.error("a command is one of " + ", ".join(SIZES))
    program, every = measure.built_program(), {}
    print("| command | what grows | tables | lines of the answer | seconds | MB | exponent of lines | of seconds | of memory |")
    print("|---|---|---|---|---|---|---|---|---|")
    for command in said.commands or SIZES:
        least = run(program, command, (1, 1, 4), 1)
        every[command] = runs_of(program, command), least
        print_fits(command, *every[command])
    print("\n| command | table | lines of the answer | of the processor | memory |")
    print("|---|---|---|---|---|")
    for command, (runs, least) in every.items():
        print_beyond(command, runs, least)
    if "concepts" in every:
        print_expected(every["concepts"][0])
    if said.plot:
        write_plot(every, said.plot)


if __name__ == "__main__":
    main()
