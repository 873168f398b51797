#!/usr/bin/env python3
"""Tables that people have, and scales: the program beside other programs, in one run, byte for byte.

real.py [FOLDER]: writes the tables into BENCH_TABLES (/tmp/fca-bench), and times them as compare.py does; FOLDER has the other programs.
real.py --make: only writes the tables and prints their paths.
ONLY=WORD ..: only the tables whose names have one of the words. BENCH_JOBS names some of the commands.

The tables are the tags of the packages of this system's distribution (`apt-cache dumpavail`: an object for each package, an attribute for each
of the most frequent tags), the scales of Ganter and Wille's book in several orders of their attributes, the tables of examples/raw and, if the
package `weka` is installed, its examples, by the plans that examples/plan.py makes of them, and, if `Rscript` and its packages `datasets` and
`mlbench` are installed, their tables with a nominal scale for each column of up to twelve values. The status is 1 where a program wrote other
bytes.
"""
import csv
import glob
import gzip
import io
import os
import random
import shutil
import subprocess
import sys

sys.path.insert(0, os.path.dirname(os.path.abspath(__file__)))
import compare
import measure

TAGS = [30, 60, 120, 240, 500]
WEKA = "/usr/share/doc/weka/examples"
PLAN = os.path.join(measure.TOP, "examples", "plan.py")
OF_R = {
    "votes": "data(HouseVotes84, package='mlbench'); write.csv(HouseVotes84, row.names=FALSE)",
    "zoo": "data(Zoo, package='mlbench'); write.csv(Zoo, row.names=FALSE)",
    "breastcancer": "data(BreastCancer, package='mlbench'); write.csv(BreastCancer[,-1], row.names=FALSE)",
    "soybean": "data(Soybean, package='mlbench'); write.csv(Soybean[,1:12], row.names=FALSE)",
    "titanic": "write.csv(as.data.frame(Titanic)[rep(1:32, as.data.frame(Titanic)$Freq), 1:4], row.names=FALSE)",
    "iris": "write.csv(data.frame(lapply(iris, function(x) if (is.numeric(x)) cut(x, 4) else x)), row.names=FALSE)",
    "cars": "write.csv(data.frame(lapply(mtcars, function(x) if (length(unique(x)) > 6) cut(x, 5) else x)), row.names=FALSE)",
}


def path_of(name):
    return os.path.join(measure.tables_folder(), "real-%s.cxt" % name)


def write(name, objects, attributes, rows):
    """Writes a table in the Burmeister form, if it is not there yet; rows are sets of places of attributes."""
    path = path_of(name)
    if not os.path.exists(path):
        lines = ["B", "", str(len(objects)), str(len(attributes)), ""] + objects + attributes
        lines += ["".join("X" if place in row else "." for place in range(len(attributes))) for row in rows]
        with open(path + ".part", "w", encoding="utf-8") as out:
            out.write("\n".join(lines) + "\n")
        os.rename(path + ".part", path)
    return path


def packages():
    """The names of the packages of the distribution and the tags of each."""
    text = subprocess.run(["apt-cache", "dumpavail"], stdout=subprocess.PIPE, stderr=subprocess.DEVNULL).stdout.decode("utf-8", "replace")
    for paragraph in text.split("\n\n"):
        name, tags, key = None, "", None
        for line in paragraph.split("\n"):
            if line[:1] == " ":
                tags += line if key == "Tag" else ""
                continue
            key, _, value = line.partition(":")
            name = value.strip() if key == "Package" else name
            tags = value if key == "Tag" else tags
        if name and tags:
            yield name, {tag.strip() for tag in tags.split(",") if tag.strip()}


def tag_tables():
    """Tables of the most frequent tags; none on a system without such packages."""
    if not shutil.which("apt-cache"):
        return
    found, counts = list(packages()), {}
    for _, tags in found:
        for tag in tags:
            counts[tag] = counts.get(tag, 0) + 1
    ordered = sorted(counts, key=lambda tag: (-counts[tag], tag))
    for many in TAGS if found else []:
        attributes = ordered[:many]
        places = {tag: place for place, tag in enumerate(attributes)}
        rows = [{places[tag] for tag in tags if tag in places} for _, tags in found]
        yield "tags-%d" % many, [name for name, _ in found], attributes, rows


def scale(kind, size):
    """The rows of a scale, and how many attributes it has."""
    every = range(size)
    if kind == "ordinal":
        return [set(range(row + 1)) for row in every], size
    if kind == "nominal":
        return [{row} for row in every], size
    if kind == "contranominal":
        return [set(every) - {row} for row in every], size
    if kind == "interordinal":
        return [set(range(row, size)) | {size + at for at in range(row + 1)} for row in every], 2 * size
    half = size // 2
    return [set(range(row, half)) if row < half else set(range(half, row + 1)) for row in every], size


SCALES = [("ordinal", 256), ("ordinal", 512), ("ordinal", 1000), ("interordinal", 100), ("interordinal", 250), ("biordinal", 200), ("biordinal", 400),
          ("nominal", 250), ("nominal", 1000), ("contranominal", 14), ("contranominal", 18)]
ORDERS = ["first", "last", "mixed1", "mixed2", "mixed3"]


def scale_tables():
    """Each scale with its attributes in its own order, the other way round, and in three random orders."""
    for kind, size in SCALES:
        rows, many = scale(kind, size)
        for order in ORDERS if kind.endswith("ordinal") else ORDERS[:1]:
            places = list(range(many))
            if order == "last":
                places.reverse()
            elif order != "first":
                random.Random(order).shuffle(places)
            names = ["a%d" % (place + 1) for place in range(many)]
            yield "%s-%d-%s" % (kind, size, order), ["g%d" % (row + 1) for row in range(len(rows))], names, [{places[at] for at in row} for row in rows]


def tables_of_r():
    """The tables of R, each column of at most twelve values with a nominal scale."""
    if not shutil.which("Rscript"):
        return
    for name, words in OF_R.items():
        said = subprocess.run(["Rscript", "-e", words], stdout=subprocess.PIPE, stderr=subprocess.DEVNULL)
        records = list(csv.reader(io.StringIO(said.stdout.decode("utf-8", "replace"))))
        if said.returncode or len(records) < 2:
            continue
        head, records = records[0], records[1:]
        values = [sorted({record[at] for record in records} - {"NA", "", "?"}) for at in range(len(head))]
        attributes = [(at, value) for at, column in enumerate(values) if 2 <= len(column) <= 12 for value in column]
        rows = [{place for place, (at, value) in enumerate(attributes) if record[at] == value} for record in records]
        yield name, ["g%d" % (row + 1) for row in range(len(rows))], ["%s=%s" % (head[at], value) for at, value in attributes], rows


def raw_files():
    """Names and paths of tables of values: those of this repository, and the examples of weka, unpacked."""
    for path in sorted(glob.glob(os.path.join(measure.TOP, "examples", "raw", "*.csv"))):
        yield "plan-" + os.path.basename(path).split(".")[0], path
    for packed in sorted(glob.glob(os.path.join(WEKA, "*.arff*"))):
        name = "weka-" + os.path.basename(packed).split(".arff")[0]
        path = os.path.join(measure.tables_folder(), name + ".arff")
        with (gzip.open if packed.endswith(".gz") else open)(packed, "rb") as file, open(path, "wb") as out:
            shutil.copyfileobj(file, out)
        yield name, path


def scaled(name, path):
    """The path of the table that a plan makes of a table of values; None where the values come to no plan."""
    to, table = os.path.join(measure.tables_folder(), name), path_of(name)
    if not os.path.exists(table):
        said = subprocess.run([sys.executable, PLAN, "make", path, "--to", to, "--force"], stdout=subprocess.DEVNULL)
        if said.returncode:
            return None
        with open(table + ".part", "wb") as out:
            subprocess.run([measure.FCA, "scale", to + "-values.csv", to + "-plan.csv"], stdout=out, check=True)
        os.rename(table + ".part", table)
    return table


def jobs_of(name):
    """The commands that are timed: the lattice only of tables with few concepts a program keeps at once."""
    every = ["concepts", "basis"] + ([] if name.startswith("tags-") and name not in ("tags-30", "tags-60") else ["lattice"])
    return [job for job in every if job in os.environ.get("BENCH_JOBS", " ".join(every)).split()]


def made_tables():
    """The names and paths of the tables, which are made if they are not there yet."""
    only = os.environ.get("ONLY", "").split() or [""]
    for source in (tag_tables, scale_tables, tables_of_r):
        for name, objects, attributes, rows in source():
            if any(word in name for word in only):
                yield name, write(name, objects, attributes, rows)
    for name, path in raw_files():
        table = scaled(name, path) if any(word in name for word in only) else None
        if table:
            yield name, table


def main():
    words = [word for word in sys.argv[1:] if not word.startswith("--")]
    if "--make" in sys.argv[1:]:
        for name, path in made_tables():
            print(name, path, flush=True)
        return
    # a process of its own makes them: what a child is seen to hold is never less than what its parent holds
    said = subprocess.run([sys.executable, os.path.abspath(__file__), "--make"], stdout=subprocess.PIPE, check=True)
    are_same = True
    for name, path in (line.split(" ", 1) for line in said.stdout.decode().splitlines()):
        for job in jobs_of(name):
            measure.set_tunables(job)
            are_same &= compare.report(job, name, path, words[0] if words else None)
    sys.exit(0 if are_same else 1)


if __name__ == "__main__":
    main()
