#!/usr/bin/env python3
"""Reading and writing a table: seconds, megabytes a second, and memory against the size of the file.

tables.py [csv]: .cxt files, and with the word csv also a .csv file of 65,536 objects and 120 attributes, read and
written in each form. Seconds are wall time, the least of three runs.
"""
import os
import sys

sys.path.insert(0, os.path.dirname(os.path.abspath(__file__)))
import measure

# form of the file, seed, objects, attributes, density, and the forms to write
CASES = [
    ("cxt", 1, 16384, 240, 4, ["cxt"]),
    ("cxt", 1, 32768, 240, 4, ["cxt"]),
    ("cxt", 1, 65536, 240, 4, ["cxt"]),
]
WITH_CSV = [
    ("csv", 1, 65536, 120, 4, ["csv", "cxt"]),
    ("cxt", 1, 65536, 120, 4, ["csv"]),
]


def main():
    cases = CASES + (WITH_CSV if "csv" in sys.argv[1:] else [])
    print("%-28s %10s %9s %9s %14s" % ("case", "bytes", "seconds", "MB/s", "memory / bytes"))
    for form, seed, objects, attributes, density, targets in cases:
        path = measure.table(seed, objects, attributes, density, form)
        size = os.path.getsize(path)
        for target in targets:
            name = "%s to %s %dx%d" % (form, target, objects, attributes)
            seconds, peak, status, _ = measure.run(["convert", path, target])
            if status != 0:
                print("%-28s status %d" % (name, status))
                continue
            print("%-28s %10d %9.3f %9.1f %14.1f" % (name, size, seconds, size / seconds / 1e6, peak / size), flush=True)


main()
