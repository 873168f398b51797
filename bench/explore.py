#!/usr/bin/env python3
"""Experts who know tables explore a table without objects: explore.py [EXPERTS [OBJECTS [ATTRIBUTES [DENSITY [TABLES]]]]].

Four experts of 1,000 objects and 40 attributes where nothing is said, who all know one table; with TABLES as many tables go round
among them. Told are the answers that were recorded and the time for each.
"""
import os
import sys

sys.path.insert(0, os.path.dirname(os.path.abspath(__file__)))
import measure

experts, objects, attributes, density, tables = [int(word) for word in sys.argv[1:6]] + [4, 1000, 40, 1, 1][len(sys.argv) - 1 :]
words = ["explore", measure.table(1, 0, attributes, density)]
for k in range(experts):
    words += ["--expert", measure.table(k % tables + 1, objects, attributes, density)]
seconds, peak, status, text = measure.run(words, repeat=1)
counts = {line.split()[1]: int(line.split()[2]) for line in text.splitlines() if line.startswith((b"# recorded ", b"# accepted ", b"# open ", b"# conflicts "))}
recorded = counts.get(b"recorded", 0) + counts.get(b"accepted", 0)
print("experts %d, tables %d, objects %d, attributes %d, density %d/8, status %d" % (experts, tables, objects, attributes, density, status))
print("seconds %.2f, peak of memory %.0f MB, bytes of text %d" % (seconds, peak / 1e6, len(text)))
print(" ".join("%s %d" % (word.decode(), count) for word, count in counts.items()))
if recorded:
    print("microseconds for each recorded answer: %.0f" % (seconds / recorded * 1e6))
