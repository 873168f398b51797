#!/usr/bin/env python3
"""An exploration that begins with what is known of half of the attributes: known.py [OBJECTS [ATTRIBUTES [DENSITY]]].

60 objects and 40 attributes where nothing is said. One expert who knows the table explores it from no object on, once with nothing
known and once with the basis of its first half of the attributes known. Told are the questions that were asked of it, the
implications that it accepted, and the seconds.
"""
import os
import sys
import tempfile

sys.path.insert(0, os.path.dirname(os.path.abspath(__file__)))
import measure


def parts(path):
    """The names of the objects and of the attributes of a .cxt file, and its rows."""
    with open(path) as file:
        lines = file.read().split("\n")
    objects, attributes = int(lines[2]), int(lines[3])
    rest = lines[5:]
    return rest[:objects], rest[objects : objects + attributes], rest[objects + attributes : 2 * objects + attributes]


def written(path, objects, attributes, rows):
    with open(path, "w") as out:
        out.write("\n".join(["B", "", str(len(objects)), str(len(attributes)), ""] + objects + attributes + rows + [""]))
    return path


def explored(words):
    """The text of an exploration, and its seconds."""
    seconds, _, status, text = measure.run(words, repeat=3)
    if status != 0:
        sys.exit("%s: status %d" % (" ".join(words), status))
    return text.decode(), seconds


def accepted(text):
    """The patterns of the accepted implications."""
    sections = text[text.index("# recorded ") :]
    lines = sections[sections.index("# accepted ") :].split("\n# open ")[0].split("\n")[1:]
    return [line.split(" ")[2:4] for line in lines]


def main():
    objects, attributes, density = [int(word) for word in sys.argv[1:4]] + [60, 40, 1][len(sys.argv) - 1 :]
    whole = measure.table(7, objects, attributes, density)
    names, places, rows = parts(whole)
    half = attributes // 2
    with tempfile.TemporaryDirectory() as folder:
        part = written(os.path.join(folder, "half.cxt"), names, places[:half], [row[:half] for row in rows])
        bare = written(os.path.join(folder, "bare.cxt"), [], places, [])
        first = written(os.path.join(folder, "first.cxt"), [], places[:half], [])
        basis = accepted(explored(["explore", first, "--expert", part])[0])
        known = os.path.join(folder, "known")
        with open(known, "w") as out:
            out.writelines("%s %s\n" % tuple(pattern + "." * (attributes - half) for pattern in rule) for rule in basis)
        for told, words in (("nothing", []), ("%d implications" % len(basis), ["--known", known])):
            text, seconds = explored(["explore", bare] + words + ["--expert", whole])
            asked = sum(line.startswith("# ask ") for line in text.split("\n"))
            print("known %s: asked %d, accepted %d, seconds %.3f" % (told, asked, len(accepted(text)), seconds))


main()
