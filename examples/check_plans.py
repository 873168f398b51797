#!/usr/bin/env python3
"""Tries plan.py against the program: check_plans.py [PROGRAM]

Some hundred tables of values and plans with mistakes of each kind, made from numbers that stay the same, go through
`scale` and through plan.py check, which have to refuse the same, and the same of the two files. Raw tables as people save
them go through plan.py make, and what comes of it through the program. What plan.py known writes of a plan is compared with
the table of all values that matter. The status is 0 where all is as it should be.
"""
import itertools
import os
import random
import subprocess
import sys
import tempfile

from planning import checking, known, making, raw
from planning.records import MOST_BYTES, written
from planning.scales import made_by

TOP = os.path.dirname(os.path.dirname(os.path.abspath(__file__)))
SECONDS = 60
PAIRS = 600
KINDS_OF_MISTAKE = {
    "too long", "not UTF-8", "no header", "too many", "ragged", "bad field", "duplicate attribute",
    "bad kind", "unknown attribute", "bad scale value", "bad value", "bad name",
}  # fmt: skip


class Pair:
    """A table of values and a plan, as bytes."""

    def __init__(self, values, plan):
        self.values, self.plan = values, plan

    def mistake(self):
        """The first mistake that plan.py check finds."""
        values = checking.read_values("values", self.values)
        found = checking.values_mistakes("values", self.values), checking.plan_mistakes("plan", self.plan, values)
        return next(itertools.chain(*found), None)

    def expected(self, folder):
        """The status of the program and its line, as the first mistake has them."""
        mistake = self.mistake()
        if mistake is None:
            return 0, ""
        # A value at fault under a plan makes the plan a bad one, wherever it stands.
        file = "plan" if mistake.what.startswith("bad value ") else mistake.file
        words = "too long" if mistake.what == "too long" else "bad %s" % file
        return 2, "fca: %s: %s\n" % (os.path.join(folder, file), words)

    def written(self, program, folder):
        paths = [os.path.join(folder, name) for name in ("values", "plan")]
        for path, data in zip(paths, (self.values, self.plan)):
            with open(path, "wb") as file:
                file.write(data)
        ran = subprocess.run([program, "scale"] + paths, stdout=subprocess.DEVNULL, stderr=subprocess.PIPE, timeout=SECONDS)
        return ran.returncode, ran.stderr.decode()


# ---- made mistakes

VALUES = [
    b"x,age,size\ntim,21,s\nann,35,l\nleo,,l\n",
    b'\xef\xbb\xbfperson,"age",size\r\nTim,-5,"s"\r\n\r\nAnn,007,m and l',
    b",a,b,c\n1,1,2,3\n2,10,20,30\n",
    b"only the corner\nx\ny\n",
    b"",
]
PLANS = [
    b"ordinal,age,20,30,40\nnominal,size,s,m,l\n",
    b"interordinal,age,-5,21\n",
    b"nominal,a,1\nordinal,b,2,3\ninterordinal,c,3\n",
    b"",
]
PIECES = [
    b",", b"\n", b"\r\n", b"\r", b'"', b'""', b";", b"\t", b" ", b"-", b"0", b"9", b"1.0", b"21.5", b"NA", b"?", b"+5", b"1e3",
    b"ordinal", b"Nominal", b"nominal,", b"interordinal,age,1\n", b"\xff", b"\xc3\xa9", b"\xc3", b"\xef\xbb\xbf", b"\x00",
    b"kind,attribute,value\n", b"9223372036854775807", b"9223372036854775808", b"-9223372036854775808", b"-9223372036854775809",
    b"00000000000000000000", b"x" * 250, b"x" * 256, b",,", b"age", b"size,", b"ordinal,size,1\n", b"nominal,age,21,21\n",
]  # fmt: skip


def mutated(chance, data):
    """The bytes with a few pieces put in, taken out or doubled."""
    for _ in range(chance.choice([0, 0, 0, 1, 1, 2])):
        at = chance.randrange(len(data) + 1)
        end = min(len(data), at + chance.choice([0, 0, 1, 2, 5]))
        data = data[:at] + chance.choice(PIECES + [data[at:end] * 2, b""]) + data[end:]
    return data


def random_pairs():
    for number in range(PAIRS):
        chance = random.Random(number)
        yield Pair(mutated(chance, chance.choice(VALUES)), mutated(chance, chance.choice(PLANS)))


def many(count, text):
    return b"".join(text % number for number in range(count))


def limit_pairs():
    """Files at the limits of the forms and just past them."""
    plain = VALUES[0]
    for width in (1024, 1025):
        names = b"x" + many(width, b",m%d") + b"\n"
        yield Pair(names + b"g" + b"," * width + b"\n", b"nominal,m0,v\n")
        yield Pair(plain, b"nominal,size" + many(width, b",v%d") + b"\n")
        yield Pair(plain, b"interordinal,age" + many(width // 2 + width % 2, b",%d") + b"\n")
    for objects in (65536, 65537):
        yield Pair(b"x,a\n" + many(objects, b"g%d,1\n"), b"ordinal,a,1\n")
    for length in (255, 256):
        name = b"x" * length
        yield Pair(b"x," + name + b"\ng,1\n", b"")
        yield Pair(b"x,a\n" + name + b",1\n", b"")
        yield Pair(b"x,a\ng," + name + b"\n", b"nominal,a,x\n")
        yield Pair(b"x,a\ng,1\n", b"nominal,a," + name[4:] + b"\n")
        yield Pair(b"x,a\ng,1\n", b"nominal,a," + name + b"\n")
    for size in (MOST_BYTES, MOST_BYTES + 1):
        yield Pair(plain + b"\n" * (size - len(plain)), PLANS[0])
        yield Pair(plain, PLANS[0] + b"\n" * (size - len(PLANS[0])))


def check_mistakes(program, folder):
    wrong, seen, refused = 0, set(), 0
    pairs = list(random_pairs()) + list(limit_pairs())
    for number, pair in enumerate(pairs):
        expected, written_then = pair.expected(folder), pair.written(program, folder)
        mistake = pair.mistake()
        if mistake is not None:
            refused += 1
            seen.update(kind for kind in KINDS_OF_MISTAKE if mistake.what.startswith(kind))
        if written_then != expected:
            wrong += 1
            print("pair %d, %r and %r: the program %s, and plan.py %s" % (number, pair.values[:200], pair.plan[:200], written_then, mistake))
    for kind in KINDS_OF_MISTAKE - seen:
        wrong += 1
        print("no pair has the mistake `%s`" % kind)
    print("plan.py check: %d pairs of files, %d of them refused, %d not as the program has it" % (len(pairs), refused, wrong))
    return wrong


# ---- raw tables

RAW = {
    "as R writes it": b'"","a","b","c"\n"x",1.5,TRUE,"s"\n"y",NA,FALSE,"m, l"\n"z",-3,NA,NA\n',
    "with semicolons": b"name;L\xc3\xa4nge;ok\r\nx;1,25;yes\r\ny;;no\r\n",
    "of Windows": "name;L\u00e4nge\r\nx;1,25\r\ny;2\r\n".encode("cp1252"),
    "of a spreadsheet": b"\xef\xbb\xbfname,a,,\r\nx,1,,\r\n,,,\r\ny,2,,\r\n",
    "in UTF-16": "name\ta\r\nx\t1\r\n".encode("utf-16"),
    "with names that repeat": b"a,a,b  c,\n1,2,3,4\n1,3,3,4\n",
    "without a name of the names": b"a,b\nx,1,2\ny,3,4\n",
    "with a line break": b'name,a\nx,"one\ntwo"\n',
    "with long texts": b"name,a,b\nx," + b"y" * 300 + b",1\n" + b"z" * 300 + b",,2\n",
    "with long names": b"name," + b"q" * 300 + b",b\nx,1.25,1\n",
    "with many numbers": b"name,a,b\n" + b"".join(b"x%d,%d.5,%d\n" % (n, n, n * n % 7) for n in range(50)),
    "with commas": b'name,"a, b",c\nx,"p, q",1\ny,r,2\n',
    "with commas that have to stay": b'name,a\nx,"p, q"\ny,p; q\n',
    "with large numbers": b"name,a\nx,123456789012345678901234\ny,1e300\nz,1e-9\n",
    "that says its separator": b"sep=;\r\nname;a\r\nNA;1\r\n",
    "with numbers in its first column": b"a,b\n21,s\n35,l\n",
    "without objects": b"name,a,b\n",
    "of Weka": b"% of a test\n@RELATION r\n\n@attribute 'a b' {x,'y z'}\n@attribute n numeric\n@data\nx,1.5\n'y z',?\n",
    "of Weka, with few values": b"@relation r\n@attribute a numeric\n@attribute b {no,yes}\n@data\n{0 3, 1 yes}\n{}\n",
}


def check_made(program, folder):
    wrong = 0
    for name, data in RAW.items():
        table = raw.read_raw(data, raw.Options(None, None, []))
        columns = making.columns_of(table, 3)
        pair = Pair(written(making.values_rows(table, columns)), written(making.plan_rows(columns)))
        found, status = pair.mistake(), pair.written(program, folder)
        if found is not None or status != (0, ""):
            wrong += 1
            print("a raw table %s: %s, and of the program %s" % (name, found, status))
    print("plan.py make: %d raw tables, %d made files that are refused" % (len(RAW), wrong))
    return wrong


# ---- what scales say

SCALES = [
    [(b"nominal", [b"1", b"5", b"word"]), (b"interordinal", [b"3", b"1"]), (b"ordinal", [b"-2", b"8"])],
    [(b"nominal", [b"a"])],
    [(b"interordinal", [b"10", b"20", b"30", b"40"])],
    [(b"ordinal", [b"5", b"3"]), (b"nominal", [b"3", b"03", b"4", b"x"])],
]


def row_of(made, value):
    """Which of the attributes a value has; it is a number, a text, or missing."""
    return frozenset(place for place, each in enumerate(made) if value is not None and stands(each, value))


def stands(each, value):
    number = int(value) if value.lstrip("-").isdigit() else None
    if each.relation == "=":
        return value.encode() == each.value
    if number is None:
        return False
    return number <= each.value if each.relation == "<=" else number >= each.value


def closure_by(rules, places):
    closed, before = set(places), -1
    while len(closed) != before:
        before = len(closed)
        for premise, conclusion in rules:
            if closed.issuperset(premise):
                closed.update(conclusion)
    return closed


def check_known():
    """By the known implications each set says what all values say that have it."""
    wrong = 0
    for scale in SCALES:
        made = [each for kind, values in scale for _, each in made_by(kind, b"m", values)]
        values = [text % n for n in range(-4, 45) for text in ("%d", "%03d")] + ["03", "a", "word", "x", "other", None]
        rows = [row_of(made, value) for value in values]
        rules = list(known.known_of(made))
        everything = frozenset(range(len(made)))
        for size in range(4):
            for places in map(frozenset, itertools.combinations(everything, size)):
                said = everything.intersection(*(row for row in rows if row >= places))
                wrong += said != closure_by(rules, places)
    print("plan.py known: %d plans, %d sets of which something else is known" % (len(SCALES), wrong))
    return wrong


def check(program):
    with tempfile.TemporaryDirectory() as folder:
        return check_mistakes(program, folder) + check_made(program, folder) + check_known()


def main():
    program = sys.argv[1] if len(sys.argv) > 1 else os.environ.get("FCA") or os.path.join(TOP, "fca")
    sys.exit(1 if check(os.path.abspath(program)) else 0)


if __name__ == "__main__":
    main()
