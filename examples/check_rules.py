#!/usr/bin/env python3
"""Tries rules.py: check_rules.py [PROGRAM]

Of tables that plans make, the rules that are shown beside what the scales say have to give, together with that, the closure
of each set of attributes, and the count of each has to be that of the rows. Of each script of this folder each answer is
taken back: what is written has to be the text of the script without it, and with --cut each confirmation has to be of the
question that it was of. A rule as it is shown has to be read as it was meant. The status is 0 where all is as it should be.
"""
import itertools
import os
import subprocess
import sys
import tempfile

import rules

HERE = os.path.dirname(os.path.abspath(__file__))
SECONDS = 60
SCALED = [("people.csv", "people-ordinal.csv"), ("people.csv", "people-interordinal.csv")]


def run(words, given=b""):
    return subprocess.run(words, input=given, stdout=subprocess.PIPE, stderr=subprocess.DEVNULL, timeout=SECONDS).stdout


# ---- rules beside what is known


def scaled(program, values, plan, folder):
    """The scaled table, and what its scales say, as files."""
    table, known = os.path.join(folder, "table.cxt"), os.path.join(folder, "known")
    values, plan = os.path.join(HERE, values), os.path.join(HERE, plan)
    for path, words in ((table, [program, "scale", values, plan]), (known, [sys.executable, os.path.join(HERE, "plan.py"), "known", plan])):
        with open(path, "wb") as file:
            file.write(run(words))
    return table, known


def rows_of(table):
    """The attributes of each object."""
    return [frozenset(place for place, column in enumerate(table.having) if column >> g & 1) for g in range(len(table.objects))]


def check_rules(program, folder):
    wrong = 0
    for values, plan in SCALED:
        table_path, known_path = scaled(program, values, plan, folder)
        table = rules.table_of(program, table_path)
        known, found = rules.basis_beside(program, table_path, known_path)
        shown = [rules.without_known(rule, known) for rule in found]
        rows, everything = rows_of(table), frozenset(range(len(table.attributes)))
        for size in range(len(everything) + 1):
            for places in map(frozenset, itertools.combinations(sorted(everything), size)):
                above = [row for row in rows if row >= places]
                same = rules.closure(places, known + shown) == everything.intersection(*above)
                wrong += not same or table.count(places) != len(above)
    print("rules.py: %d tables, %d sets of which something else is shown" % (len(SCALED), wrong))
    return wrong


# ---- rules in words


def in_words(program, *words):
    ran = subprocess.run([sys.executable, os.path.join(HERE, "rules.py"), *words, "--program", program], stdout=subprocess.PIPE, stderr=subprocess.PIPE, timeout=SECONDS)
    return ran.returncode, ran.stdout.decode(), ran.stderr.decode()


def check_words(program):
    """A rule as it is shown, with its count, without braces, and with names that the table has not."""
    table = os.path.join(HERE, "water.cxt")
    basis = [rules.arrow(rules.table_of(program, table), *rule) for rule in rules.basis_of(program, table, rules.table_of(program, table))]
    status, text, _ = in_words(program, "known", table, *basis)
    told = [rules.implication_in(line.split(" ")[:2]) for line in text.splitlines()]
    wrong = status != 0 or told != rules.basis_of(program, table, rules.table_of(program, table))
    explained = in_words(program, table, "a, h", "g")
    wrong += explained[0] != 0 or any(in_words(program, table, said) != explained for said in ("{a, h} -> {g}", "a,h->g", "  3  {a, h} -> {g}"))
    for status, reason, said in ((2, '"A" is no attribute: write "a"', "A -> b"), (1, "a rule has two sides", "a")):
        ended = in_words(program, table, said)
        wrong += ended[0] != status or reason not in ended[2]
    print("rules.py: rules in words, %d not read as they should be" % wrong)
    return wrong


# ---- answers taken back


def confirmed(text):
    """The questions that were accepted, in their order."""
    return [event.held for event in rules.events_in(text) if event.kind == "confirm" and event.reply.startswith("accepted ")]


def check_undo(program, table, script):
    """How many of the answers of the script are not taken back as they should be."""
    with open(script, "rb") as file:
        lines = file.read().decode().split("\n")
    before, wrong = confirmed(run([program, "replay", table], rules.script_of(lines)).decode()), 0
    for number, line in enumerate(lines, 1):
        if not line.startswith(("confirm ", "row ")):
            continue
        undo = [sys.executable, os.path.join(HERE, "rules.py"), "undo", script, str(number), "--table", table, "--program", program]
        without = run([program, "replay", table], rules.script_of(lines[: number - 1] + lines[number:]))
        cut = run(undo + ["--cut"])
        whole = run(undo) == without and cut != b"" and run([program, "replay", table], cut) == cut
        if not whole or not set(confirmed(cut.decode())) <= set(before):
            wrong += 1
            print("%s: line %d is not taken back as it should be" % (script, number))
    return wrong


def check_undone(program):
    names = sorted(name[: -len(".script")] for name in os.listdir(HERE) if name.endswith(".script"))
    wrong = sum(check_undo(program, os.path.join(HERE, name + ".cxt"), os.path.join(HERE, name + ".script")) for name in names)
    print("rules.py undo: %d scripts, %d answers not taken back as they should be" % (len(names), wrong))
    return wrong


def check(program):
    with tempfile.TemporaryDirectory() as folder:
        return check_rules(program, folder) + check_words(program) + check_undone(program)


def main():
    program = sys.argv[1] if len(sys.argv) > 1 else os.environ.get("FCA") or os.path.join(rules.TOP, "fca")
    sys.exit(1 if check(os.path.abspath(program)) else 0)


if __name__ == "__main__":
    main()
