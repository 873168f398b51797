#!/usr/bin/env python3
"""From a spreadsheet to a table of crosses: makes values and a plan, finds the mistakes in them, and writes what scales say.

    plan.py make F         of a CSV or ARFF file, as spreadsheets, R and Weka write them, a table of values and a plan
    plan.py check F [P]    where the program refuses the table of values F, or the plan P for it, and what to write instead
    plan.py known P        the implications that the scales of the plan P say of every table, as a known file

The forms of F and P are those of docs/FORMATS.md. This script is not proved. `check` is tried against the program on some
hundred files (check_plans.py), `make` guesses what columns are, so look at its plan, and what `known` writes the program
tries on each row of the table before it believes it. The status is 0; 1 for wrong words; 2 where there is a mistake or no
table; 3 where a file cannot be read or written.
"""
import argparse
import itertools
import os
import shlex
import sys

from planning import checking, known, making, raw
from planning.ending import FAULT, status_of
from planning.records import number_of, written

MOST_SHOWN, MOST_ALIKE = 20, 3
MANY_ATTRIBUTES = 40
REFUSED = 2


class Words(argparse.ArgumentParser):
    def error(self, message):
        self.print_usage(sys.stderr)
        self.exit(1, "%s: %s\n" % (self.prog, message))


def read(path):
    with open(path, "rb") as file:
        return file.read()


# ---- check


def check(words):
    files = [(path, read(path)) for path in (words.values, words.plan) if path is not None]
    found = list(mistakes_in(*files))
    if words.all:
        print("".join(mistake.text() + "\n" for mistake in found), end="")
    else:
        tell_mistakes(found)
    values = checking.read_values(*files[0])
    for note in itertools.chain(checking.values_notes(values), *(checking.plan_notes(plan, values) for _, plan in files[1:])):
        print("note: " + note)
    if found:
        return REFUSED
    print("no mistake: %s, %s with values" % (of(len(values.objects), "object"), of(len(values.attributes), "attribute")), end="")
    print("".join(", of which the plan makes %s" % of(len(known.made_of(plan)), "attribute") for _, plan in files[1:]))
    return 0


def mistakes_in(values, plan=None):
    """The mistakes in a table of values and in a plan for it, each given as its name and its bytes."""
    yield from checking.values_mistakes(*values)
    if plan is not None:
        yield from checking.plan_mistakes(*plan, checking.read_values(*values))


def of(count, word):
    return "%d %s" % (count, word if count == 1 else word + "s")


def kind_of(mistake):
    """What mistakes have in common that are mended alike."""
    return mistake.file, mistake.what.split(", there ")[0], mistake.remedy.split("; here ")[0]


def tell_mistakes(found):
    """The first mistakes; of many alike, one behind the other, the first alone."""
    groups = [list(group) for _, group in itertools.groupby(found, kind_of)]
    for group in groups[:MOST_SHOWN]:
        few = group if len(group) <= MOST_ALIKE else group[:1]
        print("".join(mistake.text() + "\n" for mistake in few), end="")
        if len(few) < len(group):
            print("  and %d more like this, which --all shows" % (len(group) - 1))
    rest = sum(map(len, groups[MOST_SHOWN:]))
    if rest:
        print("and %d more, which --all shows" % rest)


# ---- make


def make(words):
    try:
        table = raw.read_raw(read(words.table), raw.Options(words.separator, words.names, words.missing))
        if words.count is not None:
            table = making.counted(table, words.count)
        if words.only is not None:
            table = making.chosen(table, words.only)
        table = making.within_table(table)
    except raw.BadTable as fault:
        print("%s: %s" % (words.table, fault), file=sys.stderr)
        return REFUSED
    columns = making.columns_of(table, words.cuts)
    to = words.to or os.path.splitext(os.path.basename(words.table))[0]
    files = {
        to + "-values.csv": written(making.values_rows(table, columns)),
        to + "-plan.csv": written(making.plan_rows(columns)),
    }
    mistake = next(mistakes_in(*files.items()), None)
    if mistake is not None:  # as if a column is named as another one is after it was taken times 10
        print("what was made would be refused: %s" % mistake.text(), file=sys.stderr)
        return REFUSED
    for path in files:
        if os.path.exists(path) and not words.force:
            print("%s is there already, and may have been edited; --force writes over it" % path, file=sys.stderr)
            return FAULT
    for path, text in files.items():
        with open(path, "wb") as file:
            file.write(text)
    tell_made(table, columns, *files)
    if sum(column.crosses() for column in columns) > MANY_ATTRIBUTES:
        print("note: so many attributes may have more rules than anybody waits for: begin with --only and a few columns, or with --cuts 1")
    if making.has_crosses_alone(table):
        print("note: %s has crosses alone, and the commands of the program may take it as it is" % words.table)
    tell_next(*map(shlex.quote, (*files, to + ".cxt", to + ".known")))
    return 0


def tell_next(values, plan, table, known_file):
    print("next: ./fca scale %s %s > %s" % (values, plan, table))
    print("      examples/plan.py known %s > %s" % (plan, known_file))
    print("      examples/rules.py %s --known %s" % (table, known_file))


def tell_made(table, columns, values, plan):
    for remark in table.remarks:
        print(remark)
    print("%s: %s, %s" % (values, of(len(table.objects), "object"), table.named))
    print("%s: %s" % (plan, of(sum(column.crosses() for column in columns), "attribute")))
    for column in columns:
        print("  %s: %s" % (column.name, column.remark))


# ---- known


def write_known(words):
    data = read(words.plan)
    found = list(checking.plan_mistakes(words.plan, data, None))
    if found:
        print(found[0].text(), file=sys.stderr)
        return REFUSED
    try:
        text = known.known_file(words.plan, data)
    except ValueError as fault:
        print("%s: %s" % (words.plan, fault), file=sys.stderr)
        return REFUSED
    sys.stdout.buffer.write(text)
    return 0


# ---- words


def cuts(text):
    number = number_of(text.encode())
    if number is None or not 1 <= number <= 100:
        raise argparse.ArgumentTypeError("1 to 100 cuts are possible")
    return number


def separator(text):
    if len(text) != 1:
        raise argparse.ArgumentTypeError("a separator has one character; of a tab that is $'\\t'")
    return text


def parsed(arguments):
    parser = Words(description=__doc__, formatter_class=argparse.RawDescriptionHelpFormatter)
    commands = parser.add_subparsers(dest="command", metavar="COMMAND")
    commands.required = True
    checks = commands.add_parser("check", help="find the mistakes in a table of values, and in a plan for it")
    checks.add_argument("values", metavar="F")
    checks.add_argument("plan", metavar="P", nargs="?")
    checks.add_argument("--all", action="store_true", help="show all mistakes, not only the first")
    checks.set_defaults(run=check)
    add_make(commands)
    knows = commands.add_parser("known", help="write what the scales of a plan say")
    knows.add_argument("plan", metavar="P")
    knows.set_defaults(run=write_known)
    return parser.parse_args(arguments)


def add_make(commands):
    makes = commands.add_parser("make", help="make a table of values and a plan")
    makes.add_argument("table", metavar="F")
    makes.add_argument("--to", metavar="NAME", help="write NAME-values.csv and NAME-plan.csv")
    makes.add_argument("--force", action="store_true", help="write over files that are there")
    makes.add_argument("--cuts", type=cuts, default=3, metavar="N", help="at most N cuts through the numbers of a column (3)")
    makes.add_argument("--only", nargs="+", metavar="COLUMN", help="take these columns alone")
    makes.add_argument("--names", metavar="COLUMN", help="the column that names the objects; '' for none")
    makes.add_argument("--count", metavar="COLUMN", help="the column that says how many objects a line stands for")
    makes.add_argument("--missing", nargs="+", default=[], metavar="WORD", help="more words that stand for no value")
    makes.add_argument("--separator", type=separator, metavar="C", help="the separator, where it is not seen by itself")
    makes.set_defaults(run=make)


def main():
    words = parsed(sys.argv[1:])
    sys.exit(status_of("plan.py", lambda: words.run(words)))


if __name__ == "__main__":
    main()
