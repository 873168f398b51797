#!/usr/bin/env python3
"""The rules of a table with how many objects they are of, and an exploration without one of its answers.

    rules.py T [--known K]                 the basis of the table T, or what of it is left beside the known file K: each rule
                                           with how many objects have its premise, most first, those of no object apart
    rules.py T A B                         whether the attributes A imply the attributes B, and of how many objects
    rules.py T "{A} -> {B}"                the same, as a rule is shown
    rules.py known T "A -> B" ..           a known file for T, of rules that are said in words
    rules.py undo RECORD LINE --table T    the exploration of T in RECORD without the answer in that line; what changes
                                           after it is told on the error stream, event by event

That a rule holds, that all rules follow from those shown, and what an exploration answers is the program's, which is
proved: it is called as ./fca of this repository, or as --program or the variable FCA say. This script is not proved; it counts
objects, sorts, compares, looks up names, and leaves out of a rule what K says anyway. The status is 0; 1 for wrong words; 2 for a
name that T has not; else that of the program.
"""
import argparse
import json
import os
import re
import subprocess
import sys

from planning import remedies
from planning.ending import status_of

TOP = os.path.dirname(os.path.dirname(os.path.abspath(__file__)))
REFUSED = 2  # the status for a file that is not as it should be
OPEN_QUESTION = 6  # a status of replay, at which its whole text is written
NO_TABLE = "crosses are wanted here. Of a table of values plan.py makes them, and of a record record.py makes a table."
NOT_KNOWN = "the known file has to be one for this table. If its plan was edited since, make the table and the known file anew."


class Stop(Exception):
    """Why the script ends, and with which status."""

    def __init__(self, status, text):
        super().__init__(text)
        self.status = status


def run_program(program, words, given=b"", hint=""):
    """What the program writes; where it stops, it has said why. The hint is for a file that it refuses."""
    try:
        ran = subprocess.run([program] + words, input=given, stdout=subprocess.PIPE)
    except OSError as fault:
        raise Stop(127, "%s: %s" % (program, fault.strerror)) from fault
    if ran.returncode not in (0, OPEN_QUESTION):
        raise Stop(ran.returncode, hint if ran.returncode == REFUSED else "")
    return ran.stdout.decode()


# ---- tables and rules


class Table:
    """The names of objects and attributes, and for each attribute the objects that have it, as the bits of a number."""

    def __init__(self, text):
        """Of a text in the Burmeister form as the program writes it."""
        lines = text.split("\n")
        objects, attributes = int(lines[2]), int(lines[3])
        self.objects = lines[5 : 5 + objects]
        self.attributes = lines[5 + objects : 5 + objects + attributes]
        rows = lines[5 + objects + attributes :][:objects] if attributes else []
        self.having = [bits(row[place] == "X" for row in rows) for place in range(attributes)]

    def count(self, places):
        """How many objects have all of these attributes."""
        left = (1 << len(self.objects)) - 1
        for place in places:
            left &= self.having[place]
        return bin(left).count("1")

    def places(self, names):
        return frozenset(self.attributes.index(name) for name in names)

    def names_in(self, side):
        """The names in a side of a rule, with or without braces."""
        side = side.strip(" \t")
        if side == "everything" and side not in self.attributes:
            return self.attributes
        if side.startswith("{") and side.endswith("}") and side not in self.attributes:
            side = side[1:-1]
        names = [name.strip(" \t") for name in side.split(",")] if side.strip(" \t") else []
        for name in names:
            if name not in self.attributes:
                raise Stop(REFUSED, self.unknown(name))
        return names

    def unknown(self, name):
        known = [each.encode("utf-8", "surrogateescape") for each in self.attributes]
        remedy = remedies.for_attribute(name.encode("utf-8", "surrogateescape"), known)
        return '"%s" is no attribute: %s' % (name, remedy.replace("the table of values has", "there are"))

    def pattern(self, places):
        return "".join("X" if place in places else "." for place in range(len(self.attributes)))

    def braces(self, places):
        return "{%s}" % ", ".join(self.attributes[place] for place in sorted(places))


def bits(marks):
    """The number whose bit g is mark g."""
    return int("0" + "".join("1" if mark else "0" for mark in marks)[::-1], 2)


def table_of(program, file):
    return Table(run_program(program, ["convert", file, "cxt"], hint=NO_TABLE))


def members(pattern):
    return frozenset(place for place, mark in enumerate(pattern) if mark in "Xx")


def basis_of(program, file, table):
    """The members of the basis, as premise and conclusion."""
    found = json.loads(run_program(program, ["basis", file, "--json"]))["implications"]
    return [(table.places(each["premise"]), table.places(each["conclusion"])) for each in found]


def basis_beside(program, file, known):
    """The known implications, and the basis relative to them: what an expert accepts who knows the table and explores it."""
    lines = run_program(program, ["explore", file, "--known", known, "--expert", file], hint=NOT_KNOWN).split("\n")
    told = [implication_in(line.split(" ")[1:3]) for line in lines if line.startswith("known ")]
    start = next(number for number, line in enumerate(lines) if line.startswith("# accepted ") and not is_reply(lines, number))
    count = int(lines[start].split(" ")[2])
    return told, [implication_in(line.split(" ")[2:4]) for line in lines[start + 1 : start + 1 + count]]


def is_event(line):
    return line.startswith(("draw ", "confirm ", "row ", "leave "))


def is_reply(lines, number):
    """Whether a line answers the event before it."""
    return is_event(lines[number - 1])


def implication_in(patterns):
    premise, conclusion = map(members, patterns)
    return premise, conclusion - premise


def closure(places, implications):
    """The least set around these attributes that respects the implications."""
    closed, before = set(places), -1
    while len(closed) != before:
        before = len(closed)
        for premise, conclusion in implications:
            if premise <= closed:
                closed |= conclusion
    return closed


def without_known(rule, known):
    """The rule without the attributes of its sides that follow from the others by what is known."""
    premise, conclusion = rule
    for place in sorted(premise, reverse=True):
        if place in closure(premise - {place}, known):
            premise = premise - {place}
    for place in sorted(conclusion, reverse=True):
        if place in closure(premise | conclusion - {place}, known):
            conclusion = conclusion - {place}
    return premise, conclusion


def arrow(table, premise, conclusion):
    everything = len(premise | conclusion) == len(table.attributes) and len(conclusion) > 1
    return "%s -> %s" % (table.braces(premise), "everything" if everything else table.braces(conclusion))


def list_rules(words):
    table = table_of(words.program, words.table)
    if words.known is None:
        known, rules = [], basis_of(words.program, words.table, table)
    else:
        known, rules = basis_beside(words.program, words.table, words.known)
    counted = [(table.count(premise), premise, conclusion) for premise, conclusion in rules]
    counted.sort(key=lambda rule: -rule[0])
    print("%s, %s; the number is of the objects with the premise" % (several(len(rules), "rule"), several(len(table.objects), "object")))
    for count, premise, conclusion in counted:
        if count:
            print("%6d  %s" % (count, arrow(table, *without_known((premise, conclusion), known))))
    nobody = [premise for count, premise, _ in counted if not count]
    if nobody:
        print("%s of no object: none has" % several(len(nobody), "rule"))
    for premise in nobody:
        print("        %s" % table.braces(without_known((premise, frozenset()), known)[0]))
    return 0


def several(count, word):
    return "%d %s" % (count, word if count == 1 else word + "s")


def explain(words):
    """What `follows` says of one implication, and of how many objects."""
    table = table_of(words.program, words.table)
    left, right = (words.premise, words.conclusion) if words.conclusion is not None else sides(words.premise)
    left, right = table.names_in(left), table.names_in(right)
    text = run_program(words.program, ["follows", words.table, ",".join(left), ",".join(right)])
    premise, conclusion = table.places(left), table.places(right)
    having, both = table.count(premise), table.count(premise | conclusion)
    print(text, end="")
    print("%d of %d objects have %s" % (having, len(table.objects), table.braces(premise)), end="")
    if not having:
        print(": the rule is of no object")
    elif having == both:
        print(", and so %s" % table.braces(conclusion))
    else:
        print("; %d of them have %s, %d do not" % (both, table.braces(conclusion), having - both))
    return 0


def sides(rule):
    """The two sides of a rule in words; a count before it is that of the list."""
    left, arrow, right = re.sub(r"^\s*[0-9]+ +(?=\{)", "", rule).partition("->")
    if not arrow:
        raise Stop(1, "a rule has two sides, as in `A -> B`; there is `%s`" % rule)
    return left, right


def write_known(words):
    """A known file of rules in words."""
    table = table_of(words.program, words.table)
    for rule in words.rules:
        premise, conclusion = (table.places(table.names_in(side)) for side in sides(rule))
        print("%s %s %s -> %s" % (*map(table.pattern, (premise, conclusion)), *map(table.braces, (premise, conclusion))))
    return 0


# ---- an exploration without an answer


class Event:
    """A line of a text with its number and its reply, and the question that its expert held before it."""

    def __init__(self, number, line, reply, held):
        self.number, self.line, self.reply, self.held = number, line, reply, held
        self.kind, self.expert = line.split(" ")[:2]


def events_in(text):
    """The events of an exploration text of the program."""
    lines, held, events = text.split("\n"), {}, []
    for number, line in enumerate(lines, 1):
        if not is_event(line):
            continue
        event = Event(number, line, lines[number][2:], held.get(line.split(" ")[1]))
        held[event.expert] = held_after(event)
        events.append(event)
    return events


def held_after(event):
    """The question that the expert holds after the event, as its patterns and words, if it holds one."""
    if event.reply.startswith("ask "):
        return event.reply[4:]
    if event.kind == "row" and event.reply.split(" ")[0] in ("misses", "keeps", "breaks"):
        return event.held
    return None


def script_of(lines):
    """The lines that are no comments, as a script."""
    return "".join(line + "\n" for line in lines if not line.startswith("#")).encode("utf-8", "surrogateescape")


def undo(words):
    with open(words.record, encoding="utf-8", errors="surrogateescape") as file:
        lines = file.read().split("\n")
    check_answer(words, lines)
    at = sum(is_event(line) for line in lines[: words.line - 1])
    before = events_in(replay(words, script_of(lines)))
    text = replay(words, script_of(lines[: words.line - 1] + lines[words.line :]))
    pairs = list(zip(before[at + 1 :], events_in(text)[at:]))
    if words.cut:
        text = replay(words, script_of(cut_lines(lines, words.line, pairs)))
    sys.stdout.write(text)
    sys.stdout.flush()
    for line in changes(before[at], pairs, words.cut):
        print(line, file=sys.stderr)
    return 0


def replay(words, script):
    return run_program(words.program, ["replay", words.table], script)


def check_answer(words, lines):
    line = lines[words.line - 1] if 0 < words.line <= len(lines) else ""
    if not line.startswith(("confirm ", "row ")):
        raise Stop(1, "%s: line %d is no `confirm` and no `row`; there is `%s`" % (words.record, words.line, line))


def cut_lines(lines, line, pairs):
    """The lines without this one, up to the first confirmation that would confirm another question."""
    kept = next((number for number, pair in enumerate(pairs) if confirms_another(*pair)), len(pairs))
    after = [each for each in lines[line:] if is_event(each)]
    return lines[: line - 1] + after[:kept]


def confirms_another(old, new):
    return new.kind == "confirm" and new.reply.startswith("accepted ") and new.held != old.held


def changes(gone, pairs, cut):
    """What is told of the events after the answer that is gone; `cut` says that the text was cut."""
    yield "without `%s`, which was answered `%s`:" % (gone.line, gone.reply)
    told = [change for pair in pairs for change in change_of(*pair)]
    yield from told or ["  the %d events after it are answered as before" % len(pairs)]
    another = next((new.number for old, new in pairs if confirms_another(old, new)), None)
    if another is not None and cut:
        yield "the text ends before line %d, which would confirm another question" % another
    elif another is not None:
        yield "line %d confirms another question now: cut the text there, or say --cut" % another


def change_of(old, new):
    """How an event is answered otherwise, with its line in the new text; numbers of rules and rows do not count."""
    event = "  line %d, %s: " % (new.number, new.line)
    if new.kind == "draw" and old.reply != new.reply:
        yield event + "was answered `%s`, and now `%s`" % (old.reply, new.reply)
    elif confirms_another(old, new):
        yield event + "confirmed %s, and now %s" % (words_of(old.held), words_of(new.held))
    elif new.kind in ("confirm", "row") and old.reply.split(" ")[0] != new.reply.split(" ")[0]:
        yield event + "was answered `%s`, and now `%s`" % (old.reply, new.reply)


def words_of(question):
    return "nothing" if question is None else question.split(" ", 2)[2]


# ---- words


class Words(argparse.ArgumentParser):
    def error(self, message):
        self.print_usage(sys.stderr)
        self.exit(1, "%s: %s\n" % (self.prog, message))


def parser_of(usage):
    parser = Words(usage=usage, description=__doc__, formatter_class=argparse.RawDescriptionHelpFormatter)
    program = os.environ.get("FCA") or os.path.join(TOP, "fca")
    parser.add_argument("--program", default=program, metavar="P", help="the program, if it is not %(default)s")
    return parser


def undo_words(arguments):
    parser = parser_of("rules.py undo RECORD LINE --table T [--cut]")
    parser.add_argument("record", metavar="RECORD")
    parser.add_argument("line", metavar="LINE", type=int, help="the number of the line of RECORD with the answer, from 1")
    parser.add_argument("--table", metavar="T", required=True, help="the table that RECORD explores, which it does not name")
    parser.add_argument("--cut", action="store_true", help="end before the first answer that confirms another question")
    parser.set_defaults(run=undo)
    return parser.parse_args(arguments)


def known_words(arguments):
    parser = parser_of('rules.py known T "A -> B" ..')
    parser.add_argument("table", metavar="T")
    parser.add_argument("rules", metavar="RULE", nargs="+", help="the two sides with `->` between them, and commas between names")
    parser.set_defaults(run=write_known)
    return parser.parse_args(arguments)


def rules_words(arguments):
    others = ('rules.py T "{A} -> {B}"', 'rules.py known T "A -> B" ..', "rules.py undo RECORD LINE --table T [--cut]")
    parser = parser_of("\n       ".join(("rules.py T [--known K]", "rules.py T A B") + others))
    parser.add_argument("table", metavar="T")
    parser.add_argument("premise", metavar="A", nargs="?")
    parser.add_argument("conclusion", metavar="B", nargs="?")
    parser.add_argument("--known", metavar="K", help="a known file, as plan.py known writes one")
    words = parser.parse_args(arguments)
    if words.premise is not None and words.known is not None:
        parser.error("--known goes with the list of rules alone")
    words.run = list_rules if words.premise is None else explain
    return words


def said_by(words):
    """The status of what the words ask for; why it stops goes to the error stream."""
    try:
        return words.run(words)
    except Stop as stop:
        if str(stop):
            print("rules.py: %s" % stop, file=sys.stderr)
        return stop.status


def main():
    arguments = sys.argv[1:]
    others = {"undo": undo_words, "known": known_words}
    words = others[arguments[0]](arguments[1:]) if arguments and arguments[0] in others else rules_words(arguments)
    sys.exit(status_of("rules.py", lambda: said_by(words)))


if __name__ == "__main__":
    main()
