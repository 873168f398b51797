#!/usr/bin/env python3
"""From a record to a table and a known file, for who wants to begin anew from there:

    record.py table F RECORD > T.cxt     the table F with the recorded rows behind its own
    record.py known F RECORD > K         what was known and what was accepted, as a known file

RECORD is a script of an exploration of the table F, as `replay`, `explore`, `serve` or the chair writes it; it need not be whole.
With --known S it was explored with the known file S, and does not say so itself.

What it trusts: the program alone. The record is replayed, and what is written is taken from the program's text, so answers that
stand in the record as comments count for nothing. Whether the answers are true nobody knows but the experts.
"""
import argparse
import os
import subprocess
import sys

TOP = os.path.dirname(os.path.dirname(os.path.abspath(__file__)))
FCA = os.path.abspath(os.environ.get("FCA") or os.path.join(TOP, "fca"))
EVENTS = ("draw", "confirm", "row", "leave")


class Refused(Exception):
    """What is told on err, where a script of this folder cannot go on."""


def lines_of(text):
    """The lines of a text as the program counts them: parted by line feeds alone, and one carriage return at the end of each is dropped."""
    lines = text.split("\n")
    if lines[-1] == "":
        lines.pop()
    return [line[:-1] if line.endswith("\r") else line for line in lines]


def read_text(path):
    """The text of a file; bytes that are not UTF-8 are kept."""
    try:
        with open(path, encoding="utf-8", errors="surrogateescape", newline="\n") as file:
            return file.read()
    except OSError as error:
        raise Refused("%s: %s" % (path, error.strerror))


class Event:
    """One event of a script: the number of the expert, its line without that number, and the reply, where the script has it."""

    def __init__(self, expert, line, reply=None):
        self.expert, self.line, self.reply = expert, line, reply

    def script_line(self):
        """The line of a script; in its pattern a cross is a large letter, as the program writes it."""
        word, _, rest = self.line.partition(" ")
        if word != "row":
            return "%s %d" % (word, self.expert)
        pattern, _, name = rest.partition(" ")
        return "row %d %s %s" % (self.expert, pattern.upper(), name)

    def text(self):
        return "%s\n# %s\n" % (self.script_line(), self.reply)


class Script:
    """What a script sets, and its events."""

    def __init__(self):
        self.holders, self.known, self.names, self.events = None, [], {}, []

    def head(self):
        """Its first lines, as the program writes them."""
        if self.holders is None and not self.known and not self.names:
            return "exploration 1\n"
        lines = ["exploration 2", "holders %d" % (self.holders or 64)]
        lines += ["known " + line for line in self.known]
        lines += ["expert %d %s" % (expert, self.names[expert]) for expert in sorted(self.names)]
        return "".join(line + "\n" for line in lines)


def up_to_64(word):
    """A number of experts or of holders."""
    number = int(word) if word.isascii() and word.isdigit() else 0
    if not 1 <= number <= 64:
        raise argparse.ArgumentTypeError("%s is not 1 to 64" % word)
    return number


def take_line(script, line):
    """Adds one line of a script that is not skipped; refuses it where it is none. What the program refuses besides is left to it."""
    word, _, rest = line.partition(" ")
    if word == "exploration":
        return
    if word == "holders":
        script.holders = up_to_64(rest)
    elif word == "known":
        script.known.append(rest)
    elif word == "expert":
        expert, _, name = rest.partition(" ")
        script.names[up_to_64(expert)] = name
    elif word in EVENTS:
        expert, _, more = rest.partition(" ")
        script.events.append(Event(up_to_64(expert), word + " " + more if more else word))
    else:
        raise argparse.ArgumentTypeError("not a line of a script: " + line)


def read_script(path):
    """What the script in a file sets and its events, each with the comment behind it as its reply."""
    script, may_reply = Script(), False
    for number, line in enumerate(lines_of(read_text(path)), 1):
        if line.startswith("# ") and may_reply:
            script.events[-1].reply = line[2:]
        may_reply = False
        if line.startswith("#") or not line.strip(" \t"):
            continue
        try:
            take_line(script, line)
        except argparse.ArgumentTypeError as error:
            raise Refused("%s: line %d: %s" % (path, number, error))
        may_reply = line.partition(" ")[0] in EVENTS
    return script


def run(program, words, stdin=subprocess.DEVNULL, good=(0,)):
    """What the program writes; its own line on err is seen, too."""
    try:
        ran = subprocess.run([program] + words, stdin=stdin, stdout=subprocess.PIPE)
    except OSError as error:
        raise Refused("%s: %s" % (program, error.strerror))
    if ran.returncode not in good:
        raise Refused("%s %s ended with status %d" % (program, words[0], ran.returncode))
    return ran.stdout.decode("utf-8", "surrogateescape")


def replayed(program, table, record, known=None):
    """The lines of the program's text for this record of this table."""
    words = ["replay", table] + (["--known", known] if known else [])
    try:
        with open(record, "rb") as script:
            return lines_of(run(program, words, script, good=(0, 6)))
    except OSError as error:
        raise Refused("%s: %s" % (record, error.strerror))


def sections(lines):
    """The recorded rows and the accepted implications of a text, each without `# ` and its number."""
    at = next(place for place, line in enumerate(lines) if line.startswith("# recorded "))
    rows_end = at + 1 + int(lines[at].rpartition(" ")[2])
    rules_end = rows_end + 1 + int(lines[rows_end].rpartition(" ")[2])
    return [[line.split(" ", 2)[2] for line in part] for part in (lines[at + 1 : rows_end], lines[rows_end + 1 : rules_end])]


def table_text(program, table, text):
    """The table with the recorded rows behind its own, in the Burmeister form."""
    form = lines_of(run(program, ["convert", table, "cxt"]))
    objects, attributes = int(form[2]), int(form[3])
    names, rows = form[5 : 5 + objects], form[5 + objects + attributes :]
    recorded = [row.partition(" ") for row in sections(text)[0]]
    lines = form[:2] + [str(objects + len(recorded)), str(attributes), ""] + names
    lines += [name for _, _, name in recorded] + form[5 + objects : 5 + objects + attributes]
    return lines + (rows + [pattern for pattern, _, _ in recorded] if attributes else [])


def known_text(record, text):
    """A known file of what was known and then of what was accepted, in that order, so each keeps its number."""
    known = [line[len("known ") :] for line in text if line.startswith("known ")]
    return ["# Known and accepted in " + os.path.basename(record)] + known + sections(text)[1]


def options():
    parser = argparse.ArgumentParser(description=__doc__, formatter_class=argparse.RawDescriptionHelpFormatter)
    parser.add_argument("what", choices=("table", "known"))
    parser.add_argument("table", metavar="F", help="the table that was explored")
    parser.add_argument("record", metavar="RECORD", help="a script of its exploration")
    parser.add_argument("--known", metavar="S", help="the known file that it was explored with, if the record does not say it")
    parser.add_argument("--program", default=FCA, metavar="P", help="the program, if it is not %(default)s")
    return parser.parse_args()


def main():
    said = options()
    try:
        text = replayed(said.program, said.table, said.record, said.known)
        lines = table_text(said.program, said.table, text) if said.what == "table" else known_text(said.record, text)
        written = "".join(line + "\n" for line in lines).encode("utf-8", "surrogateescape")
        sys.stdout.buffer.write(written)
        sys.stdout.buffer.flush()
    except (Refused, OSError) as refused:
        sys.exit("record.py: %s" % refused)


if __name__ == "__main__":
    main()
