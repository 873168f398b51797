#!/usr/bin/env python3
"""A client of `serve` or of a chair (examples/chair.py) for a student, who answers in words:

    student.py 127.0.0.1:7000 [--name Ann] [--one kite]

It draws a question, shows it, and asks for yes or no. On no it asks for the name of a counterexample, and goes through the attributes.
`skip` gives the question back, `quit` (or Ctrl-D, Ctrl-C) leaves. --name says who it is to a chair, and --one what an object is called.

What it trusts: the program at the other end for every question and reply, and the student for the answers. It decides nothing itself but
not to send a counterexample that cannot count: one that lacks what the question is about, or has all that is asked.
"""
import argparse
import re
import select
import socket
import sys
import time

try:
    import readline  # noqa: F401  (lines can be edited where the system has it)
except ImportError:
    pass

BREAKS = "%s cannot be noted: it breaks rule %s, that %s. Either the rule is wrong, or %s is: look at your answers, or tell who leads the class."
OTHERS = {
    "all held": "Others think about each question that is open. You get the next one as soon as there is one; Ctrl-C leaves.",
    "not held": "You do not hold a question any more.",
    "left": "The question is given back.",
    "no memory": "The program has no memory for that just now.",
}
CONTROL = re.compile(r"[\x00-\x1f\x7f-\x9f]")  # what could move the cursor is not shown
WAIT_SECONDS = (2, 15)  # until it draws again, while others think about all questions: at first, and at most
GREETING_SECONDS = 3  # until it says that nobody has greeted it
NO_NAME = " A chair may want your name: then leave by Ctrl-C, and start again with --name."


class Ended(Exception):
    """The talk is over; what is told."""


def address_of(text):
    """The host and the port of HOST:PORT."""
    host, _, port = text.rpartition(":")
    if not host or not port.isdigit() or int(port) > 65535:
        raise argparse.ArgumentTypeError("%s is not HOST:PORT, as 127.0.0.1:7000" % text)
    return host.strip("[]"), int(port)


def listed(names):
    """The names in quotes, with commas and `and` between them."""
    quoted = ['"%s"' % name for name in names]
    return ", ".join(quoted[:-1]) + " and " + quoted[-1] if len(quoted) > 1 else "".join(quoted) or "nothing"


# ---- the connection


class Line:
    """The connection to the program: a line is answered by a line."""

    def __init__(self, address, name):
        try:
            self.link = socket.create_connection(address)
        except OSError as error:
            raise Ended("Nobody listens at %s:%d (%s)." % (*address, error.strerror))
        self.replies = self.link.makefile("r", encoding="utf-8", errors="replace", newline="\n")
        if name:
            self.send("name " + name)
        if not select.select([self.link], [], [], GREETING_SECONDS)[0]:
            print("Nobody has greeted you yet. `serve` waits until all have come.%s" % ("" if name else NO_NAME), flush=True)
        self.expert, self.attributes = self.greeting()

    def greeting(self):
        """The number of this expert, and the names of the attributes."""
        first = self.read()
        if first != "exploration 1":
            raise Ended("There is no seat for you: %s." % first)
        expert, count = int(self.read().split()[1]), int(self.read().split()[1])
        return expert, [self.read() for _ in range(count)]

    def send(self, line):
        try:
            self.link.sendall((line + "\n").encode("utf-8", "surrogateescape"))
        except OSError:
            raise Ended("The exploration has ended.")

    def read(self):
        try:
            line = self.replies.readline()
        except OSError:
            line = ""
        if not line.endswith("\n"):
            raise Ended("The exploration has ended.")
        return CONTROL.sub("?", line[:-1])

    def ask(self, line):
        self.send(line)
        return self.read()


# ---- the student's side


class Quits(Exception):
    """The student wants to leave."""


class Skips(Exception):
    """The student gives the question back."""


def typed(prompt):
    """A line of the student's, without spaces at its ends. It is shown where it comes from a file or a pipe."""
    try:
        line = input(prompt).strip()
    except (EOFError, KeyboardInterrupt):
        print()
        raise Quits()
    if not sys.stdin.isatty():
        print(line, flush=True)
    if line.lower() == "quit":
        raise Quits()
    if line.lower() == "skip":
        raise Skips()
    return line


def is_yes(prompt):
    """Whether the student says yes."""
    while True:
        answer = typed(prompt + " (yes/no) ").lower()
        if answer in ("yes", "y"):
            return True
        if answer in ("no", "n"):
            return False
        print("Please type yes or no; skip gives the question back, and quit leaves.")


class Question:
    """A question: the attributes of its premise, and those that it asks for."""

    def __init__(self, attributes, premise, conclusion):
        self.premise = [name for name, mark in zip(attributes, premise) if mark == "X"]
        both = zip(attributes, premise, conclusion)
        self.asked = [name for name, before, mark in both if mark == "X" and before != "X"]

    def in_words(self, one):
        asked = ("have all of: " if len(self.asked) > 1 else "have ") + listed(self.asked)
        who = " that has " + listed(self.premise) if self.premise else ""
        return "Does every %s%s %s?" % (one, who, asked)

    def rule(self, one):
        """The question as a statement."""
        who = " that has " + listed(self.premise) if self.premise else ""
        return "every %s%s has %s" % (one, who, listed(self.asked))


def stays(reply):
    """Whether the question stays with the student."""
    return reply.split(" ")[0] in ("misses", "keeps", "breaks", "bad") or reply == "no memory"


class Talk:
    """The talk of one student with the program."""

    def __init__(self, line, one):
        self.line, self.one, self.question, self.name = line, one, None, None

    def rule_of(self, patterns):
        premise, conclusion = patterns.split(" ")[:2]
        return Question(self.line.attributes, premise, conclusion).rule(self.one)

    def pattern(self):
        """The pattern of a counterexample, attribute by attribute, first those of the question; None where it cannot count."""
        question, has = self.question, {}
        others = [name for name in self.line.attributes if name not in question.premise + question.asked]
        for attribute in question.premise + question.asked + others:
            has[attribute] = is_yes('Does %s have "%s"?' % (self.name, attribute))
            if attribute in question.premise and not has[attribute]:
                print(self.missing(attribute))
                return None
            if attribute == question.asked[-1] and all(has.values()):
                print(self.keeping())
                return None
        return "".join("X" if has[attribute] else "." for attribute in self.line.attributes)

    def missing(self, attribute):
        return '%s does not count here: it lacks "%s", and the question is only about what has that.' % (self.name, attribute)

    def keeping(self):
        return "%s does not count here: it has all that the question asks for, so it speaks for yes." % self.name

    def counterexample(self):
        """Asks for a counterexample; the reply to it, or None where there is none to send."""
        self.name = typed("Which %s does not? Its name, or Enter to go back: " % self.one)
        if len(self.name.encode("utf-8", "surrogateescape")) > 255:
            print("That name is too long.")
        if not 0 < len(self.name.encode("utf-8", "surrogateescape")) < 256:
            return None
        pattern = self.pattern()
        return pattern and self.line.ask("row %s %s" % (pattern, self.name))

    def sentence(self, reply):
        """What a reply says, in a sentence."""
        word, _, rest = reply.partition(" ")
        if word == "accepted":
            return "Noted, as rule %s: %s." % (rest, self.question.rule(self.one))
        if word == "taken":
            return "Noted, as row %s: %s says no to this question." % (rest, self.name)
        if word == "refuted" or reply.startswith("superseded row "):
            return self.refuting(*reply.split(" ")[-2:])
        if word == "superseded":
            _, number, patterns = rest.split(" ", 2)
            return "Somebody was quicker. Rule %s is noted already: %s." % (number, self.rule_of(patterns))
        if word == "breaks":
            number, _, patterns = rest.partition(" ")
            return BREAKS % (self.name, number, self.rule_of(patterns), self.name)
        if word == "misses":
            return self.missing(rest.partition(" ")[2])
        return self.keeping() if word == "keeps" else OTHERS.get(reply, "The program says: %s." % reply)

    def refuting(self, number, pattern):
        has = [name for name, mark in zip(self.line.attributes, pattern) if mark == "X"]
        return "Somebody was quicker. Row %s, which has %s, says no to this question already." % (number, listed(has))

    def answer(self):
        """One question, until it is answered or given back."""
        while True:
            print()
            reply = self.line.ask("confirm") if is_yes(self.question.in_words(self.one)) else self.counterexample()
            if reply is not None:
                print(self.sentence(reply))
            if reply is not None and not stays(reply):
                return

    def next_question(self):
        """Draws until there is a question, or none is open; how long it waits for others is not known."""
        reply, (seconds, most) = self.line.ask("draw"), WAIT_SECONDS
        if reply in ("all held", "no memory"):
            print(self.sentence(reply))
        while reply in ("all held", "no memory"):
            time.sleep(seconds)
            seconds = min(2 * seconds, most)
            reply = self.line.ask("draw")
        word, _, patterns = reply.partition(" ")
        return Question(self.line.attributes, *patterns.split(" ")[:2]) if word == "ask" else None

    def skip(self):
        print(self.sentence(self.line.ask("leave")))
        try:
            typed("Press Enter for the next question. ")
        except Skips:
            pass

    def questions(self):
        """Answers until nothing is open."""
        self.question = self.next_question()
        while self.question is not None:
            try:
                self.answer()
            except Skips:
                self.skip()
            self.question = self.next_question()
        print("No question is open any more: the exploration is finished. Thank you!")

    def all(self):
        print("You are number %d. There are %d attributes: %s." % (self.line.expert, len(self.line.attributes), listed(self.line.attributes)))
        try:
            self.questions()
        except (Quits, KeyboardInterrupt):
            pass
        self.line.ask("quit")
        print("Goodbye.")


def main():
    parser = argparse.ArgumentParser(description=__doc__, formatter_class=argparse.RawDescriptionHelpFormatter)
    parser.add_argument("address", metavar="HOST:PORT", type=address_of, help="where the chair or `serve` listens")
    parser.add_argument("--name", help="your name, which a chair may ask for")
    parser.add_argument("--one", default="object", help="what an object is called (%(default)s)")
    said = parser.parse_args()
    try:
        Talk(Line(said.address, said.name), said.one).all()
    except Ended as ended:
        print(ended)
        sys.exit(1)
    except KeyboardInterrupt:
        sys.exit(1)


if __name__ == "__main__":
    main()
