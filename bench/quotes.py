#!/usr/bin/env python3
"""Checks that what the documents quote of the code stands in it: quotes.py [DOCUMENT ..]

Each fenced block of `rust` or `antt` is cut where a clause, a definition or a field begins, and each piece has to stand in some file
of `crates/`, but for the layout. A piece that ends with ` ..` or has ` ... ` in it is a quote with something left out: each part has
to stand in one file, in this order. The status is 0 where all is as quoted.
"""
import glob
import os
import re
import sys

TOP = os.path.dirname(os.path.dirname(os.path.abspath(__file__)))
BEGINS = re.compile(r"\s*(pub fn|fn|pub trait|trait|impl|pub record|record|pub struct|abbrev|unfoldable|ensures|requires|ghost|pub [a-z_]+ :|///|--|[A-Za-z_]+( [^=≡]*)? = )")


def flat(text):
    """The text without its layout: one space for blanks, and none at brackets nor a comma before a closing one."""
    text = re.sub(r"\s+", " ", text)
    return re.sub(r" ?,? ?([)\]}>]) ?", r"\1", re.sub(r" ?([(\[{<]) ?", r"\1", text)).strip()


def pieces(block):
    """The clauses, definitions and fields of a block, one after the other."""
    found = []
    for line in block.splitlines():
        if not line.strip():
            continue
        if BEGINS.match(line) or not found:
            found.append(line)
        else:
            found[-1] += " " + line
    return found


def stands(piece, texts):
    parts = [flat(part) for part in re.split(r"\s\.\.\.?(?:\s|$)|\s\.\.(?=\))", piece) if part.strip()]
    for text in texts:
        at = 0
        for part in parts:
            at = text.find(part, at)
            if at < 0:
                break
            at += len(part)
        else:
            return True
    return False


def main():
    documents = sys.argv[1:] or ["README.md", "CONTRIBUTING.md"] + sorted("docs/" + name for name in os.listdir(os.path.join(TOP, "docs")) if name.endswith(".md"))
    files = [path for kind in ("rt", "antt") for path in glob.glob(os.path.join(TOP, "crates", "*", "s*", "**", "*." + kind), recursive=True)]
    texts = [flat(open(path, encoding="utf-8").read()) for path in files]
    count = wrong = 0
    for name in documents:
        text = open(os.path.join(TOP, name), encoding="utf-8").read()
        for block in re.findall(r"^```(?:rust|antt)\n(.*?)^```", text, flags=re.S | re.M):
            for piece in pieces(block):
                count += 1
                if not stands(piece, texts):
                    wrong += 1
                    print("%s: not so in the code: %s" % (name, " ".join(piece.split())))
    print("%d quotes, %d not as in the code" % (count, wrong))
    sys.exit(1 if wrong else 0)


if __name__ == "__main__":
    main()
