#!/usr/bin/env python3
"""Where each public call is run that can say that memory is refused: run_calls.py [--check].

Each line has a crate, a call, and what runs it: `run`, the top call of the program, or the first test by name. With
--check only calls that nothing runs are printed. The status is 1 where there is one.

A call counts if its result has the type `Memory`, an enum with a variant of that name, or the library's refusal of
memory; and so do the four that say it in another way (OTHER). A call is run if it is named in a test of core_tests or
exploration_tests, in the program or in call_rows, or in a function that one of these reaches. So it says that a call is
written down where something runs it, and not that this line was come by. Names are resolved as far as the sources
show types: `Type::call`, an imported function, and methods of a parameter, a field, or a value that a call gave. A
method of a value whose type is not seen counts only where one type alone has a method of that name, or by a trait.
"""
import argparse
import os
import re
import sys

TOP = os.path.dirname(os.path.dirname(os.path.abspath(__file__)))
CRATES = os.path.join(TOP, "crates")

# `run` and `run_plain` by a status, `run_panel` by how a seat ended, `serve_ends` by the ends that it gives back.
OTHER = {("fca_run", "run"), ("fca_run", "run_plain"), ("expert_panel", "run_panel"), ("expert_sessions", "serve_ends")}
LIBRARY = {"Memory", "AllocError", "AllocFailed"}

BLANKED = re.compile(r"""//[^\n]*|b?"(?:\\.|[^"\\])*"|b?'(?:\\.[^']*|[^'\\])'""", re.S)
CLAUSE = re.compile(r"\s*(?:requires|ensures)\b[^{;]*\{")
CALL = re.compile(r"(?:(\w+)(?:::<[^()]*>)?::)?\b([a-z_]\w*)(?:::<[^()]*?>)?\s*\(")


def blank(text):
    """The text with blanks in the place of comments and letters in quotes."""
    return BLANKED.sub(lambda m: re.sub(r"[^\n]", " ", m.group()), text)


def without_ghosts(text):
    """The text without what proofs alone read."""
    text = re.sub(r"(?m)^\s*ghost use\b[^;]*;", "", text)
    while True:
        found = re.search(r"(?m)^\s*(?:pub\s+)?ghost\s+\w+\s*[:=]\s*\{", text)
        if not found:
            return text
        text = text[:found.start()] + text[closing(text, found.end() - 1):].lstrip(",;")


def closing(text, at):
    """The place behind the bracket that closes the one at this place."""
    pairs, depth = {"(": ")", "{": "}", "[": "]", "<": ">"}, 0
    first, last = text[at], pairs[text[at]]
    while at < len(text):
        if text[at] == first:
            depth += 1
        elif text[at] == last and text[at - 1:at + 1] not in ("->", "=>"):
            depth -= 1
            if depth == 0:
                return at + 1
        at += 1
    return at


def opening(text, at):
    """The place of the bracket that the one at this place closes."""
    pairs, depth = {")": "(", "]": "["}, 0
    last, first = text[at], pairs[text[at]]
    while at >= 0:
        depth += (text[at] == last) - (text[at] == first)
        if depth == 0:
            return at
        at -= 1
    return 0


def head(kind):
    """The name of a type, without borrows, boxes and answers that may be none."""
    kind = re.sub(r"&|'\w+|\bmut\b|\bdyn\b|\s+", " ", kind).strip()
    while True:
        inner = re.match(r"(?:Result|Option|Box)\s*<\s*(.*)", kind, re.S)
        if not inner:
            break
        kind = re.sub(r"^&|'\w+|\bmut\b", " ", inner.group(1)).strip()
    name = re.match(r"[\w:]+", kind)
    return name.group().split("::")[-1] if name else ""


def split_list(text):
    """The parts between commas that stand in no bracket."""
    parts, depth, start = [], 0, 0
    for at, letter in enumerate(text):
        depth += (letter in "(<[{") - (letter in ")]}" or (letter == ">" and text[at - 1] not in "-="))
        if letter == "," and depth == 0:
            parts.append(text[start:at])
            start = at + 1
    return parts + [text[start:]]


class Call:
    """A function with a body."""

    def __init__(self, crate, file, of, trait, is_public, is_test, name, params, result, body):
        self.crate, self.file, self.of, self.trait = crate, file, of, trait
        self.is_public, self.is_test, self.name = is_public, is_test, name
        self.result, self.body = result, body
        self.types = {}
        for param in split_list(params):
            kept = re.match(r"\s*(?:mut\s+)?(\w+)\s*:\s*(.*)", param, re.S)
            if kept:
                self.types[kept.group(1)] = head(kept.group(2))
        self.types["self"] = of
        self.calls = set()

    def title(self):
        return (self.of + "::" if self.of else "") + self.name


def functions(crate, file, text, of="", trait=""):
    """The functions of a text, in whose place `of` is the type of the block and `trait` its trait."""
    item = re.compile(r"(?m)^\s*(?:impl\b(?P<impl>[^{;]*)\{|(?:pub(?:\(\w+\))?\s+)?trait\s+(?P<trait>\w+)[^{;]*\{|"
                      r"(?P<public>pub\s+)?(?:pub\(\w+\)\s+)?(?:final\s+)?(?:const\s+)?fn\s+(?P<name>\w+))")
    at = 0
    while True:
        found = item.search(text, at)
        if not found:
            return
        if found.group("name") is None:
            end = closing(text, found.end() - 1)
            if found.group("trait"):
                inner = functions(crate, file, text[found.end():end - 1], found.group("trait"), found.group("trait"))
            else:
                whole = re.sub(r"^\s*<", "<", found.group("impl"))
                if whole.startswith("<"):
                    whole = whole[closing(whole, 0):]
                whole = re.split(r"\bwhere\b", whole)[0]
                parts = re.split(r"\bfor\b", whole)
                inner = functions(crate, file, text[found.end():end - 1], head(parts[-1]), head(parts[0]) if len(parts) > 1 else "")
            yield from inner
            at = end
            continue
        name, behind = found.group("name"), found.end()
        if text[behind:behind + 1] == "<":
            behind = closing(text, behind)
        close = closing(text, text.index("(", behind))
        params = text[text.index("(", behind) + 1:close - 1]
        result = re.match(r"(?:\[[^\]]*\]|[^{;\[])*?(?=\n\s*(?:requires|ensures|where)\b|\{|;)", text[close:], re.S)
        result = result.group() if result else ""
        at = close + len(result)
        bounds = re.match(r"\s*where\b[^{;]*?(?=\n\s*(?:requires|ensures)\b|\{|;)", text[at:], re.S)
        at += bounds.end() if bounds else 0
        while True:
            clause = CLAUSE.match(text, at)
            if not clause:
                break
            at = closing(text, clause.end() - 1)
        rest = re.match(r"\s*\{", text[at:])
        if not rest:
            continue
        end = closing(text, at + rest.end() - 1)
        is_test = "#[test]" in text[max(0, found.start() - 200):found.start()].split("\n}")[-1]
        yield Call(crate, file, of, trait, bool(found.group("public")), is_test, name, params, result, text[at:end])
        at = end


class Sources:
    """All functions, fields, enums and imports of the repository."""

    def __init__(self):
        self.calls, self.fields, self.memory = [], {}, set(LIBRARY)
        self.imports, self.aliases = {}, {}
        texts = []
        for crate in sorted(os.listdir(CRATES)):
            folder = os.path.join(CRATES, crate, "src")
            for at, _, files in sorted(os.walk(folder)):
                for name in sorted(files):
                    if name.endswith(".rt"):
                        path = os.path.join(at, name)
                        with open(path, encoding="utf-8") as file:
                            texts.append((crate, path, blank(file.read())))
        for crate, path, text in texts:
            text = without_ghosts(text)
            self.read_types(crate, text)
            self.imports[path] = set(re.findall(r"\w+", " ".join(re.findall(r"\buse\s+([^;]*);", text))))
            self.calls += functions(crate, path, text)
        self.by_name = {}
        for call in self.calls:
            call.of = self.aliases.get(call.of, call.of)
            self.by_name.setdefault(call.name, []).append(call)

    def read_types(self, crate, text):
        for name, kind in re.findall(r"\btype\s+(\w+)[^=;]*=\s*([\w:]+)\s*<", text):
            self.aliases[name] = kind.split("::")[-1]
        for found in re.finditer(r"\b(struct|enum)\s+(\w+)[^{;(]*\{", text):
            inside = text[found.end():closing(text, found.end() - 1) - 1]
            if found.group(1) == "enum":
                if re.search(r"(?m)^\s*Memory\b", inside):
                    self.memory.add(found.group(2))
                continue
            for part in split_list(inside):
                field = re.match(r"\s*(?:pub(?:\(\w+\))?\s+)?(\w+)\s*:\s*(.*)", re.sub(r"#\[[^\]]*\]", "", part), re.S)
                if field:
                    self.fields.setdefault((found.group(2), field.group(1)), {})[crate] = head(field.group(2))

    def says_memory(self, call):
        """Whether the result can say that memory is refused."""
        return (call.crate, call.name) in OTHER or bool(self.memory & set(re.findall(r"\w+", call.result)))

    def method(self, kind, name, call):
        """The functions of that name of the type, or all of a trait where the type is none of the repository's."""
        kind = self.aliases.get(kind, kind)
        found = [it for it in self.by_name.get(name, []) if it.of]
        own = [it for it in found if it.of == kind]
        if own:
            return own
        by_trait = [it for it in found if it.trait]
        if kind and any(it.of == kind for it in self.calls):
            return by_trait
        kinds = {it.of for it in found if not it.trait}
        return by_trait + ([it for it in found if not it.trait] if len(kinds) == 1 and not kind else [])

    def plain(self, name, call):
        """The free functions of that name that the file has or imports."""
        found = [it for it in self.by_name.get(name, []) if not it.of]
        own = [it for it in found if it.file == call.file]
        if own:
            return own
        if name not in self.imports[call.file]:
            return []
        near = [it for it in found if it.crate == call.crate]
        return near or found

    def kind_before(self, call, at):
        """The type of what stands before the dot at this place, if it shows."""
        text = call.body
        at -= 1
        while at >= 0 and text[at] in " \n?":
            at -= 1
        if at >= 0 and text[at] == ")":
            start = opening(text, at)
            word = re.search(r"(?:(\w+)(?:::<[^()]*>)?::)?(\w+)(?:::<[^()]*>)?\s*$", text[:start])
            return self.kind_of_call(call, word, start) if word else ""
        word = re.search(r"[\w.]+$", text[:at + 1])
        return self.kind_of_path(call, word.group()) if word else ""

    def kind_of_call(self, call, word, start):
        given = self.callees(call, word.group(1), word.group(2), word.start())
        kinds = {it.of if head(it.result.replace("->", "")) == "Self" else head(it.result.replace("->", "")) for it in given}
        return kinds.pop() if len(kinds) == 1 else ""

    def kind_of_path(self, call, path):
        first, *rest = path.split(".")
        kind = call.types.get(first, "")
        for field in rest:
            kinds = self.fields.get((kind, field), {})
            kind = kinds.get(call.crate) or (list(kinds.values())[0] if len(set(kinds.values())) == 1 else "")
        return kind

    def callees(self, call, of, name, at):
        """The functions that a call by this name may be."""
        if of:
            kind = call.of if of == "Self" else of
            own = self.method(kind, name, call) if kind[:1].isupper() else self.plain_in(kind, name, call)
            return own
        before = call.body[:at].rstrip()
        if before.endswith("."):
            return self.method(self.kind_before(call, len(before) - 1), name, call)
        return self.plain(name, call)

    def plain_in(self, module, name, call):
        return [it for it in self.by_name.get(name, []) if not it.of and it.crate == call.crate
                and os.path.basename(it.file)[:-3] == module] or [
                    it for it in self.by_name.get(name, []) if not it.of and it.crate == module]

    def learn(self, call, what, mark):
        """Keeps the types of the names that a `let` gives what a call answers."""
        end = call.body.find(";", mark.end())
        value = call.body[mark.end():end if end > 0 else len(call.body)]
        value = re.sub(r"\s+else\s*\{.*", "", value, flags=re.S).rstrip(" \n?")
        at = mark.end() + len(value)
        if what != "parts":
            call.types[mark.group(1)] = self.kind_before(call, at) or head_of_literal(value)
            return
        if not value.endswith(")"):
            return
        start = opening(call.body, at - 1)
        word = re.search(r"(?:(\w+)(?:::<[^()]*>)?::)?(\w+)(?:::<[^()]*>)?\s*$", call.body[:start])
        for given in self.callees(call, word.group(1), word.group(2), word.start()) if word else []:
            parts = re.search(r"(?:Result|Option)\s*<\s*\((.*)\)|^\s*->\s*\((.*)\)", given.result, re.S)
            kinds = split_list(parts.group(1) or parts.group(2) or "") if parts else []
            names = [re.sub(r"^mut\s+", "", it.strip()) for it in mark.group(1).split(",")]
            call.types.update((name, head(kind)) for name, kind in zip(names, kinds))

    def resolve(self, call):
        """Finds what the function calls, line by line, so that what a call gave is known further down."""
        marks = [(m.start(), "let", m) for m in re.finditer(r"\blet\s+(?:mut\s+)?(\w+)\s*(?::\s*([^=;]+))?=\s*", call.body)]
        marks += [(m.start(), "parts", m) for m in re.finditer(r"\blet\s+(?:Ok)?\(+([\w\s,]+)\)+\s*=\s*", call.body)]
        marks += [(m.start(), "inside", m) for m in re.finditer(r"\blet\s+(?:Some|Ok)\((?:mut\s+)?(\w+)\)\s*=\s*", call.body)]
        marks += [(m.start(), "for", m) for m in re.finditer(r"\bfor\s+(\w+)\s+in\s+", call.body)]
        for _, what, mark in sorted(marks, key=lambda it: it[0]):
            if what == "for":
                call.types.pop(mark.group(1), None)
            elif what == "let" and mark.group(2):
                call.types[mark.group(1)] = head(mark.group(2))
            else:
                self.learn(call, what, mark)
        for found in CALL.finditer(call.body):
            call.calls.update(self.callees(call, found.group(1), found.group(2), found.start()))
        for name in re.findall(r"[(,]\s*&?([a-z_]\w*)\s*(?=[,)])", call.body):
            call.calls.update(self.plain(name, call))
        for kind, name in re.findall(r"\b([A-Z]\w*)::([a-z_]\w*)\s*(?=[,)])", call.body):
            call.calls.update(self.method(call.of if kind == "Self" else kind, name, call))


def head_of_literal(value):
    """The type of a struct that is written out."""
    found = re.match(r"&?(?:mut\s+)?([A-Z]\w*)\s*\{", value)
    return found.group(1) if found else ""


def reached_from(roots):
    seen, left = set(roots), list(roots)
    while left:
        for call in left.pop().calls:
            if call not in seen:
                seen.add(call)
                left.append(call)
    return seen


def main():
    parser = argparse.ArgumentParser(description=__doc__.splitlines()[0])
    parser.add_argument("--check", action="store_true", help="print only the calls that nothing runs")
    check = parser.parse_args().check
    sources = Sources()
    for call in sources.calls:
        sources.resolve(call)
    runs = [("run", reached_from([it for it in sources.calls if it.name == "main" and not it.of]))]
    runs += [(it.crate + " " + it.name, reached_from([it])) for it in sources.calls if it.is_test]
    lacking = listed = 0
    for call in sources.calls:
        if not call.is_public or call.crate.endswith("_tests") or not sources.says_memory(call):
            continue
        listed += 1
        by = next((title for title, reached in runs if call in reached), None)
        lacking += by is None
        if by is None or not check:
            print(call.crate, call.title(), by or "NOTHING RUNS IT", sep="\t")
    print(f"{listed} calls, {lacking} that nothing runs", file=sys.stderr)
    return 1 if lacking else 0


if __name__ == "__main__":
    sys.exit(main())
