"""What the scales of a plan say by themselves: implications that hold of each table that the plan makes."""
import itertools
from typing import Dict, Iterator, List, NamedTuple, Tuple

from .records import MOST_BYTES, number_of, records
from .scales import Made, made_by


class Known(NamedTuple):
    """An implication between attributes of the table, by their places."""

    premise: Tuple[int, ...]
    conclusion: Tuple[int, ...]


def made_of(data: bytes) -> List[Made]:
    """The attributes that a plan makes, in their order; the plan has no mistake."""
    made = []
    for record in records(data):
        kind, attribute, *scale = record.fields
        made.extend(each for _, each in made_by(kind, attribute, scale))
    return made


def known_of(made: List[Made]) -> Iterator[Known]:
    """The implications that the scales say, attribute by attribute; a premise that no value meets has all attributes as conclusion."""
    everything = tuple(range(len(made)))
    of_attribute: Dict[bytes, List[int]] = {}
    for place, each in enumerate(made):
        of_attribute.setdefault(each.attribute, []).append(place)
    for places in of_attribute.values():
        bounds = Bounds(made, places)
        yield from bounds.chains()
        yield from bounds.of_values()
        for pair in sorted(bounds.contradictions()):
            yield Known(pair, everything)


class Bounds:
    """The attributes that a plan makes of one attribute, by their places: those of values, and those of bounds from the narrowest on."""

    def __init__(self, made: List[Made], places: List[int]):
        self.made = made
        self.equal = [place for place in places if made[place].relation == "="]
        self.at_most = sorted((place for place in places if made[place].relation == "<="), key=self.value)
        self.at_least = sorted((place for place in places if made[place].relation == ">="), key=self.value, reverse=True)

    def value(self, place: int):
        return self.made[place].value

    def chains(self) -> Iterator[Known]:
        """A bound says the next wider one."""
        for bounds in (self.at_most, self.at_least):
            for narrow, wide in zip(bounds, bounds[1:]):
                yield Known((narrow,), (wide,))

    def of_values(self) -> Iterator[Known]:
        """A value that is a number says the bounds that hold of it."""
        for place in self.equal:
            within = self.around(place)
            if within:
                yield Known((place,), tuple(sorted(within)))

    def around(self, place: int) -> List[int]:
        number = number_of(self.value(place))
        if number is None:
            return []
        above = [bound for bound in self.at_most if number <= self.value(bound)]
        return above + [bound for bound in self.at_least if number >= self.value(bound)]

    def contradictions(self) -> Iterator[Tuple[int, int]]:
        """Pairs that no value meets: two values, a value and the widest bounds against it, and two bounds with nothing between them."""
        for first, second in itertools.combinations(self.equal, 2):
            yield pair(first, second)
        for place in self.equal:
            within = self.around(place)
            for bounds in (self.at_most, self.at_least):
                against = [bound for bound in bounds if bound not in within]
                if against:
                    yield pair(place, against[-1])
        yield from self.empty_intervals()

    def empty_intervals(self) -> Iterator[Tuple[int, int]]:
        """Of bounds with nothing between them the pairs of which neither can be wider."""
        last = None
        for high in reversed(self.at_most):
            lows = [low for low in self.at_least if self.value(low) > self.value(high)]
            if lows and lows[-1] != last:
                last = lows[-1]
                yield pair(high, last)


def pair(first: int, second: int) -> Tuple[int, int]:
    return (first, second) if first < second else (second, first)


# ---- as a known file


def known_lines(made: List[Made]) -> Iterator[str]:
    names = [each.name().decode() for each in made]
    for premise, conclusion in known_of(made):
        whole = len(conclusion) == len(made)
        arrow = "%s -> %s" % (braces(premise, names), "everything" if whole else braces(conclusion, names))
        yield "%s %s %s" % (pattern(premise, len(made)), pattern(conclusion, len(made)), arrow)


def pattern(places: Tuple[int, ...], width: int) -> str:
    marks = ["."] * width
    for place in places:
        marks[place] = "X"
    return "".join(marks)


def braces(places: Tuple[int, ...], names: List[str]) -> str:
    return "{%s}" % ", ".join(names[place] for place in places)


def known_file(plan: str, data: bytes) -> bytes:
    """The bytes of the known file; it may be too long for the program."""
    lines = ["# What the scales of %s say of every table." % plan]
    lines.extend(known_lines(made_of(data)))
    text = "".join(line + "\n" for line in lines).encode()
    if len(text) > MOST_BYTES:
        raise ValueError("the known file would have %d bytes, and the program reads %d: name fewer values" % (len(text), MOST_BYTES))
    return text
