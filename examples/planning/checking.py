"""Where a table of values, or a plan, is at fault: each mistake for which the program refuses it, in the program's order."""
import collections
from typing import Iterator, List, NamedTuple, Optional, Set

from . import remedies
from .numbers import MISSING, decimal_of, places_for
from .records import (
    MOST_ATTRIBUTES,
    MOST_BYTES,
    MOST_OBJECTS,
    Record,
    first_bad_byte,
    is_name,
    is_value,
    number_of,
    records,
)
from .remedies import decoded, shown
from .scales import RELATIONS, made_by, scale_value

MISSING_BYTES = frozenset(word.encode() for word in MISSING)
LEFT_EMPTY = "it stands for no value: leave the field empty"
TAKEN_AWAY = "take this field away, with the comma before it"


class Mistake(NamedTuple):
    """What is at fault at a place of a file, in the words of docs/FORMATS.md, and what to do."""

    file: str
    place: str
    what: str
    remedy: str

    def text(self) -> str:
        return ": ".join(part for part in self if part)


class Values(NamedTuple):
    """A table of values, as far as it can be read: record 1, and the others."""

    file: str
    header: List[bytes]
    objects: List[Record]

    @property
    def attributes(self) -> List[bytes]:
        return self.header[1:]

    def column(self, place: int) -> List[bytes]:
        """The values of an attribute; what is not there is empty."""
        return [fields[place + 1] if place + 1 < len(fields) else b"" for _, fields in self.objects]


def place_of(number: int, record: Record, field: Optional[int] = None) -> str:
    """Where a record is, or a field of it, both counted from 1."""
    line = "" if record.line == number else " (line %d)" % record.line
    return "record %d%s" % (number, line) + ("" if field is None else ", field %d" % field)


def bytes_mistakes(file: str, data: bytes) -> Iterator[Mistake]:
    """What the program refuses before it looks at records."""
    if len(data) > MOST_BYTES:
        yield Mistake(file, "", "too long", "it has %d bytes, and the program reads %d" % (len(data), MOST_BYTES))
    at = first_bad_byte(data)
    if at is not None:
        what = "not UTF-8, there is the byte 0x%02x" % data[at]
        yield Mistake(file, "byte %d" % at, what, "save the file as UTF-8, or try `iconv -f WINDOWS-1252 -t UTF-8`")


# ---- tables of values


def read_values(file: str, data: bytes) -> Values:
    rows = list(records(data))
    return Values(file, rows[0].fields if rows else [], rows[1:])


def values_mistakes(file: str, data: bytes) -> Iterator[Mistake]:
    """The mistakes in a table of values."""
    yield from bytes_mistakes(file, data)
    header = None
    for number, record in enumerate(records(data), 1):
        if number > MOST_OBJECTS + 1:
            yield Mistake(file, place_of(number, record), "too many", "a table has at most %d objects" % MOST_OBJECTS)
            return
        if header is None:
            header = record
            yield from header_mistakes(file, record)
        else:
            yield from object_mistakes(file, number, record, header)
    if header is None:
        yield Mistake(file, "", "no header", "write a first record: a corner, and the names of the attributes")


def header_mistakes(file: str, record: Record) -> Iterator[Mistake]:
    names = record.fields[1:]
    if len(names) > MOST_ATTRIBUTES:
        remedy = "it names %d attributes, and a table has at most %d" % (len(names), MOST_ATTRIBUTES)
        yield Mistake(file, place_of(1, record), "too many", remedy)
    for field, name in enumerate(names, 2):
        if not is_name(name):
            at_end = not any(names[field - 2 :])
            remedy = "write a name, or take the comma away, here and in each record" if at_end else remedies.for_name(name)
            yield bad_field(file, 1, record, field, remedy)
    for field, name in enumerate(names, 2):
        first = names.index(name) + 2
        if first < field and is_name(name):
            what = "duplicate attribute, there is %s" % shown(name)
            yield Mistake(file, place_of(1, record, field), what, "field %d has this name: write another" % first)


def object_mistakes(file: str, number: int, record: Record, header: Record) -> Iterator[Mistake]:
    fields, width = record.fields, len(header.fields)
    if len(fields) != width:
        what = "ragged, there are %d fields, and %d in record 1" % (len(fields), width)
        yield Mistake(file, place_of(number, record), what, for_ragged(fields, header.fields))
        return
    for field, value in enumerate(fields, 1):
        if not (is_name(value) if field == 1 else is_value(value)):
            yield bad_field(file, number, record, field, remedies.for_name(value))


def bad_field(file: str, number: int, record: Record, field: int, remedy: str) -> Mistake:
    return Mistake(file, place_of(number, record, field), "bad field, there is %s" % shown(record.fields[field - 1]), remedy)


def for_ragged(fields: List[bytes], header: List[bytes]) -> str:
    more = len(fields) - len(header)
    if is_parted_otherwise(header) or is_parted_otherwise(fields):
        return "part the fields by commas; `plan.py make` does so"
    if more > 0 and not any(fields[-more:]):
        return "take away the last %s" % ("comma" if more == 1 else "%d commas" % more)
    if more > 0:
        return "put a field that has a comma in double quotes"
    return "put a comma for each value that is missing"


def is_parted_otherwise(fields: List[bytes]) -> bool:
    """Whether a record of one field has separators other than commas."""
    return len(fields) == 1 and any(mark in fields[0] for mark in (b";", b"\t"))


# ---- plans


class PlanRecord(NamedTuple):
    """A record of a plan, with the kind and the attribute that it names, or was meant to name."""

    number: int
    record: Record
    kind: bytes
    attribute: bytes

    def place(self, field: int) -> str:
        return place_of(self.number, self.record, field)


def plan_mistakes(file: str, data: bytes, values: Optional[Values]) -> Iterator[Mistake]:
    """The mistakes in a plan for a table of values; or without one, those that need none to be seen."""
    yield from bytes_mistakes(file, data)
    seen, tried = set(), set()
    for number, record in enumerate(records(data), 1):
        attributes = record.fields[1:2] if values is None else values.attributes
        kind, attribute = meant_kind(record), meant_attribute(record, attributes)
        yield from kind_mistakes(file, number, record)
        if kind is not None:
            yield from attribute_mistakes(file, number, record, attributes)
        if kind is not None and attribute is not None:
            meant = PlanRecord(number, record, kind, attribute)
            yield from scale_mistakes(file, meant, values)
            if kind != b"nominal" and attribute not in tried:
                tried.add(attribute)
                yield from column_mistakes(meant, values)
            yield from made_mistakes(file, meant, seen)


def meant_kind(record: Record) -> Optional[bytes]:
    word = record.fields[0]
    if len(record.fields) < 3:
        return None
    return word if word in RELATIONS else remedies.nearest(word, list(RELATIONS))


def meant_attribute(record: Record, attributes: List[bytes]) -> Optional[bytes]:
    if len(record.fields) < 2:
        return None
    name = record.fields[1]
    return name if name in attributes and is_name(name) else remedies.nearest(name, [known for known in attributes if is_name(known)])


def kind_mistakes(file: str, number: int, record: Record) -> Iterator[Mistake]:
    word = record.fields[0]
    if len(record.fields) < 3:
        what = "bad kind, there are %d fields, a kind, an attribute and at least one scale value are needed" % len(record.fields)
        remedy = "write `kind,attribute,value`" if word in RELATIONS else remedies.for_kind(word)
        yield Mistake(file, place_of(number, record), what, remedy)
    elif word not in RELATIONS:
        yield Mistake(file, place_of(number, record, 1), "bad kind, there is %s" % shown(word), remedies.for_kind(word))


def attribute_mistakes(file: str, number: int, record: Record, attributes: List[bytes]) -> Iterator[Mistake]:
    name = record.fields[1]
    if name not in attributes or not is_name(name):
        remedy = remedies.for_attribute(name, attributes)
        yield Mistake(file, place_of(number, record, 2), "unknown attribute, there is %s" % shown(name), remedy)


def scale_mistakes(file: str, meant: PlanRecord, values: Optional[Values]) -> Iterator[Mistake]:
    """The scale values that are none of the kind."""
    scale = meant.record.fields[2:]
    bad = [(field, value) for field, value in enumerate(scale, 3) if scale_value(meant.kind, value) is None]
    decimals = decimals_beside(meant, values) if bad else 0
    for field, value in bad:
        if not value:
            remedy = TAKEN_AWAY if any(scale) else "write a scale value"
        elif meant.kind == b"nominal":
            remedy = remedies.for_name(value)
        else:
            remedy = remedies.for_number(value, TAKEN_AWAY, decimals)
        yield Mistake(file, meant.place(field), "bad scale value, there is %s" % shown(value), remedy)


def decimals_beside(meant: PlanRecord, values: Optional[Values]) -> int:
    """How many decimals the numbers of the scale have, and those of the attribute."""
    column = [] if values is None else values.column(values.attributes.index(meant.attribute))
    numbers = [decimal_of(decoded(field)) for field in column + meant.record.fields[2:]]
    return places_for(number for number in numbers if number is not None)


def column_mistakes(meant: PlanRecord, values: Optional[Values]) -> Iterator[Mistake]:
    """The values of the attribute that are no numbers, where the kind asks for numbers."""
    if values is None:
        return
    place = values.attributes.index(meant.attribute)
    column = values.column(place)
    decimals = decimals_beside(meant, values)
    for number, (record, value) in enumerate(zip(values.objects, column), 2):
        if value and number_of(value) is None:
            what = "bad value of %s under `%s`, there is %s" % (shown(meant.attribute), decoded(meant.kind), shown(value))
            remedy = remedies.for_number(value, LEFT_EMPTY, decimals)
            yield Mistake(values.file, place_of(number, record, place + 2), what, remedy)


def made_mistakes(file: str, meant: PlanRecord, seen: Set[bytes]) -> Iterator[Mistake]:
    """The attributes that are made and have no new name; `seen` has those so far, and gains the others."""
    before = len(seen)
    for field, made in made_by(meant.kind, meant.attribute, meant.record.fields[2:]):
        name = made.name()
        if not is_name(name) or name in seen:
            what = "bad name, there is %s" % shown(meant.record.fields[field - 1])
            yield Mistake(file, meant.place(field), what, for_made(name))
        seen.add(name)
    if before <= MOST_ATTRIBUTES < len(seen):
        remedy = "the records up to this one make %d attributes, and a table has at most %d" % (len(seen), MOST_ATTRIBUTES)
        yield Mistake(file, place_of(meant.number, meant.record), "too many", remedy)


def for_made(name: bytes) -> str:
    if is_name(name):
        return "%s is made already: take this field away" % shown(name)
    return "an attribute of %d bytes would be made: write a shorter value, here and in the table" % len(name)


# ---- what is not refused, and mostly is not meant


def values_notes(values: Values) -> Iterator[str]:
    """What a look at the table of values shows."""
    if is_parted_otherwise(values.header):
        yield "%s has no attribute, as its fields are not parted by commas; `plan.py make` reads it as it is" % values.file
    for place, attribute in enumerate(values.attributes):
        missing = collections.Counter(value for value in values.column(place) if value in MISSING_BYTES)
        for word, count in missing.items():
            times = "once" if count == 1 else "%d times" % count
            yield "%s of %s stands there %s; leave the field empty if it stands for no value" % (shown(word), shown(attribute), times)


def plan_notes(data: bytes, values: Values) -> Iterator[str]:
    """The nominal scale values that no object has."""
    for number, record in enumerate(records(data), 1):
        if record.fields[0] != b"nominal" or meant_attribute(record, values.attributes) != record.fields[1]:
            continue
        column = set(values.column(values.attributes.index(record.fields[1])))
        for value in record.fields[2:]:
            if value and value not in column:
                near = remedies.nearest(value, sorted(column - {b""}))
                hint = "" if near is None else "; %s is there" % shown(near)
                yield "record %d of the plan: no object has %s of %s%s" % (number, shown(value), shown(record.fields[1]), hint)
