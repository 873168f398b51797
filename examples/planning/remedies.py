"""What to write in place of a field at fault."""
import difflib
import json
import re
from typing import List, Optional

from .numbers import MISSING, decimal_of, places_of, ungrouped, whole
from .records import LARGEST_NUMBER, LEAST_NUMBER, MOST_NAME_BYTES, number_of
from .scales import RELATIONS

HEADINGS = frozenset(["kind", "kinds", "scale", "type", "attribute", "name"])


def decoded(field: bytes) -> str:
    return field.decode("utf-8", "replace")


def shown(field: bytes) -> str:
    """The field in quotes, shortened if it is long."""
    text = decoded(field)
    return json.dumps(text if len(text) <= 60 else text[:57] + "...", ensure_ascii=False)


def nearest(field: bytes, known: List[bytes]) -> Optional[bytes]:
    """The one of the known texts that was meant, if one is near: the same but for case and spaces, or for a letter or two."""
    plain = {folded(text): text for text in reversed(known)}
    close = difflib.get_close_matches(folded(field), plain, n=1, cutoff=0.75)
    return plain[close[0]] if close else None


def folded(field: bytes) -> str:
    return " ".join(decoded(field).split()).casefold()


def for_name(field: bytes) -> str:
    """For a field that is no name, and no value."""
    if not field:
        return "write a name"
    if len(field) > MOST_NAME_BYTES:
        return "it has %d bytes: write at most %d" % (len(field), MOST_NAME_BYTES)
    return "it has a line break: write %s" % shown(re.sub(rb"\s*[\r\n]+\s*", b" ", field).strip() or b"a name")


def for_kind(field: bytes) -> str:
    near = nearest(field, list(RELATIONS))
    if near:
        return "write `%s`" % near.decode()
    if folded(field) in HEADINGS:
        return "a plan has no line of headings: take this record away"
    if len(re.split(rb"[;\t]", field)) > 2:
        return "part the fields by commas"
    return "write `nominal`, `ordinal` or `interordinal`"


def for_attribute(field: bytes, attributes: List[bytes]) -> str:
    near = nearest(field, attributes)
    if near is not None:
        return "write %s" % shown(near)
    if not attributes:
        return "the table of values has no attribute"
    return "the table of values has %s" % ", ".join(shown(name) for name in attributes[:8]) + (", .." if len(attributes) > 8 else "")


def for_number(field: bytes, missing: str, places: int) -> str:
    """For a field that is no number; `missing` is for one that stands for no value, and numbers beside it have so many decimals."""
    text = decoded(field)
    if not text.strip() or text.strip() in MISSING:
        return missing
    readings = (decimal_of(text), ungrouped(text), decimal_of(text, comma=True))
    number = next((reading for reading in readings if reading is not None), None)
    if number is None:
        return for_other_text(text)
    return for_decimal(number, max(places, places_of(number)))


def for_decimal(number, places: int) -> str:
    if not LEAST_NUMBER <= whole(number, places) <= LARGEST_NUMBER:
        return "write a number from %d to %d" % (LEAST_NUMBER, LARGEST_NUMBER)
    if not places:
        return "write `%d`" % whole(number, 0)
    factor = 10 ** places
    return "numbers are whole: take all values of the attribute and its scale times %d; here write `%d`" % (factor, whole(number, places))


def for_other_text(text: str) -> str:
    found = re.findall(r"-?[0-9]+(?:[.,][0-9]+)?", text)
    if len(found) == 1 and number_of(found[0].encode()) is not None:
        return "write `%s` alone" % found[0]
    return "write a number, or use the kind `nominal`"
