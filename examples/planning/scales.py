"""The attributes that the records of a plan make: docs/FORMATS.md, "Plans"."""
from typing import Dict, Iterator, List, NamedTuple, Tuple, Union

from .records import is_name, number_of

RELATIONS: Dict[bytes, List[str]] = {b"nominal": ["="], b"ordinal": ["<="], b"interordinal": ["<=", ">="]}


class Made(NamedTuple):
    """An attribute that a plan makes: an object has it if its value of `attribute` stands in this relation to `value`."""

    attribute: bytes
    relation: str
    value: Union[bytes, int]

    def name(self) -> bytes:
        value = self.value if isinstance(self.value, bytes) else b"%d" % self.value
        return b"%s %s %s" % (self.attribute, self.relation.encode(), value)


def scale_value(kind: bytes, field: bytes) -> Union[bytes, int, None]:
    """What the field is as a scale value of this kind, if it is one."""
    if kind == b"nominal":
        return field if is_name(field) else None
    return number_of(field)


def made_by(kind: bytes, attribute: bytes, scale: List[bytes]) -> Iterator[Tuple[int, Made]]:
    """The attributes that a record of a plan makes, in their order, each with the number of the field of its scale value."""
    for relation in RELATIONS[kind]:
        for field, text in enumerate(scale, 3):
            value = scale_value(kind, text)
            if value is not None:
                yield field, Made(attribute, relation, value)
