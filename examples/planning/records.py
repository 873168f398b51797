"""Records of fields as the program reads and writes them: docs/FORMATS.md, "Tables in the CSV form"."""
import re
from typing import Iterable, Iterator, List, NamedTuple, Optional

MOST_BYTES = 16777216  # of a file
MOST_ATTRIBUTES = 1024
MOST_OBJECTS = 65536
MOST_NAME_BYTES = 255
LEAST_NUMBER, LARGEST_NUMBER = -(2 ** 63), 2 ** 63 - 1

BYTE_ORDER_MARK = b"\xef\xbb\xbf"
LINE_ENDS = re.compile(rb"[\r\n]*")
# A field in quotes, which may lack the closing one, with what follows it; or a field without quotes.
FIELD = re.compile(rb'"((?:[^"]+|"")*)(?:"([^,\r\n]*))?|([^,\r\n]*)')
NUMBER = re.compile(rb"-?[0-9]{1,19}")


class Record(NamedTuple):
    """The fields of a record, and the line of the file in which it begins."""

    line: int
    fields: List[bytes]


def records(data: bytes) -> Iterator[Record]:
    """The records of the bytes of a file."""
    line_end = b"\n" if b"\n" in data else b"\r"
    at = len(BYTE_ORDER_MARK) if data.startswith(BYTE_ORDER_MARK) else 0
    line = 1
    while True:
        start, at = at, LINE_ENDS.match(data, at).end()
        line += data.count(line_end, start, at)
        if at == len(data):
            return
        start, fields = at, []
        at = take_fields(data, at, fields)
        yield Record(line, fields)
        line += data.count(line_end, start, at)


def take_fields(data: bytes, at: int, fields: List[bytes]) -> int:
    """Adds the fields of the record that begins at this byte, and tells where it ends."""
    while True:
        found = FIELD.match(data, at)
        fields.append(text_of(found))
        at = found.end()
        if data[at : at + 1] != b",":
            return at
        at += 1


def text_of(found) -> bytes:
    """The bytes of a field that FIELD matched."""
    quoted, behind, plain = found.groups()
    return plain if quoted is None else quoted.replace(b'""', b'"') + (behind or b"")


def first_bad_byte(data: bytes) -> Optional[int]:
    """The number of bytes before the first that begins no whole character of UTF-8."""
    try:
        data.decode("utf-8")
    except UnicodeDecodeError as fault:
        return fault.start
    return None


def is_name(field: bytes) -> bool:
    return 0 < len(field) <= MOST_NAME_BYTES and b"\r" not in field and b"\n" not in field


def is_value(field: bytes) -> bool:
    return not field or is_name(field)


def number_of(field: bytes) -> Optional[int]:
    """The number that the field is for the program, if it is one."""
    if not NUMBER.fullmatch(field):
        return None
    number = int(field)
    return number if LEAST_NUMBER <= number <= LARGEST_NUMBER else None


def written(rows: Iterable[Iterable[str]]) -> bytes:
    """The bytes of a file with these records."""
    return b"".join(",".join(quoted(field) for field in row).encode() + b"\n" for row in rows)


def quoted(field: str) -> str:
    if re.search(r'[",\r\n]', field):
        return '"%s"' % field.replace('"', '""')
    return field
