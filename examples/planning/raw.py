"""Tables as spreadsheets, R and Weka write them: CSV with any separator, and ARFF."""
import codecs
import csv
import io
import re
from typing import List, NamedTuple, Optional, Tuple

from .numbers import MISSING, decimal_of
from .records import MOST_NAME_BYTES

SEPARATORS = ",;\t|"
NAMES = frozenset(["id", "name", "no", "no.", "nr", "nr.", "number", "index", "row", "case", "code", "key", "#"])
MOST_NAME = 120  # bytes of the name of a column: names of attributes have its values too
ATTRIBUTE = re.compile(r"@attribute\s+('(?:[^'\\]|\\.)*'|\"(?:[^\"\\]|\\.)*\"|\S+)", re.IGNORECASE)
ARFF_FIELD = re.compile(r"\s*('(?:[^'\\]|\\.)*'|\"(?:[^\"\\]|\\.)*\"|[^,]*)\s*(?:,|$)")


class RawTable(NamedTuple):
    """Columns of texts, of which an empty one is a missing value; each object has one in each column."""

    objects: List[str]
    columns: List[Tuple[str, List[str]]]
    separator: str
    named: str  # how the objects got their names
    remarks: List[str]


class Options(NamedTuple):
    """How a file is to be read, where that is not to be guessed."""

    separator: Optional[str]
    names: Optional[str]
    missing: List[str]


class BadTable(Exception):
    """A file that is no table, and why."""


def read_raw(data: bytes, options: Options) -> RawTable:
    text, remarks = text_of(data)
    if re.match(r"B\r?\n.*\r?\n[0-9]+\r?\n[0-9]+\r?\n", text):
        raise BadTable("this is a table of crosses already, in the Burmeister form: the commands take it as it is")
    if re.match(r"(\s*(%.*)?\n)*\s*@relation", text, re.IGNORECASE):
        header, rows = read_arff(text)
        separator = ","
    else:
        told = re.match("sep=(.)\r?\n", text)  # as spreadsheets have it
        text = text[told.end() :] if told else text
        separator = options.separator or (told[1] if told else separator_of(text))
        header, rows = read_csv(text, separator)
    remarks += tidied(header, rows)
    objects, named = take_names(header, rows, options.names)
    missing = MISSING.union(options.missing)
    columns = [(name, ["" if row[place] in missing else row[place] for row in rows]) for place, name in enumerate(header)]
    return RawTable(objects, columns, separator, named, remarks)


def text_of(data: bytes) -> Tuple[str, List[str]]:
    """The text of a file, with a remark if it is not UTF-8."""
    for mark, name in ((codecs.BOM_UTF8, "utf-8-sig"), (codecs.BOM_UTF16_LE, "utf-16"), (codecs.BOM_UTF16_BE, "utf-16")):
        if data.startswith(mark):
            return data.decode(name, "replace"), []
    try:
        return data.decode("utf-8"), []
    except UnicodeDecodeError:
        return data.decode("cp1252", "replace"), ["the file is not UTF-8, and was read as Windows-1252: look at names with accents"]


# ---- CSV


def separator_of(text: str) -> str:
    """The separator that stands most often in the first line, outside of quotes."""
    line = next((line for line in text.splitlines() if line.strip()), "")
    outside = re.sub(r'"[^"]*"', "", line)
    return max(SEPARATORS, key=outside.count)


def read_csv(text: str, separator: str) -> Tuple[List[str], List[List[str]]]:
    reader = csv.reader(io.StringIO(text, newline=""), delimiter=separator, skipinitialspace=True)
    try:
        rows = [(reader.line_num, [field.strip() for field in row]) for row in reader]
    except csv.Error as fault:
        raise BadTable("line %d: %s" % (reader.line_num, fault)) from fault
    rows = [(line, row) for line, row in rows if any(row)]
    if not rows:
        raise BadTable("there is no line with text")
    header = rows.pop(0)[1]
    if rows and all(len(row) == len(header) + 1 for _, row in rows):
        header = [""] + header  # write.table of R names no column of names
    return header, [fitted(row, len(header), line) for line, row in rows]


def fitted(row: List[str], width: int, line: int) -> List[str]:
    """The row with as many fields as there are columns: empty ones at its end may come or go."""
    if any(row[width:]):
        raise BadTable("line %d has %d fields, and line 1 %d: is a separator missing, or a quote?" % (line, len(row), width))
    return row[:width] + [""] * (width - len(row))


# ---- ARFF


def read_arff(text: str) -> Tuple[List[str], List[List[str]]]:
    names, usual, rows, in_data = [], [], [], False
    for number, line in enumerate(text.splitlines(), 1):
        line = line.strip()
        found = ATTRIBUTE.match(line)
        if not line or line.startswith("%"):
            continue
        if in_data:
            fields = sparse(line, usual) if line.startswith("{") else arff_fields(line)
            rows.append(fitted(fields, len(names), number))
        elif found:
            names.append(unquoted(found[1]))
            usual.append(first_value(line[found.end() :].strip()))
        in_data = in_data or line.lower().startswith("@data")
    if not names:
        raise BadTable("there is no @attribute")
    return names, rows


def arff_fields(line: str) -> List[str]:
    fields, at = [], 0
    while at <= len(line):
        found = ARFF_FIELD.match(line, at)
        if not found:
            raise BadTable("a quote is missing in `%s`" % line)
        fields.append(unquoted(found[1].strip()))
        if not found[0].endswith(","):
            return fields
        at = found.end()
    return fields


def first_value(kind: str) -> str:
    """What a line that leaves the attribute out says of it: of listed values the first, else 0."""
    return arff_fields(kind[1:].rstrip("}"))[0] if kind.startswith("{") else "0"


def sparse(line: str, usual: List[str]) -> List[str]:
    """The fields of a line that names those alone that are not as usual."""
    fields = list(usual)
    inside = line.strip("{} ")
    for piece in arff_fields(inside) if inside else []:
        place, _, value = piece.partition(" ")
        if not place.isdigit() or int(place) >= len(fields):
            raise BadTable("there is no attribute of the number `%s`" % place)
        fields[int(place)] = unquoted(value.strip())
    return fields


def unquoted(field: str) -> str:
    if len(field) > 1 and field[0] in "'\"" and field[-1] == field[0]:
        return re.sub(r"\\(.)", r"\1", field[1:-1])
    return field


# ---- both


def tidied(header: List[str], rows: List[List[str]]) -> List[str]:
    """Drops columns with neither a name nor a value, gives each other column a name of its own, and makes one space of several."""
    for place in range(len(header) - 1, 0, -1):
        if not header[place] and not any(row[place] for row in rows):
            for row in [header] + rows:
                del row[place]
    for row in rows:
        row[:] = [" ".join(value.split()) for value in row]
    remarks = []
    for place, name in enumerate(header):
        header[place] = new_name(name, place, header[:place])
        if header[place] != name:
            remarks.append("column %d is named `%s`" % (place + 1, header[place]))
    return remarks


def new_name(name: str, place: int, seen: List[str]) -> str:
    """A name for the column that none before it has; the first one may have none."""
    name = shortened(" ".join(name.split()), MOST_NAME) or ("column %d" % (place + 1) if place else "")
    new, number = name, 1
    while new in seen:
        number += 1
        new = "%s (%d)" % (name, number)
    return new


def shortened(text: str, most: int) -> str:
    """The text, cut to so many bytes."""
    return text.encode()[:most].decode("utf-8", "ignore")


def take_names(header: List[str], rows: List[List[str]], wanted: Optional[str]) -> Tuple[List[str], str]:
    """The names of the objects, whose column is taken out of the table, and a remark that says which these are."""
    place = names_place(header, rows, wanted)
    if place is None:
        return [str(number) for number in range(1, len(rows) + 1)], "numbered from 1"
    names = [shortened(row.pop(place), MOST_NAME_BYTES) or "object %d" % number for number, row in enumerate(rows, 1)]
    name = header.pop(place)
    return names, "named by %s" % ("column `%s`" % name if name else "the column without a name")


def names_place(header: List[str], rows: List[List[str]], wanted: Optional[str]) -> Optional[int]:
    """The column that names objects: the one that is wanted; else the first, if it has no name or looks like one of names."""
    if wanted is not None:
        if wanted and wanted not in header:
            raise BadTable("there is no column `%s`; there are %s" % (wanted, ", ".join(header)))
        return header.index(wanted) if wanted else None
    return 0 if not header[0] or are_names([row[0] for row in rows], header[0]) else None


def are_names(values: List[str], heading: str) -> bool:
    """Whether the values all differ, and are no numbers, or such as count or are headed as names."""
    if len(set(values)) < len(values) or not all(values):
        return False
    if not values or not all(decimal_of(value, comma=True) is not None for value in values):
        return True
    counts = [str(int(values[0]) + step) for step in range(len(values))] if values[0].isdigit() else []
    return values == counts or heading.casefold() in NAMES
