"""A table of values, and a plan to be edited, from a raw table."""
import decimal
from typing import Dict, Iterator, List, NamedTuple, Optional

from .numbers import decimal_of, have_decimal_comma, places_for, places_of, whole
from .raw import MOST_NAME, BadTable, RawTable
from .records import LARGEST_NUMBER, LEAST_NUMBER, MOST_ATTRIBUTES, MOST_NAME_BYTES, MOST_OBJECTS

YES_NO = {"true": "false", "t": "f", "yes": "no", "y": "n", "ja": "nein", "oui": "non", "sí": "no", "si": "no"}
FEW_VALUES = 6  # numbers with as many values or fewer get a cross for each, if most values repeat
MOST_TEXTS = 26  # texts with more values are left out of the plan
MOST_VALUE = MOST_NAME_BYTES - MOST_NAME - len("1000000*") - len(" >= ")  # bytes
SEMICOLONS = ", with `;` for `,`"  # names with commas cannot be given to `follows`


class Column(NamedTuple):
    """A column of the table of values: its name, its values, its record in the plan (none, if it is left out), and what is said of it."""

    name: str
    values: List[str]
    scale: List[str]
    remark: str

    def crosses(self) -> int:
        return len(self.scale[1:]) * (2 if self.scale[0] == "interordinal" else 1) if self.scale else 0


def columns_of(table: RawTable, cuts: int) -> List[Column]:
    columns = [column_of(name, values, table.separator == ";", cuts) for name, values in table.columns]
    return list(within_limit(columns))


def column_of(name: str, values: List[str], comma: bool, cuts: int) -> Column:
    texts = sorted(set(values) - {""})
    numbers = {text: decimal_of(text, comma or have_decimal_comma(texts)) for text in texts}
    if not texts:
        column = Column(name, values, [], "left out of the plan, no value")
    elif any(len(text.encode()) > MOST_VALUE for text in texts):
        column = Column(name, [""] * len(values), [], "left out, values of more than %d bytes" % MOST_VALUE)
    elif None in numbers.values():
        column = text_column(name, values, texts)
        column = column._replace(remark=column.remark + stray_remark(numbers))
    else:
        column = number_column(name, values, numbers, cuts)
    if "," not in name:
        return column
    remark = column.remark if SEMICOLONS in column.remark else column.remark + SEMICOLONS
    return column._replace(name=column.name.replace(",", ";"), remark=remark)


def stray_remark(numbers: Dict[str, Optional[decimal.Decimal]]) -> str:
    """What is said of a column with more numbers than other texts."""
    others = [text for text, number in numbers.items() if number is None]
    if 2 * len(others) >= len(numbers):
        return ""
    stray = next((text for text in others if decimal_of(text, comma=True) is None), others[0])
    return "; most are numbers and `%s` is none: correct it, or say it by --missing if it stands for no value" % stray


def text_column(name: str, values: List[str], texts: List[str]) -> Column:
    yes = yes_of(texts)
    if yes is not None:
        return Column(name, values, ["nominal", yes], "yes or no")
    if len(texts) > MOST_TEXTS:
        return Column(name, values, [], "left out of the plan, %d texts as `%s`" % (len(texts), texts[0]))
    written = {text: text.replace(",", ";") for text in texts}
    remark = "nominal, %s" % of("text", len(texts))
    if len(set(written.values())) == len(texts) and texts != list(written.values()):
        values, texts, remark = [written.get(value, "") for value in values], list(written.values()), remark + SEMICOLONS
    return Column(name, values, ["nominal", *texts], remark)


def of(word: str, count: int) -> str:
    return "%d %s" % (count, word if count == 1 else word + "s")


def yes_of(texts: List[str]) -> Optional[str]:
    """The text that says yes, if there are none beside yes and no."""
    folded = {text.casefold(): text for text in texts}
    for yes, no in YES_NO.items():
        if yes in folded and len(texts) == len(folded) and folded.keys() <= {yes, no}:
            return folded[yes]
    return None


def number_column(name: str, values: List[str], numbers: Dict[str, decimal.Decimal], cuts: int) -> Column:
    places = places_for(numbers.values())
    rounded = any(places_of(number) > places for number in numbers.values())
    whole_numbers = {text: whole(number, places) for text, number in numbers.items()}
    if not all(LEAST_NUMBER <= number <= LARGEST_NUMBER for number in whole_numbers.values()):
        return text_column(name, values, sorted(numbers))
    if places:
        name = "%d*%s" % (10 ** places, name)
    values = [str(whole_numbers[value]) if value else "" for value in values]
    remark = ", rounded to %d decimals" % places if rounded else ""
    present = sorted(int(value) for value in values if value)
    distinct = sorted(set(present))
    if len(distinct) < 3 or len(distinct) <= min(FEW_VALUES, len(present) // 2):
        return Column(name, values, ["nominal", *map(str, distinct)], "nominal, %s%s" % (of("number", len(distinct)), remark))
    scale = cuts_of(present, cuts)
    return Column(name, values, ["interordinal", *map(str, scale)], "interordinal, from %d to %d%s" % (distinct[0], distinct[-1], remark))


def cuts_of(numbers: List[int], cuts: int) -> List[int]:
    """Quantiles of sorted numbers, without the least and the largest number; of the different ones, if no other is left."""
    inner = {numbers[len(numbers) * part // (cuts + 1)] for part in range(1, cuts + 1)} - {numbers[0], numbers[-1]}
    return sorted(inner) or cuts_of(sorted(set(numbers)), cuts)


def within_limit(columns: List[Column]) -> Iterator[Column]:
    """The columns, of which those are left out of the plan that would make too many attributes."""
    made = 0
    for column in columns:
        if made + column.crosses() > MOST_ATTRIBUTES:
            column = column._replace(scale=[], remark="left out of the plan, more than %d attributes" % MOST_ATTRIBUTES)
        made += column.crosses()
        yield column


def counted(table: RawTable, name: str) -> RawTable:
    """The table in which each object stands as often as this column says, without that column."""
    found = [values for column, values in table.columns if column == name]
    if not found:
        raise BadTable("there is no column `%s`" % name)
    counts = [count_of(value, name) for value in found[0]]
    if sum(counts) > MOST_OBJECTS:
        raise BadTable("there would be %d objects, and a table has at most %d" % (sum(counts), MOST_OBJECTS))
    columns = [(column, repeated(values, counts)) for column, values in table.columns if column != name]
    objects = [str(number) for number in range(1, sum(counts) + 1)]
    return table._replace(objects=objects, columns=columns, named="numbered from 1, and each line counts as `%s` says" % name)


def count_of(value: str, name: str) -> int:
    if not (value.isdigit() and value.isascii()):
        raise BadTable("`%s` has `%s`, which is no count" % (name, value))
    return int(value)


def repeated(values: List[str], counts: List[int]) -> List[str]:
    return [value for value, count in zip(values, counts) for _ in range(count)]


def values_rows(table: RawTable, columns: List[Column]) -> Iterator[List[str]]:
    yield ["object"] + [column.name for column in columns]
    for place, name in enumerate(table.objects):
        yield [name] + [column.values[place] for column in columns]


def has_crosses_alone(table: RawTable) -> bool:
    """Whether the program reads the table as one of crosses."""
    cells = {value for _, values in table.columns for value in values}
    return table.separator == "," and cells <= {"X", "x", "1", "", ".", "0"}


def plan_rows(columns: List[Column]) -> List[List[str]]:
    return [[column.scale[0], column.name, *column.scale[1:]] for column in columns if column.scale]


def chosen(table: RawTable, names: List[str]) -> RawTable:
    """The table with these columns alone."""
    there = dict(table.columns)
    for name in names:
        if name not in there:
            raise BadTable("there is no column `%s`; there are %s" % (name, ", ".join(there)))
    return table._replace(columns=[(name, there[name]) for name in names])


def within_table(table: RawTable) -> RawTable:
    """The table, if it is not too large."""
    if len(table.objects) > MOST_OBJECTS:
        raise BadTable("there are %d objects, and a table has at most %d" % (len(table.objects), MOST_OBJECTS))
    if len(table.columns) > MOST_ATTRIBUTES:
        raise BadTable("there are %d columns, and a table has at most %d: choose some by --only" % (len(table.columns), MOST_ATTRIBUTES))
    return table
