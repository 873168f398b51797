"""Numbers as people, spreadsheets and R write them."""
import decimal
import re
from typing import Iterable, Optional

# What stands for a value that is missing, beside an empty field.
MISSING = frozenset(["NA", "N/A", "#N/A", "<NA>", "NaN", "nan", "?", "NULL", "null"])
DECIMAL = re.compile(r"[-+]?([0-9]+(\.[0-9]*)?|\.[0-9]+)([eE][-+]?[0-9]{1,3})?")
GROUPED = re.compile(r"[-+]?[0-9]{1,3}([ ,'\u00a0\u202f][0-9]{3})+(\.[0-9]+)?")
MOST_PLACES = 6  # after the point; what has more is rounded


def decimal_of(text: str, comma: bool = False) -> Optional[decimal.Decimal]:
    """The number that a text is, with a point or, if `comma` is set, a comma before its decimals."""
    text = text.strip().replace("\u2212", "-")
    if comma and "." not in text:
        text = text.replace(",", ".", 1)
    return decimal.Decimal(text) if DECIMAL.fullmatch(text) else None


def have_decimal_comma(texts: Iterable[str]) -> bool:
    """Whether the texts are numbers with a comma before their decimals, and cannot be meant otherwise."""
    with_comma = [text for text in texts if "," in text]
    plain = all(decimal_of(text, comma=True) is not None for text in texts) and not any("." in text for text in texts)
    return plain and any(not GROUPED.fullmatch(text) for text in with_comma)


def ungrouped(text: str) -> Optional[decimal.Decimal]:
    """The number whose thousands are parted, as in 1,234.5 or 1 234."""
    text = text.strip().replace("\u2212", "-")
    return decimal_of(re.sub("[ ,'\u00a0\u202f]", "", text)) if GROUPED.fullmatch(text) else None


def places_of(number: decimal.Decimal) -> int:
    """How many decimals the number needs: 2 for 1.250."""
    return max(0, -number.normalize().as_tuple().exponent)


def places_for(numbers: Iterable[decimal.Decimal]) -> int:
    """How many decimals all of the numbers need, at most MOST_PLACES."""
    return min(MOST_PLACES, max((places_of(number) for number in numbers), default=0))


def whole(number: decimal.Decimal, places: int) -> int:
    """The number times 10 to the power of `places`, rounded if it has more decimals than that."""
    return int(number.scaleb(places).to_integral_value(decimal.ROUND_HALF_EVEN))
