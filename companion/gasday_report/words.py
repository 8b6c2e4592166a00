"""Prices and quantities in words."""

from collections.abc import Iterable

from certificate import CLASSES, TENTHS, Words

CYCLES = {1: "Timely", 2: "Evening", 3: "Intraday 1", 4: "Intraday 2", 5: "Intraday 3"}

REASON_NOTES = (
    "'Nominated' is what the shipper asked for, 'confirmed' what the operators of both ends let pass; no line gets more than"
    " was confirmed.",
    "A reason says what one dekatherm more for the line would displace, and names one place where that is so; there may be"
    " others.",
    "It is exact where the question was solved again with that dekatherm. 'Class N or higher' is a bound from the prices: class"
    " N, a class with a smaller number, or no schedule at all.",
)
ARITHMETIC_NOTES = (
    "A price is a shadow price and no money: it counts, class by class, the dekatherms that one more dekatherm there"
    " would displace.",
    "Within a class the tenths decide: each line's ceiling is cut into ten equal parts, and a dekatherm in an earlier"
    " tenth goes before one in a later tenth of any other line of the class.",
)
CUT_NOTE = (
    "A cut (Hoffman's) proves that no schedule at all keeps the floors, ceilings, capacities and pool balances of this"
    " question. It is not a reduction of anybody's gas, and it says nothing about whose floor should give way."
)


def listed(words: Iterable[str], joint: str = "and") -> str:
    """Words in a row: a, b and c."""
    words = list(words)
    return f" {joint} ".join([", ".join(words[:-1]), words[-1]]) if len(words) > 1 else "".join(words)


def grouped(number: int) -> str:
    """A number with its digits in threes."""
    return f"{number:,}"


def counted(count: int, one: str) -> str:
    return f"{count:,} {one if count == 1 else one + 's'}"


def gas_of(class_number: int, word: int, spread: int) -> str:
    """Gas of a class by its word of a price, with its tenth where the spread's word is one dekatherm's."""
    tenth = f" of tenth {-spread}" if word == 1 and -TENTHS <= spread <= -1 else ""
    amount = f"{word:,} dekatherms of " if word > 1 else ""
    return f"{amount}class {class_number} gas{tenth}"


def displaced(amount: Words) -> str:
    """What a dekatherm that pays so much would displace, and what it would let in."""
    words, spreads = amount[:CLASSES], amount[CLASSES:]
    out = [gas_of(c, word, spreads[c - 1]) for c, word in enumerate(words, 1) if word > 0]
    back = [gas_of(c, -word, -spreads[c - 1]) for c, word in enumerate(words, 1) if word < 0]
    if not out and not back:
        first = next(c for c, word in enumerate(spreads, 1) if word)
        return f"class {first} gas would be spread {'less' if spreads[first - 1] > 0 else 'more'} evenly"
    parts = [f"{listed(out)} would be displaced"] if out else []
    parts += [f"{listed(back)} would be let in"] if back else []
    return " and ".join(parts)


def price_in_words(price: Words) -> str:
    """A price as it stands, class by class."""
    parts = []
    for c in range(1, CLASSES + 1):
        word, spread = price[c - 1], price[CLASSES + c - 1]
        if word or spread:
            parts.append(f"class {c}: {word}" + (f" and {spread} in the spread" if spread else ""))
    return "; ".join(parts)


def exact_words(short: int, exact: int) -> str:
    """Of how many lines that are short the reasons are exact."""
    others = "" if exact == short else "; the others are bounds" if exact else "; all are bounds"
    return f"Exact reasons: {exact:,} of {counted(short, 'line')} with less than confirmed{others}."
