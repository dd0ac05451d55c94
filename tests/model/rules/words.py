"""What a word is: identifier, reserved word, name, number, duration."""
import re
import string
import sys

# A number may have any number of digits.
sys.set_int_max_str_digits(0)

BLOCK_TYPES = ("SR", "RS", "CTU", "CTD", "CTUD", "TP", "TON", "TOF")
KINDS = ("BOOL", "INT", "TIME")
RESERVED = frozenset(
    (*BLOCK_TYPES, *KINDS)
    + tuple(
        "TRUE FALSE PROGRAM END_PROGRAM VAR VAR_INPUT VAR_OUTPUT END_VAR RETAIN CONFIGURATION END_CONFIGURATION"
        " RESOURCE END_RESOURCE ON TASK WITH INTERVAL PRIORITY".split()
    )
)
LARGEST_NUMBER, LARGEST_DURATION = 32767, 2147483647

CAPITALS = str.maketrans(string.ascii_lowercase, string.ascii_uppercase)
IDENTIFIER = re.compile(r"(?![0-9])_?[A-Za-z0-9]+(?:_[A-Za-z0-9]+)*")
NUMBER = r"[0-9]+(?:_[0-9]+)*"
PART = rf"({NUMBER})(ms|[dhms])"
DURATION = re.compile(rf"(?:T|TIME)#{PART}(?:_?{PART})*", re.IGNORECASE | re.ASCII)
# The units in falling order, each in milliseconds.
UNITS = {"d": 86_400_000, "h": 3_600_000, "m": 60_000, "s": 1_000, "ms": 1}


def fold(word):
    """A word without regard to case, which only letters of ASCII have."""
    return word.translate(CAPITALS)


def is_identifier(word):
    return IDENTIFIER.fullmatch(word) is not None


def is_reserved(word):
    return fold(word) in RESERVED


def is_plain_name(word):
    """Whether a word can be the name of one thing: an identifier that isn't reserved."""
    return is_identifier(word) and not is_reserved(word)


def is_name(word):
    """A plain name, or two of them joined by a dot."""
    return word.count(".") < 2 and all(is_plain_name(part) for part in word.split("."))


def number_of(word):
    """The value of a number; None for any other word."""
    return int(word.replace("_", "")) if re.fullmatch(NUMBER, word) else None


def digits_of(word, most):
    """The value of a row of digits alone, up to `most`; None for any other word."""
    return int(word) if re.fullmatch("[0-9]+", word) and int(word) <= most else None


def duration_of(word):
    """The milliseconds of a duration; None for any other word."""
    if not DURATION.fullmatch(word):
        return None
    parts = re.findall(PART, word.partition("#")[2], re.IGNORECASE)
    units = [unit.lower() for _, unit in parts]
    order = list(UNITS)
    places = [order.index(unit) for unit in units]
    if any(later <= earlier for earlier, later in zip(places, places[1:])):
        return None
    return sum(number_of(number) * UNITS[unit] for (number, _), unit in zip(parts, units))


def is_literal(word):
    return number_of(word) is not None or duration_of(word) is not None


def shown(value):
    """A value as the program writes it: 0 or 1, a decimal number, a duration in milliseconds."""
    if isinstance(value, Duration):
        return f"T#{int(value)}ms"
    return str(int(value))


class Duration(int):
    """A value of the kind TIME, in milliseconds."""


def first_value(kind):
    return {"BOOL": False, "INT": 0, "TIME": Duration(0)}[kind]
