"""The words of a test: NAME=VALUES, what a variable is before each scan, and NAME==VALUES, what it is to be after it."""
from . import words
from .inputs import BadInput, word_of

MOST_DIGITS, MOST_COUNT, MOST_VALUES = 1000, 1_000_000, 1_000_000


class BadWord(Exception):
    """A word that is refused."""


def tests_of(given, variables):
    """The values of each variable that a word sets, and of each of which a word expects them, by folded names."""
    kinds = {words.fold(it.name): it.kind for it in variables}
    values, expected = {}, {}
    for word in given:
        name, _, text = word.partition("=")
        name, of_word = words.fold(name), expected if text.startswith("=") else values
        if name not in kinds or name in of_word:
            raise BadWord
        of_word[name] = values_of(kinds[name], text.removeprefix("="))
    return values, expected


def values_of(kind, text):
    """The values of a list of items parted by commas, one for each scan."""
    values = []
    for item in text.split(","):
        first, count = values_of_item(kind, item)
        if len(values) + count * len(first) > MOST_VALUES:
            raise BadWord
        values += first * count
    return values


def values_of_item(kind, item):
    """The values of V or of V*COUNT, and how often they come."""
    value, star, count = item.partition("*")
    count = words.digits_of(count, MOST_COUNT) if star else 1
    if not count:
        raise BadWord
    return READERS[kind](value), count


def bits_of(text):
    """A digit is the value for one scan."""
    if not text or text.strip("01") or len(text) > MOST_DIGITS:
        raise BadWord
    return [digit == "1" for digit in text]


def numbers_of(text):
    try:
        return [word_of(text)]
    except BadInput:
        raise BadWord from None


def durations_of(text):
    value = words.duration_of(text)
    if value is None or value > words.LARGEST_DURATION:
        raise BadWord
    return [words.Duration(value)]


READERS = {"BOOL": bits_of, "INT": numbers_of, "TIME": durations_of}
