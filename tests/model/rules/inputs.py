"""Field inputs: words ADDRESS=VALUE."""
import re

from . import words

MOST_ADDRESS = 65535


class BadInput(Exception):
    """A word that is no input."""


class AddressTwice(BadInput):
    """An address that comes twice."""


class Inputs:
    """The values of field addresses; one that isn't listed is FALSE or 0."""

    def __init__(self, listed=()):
        self.values = {}
        read = [read_input(word) for word in listed]
        for address, value in read:
            if address in self.values:
                raise AddressTwice
            self.values[address] = value

    def get(self, space, number):
        return self.values.get((space, number), False if space == "%IX" else 0)


def parts_of(text):
    """The words of a text, parted by blanks or tabs."""
    return [word for word in re.split("[ \t]+", text) if word]


def read_input(word):
    """The address and the value of a word such as %IX0=1 or %IW2=-7."""
    address, equals, value = word.partition("=")
    space = words.fold(address[:3])
    number = words.number_of(address[3:])
    if space not in ("%IX", "%IW") or number is None or number > MOST_ADDRESS or not equals:
        raise BadInput
    return (space, number), bit_of(value) if space == "%IX" else word_of(value)


def bit_of(text):
    value = words.number_of(text)
    if value not in (0, 1):
        raise BadInput
    return value == 1


def word_of(text):
    value = words.number_of(text.removeprefix("-"))
    if value is None:
        raise BadInput
    value = -value if text.startswith("-") else value
    if not -32768 <= value <= 32767:
        raise BadInput
    return value
