"""The lines of a schedule as events."""
from dataclasses import dataclass

from . import words
from .inputs import BadInput, Inputs, parts_of
from .refusal import Refusal

MOST_U32, MOST_U64 = 2**32 - 1, 2**64 - 1


@dataclass
class Evaluate:
    resource: str
    task: str
    elapsed: int
    inputs: Inputs


@dataclass
class Deliver:
    message: int
    resource: str


@dataclass
class Restart:
    resource: str


@dataclass
class Hear:
    resource: str
    of: str
    incarnation: int


@dataclass
class Expect:
    """The words of an EXPECT line, which is no event."""

    listed: list


class NoExpectation(Exception):
    """A word that names no output, or has no value of its kind."""


def events_of(lines):
    """The events one after the other; the first line that is none, nor blank nor a comment, is refused when it is met."""
    for number, event in steps_of(lines):
        if event is None or isinstance(event, Expect):
            raise Refusal("Syntax", number)
        yield event


def steps_of(lines):
    """The number of each line but blank ones and comments, and its event or what it expects; None where it is neither."""
    for number, line in enumerate(lines, 1):
        parts = parts_of(line)
        if parts and not parts[0].startswith("#"):
            yield number, expected_of(parts) if words.fold(parts[0]) == "EXPECT" else event_of(parts)


def expected_of(parts):
    return Expect(parts[1:]) if len(parts) > 1 else None


def event_of(parts):
    """The event that the words of a line spell; else None."""
    keyword, rest = words.fold(parts[0]), parts[1:]
    if keyword == "EVAL" and len(rest) >= 2:
        return evaluation_of(rest[0], number_up_to(rest[1], MOST_U32), rest[2:])
    if keyword == "DELIVER" and len(rest) == 2 and words.is_plain_name(rest[1]):
        message = number_up_to(rest[0], MOST_U64)
        return None if message is None else Deliver(message, rest[1])
    if keyword == "RESTART" and len(rest) == 1 and words.is_plain_name(rest[0]):
        return Restart(rest[0])
    if keyword == "HEAR" and len(rest) == 3 and words.is_plain_name(rest[0]) and words.is_plain_name(rest[1]):
        incarnation = number_up_to(rest[2], MOST_U32)
        return None if incarnation is None else Hear(rest[0], rest[1], incarnation)
    return None


def evaluation_of(task, elapsed, listed):
    resource, dot, name = task.partition(".")
    if elapsed is None or not dot or not words.is_plain_name(resource) or not words.is_plain_name(name):
        return None
    try:
        return Evaluate(resource, name, elapsed, Inputs(listed))
    except BadInput:
        return None


def number_up_to(word, most):
    value = words.number_of(word)
    return value if value is not None and value <= most else None
