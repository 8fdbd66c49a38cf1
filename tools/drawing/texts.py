"""Reading the texts that a picture is drawn of."""

import re
from pathlib import Path


class Unfit(Exception):
    """Why no picture can be drawn of the input."""


def read_text(name):
    """The text of a file, or why it cannot be had."""
    try:
        return Path(name).read_text(encoding="ascii")
    except OSError as error:
        raise Unfit(f"{name}: {error.strerror}.") from error
    except UnicodeDecodeError as error:
        raise Unfit(f"{name} is not a text in ASCII.") from error


def whole(word, name, line):
    """A whole number in a file's line."""
    try:
        return int(word)
    except ValueError as error:
        raise Unfit(f"{name}: '{line}' has no number where one belongs.") from error


def decimal(word, name, line):
    """An index in a file's line."""
    try:
        return float(word)
    except ValueError as error:
        raise Unfit(f"{name}: '{line}' has no index where one belongs.") from error


def listed(words):
    """The words as a list in a sentence."""
    *front, last = words
    return f"{', '.join(front)} and {last}" if front else last


def flight_title(flight):
    """The flight as a heading says it, from the spelling of a loadsheet's second line."""
    found = re.fullmatch(r"([A-Z0-9]{2}[0-9]{1,4}[A-Z]?)/([0-9]{2})\.([A-Z0-9]{2,10})\.([A-Z]{3})\.([A-Z]{3})", flight)
    if not found:
        raise Unfit(f"'{flight}' is no flight such as XX210/12.DAIAB.FRA.ARN, with its day, aircraft and two stations.")
    name, day, registration, origin, destination = found.groups()
    return f"{name} of day {day}, {registration}, {origin} to {destination}"
