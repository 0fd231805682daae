"""Answers made comparable: the instant that parts stand for, the refusal that a message of the server stands for."""

import re
from dataclasses import dataclass

LENGTHS = (31, 28, 31, 30, 31, 30, 31, 31, 30, 31, 30, 31)
SECOND = 1_000_000


def days_before_year(year):
    """The days from 0001-01-01 to the first day of a year of the Gregorian calendar, carried on to both sides."""
    past = year - 1
    return past * 365 + past // 4 - past // 100 + past // 400


def day_number(year, month, day):
    """The days from 0001-01-01; a day past its month's end runs on."""
    leap = days_before_year(year + 1) - days_before_year(year) == 366
    before = sum(LENGTHS[: month - 1]) + (leap and month > 2)
    return days_before_year(year) + before + day - 1


def micros(year, month, day, seconds=0):
    """Microseconds since 1970-01-01."""
    return ((day_number(year, month, day) - day_number(1970, 1, 1)) * 86_400 + seconds) * SECOND


MIDDLE = micros(2000, 1, 1)


def rounded(instant, precision):
    """To the digits of a second that FF1 to FF5 ask for, halves away from 2000-01-01; 0 and 6 leave it as it is."""
    if precision in (0, 6):
        return instant
    unit = 10 ** (6 - precision)
    nearest = (abs(instant - MIDDLE) + unit // 2) // unit * unit
    return MIDDLE + (nearest if instant >= MIDDLE else -nearest)


@dataclass
class Accepted:
    instant: int
    # before it is rounded; the server does not tell
    exact: int | None = None

    def agrees(self, other):
        return isinstance(other, Accepted) and self.instant == other.instant

    def __str__(self):
        return f"accepted, {self.instant} microseconds"


@dataclass
class Refused:
    number: int | str
    # `-` for none; the server does not always tell
    pattern: str | None = "-"
    figures: tuple[int, int] = (0, 0)

    def agrees(self, other):
        return (
            isinstance(other, Refused)
            and (self.number, self.figures) == (other.number, other.figures)
            and other.pattern in (self.pattern, None)
        )

    def __str__(self):
        first, second = self.figures
        return f"refused, {self.number} {self.pattern} {first} {second}"


def ours(line):
    """The answer that a line of the program gives; of the marks the server knows nothing."""
    refused = re.fullmatch(rb"([1-9][0-9]*) (\S+) (-?[0-9]+) (-?[0-9]+)", line)
    if refused:
        number, pattern, *figures = refused.groups()
        return Refused(int(number), pattern.decode(errors="replace"), tuple(map(int, figures)))
    accepted = re.fullmatch(rb"0" + rb" (-?[0-9]+)" * 8 + rb" (none|-?[0-9]+) [0-7]", line)
    if not accepted:
        return Refused(f"by no answer: {line}")
    *numbers, offset = accepted.groups()
    year, month, day, hour, minute, second, fraction, precision = map(int, numbers)
    east = 0 if offset == b"none" else int(offset)
    exact = micros(year, month, day, (hour * 60 + minute) * 60 + second - east) + fraction
    return Accepted(rounded(exact, precision), exact)


WRITTEN_ONLY = "only written:"

NAMED = r'"(?P<pattern>[^"]*)"'
WIDTH = r"Field requires (?P<first>\d+) characters, but only (?P<second>\d+)"

# The refusal's number, the SQLSTATE, the message, the detail. Groups are the pattern and the figures.
MESSAGES = [
    (3, "22007", r"invalid combination of date conventions", ""),
    (4, "22007", rf"conflicting values for {NAMED} field in formatting string", r"This value contradicts .*"),
    (5, "22007", rf"source string too short for {NAMED} formatting field", rf"{WIDTH} remain\."),
    (6, "22007", rf'invalid value ".*" for {NAMED}', rf"{WIDTH} could be parsed\."),
    (7, "22007", rf'invalid value ".*" for {NAMED}', r"Value must be an integer\."),
    (8, "22008", rf"value for {NAMED} in source string is out of range", r"Value must be in the range .*"),
    (9, "22007", rf'invalid value ".*" for {NAMED}', r"The given value did not match any .*"),
    (10, "22007", r'invalid input string for "Y,YYY"', ""),
    (13, "22007", r'hour "(?P<first>-?\d+)" is invalid for the 12-hour clock', ""),
    (14, "22007", r"cannot calculate day of year without year information", ""),
    (15, "22008", r"date/time field value out of range: .*", ""),
    (16, "22009", r"time zone displacement out of range: .*", ""),
    (17, "22008", r"timestamp out of range", ""),
    (WRITTEN_ONLY, "0A000", rf"formatting field {NAMED} is only supported in to_char", ""),
]
# At a pattern that the message does not name.
UNNAMED = (3, 10)


def theirs(line):
    """The answer that a line of the server gives."""
    state, *texts = line.decode().split(" ")
    if state == "0":
        return Accepted(int(texts[0]))
    # a message may hold a part of a character
    message, detail = (bytes.fromhex(text).decode(errors="replace") for text in texts)
    for number, known_state, of_message, of_detail in MESSAGES:
        told = re.fullmatch(of_message, message, re.DOTALL)
        more = re.fullmatch(of_detail, detail, re.DOTALL)
        if told and more and state == known_state:
            groups = told.groupdict() | more.groupdict()
            pattern = groups.get("pattern", None if number in UNNAMED else "-")
            return Refused(number, pattern, (int(groups.get("first", 0)), int(groups.get("second", 0))))
    return Refused(f"by an unknown error: {state} {message} {detail}")
