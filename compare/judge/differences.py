"""What PostgreSQL 15 is known to answer otherwise: each reason, with a rule that holds only where the reason does."""

import re

from judge.answers import WRITTEN_ONLY, Accepted, Refused, micros

MODE_GREGORIAN = 1
# 4714-11-24 BC and the year 294277
FIRST, END = micros(-4713, 11, 24), micros(294277, 1, 1)


def outside(*sums):
    """Whether one of them needs more than 32 bits."""
    return any(not -(2**31) <= value < 2**31 for value in sums)


def wrapped(number):
    """As sscanf stores it: cut to the ends of 64 bits, then to the lowest 32."""
    clipped = max(-(2**63), min(2**63 - 1, number))
    return (clipped + 2**31) % 2**32 - 2**31


def refused(answer, number):
    return isinstance(answer, Refused) and answer.number == number


def written_only(pair, ours, theirs, fields):
    return refused(theirs, WRITTEN_ONLY) and theirs.pattern in ("OF", "of", "TZ", "tz")


def range_of_timestamps(pair, ours, theirs, fields):
    return refused(theirs, 17) and isinstance(ours, Accepted) and not FIRST <= ours.exact < END


def year_with_comma(pair, ours, theirs, fields):
    numbers = re.findall(rb"(?=([+-]?[0-9]+),\s*([+-][0-9]{1,2}|[0-9]{1,3}))", pair.input)
    sums = [(wrapped(int(millennia)) * 1000, int(years)) for millennia, years in numbers]
    return refused(ours, 11) and any(outside(m, m + y) for m, y in sums)


def century(pair, ours, theirs, fields):
    """The sums by which a century and its year make a year."""
    cc = -fields.cc if fields.bc else fields.cc
    year = abs(fields.year) % 100 * (1 if fields.year > 0 else -1)
    if cc == 0 or fields.year != 0 and (fields.yysz > 2 or year == 0):
        return False
    if fields.year == 0:
        begun = (cc - 1) * 100 if cc > 0 else cc * 100
        sums = [begun, begun + 1]
    elif cc > 0:
        begun = (cc - 1) * 100
        sums = [begun, begun + year]
    else:
        begun = (cc + 1) * 100
        sums = [begun, begun - year, begun - year + 1]
    return refused(ours, 15) and outside(*sums)


def week(number):
    """The day on which a week begins, counted from the first."""
    return [number - 1, (number - 1) * 7, (number - 1) * 7 + 1] if number else []


def week_of_year(pair, ours, theirs, fields):
    return refused(ours, 15) and fields.mode == MODE_GREGORIAN and outside(*week(fields.ww))


def week_of_month(pair, ours, theirs, fields):
    return refused(ours, 15) and outside(*week(fields.w))


def milliseconds(pair, ours, theirs, fields):
    return refused(ours, 15) and outside(fields.ms * 1000)


KNOWN = [
    ("OF, TZ and tz are read only since PostgreSQL 17", written_only),
    ("a timestamp lies in 4714-11-24 BC to 294276-12-31; the parts have no such range", range_of_timestamps),
    ("Y,YYY: PostgreSQL 15 lets the year's sum wrap", year_with_comma),
    ("CC: PostgreSQL 15 lets the year's sum wrap", century),
    ("WW: PostgreSQL 15 lets the day's sum wrap", week_of_year),
    ("W: PostgreSQL 15 lets the day's sum wrap", week_of_month),
    ("MS: PostgreSQL 15 lets the microseconds wrap", milliseconds),
]


def reason(pair, ours, theirs, fields):
    """Why the answers differ, if it is known."""
    return next((words for words, holds in KNOWN if holds(pair, ours, theirs, fields)), None)
