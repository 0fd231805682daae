"""Templates and what learners type by them, with what is read: the model of change request 8 asks for them.

Each maker gives pieces: a pattern, what is typed there, and the fields that are read by it. What is typed as 0 is not
set, and so is no field.
"""
from calendar import monthrange
from collections import ChainMap, namedtuple
from datetime import date

from lines import MONTHS

Piece = namedtuple("Piece", "pattern typed fields", defaults=({},))

ROMAN = "I II III IV V VI VII VIII IX X XI XII".split()
# the Julian day of the day before 0001-01-01
JULIAN = 1_721_425
# the days of the 400 years after which the calendar repeats itself
CYCLE = 146_097
# an offset or a fraction that is out of range
WRONG = "wrong"
LITERALS = (" ", " ", "-", "/", ", ", " - ", ".", '" ngày "', '" tháng "', '" nga\u0300y "', '" lúc: "')


def in_cycle(year):
    """How many cycles lie before a year, and the year of 1 to 400 that has the same calendar."""
    cycles, rest = divmod(year - 1, 400)
    return cycles, rest + 1


def length(year, month):
    return monthrange(in_cycle(year)[1], month)[1]


def days(year, month, day):
    """Days since 1970-01-01; a day past its month's end runs on."""
    cycles, alike = in_cycle(year)
    return date(alike, month, 1).toordinal() - date(1970, 1, 1).toordinal() + cycles * CYCLE + day - 1


def field(name, value):
    return {name: value} if value else {}


def of_month(random_, month):
    """By number, by name or in Roman numerals."""
    k = min(max(month, 1), 12) - 1
    named = field("month", k + 1)
    name = random_.choice((str.lower, str.upper, str.title))(MONTHS[k])
    numbered = Piece("MM", f"{month:02}", field("month", month))
    plain = Piece("FMMM", str(month), field("month", month))
    names = Piece("FMMonth", name, named), Piece("Mon", name[:3], named), Piece("RM", ROMAN[k], named)
    return random_.choice((numbered, numbered, numbered, plain, *names))


def of_day(random_, day):
    """Mostly by the day of the month; by its week; by the day or the week of the year, with or without an era."""
    numbered = Piece("DD", f"{day:02}", field("day", day))
    plain = Piece("FMDDth", f"{day}th", field("day", day))
    week = random_.randint(0, 6)
    of_year = random_.choice((random_.randint(0, 367), day))
    by_year = Piece("DDD", f"{of_year:03}", field("day of year", of_year))
    by_week = Piece("WW", f"{of_year % 54:02}", field("day of year", 7 * (of_year % 54) - 6 if of_year % 54 else 0))
    era = Piece("BC", "BC", {"before Christ": True})
    other = [[plain], [Piece("W", str(week), field("day", 7 * week - 6 if week else 0))]]
    other += [[by_year], [by_year, era], [numbered, by_year, era], [by_week, era]]
    return random_.choice(12 * [[numbered]] + other)


def of_year(random_):
    """Mostly none, or one that is read as 0, or an era alone; else one that is set."""
    year = random_.choice((1, *3 * (random_.randint(1, 9999),)))
    of_two = year % 100
    century = random_.randint(1, 99)
    julian = date(year, random_.randint(1, 12), random_.randint(1, 28))
    zero, era = Piece("YYYY", random_.choice(("0000", "0"))), Piece("BC", "BC", {"before Christ": True})
    whole = Piece("YYYY", f"{year:04}", field("year", year))
    unset = [zero], [Piece("Y,YYY", "0,000")], [era], [zero, era], [Piece("CC", "0")], [Piece("J", "0")]
    given = [
        [whole],
        [whole, era],
        [Piece("Y,YYY", f"{year // 1000},{year % 1000:03}", field("year", year))],
        [Piece("YY", f"{of_two:02}", field("year", of_two + (2000 if of_two < 70 else 1900)))],
        [Piece("CC", str(century), field("century", century))],
        [Piece("J", str(julian.toordinal() + JULIAN), field("julian", julian))],
    ]
    return random_.choice((*18 * [[]], *unset, *given))


def of_week(random_):
    """A date of the ISO calendar: year, week and day; without the day, Monday; by the day of the year; a year alone."""
    given = date.fromordinal(random_.randint(400, date.max.toordinal() - 400))
    year, week, weekday = given.isocalendar()
    monday = date.fromordinal(given.toordinal() - weekday + 1)
    of_year = Piece("IYYY", f"{year:04}")
    in_week = [of_year, Piece("IW", f"{week:02}")]
    return random_.choice(
        (
            [*in_week, Piece("ID", str(weekday), field("julian", given))],
            [*in_week[:1], in_week[1]._replace(fields=field("julian", monday))],
            [of_year, Piece("IDDD", f"{7 * week - 7 + weekday:03}", field("julian", given))],
            [of_year._replace(fields=field("year", year))],
        )
    )


def of_time(random_):
    """None; a time of 24 or 12 hours, or a second of the day, often out of range."""
    hour, minute, second = random_.randint(0, 24), random_.choice((0, 30, 59, 60)), random_.choice((0, 59, 60))
    at = random_.choice((0, 43200, 86399, 86400))
    twelve = random_.randint(0, 13)
    marker = random_.choice(("AM", "PM"))
    clock = Piece("HH24:MI", f"{hour:02}:{minute:02}", {"hour": hour, "minute": minute})
    of_day = {"hour": at // 3600, "minute": at // 60 % 60, "second": at % 60}
    half = Piece("HH12 AM", f"{twelve:02} {marker}", {"of twelve": twelve, "afternoon": marker == "PM"})
    return random_.choice(
        (
            *8 * [[]],
            [clock],
            [clock, Piece("SS", f"{second:02}", {"second": second})],
            [Piece("SSSSS", f"{at:05}", of_day)],
            [half],
        )
    )


def of_fraction(random_):
    """Milliseconds whose sum is too big are wrong before the date is looked at, microseconds after it."""
    micros, millis = random_.randrange(1_000_000), random_.randrange(1000)
    return random_.choice(
        (
            *9 * [[]],
            [Piece("US", f"{micros:06}", {"micros": micros})],
            [Piece("FF3", f"{millis:03}", {"micros": 1000 * millis, "precision": 3})],
            [Piece("US", "1000000", {"micros": 1_000_000})],
            [Piece("MS", "2147484", {"micros": WRONG})],
        )
    )


def of_offset(random_):
    hours, minutes, sign = random_.randint(0, 17), random_.choice((0, 30, 59, 60)), random_.choice("+-")
    east = int(f"{sign}1") * (3600 * hours + 60 * minutes) if hours < 16 and minutes < 60 else WRONG
    whole = int(f"{sign}1") * 3600 * hours if hours < 16 else WRONG
    text = f"{sign}{hours:02}"
    return random_.choice(
        (
            *8 * [[]],
            [Piece("TZH", text, {"offset": whole})],
            [Piece("TZH:TZM", f"{text}:{minutes:02}", {"offset": east})],
            [Piece("OF", f"{text}:{minutes:02}", {"offset": east})],
        )
    )


def of_date(random_):
    """Mostly a month and a day; now and then one of them, none, or a date of the ISO calendar."""
    kind = random_.random()
    if kind < 0.06:
        return of_week(random_)
    month = random_.choice((random_.randint(0, 13), random_.choice((2, 2, 4, 6, 9, 11))))
    day = random_.choice((random_.randint(0, 32), random_.randint(28, 32), 30, 31))
    by_month = [] if kind < 0.1 else [of_month(random_, month)]
    by_day = [] if 0.08 < kind < 0.14 else of_day(random_, day)
    by_year = of_year(random_)
    # an era is there once
    if sum(piece.pattern == "BC" for piece in by_day + by_year) == 2:
        by_year = by_year[:-1]
    return by_month + by_day + by_year


def assembled(random_, pieces):
    """A template, what is typed, and the fields. Now and then the last literal is longer than the cards take."""
    literals = [random_.choice(LITERALS) for _ in pieces]
    if pieces and random_.random() < 0.08:
        literals[-1] = '"' + " " * random_.choice((30, 60, 90)) + '"'
    template = "".join(piece.pattern + literal for piece, literal in zip(pieces, literals))
    typed = "".join(piece.typed + literal.replace('"', "") for piece, literal in zip(pieces, literals))
    return template.encode(), typed.encode(), dict(ChainMap(*(piece.fields for piece in pieces)))


def random_pair(random_):
    pieces = of_date(random_) + of_time(random_) + of_fraction(random_) + of_offset(random_)
    random_.shuffle(pieces)
    return assembled(random_, pieces)
