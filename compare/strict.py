#!/usr/bin/env -S python3 -B
"""The strict switch, and the marks of what is set: compare/strict.py LIBRARY SEED COUNT.

Written from change request 8: the parts have three marks, year set 1, month set 2, day set 4. With the strict switch a
day that its month can never have is refused with 25, 29 February allowed, where month and day are set and the year is
not. It comes where the month's length is checked: after 13, 14, a fraction whose sum is too big and the ranges of month
and day, before the range of the time and the offset. Nothing else is changed by the switch, and writing and compiling
do not notice it. The text of a full template is read back under both settings, all three marks set.

Pages and cards ask, lenient and strict. Where something is damaged, the pages' lenient answer says what is due.
"""
import sys
from collections import Counter, namedtuple

from cards import CARDS, COMPILE_REFUSED, PAGES, READ_REFUSED, WRITE_REFUSED, damaged
from library import FILLER, MODES, NO_PATTERN, NODE, TEXT_BUFFER, Library, Refused, accepted, refusal
from lines import arguments, random_moment, values_due
from months import full_parts, template_of, text_of
from typed import WRONG, Piece, assembled, days, length, of_month, random_pair

Caller = namedtuple("Caller", "settings strict template typed")

STRICT = 2
YEAR, MONTH, DAY = 1, 2, 4
LONGEST = {month: 29 if month == 2 else length(1, month) for month in range(1, 13)}
NEVER = {mode: refusal(25, size) for mode, size in MODES.items()}
SECOND, OF_DAY = 1_000_000, 86400


def date_due(fields):
    """Year, month, day and marks: what is not set is the year 0, January, the first."""
    year, month, day, marks = 0, 1, 1, 0
    before_christ = fields.get("before Christ")
    if "year" in fields:
        year, marks = 1 - fields["year"] if before_christ else fields["year"], YEAR
    if "century" in fields:
        year, marks = 100 * (-fields["century"] if before_christ else fields["century"] - 1) + 1, YEAR
    if "julian" in fields:
        given = fields["julian"]
        year, month, day, marks = given.year, given.month, given.day, YEAR | MONTH | DAY
    if "day" in fields:
        day, marks = fields["day"], marks | DAY
    if "month" in fields:
        month, marks = fields["month"], marks | MONTH
    if "day of year" in fields and (month <= 1 or day <= 1):
        if year == 0 and not before_christ:
            raise Refused(14)
        by_year = in_year(year, fields["day of year"])
        month, day = by_year[0] if month <= 1 else month, by_year[1] if day <= 1 else day
        marks |= MONTH | DAY
    return year, month, day, marks


def in_year(year, day):
    """The month and its day of a day of the year; the month after December where the year is over."""
    for month in range(1, 13):
        if day <= length(year, month):
            return month, day
        day -= length(year, month)
    return 13, day


def hour_due(fields):
    if "of twelve" not in fields:
        return fields.get("hour", 0)
    hour = fields["of twelve"]
    if not 1 <= hour <= 12:
        raise Refused(13, NO_PATTERN, hour)
    return hour % 12 + 12 * fields["afternoon"]


def is_never(month, day, marks):
    """A day that its month can never have, where month and day are set and the year is not."""
    return marks == MONTH | DAY and day > LONGEST[month]


def check_date(year, month, day, marks, strict):
    if marks & MONTH and not 1 <= month <= 12 or marks & DAY and not 1 <= day <= 31:
        raise Refused(15)
    if marks == YEAR | MONTH | DAY and day > length(year, month):
        raise Refused(15)
    if strict and is_never(month, day, marks):
        raise Refused(25)


def parts_due(fields, strict):
    """All values of the parts, or the first refusal in its order."""
    hour = hour_due(fields)
    year, month, day, marks = date_due(fields)
    micros, offset = fields.get("micros", 0), fields.get("offset")
    minute, second = fields.get("minute", 0), fields.get("second", 0)
    if micros == WRONG:
        raise Refused(15)
    check_date(year, month, day, marks, strict)
    if not (0 <= hour <= 23 and 0 <= minute <= 59 and 0 <= second <= 59 and 0 <= micros <= 999_999):
        raise Refused(15)
    if offset == WRONG:
        raise Refused(16)
    zone = (0, 0) if offset is None else (1, offset)
    return year, month, day, hour, minute, second, micros, fields.get("precision", 0), *zone, marks


def due(fields, strict):
    """The answer in each mode."""
    try:
        parts = parts_due(fields, strict)
    except Refused as refused:
        return {mode: refused.answer(size) for mode, size in MODES.items()}
    year, month, day, hour, minute, second, micros, _, _, offset, _ = parts
    of_date = days(year, month, day)
    of_instant = (of_date * OF_DAY + (hour * 60 + minute) * 60 + second - offset) * SECOND + micros
    return {"parts": accepted(parts), "instant": accepted((of_instant,)), "date": accepted((of_date,))}


def same(asked, caller, found, owed):
    if found != owed:
        sys.exit(f"{asked}, {caller}: {found}, and {owed} is due")


def callers(bits):
    """The pages without settings; pages and cards with them, lenient and strict, with bits that mean nothing."""
    with_settings = [
        Caller(limits.settings | switch | bits, switch == STRICT, limits.template, limits.typed)
        for limits in (PAGES._replace(settings=0), CARDS)
        for switch in (0, STRICT)
    ]
    return [Caller(None, False, PAGES.template, PAGES.typed), *with_settings]


class Model:
    def __init__(self, library, random_):
        self.library = library
        self.random_ = random_
        self.counts = Counter()
        self.callers = callers(0)

    def compiled(self, template):
        """The nodes by the pages; another caller gets the same, or -1 over its limit."""
        size, nodes = wanted = self.library.compile(None, template)
        caller = self.random_.choice(self.callers)
        owed = wanted if len(template) <= caller.template else COMPILE_REFUSED[0]
        same(("compile", template), caller, self.library.compile(caller.settings, template), owed)
        return nodes[:size] if size >= 0 else None

    def read(self, template, typed, lenient, strict):
        """Each caller gets its answer in each mode, with the template or by its nodes, where only what is typed can be
        too long."""
        nodes = self.compiled(template) if self.random_.random() < 0.5 else None
        texts, size = ((template, typed), len(template)) if nodes is None else ((nodes, template, typed), 0)
        for mode in MODES:
            for caller in self.callers:
                found = self.library.read(caller.settings, mode, *texts)
                within = size <= caller.template and len(typed) <= caller.typed
                owed = (strict if caller.strict else lenient)[mode] if within else READ_REFUSED[mode][0]
                same((mode, template, typed, nodes), caller, found, owed)
        self.counts["pairs"] += 1
        self.counts["refused"] += strict["parts"] == NEVER["parts"]
        self.counts["accepted otherwise"] += strict != lenient and lenient["parts"][0] == 0

    def read_damaged(self, template, typed):
        """What is accepted has a date and marks. A refusal before 15 stays; at 15 and 16 the strict parts decide for
        instants and days."""
        lenient = {mode: self.library.read(None, mode, template, typed) for mode in MODES}
        number, *_, marks = lenient["parts"]
        if number == 0:
            never = is_never(*lenient["parts"][5:7], marks)
        else:
            never = number in (15, 16) and self.library.read(STRICT, "parts", template, typed) == NEVER["parts"]
        self.read(template, typed, lenient, NEVER if never else lenient)

    def write(self, template, moment, text):
        """Each caller writes the same, with the template and by its nodes, if it takes as many."""
        nodes = self.compiled(template)
        written = (*accepted((len(text),)), text + (TEXT_BUFFER - len(text)) * FILLER)
        for caller in self.callers:
            for texts, size in (((template,), len(template)), ((nodes, template), len(nodes) / NODE)):
                found = self.library.write(caller.settings, moment, 512, *texts)
                owed = written if size <= caller.template else WRITE_REFUSED[0]
                same(("write", moment, *texts), caller, found, owed)

    def write_and_read(self):
        """The text of a full template is read as its moment, the date set as a whole."""
        moment, parts = random_moment(self.random_), full_parts(self.random_)
        if self.random_.random() < 0.2:
            moment = (2024, 2, 29, *moment[3:])
        template, text = template_of(parts), text_of(parts, moment).encode()
        self.write(template, moment, text)
        answers = {mode: accepted(values_due(mode, moment)) for mode in MODES}
        self.read(template, text, answers, answers)
        self.counts["read back"] += 1

    def every_day(self):
        """Each day of each month: without a year, with one that is read as 0, with an era, and with years."""
        era = Piece("BC", "BC", {"before Christ": True})
        years = [Piece("YYYY", f"{year:04}", {"year": year}) for year in (1900, 2000, 2023, 2024)]
        for with_year in ([], [Piece("YYYY", "0000")], [era], *([year] for year in years)):
            for month in range(1, 13):
                for day in range(1, 32):
                    pieces = [*with_year, of_month(self.random_, month), Piece("DD", f"{day:02}", {"day": day})]
                    template, typed, fields = assembled(self.random_, pieces)
                    self.read(template, typed, due(fields, False), due(fields, True))

    def random_question(self):
        random_ = self.random_
        self.callers = callers(random_.choice((0, random_.getrandbits(29) << 3)))
        template, typed, fields = random_pair(random_)
        kind = random_.random()
        if kind < 0.1:
            self.write_and_read()
        elif kind < 0.2:
            self.read_damaged(template, damaged(random_, typed))
        elif kind < 0.25:
            self.read_damaged(damaged(random_, template), typed)
        else:
            self.read(template, typed, due(fields, False), due(fields, True))


def main():
    archive, random_, count = arguments("LIBRARY")
    model = Model(Library(archive), random_)
    model.every_day()
    while model.counts["pairs"] < count:
        model.random_question()
    counts = model.counts
    print(
        f"the answers that are due to {counts['pairs']} pairs: {counts['refused']} refused with 25 by the strict, "
        f"{counts['accepted otherwise']} of them accepted by the others, {counts['read back']} texts read back by all"
    )


if __name__ == "__main__":
    main()
