#!/usr/bin/env -S python3 -B
"""Months by name, written and read back by the line program: compare/months.py PROGRAM SEED COUNT.

Written from change request 6: FMMonth, FMmonth and FMMONTH, also with fm, write the English name of the month, Mon, mon
and MON its first three letters, in the pattern's case. A full template may have one of them in place of MM. It is read
back to the moment that it was written from, whatever digits and literals are beside the name. A full name without FM is
refused, and so is FM with any other pattern, and any other prefix or suffix. Many of the lines are spoilt, some of them
twice, so that the order of the refusals shows.
"""
from collections import namedtuple
from datetime import datetime

from lines import DATES, MONTHS, Question, digits, is_utf8, line, no_moment, random_moment, written_and_read
from markers import MARKERS, marker

# a template is a list of patterns and of literals, which are texts as the template has them
Pattern = namedtuple("Pattern", "prefix name suffix")

FULL_NAMES = ("Month", "month", "MONTH")
SHORT_NAMES = ("Mon", "mon", "MON")
OF_MONTHS = (*FULL_NAMES, *SHORT_NAMES, "MM")
TIMES = (("HH24", "MI", "SS"), ("HH12", "MI", "SS", "AM"), ("HH", "MI", "SS", "AM"), ("SSSSS",))
GROUPS = [sorted((*of_date, *of_time, "US")) for of_date in DATES for of_time in TIMES]
ALL = (*OF_MONTHS, *sorted({name for group in GROUPS for name in group}))
PREFIXES = ("", "FM", "fm", "TM", "tm")
SUFFIXES = ("", "", "TH", "th", "SP")
TEMPLATE_LIMIT, TEXT_LIMIT = 256, 512


def unquoted(*literals):
    """Each literal with what it writes: the same without quotes."""
    return {literal: literal.replace('"', "") for literal in literals}


# Literals with what they write. Outside quotes none of their letters makes a pattern or suffix with what is beside it.
LITERALS = unquoted(" ", "  ", "-", ":", ", ", "/", ".", "+", "-1", "7", "30", "0 ", '"5"', '"12"', '"-"', '" "', '""')
LITERALS |= unquoted('"ch"', '"s"', '"e"', '"y"', '"uary"', '"tember"', '"ust"', '"th"', '"TH"', '"May"', '"Mon"')
LITERALS |= unquoted("x", "s ", "'s ", "t ", "T ", "ch ", "ber ", "onth ", '"tháng "', '"năm"', "ứ", "\u0301", "年", "½")
# a quote by itself and a quote in quotes; a prefix before a literal is dropped
LITERALS |= {'\\"': '"', '"a\\"b"': 'a"b', "FM-": "-", "fm ": " ", 'FM""': "", 'TM"Month"': "Month"}
# in place of a name: nothing, or what is nearly one
NEARLY = unquoted("", "MOnth ", "MoN ", "mOn ", "moN ", "mON ", "mONTH ", '"FMMonth"', '"Month"', '"mon"')
NEARLY |= {"FMMOn ": "MOn ", "fmmOnth ": "mOnth "}
TEXTS = LITERALS | NEARLY
SEPARATORS = (" ", "-", "/", '" "', '"tháng "')
# bytes that are no character, and half of one
NO_UTF8 = ("\udcff", "\udc80", "\udcc3 ")


def month_name(pattern, month):
    """What the pattern of a name writes: the whole name or three letters, in the pattern's case."""
    name = MONTHS[month - 1] if pattern in FULL_NAMES else MONTHS[month - 1][:3]
    if pattern.isupper():
        return name.upper()
    return name.lower() if pattern.islower() else name


def text_of(parts, moment):
    """The text of a template that is written."""
    numbers = digits(moment)

    def piece(part):
        if not isinstance(part, Pattern):
            return TEXTS[part]
        if part.name in FULL_NAMES + SHORT_NAMES:
            return month_name(part.name, moment[1])
        return marker(part.name, moment[3]) if part.name in MARKERS else numbers[part.name.upper()]

    return "".join(map(piece, parts))


def is_written(part):
    """FM is on a full name and on nothing else, and there is no other prefix or suffix."""
    prefixes = ("FM", "fm") if part.name in FULL_NAMES else ("",)
    return part.prefix in prefixes and not part.suffix


def patterns(parts):
    return [part for part in parts if isinstance(part, Pattern)]


def is_full(parts):
    """One date group, one time group and US, where a name of the month may be in place of MM."""

    def in_group(name):
        if name in OF_MONTHS:
            return "MM"
        return "AM" if name in MARKERS else name.upper()

    return sorted(in_group(part.name) for part in patterns(parts)) in GROUPS


def is_moment(moment):
    try:
        datetime(*moment)
    except ValueError:
        return False
    return True


def answer(template, parts, moment):
    """What is due: the first refusal in their order, else the text."""
    if len(template) > TEMPLATE_LIMIT:
        return "1 - 0 0"
    if not is_utf8(template):
        return "2 - 0 0"
    refused = [part.name for part in patterns(parts) if not is_written(part)]
    if refused:
        return f"19 {refused[0]} 0 0"
    if not is_moment(moment):
        return "20 - 0 0"
    text = text_of(parts, moment)
    length = len(text.encode())
    return f"21 - {length} 0" if length > TEXT_LIMIT else f"0 {text}"


def pattern(random_, name):
    """A pattern as it is written: full names with FM or fm, any marker for AM, digits in either case."""
    if name in FULL_NAMES:
        return Pattern(random_.choice(("FM", "fm")), name, "")
    if name == "AM":
        return Pattern("", random_.choice(MARKERS), "")
    return Pattern("", name if name in SHORT_NAMES else random_.choice((name, name.lower())), "")


def full_parts(random_):
    """A full template: its patterns in any order, with literals at all places, at some or at none."""
    names = ["YYYY", random_.choice(OF_MONTHS), "DD", *random_.choice(TIMES), "US"]
    random_.shuffle(names)
    density = random_.random()

    def literal():
        return random_.choice(list(LITERALS)) if random_.random() < density else ""

    return [literal()] + [part for name in names for part in (pattern(random_, name), literal())]


def any_parts(random_):
    """Patterns of all kinds as they happen to come, with separators between them: seldom a full template."""
    names = random_.choices(ALL, k=random_.randint(2, 9))
    return [part for name in names for part in (pattern(random_, name), random_.choice(SEPARATORS))]


def affixed(random_, name):
    """The pattern with any prefix and suffix, or with none. Mon and th make another pattern, Month."""
    suffix = random_.choice(SUFFIXES)
    if name + suffix in FULL_NAMES:
        name, suffix = name + suffix, ""
    return Pattern(random_.choice(PREFIXES), name, suffix)


def spoilt(random_, parts, moment):
    """A template and a moment, one thing in them changed, most often at a month."""
    parts = list(parts)
    patterns_at = [k for k, part in enumerate(parts) if isinstance(part, Pattern)]
    of_months = [k for k in patterns_at if parts[k].name in OF_MONTHS]
    at = random_.choice(of_months if of_months and random_.random() < 0.8 else patterns_at)
    kind = random_.randrange(8)
    if kind == 0:
        parts[at] = random_.choice(list(NEARLY))
    elif kind == 1:
        parts.insert(at, pattern(random_, random_.choice(OF_MONTHS)))
    elif kind == 2:
        moment = no_moment(random_, moment)
    elif kind == 3:
        parts.insert(at, random_.choice(NO_UTF8))
    elif kind == 4:
        parts[at:at] = [pattern(random_, "US")] * random_.randint(70, 110)
    else:
        parts[at] = affixed(random_, parts[at].name)
    return parts, moment


def template_of(parts):
    return "".join(map("".join, parts)).encode(errors="surrogateescape")


def question(random_):
    parts = any_parts(random_) if random_.random() < 0.1 else full_parts(random_)
    moment = random_moment(random_)
    for _ in range(random_.choice((0, 0, 0, 0, 1, 2))):
        parts, moment = spoilt(random_, parts, moment)
    template = template_of(parts)
    due = answer(template, parts, moment)
    back = moment if due.startswith("0 ") and is_full(parts) else None
    return Question(line(template, moment), due.encode(), back)


if __name__ == "__main__":
    written_and_read(question)
