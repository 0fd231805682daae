"""What is read of a text by the nodes of a template, in the old mode and in the new one: the fields, or a refusal.

The way from node to node is formatting.c's, as the ported Rust has it. It is followed in characters; only widths and
what remains are counted in bytes. Of change request 4 there is this: what one literal, or half of an ordinal suffix,
skips is one character as templates.py counts them, and a mark right after a field counts alone. Not all patterns are
read: those of the ISO calendar, centuries, weeks, Julian days, Y,YYY, FF1 to FF6 and offsets are left out.
"""
import re
from collections import Counter

from library import NO_PATTERN, Refused
from lines import MONTHS
from templates import FM, NUMBERS, ORDINAL, PATTERN, SEPARATOR, SPACE, SPACES, is_separator, with_letter
from typed import ROMAN, WRONG, field
from words import DAYS

SKIPPED = re.compile(f"[{SPACES}]*")
NUMBER = re.compile(f"[{SPACES}]*([+-]?[0-9]+)")
FOLDED = str.maketrans("ABCDEFGHIJKLMNOPQRSTUVWXYZ", "abcdefghijklmnopqrstuvwxyz")

# by the name in capitals: the field of a number and its width; the field of a word and its words
DIGITS = {
    "YYYY": ("year", 4),
    "YYY": ("year", 3),
    "YY": ("year", 2),
    "Y": ("year", 1),
    "MM": ("month", 2),
    "DD": ("day", 2),
    "DDD": ("day of year", 3),
    "D": ("weekday", 1),
    "Q": (None, 1),
    "HH24": ("hour", 2),
    "HH12": ("hour", 2),
    "HH": ("hour", 2),
    "MI": ("minute", 2),
    "SS": ("second", 2),
    "SSSS": ("second of day", 4),
    "SSSSS": ("second of day", 5),
    "MS": ("millis", 3),
    "US": ("micros", 6),
}
HALVES, LONG_HALVES = "am pm AM PM".split(), "a.m. p.m. A.M. P.M.".split()
ERAS, LONG_ERAS = "ad bc AD BC".split(), "a.d. b.c. A.D. B.C.".split()
WORDS = {"MONTH": ("month", MONTHS), "MON": ("month", [name[:3] for name in MONTHS])}
WORDS |= {"DAY": ("weekday", DAYS), "DY": ("weekday", [name[:3] for name in DAYS])}
WORDS |= {"RM": ("month", ROMAN[::-1])}
WORDS |= {name: ("afternoon", HALVES) for name in ("AM", "PM")}
WORDS |= {name: ("afternoon", LONG_HALVES) for name in ("A.M.", "P.M.")}
WORDS |= {name: ("before Christ", ERAS) for name in ("AD", "BC")}
WORDS |= {name: ("before Christ", LONG_ERAS) for name in ("A.D.", "B.C.")}
# before any other pattern a number has its fixed width
NO_DIGITS = {*WORDS, "FX", "OF", "TZH", "TZ"}
OF_TWELVE = ("HH12", "HH", "AM", "PM", "A.M.", "P.M.")


class Unknown(Exception):
    """A pattern that is not read here."""


def is_number(value):
    return -(2**31) <= value < 2**31


def whole_year(year):
    """A year of at most three digits: the one that is nearest to 2020."""
    if year >= 1000:
        return year
    return year + (2000 if year < 70 or 100 <= year < 520 else 1900 if year < 100 else 1000)


class Reader:
    def __init__(self, nodes, typed, accents):
        self.nodes = nodes
        self.typed = typed
        self.folded = typed.translate(FOLDED)
        self.counted_with = with_letter(typed) if accents else len(typed) * [False]
        self.at = 0
        # the spaces that were skipped and may pay for literals
        self.paid = 0
        self.exact = False
        self.fields = Counter()

    def ended(self):
        return self.at >= len(self.typed)

    def skip_spaces(self):
        end = SKIPPED.match(self.typed, self.at).end()
        self.paid += end - self.at
        self.at = end

    def skip_character(self):
        """One character of the mode; at the end there is none."""
        if not self.ended():
            self.at += 1
            while not self.ended() and self.counted_with[self.at]:
                self.at += 1

    def end_of_field(self):
        """The marks right after it count alone, each of them."""
        for at in range(self.at, len(self.typed)):
            if not self.counted_with[at]:
                break
            self.counted_with[at] = False

    def read(self):
        """All fields. Reading stops where the template or the text ends."""
        for k, node in enumerate(self.nodes):
            if self.ended():
                break
            begins_exact = node.kind == PATTERN and node.text.upper() == "FX"
            if not self.exact and not begins_exact and (node.kind == PATTERN or k == 0):
                self.skip_spaces()
            if node.kind == PATTERN:
                self.exact = self.exact or begins_exact
                self.pattern(node, k)
            elif self.exact:
                self.skip_character()
            elif node.kind in (SEPARATOR, SPACE):
                self.separator()
            else:
                self.literal()
        return self.fields

    def separator(self):
        """One space or separator, if there is one; else a space that was skipped pays."""
        if not self.ended() and (self.typed[self.at] in SPACES or is_separator(self.typed[self.at])):
            self.at += 1
        else:
            self.paid -= 1

    def literal(self):
        if self.paid > 0:
            self.paid -= 1
        else:
            self.skip_character()

    def pattern(self, node, k):
        name = node.text.upper()
        if name in DIGITS:
            self.number(node, k, name)
            self.end_of_field()
            if node.affixes & ORDINAL:
                self.skip_character()
                self.skip_character()
        elif name in WORDS:
            self.word(node, name)
            self.end_of_field()
        elif name != "FX":
            raise Unknown
        self.fields["of twelve"] |= name in OF_TWELVE
        if not self.exact:
            self.paid = 0
            self.skip_spaces()

    def is_free(self, node, k):
        """Whether a number may have any width: what follows it is no digit."""
        if node.affixes & (FM | ORDINAL) or k + 1 == len(self.nodes):
            return True
        after = self.nodes[k + 1]
        if after.kind == PATTERN:
            return after.text.upper() in NO_DIGITS
        return not (after.text.isascii() and after.text.isdigit())

    def number(self, node, k, name):
        target, width = DIGITS[name]
        refused = NUMBERS[node.text]
        begun, at = self.at, SKIPPED.match(self.typed, self.at).end()
        if self.is_free(node, k):
            found = NUMBER.match(self.typed, begun)
            self.at = found.end() if found else begun
        else:
            remain = len(self.typed[at:].encode())
            if remain < width:
                raise Refused(5, refused, width, remain)
            found = NUMBER.match(self.typed, at, at + width)
            self.at = found.end() if found else at
            if found and self.at - at < width:
                raise Refused(6, refused, width, self.at - at)
        if self.at == begun:
            raise Refused(7, refused)
        value = int(found[1]) if found else 0
        if not is_number(value):
            raise Refused(8, refused)
        if target:
            self.put(node, target, value)
            self.adjust(name, target, self.at - begun)

    def put(self, node, target, value):
        """A field may be set twice only to the same; 0 is not set."""
        if self.fields[target] not in (0, value):
            raise Refused(4, NUMBERS[node.text])
        self.fields[target] = value

    def adjust(self, name, target, length):
        """Short years, and fractions of fewer digits than their width."""
        if target == "year" and name != "YYYY" and length < 4:
            self.fields[target] = whole_year(self.fields[target])
        if target in ("millis", "micros"):
            self.fields[target] *= 10 ** max(DIGITS[name][1] - length, 0)

    def word(self, node, name):
        target, words = WORDS[name]
        found = [k for k, word in enumerate(words) if self.folded.startswith(word.translate(FOLDED), self.at)]
        if not found:
            raise Refused(9, NUMBERS[node.text])
        number = found[0]
        self.at += len(words[number])
        if target == "month":
            self.put(node, target, 12 - number if name == "RM" else number + 1)
        elif target == "weekday":
            self.put(node, target, number)
            self.fields[target] += 1
        else:
            self.put(node, target, number % 2)


def time_due(fields):
    """The parts of a second of the day, each unless it is set itself."""
    of_day = fields["second of day"]
    sign = -1 if of_day < 0 else 1
    hour = fields["hour"] or sign * (abs(of_day) // 3600)
    minute = fields["minute"] or sign * (abs(of_day) % 3600 // 60)
    second = fields["second"] or sign * (abs(of_day) % 60)
    clock = {"of twelve": hour, "afternoon": fields["afternoon"]} if fields["of twelve"] else {"hour": hour}
    return clock | {"minute": minute, "second": second}


def year_due(fields):
    """The year as it is given before Christ or after; there is no year 0 there."""
    if not fields["year"]:
        return {}
    year = -fields["year"] if fields["before Christ"] else fields["year"]
    year += year < 0
    return {"year": 1 - year if fields["before Christ"] else year}


def fraction_due(fields):
    millis = 1000 * fields["millis"]
    total = (millis + fields["micros"] + 2**31) % 2**32 - 2**31
    return {"micros": total if is_number(millis) else WRONG}


def fields_due(nodes, typed, accents):
    """The fields by which strict.py has an answer, or a refusal, or Unknown."""
    fields = Reader(nodes, typed, accents).read()
    due = year_due(fields) | time_due(fields) | fraction_due(fields)
    for name in ("month", "day", "day of year", "before Christ"):
        due |= field(name, fields[name])
    return due
