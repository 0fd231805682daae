#!/usr/bin/env -S python3 -B
"""Markers of the half of the day, written and read back by the line program: compare/markers.py PROGRAM SEED COUNT.

Written from change request 1: am and pm write small letters, a.m. and p.m. dotted small letters, AM, PM, A.M. and P.M.
capitals, and a full template is read back to the moment that it was written from. The numbers come from Python's own
calendar. Many of the lines are spoilt: what is nearly a marker is a literal, a second marker is written but not read
back, and a marker with a prefix or suffix, a moment that does not exist and bytes that are no text are refused.
"""
from lines import DATES, Question, digits, line, no_moment, random_moment, written_and_read

MARKERS = ("AM", "PM", "A.M.", "P.M.", "am", "pm", "a.m.", "p.m.")
# none of these is a marker, whatever pattern comes next
NEARLY = ("Am ", "aM ", "Pm ", "pM ", "A.m. ", "a.M. ", "P.m. ", "p.M. ", "a.m ", "P.M ", "A. M. ", '"am"', '"P.M."')
LITERALS = ("", "", " ", "-", ":", ", ", "/", '"lúc "', '" giờ"', '"a"', "ứ", "0 ", '"PM "', "| ")


def marker(name, hour):
    """What a marker pattern writes: the letters of its own case, dots where it has them."""
    written = "p.m." if hour >= 12 else "a.m."
    if "." not in name:
        written = written.replace(".", "")
    return written.upper() if name == name.upper() else written


def text_of(parts, moment):
    """The template's parts one after another: patterns by what they write, literals without their quotes."""
    numbers = digits(moment)

    def piece(part):
        if part in MARKERS:
            return marker(part, moment[3])
        return numbers.get(part.upper(), part.replace('"', ""))

    return "".join(map(piece, parts))


def random_parts(random_):
    """The parts of a full template: patterns in any order, most with a literal after them."""
    names = [*random_.choice(DATES), random_.choice(("HH12", "HH")), "MI", "SS", "US"]
    names = [name.lower() if random_.random() < 0.5 else name for name in names] + [random_.choice(MARKERS)]
    random_.shuffle(names)
    return [part for name in names for part in (name, random_.choice(LITERALS))]


def spoilt(random_, parts, moment):
    """A question whose template is not full, or that is refused."""
    parts = list(parts)
    at = next(k for k, part in enumerate(parts) if part in MARKERS)
    name = parts[at]
    kind = random_.randrange(6)
    if kind == 0:
        parts[at] = random_.choice(NEARLY)
    elif kind == 1:
        parts.insert(random_.randrange(0, len(parts), 2), random_.choice(MARKERS))
    elif kind == 2:
        parts[at] = random_.choice(("FM", "fm", "TM", "tm")) + name
    elif kind == 3:
        parts[at] = name + random_.choice(("TH", "th", "SP"))
    elif kind == 4:
        moment = no_moment(random_, moment)
    due = {2: f"19 {name} 0 0", 3: f"19 {name} 0 0", 4: "20 - 0 0", 5: "2 - 0 0"}.get(kind)
    template = "".join(parts).encode() + (b"\xff" if kind == 5 else b"")
    return Question(line(template, moment), (due or "0 " + text_of(parts, moment)).encode(), None)


def question(random_):
    parts, moment = random_parts(random_), random_moment(random_)
    if random_.random() < 0.4:
        return spoilt(random_, parts, moment)
    return Question(line("".join(parts).encode(), moment), b"0 " + text_of(parts, moment).encode(), moment)


if __name__ == "__main__":
    written_and_read(question)
