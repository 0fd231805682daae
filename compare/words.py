#!/usr/bin/env -S python3 -B
"""Words of a line, searched in two ways and read by the line program: compare/words.py PROGRAM SEED COUNT.

Written from change request 3: the beginning of the input is folded once, at most as many bytes as the longest word of
the list has, and a search that gets only those bytes finds what the search of the whole input finds. Each text is
searched both ways. The program must read that word and what follows it, refuse with 9 where there is no word, or with 2
where the text is not UTF-8. Many of the texts are spoilt.
"""
import re
import sys

from lines import MONTHS, answers, arguments, is_utf8

DAYS = "Sunday Monday Tuesday Wednesday Thursday Friday Saturday".split()


def month(k):
    return 0, k + 1, 7, 0, 6


def roman_month(k):
    return 0, 12 - k, 7, 0, 6


def weekday(k):
    """The day of the first ISO week of 2024, which begins on Monday, 1 January."""
    return 2024, 1, k or 7, 0, 7


def half_day(k):
    return 0, 1, 1, 7 + 12 * (k % 2), 0


def era(k):
    return 1 - 2024 if k % 2 else 2024, 1, 1, 0, 1


# For each pattern: its words in formatting.c's order, the template and the text after it; and by the word's index year,
# month, day, hour, and the marks of what is set: year 1, month 2, day 4.
LISTS = {
    "Month": (MONTHS, "DD", b"07", month),
    "Mon": ([m[:3] for m in MONTHS], "DD", b"07", month),
    "Day": (DAYS, "IYYY-IW", b"2024-01", weekday),
    "Dy": ([d[:3] for d in DAYS], "IYYY-IW", b"2024-01", weekday),
    "AM": ("am pm AM PM".split(), "HH12", b"07", half_day),
    "A.M.": ("a.m. p.m. A.M. P.M.".split(), "HH12", b"07", half_day),
    "BC": ("ad bc AD BC".split(), "YYYY", b"2024", era),
    "B.C.": ("a.d. b.c. A.D. B.C.".split(), "YYYY", b"2024", era),
    "RM": ("xii xi x ix viii vii vi v iv iii ii i".split(), "DD", b"07", roman_month),
}

# ends of the letters, a NUL, characters of two and three bytes, and bytes that are no character
PIECES = [b"@", b"Z", b"[", b"`", b"a", b"{", b" ", b".", b"0", b"\0", b"\x7f"]
PIECES += ["é".encode(), "€".encode(), b"\xc3", b"\xff"]


def folded(text):
    return bytes(b + 32 if 65 <= b <= 90 else b for b in text)


def word_at(words, text, at):
    """The first word that is in the text from a place on, byte by byte, in either case."""
    for k, word in enumerate(words):
        bytes_there = (text[at + i : at + i + 1] for i in range(len(word)))
        if all(folded(b) == folded(bytes([c])) for b, c in zip(bytes_there, word)):
            return k, len(word)
    return None


def word_in(words, beginning):
    """The first word, in small letters, that the folded bytes begin with."""
    for k, word in enumerate(words):
        if beginning.startswith(folded(word)):
            return k, len(word)
    return None


def spelled(random_, word):
    """A word in a random mix of cases."""
    return "".join(random_.choice((c.lower(), c.upper())) for c in word).encode()


def spoilt(random_, text):
    """A text with a piece put in, a byte left out, a byte exchanged for a piece, or its end cut off."""
    at = random_.randrange(len(text) + 1)
    piece = random_.choice(PIECES)
    return random_.choice(
        (
            text[:at] + piece + text[at:],
            text[:at] + text[at + 1 :],
            text[:at] + piece + text[at + 1 :],
            text[:at],
        )
    )


def question(random_):
    """A template, an input, and the answer that is due; None where the word does not decide it."""
    name = random_.choice(list(LISTS))
    names, after, what_follows, parts = LISTS[name]
    words = [w.encode() for w in names]
    front = random_.choice((b"", "ngày ".encode()))
    spaces = b"" if front else b" " * random_.choice((0, 0, 1, 3))
    text = spelled(random_, random_.choice(names)) + what_follows + random_.choice((b"", b" and more"))
    if random_.random() < 0.5:
        text = spoilt(random_, text)
    text = front + spaces + text
    at = len(front + spaces)
    found = word_at(words, text, at)
    once = word_in(words, folded(text[at : at + max(map(len, words))]))
    if found != once:
        sys.exit(f"the two searches differ: {name} {text!r} at {at}: {found} and {once}")
    if at == len(text) or text[at] == ord(" "):
        return None
    template = (b'"%s"' % front if front else b"") + (name + after).encode()
    if not is_utf8(text):
        return template, text, "2 - 0 0"
    if found is None:
        return template, text, f"9 {name} 0 0"
    k, length = found
    if not re.match(what_follows + rb"(?!\d)", text[at + length :]):
        return None
    year, month_, day, hour, marks = parts(k)
    return template, text, f"0 {year} {month_} {day} {hour} 0 0 0 0 none {marks}"


def main():
    program, random_, count = arguments()
    questions = []
    while len(questions) < count:
        one = question(random_)
        if one:
            questions.append(one)
    lines = [template + b"\t" + text for template, text, _ in questions]
    for (template, text, due), answer in zip(questions, answers(program, "parts", lines)):
        if answer != due.encode():
            sys.exit(f"{template!r} {text!r}: {answer!r}, and {due} is due")
    accepted = sum(due[0] == "0" for _, _, due in questions)
    print(f"the same words in {len(questions)} lines, {accepted} of them accepted")


if __name__ == "__main__":
    main()
