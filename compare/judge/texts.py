"""Texts that were written, compared with those of to_char."""

import itertools
import re
from collections import namedtuple

from judge.tally import SHOWN

Line = namedtuple("Line", "template moment text")

# a quote that is a character of its own, or a text in quotes
QUOTED = re.compile(rb'\\"|"(?:\\.|[^"\\])*"?', re.DOTALL)


def written(lines, answers):
    """The lines that were not refused: the template, the moment's seven numbers, the text."""
    for line, answer in itertools.zip_longest(lines, answers):
        if line is None or answer is None:
            raise SystemExit("postgres: the answers are not as many as the lines")
        if answer.startswith(b"0 "):
            template, _, moment = line.removesuffix(b"\n").removesuffix(b"\r").partition(b"\t")
            yield Line(template, tuple(map(int, moment.split(b" "))), answer.removesuffix(b"\n")[2:])


def question(line):
    """The template and the moment as the server takes them."""
    moment = "{:04}-{:02}-{:02} {:02}:{:02}:{:02}.{:06}".format(*line.moment)
    return f"{line.template.hex()}\t{moment.encode().hex()}"


def is_unfilled(line, theirs):
    """Whether the texts differ by SSSSS alone, in front of which PostgreSQL writes no zeros.

    The second of the day, in five digits, loses its zeros as many times as the template has SSSSS.
    """
    hour, minute, second = line.moment[3:6]
    seconds = (hour * 60 + minute) * 60 + second
    filled = re.compile(b"(?=%05d)" % seconds)
    patterns = QUOTED.sub(b" ", line.template)
    texts = {line.text}
    for _ in range(patterns.count(b"SSSSS") + patterns.count(b"sssss")):
        places = [(text, found.start()) for text in texts for found in filled.finditer(text)]
        texts = {b"%s%d%s" % (text[:at], seconds, text[at + 5 :]) for text, at in places}
    return theirs in texts


class Texts:
    def __init__(self):
        self.same = 0
        self.unfilled = 0
        self.unknown = 0
        self.shown = []

    def add(self, line, theirs):
        if line.text == theirs:
            self.same += 1
        elif is_unfilled(line, theirs):
            self.unfilled += 1
        else:
            self.unknown += 1
            if len(self.shown) < SHOWN:
                self.shown.append(f"{line} there {theirs}")

    def report(self):
        print(f"the same text {self.same}")
        print(f"the same but for zeros in front of SSSSS {self.unfilled}")
        print(f"another text for no known reason {self.unknown}")
        for shown in self.shown:
            print(f"  {shown}")
