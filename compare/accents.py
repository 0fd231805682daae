#!/usr/bin/env -S python3 -B
"""A letter with its accents is one character: compare/accents.py LIBRARY SEED COUNT.

Written from change request 4; templates.py has its rule, reading.py what is read by it, accented.py makes the pairs.
Each pair is asked in the old mode and in the new one, strict and not, by pages and cards, with the template and by its
nodes. The nodes are held to the model byte by byte. They carry their mode, so settings beside them do not change it.
A template is asked whether a mark counts alone in it. What is written is the same in both modes, and the text of a full
template is read back: in the old mode always, in the new one where no mark counts alone.
"""
from collections import Counter

from accented import random_template, random_typed
from cards import CARDS, COMPILE_REFUSED, PAGES, READ_REFUSED, WRITE_REFUSED, damaged, random_length, resized
from library import FILLER, MODES, NODE, NODES, TEXT_BUFFER, Library, Refused, accepted
from lines import arguments, is_utf8, random_moment, values_due
from months import Pattern, is_full, is_written, text_of
from reading import Unknown, fields_due
from strict import callers, due, same
from templates import FM, PATTERN, compiled, has_lone_mark, nodes_of

ACCENTS = 1
# the pairs of a template
EACH = 4
# a year so far away that the ranges of instants and days, which are not asked here, are near
FAR = 200_000


def answers_due(nodes, typed, accents):
    """The answers in each mode that reads, lenient and strict; None where a pattern is met that is not read here."""
    try:
        fields = fields_due(nodes, typed, accents)
    except Unknown:
        return None
    except Refused as refused:
        return 2 * [{mode: refused.answer(size) for mode, size in MODES.items()}]
    answers = [due(fields, False), due(fields, True)]
    if abs(fields.get("year", 0)) < FAR:
        return answers
    return [{"parts": answer["parts"]} for answer in answers]


def full_text(nodes, moment):
    """The text of a moment, if the template is full."""
    prefix = {0: "", FM: "FM"}
    patterns = [Pattern(prefix.get(node.affixes, "?"), node.text, "") for node in nodes if node.kind == PATTERN]
    if not all(map(is_written, patterns)) or not is_full(patterns):
        return None
    pieces = (text_of([Pattern("", n.text, "")], moment) if n.kind == PATTERN else n.text for n in nodes)
    return "".join(pieces).encode()


class Template:
    """A template in one character mode, and those who call in it."""

    def __init__(self, library, random_, text, accents):
        self.library = library
        self.random_ = random_
        self.text = text
        self.accents = accents
        bits = random_.choice((0, random_.getrandbits(29) << 3))
        old, new = callers(bits), callers(bits | ACCENTS)[1:]
        # by nodes the settings have no say in the character mode
        self.callers, self.all_callers = new if accents else old, old + new
        self.is_text = is_utf8(text)
        self.nodes = nodes_of(text.decode(), accents) if self.is_text else []
        self.has_lone_mark = has_lone_mark(self.nodes)
        # the nodes byte by byte, if the template is accepted
        self.bytes = None
        if self.is_text and len(text) <= PAGES.template:
            self.bytes = compiled(text.decode(), self.nodes, accents)
        self.compile()

    def compile(self):
        for caller in self.random_.sample(self.callers, 2):
            refused_long, refused_utf8 = COMPILE_REFUSED
            owed = refused_long if len(self.text) > caller.template else refused_utf8
            if self.bytes is not None and len(self.text) <= caller.template:
                owed = len(self.bytes), self.bytes + (NODES - len(self.bytes)) * FILLER
            same(("compile", self.text), caller, self.library.compile(caller.settings, self.text), owed)
        if self.bytes is not None:
            found = self.library.has_lone_mark(self.bytes, self.text)
            same(("has_lone_mark", self.text), self.callers[0], found, int(self.has_lone_mark))

    def due(self, typed):
        """What is due to a text in each mode: by the model, or where it does not know, what lenient pages get."""
        if not self.is_text or not is_utf8(typed):
            return 2 * [{mode: refused[1] for mode, refused in READ_REFUSED.items()}]
        answers = answers_due(self.nodes, typed.decode(), self.accents)
        if answers is None and len(self.text) <= PAGES.template and len(typed) <= PAGES.typed:
            settings = self.callers[0].settings
            return [{mode: self.library.read(settings, mode, self.text, typed) for mode in MODES}, None]
        return answers or [{}, {}]

    def read(self, typed):
        """One of the callers with the template, and any by its nodes, where only what is typed can be too long."""
        answers = self.due(typed)
        for mode in answers[0]:
            asked = [(self.random_.choice(self.callers), (self.text, typed), len(self.text))]
            if self.bytes is not None:
                asked.append((self.random_.choice(self.all_callers), (self.bytes, self.text, typed), 0))
            for caller, texts, size in asked:
                owed = answers[caller.strict] and answers[caller.strict][mode]
                if size > caller.template or len(typed) > caller.typed:
                    owed = READ_REFUSED[mode][0]
                if owed is not None:
                    same((mode, *texts), caller, self.library.read(caller.settings, mode, *texts), owed)
        return answers

    def write(self, moment, wanted):
        """The same text or refusal as in the other mode. Of a full template it is known."""
        text = full_text(self.nodes, moment)
        if text is not None:
            written = (*accepted((len(text),)), text + (TEXT_BUFFER - len(text)) * FILLER)
            same(("write", self.text, moment), self.callers[0], wanted, written)
        for caller in self.random_.sample(self.all_callers, 3):
            for texts, size in (((self.text,), len(self.text)), ((self.bytes, self.text), len(self.bytes) / NODE)):
                owed = wanted if size <= caller.template else WRITE_REFUSED[0]
                found = self.library.write(caller.settings, moment, 512, *texts)
                same(("write", *texts, moment), caller, found, owed)
        return text

    def read_back(self, moment, text):
        """The text of a full template is read as its moment by all who take the template."""
        for mode in MODES:
            owed = accepted(values_due(mode, moment))
            for caller in self.callers:
                if len(self.text) <= caller.template:
                    found = self.library.read(caller.settings, mode, self.text, text)
                    same((mode, self.text, text), caller, found, owed)


def sized(random_, text, limits):
    """The text as it is, or about as long as a limit; some damaged."""
    length = random_length(random_, *limits) if random_.random() < 0.15 else None
    if length is not None:
        text, _ = resized(random_, text, None, length)
    return damaged(random_, text) if random_.random() < 0.06 else text


class Model:
    def __init__(self, library, random_):
        self.library = library
        self.random_ = random_
        self.counts = Counter()

    def check(self):
        """A template in both modes, with some pairs and a moment."""
        text = sized(self.random_, random_template(self.random_).encode(), (CARDS.template, PAGES.template))
        modes = [Template(self.library, self.random_, text, accents) for accents in (False, True)]
        for _ in range(EACH):
            self.read(modes)
        if modes[0].bytes is not None:
            self.write(modes)

    def read(self, modes):
        suited = self.random_.choice((modes[0], modes[1], modes[1]))
        typed = random_typed(self.random_, suited.nodes, suited.accents).encode()
        typed = sized(self.random_, typed, (CARDS.typed, PAGES.typed))
        old, new = (mode.read(typed) for mode in modes)
        self.counts["pairs"] += 1
        self.counts["accepted"] += new[0].get("parts", (None,))[0] == 0
        self.counts["otherwise"] += old[0].get("parts") != new[0].get("parts")

    def write(self, modes):
        moment = random_moment(self.random_)
        wanted = self.library.write(None, moment, 512, modes[0].text)
        for mode in modes:
            text = mode.write(moment, wanted)
            if text is not None and not (mode.accents and mode.has_lone_mark):
                mode.read_back(moment, text)
                self.counts["read back"] += mode.accents
            self.counts["full"] += mode.accents and text is not None


def main():
    archive, random_, count = arguments("LIBRARY")
    model = Model(Library(archive), random_)
    while model.counts["pairs"] < count:
        model.check()
    counts = model.counts
    print(
        f"the answers that are due to {counts['pairs']} pairs in both modes: {counts['accepted']} accepted in the new "
        f"one, {counts['otherwise']} answered otherwise than in the old one; {counts['read back']} texts of "
        f"{counts['full']} full templates read back in it, all others have a mark that counts alone"
    )


if __name__ == "__main__":
    main()
