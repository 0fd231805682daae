#!/usr/bin/env -S python3 -B
"""Flash cards and exercise pages, which call the library with limits of their own: compare/cards.py LIBRARY SEED COUNT.

Written from change request 7: the flash cards take templates of at most 64 bytes and answers of at most 96, the
exercise pages 256 and 512. What is longer is refused with 1, before anything else. On a pair within the smaller limits
both callers get equal answers: all numbers, and the text that is written. A moment that the cards write by a full
template they also read back; its text has at most 6 bytes more than the template. Many texts have about as many bytes
as a limit, and many are damaged.

The answers that learners give are called `typed` here. Of a template `text` is the text of the moment, if the template
is full and the moment exists, else None.
"""
import sys
from collections import Counter, namedtuple

from library import FILLER, MODES, NODE, NODES, TEXT_BUFFER, Library, accepted, refusal
from lines import arguments, is_utf8, no_moment, random_moment, values_due
from months import Pattern, any_parts, full_parts, is_full, is_moment, template_of, text_of

Caller = namedtuple("Caller", "settings template typed")

# the pages as they always called, and the cards; their limits
PAGES, CARDS = Caller(None, 256, 512), Caller(4, 64, 96)
LONGER = 6
# the pairs of a template
EACH = 4
# refusals 1 and 2 of each function; buffers stay as they were
READ_REFUSED = {mode: (refusal(1, size), refusal(2, size)) for mode, size in MODES.items()}
WRITE_REFUSED = tuple((*refusal(number, 5), TEXT_BUFFER * FILLER) for number in (1, 2))
COMPILE_REFUSED = tuple((-number, NODES * FILLER) for number in (1, 2))

# characters of one to four bytes, which are literals whatever is beside them
CHARACTERS = (" ", "-", "'", "é", "\u0301", "ứ", "年", "𝄞")
# bytes that are no character, or half of one; and some that are characters
DAMAGE = (b"\xff", b"\x80", b"\xc3", b"\xe1\xbb", b"\xf0\x9f\x98", b"\xed\xa0\x80", b"\xc0\xaf", b"\xf4\x90\x80\x80")
DAMAGE += (b"9", b"x", b" ", b"\0", b'"', "à".encode())


def random_length(random_, cards, pages):
    """A length about one of the limits; seldom one that is a limit if its high bits are lost; or None."""
    kind = random_.random()
    if kind < 0.6:
        return None
    if kind < 0.62:
        return random_.choice((256 + cards, 65536 + cards, 65536))
    limit = pages if kind < 0.72 else cards
    return limit + random_.choice((0, 1, random_.randint(-4, 6)))


def characters(random_, size):
    """So many bytes of characters of one kind."""
    one = random_.choice(CHARACTERS).encode()
    return size // len(one) * one + size % len(one) * b"-"


def damaged(random_, text):
    """The text with other bytes at a place; it stays as long as it is."""
    at = random_.randrange(len(text) + 1)
    piece = random_.choice(DAMAGE)
    return (text[:at] + piece + text[at + len(piece) :])[: len(text)]


def resized(random_, template, text, length):
    """A template of that length and its text: literals are put to it, in quotes or without, or its end is cut off."""
    missing = length - len(template)
    if missing < 0:
        return template[:length], None
    in_quotes = missing > 1 and random_.random() < 0.3
    put = characters(random_, missing - 2 if in_quotes else missing)
    literal = b'"%s"' % put if in_quotes else put
    if random_.random() < 0.5:
        return literal + template, put + text if text is not None else None
    return template + literal, text + put if text is not None else None


def random_parts(random_):
    """Mostly a full template; or any patterns; or US so often that the text has more bytes than the cards read."""
    kind = random_.random()
    if kind < 0.05:
        return random_.randint(10, 32) * [Pattern("", "US", "")]
    return any_parts(random_) if kind < 0.15 else full_parts(random_)


def random_template(random_, moment):
    parts = random_parts(random_)
    template = template_of(parts)
    text = text_of(parts, moment).encode() if is_moment(moment) and is_full(parts) else None
    length = random_length(random_, CARDS.template, PAGES.template)
    if length is not None:
        template, text = resized(random_, template, text, length)
    return (damaged(random_, template), None) if random_.random() < 0.15 else (template, text)


def random_typed(random_, suitable):
    """What suits the template; or what is longer, cut off or damaged."""
    typed = suitable[: random_.randrange(len(suitable) + 1)] if random_.random() < 0.1 else suitable
    length = random_length(random_, CARDS.typed, PAGES.typed)
    if length is not None:
        put = characters(random_, max(length - len(typed), 0))
        typed = (put + typed if random_.random() < 0.2 else typed + put)[:length]
    return damaged(random_, typed) if random_.random() < 0.15 else typed


def within(caller, template, typed=0):
    """Whether lengths are within the caller's limits."""
    return template <= caller.template and typed <= caller.typed


class Asked:
    """A template that all callers use, half of the time with bits that mean nothing in the settings: 8 and above."""

    def __init__(self, library, random_):
        self.library = library
        self.random_ = random_
        self.moment = random_moment(random_)
        if random_.random() < 0.05:
            self.moment = no_moment(random_, self.moment)
        self.template, self.text = random_template(random_, self.moment)
        self.is_text = is_utf8(self.template)
        bits = random_.choice((0, random_.getrandbits(29) << 3))
        self.callers = PAGES, PAGES._replace(settings=bits), CARDS._replace(settings=CARDS.settings | bits)
        self.nodes = self.compiled()

    def ask(self, function, given, lengths, is_text, refused, owed=None):
        """What the pages get. Each caller gets the first refusal that is due, or what is owed: by default the same."""
        found = [(caller, function(caller.settings, *given)) for caller in self.callers]
        owed = found[0][1] if owed is None else owed
        numbers = [answer[0] for answer in refused]
        for caller, answer in found:
            due = refused[0] if not within(caller, *lengths) else owed if is_text else refused[1]
            if answer != due or (due is owed and owed[0] in numbers):
                sys.exit(f"{function.__name__} {given}, {caller}: {answer}, and {due} is due")
        return found[0][1]

    def compiled(self):
        """The nodes, or None where the template is refused."""
        given, lengths = (self.template,), (len(self.template),)
        length, nodes = self.ask(self.library.compile, given, lengths, self.is_text, COMPILE_REFUSED)
        return nodes[:length] if length >= 0 else None

    def read(self, typed):
        """With the template and by its nodes. The text of a full template is read as the moment."""
        lengths = len(self.template), len(typed)
        is_text = self.is_text and is_utf8(typed)
        for mode in MODES:
            owed = accepted(values_due(mode, self.moment)) if typed == self.text else None
            given = mode, self.template, typed
            owed = self.ask(self.library.read, given, lengths, is_text, READ_REFUSED[mode], owed)
            if self.nodes is not None:
                self.read_by(mode, self.nodes, self.template, typed, owed)

    def read_by(self, mode, nodes, template, typed, owed=None):
        """By nodes only what is typed is tested."""
        given, lengths = (mode, nodes, template, typed), (0, len(typed))
        self.ask(self.library.read, given, lengths, is_utf8(typed), READ_REFUSED[mode], owed)

    def write(self):
        text, owed = self.text, None
        length = len(self.template if text is None else text)
        room = self.random_.choice((512, 512, 512, CARDS.typed, min(length, 512), max(min(length, 512) - 1, 0)))
        if text is not None and length <= room:
            owed = (*accepted((length,)), text + (TEXT_BUFFER - length) * FILLER)
        if text is not None and length > len(self.template) + LONGER:
            sys.exit(f"{self.template} has the text {text}, which is longer than it may be")
        given, lengths = (self.moment, room, self.template), (len(self.template),)
        owed = self.ask(self.library.write, given, lengths, self.is_text, WRITE_REFUSED, owed)
        if self.nodes is not None:
            self.write_by(self.nodes, self.template, room, owed)

    def write_by(self, nodes, template, room, owed=None):
        """By nodes only their number is tested: a caller takes as many as its templates may have bytes."""
        given, lengths = (self.moment, room, nodes, template), (len(nodes) / NODE,)
        self.ask(self.library.write, given, lengths, True, WRITE_REFUSED, owed)

    def by_others(self, typed):
        """By nodes of about as many bytes as a caller takes where it writes, and any text in place of the template."""
        size = NODE * self.random_.choice((CARDS.template, PAGES.template)) + self.random_.randint(-7, 7)
        nodes = self.nodes or typed or b"\0"
        nodes = (nodes * (size // len(nodes) + 1))[:size]
        template = self.random_.choice((typed, self.template, b"", 99 * b"\xff", 600 * b"-"))
        for mode in MODES:
            self.read_by(mode, nodes, template, typed)
        self.write_by(nodes, template, 512)


def check(library, random_, counts):
    """A template, with some pairs."""
    asked = Asked(library, random_)
    template, text = asked.template, asked.text
    asked.write()
    for _ in range(EACH):
        typed = random_typed(random_, template if text is None else text)
        asked.read(typed)
        if random_.random() < 0.1:
            asked.by_others(typed)
        lengths = len(template), len(typed)
        by_cards = within(CARDS, *lengths)
        counts["pairs"] += 1
        counts["equal"] += by_cards
        counts["cards alone"] += not by_cards and within(PAGES, *lengths)
        counts["read back"] += by_cards and typed == text


def main():
    archive, random_, count = arguments("LIBRARY")
    library = Library(archive)
    counts = Counter()
    while counts["pairs"] < count:
        check(library, random_, counts)
    print(
        f"the answers that are due to {counts['pairs']} pairs: {counts['equal']} within the smaller limits answered "
        f"equally, {counts['read back']} of them read back, {counts['cards alone']} refused by the cards alone"
    )


if __name__ == "__main__":
    main()
