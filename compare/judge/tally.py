"""Counts what the answers have in common and what not."""

from collections import Counter

from judge.answers import Accepted
from judge.differences import KNOWN, reason

# of the differences for no known reason, so many are printed
SHOWN = 20

# by whether it is accepted here, and there
KINDS = {
    (True, False): "accepted here, refused there",
    (False, True): "refused here, accepted there",
    (True, True): "accepted, another instant",
    (False, False): "refused, for another cause",
}


def kind(ours, theirs):
    return KINDS[isinstance(ours, Accepted), isinstance(theirs, Accepted)]


def text(pair):
    """In ASCII, so that letters and marks apart do not look like composed ones."""
    try:
        return " ".join(ascii(part.decode()) for part in pair)
    except UnicodeDecodeError:
        return " ".join(map(repr, pair))


class Tally:
    def __init__(self):
        self.left_out = Counter()
        self.same_instant = 0
        self.same_refusal = Counter()
        self.known = Counter()
        self.shortest = {}
        self.unknown = Counter()
        self.shown = []

    def leave_out(self, cause):
        self.left_out[cause] += 1

    def add(self, pair, ours, theirs, fields):
        if not ours.agrees(theirs):
            self.differ(pair, ours, theirs, reason(pair, ours, theirs, fields))
        elif isinstance(ours, Accepted):
            self.same_instant += 1
        else:
            self.same_refusal[ours.number] += 1

    def differ(self, pair, ours, theirs, words):
        shown = f"{text(pair)} is here {ours}; there {theirs}"
        if words is None:
            self.unknown[kind(ours, theirs)] += 1
            if len(self.shown) < SHOWN:
                self.shown.append(shown)
            return
        of_kind = words, kind(ours, theirs)
        self.known[of_kind] += 1
        size = len(pair.template) + len(pair.input)
        self.shortest[of_kind] = min(self.shortest.get(of_kind, (size, shown)), (size, shown))

    def report(self):
        print(f"left out {self.left_out.total()}")
        for cause, count in sorted(self.left_out.items()):
            print(f"  {count} {cause}")
        print(f"the same instant {self.same_instant}")
        print(f"the same refusal {self.same_refusal.total()}")
        print("  " + ", ".join(f"{count} of {number}" for number, count in sorted(self.same_refusal.items())))
        print(f"another answer for a known reason {self.known.total()}, with the shortest pair")
        for words, _ in KNOWN:
            print(f"  {words}")
            for of_kind in [(words, name) for name in KINDS.values() if (words, name) in self.known]:
                print(f"    {self.known[of_kind]} {of_kind[1]}: {self.shortest[of_kind][1]}")
        print(f"another answer for no known reason {self.unknown.total()}")
        for name, count in self.unknown.items():
            print(f"  {count} {name}")
        for shown in self.shown:
            print(f"  {shown}")
