"""What the speed is meant to be, and whether it is, by time and by instructions."""

from tables import BASE

LIBRARY, COMPILED = "library", "library, compiled once"
CHRONO, TIME, STRPTIME, STRFTIME = "chrono, format prepared", "time, format prepared", "strptime", "strftime"
OLD, NEW = "library, old mode, compiled once", "library, new mode, compiled once"
MARKED = ["Vietnamese", "refused"]
OTHERS = ["ISO", "month names", "long"]
# the accents mode may take so many times as long
ACCENTS = 1.3


def faster(peers, one, other, inputs=None):
    """How many times as fast one is as another, on the input where it is least so."""
    common = [given for given in inputs or peers[one] if given in peers[one] and given in peers[other]]
    return min((peers[other][given] / peers[one][given], given) for given in common)


def cell(found):
    return f"{found[0]:.2f} ({found[1]})" if found else "-"


def row(words, least, by_time, by_count=None):
    reached = all(found[0] >= least for found in (by_time, by_count) if found)
    return f"| {words} | {least:.2g} | {cell(by_time)} | {cell(by_count)} | {'yes' if reached else 'no'} |"


def targets(times, counts, lines_a_second):
    accepted = [given for given in times["parts"][COMPILED] if given != "refused"]

    def compared(words, least, kind, one, other, inputs=None):
        return row(words, least, *(faster(measured[kind], one, other, inputs) for measured in (times, counts)))

    return [
        "| target | at least | worst by time | worst by instructions | reached |",
        "|---|---:|---:|---:|---|",
        compared("template compiled once, to the ported Rust", 3.5, "parts", COMPILED, BASE),
        compared("each time, on the Vietnamese and the refused line", 2, "parts", LIBRARY, BASE, MARKED),
        compared("each time, on the others", 1.7, "parts", LIBRARY, BASE, OTHERS),
        compared("compiled once, to chrono, its format prepared, on accepted lines", 1, "parts", COMPILED, CHRONO, accepted),
        compared("compiled once, to time, its format prepared, on ISO, month names and long", 1, "parts", COMPILED, TIME, OTHERS),
        compared("compiled once, to strptime, on accepted lines", 1, "parts", COMPILED, STRPTIME, accepted),
        compared("writing, compiled once, to chrono, its format prepared", 1, "text", COMPILED, CHRONO),
        compared("writing, compiled once, to strftime", 1, "text", COMPILED, STRFTIME),
        compared("the accents mode, compiled once, to the mode without it", 1 / ACCENTS, "modes", NEW, OLD),
        row("the line program, millions of lines a second", 1, (lines_a_second / 1e6, "short inputs")),
    ]
