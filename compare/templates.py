"""The characters of a text and the nodes of a template, in the old mode and in the new one.

Written from change request 4: in the new mode a letter counts together with all marks right after it as one character.
A mark is a character from U+0300 to U+036F; a letter is an ASCII letter, or a character outside ASCII that is no mark.
A mark after anything else counts alone, and in a template so does one right after a quote, a backslash, a pattern, a
suffix or a prefix, dropped or not. So a text is first taken apart as in the old mode, and then each mark is asked what
comes right before it. The rest is formatting.c's: patterns, prefixes, suffixes, quotes and backslashes.
"""
import re
from collections import namedtuple
from itertools import accumulate

# the kinds of a node; its place and end in characters; a pattern's name, or the literal that it stands for
PATTERN, CHARACTER, SEPARATOR, SPACE = 1, 2, 3, 4
Node = namedtuple("Node", "kind place end text affixes")

AFFIXES = {"FM": 1, "fm": 1, "TH": 2, "th": 4, "SP": 8, "TM": 16, "tm": 16, None: 0}
FM, ORDINAL = 1, 2 | 4
# the bit that every node of the new mode has beside its affixes
IN_NEW_MODE = 128
SPACES = " \t\n\v\f\r"

# all patterns by their numbers
PATTERNS = (
    "A.D. A.M. AD AM B.C. BC CC DAY DDD DD DY Day Dy D FF1 FF2 FF3 FF4 FF5 FF6 FX HH24 HH12 HH IDDD ID IW IYYY IYY IY "
    "I J MI MM MONTH MON MS Month Mon OF P.M. PM Q RM SSSSS SSSS SS TZH TZM TZ US WW W Y,YYY YYYY YYY YY Y a.d. a.m. "
    "ad am b.c. bc cc day ddd dd dy d ff1 ff2 ff3 ff4 ff5 ff6 fx hh24 hh12 hh iddd id iw iyyy iyy iy i j mi mm month "
    "mon ms of p.m. pm q rm sssss ssss ss tzh tzm tz us ww w y,yyy yyyy yyy yy y"
).split()
NUMBERS = {name: number for number, name in enumerate(PATTERNS)}

# What a template is made of, one piece after another. A prefix is dropped before anything but a pattern. Quotes may
# stay open at the end. Outside of them a backslash is special only before a quote.
PIECE = re.compile(
    r"""(?:FM|fm|TM|tm)\Z
    | (?P<prefix>FM|fm|TM|tm)?(?P<pattern>PATTERNS)(?P<suffix>TH|th|SP)?
    | (?:FM|fm|TM|tm)?"(?P<quoted>(?:\\.|[^"])*)"?
    | (?:FM|fm|TM|tm)?(?:\\(?="))?(?P<literal>.)
    """.replace(
        "PATTERNS", "|".join(map(re.escape, sorted(PATTERNS, key=len, reverse=True)))
    ),
    re.DOTALL | re.VERBOSE,
)
# in quotes a backslash goes with the next character; the last one of a template is a literal itself
QUOTED = re.compile(r"\\?(?P<literal>.)", re.DOTALL)


def is_mark(character):
    return "\u0300" <= character <= "\u036f"


def is_letter(character):
    return character.isalpha() if character.isascii() else not is_mark(character)


def is_separator(character):
    """Printable ASCII, but no space, letter or digit."""
    return "!" <= character <= "~" and not character.isalnum()


def with_letter(text):
    """For each character whether it is a mark that counts with a letter: one right after it, or after such a mark."""
    flags = []
    for before, character in zip(" " + text, text):
        flags.append(is_mark(character) and (flags[-1] if is_mark(before) else is_letter(before)))
    return flags


def unquoted_kind(character):
    return SEPARATOR if is_separator(character) else SPACE if character in SPACES else CHARACTER


def pieces(template):
    """The nodes of the old mode, where each character of a literal is one."""
    for piece in PIECE.finditer(template):
        if piece["pattern"]:
            affixes = AFFIXES[piece["prefix"]] | AFFIXES[piece["suffix"]]
            yield Node(PATTERN, *piece.span("pattern"), piece["pattern"], affixes)
        elif piece["quoted"]:
            for one in QUOTED.finditer(template, *piece.span("quoted")):
                yield Node(CHARACTER, *one.span("literal"), one["literal"], 0)
        elif piece["literal"]:
            yield Node(unquoted_kind(piece["literal"]), *piece.span("literal"), piece["literal"], 0)


def counts_with(before, node):
    """Whether a literal is a mark right after a letter, with nothing between them that the template drops."""
    of_letter = before.kind == CHARACTER and is_letter(before.text[0])
    return of_letter and node.kind == CHARACTER and is_mark(node.text) and before.end == node.place


def nodes_of(template, accents):
    """The nodes of a template in a mode."""
    nodes = []
    for node in pieces(template):
        if accents and nodes and counts_with(nodes[-1], node):
            nodes[-1] = nodes[-1]._replace(text=nodes[-1].text + node.text, end=node.end)
        else:
            nodes.append(node)
    return nodes


def has_lone_mark(nodes):
    return any(node.kind != PATTERN and is_mark(node.text[0]) for node in nodes)


def compiled(template, nodes, accents):
    """The bytes of the nodes: start, length with its high byte first, kind, number of the pattern, affixes."""
    starts = [0, *accumulate(len(character.encode()) for character in template)]
    return b"".join(
        bytes(
            (
                starts[node.place],
                *divmod(len(node.text.encode()), 256),
                node.kind,
                NUMBERS[node.text] if node.kind == PATTERN else 0,
                node.affixes | (IN_NEW_MODE if accents else 0),
            )
        )
        for node in nodes
    )
