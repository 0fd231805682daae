"""Templates and what learners type by them, with marks anywhere: the model of change request 4 asks for them."""
from unicodedata import normalize

from months import TEMPLATE_LIMIT, TEXT_LIMIT, Pattern, full_parts, template_of
from reading import DIGITS, WORDS
from templates import ORDINAL, PATTERN, PATTERNS, is_letter, is_mark

# marks, among them the first, the last and both sides of where their second byte begins anew
MARKS = "\u0300\u0301\u0301\u0302\u0303\u0306\u0309\u031b\u0323\u033f\u0340\u036f"
# letters: ASCII, composed, other scripts, the first and the last character outside ASCII, those before and after the
# marks, other combining marks, two that are folded to an ASCII letter elsewhere, a no-break space
LETTERS = "axzehAÀéđứ年ß½\u0080\U0010ffff\u02ff\u0370\u0483\u20d0\u1dc4\ufe0f\ufffd\u212a\u017f\u00a0😀\U0001f1fb"
# what no mark counts with
BARE = " -/:.,'5 0 9~!\t\n\x01\x7f\0"
WORDS_OF_DATES = "ngày tháng năm thứ giờ phút giây Tết đầu".split()
# pieces of templates that open or close something, or that are dropped
CURIOUS = ('"', '""', "\\", '\\"', '"\\', "FM", "fm", "TM", "TH", "th", "SP", "FMx", "FX", "fx")
USUAL = (
    '"ngày "DD" tháng "MM" năm "YYYY',
    "ngày DDth tháng MMth năm YYYYth",
    "FMDDth FMMonth, YYYY",
    "FXYYYY-MM-DD",
    'FXDD"ứ"MM"đ"YYYY',
    "HH12:MI:SS.US AM DD/MM/YYYY",
    'Mon"a"YYYY',
    "DD Mon YY BC",
    'YYYY"năm"DDD',
    "HH24hMI ngày DD-MM",
)
READ = [name for name in PATTERNS if name.upper() in DIGITS or name.upper() in WORDS]
PREFIXES, SUFFIXES = (*9 * ("",), "FM", "FM", "fm", "TM", "tm"), (*5 * ("",), "TH", "th", "th", "SP")


def run(random_):
    """Some marks; seldom as many as a template or more can have."""
    if random_.random() < 0.02:
        return random_.choice(MARKS) * random_.randint(60, 130)
    return "".join(random_.choices(MARKS, k=random_.choice((1, 1, 1, 2, 2, 3, 4))))


def strewn(random_, text):
    """The text with marks put in anywhere."""
    for _ in range(random_.choice((0, 0, 1, 2, 5))):
        at = random_.randrange(len(text) + 1)
        text = text[:at] + run(random_) + text[at:]
    return text


def of_one_letter(random_, limit):
    """A letter with so many marks that it is about as long as a limit."""
    return random_.choice("aé") + random_.choice(MARKS) * (limit // 2 - random_.choice((0, 1, 1, 2)))


def spelled(random_, text):
    """A text composed, apart, or apart with the marks of each letter in another order."""
    apart = normalize("NFD", text)
    for k in range(len(apart) - 1):
        if is_mark(apart[k]) and is_mark(apart[k + 1]) and random_.random() < 0.5:
            apart = apart[:k] + apart[k + 1] + apart[k] + apart[k + 2 :]
    return random_.choice((text, normalize("NFC", text), apart))


def random_letter(random_):
    """A letter, half of the time with marks."""
    return random_.choice(LETTERS) + random_.choice(("", run(random_)))


def random_literal(random_):
    kind = random_.random()
    if kind < 0.3:
        word = spelled(random_, random_.choice(WORDS_OF_DATES))
        return f'"{word}"' if random_.random() < 0.6 else word
    if kind < 0.5:
        return random_letter(random_)
    return random_.choice(CURIOUS) if kind < 0.65 else random_.choice(BARE)


def random_pattern(random_):
    name = random_.choice(PATTERNS if random_.random() < 0.02 else READ)
    return random_.choice(PREFIXES) + name + random_.choice(SUFFIXES)


def random_template(random_):
    """A usual one, a full one, pieces as they happen to come, most with marks anywhere; or one letter and its marks."""
    kind = random_.random()
    if kind < 0.01:
        return of_one_letter(random_, TEMPLATE_LIMIT)
    if kind < 0.2:
        template = full_template(random_)
        return strewn(random_, template) if random_.random() < 0.3 else template
    if kind < 0.45:
        return strewn(random_, spelled(random_, random_.choice(USUAL)))
    makers = random_.choices((random_pattern, random_literal), k=random_.randint(1, 10))
    return strewn(random_, "".join(maker(random_) for maker in makers))


def full_template(random_):
    """Its patterns as they are, its literals with marks in them or without."""
    parts = full_parts(random_)
    pieces = (template_of([part]).decode() for part in parts)
    of_literals = (not isinstance(part, Pattern) and random_.random() < 0.4 for part in parts)
    return "".join(after_letters(random_, piece) if put else piece for piece, put in zip(pieces, of_literals))


def after_letters(random_, piece):
    """Marks after letters that no prefix has."""
    put = run(random_)
    return "".join(c + put if is_letter(c) and c not in "FMTfmt" else c for c in piece)


def random_number(random_, width):
    kind = random_.random()
    value = random_.choice((random_.randint(1, 12), random_.randint(0, 10**width - 1)))
    if kind < 0.75:
        return f"{value:0{width}}"
    if kind < 0.9:
        return str(value)
    return random_.choice(("", "+5", "-1", "  7", "2147483648", "99999999999999999999", "x", "0", "00012"))


def random_character(random_, node, accents):
    """What a literal skips: mostly the same, or another spelling of it, or another character."""
    kind = random_.random()
    if kind < (0.3 if is_letter(node.text[0]) else 0.9):
        return node.text
    if not accents:
        return random_.choice(node.text)
    return spelled(random_, node.text) if kind < 0.6 else random_letter(random_)


def typed_at(random_, node, accents):
    if node.kind != PATTERN:
        return random_character(random_, node, accents)
    name = node.text.upper()
    if name in WORDS:
        word = random_.choice(WORDS[name][1])
        return random_.choice((word, word.lower(), word.upper()))
    typed = "" if name == "FX" else random_number(random_, DIGITS.get(name, ("", 2))[1])
    if node.affixes & ORDINAL:
        two = random_letter(random_) + random_letter(random_)
        typed += random_.choice(("th", "nd", two, random_letter(random_), run(random_) + "t"))
    return typed


def random_typed(random_, nodes, accents):
    """What suits the nodes of a template, a half of it with marks anywhere; or one letter and its marks."""
    if random_.random() < 0.005:
        return of_one_letter(random_, TEXT_LIMIT)
    typed = "".join(typed_at(random_, node, accents) for node in nodes)
    return strewn(random_, typed) if random_.random() < 0.5 else typed
