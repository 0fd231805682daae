"""Tables of measurements: lines `KIND TAB PEER TAB INPUT TAB NUMBER`, of which each kind makes a table."""

BASE = "ported Rust"
EXPLAINED = "In brackets: how many times as many the ported Rust takes. `-`: what the other cannot do."
TITLES = {
    "parts": "Reading the parts of a moment",
    "instant": "Reading an instant",
    "text": "Writing",
    "modes": "Reading the parts in both character modes",
}


def parsed(lines):
    """The numbers by kind, peer and input; all in the order of the lines."""
    tables = {}
    for line in lines:
        kind, peer, given, number = line.rstrip("\n").split("\t")
        tables.setdefault(kind, {}).setdefault(peer, {})[given] = float(number)
    return tables


def cell(numbers, base, given):
    if given not in numbers:
        return "-"
    number = f"{numbers[given]:,.0f}"
    return f"{number} ({base[given] / numbers[given]:.2f})" if given in base else number


def table(title, peers):
    """One row a peer, one column an input."""
    base = peers.get(BASE, {})
    inputs = list(dict.fromkeys(given for numbers in peers.values() for given in numbers))
    rows = [[title, *inputs], ["---"] + ["---:"] * len(inputs)]
    rows += [[peer, *(cell(numbers, base, given) for given in inputs)] for peer, numbers in peers.items()]
    return "\n".join("| " + " | ".join(row) + " |" for row in rows)


def show(unit, lines):
    """Prints a table of each kind; the numbers."""
    measured = parsed(lines)
    print(f"{unit}.\n{EXPLAINED}\n")
    for kind, peers in measured.items():
        print(f"{table(TITLES[kind], peers)}\n")
    return measured
