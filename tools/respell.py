#!/usr/bin/env python3
"""Respells the names of definitions, lemmas and fields of records that port.py leaves, by the table respell.tsv beside
this file: camel case becomes snake case, and a plain word is joined to a name by `_`.

usage: tools/respell.py [FOLDER]

FOLDER is the top of a checkout, this one if none is given. Below its crates/ every .rt, .antt and .edit file is
rewritten in place, and of a text in quotes nothing. Four lemmas whose names would fall together with a definition's get
`_lem` first, and the choice `if a then b else c` of base_notation becomes `when a then b else c`, since the library has
one of that name. In a comment only what is in backticks is turned. A second run changes nothing.
"""

import os
import re
import sys

HERE = os.path.dirname(os.path.realpath(__file__))
NOT_IN_A_NAME = r"(?<![A-Za-z0-9_'ℤ₀₁₂]){}(?![A-Za-z0-9_'ℤ₀₁₂])"
NOT_IN_A_DASHED_NAME = r"(?<![A-Za-z0-9_'ℤℕ₀₁₂-]){}(?![A-Za-z0-9_'ℤℕ₀₁₂-])"
COMMENT = re.compile(r"(^|\s)(--|//).*$", re.M)

# The lemma, the files that name it, and its new name.
LEMMAS = [
    ("is_digit", ["base_strtol/proofs/Decimals.antt"]),
    ("numbers_of", ["line_questions/proofs/Counts.antt"]),
    ("no_place", ["line_questions/proofs/Places.antt", "line_questions/proofs/read_place/Proof.antt"]),
    ("any_of", ["readback/proofs/Groups.antt"]),
]


def read(path):
    with open(path, encoding="utf-8", newline="") as file:
        return file.read()


def write(path, text):
    with open(path, "w", encoding="utf-8", newline="") as file:
        file.write(text)


def outside_quotes(text, turn):
    """The text with its parts outside quotes turned."""
    return "".join(part if k % 2 else turn(part) for k, part in enumerate(re.split(r'("(?:[^"\\\n]|\\.)*")', text)))


def lemmas_apart(crates):
    for name, files in LEMMAS:
        for file in files:
            path = os.path.join(crates, file)
            if not os.path.isfile(path):
                continue
            bare = re.compile(r"(?<![A-Za-z0-9_'.-])" + name + r"(?![A-Za-z0-9_'.-])")
            write(path, outside_quotes(read(path), lambda part: bare.sub(name + "_lem", part)))


def choice(path, text):
    """The repository's own choice by a test has another name than the library's: `when a then b else c`."""
    lines = []
    for line in text.split("\n"):
        if path.endswith(".antt"):
            code, dashes, comment = line.partition("--")
            if '"--' in line or "'--" in line:
                code, dashes, comment = line, "", ""
            turn = lambda part: re.sub(r"(?<![\w'-])if(?![\w'-])", "when", part)
            lines.append(outside_quotes(code, turn) + dashes + comment)
        elif "◌then◌" in line or re.search(r"\bif\b.*\bthen\b", line) and not line.lstrip().startswith("//"):
            lines.append(outside_quotes(line, lambda part: re.sub(r"(?<![\w'-])if(?![\w'-])", "when", part)))
        else:
            lines.append(line)
    return "\n".join(lines)


def any_of(names, boundary):
    return re.compile(boundary.format("(" + "|".join(sorted(map(re.escape, names), key=len, reverse=True)) + ")"))


def outside_comments(text, turn):
    """The text with its code turned, and in its comments what is in backticks."""
    parts, at = [], 0
    for it in COMMENT.finditer(text):
        parts += [turn(text[at : it.start()]), re.sub(r"`[^`\n]*`", lambda name: turn(name.group(0)), it.group(0))]
        at = it.end()
    return "".join(parts + [turn(text[at:])])


def main():
    top = sys.argv[1] if len(sys.argv) > 1 else os.path.dirname(HERE)
    crates = os.path.join(top, "crates")
    table = dict(line.split("\t") for line in read(os.path.join(HERE, "respell.tsv")).splitlines())
    names = any_of((name for name in table if "-" not in name), NOT_IN_A_NAME)
    dashed = any_of((name for name in table if "-" in name), NOT_IN_A_DASHED_NAME)

    def with_dashes(text):
        return dashed.sub(lambda it: table[it.group(1)], text)

    is_new = any(names.search(read(os.path.join(crates, file))) for _, files in LEMMAS for file in files)
    if is_new:
        lemmas_apart(crates)
    for folder, folders, files in os.walk(crates):
        folders[:] = sorted(name for name in folders if name != "out")
        for file in sorted(files):
            if not file.endswith((".rt", ".antt", ".edit")):
                continue
            path = os.path.join(folder, file)
            text = read(path)
            turned = outside_quotes(text, lambda part: names.sub(lambda it: table[it.group(1)], part))
            turned = choice(path, turned)
            turned = outside_comments(turned, lambda part: outside_quotes(part, with_dashes))
            if turned != text:
                write(path, turned)


main()
