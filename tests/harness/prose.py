"""Finds sentences that are too long in README.md and the pages of docs/: over 40 words, not counting code. A cell of a table is a paragraph."""

import re

MOST_WORDS = 40
FENCE, ITEM = "```", re.compile(r"\s*([-*]|\d+\.) ")


def cells_of(line):
    """The cells of a row, but for those of data, in which most words have a digit."""
    for cell in re.split(r"(?<!\\)\|", line):
        words = cell.split()
        if sum(bool(re.search(r"\d", word)) for word in words) * 2 <= len(words):
            yield from ["", cell]


def prose_of(text):
    """The lines of a page without code; an item of a list is a paragraph of its own, and so is a cell of a table."""
    is_code = False
    for line in text.split("\n"):
        if line.startswith(FENCE):
            is_code = not is_code
        if is_code or line.startswith((FENCE, "    ")):
            yield ""
        elif line.startswith("|"):
            yield from [*cells_of(line), ""]
        else:
            yield from ["", line] if ITEM.match(line) else [line]


def sentences_of(text):
    for paragraph in re.split(r"\n\s*\n", "\n".join(prose_of(text))):
        yield from re.split(r"(?<=[.!?])[*)`\"]*\s+", " ".join(paragraph.split()))


def words_of(sentence):
    return [word for word in sentence.split() if re.search(r"\w", word)]


def too_long(text):
    """The beginnings of the sentences that are too long."""
    return [f"{sentence[:80]} .." for sentence in sentences_of(text) if len(words_of(sentence)) > MOST_WORDS]
