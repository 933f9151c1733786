"""Measures and small texts that all parts of a picture share."""

import math

from . import marks, svg

WIDE, NARROW = 26, 20    # width of a column of one round, and of a range of rounds
SCORE = 15               # height of a third band, for scores
VIEWS = 16               # height of a last band, for the views that a module holds
STRIP = 18
MARGIN = 20
MOST_WIDTH = 1040        # of the columns of a panel
LEAST_WIDTH = 660        # of the whole picture, for its texts
MOST_HEIGHT = 16_000     # viewers and converters that refuse a picture do so above this
MOST_LABEL = 18          # letters of a module's label
NO_BREAK = "\u00a0"


def width_of(column):
    """Wide enough for its scores and for the letters of its views."""
    least = WIDE if column.first == column.last else NARROW
    texts = [score_text(scores) for scores in column.scores] + [views.letters for views in column.views]
    return max([least, *(math.ceil(svg.text_width(text, 10)) + 4 for text in texts)])


def row_height(account):
    return marks.BAND + marks.JUDGED + (SCORE if account.scores else 0) + (VIEWS if account.adoption else 0)


def strips_height(account):
    """Of the rows above the modules: fault limit and agreement, and what was adopted where the setup is partitionable."""
    return STRIP * (3 if account.adoption else 2)


def score_text(scores):
    """A score in at most three digits after the point; nothing for 0.0."""
    if len(scores) > 1:
        return "≠"
    return min(f"{scores[0]:.3f}", repr(scores[0]), key=len) if scores[0] else ""


def wrapped(text, width, size=12, bold=False):
    """The text in lines no wider than width. It is broken at blanks alone, so that names with hyphens stay whole."""
    lines = []
    for word in text.split(" "):
        for piece in cut(word, width, size, bold):
            if lines and svg.text_width(f"{lines[-1]} {piece}", size, bold) <= width:
                lines[-1] += " " + piece
            else:
                lines.append(piece)
    return lines


def cut(word, width, size, bold):
    """A word in pieces no wider than width; only a title, which may be a file's name, is ever that long."""
    start = 0
    for end in range(1, len(word) + 1):
        if svg.text_width(word[start:end + 1], size, bold) > width or end == len(word):
            yield word[start:end]
            start = end


def module_label(account, module):
    """A module's number and name beside its row; long names are cut off."""
    text = account.label(module)
    return text if len(text) <= MOST_LABEL else text[:MOST_LABEL - 1] + "…"
