"""A run as a picture: rounds across, modules down, and above them whether the limit was kept and the modules agree."""

from . import marks, svg
from .columns import columns, panels
from .heading import heading
from .layout import LEAST_WIDTH, MARGIN, MOST_HEIGHT, MOST_WIDTH, module_label, width_of
from .legend import legend
from .panel import panel, panel_height


class TooHigh(Exception):
    """One sentence: why there is no picture."""


def picture(account, title, first=1, last=None):
    """The text of an SVG file; TooHigh if not every viewer would show it."""
    found = columns(account, first, last)
    rows = panels(found, width_of, MOST_WIDTH)
    left = MARGIN + label_width(account)
    width = max(LEAST_WIDTH, left + max(sum(map(width_of, row)) for row in rows) + MARGIN)
    parts, top = heading(account, title, found, width)
    bottom = top + sum(panel_height(account, row) for row in rows)
    below, height = legend(account, found, width, bottom)
    if height > MOST_HEIGHT:
        raise TooHigh(too_high(account, rows, height, bottom - top))
    for row in rows:
        parts += panel(account, row, left, top)
        top += panel_height(account, row)
    return svg.document(width, height, marks.HATCH, parts + below)


def too_high(account, rows, height, panels_height):
    """The sentence for a picture that is too high, with a part of the run that fits."""
    # a line more in the heading says which rounds are drawn
    room = MOST_HEIGHT - (height - panels_height) - 40
    fitting = rows[0][-1].last
    for row in rows:
        room -= panel_height(account, row)
        if room < 0:
            break
        fitting = row[-1].last
    return (f"the picture would be {height:,} pixels high, and not every viewer shows more than {MOST_HEIGHT:,}; "
            f"draw a part of the run, for instance --rounds {rows[0][0].first}-{fitting}")


def label_width(account):
    longest = max(svg.text_width(module_label(account, j + 1), bold=True) for j in range(account.n))
    return round(max(longest, svg.text_width("fault limit", 11))) + 28
