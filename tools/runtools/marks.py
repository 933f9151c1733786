"""The marks in a picture's cells. Each differs from the others by shape or hatch, and not by colour alone."""

from . import svg
from .words import STRAY_BITS, WRONG_KIND

CHARGE = "#D55E00"
EVENT = "#0072B2"
LIE = "#882255"
RETURN = "#009E73"
GREY = "#9A9A9A"

BAND = 13    # height of a cell's upper band: losses and lies of the round
JUDGED = 21  # height of its lower band: how the module is judged

HATCH = svg.element(
    "pattern",
    svg.rect(0, 0, 5, 5, fill="#EDEDED") + svg.line(0, 0, 0, 5, stroke="#8A8A8A", stroke_width=2),
    id="outside", width=5, height=5, patternUnits="userSpaceOnUse", patternTransform="rotate(45)")


def state(cell):
    """Which mark a cell gets, by name. A module that some views still had before the round, and none after it, leaves; one that some views
    lacked before it, and none after it, returns."""
    if cell.after is None:
        return "views differ"
    if cell.health is None:
        return "healths differ"
    if cell.before is not False and not cell.after:
        return "leaves"
    if cell.before is not True and cell.after:
        return "returns"
    if not cell.after:
        return "outside" if cell.health else "outside, judged 0"
    return "healthy" if cell.health else "charged"


def judged(name, x, y, width):
    """The mark of a state in the lower band, whose upper left corner is x, y."""
    middle, centre = x + width / 2, y + JUDGED / 2
    parts = []
    if name.startswith("outside"):
        parts.append(svg.rect(x, y, width, JUDGED, fill="url(#outside)"))
    if name == "outside, judged 0":
        parts.append(svg.element("circle", cx=middle, cy=centre, r=3.5, fill="#000", stroke="#fff"))
    if name == "charged":
        parts.append(svg.rect(middle - 7, centre - 7, 14, 14, fill=CHARGE, stroke="#000"))
    if name == "leaves":
        parts.append(svg.rect(middle - 8, centre - 8, 16, 16, fill="#000"))
        for turn in (1, -1):
            parts.append(svg.line(middle - 4.5, centre - 4.5 * turn, middle + 4.5, centre + 4.5 * turn, stroke="#fff", stroke_width=2.5))
    if name == "returns":
        parts.append(svg.element("circle", cx=middle, cy=centre, r=9, fill=RETURN, stroke="#000"))
        parts.append(tick(middle, centre))
    if name.endswith("differ"):
        parts.append(differing(x, y, width, name == "views differ"))
    return "".join(parts)


def tick(x, y):
    return (svg.line(x - 4.5, y + 0.5, x - 1, y + 4, stroke="#fff", stroke_width=2.5, stroke_linecap="round")
            + svg.line(x - 1, y + 4, x + 4.5, y - 4, stroke="#fff", stroke_width=2.5, stroke_linecap="round"))


def differing(x, y, width, hatched):
    """A thick frame with the sign for unequal; half hatched where the views differ."""
    right, low = x + width - 2.75, y + JUDGED - 2.75
    half = svg.polygon([(x + 2.75, low), (right, low), (right, y + 2.75)], fill="url(#outside)")
    return "".join([
        svg.rect(x + 1.5, y + 1.5, width - 3, JUDGED - 3, fill="#FFF3B0", stroke="#000", stroke_width=2.5),
        half if hatched else "",
        svg.text(x + width / 2, y + JUDGED / 2 + 6, "≠", 16, text_anchor="middle", font_weight="bold"),
    ])


def events(found, n, x, y, width):
    """The marks side by side, smaller where they are more than fit."""
    names = event_names(found, n)
    size = min(1, width / (10 * len(names)))
    start = x + width / 2 - 5 * size * (len(names) - 1)
    return "".join(event(name, start + 10 * size * i, y + BAND / 2, size) for i, name in enumerate(names))


def event_names(found, n):
    receivers = {"loss": found.losses, "lie": found.told(None, n), WRONG_KIND: found.told(WRONG_KIND, n), STRAY_BITS: found.told(STRAY_BITS, n)}
    return [f"{what} to all" if len(to) == n else f"{what} to some" for what, to in receivers.items() if to]


# corners of the marks of events, around their middle
SHAPES = {
    "loss": [(-4.5, -4), (4.5, -4), (0, 4.5)],
    "lie": [(0, -5), (4.5, 0), (0, 5), (-4.5, 0)],
    WRONG_KIND: [(-4, -4), (4, -4), (4, 4), (-4, 4)],
    STRAY_BITS: [(-4.5, -2), (-2, -2), (-2, -4.5), (2, -4.5), (2, -2), (4.5, -2), (4.5, 2), (2, 2), (2, 4.5), (-2, 4.5), (-2, 2), (-4.5, 2)],
}


def event(name, x, y, size=1):
    """A triangle for a loss, a diamond for a lie that is heard, a square and a cross for those that are not; filled if to all modules."""
    what, to = name.split(" to ")
    colour = EVENT if what == "loss" else LIE
    corners = [(x + size * across, y + size * down) for across, down in SHAPES[what]]
    return svg.polygon(corners, fill=colour if to == "all" else "#fff", stroke=colour, stroke_width=1.5)
