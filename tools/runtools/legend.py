"""What stands below the panels of a picture: what the marks mean."""

from . import marks, svg
from .columns import DIFFERENT, NOTHING, SAME, Views, view_letters
from .layout import MARGIN, NARROW, NO_BREAK, VIEWS, WIDE, wrapped
from .panel import adopted, agreement, views_band

PITCH = 30    # from an entry to the next one
INDENT = 36   # from a mark to its words

STATES = [
    ("healthy", "in the view, judged healthy"),
    ("charged", "charged: in the view, judged 0"),
    ("leaves", "charged and leaves the view"),
    ("returns", "comes back into the view"),
    ("outside", "outside the view"),
    ("outside, judged 0", "outside the view, judged 0"),
    ("healths differ", "{who} differ about its health"),
    ("views differ", "{who} differ about the view"),
]
EVENTS = [
    ("loss to all", "loss: no module hears it in this round"),
    ("loss to some", "loss: some modules do not hear it"),
    ("lie to all", "lie: all modules hear a told word"),
    ("lie to some", "lie: some modules hear a told word"),
]
# only where there are such lies
UNHEARD = [
    ("wrong kind to all", "lie of wrong kind: no module hears it"),
    ("wrong kind to some", "lie of wrong kind: some modules do not hear it"),
    ("stray bits to all", "lie with stray bits: no module hears it"),
    ("stray bits to some", "lie with stray bits: some modules do not hear it"),
]


def legend(account, found, width, y):
    """The legend for the drawn columns, and the height of the whole picture."""
    listed = entries(account, found)
    across = 2 if width < 1000 else 3
    wide = (width - 2 * MARGIN) / across
    down = -(-len(listed) // across)
    y += 14
    parts = [svg.text(MARGIN, y, "Legend", 13, font_weight="bold")]
    for i, (sample, words) in enumerate(listed):
        parts += entry(sample, words, MARGIN + (i // down) * wide, y + 10 + (i % down) * PITCH, wide - INDENT)
    y += 10 + down * PITCH + 20
    for sentence in notes(account, found):
        for piece in wrapped(sentence, width - 2 * MARGIN):
            parts.append(svg.text(MARGIN, y, piece, 12))
            y += 17
    return parts, y + 8


def entries(account, found):
    """Each entry's mark and words."""
    who = "rule-followers" if account.of_followers else "modules"
    returns = any(marks.state(cell) == "returns" for column in found for cell in column.cells)
    listed = [(state_sample(name), words.format(who=who)) for name, words in STATES if name != "returns" or returns]
    listed += [(agreement(False, 0, WIDE, 1), f"row agreement: all {who} agree"),
               (agreement(True, 0, WIDE, 1), f"row agreement: {who} differ")]
    if account.adoption:
        listed += [(adopted(SAME, 0, WIDE, 1), f"row adopted: all {who} that are not out adopt the same view"),
                   (adopted(DIFFERENT, 0, WIDE, 1), f"row adopted: {who} adopt different views"),
                   (adopted(NOTHING, 0, WIDE, 1), f"row adopted: all {who} are out"),
                   (views_sample(False), "the module's own views, by letters: the local one, then the adopted one"),
                   (views_sample(True), "out: it adopts nothing any more, and its adopted view stays")]
    if account.script:
        drawn = {name for column in found for events in column.events.values() for name in marks.event_names(events, account.n)}
        listed += [(event_sample(name), words) for name, words in EVENTS + [entry for entry in UNHEARD if entry[0] in drawn]]
    if any(column.first != column.last for column in found):
        listed.append((folded_sample(), "a range of rounds without change; a mark in it stands for every round of it"))
    if account.first_out is not None:
        listed.append((broken_sample(), "the fault limit is broken from here on"))
    return listed


def entry(sample, words, x, y, width):
    """A mark and its words, beside its middle, in one line or two."""
    parts = [svg.group([sample], transform=f"translate({svg.number(x)} {svg.number(y)})")]
    pieces = wrapped(words, width)
    for i, piece in enumerate(pieces):
        parts.append(svg.text(x + INDENT, y + 15 + 14 * i - 7 * (len(pieces) - 1), piece, 12))
    return parts


def notes(account, found):
    said = [bands_note(account)]
    if account.scores:
        factor, limit = account.script.fading
        said.append(f"A charge adds 1.0 to a score, a good round multiplies it by {factor!r}; "
                    f"with a score of {limit!r} or more a module leaves the view.")
    if account.adoption:
        letters = ", ".join(f"{letter}{NO_BREAK}{view}" for view, letter in view_letters(found).items())
        said += ["How a module is judged goes by the local views, which follow from the printed health by rule 8; the bench prints the adopted ones.",
                 f"Views by their letters, module 1 leftmost: {letters}."]
    if account.script:
        said.append(f"What is judged in round k is round k − {2 * account.script.u + 1}, by the read places of this script.")
    else:
        said += ["The upper bands are empty because no script was given.", "If the setup is partitionable, the views are the adopted ones."]
    if account.of_followers and account.script.cast:
        said.append("Judged by the rule-followers; what rule-breakers print of others is not shown.")
    return said


def bands_note(account):
    """What the bands of a cell are."""
    above, below = "what was lost or told of the module's word in this round", "how the module is judged in this round"
    score = "its score after this round (or range), if that is not 0.0"
    if account.adoption:
        bands = [above, below, *([score] if account.scores else []), "the views that the module itself holds after this round"]
        return f"Each cell has {'four' if account.scores else 'three'} bands, from above: {'; '.join(bands)}."
    if account.scores:
        return f"Each cell has three bands: above, {above}; in the middle, {below}; below, {score}."
    return f"Each cell has two bands: above, {above}; below, {below}."


def views_sample(out):
    frame = svg.rect(0, 0, WIDE, VIEWS, fill="none", stroke="#9A9A9A", stroke_width=0.7)
    return views_band(Views("", "", out, "A B"), 0, 0, WIDE) + frame


def state_sample(name):
    frame = svg.rect(0, 0, WIDE, marks.JUDGED, fill="none", stroke="#9A9A9A", stroke_width=0.7)
    return marks.judged(name, 0, 0, WIDE) + frame


def event_sample(name):
    return marks.event(name, WIDE / 2, marks.JUDGED / 2)


def folded_sample():
    return svg.rect(3, 0, NARROW, marks.JUDGED, fill="none", stroke="#000", stroke_width=1.5, stroke_dasharray="2 3")


def broken_sample():
    return svg.line(WIDE / 2, 0, WIDE / 2, marks.JUDGED, stroke="#000", stroke_width=3.5)
