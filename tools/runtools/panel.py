"""A panel of a picture: one line of columns, with a row for the fault limit, one for agreement, one for what was adopted where the setup is
partitionable, and one for each module."""

from . import marks, svg
from .columns import DIFFERENT, label
from .disassemble import modules_text, told_text
from .layout import MARGIN, STRIP, VIEWS, module_label, row_height, score_text, strips_height, width_of
from .words import VIEW, mask_of, why_unheard


def panel_height(account, row):
    return header_height(row) + 4 + strips_height(account) + 4 + account.n * row_height(account) + 20


def panel(account, row, left, y):
    """The panel whose columns begin at left and whose labels begin at y."""
    top = y + header_height(row) + 4
    cells_top = top + strips_height(account) + 4
    height = row_height(account)
    bottom = cells_top + account.n * height
    parts = row_labels(account, left, top, cells_top)
    x = left
    for column in row:
        parts.append(column_parts(account, column, x, top, cells_top))
        x += width_of(column)
    parts.append(svg.rect(left, cells_top, x - left, account.n * height, fill="none", stroke="#000"))
    for j in range(1, account.n):
        parts.append(svg.line(MARGIN + 6, cells_top + j * height, x, cells_top + j * height, stroke="#000", stroke_width=0.7))
    middle = (cells_top + bottom) / 2
    parts.append(svg.text(MARGIN - 4, middle, "module", 11, text_anchor="middle",
                          transform=f"rotate(-90 {MARGIN - 4} {svg.number(middle)})"))
    parts.append(broken_line(account, row, left, top, bottom))
    return parts


def header_height(row):
    """Short labels lie across, long ones stand."""
    return max(14 if lies_across(column) else round(svg.text_width(label(column), 11)) + 6 for column in row)


def lies_across(column):
    return column.first == column.last and len(label(column)) <= 3


def row_labels(account, left, top, cells_top):
    right = left - 8
    parts = [svg.text(right, top - 6, "round", 11, text_anchor="end"),
             svg.text(right, top + 13, "fault limit", 11, text_anchor="end"),
             svg.text(right, top + STRIP + 13, "agreement", 11, text_anchor="end")]
    if account.adoption:
        parts.append(svg.text(right, top + 2 * STRIP + 13, "adopted", 11, text_anchor="end"))
    for j in range(1, account.n + 1):
        y = cells_top + (j - 1) * row_height(account)
        breaker = account.script is not None and j in account.script.cast
        parts.append(svg.text(right, y + (15 if breaker else 21), module_label(account, j), 12, text_anchor="end", font_weight="bold"))
        if breaker:
            parts.append(svg.text(right, y + 28, "in the cast", 10, text_anchor="end", font_style="italic"))
    return parts


def column_parts(account, column, x, top, cells_top):
    width, middle, height = width_of(column), x + width_of(column) / 2, row_height(account)
    parts = [header(column, middle, top), *strips(column, x, width, top)]
    folded = column.first != column.last
    for j, cell in enumerate(column.cells, 1):
        y = cells_top + (j - 1) * height
        happened = column.events.get(j)
        drawn = [svg.rect(x, y, width, height, fill="#fff"),
                 marks.judged(marks.state(cell), x, y + marks.BAND, width),
                 svg.line(x, y + marks.BAND, x + width, y + marks.BAND, stroke="#D0D0D0", stroke_width=0.7)]
        if happened:
            drawn.append(marks.events(happened, account.n, x, y, width))
        if column.scores:
            drawn += score_band(score_text(column.scores[j - 1]), x, y + marks.BAND + marks.JUDGED, width)
        if column.views:
            drawn.append(views_band(column.views[j - 1], x, y + height - VIEWS, width))
        parts.append(svg.group(drawn, cell_title(account, column, j, cell)))
    parts.append(svg.line(x, cells_top, x, cells_top + account.n * height, stroke="#9A9A9A", stroke_width=0.7))
    if folded:
        parts.append(svg.rect(x, cells_top, width, account.n * height, fill="none", stroke="#000", stroke_width=1.5, stroke_dasharray="2 3"))
    return svg.group(parts)


def score_band(text, x, y, width):
    border = svg.line(x, y, x + width, y, stroke="#D0D0D0", stroke_width=0.7)
    return [border, svg.text(x + width / 2, y + 11, text, 10, text_anchor="middle")] if text else [border]


def views_band(views, x, y, width):
    """The letters of a module's views, white on black where it is out."""
    border = svg.line(x, y, x + width, y, stroke="#D0D0D0", stroke_width=0.7)
    ground = svg.rect(x, y, width, VIEWS, fill="#000") if views.out else border
    return ground + svg.text(x + width / 2, y + 12, views.letters, 10, text_anchor="middle", fill="#fff" if views.out else None)


def header(column, middle, top):
    if lies_across(column):
        return svg.text(middle, top - 6, label(column), 11, text_anchor="middle")
    return svg.text(middle + 4, top - 6, label(column), 11, transform=f"rotate(-90 {svg.number(middle + 4)} {svg.number(top - 6)})")


def strips(column, x, width, top):
    """The cells of the fault limit, of agreement, and of what was adopted."""
    drawn = [strip("in" if column.kept else "out", not column.kept, 10, x, width, top),
             agreement(column.differ, x, width, top + STRIP)]
    return drawn + [adopted(column.adopted, x, width, top + 2 * STRIP)] if column.adopted else drawn


def agreement(differ, x, width, y):
    return strip("≠" if differ else "=", differ, 13, x, width, y)


def adopted(sign, x, width, y):
    return strip(sign, sign == DIFFERENT, 13, x, width, y)


def strip(word, dark, size, x, width, y):
    return (svg.rect(x, y, width, STRIP, fill="#000" if dark else "#fff", stroke="#9A9A9A", stroke_width=0.7)
            + svg.text(x + width / 2, y + 13, word, size, text_anchor="middle", fill="#fff" if dark else "#444",
                       font_weight="bold" if dark else None))


def broken_line(account, row, left, top, bottom):
    """A thick line before the round in which the limit was broken."""
    x = left
    for column in row:
        if column.first == account.first_out:
            return svg.line(x, top - 2, x, bottom + 6, stroke="#000", stroke_width=3.5)
        x += width_of(column)
    return ""


def cell_title(account, column, module, cell):
    """What a browser shows under the pointer."""
    said = [f"round {label(column)}, module {module_label(account, module)}: {marks.state(cell)}{score_title(column, module)}"]
    if column.views:
        views = column.views[module - 1]
        said.append(f"it holds the local view {views.local} and the adopted view {views.adopted}" + (", and is out" if views.out else ""))
    found = column.events.get(module)
    if found:
        if found.losses:
            said.append(f"loss to {modules_text(mask_of(found.losses), account.n)}")
        for told in sorted({lie[1:] for lie in found.lies}):
            receivers = mask_of(lie.receiver for lie in found.lies if lie[1:] == told)
            said.append(f"lie to {modules_text(receivers, account.n)} {told_text(*told, account.n)}{unheard_text(*told, account.n)}")
    return "\n".join(said)


def unheard_text(told, view, n):
    """Why a told word, or a told view word, is not heard; nothing where it is."""
    why, why_view = why_unheard(told, n), None if view is None else why_unheard(view, n, VIEW)
    return (f", not heard: {why}" if why else "") + (f", view not heard: {why_view}" if why_view else "")


def score_title(column, module):
    """With fading, the whole score; of a range of rounds that after the last."""
    if not column.scores:
        return ""
    after = "" if column.first == column.last else f" after round {column.last}"
    return f", score {' or '.join(map(repr, column.scores[module - 1]))}{after}"
