"""The columns of a picture: one for each round, but a range of rounds in which nothing changes is one column."""

from collections import namedtuple

# first and last round; cells for each module; kept, differ and adopted for the strips; events by sender; of a partitionable setup the views that
# each module holds; with fading, the scores that the judges give each module after the last round
Column = namedtuple("Column", "first last cells kept differ events adopted views scores", defaults=[None, (), ()])

# the views that a module holds after a round, whether it is out, and their letters in the picture
Views = namedtuple("Views", "local adopted out letters", defaults=[""])

# what the judges that are not out adopted in a round: the same view, different ones, or nothing since all are out
SAME, DIFFERENT, NOTHING = "=", "≠", "–"

LEAST_RANGE = 3    # two rounds alike are drawn as they are


def columns(account, first=1, last=None):
    found = [with_scores(account, drawn) for column in alike(account, first, last) for drawn in unfolded(column)]
    letters = view_letters(found)
    return [with_letters(column, letters) for column in found]


def alike(account, first, last):
    """Columns of as many rounds running as are alike."""
    found = []
    for number, round_, before in account.rounds():
        if number < first:
            continue
        if last is not None and number > last:
            break
        events = account.script.events.get(number, {}) if account.script else {}
        new = Column(number, number, account.cells(round_, before), round_.kept, account.differ(round_), events, *views_after(account, number))
        if found and found[-1][2:] == new[2:]:
            found[-1] = found[-1]._replace(last=number)
        else:
            found.append(new)
    return found


def views_after(account, number):
    """What the judges adopted in a round, and the Views of each module after it; nothing where the setup is not partitionable."""
    adoption = account.adoption
    if not adoption:
        return None, ()
    by_judges = len(adoption.adopted(account.judges, number))
    adopted = DIFFERENT if by_judges > 1 else SAME if by_judges else NOTHING
    views = zip(account.run.rounds[number - 1].rows, adoption.views[number - 1])
    return adopted, tuple(Views(local, view, adoption.is_out(j, number)) for j, ((_, local), view) in enumerate(views, 1))


def view_letters(found):
    """A letter for each view that is held in these columns, in their order, the full view first."""
    held = {view: None for column in found for views in column.views for view in (views.local, views.adopted)}
    return {view: letter(i) for i, view in enumerate(sorted(held, key=lambda view: "0" in view))}


def letter(i):
    """A to Z, then AA, AB and so on."""
    return (letter(i // 26 - 1) if i >= 26 else "") + chr(ord("A") + i % 26)


def with_letters(column, letters):
    views = (view._replace(letters=f"{letters[view.local]} {letters[view.adopted]}") for view in column.views)
    return column._replace(views=tuple(views))


def unfolded(column):
    if column.last - column.first + 1 >= LEAST_RANGE:
        return [column]
    return [column._replace(first=number, last=number) for number in range(column.first, column.last + 1)]


def with_scores(account, column):
    """Scores begin no column: after a charge they fade in every round."""
    if not account.scores:
        return column
    return column._replace(scores=tuple(account.scores.at(column.last, module) for module in range(1, account.n + 1)))


def label(column):
    return str(column.first) if column.first == column.last else f"{column.first}–{column.last}"


def panels(found, width_of, most):
    """The columns cut into lines no wider than most."""
    rows, width = [[]], 0
    for column in found:
        if rows[-1] and width + width_of(column) > most:
            rows.append([])
            width = 0
        rows[-1].append(column)
        width += width_of(column)
    return rows
