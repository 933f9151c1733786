"""What stands above the panels of a picture: the title, and in sentences what happened in the run."""

from . import svg
from .account import plural, rounds_at, rounds_text
from .layout import MARGIN, NO_BREAK, wrapped


def heading(account, title, found, width):
    """The title and the sentences for the drawn columns, and where the panels begin."""
    parts, y = [], MARGIN - 6
    for piece in wrapped(title, width - 2 * MARGIN, 18, bold=True):
        y += 22
        parts.append(svg.text(MARGIN, y, piece, 18, font_weight="bold"))
    for sentence, loud in sentences(account, drawn_part(account, found)):
        for piece in wrapped(sentence, width - 2 * MARGIN, bold=loud):
            y += 19
            if loud:
                parts.append(svg.rect(MARGIN - 6, y - 14, width - 2 * MARGIN + 12, 19, fill="#000"))
            parts.append(svg.text(MARGIN, y, piece, 12, fill="#fff" if loud else None, font_weight="bold" if loud else None))
    return parts, y + 14


def drawn_part(account, found):
    """What to say where not all rounds are drawn."""
    first, last = found[0].first, found[-1].last
    return "" if (first, last) == (1, len(account.run.rounds)) else f"; drawn here: rounds {first} to {last}"


def sentences(account, part):
    """The sentences under the title, each with whether it is a fault."""
    rounds = len(account.run.rounds)
    about = f"{account.n} modules, {rounds:,} {plural(rounds, 'round')}{part}"
    script = account.script
    if script:
        cast = ", ".join(whole(account.label(j)) for j in script.cast) or "nobody"
        about += f"; {limits_text(script)}; cast: {cast}"
    said = [(about + ".", False), (limit_sentence(account), False), (agreement_sentence(account), bool(account.faults())),
            (leaving_sentence(account), False)]
    returned = return_sentence(account)
    said += [(returned, False)] if returned else []
    return said + [(adoption_sentence(account), bool(account.adoption.wrong)), (out_sentence(account), False)] if account.adoption else said


def limits_text(script):
    back = f", return limit {script.return_limit:,}" if script.return_limit else ""
    back += "; partitionable" if script.partitionable else ""
    if script.fading:
        return "fading: factor {!r}, limit {!r}".format(*script.fading) + back
    return f"penalty limit {script.penalty_limit:,}, reward limit {script.reward_limit:,}{back}"


def limit_sentence(account):
    if account.first_out is None:
        return "The fault limit was kept in every round."
    return f"The fault limit was broken first in round {account.first_out}."


def agreement_sentence(account):
    who = "rule-followers" if account.of_followers else "modules"
    differing = account.differing_rounds()
    if not differing:
        return f"All {who} gave the same health and {account.local}view in every round."
    faults = account.faults()
    rounds = rounds_text(faults or differing, 6)
    if faults:
        return f"FAULT: rule-followers differ while the limit was kept, in {rounds}."
    return f"The {who} differ in {rounds}."


def leaving_sentence(account):
    left = view_texts(account, account.leavings(), FROM)
    return f"Left the {account.local}view: {'; '.join(left) or 'nobody'}."


def return_sentence(account):
    """Nothing where nobody came back."""
    back = view_texts(account, account.returns(), INTO)
    return f"Came back into the {account.local}view: {'; '.join(back)}." if back else ""


def adoption_sentence(account):
    """Whether the printed views are the adopted ones, and whether two judges adopted different ones."""
    if account.adoption.wrong:
        number, module, *_ = account.adoption.wrong[0]
        return (f"FAULT: printed views are not the adopted ones, first in round {number} of module {whole(account.label(module))} "
                "(is it the script of this run?).")
    who = "rule-followers" if account.of_followers else "modules"
    differing = account.adoption.differing_rounds(account.judges)
    return f"The {who} adopted different views in {rounds_text(differing, 6)}." if differing else f"No two {who} adopted different views in a round."


def out_sentence(account):
    by_round = {}
    for module, out in sorted(account.adoption.out.items()):
        by_round.setdefault(out.number, []).append(whole(account.label(module)))
    left = (f"{', '.join(modules)} in{NO_BREAK}round{NO_BREAK}{number}" for number, modules in sorted(by_round.items()))
    return f"Took themselves out: {'; '.join(left) or 'nobody'}."


# what to say where the judges differ: of the first of them, of the last, and of all if some are left out
FROM = "from the first view", "from the last", "still in {left} of {all} views"
INTO = "into the first view", "into the last", "into {done} of {all} views"


def view_texts(account, changes, forms):
    """Each module with the rounds of its changes, for those that have any; broken at its commas alone."""
    found = [account.label(j) + " in " + rounds_by_judges(account, by_judges, forms) for j, by_judges in enumerate(changes, 1) if by_judges]
    return [", ".join(map(whole, text.split(", "))) for text in found]


def rounds_by_judges(account, by_judges, forms):
    """The rounds in which a module left the view or came back; where the judges differ, when it first did at the first of them and at the last."""
    if list(by_judges) == [tuple(account.judges)]:
        return rounds_text(by_judges[tuple(account.judges)], 6)
    at_first, at_last, at_some = forms
    rounds = {judge: rounds_at(by_judges, judge) for judge in account.judges}
    firsts = [found[0] for found in rounds.values() if found]
    text = f"round {min(firsts)}"
    if len(firsts) < len(rounds):
        text += f" {at_first}, " + at_some.format(done=len(firsts), left=len(rounds) - len(firsts), all=len(rounds))
    elif min(firsts) < max(firsts):
        text += f" {at_first}, in round {max(firsts)} {at_last}"
    last = max(found[-1] for found in rounds.values() if found)
    return text + (f", again up to round {last}" if any(len(found) > 1 for found in rounds.values()) else "")


def whole(text):
    """The text without line breaks."""
    return text.replace(" ", NO_BREAK)
