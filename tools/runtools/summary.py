"""A run in plain text: who was charged, who left the view and came back, when the limit was broken, whether the modules agreed; where the setup is
partitionable, which views were adopted and who took itself out."""

from .account import count_text, ms_text, plural, rounds_text
from .causes import Causes
from .causetext import cause_lines

MOST_CHANGES = 8    # lines of a module that came back, or that left with a score
MOST_ADOPTED = 24   # lines of adopted views


def summary(account):
    lines = head_lines(account) + limit_lines(account) + agreement_lines(account) + adoption_lines(account)
    lines += [""] + charge_lines(account)
    lines += [""] + score_lines(account) if account.scores else []
    lines += [""] + leaving_lines(account)
    returned = return_lines(account)
    lines += [""] + returned if returned else []
    lines += [""] + adopted_lines(account) + [""] + out_lines(account) if account.adoption else []
    return "\n".join(lines) + "\n"


def head_lines(account):
    rounds = len(account.run.rounds)
    lines = [f"{account.n} modules, {rounds:,} {plural(rounds, 'round')}"]
    script = account.script
    if script is None:
        return lines + ["cast:      unknown without --script; all modules are compared",
                        "views:     as printed; of a partitionable setup these are the adopted ones, while charges go by local ones (give --script)"]
    back = f", return {script.return_limit:,}" if script.return_limit else ""
    if script.fading:
        lines += ["fading:    factor {!r}, limit {!r}".format(*script.fading) + back]
    else:
        lines += [f"limits:    penalty {script.penalty_limit:,}, reward {script.reward_limit:,}{back}"]
    if script.partitionable:
        lines += ["views:     partitionable: the adopted views are printed; the local ones are worked out from the printed health by rule 8"]
    if not account.of_followers:
        return lines + ["cast:      all modules, so there is no rule-follower; all modules are compared"]
    return lines + [f"cast:      {labels(account, script.cast) or 'nobody'}"]


def limit_lines(account):
    if account.first_out is None:
        return ["limit:     kept in every round"]
    return [f"limit:     broken first in round {account.first_out}"]


def agreement_lines(account):
    who = "rule-followers" if account.of_followers else "modules"
    differing = account.differing_rounds()
    if not differing:
        return [f"agreement: all {who} gave the same health and {account.local}view in every round"]
    if not account.of_followers:
        note = "" if account.script else " (rule-breakers may; give --script to tell)"
        return [f"agreement: modules differ in {rounds_text(differing)}{note}"]
    faults = account.faults()
    if not faults:
        return [f"agreement: rule-followers differ in {rounds_text(differing)}, all after the limit was broken"]
    return ["", f"*** FAULT: rule-followers differ in {rounds_text(faults)} while the limit was kept.",
            "*** Demand 3 rules this out: keep the script and this output.",
            *detail_lines(account, faults[0])]


def detail_lines(account, number):
    """What each rule-follower says in a round in which they differ."""
    rows = account.run.rounds[number - 1].rows
    return [f"    round {number}, module {account.label(i)}: health {rows[i - 1][0]}, {account.local}view {rows[i - 1][1]}" for i in account.judges]


def adoption_lines(account):
    """Whether the printed views are the adopted ones, and whether two rule-followers adopted different ones."""
    if not account.adoption:
        return []
    wrong = account.adoption.wrong
    if wrong:
        number, module, printed, adopted = wrong[0]
        more = f" and in {len(wrong) - 1:,} more {plural(len(wrong) - 1, 'line')}" if len(wrong) > 1 else ""
        return ["", f"*** FAULT: the printed view is not the adopted one in round {number} of module {account.label(module)}{more}:",
                f"*** {printed} is printed, and by the printed health and the script it is {adopted}.",
                "*** Is it the script of this run? If so, keep the script and this output."]
    who = "rule-followers" if account.of_followers else "modules"
    differing = account.adoption.differing_rounds(account.judges)
    if not differing:
        return [f"adoption:  no two {who} adopted different views in a round"]
    senders = sorted({sender for number in differing for sender in account.adoption.two_faced(account.judges, number)})
    return [f"adoption:  {who} adopted different views in {rounds_text(differing)}; "
            f"they heard different view words of {plural(len(senders), 'module')} {labels(account, senders)}"]


def charge_lines(account):
    lines = [f"Charged (health 0 while in the {account.local}view):"]
    causes = Causes(account) if account.script else None
    for j, by_judges in enumerate(account.charges(), 1):
        for judges, rounds in in_order(by_judges):
            count = f"{len(rounds):,} {plural(len(rounds), 'charge')}"
            lines.append(f"  module {account.label(j)}: {count} in {rounds_text(rounds)}{by_whom(account, judges, CHARGED_BY)}")
            if causes:
                lines += ["    " + line for line in cause_lines(account.script, causes, j, rounds, judges)]
    return lines if len(lines) > 1 else lines + ["  nobody"]


def score_lines(account):
    """The highest score of each module that was charged."""
    factor, limit = account.script.fading
    lines = [f"Highest scores (a charge adds 1.0, a good round multiplies by {factor!r}, with {limit!r} or more a module leaves):"]
    for j, by_judges in enumerate(account.charges(), 1):
        if by_judges:
            score, number = account.scores.highest(j)
            lines.append(f"  module {account.label(j)}: {score!r} in round {number}")
    return lines if len(lines) > 1 else lines + ["  nobody was charged"]


def leaving_lines(account):
    lines = [f"Left the {account.local}view:"]
    for j, by_judges in enumerate(account.leavings(), 1):
        for judges, rounds in in_order(by_judges):
            for text in leaving_texts(account, j, rounds, judges):
                lines.append(f"  module {account.label(j)}: {text}{by_whom(account, judges, LEFT_FROM)}")
        left = {i for judges in by_judges for i in judges}
        stays = [i for i in account.judges if i not in left]
        if left and stays:
            lines.append(f"  module {account.label(j)}: still in the view of {labels(account, stays)}")
    return lines if len(lines) > 1 else lines + ["  nobody"]


def leaving_texts(account, module, rounds, judges):
    """In which rounds a module left; with fading one by one, each with the score that it left with."""
    if not account.scores:
        return [f"in {rounds_text(rounds)}"]
    texts = [f"in round {number} with {leaving_score(account, number, module, judges)}" for number in rounds[:MOST_CHANGES]]
    return texts + more_texts(rounds)


def leaving_score(account, number, module, judges):
    scores = account.scores.at(number, module, judges)
    text = f"score {scores[0]!r}" if len(scores) == 1 else f"scores from {scores[0]!r} to {scores[-1]!r}"
    # no run that the bench plays from the script comes here
    return text + (", below the limit (is it the script of this run?)" if scores[0] < account.script.fading.limit else "")


def more_texts(rounds):
    """What to say of more changes than have lines."""
    more = len(rounds) - MOST_CHANGES
    return [f"{more:,} {plural(more, 'time')} more, up to round {rounds[-1]}"] if more > 0 else []


def return_lines(account):
    """A line for each return; none at all where the script lets nobody come back and nobody did."""
    score = ", with score 0.0" if account.scores else ""
    lines = [f"Came back into the {account.local}view{score} (2.5 ms a round):"]
    for j, absences in enumerate(account.absences(), 1):
        for left, back, judges in absences[:MOST_CHANGES]:
            away = f"after {count_text(back - left)} outside"
            lines.append(f"  module {account.label(j)}: in round {back}, at {ms_text(back)}, {away}{by_whom(account, judges, BACK_INTO)}")
        lines += [f"  module {account.label(j)}: {text}" for text in more_texts([absence.back for absence in absences])]
    may_return = account.script is not None and account.script.return_limit > 0
    if len(lines) == 1:
        return lines + ["  nobody"] if may_return else []
    if account.script and not may_return:
        lines.append("  by the script's return limit nobody does (is it the script of this run?)")
    return lines


def adopted_lines(account):
    """A line for each round in which modules adopted another view, and each such view."""
    lines, before = ["Adopted another view (what the bench prints; full at the opening):"], ("1" * account.n,) * account.n
    for number, views in enumerate(account.adoption.views, 1):
        if views != before:
            changed = {}
            for module, view in enumerate(views, 1):
                if view != before[module - 1]:
                    changed.setdefault(view, []).append(module)
            lines += [f"  round {number}: {view}, by {labels(account, modules)}" for view, modules in changed.items()]
            before = views
    more = len(lines) - 1 - MOST_ADOPTED
    if more > 0:
        lines[1 + MOST_ADOPTED:] = [f"  and {more:,} {plural(more, 'time')} more"]
    return lines if len(lines) > 1 else lines + ["  nobody"]


def out_lines(account):
    """A line for each module that took itself out, and why."""
    n, adoption = account.n, account.adoption
    lines = [f"Took themselves out (some module had no value that more than half of all {n} view words carried):"]
    for module, (number, undecided, heard) in sorted(adoption.out.items(), key=lambda item: (item[1].number, item[0])):
        without = "any module" if len(undecided) == n else f"{plural(len(undecided), 'module')} {labels(account, undecided)}"
        words = f"{len(heard)} of {n} view words (of {labels(account, heard)})" if heard else f"none of {n} view words"
        lines.append(f"  module {account.label(module)}: in round {number}, no majority for {without}; "
                     f"in round {number - adoption.u} it heard {words}; it keeps {adoption.views[number - 1][module - 1]}")
    return lines if len(lines) > 1 else lines + ["  nobody"]


def in_order(by_judges):
    return sorted(by_judges.items(), key=lambda item: item[1])


# what to say of some judges only, and of all but some
CHARGED_BY = ", only by {}", ", but not by {}"
LEFT_FROM = ", from the view of {} only", ", but not from the view of {}"
BACK_INTO = ", into the view of {} only", ", but not into the view of {}"


def by_whom(account, judges, forms):
    """Nothing if it happened at all judges, else at whom it did, or at whom it did not, whichever are fewer."""
    only, but = forms
    others = [i for i in account.judges if i not in judges]
    if not others:
        return ""
    return only.format(labels(account, judges)) if len(judges) <= len(others) else but.format(labels(account, others))


def labels(account, modules):
    return ", ".join(map(account.label, modules))
