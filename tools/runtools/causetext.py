"""The causes of charges in words."""

from .account import plural, rounds_text
from .words import STRAY_BITS, WRONG_KIND

MOST_CAUSES = 8      # lines below a line of charges
MOST_SENDERS = 2     # of whom a line says what became of their words
MOST_NAMES = 3       # longer lists of modules have their numbers only


def cause_lines(script, causes, module, rounds, judges):
    """A line for each group of neighbouring charges of the same cause."""
    lines, told = [], 0
    for first, last, cause in causes.groups(module, rounds, judges):
        if len(lines) == MOST_CAUSES:
            left = len(rounds) - told
            return lines + [f"and {left:,} more {plural(left, 'charge')} up to round {rounds[-1]}"]
        lines.append(f"{span(first, last)}: {sentence(script, module, cause, first, last)}")
        told += last - first + 1
    return lines


def sentence(script, module, cause, first, last):
    """The cause of a module's charges in rounds first to last."""
    u = script.u
    judged, reported, voted = (span(first - back, last - back) for back in (2 * u + 1, 3 * u + 2, u))
    text = "before round 1 every word arrives" if cause.early else own_text(script, module, cause.own, judged, last > first)
    clauses = []
    if cause.differed:
        clauses.append(difference_text(script, cause, judged, reported))
    if cause.liars:
        clauses.append(f"{modules_label(script, cause.liars)} lied about it in {voted}")
    if clauses:
        text += ("; " if cause.own else ", but ") + "; ".join(clauses)
    # no run that the bench plays from the script comes here
    return text if cause.explained else text + "; nothing in the script explains it (is it the script of this run?)"


def own_text(script, module, own, judged, several):
    words, was = ("words", "were") if several else ("word", "was")
    return f"its {words} of {judged} " + (f"{was} {outcome_text(script, module, own)}" if own else "arrived")


def difference_text(script, cause, judged, reported):
    """That its word differed from the vote, and why; reported are the rounds on which the words of the rounds judged report."""
    why = [sender_text(script, sender, reported) for sender in cause.senders]
    if len(why) > MOST_SENDERS:
        why = [f"in {reported} it heard {modules_label(script, [sender.module for sender in cause.senders])} otherwise than others"]
    for other, liars in cause.lied_about:
        why.append(f"{modules_label(script, liars)} lied about {modules_label(script, [other])} in {judged}")
    text = "where it was heard, it reported otherwise than the vote" if cause.own else "reported otherwise than the vote"
    return text + (": " + ", and ".join(why) if why else "")


def sender_text(script, sender, reported):
    label, happened = modules_label(script, [sender.module]), outcome_text(script, sender.module, sender.outcome)
    if sender.half_heard:
        return f"{label} was half heard in {reported} ({happened})"
    return f"what {label} sent in {reported} was {happened}"


def outcome_text(script, sender, outcome):
    found = [("lost", outcome.losses), (replaced("a lie", "lies", outcome.lies), outcome.lies)]
    for cause, receivers in ((WRONG_KIND, outcome.wrong_kind), (STRAY_BITS, outcome.stray_bits)):
        found.append((f"{replaced('an unheard lie', 'unheard lies', receivers)} ({cause})", receivers))
    parts = [f"{what} to {to_whom(script, sender, receivers)}" for what, receivers in found if receivers]
    return " and ".join([", ".join(parts[:-1]), parts[-1]] if len(parts) > 1 else parts)


def replaced(one, several, receivers):
    return "replaced by " + (one if len(receivers) == 1 else several)


def to_whom(script, sender, receivers):
    """Receivers in words, the sender itself left out; where they are most of the modules, by those who are not among them."""
    others = [i for i in range(1, script.n + 1) if i != sender]
    named = [i for i in others if i in receivers] or receivers
    left = [i for i in others if i not in receivers]
    if not left:
        return "everybody"
    if 2 * len(left) < len(named):
        return "everybody but " + labels(script, left)
    return modules_label(script, named)


def modules_label(script, modules):
    return f"{plural(len(modules), 'module')} {labels(script, modules)}"


def labels(script, modules):
    return ", ".join(map(script.label if len(modules) <= MOST_NAMES else str, modules))


def span(first, last):
    return rounds_text(range(first, last + 1))
