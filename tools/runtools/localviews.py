"""The local views of a run, by the printed health vectors alone: rule 8 of document 01, with document 02's E6 and E9.

A bench line has a module's view. Where the setup is partitionable that is the adopted one (document 02, E11), and the local one is not printed.
"""

import functools
from collections import namedtuple

from .lines import Round, Run

# what a module holds of another one: whether it is in the local view, its penalty (with fading its score), its reward, its return count
Counters = namedtuple("Counters", "present penalty reward count")


def with_local_views(run, script):
    """The run with local views in place of the printed ones."""
    after = functools.lru_cache(1024)(lambda counters, health: counters_after(script, counters, health))
    # the counters of all modules, with the modules that hold these
    held = {(Counters(True, 0.0 if script.fading else 0, 0, 0),) * run.n: range(run.n)}
    rounds, known = [], {}
    for round_ in run.rounds:
        healths = [health for health, _ in round_.rows]
        held = held_after(held, healths, after)
        views = {i: view for view, holders in zip(map(view_text, held), held.values()) for i in holders}
        made = Round(tuple((health, views[i]) for i, health in enumerate(healths)), round_.kept)
        # equal rounds are one object, as in the run that was read
        rounds.append(known.setdefault(made, made))
    return Run(run.n, rounds)


def held_after(held, healths, after):
    """What is held after a round: the same by modules that held and print the same."""
    found = {}
    for counters, holders in held.items():
        printed = {}
        for i in holders:
            printed.setdefault(healths[i], []).append(i)
        for health, those in printed.items():
            found.setdefault(after(counters, health), []).extend(those)
    return found


def view_text(counters):
    return "".join("1" if of.present else "0" for of in counters)


def counters_after(script, counters, health):
    """The counters of all modules after a round with this health vector."""
    of_present = faded if script.fading else counted
    return tuple(of_present(script, of, module, digit == "1") if of.present else awaited(script, of, digit == "1")
                 for of, module, digit in zip(counters, script.modules, health))


def counted(script, of, module, healthy):
    """A module in the view, by counts."""
    if not healthy:
        penalty = of.penalty + module.criticality
        return Counters(penalty <= script.penalty_limit, penalty, 0, 0)
    if not of.penalty:
        return of
    reward = of.reward + 1
    return Counters(True, 0, 0, 0) if reward == script.reward_limit else of._replace(reward=reward)


def faded(script, of, _, healthy):
    """A module in the view, by fading scores."""
    factor, limit = script.fading
    score = of.penalty * factor if healthy else of.penalty + 1.0
    return Counters(score < limit, score, 0, 0)


def awaited(script, of, healthy):
    """A module outside the view: it comes back after as many good rounds running as the return limit says."""
    count = of.count + 1 if healthy and script.return_limit else 0
    if count and count == script.return_limit:
        return Counters(True, 0.0 if script.fading else script.penalty_limit, 0, 0)
    return of._replace(count=count)
