"""Which views the modules of a partitionable setup adopt, after document 02's E11.

A module sends its local view as its view word, on the bus in the next round. From the view words of round k − u that a module hears it adopts,
in round k, of each module the value that more than half of all N carry. Where some module has no such value it takes itself out: it adopts
nothing any more, and its adopted view stays. All this follows from the local views and from the script, so the views that the bench printed can
be checked.
"""

import functools
from collections import namedtuple

from . import words as w

# in which round a module took itself out, the modules of which no value had a majority, and those whose view words it heard
Out = namedtuple("Out", "number undecided heard")
# a printed view that is not the adopted one
Wrong = namedtuple("Wrong", "number module printed adopted")
# a vote on view words: the adopted view, and the modules of which no value has a majority
Vote = namedtuple("Vote", "adopted undecided")


class Adoption:
    """By the run as it was printed, the same run with local views, and its script."""

    def __init__(self, printed, local, script):
        self.n = printed.n
        self.u = script.u
        # the printed views of each round
        self.views = views_of(printed)
        self._local = views_of(local)
        self._altered = {number: altered(events, self.n) for number, events in script.events.items()}
        # an Out for each module that took itself out; every printed view that is not the adopted one
        self.out, self.wrong = {}, []
        self._adopt()

    def _adopt(self):
        adopted = [full(self.n)] * self.n
        for number, views in enumerate(self.views, 1):
            for module in range(1, self.n + 1):
                if module not in self.out:
                    adopted[module - 1] = self._vote(module, number) or adopted[module - 1]
            if views != tuple(adopted):
                pairs = enumerate(zip(views, adopted), 1)
                self.wrong += [Wrong(number, module, *pair) for module, pair in pairs if pair[0] != pair[1]]

    def _vote(self, module, number):
        """The view that a module adopts in a round; None where it takes itself out."""
        heard = self.heard(module, number - self.u)
        adopted, undecided = vote_on(heard)
        if undecided:
            self.out[module] = Out(number, undecided, tuple(j for j, view in enumerate(heard, 1) if view))
        return adopted

    def sent(self, number):
        """The view that each module hands out for a round: its local view after the round before, and the full one up to round 1."""
        return self._local[number - 2] if number > 1 else (full(self.n),) * self.n

    def heard(self, receiver, number):
        """The view that a receiver hears from each module in a round; None where it hears no view word."""
        changed, sent = self._altered.get(number, {}).get(receiver), self.sent(number)
        return tuple(changed.get(sender, view) for sender, view in enumerate(sent, 1)) if changed else sent

    def is_out(self, module, number):
        """Whether a module is out after a round."""
        return module in self.out and self.out[module].number <= number

    def adopted(self, modules, number):
        """The views that those of these modules that are not out adopted in a round, each once."""
        return {self.views[number - 1][j - 1] for j in modules if not self.is_out(j, number)}

    def differing_rounds(self, modules):
        """Rounds in which two of these modules adopted different views."""
        return [number for number in range(1, len(self.views) + 1) if len(self.adopted(modules, number)) > 1]

    def two_faced(self, modules, number):
        """Senders of which two of these modules heard different view words in the round that a round's views are adopted from."""
        heard = [self.heard(receiver, number - self.u) for receiver in modules]
        return [sender for sender, views in enumerate(zip(*heard), 1) if len(set(views) - {None}) > 1]


def views_of(run):
    """The views of each round; those of equal rounds are one object."""
    known = {id(round_): tuple(view for _, view in round_.rows) for round_ in run.rounds}
    return [known[id(round_)] for round_ in run.rounds]


def full(n):
    return "1" * n


def altered(events, n):
    """What arrives in place of a view word, by receiver and sender: nothing (None), or the told view if it is heard."""
    found = {}
    for sender, happened in events.items():
        for receiver in happened.losses:
            found.setdefault(receiver, {})[sender] = None
        for lie in happened.lies:
            heard = w.is_heard(lie.view, n, w.VIEW)
            found.setdefault(lie.receiver, {})[sender] = w.vector_text(lie.view, n) if heard else None
    return found


@functools.lru_cache(4096)
def vote_on(heard):
    """The Vote on the views heard from all N modules; None is missing and counts for N all the same."""
    values = [majority([view[j] for view in heard if view], len(heard)) for j in range(len(heard))]
    undecided = tuple(j for j, value in enumerate(values, 1) if value is None)
    return Vote(None if undecided else "".join(values), undecided)


def majority(values, n):
    """The value that more than half of all n carry, or None."""
    return next((value for value in "10" if 2 * values.count(value) > n), None)
