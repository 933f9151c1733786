"""What happened in a run: charges, who left the view and came back, who differed, when the fault limit was broken."""

from collections import namedtuple

from .adoption import Adoption
from .lines import Round
from .localviews import with_local_views
from .scores import Scores

# How the judges see a module after a round; None where they differ.
#   before, after   in the view before and after the round
#   health          judged healthy in the round
Cell = namedtuple("Cell", "before after health")

# A module that was outside the view of these judges from the end of round left to the end of round back.
Absence = namedtuple("Absence", "left back judges")

ROUND_MS = 2.5    # a round of the backplane


class Account:
    """The run as its judges saw it: the rule-followers, or all modules where the cast is unknown or is everybody. Views are the local ones, by which
    the rules go; what a partitionable setup adopts, and the bench then prints, is told by adoption."""

    def __init__(self, run, script=None):
        self.run = run
        self.adoption = None
        if script and script.partitionable:
            self.run = with_local_views(run, script)
            self.adoption = Adoption(run, self.run, script)
        self.script = script
        self.n = run.n
        followers = script.followers if script else []
        self.judges = followers or list(range(1, run.n + 1))
        self.of_followers = bool(followers)
        # rounds live as long as the account, so their ids are good keys
        self._fresh = Round((("1" * run.n, "1" * run.n),) * run.n, True)
        self._known = {}
        self.scores = Scores(self) if script and script.fading else None
        self.first_out = next((k for k, round_ in enumerate(run.rounds, 1) if not round_.kept), None)

    def label(self, module):
        return self.script.label(module) if self.script else str(module)

    @property
    def local(self):
        """What stands before the word view: where the bench prints adopted views, all that is told here is of local ones."""
        return "local " if self.adoption else ""

    def rounds(self):
        """Number, round, and the round before, for every round."""
        before = self._fresh
        for number, round_ in enumerate(self.run.rounds, 1):
            yield number, round_, before
            before = round_

    def cells(self, round_, before):
        """A Cell for each module in turn."""
        key = id(round_), id(before)
        if key not in self._known:
            self._known[key] = tuple(self._cell(j, round_, before) for j in range(self.n))
        return self._known[key]

    def _cell(self, j, round_, before):
        return Cell(one({before.rows[i - 1][1][j] for i in self.judges}),
                    one({round_.rows[i - 1][1][j] for i in self.judges}),
                    one({round_.rows[i - 1][0][j] for i in self.judges}))

    def differ(self, round_):
        """Whether the judges differ in health or local view after this round."""
        return len({round_.rows[i - 1] for i in self.judges}) > 1

    def differing_rounds(self):
        return [k for k, round_, _ in self.rounds() if self.differ(round_)]

    def faults(self):
        """Rounds in which rule-followers differ while the limit was kept: demand 3 rules them out."""
        if not self.of_followers:
            return []
        return [k for k in self.differing_rounds() if self.run.rounds[k - 1].kept]

    def charges(self):
        """For each module: rounds by those judges who charged it (health 0 of a module in their view)."""
        return self._by_judges(lambda seen, health, view: seen == "1" and health == "0")

    def leavings(self):
        """For each module: rounds by those judges whose view it left."""
        return self._by_judges(lambda seen, health, view: seen == "1" and view == "0")

    def returns(self):
        """For each module: rounds by those judges into whose view it came back."""
        return self._by_judges(lambda seen, health, view: seen == "0" and view == "1")

    def absences(self):
        """For each module: its absences that ended, by the round in which it came back."""
        return [ended_absences(*both) for both in zip(self.leavings(), self.returns())]

    def _by_judges(self, happened):
        """For each module a dictionary from judges to the rounds in which it happened at exactly these."""
        found = [{} for _ in range(self.n)]
        known = {}
        for number, round_, before in self.rounds():
            key = id(round_), id(before)
            if key not in known:
                known[key] = self._judges_where(happened, round_, before)
            for j, judges in known[key]:
                found[j].setdefault(judges, []).append(number)
        return found

    def _judges_where(self, happened, round_, before):
        """Modules with the judges at whom it happened, where there are any."""
        said = {}
        for i in self.judges:
            said.setdefault((before.rows[i - 1][1], *round_.rows[i - 1]), []).append(i)
        result = []
        for j in range(self.n):
            judges = [i for (seen, health, view), those in said.items() if happened(seen[j], health[j], view[j]) for i in those]
            if judges:
                result.append((j, tuple(sorted(judges))))
        return result


def ended_absences(left, back):
    """The absences of a module, from the rounds by judges in which it left and came back. In each view it leaves first, for a fresh view is full."""
    judges_of = {}
    for judge in sorted({judge for judges in back for judge in judges}):
        for span in zip(rounds_at(left, judge), rounds_at(back, judge)):
            judges_of.setdefault(span, []).append(judge)
    return sorted((Absence(*span, tuple(judges)) for span, judges in judges_of.items()), key=lambda absence: (absence.back, absence.left))


def rounds_at(by_judges, judge):
    """The rounds at one judge, in order."""
    return sorted(number for judges, rounds in by_judges.items() if judge in judges for number in rounds)


def one(values):
    """True or False for the one digit in a set, None if both are there."""
    return None if len(values) > 1 else values == {"1"}


def ranges_text(rounds, most=12):
    """Round numbers as text, with ranges: 2, 5 to 9."""
    spans = []
    for number in rounds:
        if spans and spans[-1][1] == number - 1:
            spans[-1][1] = number
        else:
            spans.append([number, number])
    shown = [str(a) if a == b else f"{a} to {b}" for a, b in spans[:most]]
    if len(spans) > most:
        later = sum(b - a + 1 for a, b in spans[most:])
        shown.append(f"and {later:,} more up to {rounds[-1]}")
    return ", ".join(shown)


def rounds_text(rounds, most=12):
    return f"{plural(len(rounds), 'round')} {ranges_text(rounds, most)}"


def count_text(rounds):
    """A number of rounds, with the time that they take."""
    return f"{rounds:,} {plural(rounds, 'round')} ({ms_text(rounds)})"


def ms_text(rounds):
    return f"{rounds * ROUND_MS:,.1f} ms".replace(".0 ms", " ms")


def plural(count, noun):
    return noun if count == 1 else noun + "s"
