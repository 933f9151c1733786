"""The scores of a run with fading, after document 02's E9, by the health and view that the bench printed."""


class Scores:
    """The score that each judge has of each module, after every round."""

    def __init__(self, account):
        self._factor = account.script.fading.factor
        # for each round, before round 1 first: the scores of all modules, with the judges that hold them
        self._after = [{(0.0,) * account.n: account.judges}]
        for _, round_, before in account.rounds():
            self._after.append(self._next(self._after[-1], round_, before))

    def _next(self, held, round_, before):
        """What is held after a round: the same by judges that held and print the same."""
        found = {}
        for scores, judges in held.items():
            printed = {}
            for i in judges:
                printed.setdefault((before.rows[i - 1][1], *round_.rows[i - 1]), []).append(i)
            for rows, those in printed.items():
                found.setdefault(tuple(map(self._score, scores, *rows)), []).extend(those)
        return found

    def _score(self, score, seen, health, view):
        """A charge adds 1.0, a good round multiplies by the factor; outside the view the score stays, and a module that returns has 0.0."""
        if seen == "0":
            return 0.0 if view == "1" else score
        return score + 1.0 if health == "0" else score * self._factor

    def at(self, number, module, judges=None):
        """The scores, each once and in order, that these judges (all, if none are given) have of a module after a round."""
        held = self._after[number].items()
        return sorted({scores[module - 1] for scores, those in held if judges is None or not set(judges).isdisjoint(those)})

    def highest(self, module):
        """The highest score that any judge ever has of a module, and the first round after which it has it."""
        best = max(range(len(self._after)), key=lambda number: self.at(number, module)[-1])
        return self.at(best, module)[-1], best
