"""What each module sent and heard in every round, from the script's events and the health and view that the bench printed.

Nothing is voted on here: with the printed health and view, rules 2, 5 and 6 of document 01, as document 02's E4 has them, give each module's
syndrome, and that is the word that it sends in the next round.
"""

from . import words as w


class Hearing:
    def __init__(self, run, script):
        self.run = run
        self.script = script
        self.n = run.n
        self.u = script.u
        self._fresh = (w.all_modules(run.n),) * run.n
        self._altered = {number: altered(events, run.n) for number, events in script.events.items()}
        self._sent = [self._fresh]
        known = {}
        for number in range(1, len(run.rounds)):
            # rounds alike give the same syndromes, so that long runs need little time
            key = self.alike(number - self.u), self.alike(number), self._views(number - 1)
            if key not in known:
                known[key] = self._syndromes(number)
            self._sent.append(known[key])

    def alike(self, number):
        """Equal for two rounds in which the same was sent, lost, told and judged."""
        if number < 1:
            return None
        return self._sent[number - 1], id(self._altered.get(number)), id(self.run.rounds[number - 1])

    def sent(self, sender, number):
        """The syndrome that a sender handed out for a round; all ones before round 1."""
        return (self._sent[number - 1] if number > 0 else self._fresh)[sender - 1]

    def heard(self, receiver, sender, number):
        """The row that a receiver heard from a sender in a round, None if it heard nothing."""
        rows = self._altered.get(number, {})
        return rows[sender, receiver] if (sender, receiver) in rows else self.sent(sender, number)

    def health(self, module, number):
        """The health vector that a module printed in a round; all ones before round 1."""
        return w.vector_mask(self.run.rounds[number - 1].rows[module - 1][0]) if number > 0 else w.all_modules(self.n)

    def votes_at(self, receiver, sender, number):
        """E4: whether a sender's row votes and can be accused in a receiver's step of a round: by its view after the round before."""
        return bool(self._views(number - 1)[receiver - 1] >> (sender - 1) & 1)

    def _views(self, number):
        """The view that each module printed in a round; full before round 1."""
        if number < 1:
            return self._fresh
        return tuple(w.vector_mask(row[1]) for row in self.run.rounds[number - 1].rows)

    def half_heard(self, sender, number):
        """Document 01: two rule-followers differ in hearing the sender, or hear different words."""
        return len({self.heard(i, sender, number) for i in self.script.followers}) > 1

    def _syndromes(self, number):
        """Rules 5 and 6 at each module: who is heard after alignment, and not accused; nobody outside the view is."""
        modules, aligned = range(1, self.n + 1), number - self.u
        healths, views = [self.health(i, number) for i in modules], self._views(number - 1)
        as_sent = {health: w.mask_of(j for j in modules if not differing(self.sent(j, aligned), health, j)) for health in set(healths)}
        found = [as_sent[health] | w.all_modules(self.n) & ~view for health, view in zip(healths, views)]
        for (sender, receiver), row in self._altered.get(aligned, {}).items():
            outside = not self.votes_at(receiver, sender, number)
            good = row is not None and (outside or not differing(row, healths[receiver - 1], sender))
            place = w.mask_of([sender])
            found[receiver - 1] = found[receiver - 1] | place if good else found[receiver - 1] & ~place
        return tuple(found)


def altered(events, n):
    """What arrives in place of a sent word, by sender and receiver: nothing (None), or the told row if it is heard (rule 2)."""
    rows = {}
    for sender, found in events.items():
        rows.update(((sender, receiver), None) for receiver in found.losses)
        rows.update(((sender, lie.receiver), w.value(lie.word) if w.is_heard(lie.word, n) else None) for lie in found.lies)
    return rows


def differing(row, health, sender):
    """Where a row differs from a health vector, leaving out the sender's own place (rule 5)."""
    return (row ^ health) & ~(1 << (sender - 1))
