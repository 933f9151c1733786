"""Why a module was charged, as far as the script shows it, after rules 3 to 6 of document 01 and E4 and E5 of document 02.

A charge in round k judges the module's word of round r = k − 2u − 1, by the votes that were sent in round k − u. A vote against it
has one of three reasons: its word of round r did not reach the voter as sent; or it did, and reported otherwise than the vote on
what was heard in round r − u − 1, so that the voter accused it; or the voter lied.
"""

from collections import namedtuple

from .hearing import Hearing, differing
from .script import Events
from .words import STRAY_BITS, WRONG_KIND, modules_of

# It names no rounds, so that equal causes of neighbouring rounds are equal.
#   early       whether the round judged lies before round 1, where every word counts as heard
#   own         what became of its own word (an Outcome); None if it arrived
#   differed    whether those who heard its word as sent found that it reported otherwise than the vote
#   senders     why it differed: senders that it heard otherwise than those who decided the vote, as Sender
#   lied_about  why it differed: modules that others lied about, each with the liars
#   liars       modules that lied about it
#   explained   whether any of these explains a vote against it
Cause = namedtuple("Cause", "early own differed senders lied_about liars explained")

# what became of a word at its receivers, where it did not arrive as sent: lost, replaced by a told word that was heard, or replaced by
# one that was not, because of its kind or its stray bits
Outcome = namedtuple("Outcome", "losses lies wrong_kind stray_bits")
Sender = namedtuple("Sender", "module half_heard outcome")


class Causes:
    """The causes of a run's charges; it needs the script."""

    def __init__(self, account):
        self.hearing = Hearing(account.run, account.script)
        self._known = {}

    def of(self, module, number, judges):
        """The Cause of a charge of a module in a round by these judges."""
        u = self.hearing.u
        rounds = {number - u, number - u - 1, number - 2 * u - 1, number - 3 * u - 2}
        key = module, judges, tuple(self.hearing.alike(k) for k in sorted(rounds))
        if key not in self._known:
            self._known[key] = cause(self.hearing, module, number, judges)
        return self._known[key]

    def groups(self, module, rounds, judges):
        """First round, last round and Cause, for neighbouring rounds of equal cause."""
        group = None
        for number in rounds:
            found = self.of(module, number, judges)
            if group and group[1:] == (number - 1, found):
                group = group[0], number, found
            else:
                if group:
                    yield group
                group = number, number, found
        if group:
            yield group


def cause(hearing, module, number, judges):
    judged, voted = number - 2 * hearing.u - 1, number - hearing.u
    against = {vote for judge in judges for vote in votes_against(hearing, judge, module, voted)}
    liars = {voter for voter, lied in against if lied}
    honest = {voter for voter, lied in against if not lied}
    accusers = {voter for voter in honest if hearing.heard(voter, module, judged) == hearing.sent(module, judged)}
    senders, lied_about = differences(hearing, module, judged, accusers)
    own = own_outcome(hearing.script, module, judged)
    explained = bool(liars or honest - accusers or senders or lied_about)
    return Cause(judged < 1, own, bool(accusers), senders, lied_about, tuple(sorted(liars)), explained)


def votes(hearing, judge, module, voted):
    """Rule 4: the rows that vote on the module at this judge, by voter; where there are none, the judge's own syndrome decides. Only modules in
    the judge's view before its step vote (document 02, E4)."""
    voters = (voter for voter in range(1, hearing.n + 1) if voter != module and hearing.votes_at(judge, voter, voted + hearing.u))
    rows = ((voter, hearing.heard(judge, voter, voted)) for voter in voters)
    return {voter: row for voter, row in rows if row is not None} or {judge: hearing.sent(judge, voted)}


def votes_against(hearing, judge, module, voted):
    """Who votes against the module at this judge, each with whether that is a lie about it."""
    rows = votes(hearing, judge, module, voted)
    return [(voter, has(hearing.sent(voter, voted), module)) for voter, row in rows.items() if not has(row, module)]


def differences(hearing, module, judged, accusers):
    """Why the module's word differed from the vote at its accusers (rule 5): senders, and modules that were lied about."""
    reported = judged - hearing.u - 1
    senders, lied_about = set(), {}
    for accuser in accusers:
        health = hearing.health(accuser, judged + hearing.u)
        for other in modules_of(differing(hearing.sent(module, judged), health, module)):
            liars, honest = deciders(hearing, accuser, other, judged, has(health, other))
            found = heard_otherwise(hearing, module, other, honest, reported)
            senders.update(found)
            if liars and not found:
                lied_about.setdefault(other, set()).update(liars)
    named = (Sender(sender, hearing.half_heard(sender, reported), outcome(hearing.script, sender, reported)) for sender in sorted(senders))
    return tuple(named), tuple((other, tuple(sorted(liars))) for other, liars in sorted(lied_about.items()))


def heard_otherwise(hearing, module, other, voters, number):
    """The other module, if this one and some voter heard it otherwise in a round; else the senders whose votes they heard otherwise."""
    def differ(sender):
        return any(hearing.heard(voter, sender, number) != hearing.heard(module, sender, number) for voter in voters)

    return [other] if differ(other) else [sender for sender in range(1, hearing.n + 1) if differ(sender)]


def deciders(hearing, judge, module, voted, decided):
    """Who voted on the module at this judge as the vote decided: those who lied about it, and the others."""
    rows = votes(hearing, judge, module, voted)
    found = [voter for voter, row in rows.items() if has(row, module) == decided]
    liars = [voter for voter in found if has(hearing.sent(voter, voted), module) != decided]
    return liars, [voter for voter in found if voter not in liars]


def own_outcome(script, module, number):
    """What becomes of a module's word in a round on the way to the others; None if it arrives."""
    own = Outcome(*(tuple(i for i in receivers if i != module) for receivers in outcome(script, module, number)))
    return own if any(own) else None


def outcome(script, sender, number):
    """What the script does to a sender's word in a round."""
    events = script.events.get(number, {}).get(sender, Events([], []))
    told = (tuple(events.told(why, script.n)) for why in (None, WRONG_KIND, STRAY_BITS))
    return Outcome(tuple(events.losses), *told)


def has(vector, module):
    return bool(vector >> (module - 1) & 1)
