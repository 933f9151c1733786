import unittest

from common import SHEET, bench, needs_bench, printed, read, root, stored

from runtools import check, script
from runtools import words as w
from runtools.account import Account
from runtools.assemble import assemble
from runtools.causes import Causes
from runtools.hearing import Hearing
from runtools.lines import read_run
from runtools.summary import summary

# no module leaves, so that every charge is told
SETUP = SHEET.split("cast")[0].replace("penalty limit 1", "penalty limit 1000")
EARLY = SETUP.replace("module 2 place 4", "module 2 place 1").replace("module 3 place 4", "module 3 place 2")


def charged(run, setup=SETUP, output=None):
    """The lines of the summary about charges, of a script that the bench plays."""
    text = setup + run
    output = output or bench(assemble(text).data())
    told = summary(Account(read_run(output.splitlines(True)), script.load(text.encode(), "text")))
    return told.split("Charged (health 0 while in the view):\n")[1].split("\nLeft")[0]


def vote(hearing, judge, module, number):
    """Rule 4, by the words that the judge heard."""
    voters = (voter for voter in range(1, hearing.n + 1) if voter != module and hearing.votes_at(judge, voter, number))
    rows = [hearing.heard(judge, voter, number - hearing.u) for voter in voters]
    rows = [row >> (module - 1) & 1 for row in rows if row is not None]
    return sum(rows) * 2 >= len(rows) if rows else hearing.sent(judge, number - hearing.u) >> (module - 1) & 1


def named_events(cause, module, number, u):
    """Sender and round of each event that a cause names."""
    judged, reported, voted = number - 2 * u - 1, number - 3 * u - 2, number - u
    events = {(module, judged)} if cause.own else set()
    events |= {(sender.module, reported) for sender in cause.senders}
    events |= {(liar, voted) for liar in cause.liars}
    return events | {(liar, judged) for _, liars in cause.lied_about for liar in liars}


def without(data, loaded, left_out):
    """The bytes of a script without the events of these senders and rounds."""
    words = w.to_words(data)
    words = words[:w.setup_length(words) + 1]
    for number in range(1, loaded.rounds + 1):
        for sender, events in loaded.events.get(number, {}).items():
            if (sender, number) not in left_out:
                words += [w.event_word(w.LOSS, sender, w.mask_of([receiver])) for receiver in events.losses]
                for receiver, *told in events.lies:
                    words += [w.event_word(w.LIE, sender, w.mask_of([receiver])), *(word for word in told if word is not None)]
        words.append(w.make(w.PLAY, 1))
    return w.to_bytes(words)


def charges(account):
    for module, by_judges in enumerate(account.charges(), 1):
        for judges, rounds in by_judges.items():
            yield from ((module, number, judges) for number in rounds)


class StoredRuns(unittest.TestCase):
    def accounts(self, *folders):
        for name, data, output in stored(*folders):
            if check.refusal(data) is None:
                yield name, data, Account(read_run(output.splitlines(True)), script.load(data, name))

    def test_the_words_heard_give_the_printed_health(self):
        for name, _, account in self.accounts():
            hearing = Hearing(account.run, account.script)
            modules = range(1, account.n + 1)
            for number in range(1, len(account.run.rounds) + 1):
                for judge in modules:
                    voted = sum(vote(hearing, judge, module, number) << (module - 1) for module in modules)
                    self.assertEqual(voted, hearing.health(judge, number), (name, number, judge))

    def test_every_charge_has_a_cause(self):
        found = 0
        for name, _, account in self.accounts():
            causes = Causes(account)
            for charge in charges(account):
                self.assertTrue(causes.of(*charge).explained, (name, charge))
                found += 1
        self.assertGreater(found, 500)

    @needs_bench
    def test_without_the_events_that_are_named_there_is_no_charge(self):
        played = 0
        for name, data, account in self.accounts("vectors", "e04", "e06", "e09"):
            causes = Causes(account)
            for module, number, judges in charges(account):
                # outside the limit another event may take the place of one that is left out
                if account.run.rounds[number - 1].kept:
                    events = named_events(causes.of(module, number, judges), module, number, account.script.u)
                    run = read_run(bench(without(data, account.script, events)).splitlines(True))
                    self.assertEqual({run.rounds[number - 1].rows[i - 1][0][module - 1] for i in judges}, {"1"}, (name, module, number))
                    played += 1
        self.assertGreater(played, 50)


@needs_bench
class Sentences(unittest.TestCase):
    def test_a_word_lost_to_everybody(self):
        self.assertEqual(charged("cast none\nloss 2 to all\nplay 2"), """\
  module 2: 1 charge in round 2
    round 2: its word of round 1 was lost to everybody
""")

    def test_with_read_places_below_n_the_round_judged_is_three_back(self):
        self.assertEqual(charged("cast none\nplay 1\nloss 2 to all but 2\nplay 6", EARLY), """\
  module 2: 1 charge in round 5
    round 5: its word of round 2 was lost to everybody
""")

    def test_one_that_alone_missed_a_sender(self):
        alone = "cast none\nplay 4\nloss 1 to 3\nplay 1\nloss 1 to 3\nplay 9"
        self.assertEqual(charged(alone), """\
  module 3: 2 charges in rounds 7 to 8
    rounds 7 to 8: its words of rounds 6 to 7 arrived, but reported otherwise than the vote: module 1 was half heard in rounds 5 to 6 \
(lost to module 3)
""")
        self.assertEqual(charged(alone, EARLY), """\
  module 3: 2 charges in rounds 10 to 11
    rounds 10 to 11: its words of rounds 7 to 8 arrived, but reported otherwise than the vote: module 1 was half heard in rounds 5 to 6 \
(lost to module 3)
""")

    def test_names_and_many_receivers(self):
        setup = SETUP.replace("module 3", "module 3 focus")
        self.assertEqual(charged("cast none\nloss 1 to all but 3\nplay 4", setup), """\
  module 1: 1 charge in round 2
    round 2: its word of round 1 was lost to modules 2, 4
  module 3 focus: 1 charge in round 3
    round 3: its word of round 2 arrived, but reported otherwise than the vote: module 1 was half heard in round 1 (lost to modules 2, 4)
""")
        five = setup.replace("modules 4", "modules 5").replace("place 4", "place 5") + "module 5 place 5 criticality 1\n"
        self.assertIn("its word of round 1 was lost to everybody but 3 focus\n", charged("cast none\nloss 1 to all but 3\nplay 4", five))

    def test_a_rule_breaker_that_alone_missed_a_sender(self):
        self.assertEqual(charged("cast 3\nloss 1 to 3\nplay 4"), """\
  module 3: 1 charge in round 3
    round 3: its word of round 2 arrived, but reported otherwise than the vote: what module 1 sent in round 1 was lost to module 3
""")

    def test_lies(self):
        self.assertEqual(charged("cast 2\nplay 1\nlie 2 to all says 1010\nplay 4"), """\
  module 2: 1 charge in round 3
    round 3: its word of round 2 was replaced by lies to everybody
""")
        self.assertIn("round 3: its word of round 2 was lost to module 1 and replaced by lies to modules 3, 4\n",
                      charged("cast 2\nplay 1\nloss 2 to 1\nlie 2 to 3 4 says 1010\nplay 4"))

    def test_lies_that_are_not_heard(self):
        def first(run):
            return charged("cast 2\n" + run + "play 4").splitlines()[1]

        self.assertEqual(first("lie 2 to all word 0x00000000\n"),
                         "    round 2: its word of round 1 was replaced by unheard lies (wrong kind) to everybody")
        self.assertEqual(first("lie 2 to all word 0x5000001F\n"),
                         "    round 2: its word of round 1 was replaced by unheard lies (stray bits) to everybody")
        # the kind comes first
        self.assertEqual(first("lie 2 to all word 0x6000001F\n"),
                         "    round 2: its word of round 1 was replaced by unheard lies (wrong kind) to everybody")
        self.assertEqual(first("loss 2 to 1\nlie 2 to 3 4 word 0x00000000\n"),
                         "    round 2: its word of round 1 was lost to module 1 and replaced by unheard lies (wrong kind) to modules 3, 4")
        self.assertEqual(first("loss 2 to 1\nlie 2 to 3 word 0x00000000\nlie 2 to 4 word 0x5FFFFFFF\n"),
                         "    round 2: its word of round 1 was lost to module 1, replaced by an unheard lie (wrong kind) to module 3"
                         " and replaced by an unheard lie (stray bits) to module 4")

    def test_a_sender_whose_lie_one_alone_did_not_hear(self):
        self.assertEqual(charged("cast 1\nlie 1 to 3 word 0x5000001F\nplay 4"), """\
  module 3: 1 charge in round 3
    round 3: its word of round 2 arrived, but reported otherwise than the vote: module 1 was half heard in round 1 \
(replaced by an unheard lie (stray bits) to module 3)
""")

    def test_lies_about_a_module(self):
        lies = "lie 2 to all says 0111\nlie 3 to all says 0111\n"
        self.assertIn("    round 1: before round 1 every word arrives, but modules 2, 3 lied about it in round 1\n",
                      charged("cast 2 3\n" + lies + "play 1"))
        told = charged("cast 2 3\nplay 5\n" + lies + "play 4")
        self.assertIn("    round 6: its word of round 5 arrived, but modules 2, 3 lied about it in round 6\n", told)
        self.assertIn("  module 4: 1 charge in round 7\n    round 7: its word of round 6 arrived, but reported otherwise than the vote: "
                      "modules 2, 3 lied about module 1 in round 6\n", told)

    def test_a_lost_word_that_also_differed(self):
        told = charged("cast none\nloss 1 to 3\nplay 1\nloss 3 to 4\nplay 4")
        self.assertIn("    round 3: its word of round 2 was lost to module 4; where it was heard, it reported otherwise than the vote: "
                      "module 1 was half heard in round 1 (lost to module 3)\n", told)

    def test_many_senders_are_only_named(self):
        missed = "".join(f"loss {sender} to 4\n" for sender in (1, 2, 3))
        self.assertIn("    round 3: its word of round 2 arrived, but reported otherwise than the vote: "
                      "in round 1 it heard modules 1, 2, 3 otherwise than others\n", charged("cast none\n" + missed + "play 4"))

    def test_many_causes_are_cut_short(self):
        told = charged("cast none\n" + "loss 2 to all\nplay 2\n" * 10)
        self.assertIn("    round 16: its word of round 15 was lost to everybody\n    and 2 more charges up to round 20\n", told)


class NoCause(unittest.TestCase):
    def test_a_charge_that_the_script_does_not_explain(self):
        quiet, charge = ("in", *[("1111", "1111")] * 4), ("in", *[("1101", "1111")] * 4)
        told = charged("cast none\nplay 3", output=printed(quiet, quiet, charge))
        self.assertEqual(told, "  module 3: 1 charge in round 3\n"
                               "    round 3: its word of round 2 arrived; nothing in the script explains it (is it the script of this run?)\n")

    def test_without_a_script_no_cause_is_told(self):
        output = read(root("harness/data/vectors/001-star-sheet.out")).decode()
        self.assertIn("  module 2: 1 charge in round 2\n\nLeft", summary(Account(read_run(output.splitlines(True)))))


if __name__ == "__main__":
    unittest.main()
