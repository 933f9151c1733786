#!/usr/bin/env python3
"""Plays the losses of a run script by the old rule, in which each card judged alone: a card strikes another off its list
when it has itself heard nothing from it for three rounds running, and never asks the others. A card with a scan lock
waits for the joystick as long as the joystick is on its own list, and frees the lock when it is not.
"""

import argparse
import os
import sys

HERE = os.path.dirname(os.path.abspath(__file__))
sys.path.insert(0, os.path.join(HERE, "..", "..", "tools"))

from runtools import script  # noqa: E402  (the path stands above)

SILENT_ROUNDS = 3
WAITED_FOR = "joystick"
WITH_A_LOCK = ("x-axis", "y-axis")


def play(loaded):
    """For each card the round in which it struck another off, by card and struck card."""
    cards = range(1, loaded.n + 1)
    silent = {(i, j): 0 for i in cards for j in cards if i != j}
    struck = {}
    for number in range(1, loaded.rounds + 1):
        events = loaded.events.get(number, {})
        for i, j in silent:
            lost = j in events and i in events[j].losses
            silent[i, j] = silent[i, j] + 1 if lost else 0
            if silent[i, j] >= SILENT_ROUNDS:
                struck.setdefault((i, j), number)
    return struck


def report(loaded, struck):
    name = loaded.names.get
    lines = [f"Each card alone: struck off after {SILENT_ROUNDS} silent rounds running. {loaded.rounds} rounds.", ""]
    for (i, j), number in sorted(struck.items(), key=lambda item: (item[1], item[0])):
        lines.append(f"round {number}: {name(i, i)} strikes {name(j, j)} off")
    lines += ["", "At the end:"]
    for i in range(1, loaded.n + 1):
        if name(i) != WAITED_FOR:
            lines.append("  " + at_the_end(name(i, i), [name(j, j) for k, j in struck if k == i]))
    for j in sorted({j for _, j in struck}):
        sees = [name(i, i) for i in range(1, loaded.n + 1) if i != j and (i, j) not in struck]
        if sees:
            lines += ["", f"The cards disagree: {name(j, j)} is still on the list of {', '.join(map(str, sees))}, and of no other card."]
    return "\n".join(lines) + "\n"


def at_the_end(card, gone):
    seen = f"{WAITED_FOR} is {'struck off' if WAITED_FOR in gone else 'still on its list'}"
    if card not in WITH_A_LOCK:
        return f"{card}: {seen}"
    return f"{card}: {seen}, and its scan lock {'is free' if WAITED_FOR in gone else 'waits for it'}"


def main():
    parser = argparse.ArgumentParser(description=__doc__)
    parser.add_argument("script", nargs="?", default=os.path.join(HERE, "joystick.txt"),
                        help="a run script, as text or bytes; joystick.txt beside this file if left out")
    file = parser.parse_args().script
    try:
        with open(file, "rb") as opened:
            loaded = script.load(opened.read(), file)
    except OSError as error:
        sys.exit(f"alone.py: {file}: {error.strerror}")
    except ValueError as error:
        sys.exit(f"alone.py: {error}")
    sys.stdout.write(report(loaded, play(loaded)))


if __name__ == "__main__":
    main()
