"""What the bench prints, read and checked: one line for each round and module."""

import re
from collections import namedtuple

from .check import MEANING

# rows: health and view of each module in turn, as printed; kept: whether the fault limit was kept so far
Round = namedtuple("Round", "rows kept")
Run = namedtuple("Run", "n rounds")

REFUSED = re.compile(r"refused ([0-9]+) at ([0-9]+)\Z")
FIELDS = re.compile(r"([1-9][0-9]*) ([1-9][0-9]*) ([01]{2,16} [01]{2,16} (?:in|out))\Z")


class NotBenchOutput(Exception):
    """One sentence: what is not as the bench prints it."""


def read_run(lines):
    """The Run that these lines (an iterable of text) tell; NotBenchOutput if they are not whole bench output."""
    rounds, tails, known, n = [], [], {}, None
    for at, line in enumerate(lines, 1):
        number, module, tail = fields(line, at)
        n = n or len(tail.split()[0])
        check_place(at, number, module, tail, len(rounds) + 1, len(tails) + 1, n)
        tails.append(tail)
        if len(tails) == n:
            # equal rounds are one object, so that long runs need little memory
            key = tuple(tails)
            if key not in known:
                known[key] = whole_round(key, number)
            rounds.append(known[key])
            check_limit(rounds, number)
            tails = []
    if n is None:
        raise NotBenchOutput("no line at all: this is not bench output")
    if tails:
        raise NotBenchOutput(f"the output ends in round {len(rounds) + 1} after module {len(tails)} of {n}")
    return Run(n, rounds)


def fields(line, at):
    """Round, module, and the rest of a line."""
    line = line.rstrip("\n")
    refused = REFUSED.match(line)
    if refused and at == 1:
        meaning = MEANING.get(int(refused[1]), "a number that the bench does not give")
        raise NotBenchOutput(f"the bench refused the script, {refused[1]} at word {refused[2]}: {meaning}")
    match = FIELDS.match(line)
    if not match:
        raise NotBenchOutput(f"line {at} is not 'round module health view in|out': '{line[:60]}'")
    return int(match[1]), int(match[2]), match[3]


def check_place(at, number, module, tail, due_round, due_module, n):
    if (number, module) != (due_round, due_module):
        raise NotBenchOutput(f"line {at} is round {number}, module {module}, but round {due_round}, module {due_module} is due")
    health, view, _ = tail.split()
    if len(health) != n or len(view) != n:
        raise NotBenchOutput(f"line {at}: health and view need {n} digits each, as in line 1")


def whole_round(tails, number):
    split = [tail.split() for tail in tails]
    if len({limit for _, _, limit in split}) > 1:
        raise NotBenchOutput(f"round {number} is 'in' and 'out' at once")
    return Round(tuple((health, view) for health, view, _ in split), split[0][2] == "in")


def check_limit(rounds, number):
    if len(rounds) > 1 and rounds[-1].kept and not rounds[-2].kept:
        raise NotBenchOutput(f"round {number} is 'in' after an 'out'")
