"""A script for the same cards in other slots, after document 02's E8 and E11, in the form in which it came: text or bytes.

Module 1 gets the first of the numbers given, module 2 the second, and so on. Its criticality and its name go with a module; cast, senders,
receivers, the rows in told words and the views in told view words are renumbered.
"""

import re

from . import check
from . import words as w
from .assemble import ScriptError, assemble
from .script import is_text


class NotRenumbered(Exception):
    """One sentence: why not."""


class Renumbering:
    """Module j becomes numbers[j - 1]."""

    def __init__(self, numbers):
        self.numbers = numbers
        self.n = len(numbers)

    def module(self, j):
        return self.numbers[j - 1]

    def mask(self, mask):
        return w.mask_of(map(self.module, w.modules_of(mask)))

    def told(self, word):
        """A told word or told view word of any kind: the row or view in its N low bits is renumbered, the other bits stay."""
        row = word & w.all_modules(self.n)
        return word ^ row | self.mask(row)

    def moved(self, of_modules):
        """What stands for each module in turn, in the order of the new numbers."""
        return [of_modules[self.numbers.index(number)] for number in range(1, self.n + 1)]


def renumber(data, numbers):
    """The renumbered script, as text or bytes as it came; NotRenumbered, or a ScriptError that names the line of a text."""
    if is_text(data):
        try:
            return renumbered_text(data.decode("utf-8-sig"), numbers).encode()
        except UnicodeDecodeError:
            raise NotRenumbered("neither a script nor its text") from None
    refused = check.refusal(data)
    if refused:
        raise NotRenumbered(f"refused {refused.number} at {refused.index}: {refused.reason}")
    words = w.to_words(data)
    renumbering = renumbering_of(words, numbers)
    early = early_module(words)
    if early:
        raise NotRenumbered(f"{place_reason(early, renumbering.n)} (word {w.first_module(words) + early.number - 1})")
    return w.to_bytes(renumbered_words(words, renumbering))


def renumbering_of(words, numbers):
    """The Renumbering by these numbers, if they are a permutation of the modules of this accepted script."""
    n = w.read_head(words[0]).modules
    if sorted(numbers) == list(range(1, n + 1)):
        return Renumbering(numbers)
    wanted = f"a script of {n} modules needs {n} new numbers, each of 1 to {n} once"
    if len(numbers) != n:
        raise NotRenumbered(f"{wanted}, and not {len(numbers)}")
    outside = [number for number in numbers if not 1 <= number <= n]
    twice = [number for number in numbers if numbers.count(number) > 1]
    raise NotRenumbered(f"{wanted}; {outside[0]} is not one" if outside else f"{wanted}; {twice[0]} is given twice")


def early_module(words):
    """The first module of an accepted script whose read place is below N, or None."""
    n = w.read_head(words[0]).modules
    return next((module for module in map(w.read_module, words[w.modules_at(words)]) if module.place != n), None)


def place_reason(module, n):
    return (f"module {module.number} has read place {module.place}, and a script is renumbered only where every read place is {n}: "
            "a read place counts slots, and what it is in the rebuilt rack the script does not say")


def renumbered_words(words, renumbering):
    modules = renumbering.moved(words[w.modules_at(words)])
    made = words[:w.first_module(words)] + [w.module_word(number, *w.read_module(word)[1:]) for number, word in enumerate(modules, 1)]
    cast = w.setup_length(words)
    made.append(w.make(w.CAST, renumbering.mask(w.mask(words[cast]))))
    for _, word, *told in w.run_items(words, cast + 1):
        if w.kind(word) == w.PLAY:
            made.append(word)
        else:
            made.append(w.event_word(w.kind(word), renumbering.module(w.sender(word)), renumbering.mask(w.mask(word))))
        made += [renumbering.told(word) for word in told if word is not None]
    return made


# ---- texts: every line keeps its form and its comment ----


def renumbered_text(text, numbers):
    source = assemble(text)
    renumbering = renumbering_of(source.words, numbers)
    early, module_lines = early_module(source.words), source.lines[w.modules_at(source.words)]
    if early:
        raise ScriptError(module_lines[early.number - 1], place_reason(early, renumbering.n))
    lines = [renumbered_line(line, renumbering) for line in text.split("\n")]
    first, last = module_lines[0] - 1, module_lines[-1]
    return "\n".join([note(text, renumbering), *lines[:first], *in_turn(lines, module_lines, renumbering), *lines[last:]])


def note(text, renumbering):
    """The line put first, which says what was done. No comment is renumbered, so numbers in them are those of before."""
    said = f"# renumbered: modules {listed(range(1, renumbering.n + 1))} became {listed(renumbering.numbers)}"
    said += "; comments are as they were" if "#" in text else ""
    return said + ("\r" if text.split("\n")[0].endswith("\r") else "")


def listed(numbers):
    return " ".join(map(str, numbers))


def in_turn(lines, module_lines, renumbering):
    """The modules' lines by their new numbers; comments between two of them go with the one below."""
    starts = [module_lines[0] - 1, *module_lines[:-1]]
    parts = [lines[start:end] for start, end in zip(starts, module_lines)]
    return [line for part in renumbering.moved(parts) for line in part]


def renumbered_line(line, renumbering):
    """A line of an accepted text, with its spaces, its names and its comment as they are."""
    statement, sign, comment = line.partition("#")
    tokens = iter(renumbered_tokens(re.findall(r"\S+", statement), renumbering))
    return re.sub(r"\S+", lambda _: next(tokens), statement) + sign + comment


def renumbered_tokens(tokens, renumbering):
    def modules(listed_):
        return [str(renumbering.module(int(token))) if token.isdigit() else token for token in listed_]

    keyword = tokens[0] if tokens else None
    if keyword == "module":
        return [keyword, *modules(tokens[1:2]), *tokens[2:]]
    if keyword in ("cast", "loss"):
        return [keyword, *modules(tokens[1:])]
    if keyword == "lie":
        at = next(i for i, token in enumerate(tokens) if token in ("says", "word"))
        return [keyword, *modules(tokens[1:at]), *(told_token(token, renumbering) for token in tokens[at:])]
    return tokens


def told_token(token, renumbering):
    """What stands from 'says' or 'word' on: words of the language, vectors, and words in hexadecimal."""
    if token.startswith("0x"):
        return f"0x{renumbering.told(int(token, 16)):08X}"
    return "".join(renumbering.moved(token)) if token[0] in "01" else token
