"""A script's bytes to text, in one form: assembling the text gives the same bytes again."""

from . import check
from . import words as w


def disassemble(data):
    """The script text. A refused script begins with the refusal, and the words from the refused one on are raw."""
    refused = check.refusal(data)
    words = w.to_words(data)
    if refused is None:
        return "\n".join(setup_lines(words) + [""] + run_lines(words, len(words))) + "\n"
    lines = [f"# refused {refused.number} at {refused.index}: {refused.reason}",
             "# this text assembles with --unchecked only"]
    readable = readable_words(words, refused)
    lines += setup_lines(words[:readable]) + run_lines(words[:readable], readable)
    for at, word in enumerate(words[readable:], readable):
        here = f"  # refused {refused.number} at {at}" if at == refused.index else ""
        lines.append(f"word 0x{word:08X}{here}")
    rest = data[len(words) * 4:]
    if rest:
        lines.append(f"bytes 0x{rest.hex().upper()}")
    return "\n".join(lines) + "\n"


def readable_words(words, refused):
    """How many words of a refused script have a readable form: those before the refused one, and no lie without what is told."""
    if refused.number in (1, 2, 3, 16):
        return 0
    if refused.number == 22:
        # one line holds the five words of the fading form
        return 1
    if refused.number != 14:
        return refused.index
    items = list(w.run_items(words, w.setup_length(words) + 1))
    return items[-1].at if items and not w.is_whole(items[-1], words) else len(words)


def setup_lines(words):
    if not words:
        return []
    return_limit, _, partitionable, n = w.read_head(words[0])
    lines = [f"modules {n}"]
    if w.fades(words):
        # the shortest decimals that are read back as the same bits
        lines.append("fading factor {!r} limit {!r}".format(*w.read_fading(words)))
    else:
        lines += [f"penalty limit {w.value(word)}" for word in words[1:2]]
        lines += [f"reward limit {w.value(word)}" for word in words[2:3]]
    lines += [f"return limit {return_limit}"] if return_limit else []
    lines += ["partitionable"] if partitionable else []
    for word in words[w.modules_at(words)]:
        module = w.read_module(word)
        mark = " mark" if module.mark else ""
        lines.append(f"module {module.number} place {module.place} criticality {module.criticality}{mark}")
    lines += [f"cast {modules_text(w.mask(word), n)}" for word in words[w.setup_length(words):][:1]]
    return lines


def run_lines(words, end):
    if not end:
        return []
    n, lines, played = w.read_head(words[0]).modules, [], 0
    for _, word, *told in w.run_items(words[:end], w.setup_length(words) + 1):
        if w.kind(word) == w.PLAY:
            count = w.value(word)
            lines.append(f"play {count}  # {rounds_text(played + 1, played + count)}")
            played += count
        else:
            lines.append(event_text(word, *told, n))
    return lines


def event_text(word, told, view, n):
    what = "loss" if w.kind(word) == w.LOSS else "lie"
    text = f"{what} {w.sender(word)} to {modules_text(w.mask(word), n)}"
    return text if told is None else f"{text} {told_text(told, view, n)}"


def told_text(told, view, n):
    """A told word that is heard as its syndrome, a told view word that is heard as its view, any other as it is."""
    text = f"says {w.vector_text(told, n)}" if w.is_heard(told, n) else f"word 0x{told:08X}"
    if view is None:
        return text
    return f"{text} view " + (w.vector_text(view, n) if w.is_heard(view, n, w.VIEW) else f"word 0x{view:08X}")


def modules_text(mask, n):
    """A mask as the language has it; by those left out where they are few."""
    if mask == 0:
        return "none"
    if mask == w.all_modules(n):
        return "all"
    listed, left = w.modules_of(mask), w.modules_of(w.all_modules(n) & ~mask)
    if 2 * len(left) < len(listed):
        return "all but " + " ".join(map(str, left))
    return " ".join(map(str, listed))


def rounds_text(first, last):
    return f"round {first}" if first == last else f"rounds {first} to {last}"
