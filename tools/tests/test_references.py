"""Every file and folder that the pages, the C headers and the comments of the sources name is there.

A path that begins with a crate's name is below crates/; one that begins with src/, specs/, proofs/ or must-fail/ is in the crate of the
file that names it; the target of a link is where Markdown looks for it, beside its page; all others are at the top, those of harness/README.md
in harness/ too. A page stands in no crate, so there such a path is in a crate that the same line or a path of the page names. A name that
follows a path in the same line stands beside it.
"""

import glob
import os
import re
import unittest
from collections import namedtuple

from common import ROOT

Reference = namedtuple("Reference", "file line path link")

EXTENSIONS = "antt|rt|md|txt|rs|py|c|h|hex|bin|out|edit|mk|toml|svg|summary"
TOPS = ("crates", "docs", "examples", "harness", "include", "tools", "data", "measure")
PARTS = ("src", "specs", "proofs", "must-fail")
CRATES = sorted(os.listdir(os.path.join(ROOT, "crates")))

WORD = re.compile(r"[\w.*/-]*\w[\w.*/-]*")
LINK = re.compile(r"\]\(([^)#]+)[^)]*\)")
QUOTED = re.compile(r"`([^`]+)`")
# made up in examples, or all capitals as FILE and FOLDER are, or below target/, or a pattern
NO_FILE = re.compile(r"my\.\w+|NNN-name\.bin|XLaws\.antt|\.\w+|(.*/)?[A-Z]+(/.*)?|(\.\./)?target(/.*)?|.*\*.*")


# ---- what names files ----


# It has what stood before it beside what stands now.
PAST = ("docs/DESIGN-PASS.md",)


def pages():
    return [page for page in ["README.md", "harness/README.md", *found("docs/**/*.md")] if page not in PAST]


# What the table of docs/PORT.md names, of the day of the port, and what is gone since.
GONE = {
    "docs/PORT.md": (
        "rules/proofs/Reception/cause/Answers.antt", "views/proofs/adopt/common_word/Answers.antt", "image/proofs/check/wrong_half/Answers.antt",
        "calls/proofs/calls/presence_open/Answers.antt", "bus/proofs/arrivals/bits_to/Answers.antt", "bench/proofs/written/Written/with_part/Answers.antt",
        "scanlock/proofs/events/is_axis/Answers.antt", "scanlock/proofs/Locks/admits/Answers.antt"),
}


def sources():
    return [*found("crates/**/*.rt"), *found("crates/*/specs/**/*.antt")]


def found(pattern):
    return sorted(os.path.relpath(path, ROOT) for path in glob.glob(os.path.join(ROOT, pattern), recursive=True))


def text(file):
    with open(os.path.join(ROOT, file), encoding="utf-8") as opened:
        return opened.read()


# ---- references in a text ----


def of_page(file):
    """Targets of links, what stands in backquotes, and whole paths outside them."""
    for number, line in enumerate(text(file).splitlines(), 1):
        yield from (Reference(file, number, target, True) for target in LINK.findall(line) if ":" not in target)
        line = LINK.sub("] ", line)
        quoted = [word for inside in QUOTED.findall(line) for word in words(inside) if is_path(word) or is_name(word)]
        plain = [word for word in words(QUOTED.sub(" ", line)) if is_path(word)]
        yield from (Reference(file, number, word, False) for word in quoted + plain)


def of_source(file):
    """Paths and names of files in the comments of a source or a header."""
    comment = {".rt": r"//(.*)", ".antt": r"--(.*)", ".h": r"/\*(.*?)\*/"}[os.path.splitext(file)[1]]
    whole = text(file)
    for match in re.finditer(comment, whole, re.S if file.endswith(".h") else 0):
        number = whole.count("\n", 0, match.start()) + 1
        yield from (Reference(file, number, word, False) for word in words(match[1]) if is_path(word) or is_name(word))


def words(part):
    found_words = (word.rstrip(".-").rstrip("/") for word in WORD.findall(part))
    return [word for word in found_words if word and not NO_FILE.fullmatch(word)]


def is_path(word):
    first, slash, rest = word.partition("/")
    return bool(slash and rest) and (first in TOPS + PARTS or first in CRATES and rest.split("/")[0] in PARTS)


def is_name(word):
    return bool(re.fullmatch(rf"[\w./-]+\.({EXTENSIONS})", word))


# ---- where they are ----


def folders(reference, before):
    """The folders, below ROOT, in which a reference may lie; before are the references that were found in the same line."""
    file, path = reference.file, reference.path
    first = path.split("/")[0]
    crate = "/".join(file.split("/")[:2]) if file.startswith("crates/") else None
    if reference.link:
        return [os.path.dirname(file)]
    if first in CRATES:
        return ["crates"]
    if first in PARTS:
        return [crate] if crate else [os.path.dirname(file)] if file.startswith("harness/") else named_crates(file, reference.line)
    beside = [os.path.dirname(other) for other in before]
    return beside + ["", os.path.dirname(file)] if "/" in path else beside


def named_crates(page, number):
    """The crates that a line of a page names, and those that paths of the page name."""
    whole = text(page)
    line = whole.splitlines()[number - 1]
    by_path = rf"\bcrates/%s\b|(?<!/)\b%s/({'|'.join(PARTS)})\b"
    return [f"crates/{crate}" for crate in CRATES if f"`{crate}`" in line or re.search(by_path.replace("%s", crate), whole)]


def place(reference, before):
    """Where a reference is, below ROOT; None if nowhere."""
    path = reference.path
    for folder in folders(reference, before):
        at = os.path.normpath(os.path.join(folder, path))
        if os.path.exists(os.path.join(ROOT, at)):
            return at
    if "/" in path or reference.link or before:
        return None
    # a name alone: some file of the crate that names it, or of the whole project
    file = reference.file
    inside = "/".join(file.split("/")[:2]) if file.startswith("crates/") else "."
    return next((at for at in FILES if os.path.basename(at) == path and (inside == "." or at.startswith(inside + "/"))), None)


def all_files():
    for folder, below, names in os.walk(ROOT):
        below[:] = [name for name in below if name not in (".git", "target", "__pycache__")]
        yield from (os.path.relpath(os.path.join(folder, name), ROOT) for name in names)


FILES = sorted(all_files())


def references():
    """Each reference with its place."""
    for file in pages() + sources() + found("include/*.h"):
        line, before = None, []
        for reference in of_page(file) if file.endswith(".md") else of_source(file):
            if reference.line != line:
                line, before = reference.line, []
            at = place(reference, before)
            if at and "/" in reference.path:
                before.append(at)
            yield reference, at


class References(unittest.TestCase):
    def test_every_file_that_is_named_is_there(self):
        looked_at = list(references())
        self.assertGreater(len(looked_at), 150)
        missing = [f"{reference.file}:{reference.line}: {reference.path}" for reference, at in looked_at if at is None and reference.path not in GONE.get(reference.file, ())]
        self.assertEqual(missing, [], "\nnamed, but not there:\n" + "\n".join(missing))

    def test_what_is_said_to_be_gone_is_named_and_gone(self):
        nowhere = {(reference.file, reference.path) for reference, at in references() if at is None}
        self.assertEqual({(file, path) for file, paths in GONE.items() for path in paths} - nowhere, set())

    def test_where_it_looks(self):
        cases = [("README.md", "tools/runscript", [], "tools/runscript"),
                 ("README.md", "tools/no-such-tool", [], None),
                 ("docs/DECISIONS.md", "vote/specs/Vote.antt", [], "crates/vote/specs/Vote.antt"),
                 ("docs/DECISIONS.md", "setup/specs/Vote.antt", [], None),
                 ("docs/THEOREM.md", "step.rt", ["crates/presence/src/open.rt"], "crates/presence/src/step.rt"),
                 ("docs/THEOREM.md", "step.rt", ["crates/vote/src/health.rt"], None),
                 ("harness/README.md", "data/calls.txt", [], "harness/data/calls.txt"),
                 ("crates/vote/specs/VoteTable.antt", "src/health.rt", [], "crates/vote/src/health.rt"),
                 ("crates/setup/specs/Check.antt", "src/health.rt", [], None)]
        for file, path, before, at in cases:
            with self.subTest(file, path=path):
                self.assertEqual(place(Reference(file, 1, path, False), before), at)
        self.assertEqual(place(Reference("docs/INCIDENT.md", 1, "../examples/incident/joystick.svg", True), []), "examples/incident/joystick.svg")
        self.assertIsNone(place(Reference("docs/INCIDENT.md", 1, "examples/incident/joystick.svg", True), []))

    def test_what_is_no_file(self):
        self.assertEqual(words("crates/*/src target/bin/bench ../target/staticlib FILE/FUNCTION/Proof.antt my.txt .out"), [])
        self.assertEqual(words("src/vote.rt, docs/DECISIONS.md."), ["src/vote.rt", "docs/DECISIONS.md"])


if __name__ == "__main__":
    unittest.main()
