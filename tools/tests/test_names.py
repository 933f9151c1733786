"""A name stands for one thing: law files and public definitions over all crates."""

import glob
import os
import re
import unittest

from common import ROOT

import pagetools

# law files of one name in several crates, and why
FILES = {
    "Cases": "the cases of the crate's own specs/Cases.antt, computed",
}

# public definitions of one name in several crates, and why
NAMES = {
    **dict.fromkeys(("Case", "case", "right"), "each table of computed cases has a kind of case of its own, and says of all that they come out right"),
}


def files(part):
    """The files of a part of each crate, as (crate, name, text), without those that only list the others."""
    for path in sorted(glob.glob(os.path.join(ROOT, "crates", "*", part, "*.antt"))):
        crate, _, name = os.path.relpath(path, os.path.join(ROOT, "crates")).split(os.sep)
        if name != "Lib.antt":
            yield crate, name[:-len(".antt")], pagetools.read(path)


def defined(text):
    """The public names that a file defines; not the fields of its records nor the constructors of its data."""
    found, inside = set(), None
    for line in text.splitlines():
        if not line.strip() or line.lstrip().startswith("--"):
            continue
        indent = len(line) - len(line.lstrip())
        inside = None if inside is not None and indent <= inside else inside
        head = re.match(r" *(?:(?:unfoldable|abbrev) )?pub (?:(record|data) )?(?!(?:mod|use|open|record|data)\b)([^\s:(){}]+)", line)
        if head and inside is None:
            found.add(head[2])
            inside = indent if head[1] else None
    return found


def only_computed(crate, name):
    """Whether a file is a table of cases whose names only the proof that computes it uses."""
    uses = re.compile(rf"Rattle·{crate}(?:·specs)?\.specs\.{name}\.")
    return name == "Cases" and not any(uses.search(text) for _, _, text in files("specs"))


def doubles(named):
    """Names with the crates that have them, of those that several have."""
    return {name: sorted(crates) for name, crates in sorted(named.items()) if len(crates) > 1}


def places_of_files():
    named = {}
    for crate, name, _ in files("proofs"):
        named.setdefault(name, []).append(crate)
    return doubles(named)


def places_of_names():
    named = {}
    for crate, file, text in files("specs"):
        for name in () if only_computed(crate, file) else defined(text):
            named.setdefault(name, []).append(f"{crate}/{file}")
    return doubles(named)


class Names(unittest.TestCase):
    def test_a_law_file_has_its_name_alone(self):
        self.assertEqual({name: crates for name, crates in places_of_files().items() if name not in FILES}, {})

    def test_a_public_definition_has_its_name_alone(self):
        self.assertEqual({name: places for name, places in places_of_names().items() if name not in NAMES}, {})

    def test_what_is_allowed_is_there(self):
        self.assertLessEqual(set(FILES), set(places_of_files()))
        self.assertLessEqual(set(NAMES), set(places_of_names()))

    def test_fields_and_constructors_are_not_definitions(self):
        self.assertEqual(defined("-- a\npub record A (n : ℕ) : Type 0 where\n  pub b : ℕ\n\nunfoldable pub c : ℕ\nc = 0\n\nd : ℕ\n"
                                 "module _ where\n  abbrev pub e : ℕ\n  pub data F : ℕ → Type 0 where\n    g : F 0\n    pub h : F 1\n  pub i′ : ℕ\npub mod J\n"),
                         {"A", "c", "e", "F", "i′"})


if __name__ == "__main__":
    unittest.main()
