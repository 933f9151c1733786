"""docs/WRONG-PROGRAMS.md beside the sources and what the gate found.

Every function that outsiders can call, and every inner function that another crate calls, has two edits with each of which the prover does
not prove it. No function of the first kind has a `requires`; one of the second kind that no other crate calls has to be private.

And every slip is refused for itself, whatever else its edit has: one in the code by the contract of its own function, one in a definition by
the law that it names. An edit that makes its slip in definition, code and proofs alike is one for the theorems: every function is proved with
it, and still it is refused.
"""

import os
import re
import unittest
from collections import Counter, namedtuple

from common import ROOT

import mustfail
from trials import LOGS, log_of

CRATES = os.path.join(ROOT, "crates")
# crates whose functions the table lists; nothing is built on bench, and agreement has no code
LISTED = ("words", "doubles", "setup", "vote", "rules", "accounts", "changes", "views", "image", "presence", "calls", "page", "script", "text", "bus", "backplane", "scanlock", "lockcalls",
          "calls_c", "page_c", "lockcalls_c")
# set by the gate, which has tried every edit (tools/tryedits) before it runs these tests
IN_GATE = "GIRMAUT_GATE" in os.environ


def text(*path):
    with open(os.path.join(*path), encoding="utf-8") as file:
        return re.sub(r"//.*", "", file.read()) if path[-1].endswith(".rt") else file.read()


def sources(crate):
    folder = os.path.join(CRATES, crate, "src")
    return {name[:-3]: text(folder, name) for name in sorted(os.listdir(folder)) if name.endswith(".rt")}


# `trait` is the name that the prover gives an impl of a trait
Function = namedtuple("Function", "struct trait name public exported requires first last")


def impl_name(trait, struct):
    """How the prover names an impl of a trait: the type, then the trait with its arguments, each with a capital and () as Unit, as in AnswerFromResultU32Refusal."""
    return struct + "".join("Unit" if word == "()" else word[0].upper() + word[1:] for word in re.findall(r"\w+|\(\)", trait))


def functions(source):
    """Each function of a file, in turn; `requires` says whether it has a precondition, `first` and `last` are its lines."""
    lines, struct, trait, found = source.splitlines(), None, None, []
    for number, line in enumerate(lines):
        opened = re.match(r"impl(?:<.*?>)? (?:(\S.*) for )?(\w+)", line)
        if opened:
            struct, trait = opened[2], impl_name(opened[1], opened[2]) if opened[1] else None
        elif line.startswith("}"):
            struct = trait = None
        head = re.match(r'(\s*)(pub )?(?:pub\(crate\) )?(extern "C" )?fn (\w+)', line)
        if head:
            last = next(k for k in range(number, len(lines)) if lines[k] == head[1] + "}")
            body = next((k for k in range(number, last) if lines[k].rstrip().endswith("{")), last)
            requires = any(re.match(r"\s*requires\b", lines[k]) for k in range(number, body + 1))
            found.append(Function(struct, trait, head[4], bool(head[2]), bool(head[3]), requires, number, last))
    return found


def reachable(crate):
    """The functions that can be called from outside their crate, by name: C's calls, public ones of the crate's first file, of public files or
    passed on by `pub use`, and public ones of public structs; those of a trait's impl are as public as its struct."""
    files = sources(crate)
    open_files = ["lib", *re.findall(r"^pub mod (\w+)", files["lib"], re.M)]
    passed_on = [tuple(path.split("::")) for path in imports(files["lib"], "pub use ") if path.count("::") == 1]
    open_structs = re.findall(r"^pub (?:struct|enum) (\w+)", "\n".join(files.values()), re.M)
    for module, source in files.items():
        for f in functions(source):
            open_here = f.struct in open_structs if f.struct else module in open_files or (module, f.name) in passed_on
            if f.trait and open_here:
                yield name_of(crate, module, f), f
            elif f.exported or f.public and open_here:
                yield f"{f.struct or module}::{f.name}".removeprefix("lib::"), f


def imports(source, word="use "):
    """The paths that the imports of a file bring in, those in braces each by itself."""
    for path in re.findall(rf"^{word}([^;]*);", source, re.M):
        front, braces, names = "".join(path.split()).partition("{")
        yield from (front + name for name in names.rstrip("}").split(",") if name) if braces else (front,)


def called_from_another_crate(crate, name, crates=None):
    """Whether the code of another crate calls a function of this one."""
    owner, _, function = name.rpartition("::")
    free = rf"\b{crate}::(?:{owner}::)?{function}\b"
    method = rf"(?:\b{owner}::|\.){function}\("
    for other in crates or os.listdir(CRATES):
        for source in sources(other).values() if other != crate else ():
            if re.search(free, source) or any(re.fullmatch(free, path) for path in imports(source)) or owner[:1].isupper() and re.search(rf"\b{crate}::", source) and re.search(method, source):
                return True
    return False


def outsiders(page):
    """The paragraph that says who outsiders are."""
    return re.findall(r"^\*\*Outsiders\*\* .*$", text(ROOT, "docs", page), re.M)


def edits(crate):
    folder = os.path.join(CRATES, crate, "must-fail")
    return sorted(name[:-5] for name in os.listdir(folder) if name.endswith(".edit")) if os.path.isdir(folder) else []


def edit_text(crate, edit):
    return text(CRATES, crate, "must-fail", edit + ".edit")


def every_edit():
    return [(crate, edit, edit_text(crate, edit)) for crate in sorted(os.listdir(CRATES)) for edit in edits(crate)]


def function_at(crate, file, old):
    """The function in whose code a text stands, as the prover names it; None if it stands in no function, as in a table or a struct."""
    if not file.startswith("src/"):
        return None
    source = text(CRATES, crate, file)
    at = source[: source.index(old)].count("\n")
    return next((name_of(crate, file[4:-3], f) for f in functions(source) if f.first <= at <= f.last), None)


def slips(crate, content):
    """Each slip of an edit, by what has to refuse it for itself: the functions in whose code it is, and the law that it names. In an edit that has
    its slip in definition and code alike, the contracts have it too: then only the laws."""
    for slip in mustfail.slips(content):
        inside = set() if mustfail.is_alike(content) else {function_at(crate, *place) for place in slip.places} - {None}
        yield inside, slip.law


def name_of(crate, module, f):
    """How the prover names a function: one of the crate's first file by its name alone; a struct belongs to the file that declares it, which for
    most is the crate's first, and a trait's impl to the file in which it stands."""
    if not f.struct:
        return f.name if module in ("lib", "main") else f"{module}::{f.name}"
    declared = f.trait or re.search(rf"^(pub )?(struct|enum) {f.struct}\b", text(CRATES, crate, "src", module + ".rt"), re.M)
    inside = declared and module not in ("lib", "main")
    return f"{module}::{f.trait or f.struct}::{f.name}" if inside else f"{f.trait or f.struct}::{f.name}"


def laws(crate):
    """The files of a crate's proofs/ that declare each law, theorem or case, by name."""
    folder, found = os.path.join(CRATES, crate, "proofs"), {}
    for file in sorted(os.listdir(folder)):
        if file.endswith(".antt"):
            for law in set(re.findall(r"(?m)^ *(?:(?:unfoldable|abbrev) )?(?:pub )?([^\s:(){}.]+) :(?= |$)", text(folder, file))):
                found.setdefault(law, []).append(file[:-5])
    return found


class WrongPrograms(unittest.TestCase):
    def setUp(self):
        page = text(ROOT, "docs", "WRONG-PROGRAMS.md")
        self.called, self.inner = (self.rows(page, title) for title in ("## Functions that outsiders can call", "## Inner functions"))
        self.table = {**self.called, **self.inner}

    def rows(self, page, title):
        part = page[page.index(title + "\n") + len(title):].split("\n## ")[0]
        found = re.findall(r"^\| (\w+) \| (\w+(?:::\w+){0,2}) \| (\w+), (\w+) \|$", part, re.M)
        return {(crate, name): {first, second} for crate, name, first, second in found}

    def tried(self, crate, edit):
        found = log_of(crate, edit)
        if found is None and IN_GATE:
            self.fail(f"{crate}/{edit} has not been tried")
        return found

    def test_every_function_that_outsiders_can_call_has_a_row(self):
        free = {(crate, name) for crate in LISTED for name, f in reachable(crate) if not f.requires}
        self.assertGreater(len(free), 50)
        self.assertEqual(set(self.called), free)

    def test_every_inner_function_has_a_row_and_is_called_from_another_crate(self):
        asking = {(crate, name) for crate in LISTED for name, f in reachable(crate) if f.requires}
        self.assertEqual(set(self.inner), asking)
        for crate, name in asking:
            with self.subTest(f"{crate} {name}"):
                self.assertTrue(called_from_another_crate(crate, name), "nothing outside its crate calls it: make it private")

    def test_what_c_calls_requires_nothing(self):
        exported = [(crate, name, f.requires) for crate in LISTED for name, f in reachable(crate) if f.exported]
        self.assertEqual(len(exported), 22)
        self.assertEqual([name for _, name, requires in exported if requires], [])

    def test_both_pages_mean_the_same_outsiders(self):
        self.assertEqual(len(outsiders("WRONG-PROGRAMS.md")), 1)
        self.assertEqual(outsiders("WRONG-PROGRAMS.md"), outsiders("DECISIONS.md"))

    def test_each_row_names_two_edits_of_its_crate(self):
        for (crate, name), named in self.table.items():
            with self.subTest(f"{crate} {name}"):
                self.assertEqual(len(named), 2)
                self.assertLessEqual(named, set(edits(crate)))

    @unittest.skipUnless(IN_GATE or os.path.isdir(LOGS), "no edit has been tried: tools/tryedits does")
    def test_with_each_edit_its_function_is_not_proved(self):
        for (crate, name), named in self.table.items():
            for edit in named:
                log = self.tried(crate, edit)
                if log is not None:
                    with self.subTest(f"{crate} {name} {edit}"):
                        self.assertNotEqual(mustfail.listed(log).get(name), "proved")
                        self.assertIn(name, mustfail.listed(log))

    def test_an_edit_of_definition_and_code_alike_changes_both(self):
        for crate, edit, content in every_edit():
            if "alike" in mustfail.reason(content) or mustfail.is_alike(content):
                with self.subTest(f"{crate} {edit}"):
                    self.assertLessEqual({"specs", "src"}, {file.split("/")[0] for slip in mustfail.slips(content) for file, _ in slip.places})

    @unittest.skipUnless(IN_GATE or os.path.isdir(LOGS), "no edit has been tried: tools/tryedits does")
    def test_with_a_slip_in_the_proofs_too_every_function_is_proved(self):
        for crate, edit, content in every_edit():
            log = self.tried(crate, edit) if "\nfile: proofs/" in content else None
            if log is not None:
                with self.subTest(f"{crate} {edit}"):
                    self.assertEqual(set(mustfail.listed(log).values()), {"proved"})

    def test_each_slip_that_is_in_no_function_names_its_law(self):
        for crate, edit, content in every_edit():
            with self.subTest(f"{crate} {edit}"):
                found = list(slips(crate, content))
                if mustfail.is_alike(content):
                    self.assertTrue(any(law for _, law in found), "one `law:` for the whole edit")
                else:
                    self.assertEqual([slip.places for slip, (inside, law) in zip(mustfail.slips(content), found) if not inside and not law], [])

    def test_each_law_that_a_slip_names_is_one_of_its_crate(self):
        for crate, edit, content in every_edit():
            for law in filter(None, (law for _, law in slips(crate, content))):
                with self.subTest(f"{crate} {edit} {law}"):
                    if "::" in law:
                        self.assertIn(law, [name_of(crate, module, f) for module, source in sources(crate).items() for f in functions(source)])
                    else:
                        file, _, name = law.rpartition(".")
                        there = [one for one in laws(crate).get(name, []) if file in ("", one)]
                        self.assertEqual(len(there), 1, "no such law, or one in each of several files")

    def test_no_two_functions_of_a_crate_have_the_same_name(self):
        for crate in sorted(os.listdir(CRATES)):
            with self.subTest(crate):
                found = Counter(name_of(crate, module, f) for module, source in sources(crate).items() for f in functions(source))
                self.assertEqual([name for name, times in found.items() if times > 1], [], "a slip in one would be taken for a slip in the other")

    def test_no_two_slips_of_an_edit_are_for_the_same_function_or_law(self):
        for crate, edit, content in every_edit():
            with self.subTest(f"{crate} {edit}"):
                found = Counter(who for inside, law in slips(crate, content) for who in (*inside, law) if who)
                self.assertEqual([who for who, times in found.items() if times > 1], [], "two slips, of which one may hide the other; or write `also:`")

    @unittest.skipUnless(IN_GATE or os.path.isdir(LOGS), "no edit has been tried: tools/tryedits does")
    def test_each_slip_is_refused_for_itself(self):
        for crate, edit, content in every_edit():
            log = self.tried(crate, edit)
            for inside, law in slips(crate, content) if log is not None else ():
                for name in inside:
                    with self.subTest(f"{crate} {edit} {name}"):
                        self.assertTrue(mustfail.function_refused(log, name), mustfail.listed(log).get(name, "not named"))
                if law:
                    with self.subTest(f"{crate} {edit} {law}"):
                        self.assertTrue(mustfail.law_refused(log, law), "not refused, or not for itself")


if __name__ == "__main__":
    unittest.main()
