"""The edits that the prover has to refuse (crates/*/must-fail/*.edit), and what it said of them
(target/must-fail/CRATE/EDIT.log, which tools/tryedits writes).

An edit is a comment in the first line, which says for each slip what must be so and is not, and replacements:

    file: PATH      holds for what follows, below src/, specs/ or proofs/ of the crate
    law: NAME       the law that the slip that follows makes false, and that has to refuse it: LAW, or FILE.LAW where two files have one of that name, or MODULE::FUNCTION;
                    every slip that is in no function names one, in a definition or, as in a table, in the code
    also: same slip the replacement that follows belongs to the slip before it
    old: TEXT       stands once in the file
    new: TEXT

`rt` reads file:, old: and new:, and passes over every other line.
"""
import collections
import re

Slip = collections.namedtuple("Slip", "file law places")


def slips(edit):
    """The slips of an edit, each with its file, its law if it names one, and the old texts of its replacements as (file, text)."""
    file = law = None
    also, found = False, []
    for line in edit.splitlines():
        word, _, rest = line.partition(": ")
        if word == "file":
            file, law, also = rest, None, False
        elif word == "law":
            law = rest
        elif word == "also":
            also = True
        elif word == "old":
            if also and found:
                found[-1].places.append((file, rest))
            else:
                found.append(Slip(file, law, [(file, rest)]))
            law, also = None, False
    return found


def reason(edit):
    """The comment in the first line of an edit; ValueError if there is none."""
    found = re.match(r"# *(\S.*)\n", edit)
    if not found:
        raise ValueError("the first line is no comment")
    return found[1].strip()


def is_alike(edit):
    """Whether an edit makes one slip in definition and code alike, or in the proofs too: then it is a law or a case that has to refuse it."""
    return reason(edit).endswith("though definition and code have it alike") or "\nfile: proofs/" in edit


Error = collections.namedtuple("Error", "file name")


# what the prover says of a declaration that it did not check, since another that it rests on was refused
RESTS = re.compile(r"`[^`]+` was not admitted|\d+ declarations? that depends? on `")


def errors(log):
    """Each thing that the prover refused for itself: file below the crate, and name if the error names one. What it refused only since another
    that it rests on was not admitted is left out."""
    found = re.findall(r"(?m)^\S*/((?:proofs|specs)/[^\s:]+\.antt):\d+:\d+: error: (?:`([^`]+)`: )?(.*)$", log)
    return [Error(file, name) for file, name, text in found if not RESTS.match(text)]


def listed(log):
    """What the prover said of each function, by name without its crate."""
    return dict(re.findall(r"(?m)^fn \w+::(\S+): (.*)$", log))


# the files of a function's proof; a function of a cycle has them in a folder with a + before its name
PROOF_FILES = ("Answers.antt", "Invariants.antt", "Proof.antt")


def function_refused(log, name):
    """Whether the prover refused a function for itself, and not only since it calls another that is not proved.

    A function that calls one that is not proved is listed as `not proved; it calls ..`, wrong or not. If it is wrong, its own files have an error
    besides. One whose goals the prover closes alone has no such file, or none for that goal; if it is wrong, the list says which goal `search` did
    not prove. Where it did not try, since it waits for the proof of what is called, the list says `no proof: it calls ..` alone."""
    said = listed(log).get(name, "proved")
    if said.startswith("proved"):  # a closure is `proved where its callers give what it asks`
        return False
    if "did not prove" in said or "it calls `" not in said:
        return True
    *folder, own = name.split("::")
    files = {"/".join(["proofs", *folder, place, file]) for place in (own, "+" + own) for file in PROOF_FILES}
    return any(error.file in files for error in errors(log))


def law_refused(log, law):
    """Whether the prover refused a law, a theorem or a case for itself; FILE.LAW names its file, and MODULE::FUNCTION stands for a function."""
    if "::" in law:
        return function_refused(log, law)
    file, _, name = law.rpartition(".")
    return any(error.name == name and re.fullmatch(r"\w+/%s\.antt" % (file or r"[^/]+"), error.file) for error in errors(log))
