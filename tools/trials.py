"""Tries an edit of crates/*/must-fail, or some of its replacements, on a copy of its crate, and gives all that the prover says. For tools/tryedits and
tools/tryslips.

`rt ci` tries every edit too and is the judge, but of what the prover says it prints one line for each edit; which law or function refuses which slip
takes the whole. What was said with an edit is kept in target/must-fail/CRATE/EDIT.log, under a sum of all that it was said of.
"""
import functools
import glob
import hashlib
import os
import re
import shutil
import subprocess
import tempfile

from pagetools import ROOT, read

LOGS = os.path.join(ROOT, "target", "must-fail")
PARTS = ("src", "specs", "proofs")


# ---- crates ----


@functools.lru_cache(maxsize=None)
def lines():
    """The lines of crates.txt, by crate."""
    found = {}
    for line in read("crates.txt").splitlines():
        head, colon, _ = line.partition("#")[0].partition(":")
        if colon:
            found[head.split()[0]] = line
    return found


@functools.lru_cache(maxsize=None)
def chain(crate):
    """A crate and those below it that are the repository's, each once, in the order of their names."""
    named = lines()[crate].partition("#")[0].partition(":")[2].split()
    return tuple(sorted({crate, *(below for name in named if name in lines() for below in chain(name))}))


def edits(crate):
    """The names of a crate's edits."""
    return sorted(os.path.basename(path)[:-len(".edit")] for path in glob.glob(os.path.join(ROOT, "crates", crate, "must-fail", "*.edit")))


def edit_of(crate, name):
    return read("crates", crate, "must-fail", name + ".edit")


# ---- what was said, and of what ----


@functools.lru_cache(maxsize=None)
def toolchain():
    """The line of the toolchain; nothing where there is none."""
    try:
        return subprocess.run(["rt", "version"], stdout=subprocess.PIPE, check=False).stdout
    except OSError:
        return b""


@functools.lru_cache(maxsize=None)
def own_sum(crate):
    total = hashlib.sha256(lines()[crate].encode("utf-8"))
    for part in PARTS:
        for at, folders, names in os.walk(os.path.join(ROOT, "crates", crate, part)):
            folders.sort()
            for name in sorted(names):
                with open(os.path.join(at, name), "rb") as file:
                    total.update(repr((os.path.relpath(os.path.join(at, name), ROOT), file.read())).encode("utf-8"))
    return total.digest()


def sum_of(crate, edit):
    """A sum of all that a try of an edit reads: the toolchain, the crate and those below it, and the edit."""
    total = hashlib.sha256(toolchain())
    for below in chain(crate):
        total.update(own_sum(below))
    total.update(edit.encode("utf-8"))
    return total.hexdigest()


def log_path(crate, name):
    return os.path.join(LOGS, crate, name + ".log")


def log_of(crate, name):
    """What the prover said with an edit; None if it has not been tried on what stands now."""
    try:
        with open(log_path(crate, name), encoding="utf-8") as file:
            first, _, said = file.read().partition("\n")
    except OSError:
        return None
    return said if first == sum_of(crate, edit_of(crate, name)) else None


def keep_log(crate, name, said):
    os.makedirs(os.path.dirname(log_path(crate, name)), exist_ok=True)
    with open(log_path(crate, name), "w", encoding="utf-8") as file:
        file.write(sum_of(crate, edit_of(crate, name)) + "\n" + said)


# ---- trying ----


def replacements(edit, places=None):
    """The replacements of an edit as (file, old, new), those at these places as (file, old) if any are given."""
    found, file, old = [], None, None
    for line in edit.splitlines():
        word, _, rest = line.partition(":")
        rest = rest[1:] if rest.startswith(" ") else rest
        if word == "file":
            file = rest
        elif word == "old":
            old = rest
        elif word == "new" and (places is None or (file, old) in places):
            found.append((file, old, rest))
    return found


def replaced(edit, folder, places=None):
    """Makes the replacements of an edit in a copy of its crate, all or those at these places; ValueError if one does not fit."""
    for file, old, new in replacements(edit, places):
        path = os.path.join(folder, file)
        text = read(path)
        if text.count(old) != 1:
            raise ValueError("%d times in %s: %s" % (text.count(old), file, old))
        with open(path, "w", encoding="utf-8") as out:
            out.write(text.replace(old, new))


class Copy:
    """A copy of a crate and of those below it, in a folder that goes with it. What its checks prove is kept there from one to the next."""

    def __init__(self, crate):
        self.crate = crate

    def __enter__(self):
        self.work = tempfile.TemporaryDirectory(prefix="girmaut-edits-")
        top = self.work.name
        with open(os.path.join(top, "crates.txt"), "w", encoding="utf-8") as file:
            file.writelines(lines()[name] + "\n" for name in chain(self.crate))
        for name in chain(self.crate):
            for part in PARTS:
                there = os.path.join(ROOT, "crates", name, part)
                if os.path.isdir(there):
                    shutil.copytree(there, os.path.join(top, "crates", name, part))
        self.folder = os.path.join(top, "crates", self.crate)
        self.put_back()
        return self

    def __exit__(self, *_):
        self.work.cleanup()

    def put_back(self):
        """The crate's own files as they stand in the repository."""
        for part in PARTS:
            shutil.rmtree(os.path.join(self.folder, part), ignore_errors=True)
            there = os.path.join(ROOT, "crates", self.crate, part)
            if os.path.isdir(there):
                shutil.copytree(there, os.path.join(self.folder, part))

    def said(self, edit=None, places=None):
        """Status and text of a check of the crate as it stands, or with an edit's replacements, all or those at these places."""
        self.put_back()
        if edit is not None:
            replaced(edit, self.folder, places)
        done = subprocess.run(["rt", "check", "--jobs", "1"], cwd=self.folder, stdin=subprocess.DEVNULL, stdout=subprocess.PIPE, stderr=subprocess.STDOUT,
                              encoding="utf-8", errors="replace", check=False)
        return done.returncode, done.stdout

    def said_with(self, edit, places=None):
        """What the prover says of the crate with an edit; ValueError where it came to no verdict, or has nothing to refuse."""
        status, text = self.said(edit, places)
        if status == 0:
            raise ValueError("the crate is still proved")
        if status != 1 or not re.search(r"(?m)^logic=not-proved", text):
            raise ValueError("no verdict (status %d): %s" % (status, text[-2000:]))
        return text
