#!/usr/bin/env python3
"""Brings the repository's own names in definitions, laws, clauses and edits to today's spelling: words in snake case.

  tools/respell.py [FOLDER]    once, right after the kit's port.py; FOLDER is the top of the repository, here if left out

A name of a definition or law that begins with a small letter and has capitals, as wordAt, becomes word_at, in crates/*/specs and proofs, in the
clauses and imports of crates/*/src and in the edits of crates/*/must-fail. Types, records, facts and modules keep their capitals, and so do names
of the source. Where a law would then have the name of its definition it gets _lem. Strings, comments of the source and numbers stay.
"""
import os
import re
import sys

WORD = re.compile(r"(?<![A-Za-z0-9_'₀₁₂])[a-z][A-Za-z0-9]*(?:[-_][A-Za-z0-9]+)*'*")
PART = re.compile(r"[A-Za-z0-9]+|[-_]|'+")
HEX = re.compile(r"x[0-9A-F_]+$")

# laws whose names port.py brought together with the definition that they are of
LAWS = [
    "all_right", "goes_on", "handed_out", "head_ok", "kept_by", "read_length", "room_after", "second_word", "stepped_by", "view_in",
    "views_after", "words_right",
]
# such laws where a field of a record has the same name: only in these files
LAWS_IN = {"cast_ok": ["ScriptWordLaws.antt", "ScanForLaws.antt"]}
# a name of the library's that stands in one of ours
PLAIN = {"getD": "get_or"}


def snake(part):
    if part in PLAIN:
        return PLAIN[part]
    if part[0].isupper() or part.isdigit():
        return part
    return re.sub(r"(?<=[a-z0-9])([A-Z])", lambda m: "_" + m.group(1).lower(), part)


def named(match):
    word = match.group(0)
    if HEX.match(word):
        return word
    return "".join(snake(p) if p[0].isalnum() else p for p in PART.findall(word))


def in_antt(text, path):
    if "/proofs/" in path:
        name = os.path.basename(path)
        laws = LAWS + [law for law, files in LAWS_IN.items() if name in files]
        text = re.sub(r"(?<![\w.'-])(%s)(?![\w'-])" % "|".join(laws), r"\1_lem", text)
    return "".join(line if line.lstrip().startswith("--") and "`" not in line else WORD.sub(named, line) for line in text.splitlines(True))


def in_rt(text, path):
    # imports and clauses alone: a clause begins at requires, ensures, ghost or a line that goes on with one
    out, clause = [], 0
    for line in text.splitlines(True):
        bare = line.strip()
        begins = re.match(r"(requires|ensures|ghost|invariant)\b", bare)
        if bare.startswith("//"):
            out.append(line)
            continue
        if clause > 0 or begins:
            out.append(WORD.sub(named, line))
            clause = clause + line.count("{") - line.count("}") if not bare.startswith("ghost use") else 0
        else:
            out.append(line)
    return "".join(out)


def in_edit(text, path):
    out, antt = [], False
    for line in text.splitlines(True):
        if line.startswith("file:"):
            antt = line.rstrip().endswith(".antt")
        if line.startswith("#") or line.startswith("file:"):
            out.append(line)
        elif antt or line.startswith("law:"):
            out.append(WORD.sub(named, line))
        else:
            out.append(line)
    return "".join(out)


def main():
    top = sys.argv[1] if len(sys.argv) > 1 else "."
    turned = 0
    for folder, dirs, files in os.walk(os.path.join(top, "crates")):
        dirs[:] = sorted(d for d in dirs if d != "out")
        for name in sorted(files):
            path = os.path.join(folder, name)
            how = in_antt if name.endswith(".antt") else in_rt if name.endswith(".rt") else in_edit if name.endswith(".edit") else None
            if how is None:
                continue
            with open(path, encoding="utf-8", newline="") as f:
                text = f.read()
            new = how(text, path)
            if new != text:
                turned += 1
                with open(path, "w", encoding="utf-8", newline="") as f:
                    f.write(new)
    print("respell: %d files" % turned)


if __name__ == "__main__":
    main()
