#!/usr/bin/env python3
"""Turns the proofs of functions that walk the code by its tie into answers by name, for today's Rattle.

  tools/answers.py NAMES CRATE [FUNCTION-FOLDER..]

NAMES is the names.json that `rt check --generated DIR --old-names` writes for the crate, CRATE the crate's folder. Each proofs/F/Proof.antt
becomes proofs/F/Invariants.antt and proofs/F/Answers.antt: an invariant takes the record of its loop's variables, a path c.before.before.F
becomes c.F by its new name. Answers that the search finds alone (search rules, omega arith) are left out. What cannot be turned is said.
"""
import json
import os
import re
import sys

TRIVIAL = {"search rules", "omega arith"}
IDENT = r"[^\s(){},;.:=\[\]]+"


def norm(name):
    name = name.replace("_", "-")
    name = re.sub(r"^(overflow|nonzero)-", "", name)
    return name


def clause_names(root):
    """For each function of the repository, by crate and name, the names of its requires and ensures where it has two or more: a list for each."""
    found = {}
    for folder, dirs, files in os.walk(root):
        dirs[:] = sorted(d for d in dirs if d != "out")
        for name in sorted(files):
            if not name.endswith(".rt"):
                continue
            crate = folder[len(root):].strip("/").split("/")[0]
            with open(os.path.join(folder, name), encoding="utf-8") as f:
                text = f.read()
            for m in re.finditer(r"\bfn (\w+)", text):
                rest = text[m.end():]
                end = re.search(r"^\s*\{", rest, re.M)
                head = rest[: end.start() if end else 400]
                for kind in ("requires", "ensures"):
                    names = re.findall(r"^\s*%s (\w+) \{" % kind, head, re.M)
                    if names:
                        found.setdefault((crate, m.group(1), kind), []).append((os.path.join(folder, name), names))
    return found


CLAUSES = {}


def clauses(crate, function, kind):
    """The names of a function's clauses of a kind, or none."""
    for _, names in CLAUSES.get((crate, function, kind), []):
        return names
    return []


class Places:
    def __init__(self, entry):
        self.parent, self.field, self.callee, self.order = {}, {}, {}, []
        self.renamed, self.arms = {}, {}
        for k, (name, parent, field, callee, renamed) in enumerate(entry["places"]):
            self.renamed[name] = dict(renamed)
            self.arms[name] = entry["arms"][k] if k < len(entry["arms"]) else None
            self.parent[name] = parent
            self.field[name] = field
            self.callee[name] = callee
            self.order.append(name)
        self.params = entry["params"]
        self.typed = {name: entry["typed"][k] for k, name in enumerate(self.order) if k < len(entry["typed"])}

    def up(self, place, k):
        for _ in range(k):
            if place is None:
                return None
            place = self.parent[place]
        return place

    def find(self, place, field):
        """The place at or above `place` with this old field."""
        for which in (0, 1):
            at = place
            while at is not None:
                if norm(self.field[at][which]) == norm(field):
                    return at
                at = self.parent[at]
        # a step whose name port.py took for that of a fact: IsPlace-in is place_in
        plain = re.sub(r"(^|-)is(?=[a-z])", r"\1", norm(field).lower()) if field != field.lower() else None
        at = place if plain else None
        while at is not None:
            if norm(self.field[at][0]).lower() in (plain, norm(field).lower()):
                return at
            at = self.parent[at]
        return None


class Turn:
    def __init__(self, entry, said):
        self.entry, self.places, self.said = entry, Places(entry), said

    def path(self, asked, place, field, rest):
        """New text for a path to an old field at a place, asked from `asked`."""
        text = self.stepped(asked, place, field, rest)
        for old, new in self.entry["args"]:
            old, new = old.replace(" ", ""), new.replace(" ", "")
            text = re.sub(r"(?<=c)%s(?![\w-])" % re.escape(old), new, text)
        return text

    def stepped(self, asked, place, field, rest):
        p = self.places
        if field in ("args", "requires", "ranges", "lifetimes", "well_formed", "well-formed"):
            rest = self.tail(None, rest)
            if field == "requires":
                rest = self.named(self.crate, self.function, "requires", rest)
            return "c." + field.replace("-", "_") + rest
        if p.find(asked, field) is None and norm(field).endswith("-lem"):
            field = field[:-4]
        at = place if place is not None and norm(p.field[place][0]) == norm(field) else None
        if at is None:
            at = p.find(asked, field)
        if at is None:
            self.said("no step %s at %s" % (field, place))
            return "c." + field + rest
        new = p.field[at][1]
        # what an arm of a match says has the arm's name
        here = asked
        while here is not None:
            arm = p.arms[here]
            for to, step, steps in (arm[2] if arm else []):
                lead = "".join("." + s for s in steps)
                if not lead and norm(step) == norm(p.field[at][0]) and here == at and to.endswith("-own") and re.match(r"\.rest(?![\w-])", rest):
                    return "c.%s.%s%s" % (arm[0], to, rest)
                if lead and norm(step) == norm(p.field[at][0]) and re.match(re.escape(lead) + r"(?![\w-])", rest):
                    return "c.%s.%s%s" % (arm[0], to, rest[len(lead):])
            here = p.parent[here]
        # what a test says raw
        m = re.match(r"\.([\w-]+)", rest)
        if m and m.group(1) in p.renamed[at]:
            rest = "." + p.renamed[at][m.group(1)] + rest[m.end():]
        if field.startswith(("slice_known", "shared_slice_known", "slice-known")) and rest.startswith(".given"):
            for var, old in p.typed.get(asked, []):
                if norm(old) == norm(p.field[at][0]):
                    return "c.type_inv." + var + rest[len(".given"):]
        # the library's functions have named clauses
        if new.startswith("wrapping_") and rest == ".ensures":
            rest = ".ensures.value"
        return "c." + new + self.tail(p.callee[at], rest)

    def named(self, crate, function, kind, rest):
        """A path into clauses that were nested pairs, by the name of the clause: .0, .1.0, .1.1 are the first, second and third of three."""
        names = clauses(crate, function, kind)
        if len(names) < 2:
            return rest
        k, at = 0, rest
        while k < len(names) - 1:
            m = re.match(r"\.([01])(?![\w-])", at)
            if not m:
                return rest
            at = at[m.end():]
            if m.group(1) == "0":
                break
            k += 1
        return "." + names[k] + at

    def asked_by_name(self, goal, body):
        """What a call asks, where its clauses have names: nested pairs become a record."""
        if "-requires" not in goal:
            return body
        stem = goal.split("-requires")[0]
        callees = [c for c in self.places.params if stem == c.split("::")[-1] or stem.startswith(c.split("::")[-1] + "-")]
        if not callees:
            return body
        callee = max(callees, key=lambda c: len(c.split("::")[-1]))
        names = clauses(callee.split("::")[0], callee.split("::")[-1], "requires")
        if len(names) < 2:
            return body
        # the last expression
        depth, k = 0, 0
        for m in re.finditer(r"[(\[{]|[)\]}]|(?<![\w.'-])in(?![\w.'-])", body):
            if m.group(0) in "([{":
                depth += 1
            elif m.group(0) in ")]}":
                depth -= 1
            elif depth == 0:
                k = m.end()
        head, tail = body[:k], body[k:].strip()
        parts, rest = [], tail
        while len(parts) < len(names) - 1:
            two = pair(rest)
            if two is None:
                break
            parts.append(two[0])
            rest = two[1]
        if len(parts) == len(names) - 1:
            fields = "; ".join("%s = %s" % (n, v) for n, v in zip(names, parts + [rest]))
            return head.rstrip() + ("\n" if head.strip() else "") + "    record { " + fields + " }"
        if parts:
            self.said("pairs half written at " + goal)
            return body
        paths = ["r" + ".1" * i + (".0" if i < len(names) - 1 else "") for i in range(len(names))]
        fields = "; ".join("%s = %s" % (n, v) for n, v in zip(names, paths))
        return head.rstrip() + ("\n" if head.strip() else "") + "    let r = " + tail + " in record { " + fields + " }"

    def tail(self, callee, rest):
        if callee and rest.startswith(".ensures."):
            parts = callee.split("::")
            return ".ensures" + self.named(parts[0], parts[-1], "ensures", rest[len(".ensures"):])
        m = re.match(r"\.(new|auto)((?:\.1)*)\.0(?=$|[^\d\w])", rest)
        if m and callee:
            params = self.places.params.get(callee)
            k = m.group(2).count("1")
            if params and k < len(params):
                return ".%s.%s%s" % (m.group(1), params[k], rest[m.end():])
            self.said("no parameter %d of %s" % (k, callee))
        return rest

    def body(self, text, asked, name):
        """An answer's body with new paths."""
        env = {name: asked}
        # let s = c.before.before in
        while True:
            m = re.search(r"let (%s) = (%s)((?:\.before)*) in\s*" % (IDENT, "|".join(map(re.escape, env))), text)
            if not m:
                break
            env[m.group(1)] = self.places.up(env[m.group(2)], m.group(3).count(".before"))
            text = text[: m.start()] + text[m.end():]
        names = "|".join(sorted(map(re.escape, env), key=len, reverse=True))

        def turned(m):
            var, ups, rest = m.group(1), m.group(2), m.group(3)
            place = self.places.up(env[var], ups.count(".before"))
            if not rest:
                if var != "c" or ups:
                    self.said("bare context %s" % m.group(0))
                return m.group(0) if not (var == name and not ups) else "c"
            parts = rest[1:].split(".", 1)
            return self.path(asked, place, parts[0], "." + parts[1] if len(parts) > 1 else "")

        text = re.sub(r"(?<![\w.'′₀-])(%s)((?:\.before)*)((?:\.[\w'₀-]+)*)(?![\w'′₀-])" % names, turned, text)
        for old, new in self.entry["args"]:
            old, new = old.split(), new.split()
            if len(old) == 2 and old[0] == ".args":
                for m in re.finditer(r"let (%s) = c\.args in" % IDENT, text):
                    text = re.sub(r"(?<![\w.'-])%s%s(?![\w-])" % (re.escape(m.group(1)), re.escape(old[1])), m.group(1) + new[1], text)
        for m in re.finditer(r"let (%s) = c\.requires in" % IDENT, text):
            text = re.sub(
                r"(?<![\w.'-])%s((?:\.\d+)+)(?![\w-])" % re.escape(m.group(1)),
                lambda k: m.group(1) + self.named(self.crate, self.function, "requires", k.group(1)),
                text,
            )
        # a step that a let binds: its .auto and .new go by the callee's parameters too
        steps = {new[1]: at for at, new in self.places.field.items()}
        for m in re.finditer(r"let (%s) = c\.([\w'-]+) in" % IDENT, text):
            at = steps.get(m.group(2))
            if at is not None and self.places.callee[at]:
                text = re.sub(
                    r"(?<![\w.'-])(%s)(\.(?:new|auto)(?:\.1)*\.0)(?![\w-])" % re.escape(m.group(1)),
                    lambda k: k.group(1) + self.tail(self.places.callee[at], k.group(2)),
                    text,
                )
        return text


def pair(text):
    """The two parts of a pair, where the text is one and has two."""
    text = text.strip()
    if not text.startswith("("):
        return None
    depth, cuts = 0, []
    for i, ch in enumerate(text):
        if ch in "([{":
            depth += 1
        elif ch in ")]}":
            depth -= 1
            if depth == 0 and i < len(text) - 1:
                return None
        elif ch == "," and depth == 1:
            cuts.append(i)
    inside = [text[1 if i == 0 else cuts[i - 1] + 1: cuts[i] if i < len(cuts) else -1].strip() for i in range(len(cuts) + 1)]
    inside = [s for s in inside if s]
    if len(inside) == 2:
        return inside
    return None


def blocks(text):
    """The top-level declarations of an antt file, with the comment lines above each."""
    out, now = [], []
    for line in text.splitlines():
        if not line.strip():
            if now:
                out.append("\n".join(now))
                now = []
            continue
        now.append(line)
    if now:
        out.append("\n".join(now))
    # a blank line within a declaration: join what begins with a space
    joined = []
    for b in out:
        if joined and b[0].isspace():
            joined[-1] += "\n\n" + b
        else:
            joined.append(b)
    return joined


def split_args(text):
    """The arguments of tie.spec."""
    out, depth, now = [], 0, ""
    for ch in text:
        if ch == "(":
            depth += 1
        if ch == ")":
            depth -= 1
            if depth < 0:
                break
        if ch.isspace() and depth == 0:
            if now:
                out.append(now)
                now = ""
            continue
        now += ch
    if now:
        out.append(now)
    return out


def turn(folder, entry, crate):
    path = os.path.join(folder, "Proof.antt")
    with open(path, encoding="utf-8") as f:
        text = f.read()
    rel = folder.split("/crates/%s/" % crate, 1)[1].replace("/", ".")
    problems = []
    said = problems.append
    t = Turn(entry, said)
    t.crate, t.function = crate, os.path.basename(folder)
    needs = entry["needs"]
    asked_at = entry["asked_at"]
    by_norm = {}
    for k, (old, new) in enumerate(needs):
        by_norm.setdefault(norm(old), k)
        by_norm.setdefault(norm(new), k)
    loops = {norm(l[0][0]): (l, entry["changed"][k]) for k, l in enumerate(entry["loops"])}
    head, invs, answers, helpers = [], [], {}, []
    spec = None
    where = {}
    for b in blocks(text):
        lines = b.split("\n")
        code = [k for k, l in enumerate(lines) if not l.startswith("--")]
        if not code:
            head.append(b)
            continue
        first = lines[code[0]]
        comment = "\n".join(lines[: code[0]])
        if first.startswith("use ") or (first.startswith("pub use")):
            for l in lines:
                if l.startswith("use ") and re.search(r"\.(Statement\.\{statement\}|Tie as tie|Lts as lts|Reads as .*)$", l):
                    continue
                head.append(l)
            continue
        m = re.match(r"(?:abbrev |unfoldable )?(?:pub )?(%s) : tie\.(invariant|decreases)-?(\S*)\s*$" % IDENT, first)
        if m:
            kind, loop = m.group(2), m.group(3)
            d = re.match(r"%s((?: \S+)*) =\s*(.*)$" % re.escape(m.group(1)), "\n".join(lines[code[0] + 1:]), re.S)
            if not d:
                said("unread invariant " + first)
                continue
            found = loops.get(norm(loop)) or loops.get(norm("loop" + loop)) or loops.get(norm(loop.replace("loop-", "loop")))
            if not found:
                said("no loop " + loop)
                continue
            (names, variables), changed = found
            args = d.group(1).split()
            want = []
            for v, c in zip(variables, changed):
                want.append("l.initial." + v if c else "l." + v)
            want += ["l." + v for v, c in zip(variables, changed) if c]
            if len(args) != len(want):
                said("invariant of %s has %d arguments, not %d: %s / %s" % (loop, len(args), len(want), args, want))
                continue
            to = dict(zip(args, want))
            to.pop("_", None)
            body = d.group(2)
            alts = "|".join(sorted(map(re.escape, to), key=len, reverse=True))
            body = re.sub(r"(?<![\w.'′₀-])(%s)(?![\w'′₀-])" % alts, lambda mm: to[mm.group(1)], body)
            new = "%s-%s" % (kind, names[1])
            invs.append((comment + "\n" if comment else "") + "abbrev pub %s : goal.%s\n%s l =%s%s" % (new, new, new, "\n" if "\n" in d.group(0).split("=", 1)[1][:2] else " ", ("    " if "\n" in d.group(0).split("=", 1)[1][:2] else "") + body))
            continue
        m = re.match(r"(?:pub )?(%s) : tie\.Need-(\S+)(.*)$" % IDENT, first)
        if m:
            rest = lines[code[0] + 1:]
            unfolding = [l for l in rest if l.startswith("unfolding")]
            rest = [l for l in rest if not l.startswith("unfolding")]
            d = re.match(r"%s((?: \S+)*?) =\s?(.*)$" % re.escape(m.group(1)), "\n".join(rest), re.S)
            if not d:
                said("unread answer " + first)
                continue
            where[m.group(1)] = (m.group(2), unfolding, d.group(1).split(), d.group(2), comment)
            continue
        if "tie.close" in b:
            spec = b
            continue
        if "tie." in b or "lts." in b.lower():
            said("helper that names the tie: " + first)
        helpers.append(b)
    # the order of the arguments of tie.spec tells which need an answer is for
    order = []
    if spec:
        inside = spec.split("tie.spec", 1)[1]
        order = split_args(inside)
        order = [a for a in order if not re.match(r"(invariant|decreases)", a)]
    def put(k, unfolding, args, body, comment):
        old, new = needs[k]
        if body.strip() in TRIVIAL and not unfolding:
            return
        name = args[0] if args else "c"
        if name == "_":
            name = "c"
        body = t.body(body, asked_at[k][0], name)
        body = t.asked_by_name(new, body)
        sep = "\n" if body.startswith(("\n", "    ")) else " "
        lead = body if body.startswith("\n") else sep + body
        answers[k] = (comment + "\n" if comment else "") + "pub %s : goal.%s\n%s%s c =%s" % (new, new, "".join(u + "\n" for u in unfolding), new, lead.rstrip())
    for name, (need, unfolding, args, body, comment) in where.items():
        k = by_norm.get(norm(need))
        if k is None:
            if body.strip() not in TRIVIAL:
                said("no goal for %s (%s)" % (name, need))
                helpers.append("-- LEFT %s\n" % need + "\n".join("-- " + l for l in body.split("\n")))
            continue
        put(k, unfolding, args, body, comment)
    inline = [(i, a) for i, a in enumerate(order) if a.startswith("(")]
    for i, a in inline:
        m = re.match(r"\(λ (\S+?)(?: \S+?)*\.\s*(.*)\)$", a, re.S)
        if not m:
            said("inline " + a[:60])
            continue
        if m.group(2).strip() in TRIVIAL:
            continue
        if len(order) == len(needs):
            put(i, [], [m.group(1)], m.group(2), "")
        else:
            said("inline answer %d of %d, %d goals: %s" % (i, len(order), len(needs), a[:80]))
    comments = [h for h in head if h.startswith("--")]
    uses = [h for h in head if not h.startswith("--")]
    mod = "Rattle.%s.%s" % (crate, rel)
    if invs:
        with open(os.path.join(folder, "Invariants.antt"), "w", encoding="utf-8") as f:
            f.write("\n".join(comments + uses + ["use %s.Given as goal" % mod]) + "\n\n" + "\n\n".join(invs) + "\n")
    if answers:
        with open(os.path.join(folder, "Answers.antt"), "w", encoding="utf-8") as f:
            f.write("\n".join((comments if not invs else []) + uses + ["use %s.Goals as goal" % mod]) + "\n\n"
                    + "\n\n".join(helpers + [answers[k] for k in sorted(answers)]) + "\n")
    elif helpers:
        said("helpers without answers")
    os.remove(path)
    return problems


def main():
    names, root = sys.argv[1], os.path.realpath(sys.argv[2])
    CLAUSES.update(clause_names(os.path.dirname(root)))
    crate = os.path.basename(root)
    with open(names, encoding="utf-8") as f:
        table = json.load(f)
    only = [os.path.realpath(p) for p in sys.argv[3:]]
    for key in sorted(table):
        m = re.match(r"Rattle-%s-proofs\.(.*)\.Lts$" % crate, key)
        if not m:
            continue
        folder = os.path.join(root, "proofs", *m.group(1).split("."))
        if only and folder not in only:
            continue
        if not os.path.exists(os.path.join(folder, "Proof.antt")):
            continue
        for p in turn(folder, table[key], crate):
            print("%s: %s" % (m.group(1), p))
    for d, _, fs in os.walk(os.path.join(root, "proofs")):
        if "Proof.antt" in fs and not only:
            print("left: " + d)


if __name__ == "__main__":
    main()
