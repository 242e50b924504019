#!/usr/bin/env python3
"""Turns proofs/F/Proof.antt, which walks a function's goals by hand, into Invariants.antt and Answers.antt.

usage, in a crate's folder: to_answers.py NAMES [PATH..]   NAMES is the names.json that `rt check --generated DIR --old-names` writes;
                            PATH is a folder below proofs/, all of them where none is given

Goals that `search rules` answered are left to the check. Steps and goals get the names that the check gives them now. What it can't
tell, it says; the check decides.
"""
import glob
import json
import os
import re
import sys

W = r"[A-Za-z0-9_'₀₁₂-]+"


def norm(s):
    return s.replace("-", "_")


def decls(text):
    """(header comment lines, use lines, [(name, lines)])"""
    lines = text.split("\n")
    head, uses = [], []
    i = 0
    while i < len(lines) and lines[i].startswith("--"):
        head.append(lines[i])
        i += 1
    while i < len(lines) and (lines[i].startswith(("use ", "pub use ", " ")) or not lines[i].strip()):
        if lines[i].strip():
            uses.append(lines[i])
        i += 1
    groups, cur, name, comment = [], [], None, []
    sig = re.compile(rf"^(?:abbrev |unfoldable |pub )*({W}) : ")
    while i < len(lines):
        l = lines[i]
        i += 1
        if l.startswith("--"):
            comment.append(l)
            continue
        m = sig.match(l)
        new = m or l.startswith(("module ", "record ", "data ", "pub record", "pub data", "infix"))
        if new:
            if cur:
                groups.append((name, cur))
            cur = comment + [l]
            comment = []
            name = m.group(1) if m else None
        elif l.strip():
            cur.extend(comment)
            comment = []
            cur.append(l)
    if cur:
        groups.append((name, cur))
    return head, uses, groups


def split_args(s):
    out, depth, cur = [], 0, ""
    for ch in s:
        if ch in "([{":
            depth += 1
        if ch in ")]}":
            depth -= 1
        if ch.isspace() and depth == 0:
            if cur:
                out.append(cur)
                cur = ""
            continue
        cur += ch
    if cur:
        out.append(cur)
    return out


class Function:
    def __init__(self, crate, folder, names):
        self.crate, self.folder, self.names = crate, folder, names
        self.path = folder[len("proofs/") :].replace("/", ".")
        self.said = []
        self.vars = set()
        self.moved = [(a.replace(" ", ""), b.replace(" ", "")) for a, b in names.get("args") or []]
        for (_, vs) in names["loops"]:
            self.vars.update(vs)
        self.labels = {}
        for p in names["places"]:
            old, new = p[2]
            if old and old != new:
                self.labels[norm(old)] = new
            for a, b in p[4]:
                if a != b:
                    self.labels.setdefault(norm(a), b)
        for (old, new), _ in names["loops"]:
            if old != new:
                self.labels[norm(old)] = new
                self.labels[norm(old) + "_test"] = new + "-test"
        self.arms = {}
        for arm in names.get("arms") or []:
            if not arm:
                continue
            label, _, fields = arm
            for new, old, path in fields:
                if path:
                    self.arms.setdefault(norm(old) + "." + ".".join(path), f"{label}.{new}")
        self.names_now = {p[2][1] for p in names["places"]}
        self.states = {}
        for p, new in zip(names["places"], names["places_by_name"]):
            self.states[norm(p[0])] = new
        self.places = {}
        self.goals = {norm(a): b for a, b in names["needs"]}

    def steps(self, text, whole=False):
        of_args = set(re.findall(rf"let ({W}) = [\w.'-]*\.args in", text))
        states = {"BEFORE", "c"} | set(re.findall(rf"let ({W}) = {W}(?:\.before)* in", text))
        text = re.sub(r"(\.before)+(?=\.)", ".BEFORE", text)
        if not whole:
            text = re.sub(r"(\.before)+(?![\w-])", "", text)
        for old in sorted(self.arms, key=lambda o: -len(o)):
            label, path = old.split(".", 1)
            self.arms[old] = self.arms[old].replace("-raw", "")
            text = re.sub(
                rf"\.{label.replace('_', '[-_]')}\.{re.escape(path)}(?![\w-])", "." + self.arms[old], text
            )

        def one(m):
            pre, label = m.group(1), m.group(2)
            new = self.labels.get(norm(label))
            if not new and label != norm(label) and norm(label) in self.names_now:
                return f"{pre}.{norm(label)}"
            if not new:
                return m.group(0)
            if pre in of_args or pre in ("args", "new", "initial", "fn", "auto", "ranges", "type_inv"):
                return m.group(0)
            if (norm(label) in self.vars or re.search(r"-\d+$", new)) and pre not in states:
                return m.group(0)
            return f"{pre}.{new}"

        text = re.sub(rf"({W}|\))\.({W})", one, text)
        for _ in range(3):
            text = re.sub(rf"(BEFORE)\.({W})", one, text)
        text = text.replace(".BEFORE.", ".").replace(".BEFORE", "")
        aliases = set(re.findall(rf"let ({W}) = [\w.'-]*\.args in", text))
        for old, new in self.moved:
            if old.startswith(".args.") and new.startswith(".args."):
                for alias in aliases:
                    text = re.sub(rf"(?<![\w.'-]){alias}{re.escape(old[5:])}(?![\w-])", alias + new[5:], text)
            text = re.sub(rf"{re.escape(old)}(?![\w-])", new, text)
        # the test of an `if !x` says what x is
        text = re.sub(rf"not-(?:true|false) _ ((?:{W}\.)+if-not-{W}\.(?:true|false))(?:-raw)?(?![\w-])", r"\1", text)
        text = text.replace(".well-formed", ".well_formed").replace(".type-inv", ".type_inv")
        return text

    def types(self, text):
        def need(m):
            g = self.goals.get(norm(m.group(1)))
            if not g:
                g = self.goals.get(norm(m.group(1)).replace("overflow_", ""), None)
            if not g:
                self.said.append(f"no goal {m.group(1)}")
                g = m.group(1)
            return f"goal.{g}"

        text = re.sub(rf"tie\.Need-({W})((?: (?:invariant|decreases)-{W})*)", need, text)

        def state(m):
            new = self.states.get(norm(m.group(1)))
            if new is None:
                self.said.append(f"no state {m.group(1)}")
                new = m.group(1)
            return f"goal.{new}"

        return re.sub(rf"tie\.({W})((?: (?:invariant|decreases)-{W})*)", state, text)

    def run(self):
        file = f"{self.folder}/Proof.antt"
        head, uses, groups = decls(open(file).read())
        spec = [g for g in groups if g[0] and g[0].endswith("_spec") and "statement" in g[1][-1] + " ".join(g[1])]
        spec = [g for g in spec if any("→ statement" in l for l in g[1])]
        if len(spec) != 1:
            return "no spec"
        spec = spec[0]
        body = "\n".join(l for l in spec[1] if not l.startswith("--"))
        m = re.search(r"tie\.close\s*\(\s*tie\.spec\b(.*)\)\s*$", body, re.S)
        if not m:
            m = re.search(r"tie\.close\s+tie\.spec\s*()$", body, re.S)
            if not m:
                return "spec is not tie.close (tie.spec ..)"
        unfolding = [l for l in spec[1] if l.startswith("unfolding ")]
        args = split_args(m.group(1))
        by_name = {g[0]: g for g in groups if g[0]}
        needs = [list(n) for n in self.names["needs"]]
        loops = self.names["loops"]
        inv_names = []
        rest = []
        for a in args:
            d = by_name.get(a)
            sig = " ".join(d[1]) if d else ""
            if re.match(r"(invariant|decreases)-", a) or "tie.invariant-" in sig or "tie.decreases-" in sig:
                inv_names.append(a)
            else:
                rest.append(a)
        n_inv = 2 * len(loops)
        if len(inv_names) != n_inv:
            self.said.append(f"{len(inv_names)} invariants for {len(loops)} loops: {inv_names}")
        # align
        known = {}
        for i, a in enumerate(rest):
            d = by_name.get(a)
            if d:
                t = re.search(rf"tie\.Need-({W})", " ".join(d[1]))
                if t:
                    known[i] = t.group(1)
        pairs = {}

        def goal_index(old):
            for k, (o, n) in enumerate(needs):
                if norm(o) == norm(old) or norm(o) == norm(old).replace("overflow_", ""):
                    return k
            return None

        if len(rest) == len(needs):
            for i in range(len(rest)):
                pairs[i] = i
            for i, old in known.items():
                k = goal_index(old)
                if k != i:
                    self.said.append(f"{old} at {i} and {k}")
        else:
            self.said.append(f"{len(rest)} args for {len(needs)} goals")
            anchors = [(-1, -1)] + [(i, goal_index(o)) for i, o in sorted(known.items()) if goal_index(o) is not None] + [(len(rest), len(needs))]
            for (i0, k0), (i1, k1) in zip(anchors, anchors[1:]):
                if i0 >= 0:
                    pairs[i0] = k0
                if i1 - i0 == k1 - k0:
                    for t in range(1, i1 - i0):
                        pairs[i0 + t] = k0 + t
                else:
                    for t in range(i0 + 1, i1):
                        if not re.match(r"^\(λ c( κs)?\. search rules\)$", rest[t]):
                            self.said.append(f"unplaced: {rest[t][:80]}")
                            pairs.setdefault(t, None)
        answers, more = [], {}
        used = set()
        for i, a in enumerate(rest):
            k = pairs.get(i)
            d = by_name.get(a)
            if k is None:
                if d:
                    used.add(a)
                self.said.append(f"left out: {a[:80]}")
                continue
            new = needs[k][1]
            if d:
                used.add(a)
                code = " ".join(l for l in d[1] if not l.startswith("--"))
                if not re.search(r" c( κs)? =\s*search rules\s*$", code):
                    answers.append((new, d, None))
                continue
            m2 = re.match(r"^\(λ c((?: [^ .]+)*)\.\s*(.*)\)$", a, re.S)
            if m2:
                b = m2.group(2)
                more[new] = m2.group(1).replace(" κs", "")
                if b.strip() == "search rules" and k is not None or b.strip() == "search rules":
                    continue
                answers.append((new, None, b))
            else:
                answers.append((new, None, f"({a}) c"))
        # text
        pre = []
        inv = []
        for name, lines in groups:
            if name == spec[0]:
                continue
            if name in inv_names:
                inv.append((name, lines))
                continue
            if name in used:
                continue
        ordered = []
        told = "\n".join("\n".join(lines) for _, lines in inv)
        shared = []
        for name, lines in groups:
            if name and name not in used and name not in inv_names and name != spec[0]:
                if re.search(rf"(?<![\w.'-]){re.escape(name)}(?![\w'-])", told):
                    shared.append((name, lines))
        shared_names = [n for n, _ in shared]
        done = set()
        for name, lines in groups:
            if name == spec[0] or name in inv_names or name in shared_names:
                continue
            if name in used:
                for new, d, _ in answers:
                    if d and d[0] == name:
                        ordered.append(self.renamed(lines, name, new, name in [x[0] for x in ordered]))
                        done.add(name)
                        break
            else:
                text = self.types(self.steps("\n".join(lines), True))
                place = re.search(rf"^{re.escape(name or '?')} : \(c : goal\.({W})\)", text, re.M)
                if place:
                    self.places[name] = place.group(1)
                    text = text.replace(f"(c : goal.{place.group(1)})", f"(c : {place.group(1)})")
                ordered.append(text)
        dup = {}
        for new, d, b in answers:
            if d:
                if d[0] in dup:
                    # the same answer at a second goal
                    ordered.append(f"pub {new} : goal.{new}\n{new} = {dup[d[0]]}")
                else:
                    dup[d[0]] = new
                continue
            text = self.types(self.steps(b))
            lines = text.split("\n")
            one = [f"pub {new} : goal.{new}"] + unfolding
            if len(lines) == 1 and len(text) < 150:
                one.append(f"{new} c{more.get(new, '')} = {text}")
            else:
                one.append(f"{new} c{more.get(new, '')} =")
                one += ["    " + l.strip() if j == 0 else "    " + l for j, l in enumerate(lines)]
            ordered.append("\n".join(one))
        module = f"Rattle.{self.crate}.proofs.{self.path}"
        keep = [u for u in uses if not u.startswith(f"use {module}.Statement") and not u.startswith(f"use {module}.Tie")]
        h = [x for x in head if "Assumes nothing" not in x]
        if inv:
            texts = []
            for name, lines in shared:
                texts.append(re.sub(r"^((?:abbrev |unfoldable )*)(?!pub )(\S+ : )", r"\1pub \2", "\n".join(lines), flags=re.M))
            for name, lines in inv:
                texts.append(self.invariant(name, lines))
            open(f"{self.folder}/Invariants.antt", "w").write(
                "\n".join(h + keep + [f"use {module}.Given as goal", ""]) + "\n" + "\n\n".join(texts) + "\n"
            )
        if ordered:
            for i, one in enumerate(ordered):
                made = re.search(rf"^pub ({W}) : goal\.", one, re.M)
                if made:
                    for lemma, place in self.places.items():
                        one = re.sub(
                            rf"(?<![\w.'-]){re.escape(lemma)} {W}(?![\w.'-])", f"{lemma} (goal.at.{made.group(1)} c).{place}", one
                        )
                    ordered[i] = one
            text = "\n\n".join(ordered)
            if self.places:
                keep.append(f"use {module}.Goals.{{{', '.join(sorted(set(self.places.values())))}}}")
            if shared_names:
                keep.append(f"use {module}.Invariants.{{{', '.join(shared_names)}}}")
            open(f"{self.folder}/Answers.antt", "w").write(
                "\n".join(h + keep + [f"use {module}.Goals as goal", ""]) + "\n" + text + "\n"
            )
        return None

    def renamed(self, lines, old, new, again):
        comment = [l for l in lines if l.startswith("--") and not l.startswith("-- src/")]
        code = [l for l in lines if not l.startswith("--")]
        text = "\n".join(code)
        text = self.types(self.steps(text))
        text = re.sub(rf"^(?:pub )?{re.escape(old)} : goal\.{W}", f"pub {new} : goal.{new}", text)
        text = re.sub(rf"^{re.escape(old)}( c)?( κs)?(?= |$)", lambda m: new + (m.group(1) or ""), text, flags=re.M)
        return "\n".join(comment + [text])

    def invariant(self, name, lines):
        comment = [l for l in lines if l.startswith("--")]
        code = [l for l in lines if not l.startswith("--")]
        text = "\n".join(code)
        kind = re.search(rf"tie\.((?:invariant|decreases)-({W}))", text)
        which = kind.group(2)
        at = None
        for k, ((old, new), vs) in enumerate(self.names["loops"]):
            if norm(old) == norm(which) or new == which:
                at = k
        if at is None:
            self.said.append(f"no loop {which}")
            return text
        (old, new), vs = self.names["loops"][at]
        changed = self.names["changed"][at]
        order = [f"l.initial.{v}" if ch else f"l.{v}" for v, ch in zip(vs, changed)] + [
            f"l.{v}" for v, ch in zip(vs, changed) if ch
        ]
        m = re.match(rf"^(?:abbrev |pub )*{re.escape(name)} : tie\.{W}[^\n]*\n((?:unfolding[^\n]*\n)?){re.escape(name)} ([^=]*)=\s*(.*)$", text, re.S)
        if not m:
            self.said.append(f"invariant {name} not read")
            return text
        params = m.group(2).split()
        if len(params) != len(order):
            self.said.append(f"{name}: {len(params)} variables for {order}")
        body = m.group(3)
        sub = {p: o for p, o in zip(params, order) if p != "_"}
        body = re.sub(rf"(?<![\w.'-])({W})", lambda k: sub.get(k.group(1), k.group(1)), body)
        label = ("invariant-" if kind.group(1).startswith("invariant") else "decreases-") + new
        body = "\n".join(l for l in body.split("\n"))
        first = f"{label} l = {body}" if "\n" not in body and len(body) < 140 else f"{label} l =\n    {body}"
        return "\n".join(comment + [f"abbrev pub {label} : goal.{label}"] + ([m.group(1).strip()] if m.group(1) else []) + [first])


def main():
    names = json.load(open(sys.argv[1]))
    crate = os.path.basename(os.getcwd())
    wanted = sys.argv[2:]
    for file in sorted(glob.glob("proofs/**/Proof.antt", recursive=True)):
        folder = os.path.dirname(file)
        if wanted and folder[len("proofs/") :] not in wanted:
            continue
        key = f"Rattle-{crate}-proofs.{folder[len('proofs/'):].replace('/', '.')}.Lts"
        if key not in names:
            print(f"{folder}: not in the list")
            continue
        f = Function(crate, folder, names[key])
        try:
            why = f.run()
        except Exception as e:
            why = f"failed: {e!r}"
        if why:
            print(f"{folder}: left: {why}")
        else:
            os.remove(file)
        for s in f.said:
            print(f"{folder}: {s}")


main()
