#!/usr/bin/env python3
"""Turns a crate's proofs from the form that walks the code by hand (Proof.antt) to Invariants.antt and Answers.antt.

usage: python3 tools/answers.py NAMES CRATE..        at the top of the repository

NAMES is a folder that `rt names` wrote: each function's old and new names of goals, steps and fields. A goal that was left to the search is left out. What the
script cannot turn it keeps as it stands, so that the check names it; a line 'look:' says where.
"""

import json
import os
import re
import sys

SEG = r"[^\s(){}\[\],;.«»]+"
PATH = re.compile(rf"(?<![^\s(){{}}\[\],;←])([A-Za-z_][\w'₀-₉-]*)((?:\.{SEG})+)")


def norm(name):
    return re.sub(r"[-_]", "_", name)


def spellings(old):
    yield old
    yield "overflow-" + old
    yield re.sub(r"^part-", "slice-bounds-", old)
    yield re.sub(r"^sub-", "overflow-sub-", old)
    yield "slice-bounds-" + old


def blocks(text):
    """The file's parts between blank lines, but a part that begins indented belongs to the one before."""
    parts = []
    for part in re.split(r"\n[ \t]*\n", text.strip("\n")):
        if parts and part[:1].isspace():
            parts[-1] += "\n\n" + part
        else:
            parts.append(part)
    return parts


def closing(text, at):
    depth = 0
    pairs = {"(": ")", "{": "}", "[": "]"}
    for i in range(at, len(text)):
        if text[i] in pairs:
            depth += 1
        elif text[i] in pairs.values():
            depth -= 1
            if depth == 0:
                return i
    return -1


def items(text):
    """A tuple's parts, at the top."""
    out, depth, begin = [], 0, 0
    for i, ch in enumerate(text):
        if ch in "({[":
            depth += 1
        elif ch in ")}]":
            depth -= 1
        elif ch == "," and depth == 0:
            out.append(text[begin:i])
            begin = i + 1
    if text[begin:].strip():
        out.append(text[begin:])
    return [it.strip() for it in out]


def last_term(body):
    """Where the body's last term begins: behind the last `in` that stands at no depth."""
    depth, at = 0, 0
    for m in re.finditer(r"[({\[]|[)}\]]|(?<![^\s])in(?![^\s(])", body):
        if m[0] in "({[":
            depth += 1
        elif m[0] in ")}]":
            depth -= 1
        elif depth == 0:
            at = m.end()
    return at


class Names:
    def __init__(self, it):
        self.it = it
        self.goals = {}
        self.args = {a.split(" .")[1]: b.split(" .")[1] for a, b in it["args"] if a.startswith(".args .")}
        self.order = [new for _, new in it["needs"]]
        for old, new in it["needs"]:
            for s in spellings(old):
                self.goals.setdefault(norm(s), new)
        self.steps, self.clauses = {}, {}
        for i, (place, _, pair, _, _) in enumerate(it["places"]):
            if pair and pair[0]:
                self.steps.setdefault(norm(pair[0]), pair[1])
                told = it["clauses"][i]
                if told:
                    self.clauses[pair[1]] = told["fields"]
        self.fields = []
        for arm in it["arms"]:
            if arm:
                for new, old, path in arm[2]:
                    self.fields.append(((norm(old), *path), (arm[0], new)))
        self.fields.sort(key=lambda p: -len(p[0]))

    def clause(self, fields, rest):
        """A product's path, as 1.0, becomes a clause's name."""
        n, k, i = len(fields), 0, 0
        while k < n - 1 and i < len(rest) and rest[i] == "1":
            k += 1
            i += 1
        if k < n - 1:
            if i < len(rest) and rest[i] == "0":
                return [fields[k], *rest[i + 1 :]]
            return rest
        return [fields[k], *rest[i:]]

    def path(self, segs):
        segs = [s for s in segs if s != "before"]
        if not segs:
            return segs
        for old, new in self.fields:
            if (norm(segs[0]), *segs[1 : len(old)]) == old and old[1:]:
                return [*new, *segs[len(old) :]]
        if segs[0] == "requires":
            pre = self.it.get("pre")
            if pre and pre["fields"] and (len(segs) > 1 or len(pre["fields"]) == 1):
                return ["requires", *self.clause(pre["fields"], segs[1:])]
            return segs
        if segs[0] in ("args", "ranges"):
            word = segs[1].replace("-", "_") if len(segs) > 1 else ""
            return [segs[0], *([self.args.get(word, word)] if word else []), *segs[2:]]
        step = self.steps.get(norm(segs[0]))
        if step is None:
            return segs
        rest = segs[1:]
        if rest[:1] == ["ensures"] and step in self.clauses and (len(rest) > 1 or len(self.clauses[step]) == 1):
            rest = ["ensures", *self.clause(self.clauses[step], rest[1:])]
        return [step, *rest]


def turn_paths(body, names):
    # what a `let` calls c, or one of c's steps, behind any number of steps
    alias = {"c": []}
    for m in re.finditer(r"\blet ([\w'₀-₉-]+) = ([\w'₀-₉-]+)((?:\.[^\s(){}\[\],;]+)?) in\b", body):
        if m[2] in alias:
            alias.setdefault(m[1], alias[m[2]] + [s for s in m[3].split(".")[1:] if s != "before"])

    def one(m):
        head, segs = m[1], m[2][1:].split(".")
        if head not in alias:
            return m[0]
        whole, part = names.path(alias[head] + segs), names.path(list(alias[head]))
        if whole[: len(part)] != part:
            print(f"look: {names.what}: {m[0]} is {'.'.join(whole)}")
            return m[0]
        return ".".join([head, *whole[len(part) :]])

    return PATH.sub(one, body)


def signature(block):
    m = re.search(r"(?m)^(abbrev )?(pub )?(\S+) : tie\.(\S+)(.*)$", block)
    return m


def turn(crate, fn, it, root):
    folder = os.path.join(root, "crates", crate, "proofs", *fn.split("."))
    source = os.path.join(folder, "Proof.antt")
    with open(source, encoding="utf-8") as f:
        text = f.read()
    names = Names(it)
    names.what = f"{crate} {fn}"
    parts = blocks(text)
    head, body = parts[0], parts[1:]
    comment = [l for l in head.split("\n") if l.startswith("--")]
    uses = [l for l in head.split("\n") if l.startswith("use ") and not re.search(r"\.(Statement\.\{statement\}|Tie as tie)$", l)]
    module = f"Rattle.{crate}.proofs.{fn}"
    invariants, answers, look = [], [], []
    order = list(names.order)
    needs = [b for b in body if (m := signature(b)) and m[4].startswith("Need-")]
    by_place = len(needs) == len(order)
    for b in body:
        if re.search(r"(?m)^pub \S+[-_]spec : \{M : Type 1\} → statement M", b):
            continue
        m = signature(b)
        if m is None:
            answers.append(("", turn_paths(b, names)))
            if "tie." in b:
                look.append("tie is named: " + b.strip().split("\n")[0][:100])
            continue
        name, kind = m[3], m[4]
        if kind.startswith("invariant") or kind.startswith("decreases"):
            word, loop = kind.split("-", 1)
            loops = names.it["loops"]
            which = next((i for i, l in enumerate(loops) if norm(l[0][0]) == norm(loop)), None)
            if which is None:
                look.append(f"no loop {loop}")
                answers.append(("", b))
                continue
            new, vs = loops[which][0][1], loops[which][1]
            changed = names.it["changed"][which]
            d = re.search(rf"(?ms)^{re.escape(name)} ([^=]*?) =(.*)$", b)
            params = d[1].split()
            want = [("initial." + v if c else v) for v, c in zip(vs, changed)] + [v for v, c in zip(vs, changed) if c]
            term = d[2]
            if len(params) != len(want):
                look.append(f"{kind}: {len(params)} parameters for {want}")
            sub = dict(zip(params, want))
            term = re.sub(rf"(?<![\w'₀-₉.-])([A-Za-z_][\w'₀-₉-]*)(?![\w'₀-₉-])", lambda w: "l." + sub[w[1]] if w[1] in sub and not re.match(r"\s*=(?!=)", term[w.end() :]) else w[0], term)
            lead = [l for l in b[: m.start()].split("\n") if l.strip()]
            unf = [l for l in b.split("\n") if l.startswith("unfolding ")]
            invariants.append("\n".join(lead + [f"abbrev pub {word}-{new} : goal.{word}-{new}"] + unf + [f"{word}-{new} l ={term}"]))
            continue
        if not kind.startswith("Need-"):
            look.append(f"{name} : tie.{kind}")
            answers.append(("", turn_paths(b, names)))
            continue
        goal = names.goals.get(norm(kind[len("Need-") :]))
        if goal is None and by_place:
            goal = order[needs.index(b)]
        if goal is None and re.search(r"=\s*search rules\s*$", b):
            continue
        if goal is None:
            look.append(f"no goal for {kind}")
            answers.append(("", b))
            continue
        d = re.search(rf"(?ms)^{re.escape(name)}((?: [^=\n]*?)?) =(.*)$", b)
        args, term = d[1].split(), d[2]
        if term.strip() == "search rules":
            continue
        term = turn_paths(term, names)
        fields = names.it["asked"].get(goal) or names.it["asked"].get(next((o for o, n in names.it["needs"] if n == goal), ""))
        if fields:
            at = last_term(term)
            t = term[at:].strip()
            if t.startswith("(") and closing(t, 0) == len(t) - 1:
                its = items(t[1:-1])
                while len(its) < len(fields) and its[-1].startswith("(") and closing(its[-1], 0) == len(its[-1]) - 1:
                    its[-1:] = items(its[-1][1:-1])
                if len(its) == len(fields):
                    lead = term[:at].rstrip()
                    its = ["search rules" if i == "search rules" else i for i in its]
                    term = (lead + "\n    " if lead.strip() else " ") + "record { " + "; ".join(f"{f} = {v}" for f, v in zip(fields, its)) + " }"
                else:
                    look.append(f"{goal}: {len(its)} parts for {fields}")
            else:
                look.append(f"{goal}: no tuple for {fields}")
        args = [a for a in args if a != "κs" or re.search(r"\bκs\b", term)]
        lead = [l for l in b[: m.start()].split("\n") if l.strip()]
        unf = [l for l in b.split("\n") if l.startswith("unfolding ")]
        answers.append((goal, "\n".join(lead + [f"pub {goal} : goal.{goal}"] + unf + [f"{goal} {' '.join(args)} ={term}"])))
    for n in ("Invariants.antt", "Answers.antt"):
        p = os.path.join(folder, n)
        if os.path.exists(p):
            os.remove(p)
    if invariants:
        with open(os.path.join(folder, "Invariants.antt"), "w", encoding="utf-8") as f:
            f.write("\n".join(comment + uses + [f"use {module}.Given as goal", ""]) + "\n" + "\n\n".join(invariants) + "\n")
    if any(g for g, _ in answers):
        with open(os.path.join(folder, "Answers.antt"), "w", encoding="utf-8") as f:
            f.write("\n".join(comment + uses + [f"use {module}.Goals as goal", ""]) + "\n" + "\n\n".join(a for _, a in answers) + "\n")
    os.remove(source)
    for l in look:
        print(f"look: {crate} {fn}: {l}")


def main(argv):
    if len(argv) < 2:
        print(__doc__)
        return 2
    for crate in argv[1:]:
        with open(os.path.join(argv[0], "crates", crate, "names.json"), encoding="utf-8") as f:
            it = json.load(f)
        base = os.path.join("crates", crate, "proofs")
        for top, folders, files in sorted(os.walk(base)):
            if "Proof.antt" in files:
                fn = os.path.relpath(top, base).replace(os.sep, ".")
                key = f"Rattle-{crate}-proofs.{fn}.Lts"
                if key not in it:
                    print(f"look: {crate} {fn}: no names")
                    continue
                turn(crate, fn, it[key], ".")
    return 0


if __name__ == "__main__":
    raise SystemExit(main(sys.argv[1:]))
