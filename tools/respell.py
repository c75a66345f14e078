#!/usr/bin/env python3
"""Spells the repository's own definitions and lemmas as today's Rattle does: words in snake case, joined by underscores.

usage: python3 tools/respell.py [--check]        at the top of the repository, once, behind port.py

What turns: each name that a file of specs/ or proofs/ declares and that has a dash or, behind a small first letter, a capital.
What stays: types and modules, which are in upper camel case; what Rattle makes and what a library declares; Rust's functions, strings, inputs and
outputs. In a comment and in a must-fail edit only what is spelled like no English word turns: a name with a capital inside; in a page (README.md,
docs/) a code span too. A line 'meets:' names a file in which a new spelling stood already. --check writes nothing.
"""

import collections
import os
import re
import subprocess
import sys

WORD = r"[^\s(){}\[\].;,@\"«»`]+"
TOKEN = re.compile(r'"(?:[^"\\\n]|\\.)*"|(?<![^\s(){}.;,])--[^\n]*|' + WORD)
SIGNATURE = re.compile(r"^( *)(?:unfoldable |abbrev |pub |open )*(\S+)(?: \{[^{}\n]*\})* : ?", re.M)
USED = re.compile(r"^[ \t]*(?:pub |ghost )*use (\S+?)\.\{([^;\n]*)\};?[ \t]*$", re.M)
CAMEL = re.compile(r"[a-z][a-z0-9]*(?:[A-Z][a-z0-9]*)+")
RUST = re.compile(r'//[^\n]*|"(?:[^"\\]|\\.)*"|[\w\'-]+')
# Two names that would fall together: the lemma gets a word of its own. In every crate, and in one.
APART = {
    "bits-of": "bits_are",
    "pair-of": "pair_is",
    "body-at": "body_stands",
    "as-known": "as_known_is",
    "judge-parity": "judge_parity_is",
    "parity-of": "parity_of_is",
    "opened-words": "opened_words_are",
    "stepped-words": "stepped_words_are",
    "closed-words": "closed_words_are",
    "begin-on": "begin_on_is",
    "add-on": "add_on_is",
    "finish-on": "finish_on_is",
}
APART_IN = {"lister": {"no_line": "line_none"}}


def snake(name):
    return re.sub(r"(?<=[a-z0-9])([A-Z])", lambda m: "_" + m[1].lower(), name).replace("-", "_") if CAMEL.fullmatch(name) else name.replace("-", "_")


def read(path):
    with open(path, encoding="utf-8") as f:
        return f.read()


def files(ending):
    for top, folders, names in os.walk("crates"):
        folders[:] = sorted(d for d in folders if d != "out")
        yield from (os.path.join(top, n) for n in sorted(names) if n.endswith(ending))


def crates():
    return set(os.listdir("crates"))


def declared(own):
    """The names that specs/ and proofs/ declare, but for a function's goals and what closes its proof."""
    found = collections.defaultdict(set)
    for path in files(".antt"):
        text = read(path)
        for it in SIGNATURE.finditer(text):
            line = text[it.end() : text.find("\n", it.end())]
            if line.startswith("tie.") or re.match(r"\{M : Type 1\} → statement", line) or line.startswith("goal."):
                continue
            found[it[2]].add(path)
    return found


def turned(name):
    return ("-" in name.strip("-") and re.fullmatch(r"[A-Za-z0-9]+(-[A-Za-z0-9]+)+'?", name) is not None and not name[0].isupper()) or CAMEL.fullmatch(name) is not None


def library_names(text, own):
    """What a file takes from a library."""
    names = set()
    for it in USED.finditer(text):
        steps = it[1].split(".")
        if steps[0] == "Rattle" and len(steps) > 1 and steps[1] in own:
            continue
        names |= {w.strip() for part in re.split(r"[{}]", it[2]) for w in part.split(",")}
    return names


def main():
    check = "--check" in sys.argv
    own = crates()
    found = declared(own)
    table = {n: snake(n) for n in found if turned(n)}
    spelled = {table.get(n, n) for n in found}
    changed = 0

    def write(path, old, new):
        nonlocal changed
        if old != new:
            changed += 1
            if not check:
                with open(path, "w", encoding="utf-8") as f:
                    f.write(new)

    for path in files(".antt"):
        text = read(path)
        kept = {n for n in library_names(text, own) if path not in found.get(n, ())}
        own_words = {k: v for k, v in table.items() if k not in kept}
        own_words.update({k: v for k, v in APART.items() if k in table})
        own_words.update(APART_IN.get(path.split("/")[1], {}))
        before = {m[0] for m in TOKEN.finditer(text)}
        new = collections.Counter(own_words.get(w, w) for w in before)
        for k, v in own_words.items():
            if k in before and new[v] > 1:
                print(f"meets: {path}: {k} {v}")

        def one(m):
            word = m[0]
            if word.startswith('"'):
                return word
            if word.startswith("--"):
                return CAMEL.sub(lambda n: own_words.get(n[0], n[0]), word)
            return own_words.get(word, word)

        write(path, text, TOKEN.sub(one, text))

    for path in files(".rt"):
        text = read(path)
        used = " ".join(m[0] for m in re.finditer(r"ghost use\b[^;]*;", text))

        def word_of(m):
            word = m[0]
            if word.startswith('"'):
                return word
            if word.startswith("//"):
                return CAMEL.sub(lambda n: table.get(n[0], n[0]), word)
            return table.get(word, word) if CAMEL.fullmatch(word) or word in used else word

        write(path, text, RUST.sub(word_of, text))

    for path in files(".edit"):
        text = read(path)
        write(path, text, CAMEL.sub(lambda n: snake(n[0]) if snake(n[0]) in spelled else n[0], text))

    pages = subprocess.run(["git", "ls-files", "*.md", "NOTICE"], capture_output=True, text=True).stdout.split()
    for path in pages:
        text = read(path)

        def span(m):
            return re.sub(WORD, lambda n: snake(n[0]) if turned(n[0]) and snake(n[0]) in spelled else n[0], m[0])

        text2 = re.sub(r"`[^`\n]+`", span, text)
        write(path, text, CAMEL.sub(lambda n: snake(n[0]) if snake(n[0]) in spelled else n[0], text2))
    print(f"{len(table)} names, {changed} files")


if __name__ == "__main__":
    main()
