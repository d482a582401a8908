#!/usr/bin/env python3
"""Spells this repository's own words as today's Rattle does: words in snake case, and a dash only between two names.

usage: respell.py [--dry]      at the top of the repository, once, after the toolchain's own port script

Camel words that .antt files declare become snake case wherever they stand: specs, proofs, clauses, edits, and the code spans of the
documents. A lemma's name keeps a dash between two parts that are words of their own, and otherwise takes an underscore. Rust names,
strings and what the toolchain generates stay. It stops where two names would fall together, unless CLASH gives one of them another name.
"""

import os
import re
import sys

PART = r"[^\s(){}\[\];,.`\"]+"
TOKEN = re.compile(PART)
HEAD = re.compile(r"^(\s*)((?:(?:unfoldable|abbrev|pub|data|record|ruleset)\s+)*)(" + PART + r")((?:\s*\([^()]*(?:\([^()]*\)[^()]*)*\)|\s*\{[^{}]*\})*)\s*:\s")
CAMEL = re.compile(r"[a-z0-9][A-Z]")
# Lemmas that would take the name of the word that they are about, or of another lemma.
CLASH = {
    it: it.replace("-", "_") + "_lem"
    for it in "all-of at-end box-inside frame_is goes_on in_bounds in-span is-blank latest-gone lies_in look-row offered-one on-page pixel-in "
    "well-formed withdraw-row in-float".split()
}
# Other names: under an 'as' or a 'let', and a word that is now a tactic's.
EXTRA = {
    it: re.sub(r"([A-Z])", lambda m: "_" + m[1].lower(), it)
    for it in "ruleMade ruleNumbers lookPage lookKey lookAt lookShown lookRefused scriptOpened eW numberIn".split()
}
TACTIC = {"crates/compose/": {"ground": "ground_bytes"}, "crates/job/": {"ground": "ground_told"}}


def snake(name):
    return re.sub(r"(?<=[a-z0-9])([A-Z])", lambda m: "_" + m[1].lower(), name)


def files(ending, tops):
    for top in tops:
        for folder, dirs, names in os.walk(top):
            dirs[:] = sorted(d for d in dirs if d not in ("out", "target", ".git"))
            for n in sorted(names):
                if n.endswith(ending):
                    yield os.path.join(folder, n)


def read(path):
    with open(path, encoding="utf-8") as f:
        return f.read()


def declared():
    """The names that .antt files declare: by name, the files. Proofs of one function have only words of their own."""
    found, imported = {}, set()
    for path in files(".antt", ["crates"]):
        for line in read(path).splitlines():
            use = re.match(r"\s*(?:pub )?use ([^{]*)\.\{(.*)\}", line)
            if use:
                if not re.match(r"Rattle\.(%s)\." % "|".join(CRATES), use[1]):
                    imported.update(it.split(" as ")[0].strip() for it in use[2].split(","))
                continue
            if re.match(r"\s*(use|--|module|\||→)", line):
                continue
            head = HEAD.match(line)
            if head:
                for name in head[3].split():
                    found.setdefault(name, set()).add(path)
    return found, imported


def main(argv):
    dry = "--dry" in argv
    found, imported = declared()
    words = {snake(n) for n, where in found.items() if any("/specs/" in p for p in where)} | {snake(n) for n in imported}
    parts_of = lambda n: n.split("-")
    new = {}
    for name, where in sorted(found.items()):
        if name[0].isupper() or name in imported:
            continue
        lemma = snake(name) if CAMEL.search(name) and not re.search(r"[A-Z]\w*-|-[A-Z]", name) else name
        if "-" in lemma and not all(p.endswith("/Proof.antt") for p in where):
            each = parts_of(lemma)
            text = each[0]
            for left, right in zip(each, each[1:]):
                text += ("-" if left in words and right in words or left[:1].isupper() or right[:1].isupper() else "_") + right
            lemma = text
        lemma = CLASH.get(name, lemma)
        if lemma != name:
            new[name] = lemma
    # Two names that fall together in one file, or a new name that something else has already.
    taken, bad = {}, 0
    for name in found:
        taken.setdefault(new.get(name, name), set()).add(name)
    for to, names in sorted(taken.items()):
        if len(names) > 1:
            print("fall together:", to, "<-", {n: sorted(found[n])[:3] for n in names})
            bad += 1
    for old in list(new):
        if new[old] in imported:
            print("is a library's word:", new[old], "<-", old, sorted(found[old])[:3])
            bad += 1
    new.update(EXTRA)
    if dry:
        for a, b in sorted(new.items()):
            print(a, "->", b)
        return 1 if bad else 0
    if bad:
        return 1

    def turn(text, dashes):
        def one(m):
            t = m[0]
            if t not in new:
                return t
            if not CAMEL.search(t) and (not dashes or text[m.start() - 1 : m.start()] == "."):
                return t
            return new[t]
        return TOKEN.sub(one, text)

    for path in list(files(".antt", ["crates"])) + list(files(".rt", ["crates"])) + list(files(".edit", ["crates"])):
        text = read(path)
        to = turn(text, not path.endswith(".rt"))
        for top, words in TACTIC.items():
            if path.startswith(top) and path.endswith(".antt"):
                to = TOKEN.sub(lambda m: words.get(m[0], m[0]), to)
        if to != text:
            with open(path, "w", encoding="utf-8") as f:
                f.write(to)
    for path in ["README.md"] + list(files(".md", ["docs", "differential", "example"])):
        text = read(path)
        to = re.sub(r"`[^`\n]+`", lambda m: "`" + turn(m[0][1:-1], True) + "`", text)
        if to != text:
            with open(path, "w", encoding="utf-8") as f:
                f.write(to)
    return 0


CRATES = sorted(os.listdir("crates")) if os.path.isdir("crates") else []

if __name__ == "__main__":
    raise SystemExit(main(sys.argv[1:]))
