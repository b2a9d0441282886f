#!/usr/bin/env python3
"""Spells the repository's own definitions and lemmas as the library does: words in snake case, and a dash only between two names.

usage: tools/respell.py [--show]      at the top, once, right after the port.py of the kit, and then `rt fmt` in each crate

A word such as `allSeen` becomes `all_seen`, wherever it stands in specs/, proofs/, a clause or a comment's code. A lemma's dash stays where a
name stands on both its sides, as in `length-append`, and becomes `_` where a plain word does, as in `cleared_none`. Texts in quotes, names that
the library gives and names behind a dot that the check makes stay. --show prints what would change and writes nothing.
"""
import collections
import glob
import os
import re
import sys

WORD = re.compile(r'"(?:[^"\\\n]|\\.)*"|«[^»\n]*»|[^\s(){}.;,@"«»]+')
DECLARED = re.compile(r"^\s*(?:(?:unfoldable|abbrev|pub|data|record|module)\s+)*([^\s(){}:;,]+) :\s", re.M)
IMPORTED = re.compile(r"^\s*(?:pub |ghost )?use ([^\s;]+?)\.\{([^}]*)\}", re.M)
CAMEL = re.compile(r"(?<=[a-z0-9₀'])(?=[A-Z])")
CLAUSE = re.compile(r"(?:requires|ensures)\s*(?:\w+\s*)?\{|ghost\s+use\b")
OLD_WORDS = {"getD": "get_or"}


def read(path):
    with open(path, encoding="utf-8") as f:
        return f.read()


def files(*kinds):
    return sorted(p for k in kinds for p in glob.glob(f"crates/**/*.{k}", recursive=True) if "/out/" not in p)


def code(text):
    """The text without its comments."""
    return re.sub(r"(?<![^\s(){}.;,@])--[^\n]*", "", text)


def of_function(path):
    return re.search(r"/proofs/.+/(Proof|Answers|Invariants)\.antt$", path)


def snake(word):
    word = ".".join(OLD_WORDS.get(w, w) for w in word.split("."))
    return CAMEL.sub("_", word).lower() if word[:1].islower() else word


def camels(texts, given):
    found = {}
    for text in texts.values():
        for w in WORD.findall(code(text)):
            for part in [w] if w in given else w.split("-"):
                if part[:1].islower() and CAMEL.search(part) and part not in given:
                    found[part] = "".join(snake(part))
    return found


def turn_part(part, camel):
    return OLD_WORDS.get(part, camel.get(part, part))


def dashes(word, camel, known):
    """A dashed name anew."""
    parts = [turn_part(p, camel) for p in word.split("-")]
    out = parts[0]
    for a, b in zip(parts, parts[1:]):
        out += ("-" if a in known and b in known else "_") + b
    return out


def table():
    texts = {p: read(p) for p in files("antt", "rt")}
    given = set()
    for t in texts.values():
        for module, names in IMPORTED.findall(t):
            own = re.match(r"Rattle\.(?!std\b|core\b)", module)
            for n in names.split(","):
                n = n.strip().split(" as ")[0].strip()
                if not own:
                    given.add(n)
    antt = {p: t for p, t in texts.items() if p.endswith(".antt")}
    camel = camels(antt, given)
    declared, plain, local = set(), set(), set()
    for p, t in antt.items():
        names = set(DECLARED.findall(code(t)))
        if of_function(p):
            local |= names
            continue
        declared |= names
    for n in declared:
        if "-" not in n:
            plain.add(camel.get(n, n))
    functions = set(re.findall(r"\bfn (\w+)", "\n".join(t for p, t in texts.items() if p.endswith(".rt"))))
    known = {n for n in plain | functions | {g for g in given if "-" not in g} if re.match(r"^[^\W\d]", n)}
    dashed = {n: dashes(n, camel, known) for n in declared if "-" in n and n not in given}
    return texts, camel, dashed | apart(antt, camel, dashed, given), given


def anew(word, camel, dashed, given):
    if word in dashed:
        return dashed[word]
    if "-" in word and word not in given:
        return "-".join(turn_part(p, camel) for p in word.split("-"))
    return camel.get(word, word)


def apart(antt, camel, dashed, given):
    """A lemma that would get the name of a definition that its file names too gets `_lem`."""
    lemmas = {n for p, t in antt.items() if "/proofs/" in p and not of_function(p) for n in DECLARED.findall(code(t))}
    words = {n for p, t in antt.items() if "/specs/" in p for n in DECLARED.findall(code(t))}
    found = {}
    for p, t in antt.items():
        by = collections.defaultdict(set)
        text = code(t)
        for m in WORD.finditer(text):
            if text[m.start() - 1 : m.start()] != ".":
                by[anew(m.group(0), camel, dashed, given)].add(m.group(0))
        for new, olds in by.items():
            if len(olds) > 1:
                for o in olds & (lemmas - words):
                    found[o] = new + "_lem"
    return found


def main():
    show = "--show" in sys.argv[1:]
    texts, camel, dashed, given = table()
    new = collections.Counter(list(camel.values()) + list(dashed.values()))
    words = {w for t in texts.values() for w in WORD.findall(code(t))}
    met = {n for n, k in new.items() if k > 1} | {n for n in new if n in words}
    change = {o: n for o, n in {**camel, **dashed}.items() if o != n}
    if show:
        for o, n in sorted(change.items()):
            print(o, n, "MET" if n in met else "")
        return
    for path, text in texts.items():
        rust = path.endswith(".rt")
        proof = of_function(path)

        def put(m):
            w = m.group(0)
            if w[0] in '"«':
                return w
            made = proof and m.start() and text_now[m.start() - 1] == "."
            return camel.get(w, w) if made else anew(w, camel, dashed, given)

        text_now = text
        if rust:
            out = re.sub(r'b?"(?:[^"\\\n]|\\.)*"|[^\W\d][\w\'₀-₉]*', lambda m: camel.get(m.group(0), m.group(0)), text)
        else:
            out = WORD.sub(put, text)
        if out != text:
            with open(path, "w", encoding="utf-8") as f:
                f.write(out)


main()
