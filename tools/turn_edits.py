#!/usr/bin/env python3
"""Brings the must-fail edits to the spelling of the files that they change, by laying the old file beside the new one.

usage: tools/turn_edits.py COMMIT [--show]      at the top, once, after tools/respell.py; COMMIT is the last one in the old spelling

The words of all .antt files of COMMIT are laid beside those of today, and so it is learned which word became which. An edit whose `old:` stood
once in its file gets for `old:` the text that stands there now, and its `new:` is turned by the same words. A projection ` .name` is written
tight, `(f x).name` where it is of more than one word, and brackets that it leaves needless go. --show writes nothing and prints each pair of the
edits as it was and as it is. Each edit is then checked: its `old:` must stand in its file just once, and its `new:` must be another text. What does
not pass is printed last, and is for a hand to mend.
"""
import collections
import difflib
import glob
import re
import subprocess
import sys

MOVED = {"hexadecimal": "hex"}  # crates whose folder had another name
TOKEN = re.compile(r'"(?:[^"\\\n]|\\.)*"|«[^»\n]*»|\s+|[(){};,@]|\.\.|\.|[^\s(){}.;,@"«»]+')
PATHS = {  # whole paths, which no file of today has
    r"\b(?:mathlib\.Core\.(?:Bool|List)|Prim\.Native\.Nat|lib\.Dec|lib\.ListN)\.": "Rattle.std.specs.Prelude.",
    r"\bRattle·(\w+)·specs\.specs\.": r"Rattle.\1.specs.",
    r"\bfoldl\b": "fold",
    r"\b_-_(?= )": "◌-◌",
}
STOPS = set("= → ← ∷ ++ + * ^ - ≤ < ≡ && || ∷ᵖ ∷ᵛ ∷ᵗ ++ᵖ ++ᵛ ++ᵗ : ; , λ let in do where with ⊎ × ≤ ∸".split())


def read(path):
    with open(path, encoding="utf-8") as f:
        return f.read()


def before(commit, path):
    _, crate, rest = path.split("/", 2)
    path = f"crates/{MOVED.get(crate, crate)}/{rest}"
    said = subprocess.run(["git", "show", f"{commit}:{path}"], capture_output=True, text=True)
    return said.stdout if said.returncode == 0 else None


def words(text):
    return [t for t in TOKEN.findall(text) if t.strip() and t not in "(){};,@."]


def learn(pairs):
    """Which word became which, how often, in each file and in all."""
    here, everywhere = {}, collections.defaultdict(collections.Counter)
    for path, (old, new) in pairs.items():
        mine = collections.defaultdict(collections.Counter)
        for line, present in lines_beside(old, new):
            a, b = words(line), words(present)
            if len(a) == len(b):
                for x, y in zip(a, b):
                    mine[x][y] += 1
                    everywhere[x][y] += 1
        here[path] = mine
    return here, everywhere


def plain(line):
    """A line by which it can be known again: its letters, without case, dashes and brackets."""
    line = line.replace("getD", "get_or")
    return re.sub(r"[\s_().'′◌\-·]", "", line).lower()


def lines_beside(old, new):
    """The pairs of a line of the old text and the line that stands for it."""
    a = [l for l in old.split("\n") if l.strip() and not l.startswith("use ")]
    b = [l for l in new.split("\n") if l.strip() and not l.startswith("use ")]
    m = difflib.SequenceMatcher(None, [plain(l) for l in a], [plain(l) for l in b], autojunk=False)
    for kind, i, j, k, l in m.get_opcodes():
        if kind == "equal" or (kind == "replace" and j - i == l - k):
            yield from zip(a[i:j], b[k:l])


def turn_word(word, mine, everywhere):
    for table in (mine, everywhere):
        if table.get(word):
            return table[word].most_common(1)[0][0]
    return word


def tight(text):
    """The projections ` .name` of the text, each written tight."""
    tokens = TOKEN.findall(text)
    i = 0
    while i < len(tokens):
        if i + 1 < len(tokens) and i >= 1 and tokens[i] == "." and tokens[i - 1].isspace() and re.match(r"[^\W\d]", tokens[i + 1]):
            start, depth, atoms, j = i - 1, 0, 0, i - 2
            while j >= 0:
                t = tokens[j]
                if t in ")}":
                    depth += 1
                elif t in "({":
                    if not depth:
                        break
                    depth -= 1
                elif not depth and (t in STOPS or (t == "." and j + 1 < len(tokens) and tokens[j + 1].isspace())):
                    break
                if not t.isspace():
                    start = j
                if not depth and not t.isspace() and not (j + 1 < i and tokens[j + 1] == ".") and t != ".":
                    atoms += 1
                j -= 1
            spine = "".join(tokens[start : i - 1])
            made = f"{spine}.{tokens[i + 1]}" if atoms == 1 else f"({spine}).{tokens[i + 1]}"
            tokens[start : i + 2] = TOKEN.findall(made)
            end = start + len(TOKEN.findall(made))
            if start and tokens[start - 1] == "(" and end < len(tokens) and tokens[end] == ")":
                tokens[start - 1 : end + 1] = tokens[start:end]
            i = 0
            continue
        i += 1
    return "".join(tokens)


def turn(text, mine, everywhere):
    """A text of a specs file in today's spelling."""
    for old, new in PATHS.items():
        text = re.sub(old, new, text)
    text = tight(text)
    return "".join(t if t.isspace() or t[0] in '"«(){};,@.' else turn_word(t, mine, everywhere) for t in TOKEN.findall(text))


def present(old_text, new_text, old, mine, everywhere):
    """What stands now for the text `old`, or None."""
    turned = turn(old, mine, everywhere)
    if new_text.count(turned) == 1:
        return turned
    if new_text.count(turned.strip()) == 1:
        return turned.strip()
    return None


def fields(text):
    lines = text.rstrip("\n").split("\n")
    pairs = []
    for line in lines[1:]:
        if line.startswith("old: "):
            pairs.append([line[5:], None])
        elif line.startswith("new: "):
            pairs[-1][1] = line[5:]
    return lines[0][len("file: ") :], pairs


def main():
    commit = sys.argv[1]
    show = "--show" in sys.argv
    pairs = {}
    for path in sorted(glob.glob("crates/*/specs/*.antt")):
        old = before(commit, path)
        if old is not None:
            pairs[path] = (old, read(path))
    here, everywhere = learn(pairs)
    bad = []
    for edit in sorted(glob.glob("crates/*/must-fail/*.edit")):
        crate = edit.split("/")[1]
        file, edits = fields(before(commit, edit))
        path = f"crates/{crate}/{file}"
        old_text, new_text = before(commit, path), read(path)
        made = []
        for old, new in edits:
            assert old_text.count(old) == 1, edit
            if path.endswith(".rt"):
                now = old if new_text.count(old) == 1 else None
                to = new
            else:
                now = present(old_text, new_text, old, here[path], everywhere)
                to = turn(new, here[path], everywhere)
            if now is None:
                bad.append((edit, file, old, turn(old, here.get(path, {}), everywhere), to))
                continue
            if now.strip() == now and new.strip() != new:
                to = to.strip()
            if show:
                print(f"{edit}\n  - {old}\n  - {new}\n  + {now}\n  + {to}")
            made.append((now, to))
            if now == to:
                bad.append((edit, file, "same", now, to))
        if not show and len(made) == len(edits):
            with open(edit, "w", encoding="utf-8") as f:
                f.write(f"file: {file}\n" + "".join(f"old: {o}\nnew: {n}\n" for o, n in made))
    for b in bad:
        print("LEFT", *b, sep="\n   ")


main()
