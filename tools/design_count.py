"""Counts, over crates/*/src, the forms that docs/DESIGN-PASS.md speaks of: one line for each place with -v, else the sums."""
import glob
import re
import sys

SLICES = {"kinds", "counts", "arities", "starts", "names", "fields", "labels", "nodes", "left"}
LINES = {
    "1 enums": r"^(pub )?enum ",
    "1 refusals as numbers": r"Refused\((u8|n|[0-9]+)\)|number: (u8|[0-9]+)|Refused\(n\)",
    "1 kinds as numbers": r"match (kind|what|phase) \{|\b(kind|what|phase) (==|!=|<=|<) [0-9]|[0-9] (<=|<) (kind|phase)\b|\b(at8|get)\((types\.)?kinds, [^)]*\) [!=<]",
    "2 one for each width": r"fn [a-z_]*(8|16)\(",
    "3 loops with a hand-kept index": r"^ *('[a-z]+: )?while ",
    "3 loops without a count": r"^ *loop \{",
    "4 conversions by hand": r" as (u8|u16|u64|usize)\b|\bwide(8|16)\(",
}


def files():
    return sorted(glob.glob("crates/*/src/*.rt"))


def code(path):
    return [(n, l) for n, l in enumerate(open(path), 1) if not l.lstrip().startswith("//")]


def signatures(path):
    """Each function's line, name and parameters."""
    text = open(path).read()
    for m in re.finditer(r"^ *(pub )?(extern \"C\" )?fn (\w+)[^(\n]*\(", text, re.M):
        depth, i = 1, m.end()
        while depth:
            depth += {"(": 1, "[": 1, ")": -1, "]": -1}.get(text[i], 0)
            i += 1
        names = re.findall(r"(?:^|[,\s])(\w+):", text[m.end() : i - 1])
        yield text.count("\n", 0, m.start()) + 1, m.group(3), names


def main():
    places = {k: [] for k in LINES}
    wide, together, written = [], [], []
    for path in files():
        for n, l in code(path):
            for k, pattern in LINES.items():
                if re.search(pattern, l):
                    places[k].append(f"{path}:{n}: {l.strip()}")
        for n, name, params in signatures(path):
            where = f"{path}:{n}: {name}({', '.join(params)})"
            if len(params) > 8:
                wide.append(where)
            if len(SLICES & set(params)) > 1:
                together.append(where)
            if {"out", "at"} <= set(params):
                written.append(where)
    places["5 functions with more than 8 parameters"] = wide
    places["5 functions that take two slices of a block or more"] = together
    places["5 functions that take a buffer and a place in it"] = written
    for k, found in places.items():
        print(f"{len(found):4} {k}")
        if "-v" in sys.argv:
            for p in found:
                print("       ", p)


main()
