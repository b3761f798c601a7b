#!/usr/bin/env python3
"""Brings this repository's own names in clauses, specs/ and proofs/ to snake case, once, after the scripts of the kit's port.

usage: python3 tools/port_names.py            at the top of the repository; rewrites crates/*/{src,specs,proofs,must-fail} in place

A definition or lemma loses its inner capitals (shownFigure: shown_figure, refuseAt-numbered: refuse_at-numbered); a field of a record of specs/ or proofs/ has
underscores in place of hyphens. Functions of src/, types, modules, strings, inputs and outputs keep their names. It stops where two names of a file would fall
together, and prints each name that it turned to one that some other file of the repository has already.
"""
import collections
import os
import re
import sys

TOKEN = re.compile(r"[^\s(){}\[\],;.\"λ:=⌜⌝«»↦|]+")
HUMP = re.compile(r"^[a-z].*[a-z0-9][A-Z]|^[a-z_A-Z]+[a-zA-Z]ℤ$")
LIBRARY = {"neg_ℤ"}
STRING = re.compile(r'"(?:[^"\\]|\\.)*"')
FIELD = re.compile(r"^  (?:pub )?([a-z][^\s:]*-[^\s:]*) :")
# what the scripts of the kit turned already, in the files that they read: the same in the edits
TURNED = {
    "andThen": "and_then", "valueOf": "value_of", "atMost": "at_most", "getD": "get_or", "negℤ": "neg_ℤ", "natAbs": "nat_abs", "subℕ": "sub_ℕ",
    "upTo": "up_to", "partsOf": "parts_of", "isEmpty": "is_empty", "isRefused": "is_refused", "sumOf": "sum_of", "testOf": "test_of", "answerOf": "answer_of",
    "markOf": "mark_of", "numberOf": "number_of", "symbolOf": "symbol_of", "symbolAt": "symbol_at", "fieldAt": "field_at", "lineAt": "line_at",
    "leftAt": "left_at", "Option·elim": "Option-elim", "Option·getD": "Option.get_or", "List·Memᴰ": "Memᴰ", "List·Permᴰ": "Permᴰ", "ltZ": "lt_z",
    "low-told": "low_told",
}
# names that a script of the kit turned to a path that is not there
MENDED = {"Option·elim": "Option-elim"}
# a field that would have the name of the test that it states
APART = {"is-amount": "is_an_amount"}


def files(*suffixes):
    for folder, dirs, names in os.walk("crates"):
        dirs[:] = sorted(d for d in dirs if d != "out" and not os.path.islink(os.path.join(folder, d)))
        for name in sorted(names):
            if name.endswith(suffixes):
                yield os.path.join(folder, name)


def read(path):
    with open(path, encoding="utf-8", newline="") as f:
        return f.read()


def snake(token):
    return re.sub(r"(?<=[a-z0-9])ℤ$", "_ℤ", re.sub(r"(?<=[a-z0-9])([A-Z])", lambda m: "_" + m[1].lower(), token))


def tight(text):
    """A projection as the kit's scripts write it."""
    text = re.sub(r"\((\w+)((?: \.[a-z_]+)+)\)", lambda m: m[1] + m[2].replace(" ", ""), text)
    return re.sub(r"(?<=[\w)]) \.(?=[a-z])", ".", text)


def outside_strings(text, turn):
    at, out = 0, []
    for m in STRING.finditer(text):
        out += [turn(text[at:m.start()]), m[0]]
        at = m.end()
    return "".join(out + [turn(text[at:])])


def tokens(text):
    return {t for line in text.splitlines() for t in TOKEN.findall(STRING.sub('""', line))}


def fields(path, text):
    """The fields of a file's records whose names have hyphens."""
    found, inside = set(), False
    for line in text.splitlines():
        if line and not line[0].isspace():
            inside = bool(re.match(r"(?:abbrev )?(?:pub )?record\b.*\bwhere$", line))
        m = FIELD.match(line)
        if inside and m:
            found.add(m[1])
    return found


def main():
    if not os.path.exists("crates.txt"):
        sys.exit("port_names: no crates.txt here")
    proofs = {p: read(p) for p in files(".antt")}
    sources = {p: read(p) for p in files(".rt")}
    edits = {p: read(p) for p in files(".edit")}
    names = {}
    for p, text in proofs.items():
        for t in tokens("\n".join(line.split("--")[0] for line in text.splitlines())):
            if HUMP.match(t) and t not in LIBRARY:
                names[t] = snake(t)
        for f in fields(p, text):
            names[f] = f.replace("-", "_")
    for text in sources.values():
        for line in text.splitlines():
            if line.startswith("ghost use"):
                names.update({t: snake(t) for t in tokens(line) if HUMP.match(t) and t not in LIBRARY})
    names.update({**MENDED, **APART})
    have = collections.defaultdict(set)
    for p, text in {**proofs, **sources}.items():
        for t in tokens(text):
            have[t].add(p)
    for old, new in sorted(names.items()):
        if new in have and old not in MENDED:
            print(f"look: {old} is {new} now, which stands in {sorted(have.get(new))[0]}" + (f" and {len(have.get(new)) - 1} more" if len(have.get(new)) > 1 else ""))
        both = have[old] & have.get(new, set())
        if both and old not in MENDED:
            print(f"look: {old} and {new} both stand in {sorted(both)}")
    twice = [n for n, k in collections.Counter(names.values()).items() if k > 1]
    if twice:
        sys.exit(f"port_names: fall together: {twice}")

    def turned(map_):
        return lambda text: TOKEN.sub(lambda m: map_.get(m[0], m[0]), text)

    for p, text in {**proofs, **sources}.items():
        new = outside_strings(text, turned(names))
        if new != text:
            with open(p, "w", encoding="utf-8", newline="") as f:
                f.write(new)
    for p, text in edits.items():
        new = outside_strings(text, lambda t: tight(turned({**names, **TURNED})(t)))
        if new != text:
            with open(p, "w", encoding="utf-8", newline="") as f:
                f.write(new)


main()
