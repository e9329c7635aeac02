#!/usr/bin/env python3
"""Brings the repository's own definitions and lemmas to today's spelling, once, right after port.py: words in snake case; a dash only between two
operations, as in length-tab; types and facts, and the letters of the paper (R, E, B, L, D, T, A), as they are. Functions of src/ keep their names.

usage: python3 tools/respell.py [--list]     at the top of the repository; --list prints the map and writes nothing
"""

import glob
import re
import sys

# where a lemma in plain words would fall together with a definition, or with another name of its file, it keeps its dashes
KEEP = set("after-within in-order is-digit most-difference most-reach off-grid positive-zero two-masts all-judged bad-at bad-shape cell-of for-its-window in-form in-range in-turn is-accepted most-field most-pulls most-weights no-station on-grid on-span window-of".split())
DECLARES = re.compile(
    r"^\s*(?:(abbrev|unfoldable)\s+)?(?:pub\s+)?(?:(abbrev|data|record)\s+)?([^\s:(){}=.,\[\]|@]+(?: [^\s:(){}=.,\[\]|@]+)*)\s+(?:\{[^}]*\}\s*)?(?:\([^:]*:[^)]*\)\s*)*:\s")
# operations on lists and numbers: std's, and ours that build lists
STD = set("length take drop map append add sub mul div neg set tab each each_from keep stored".split())
# each_from is one operation
EACH_FROM = {"length-each-from": "length-each_from", "map-each-from": "map-each_from"}
WORD = re.compile(r"[A-Za-z0-9_'ℤℕ][A-Za-z0-9_'ℤℕ\-]*")


def files(pattern):
    return sorted(glob.glob(pattern, recursive=True))


def lemma_files():
    return [p for p in files("crates/*/specs/**/*.antt") + files("crates/*/proofs/*.antt")]


def declared():
    """Every name that a file of definitions or lemmas declares, and whether it is one of data: a definition, a field, a constructor."""
    names, of_data = set(), set()
    for path in lemma_files():
        for line in open(path, encoding="utf-8"):
            if line.lstrip().startswith("--"):
                continue
            m = DECLARES.match(line)
            if not m:
                continue
            for n in m.group(3).split():
                if n in ("pub", "abbrev", "unfoldable", "data", "record", "module", "use"):
                    continue
                names.add(n)
                if m.group(1) or m.group(2):
                    of_data.add(n)
    return names, of_data


def snake(word):
    """isNoWind -> is_no_wind, amongℤ -> among_ℤ; a type's name, and a letter of the paper, stay."""
    if re.match(r"[A-Z]", word):
        return word
    if word == "getD":
        return "get_or"
    return re.sub(r"(?<=[a-z0-9])(?=[A-Zℤℕ])", "_", word) if not re.search(r"[A-Z]", word) else re.sub(
        r"(?<=[a-z0-9])([A-Z])", lambda m: "_" + m.group(1).lower(), word)


def respelled(name, of_data):
    """A dash stays only in the name of a law of one operation on another, as length-tab and map-append."""
    if name in EACH_FROM:
        return EACH_FROM[name]
    parts = [snake(p) for p in name.split("-")]
    law = len(parts) == 2 and set(parts) <= STD and name not in of_data
    return ("-" if law else "_").join(parts)


def targets():
    return (files("crates/*/specs/**/*.antt") + files("crates/*/proofs/**/*.antt") + files("crates/**/*.rt") + files("crates/*/must-fail/*.edit"))


def main():
    names, of_data = declared()
    turn = {n: respelled(n, of_data) for n in names if n not in KEEP}
    turn = {a: b for a, b in turn.items() if a != b}
    taken = {}
    everywhere = set()
    for p in targets():
        everywhere.update(WORD.findall(open(p, encoding="utf-8").read()))
    clash = []
    for a, b in sorted(turn.items()):
        if b in everywhere:
            clash.append((a, b))
        if b in taken:
            clash.append((a, b, taken[b]))
        taken[b] = a
    if "--list" in sys.argv:
        for a, b in sorted(turn.items()):
            print(a, b)
        for c in clash:
            print("CLASH", *c)
        return
    for p in targets():
        text = open(p, encoding="utf-8").read()
        new = WORD.sub(lambda m: turn.get(m.group(0), m.group(0)), text)
        if new != text:
            open(p, "w", encoding="utf-8").write(new)


if __name__ == "__main__":
    main()
