#!/usr/bin/env python3
"""Brings the definitions and lemmas of specs/ and proofs/ to one spelling: words in snake case, facts and types in upper camel case.

usage: respell.py [--check] [--table FILE]     in the repository's top folder

A dash stays where it joins two names, as in 'length-rows_up'; a plain word hangs on by '_', as in 'not_below'. Names of src/, strings and comments stay.
The names that are turned are those that specs/ and proofs/ declare. --check writes nothing and shows names that would fall together. --table writes what was turned.
"""

import collections
import glob
import re
import sys

WORD = re.compile(r'[^\s(){}.;,@"«»]+')
QUIET = re.compile(r'"(?:[^"\\\n]|\\.)*"|(?<![^\s(){}.;,@"«»])--[^\n]*|\{-.*?-\}', re.S)
DECLARED = re.compile(r"^( *)((?:(?:abbrev|unfoldable|pub|data|record|mutual) +)*)([^\s(){}.;,@\"«»:|=]+)((?: +\{[^}]*\}| +\([^)]*\))*) +: +(.*)", re.M)
GHOST = re.compile(r"ghost\s+use\b[^;]*;")
CLAUSE = re.compile(r"(?:requires|ensures)\s*\*?\s*(?:\w+\s*)?\{|ghost\s*(?:\w+\s*(?::\s*(?:(?:owns|lends)\s*)?|=\s*))?\{")
# The library's words that a dash joins.
KNOWN = set("length take drop map append filter get set add mul sub div mod pow le lt eq ne max min and or zero suc neg nan inf fin up down if cond fold sum all any count fill zip split reverse nth index slice_set slice_get slice_index sort sorted concat replicate".split())
# What no rule gives: a relation that is a type, and lemmas in snake case whose definition turns. These are no names behind a dot.
OWN = {"standsBefore": "StandsBefore", "taken_out": "outcome_out"} | {n: n + "_lem" for n in ("header_ok", "by_less", "units_of", "two_at", "placed_by")}
CAMEL = re.compile(r"[a-z]\w*[a-z0-9₀-₉'][A-Z]\w*")


def snake(word):
    word = re.sub(r"([a-z0-9₀-₉'])([A-Z])", r"\1_\2", word)
    return re.sub(r"([A-Z]+)([A-Z][a-z])", r"\1_\2", word).lower()


def files(kind):
    return sorted(p for p in glob.glob(f"crates/*/**/*.{kind}", recursive=True) if "/out/" not in p)


def code(text):
    return QUIET.sub(lambda m: re.sub(r"[^\n]", " ", m.group()), text)


def names():
    found = collections.defaultdict(set)
    for path in files("antt"):
        text = code(open(path, encoding="utf-8").read())
        for m in DECLARED.finditer(text):
            indent, heads, name, _, kind = m.groups()
            heads = set(heads.split())
            if kind.startswith(("tie.", "goal.", "need.", "needs.")) or name in ("returns", "where", "let", "in", "λ", "use"):
                continue
            what = "definition" if heads & {"abbrev", "unfoldable"} else "type" if heads & {"data", "record"} else "other"
            found[name].add(what)
            if what == "definition" and indent:
                found[name].add("inner")
    return found


def turned(name, kinds, known):
    if name in OWN:
        return OWN[name]
    if not re.search(r"[a-z0-9₀-₉'][A-Z]|[^-]-[^-]", name) or not re.match(r"[a-z]", name):
        return name
    if name.endswith("-spec"):
        return snake(name.replace("-", "_"))
    parts = name.split("-")
    out = snake(parts[0]) if re.match(r"[a-z]", parts[0]) else parts[0]
    for a, b in zip(parts, parts[1:]):
        joined = "definition" not in kinds and (a in known or snake(a) in known) and (b in known or snake(b) in known)
        out += ("-" if joined or not re.match(r"[a-z0-9₀-₉]", b) or not re.match(r"[A-Za-z0-9₀-₉'_]+$", a) else "_") + (snake(b) if re.match(r"[a-z]", b) else b)
    return out


def clauses(text):
    """The stretches of a source file that are clauses, ghost items or 'ghost use' lines."""
    spans = [(m.start(), m.end()) for m in GHOST.finditer(text)]
    for m in CLAUSE.finditer(text):
        depth, at = 1, m.end()
        while depth and at < len(text):
            depth += {"{": 1, "}": -1}.get(text[at], 0)
            at += 1
        spans.append((m.end(), at))
    return sorted(spans)


def words(text, table):
    quiet = [(m.start(), m.end()) for m in QUIET.finditer(text)]
    out, last, n = [], 0, 0
    for m in WORD.finditer(text):
        while n < len(quiet) and quiet[n][1] <= m.start():
            n += 1
        if n < len(quiet) and quiet[n][0] <= m.start():
            if not CAMEL.fullmatch(m.group()):
                continue
        if m.group() in table and not (m.group() in OWN and text[m.start() - 1 : m.start()] == "."):
            out += [text[last:m.start()], table[m.group()]]
            last = m.end()
    return "".join(out) + text[last:]


def source(text, table):
    out, last = [], 0
    for a, b in clauses(text):
        if a < last:
            continue
        out += [text[last:a], words(text[a:b], table)]
        last = b
    text = "".join(out) + text[last:]
    return re.sub(r"//[^\n]*", lambda m: CAMEL.sub(lambda w: table.get(w.group(), w.group()), m.group()), text)


def edit(text, table):
    """The texts of a must-fail edit of specs/."""
    if "file: specs/" not in text:
        return text
    return re.sub(r"^((?:old|new):)(.*)", lambda m: m.group(1) + words(m.group(2), table), text, flags=re.M)


def main():
    check = "--check" in sys.argv
    found = names()
    # What a dash joins are definitions, and not words that happen to be defined too.
    known = KNOWN | {n for n, kinds in found.items() if "definition" in kinds and "inner" not in kinds and re.search("[A-Z_]", n)}
    known |= {snake(n) for n in known}
    table = {n: t for n, kinds in found.items() if (t := turned(n, kinds, known)) != n}
    # A lemma that would have its function's name, or a field's, ends in '_lem'.
    seen, beside = collections.Counter(table.values()), collections.defaultdict(set)
    everywhere = [set(WORD.findall(code(open(path, encoding="utf-8").read()))) for path in files("antt")]
    for here in everywhere:
        for w in here:
            beside[w] |= here & table.keys() if w in table.values() else set()
    for n, new in list(table.items()):
        if "-" in n and (seen[new] > 1 or new in found or n in beside[new]):
            table[n] = new + "_lem"
    together = collections.defaultdict(set)
    for path in files("antt"):
        here = set(WORD.findall(code(open(path, encoding="utf-8").read())))
        for w in here & set(table):
            if table[w] in here or any(v != w and table.get(v) == table[w] for v in here):
                together[(w, table[w])].add(path)
    for (w, t), where in sorted(together.items()):
        print(f"look: {w} and {t} in {', '.join(sorted(where)[:3])}")
    if "--table" in sys.argv:
        with open(sys.argv[sys.argv.index("--table") + 1], "w", encoding="utf-8") as f:
            f.writelines(f"{n}\t{t}\n" for n, t in sorted(table.items()))
    count = 0
    for path in files("antt") + files("rt") + files("edit"):
        text = open(path, encoding="utf-8").read()
        new = {"antt": words, "rt": source, "edit": edit}[path.rsplit(".", 1)[1]](text, table)
        if new != text:
            count += 1
            if not check:
                open(path, "w", encoding="utf-8").write(new)
    print(f"respell: {len(table)} names in {count} files")


if __name__ == "__main__":
    main()
