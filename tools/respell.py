#!/usr/bin/env python3
"""Brings the repository's own names of definitions and lemmas to the spelling of today's Rattle, after its port.py.

  tools/respell.py [--check]

At the top of the repository. Words of a definition, a field and a constructor are joined by `_` (`isDigit` becomes `is_digit`).
A dash in a lemma's name stays where it joins the names of two definitions (`take-drop`); elsewhere it becomes `_`. Types and
modules keep their capitals. Names of src/, exported names, strings, inputs and outputs stay. The clauses of .rt files, the
must-fail edits and the edits that tests/drift and tests/frauds keep follow. --check lists the renamed names and writes nothing.
"""
import collections
import glob
import re
import sys

WORD = r"[^\s(){}.;,@\"«»\[\]\\:]+"
TOKEN = re.compile(r"«[^»]*»|" + WORD)
# std's functions, whose names a dash may join in a lemma's name
STD = set("length take drop set map get_or append replicate sum min max cond not all some none member insert add sub mul mod div same".split())
# names that would fall together with another, and what they are called instead
OTHERWISE = {
    "bad-boundary": "bad_boundary_refused",
    "bad-method": "bad_method_refused",
    "bad-tag": "bad_tag_refused",
    "bad-time": "bad_time_refused",
    "bad-type": "bad_type_refused",
    "has-range": "has_range_line",
    "has-size": "has_size_line",
    "inPlace": "in_place_call",
    "span-of": "span_of_value",
}


def antt_files():
    found = glob.glob("crates/*/specs/**/*.antt", recursive=True) + glob.glob("crates/*/proofs/**/*.antt", recursive=True)
    return sorted(p for p in found if "/out/" not in p)


def read(path):
    with open(path, encoding="utf-8") as f:
        return f.read()


def declared():
    """(definitions, fields and constructors, lemmas): the names, by where and as what they are declared."""
    specs, parts, lemmas = set(), set(), set()
    for path in antt_files():
        kind = None
        for line in read(path).split("\n"):
            if not line.strip() or line.startswith(("--", "use ", "pub use ")):
                continue
            if line[0].isspace():
                m = re.match(r"\s+(?:pub\s+)?([^\s:(){}]+)\s*:\s", line)
                if m and kind in ("record", "data"):
                    parts.add(m.group(1))
                elif m and "/proofs/" in path and not path.endswith("/Proof.antt") and m.group(1) not in ("let", "λ"):
                    lemmas.add(m.group(1))
                continue
            m = re.match(r"(?:(?:abbrev|unfoldable)\s+)?(?:pub\s+)?(?:(?:abbrev|unfoldable)\s+)?(?:(record|data|ruleset)\s+)?([^\s:(){}]+)(?:\s+[({][^=]*)?(?:\s*:\s(.*)|.*\swhere)$", line)
            kind = m.group(1) if m else None
            if m and (m.group(3) is not None or m.group(1)):
                if path.endswith("/Proof.antt") and (m.group(3) or "").startswith(("tie.", "{M : Type 1}")):
                    continue
                (specs if "/specs/" in path else lemmas).add(m.group(2))
    return specs, parts, lemmas


def snake(name):
    return re.sub(r"(?<=[a-z0-9'])([A-Z])", lambda m: "_" + m.group(1).lower(), name)


def words(name):
    return re.split(r"[-_]", snake(name))


def lemma(name, known):
    """Words joined by `_`; a dash between the names of two definitions."""
    ws = words(name)
    groups, i = [], 0
    while i < len(ws):
        for j in range(len(ws), i, -1):
            if "_".join(ws[i:j]) in known:
                groups.append(("_".join(ws[i:j]), True))
                i = j
                break
        else:
            groups.append((ws[i], False))
            i += 1
    out = groups[0][0]
    for (_, left), (text, right) in zip(groups, groups[1:]):
        out += ("-" if left and right else "_") + text
    return out


def renamings():
    specs, parts, lemmas = declared()
    known = {snake(n).replace("-", "_") for n in specs if n[0].islower() or n[0] == "_"} | STD
    new = {}
    for n in sorted(specs | parts):
        if n[0].islower():
            new[n] = snake(n).replace("-", "_")
    for n in sorted(lemmas - specs - parts):
        if n[0].islower():
            new[n] = lemma(n, known)
    # a lemma that would have the name of another declaration
    taken = collections.Counter(new.values())
    held = {new[n] for n in specs | parts if n in new} | {new[n] for n in lemmas if n in new and re.search("[a-z0-9][A-Z]", n)}
    for n in sorted(lemmas - specs - parts):
        if n in new and not re.search("[a-z0-9][A-Z]", n) and new[n] in held:
            new[n] += "_lem"
    for n, m in OTHERWISE.items():
        new[n] = m
    return {n: m for n, m in new.items() if n != m}, parts


def respell(text, new):
    return TOKEN.sub(lambda m: new.get(m.group(0), m.group(0)), text)


def antt(text, new, parts, walks):
    """The text of a file of specs/ or proofs/, comments too; strings stay. Behind a dot stands a field, or a name of a module; in a
    file that walks the code (`walks`) a field may be named after a word of the code."""
    modules = set(re.findall(r"^use \S+ as (\S+?)\s*$", text, re.M)) | set(re.findall(r"^use (?:\S+\.)?([^\s.{}]+)\s*$", text, re.M))

    def spelled(m):
        word, before = m.group(0), m.string[: m.start()]
        if not before.endswith("."):
            return new.get(word, word)
        if word in parts and not (walks and word in OTHERWISE):
            return new.get(word, word)
        owner = re.search(r"([^\s(){}.;,@\"«»\[\]\\:]+)\.$", before)
        if owner and owner.group(1) in modules:
            return new.get(word, word)
        return snake(word).replace("-", "_") if word in new else word

    out = []
    for piece in re.split(r'("(?:[^"\\\n]|\\.)*")', text):
        out.append(piece if piece.startswith('"') else TOKEN.sub(spelled, piece))
    return "".join(out)


def source(text, camel):
    """The clauses of a .rt file: only words with a capital within, which no name of the code has."""
    out = []
    for piece in re.split(r'("(?:[^"\\\n]|\\.)*")', text):
        out.append(piece if piece.startswith('"') else respell(piece, camel))
    return "".join(out)


def main():
    check = "--check" in sys.argv[1:]
    new, parts = renamings()
    camel = {n: m for n, m in new.items() if re.search(r"[a-z0-9][A-Z]", n)}
    if check:
        for n, m in sorted(new.items()):
            print(n, m)
        for p in antt_files():
            seen = collections.defaultdict(set)
            for m in re.finditer(r"(?<![\w.'-])" + WORD, re.sub(r"--[^\n]*|\"[^\"\n]*\"", "", read(p))):
                seen[new.get(m.group(0), m.group(0))].add(m.group(0))
            for m, ns in sorted(seen.items()):
                if len(ns) > 1:
                    print("in a file:", m, sorted(ns), p)
        by = collections.defaultdict(list)
        for n, m in new.items():
            by[m].append(n)
        for m, ns in sorted(by.items()):
            if len(ns) > 1:
                print("together:", m, ns)
        words_now = collections.defaultdict(set)
        for p in antt_files():
            for m in re.finditer(r"(?<![\w.'-])" + WORD, read(p)):
                words_now[m.group(0)].add(p)
        for n, m in sorted(new.items()):
            if m in words_now:
                print("there already:", n, m, len(words_now[m]), sorted(words_now[m])[:2])
        return 0
    for p in antt_files():
        old = read(p)
        now = antt(old, new, parts, p.endswith("/Proof.antt"))
        if now != old:
            open(p, "w", encoding="utf-8").write(now)
    others = glob.glob("crates/*/src/**/*.rt", recursive=True) + glob.glob("crates/*/must-fail/*.edit") + ["tests/drift", "tests/frauds"]
    for p in sorted(others):
        old = read(p)
        now = source(old, camel) if p.endswith(".rt") else respell(old, camel)
        if now != old:
            open(p, "w", encoding="utf-8").write(now)
    return 0


if __name__ == "__main__":
    raise SystemExit(main())
