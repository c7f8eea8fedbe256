#!/usr/bin/env python3
"""Respells this repository's own definitions, fields and lemmas, after port.py of the kit.

usage: tools/respell.py [TOP]      prints each name with what it became; files below crates/ are rewritten in place

Definitions, fields and local names in camel case become snake case. In the name of a lemma a dash stays between the names of two
definitions and becomes an underscore before a plain word. Clauses that port.py left with a lambda become plain facts about `result`.
Functions and types of src/, exported names, strings, comments' words, inputs and outputs stay.
"""
import glob
import os
import re
import sys

TOP = sys.argv[1] if len(sys.argv) > 1 else "."
KEPT = {"result": "result_with", "isCut": "is_cut_off", "isOpen": "is_open_now", "firstGood": "first_good_of", "onlyBox": "only_box_of", "onlyMechanism": "only_mechanism_of", "mapOf": "map_in"}
WORDS = {"getD": "get_or", "get_d_any": "get_or_any"}
LIBRARY = {"length", "take", "drop", "set", "replicate", "map", "ones", "get_or", "zero", "suc", "append", "bit_and", "bit_or", "bit_xor", "max"}
RESERVED = {"result", "record", "ruleset", "data", "open", "ground", "assumption", "search", "grind", "simp", "omega", "rw", "cc", "hlevel", "old", "new", "now", "let", "in", "as", "use", "mod", "pub"}
NAME = r"[^\W\d_][\w'₀-₉]*(?:-[\w'₀-₉]+)*"
TOKEN = re.compile(r"(?<![\w'·-])" + NAME)
DECLARED = re.compile(r"^(?:unfoldable pub |unfoldable |abbrev pub |abbrev |pub )?(" + NAME + r") :")
RECORD = re.compile(r"^(?:abbrev )?(?:pub )?(?:record|data) (?:pub )?(" + NAME + r")")
FIELD = re.compile(r"^ +(?:pub )?(" + NAME + r") :")
IMPORTED = re.compile(r"use ((?:Rattle\.(?:std|core|std_alloc)|Prim|mathlib|native|lib|borrow|denote|logic)[\w.]*)\.\{([^}]*)\}")


def snake(word):
    return re.sub(r"(?<=[a-z0-9'])([A-Z])", lambda m: "_" + m.group(1).lower(), word) if word[:1].islower() else word


def antt_files():
    return sorted(f for f in glob.glob(os.path.join(TOP, "crates/*/*/**/*.antt"), recursive=True) if "/out/" not in f)


def read(path):
    with open(path, encoding="utf-8") as f:
        return f.read()


def gathered():
    defs, lemmas, fields, locals_, library = set(), set(), set(), set(), set()
    for f in antt_files() + sorted(glob.glob(os.path.join(TOP, "crates/*/src/**/*.rt"), recursive=True)):
        text = read(f)
        for m in IMPORTED.finditer(text):
            library |= {n.strip() for n in m.group(2).split(",")}
        if not f.endswith(".antt"):
            continue
        walk = f.endswith("/Proof.antt")
        for line in text.split("\n"):
            if line.lstrip().startswith("--"):
                continue
            m = DECLARED.match(line)
            if m and not walk:
                spec = "/specs/" in f or line.startswith(("unfoldable", "abbrev"))
                (defs if spec else lemmas).add(m.group(1))
            m = FIELD.match(line)
            if m and not walk:
                fields.add(m.group(1))
            for m in TOKEN.finditer(line):
                t = m.group(0)
                if re.match(r"[a-z]+[A-Z]|[a-z]\w*[a-z0-9][A-Z]", t):
                    locals_.add(t)
    return defs, lemmas, fields, locals_, library


def table():
    defs, lemmas, fields, locals_, library = gathered()
    words = {snake(WORDS.get(n, n)) for n in defs} | LIBRARY

    def respelled(n, field):
        if n in KEPT:
            return KEPT[n]
        if n in WORDS:
            return WORDS[n]
        parts = [snake(WORDS.get(p, p)) for p in n.split("-")]
        out = parts[0]
        for a, b in zip(parts, parts[1:]):
            out += ("-" if not field and a in words and b in words else "_") + b
        return out

    new = {}
    for n in sorted(defs | lemmas | fields | locals_):
        if n in library:
            continue
        r = respelled(n, n in fields and n not in defs | lemmas)
        if r != n:
            new[n] = r
    everything = sorted(defs | lemmas | fields | locals_)

    def kind(n):
        return 0 if n in defs and "-" not in n else 1 if n in lemmas and "-" not in n else 2 if n in defs else 3 if n in lemmas else 4 if n in fields else 5

    taken = {}
    for n in everything:
        taken.setdefault(new.get(n, n), []).append(n)
    for r, ns in sorted(taken.items()):
        ns = [n for n in ns if n in new or n == r]
        if len(ns) > 1 or r in library or r in RESERVED:
            ns.sort(key=kind)
            for n in ns if r in library or r in RESERVED else ns[1:]:
                if n not in new:
                    continue
                ending = "_lem" if n in defs | lemmas else "_fact" if n in fields else "_here"
                new[n] = r + ending
                print("together:", r, "<-", ns, ":", n, "is", new[n])
    return new


LAMBDA = re.compile(r"(requires|ensures)\*( \w+)? \{ λ (\w+)\. ⌜ (.*?) ⌝ \}", re.S)
STRING = re.compile(r'"(?:[^"\\]|\\.)*"')


def renamed(line, new, words_only=False):
    def one(m):
        t, before = m.group(0), line[: m.start()]
        if t in ("result",) and before.endswith("."):
            return t
        if words_only and ("-" in t or t in KEPT and t.islower() or not re.search(r"[a-z0-9][A-Z]", t)):
            return t
        return new.get(t, t)

    return TOKEN.sub(one, line)


def plain(m):
    kind, name, bound, fact = m.groups()
    if bound != "_":
        fact = re.sub(r"(?<![\w'.-])" + bound + r"(?![\w'-])", "result", fact)
    while fact.startswith("(") and closes_last(fact):
        fact = fact[1:-1]
    return f"{kind}{name or ''} {{ {fact} }}"


def closes_last(fact):
    depth = 0
    for i, ch in enumerate(fact):
        depth += (ch == "(") - (ch == ")")
        if depth == 0:
            return i == len(fact) - 1
    return False


def antt(text, new):
    return "\n".join(renamed(l, new, l.lstrip().startswith("--")) for l in text.split("\n"))


def source(text, new):
    out = []
    for line in text.split("\n"):
        code = line.lstrip()
        if code.startswith("//"):
            out.append(renamed(line, new, True))
        elif code.startswith("ghost use") or "⌜" in line or re.match(r"(requires|ensures|ghost|invariant)\b", code):
            held = "result" if "⌜" not in line and not code.startswith("ghost use") else None
            names = {k: v for k, v in new.items() if k != held}
            out.append(renamed(line, names))
        else:
            parts, at = [], 0
            for m in STRING.finditer(line):
                parts += [renamed(line[at : m.start()], new, True), m.group(0)]
                at = m.end()
            out.append("".join(parts) + renamed(line[at:], new, True))
    return LAMBDA.sub(plain, "\n".join(out))


def edit(text, new):
    return "\n".join(renamed(l, new) if l.startswith(("old:", "new:")) else l for l in text.split("\n"))


def main():
    new = table()
    for n, r in sorted(new.items()):
        print(f"{n}\t{r}")
    for f in antt_files():
        write(f, antt(read(f), new))
    for f in sorted(glob.glob(os.path.join(TOP, "crates/*/src/**/*.rt"), recursive=True)):
        write(f, source(read(f), new))
    for f in sorted(glob.glob(os.path.join(TOP, "crates/*/must-fail/*.edit"))):
        write(f, edit(read(f), new))


def write(path, text):
    if text != read(path):
        with open(path, "w", encoding="utf-8") as f:
            f.write(text)


if __name__ == "__main__":
    main()
