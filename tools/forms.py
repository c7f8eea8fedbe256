#!/usr/bin/env python3
"""Counts the places of older forms in the sources, one line a place, for docs/DESIGN-PASS.md.

usage: tools/forms.py [COMMIT] [--list]      of a commit, or of the files as they stand; --list prints each place

1 an enum with one variant that holds something and one or more that hold nothing; a field of a struct that holds a flag or a kind as a number; a
  function whose answer is one of several written numbers
2 functions that are equal up to their names, types of numbers, constants and literals
3 loops that count or walk an index by hand
4 functions that only convert a number, compare field by field or give the word for a kind
5 functions that take three or more of array, register, history, mask and fates side by side; a `requires` that stands in three or more contracts
6 functions that take two or more slices of one length side by side
7 a test on which step or phase is due
"""
import pathlib
import re
import subprocess
import sys

FLAGS = r"(marked|complete|any|tables|right|cut|illegal|failed|loaded|status|phase|step|opened|finished|answer|operation|protected|fault|lost|reading|block|outcome)"
NUMBERS = r"\b(usize|u8|u16|u32|u64|i64)\b"


def sources(commit):
    if commit is None:
        return {str(p): p.read_text() for p in sorted(pathlib.Path("crates").glob("*/src/**/*.rt"))}
    names = subprocess.run(["git", "ls-tree", "-r", "--name-only", commit, "crates"], capture_output=True, text=True, check=True).stdout.split()
    return {n: subprocess.run(["git", "show", f"{commit}:{n}"], capture_output=True, text=True, check=True).stdout for n in names if "/src/" in n and n.endswith(".rt")}


def block(text, at):
    depth = 0
    for i in range(at, len(text)):
        depth += (text[i] == "{") - (text[i] == "}")
        if not depth:
            return text[at + 1:i]
    return ""


def functions(text):
    """Name, parameters, result, clauses and body of each function."""
    for m in re.finditer(r"(?m)^( *)(?:pub(?:\(crate\))? )?(?:extern \"C\" )?fn (\w+)[^\n(]*\(", text):
        depth, at = 1, m.end()
        while depth:
            depth += (text[at] == "(") - (text[at] == ")")
            at += 1
        start = re.compile(r"(?m)^" + m[1] + r"\{$|\{$").search(text, at)
        head = text[at:start.start()]
        while "requires" in head.split("\n")[-1] or "ensures" in head.split("\n")[-1]:
            start = re.compile(r"(?m)^" + m[1] + r"\{$").search(text, start.end())
            head = text[at:start.start()]
        result = re.match(r"\s*->\s*([^\n{]+)", head)
        yield m[2], text[m.end():at - 1], (result[1].strip() if result else ""), head, block(text, start.end() - 1)


def plain(body):
    body = re.sub(r"//[^\n]*", "", body)
    body = re.sub(NUMBERS, "T", body)
    body = re.sub(r"\b\d[\w]*\b|\b[A-Z][A-Z_0-9]+\b", "N", body)
    return " ".join(body.split())


def places(files):
    found = {n: [] for n in range(1, 8)}
    bodies, needs = {}, {}
    for name, text in files.items():
        for m in re.finditer(r"(?m)^(?:pub(?:\(crate\))? )?enum (\w+) \{", text):
            variants = re.findall(r"(?m)^    (\w+)(\(|,| \{)", block(text, m.end() - 1))
            full = [v for v, after in variants if after != ","]
            if len(full) == 1 and len(variants) > 1:
                found[1].append(f"{name}: enum {m[1]}")
        for m in re.finditer(r"(?m)^(?:pub(?:\(crate\))? )?struct (\w+)[^\n]* \{", text):
            for field in re.findall(r"(?m)^    (?:pub )?%s: (?:usize|u8)," % FLAGS, block(text, m.end() - 1)):
                found[1].append(f"{name}: field {m[1]}.{field}")
        for fn, parameters, result, head, body in functions(text):
            place = f"{name}: {fn}"
            answers = re.findall(r"return (?:[A-Z_]+|\d\w*);", body)
            if re.fullmatch(NUMBERS, result) and len(set(answers)) > 1:
                found[1].append(f"{place}: written numbers as answers")
            if len(plain(body)) > 12:
                bodies.setdefault(plain(body).replace(fn, "F"), []).append(place)
            for m in re.finditer(r"while ([^{]*)\{", body):
                inner = block(body, m.end() - 1)
                if any(re.search(r"\b%s [+-]= |\b%s = (?:end|next)" % (v, v), inner) for v in re.findall(r"\b[a-z]\w*\b", m[1])):
                    found[3].append(f"{place}: while {m[1].strip()}")
            if re.fullmatch(r"\s*(\w+ as \w+( - \w+ as \w+)?|\w+ [+-] \w+)\s*", body) or re.match(r"(word_of|words_of|differ|is_same)", fn):
                found[4].append(place)
            if len(re.findall(r"\b(array|register|history|mask|fates): &", parameters)) >= 3:
                found[5].append(f"{place}: parts of the chip side by side")
            for need in re.findall(r"requires(?: \w+)? \{(.*)\}", head):
                needs.setdefault(need.strip(), []).append(place)
            slices = re.findall(r"(\w+): &(?:mut )?\[\w+(?:; \w+)?\]", parameters)
            if sum(s in ("kinds", "logicals", "numbers") for s in slices) > 1 or sum(s in ("first", "last", "price") for s in slices) > 1 or sum(s.endswith(("numbers", "amounts")) for s in slices) > 1:
                found[6].append(place)
            for m in re.findall(r"(?:if|match) (?:\w+\.)*(step|phase|kind|operation)\b[^{]*\{", body):
                found[7].append(f"{place}: {m}")
    for group in bodies.values():
        if len(group) > 1:
            found[2].append(" = ".join(group))
    for need, where in needs.items():
        if len(where) > 2:
            found[5].append(f"{len(where)} contracts: requires {need}")
    return found


def main():
    commits = [a for a in sys.argv[1:] if not a.startswith("--")]
    found = places(sources(commits[0] if commits else None))
    for point, lines in found.items():
        print(f"{point}: {len(lines)}")
        if "--list" in sys.argv:
            print("".join(f"    {line}\n" for line in lines), end="")


main()
