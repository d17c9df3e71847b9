#!/usr/bin/env python3
"""Respells this repository's own definitions and lemmas: words in snake case, types and facts in camel case.

usage: python3 tools/respell.py [--list] [ROOT]    once, right after the kit's port.py, at the top of the repository

It renames what a .antt file below specs/ or proofs/ declares: definitions, lemmas, records and their fields. Functions of
src/, exported names, strings, comments' words, and the names that Rattle makes (goals, steps) stay. With --list it only
prints the table.
"""

import os
import re
import sys

NAME = r"[A-Za-z][\w'₀-₉ℤℕ]*(?:-[\w'₀-₉ℤℕ]+)+"
DECLARED = re.compile(rf"(?m)^[ \t]*(?:(?:pub|abbrev|unfoldable|data|record)[ \t]+)*(?P<name>{NAME})(?:[ \t]+(?:\([^)\n]*\)|\{{[^}}\n]*\}}))*[ \t]*:(?![ \t]*goal\.)")
TOKEN = re.compile(rf"(?<![\w'₀-₉ℤℕ◌*+≤<-])({NAME})(?![\w'₀-₉ℤℕ-])")
USE = re.compile(r"(?ms)^(?P<head>(?:ghost )?(?:pub )?use (?P<path>[^\s{;]+)\.\{)(?P<items>[^}]*)\}")
WORDS = {"getD-counts": "get_or_counts", "getD-entries": "get_or_entries"}


def spelled(name):
    if name in WORDS:
        return WORDS[name]
    parts = name.split("-")
    if name[0].isupper():
        return "".join(p[0].upper() + p[1:] for p in parts)
    return "_".join(parts)


def files(root, *endings):
    for folder, dirs, names in os.walk(os.path.join(root, "crates")):
        dirs[:] = sorted(d for d in dirs if d != "out")
        for n in sorted(names):
            if n.endswith(endings):
                yield os.path.join(folder, n)


def bare(text):
    return re.sub(r"(?m)(^|(?<=\s))--(?=\s|$).*$", "", text)


def table(root):
    found = {}
    for p in files(root, ".antt"):
        with open(p, encoding="utf-8") as f:
            for m in DECLARED.finditer(bare(f.read())):
                found[m["name"]] = spelled(m["name"])
    return found


def fields(root):
    """The names that records declare as fields: only these are respelled after a dot."""
    found = set()
    for p in files(root, ".antt"):
        inside = None
        with open(p, encoding="utf-8") as f:
            for line in f:
                m = re.match(r"([ \t]*)(?:pub )?(?:data|record)\b.*where\s*$", line)
                if m:
                    inside = len(m[1])
                elif inside is not None and line.strip() and len(line) - len(line.lstrip()) <= inside:
                    inside = None
                m = DECLARED.match(line)
                if inside is not None and m:
                    found.add(m["name"])
    return found


def foreign(text, crates):
    """Names that this file brings in from the kit's library."""
    found = set()
    for m in USE.finditer(text):
        parts = m["path"].split(".")
        if not (len(parts) > 1 and parts[0] == "Rattle" and parts[1] in crates):
            found |= {w.strip().split(" ")[-1] for w in m["items"].split(",")}
    return found


def antt(text, names, after_dot, kept):
    def one(m):
        n = m[1]
        before = text[: m.start()]
        if n not in names or n in kept or before.endswith(("goal.", "Goals.", "Given.")):
            return n
        if before.endswith(".") and n not in after_dot:
            return n
        return names[n]

    out = []
    at = 0
    for m in re.finditer(r"(?m)(?:^|(?<=\s))--(?=\s|$).*$", text):
        out.append((text[at : m.start()], True))
        out.append((m[0], False))
        at = m.end()
    out.append((text[at:], True))
    done = ""
    for piece, code in out:
        if code:
            start = len(done)
            whole = text
            text = piece
            piece = TOKEN.sub(one, piece)
            text = whole
        done += piece
    return done


def clauses(text):
    """The spans of a .rt file that are antt: ghost imports, clauses, ghost items."""
    spans = []
    for m in re.finditer(r"(?ms)^[ \t]*ghost use .*?;", text):
        spans.append(m.span())
    for m in re.finditer(r"(?m)^[ \t]*(?:requires|ensures|ghost|decreases|invariant)\b[^{;\n]*\{", text):
        depth, k = 1, m.end()
        while depth and k < len(text):
            depth += {"{": 1, "}": -1}.get(text[k], 0)
            k += 1
        spans.append((m.start(), k))
    spans.sort()
    return spans


def main():
    words = [w for w in sys.argv[1:] if w != "--list"]
    root = words[0] if words else "."
    crates = set(os.listdir(os.path.join(root, "crates")))
    names = table(root)
    after_dot = fields(root)
    if "--list" in sys.argv:
        for n in sorted(names):
            print(n, names[n], sep="\t")
        return
    turned = 0
    for p in files(root, ".antt", ".rt", ".edit"):
        with open(p, encoding="utf-8") as f:
            text = f.read()
        if p.endswith(".antt"):
            new = antt(text, names, after_dot, foreign(text, crates))
        elif p.endswith(".rt"):
            kept = foreign(text, crates)
            new, at = "", 0
            for a, b in clauses(text):
                if a < at:
                    continue
                new += text[at:a] + antt(text[a:b], names, after_dot, kept)
                at = b
            new += text[at:]
        else:
            new = "\n".join(
                antt(line, names, after_dot, set()) if re.match(r"(old|new): .*[≡≤→⌜λ]", line) else line for line in text.split("\n")
            )
        if new != text:
            with open(p, "w", encoding="utf-8") as f:
                f.write(new)
            turned += 1
    print(f"respell: {len(names)} names, {turned} files")


main()
