#!/usr/bin/env python3
"""Respells, in the answers and invariants of this repository, the names that Rattle makes: a name from the source keeps its
underscores there, where an older Rattle wrote a dash.

usage: python3 tools/goal_names.py [ROOT]    once, after tools/respell.py
"""

import os
import re
import sys

NAME = re.compile(r"(?<![\w'₀-₉ℤℕ◌*+≤<-])[A-Za-z][\w'₀-₉ℤℕ]*(?:[-+][\w'₀-₉ℤℕ]+)+(?![\w'₀-₉ℤℕ-])")
USE = re.compile(r"(?ms)^use (?P<path>[^\s{;]+)\.\{(?P<items>[^}]*)\}")
MADE = "in_default in_ok in_err overflow_add overflow_sub overflow_mul overflow_neg overflow_cast overflow_step overflow_shl overflow_shr slice_bounds offset_bounds nonzero_div nonzero_rem invariant_of type_inv well_formed byte_at".split()


def words_of(folder):
    found = set(MADE)
    for at, dirs, names in os.walk(os.path.join(folder, "src")):
        for n in names:
            if n.endswith(".rt"):
                with open(os.path.join(at, n), encoding="utf-8") as f:
                    found |= set(re.findall(r"\b[A-Za-z][A-Za-z0-9]*(?:_[A-Za-z0-9]+)+\b", f.read()))
    return found


def spelled(name, words):
    parts = re.split(r"([-+])", name)
    out, i = [], 0
    while i < len(parts):
        best = None
        for j in range(len(parts), i + 2, -2):
            piece = parts[i:j]
            if "+" in piece:
                continue
            if "_".join(piece[::2]) in words:
                best = j
                break
        if best:
            out.append("_".join(parts[i:best:2]))
            i = best
        else:
            out.append(parts[i])
            i += 1
    return "".join(out)


def main():
    root = sys.argv[1] if len(sys.argv) > 1 else "."
    turned = 0
    for crate in sorted(os.listdir(os.path.join(root, "crates"))):
        folder = os.path.join(root, "crates", crate)
        words = words_of(folder)
        for at, dirs, names in os.walk(os.path.join(folder, "proofs")):
            for n in names:
                if n not in ("Answers.antt", "Invariants.antt"):
                    continue
                p = os.path.join(at, n)
                with open(p, encoding="utf-8") as f:
                    text = f.read()
                kept = set()
                for m in USE.finditer(text):
                    if not m["path"].endswith((".Goals", ".Given")):
                        kept |= {w.strip().split(" ")[-1] for w in m["items"].split(",")}
                lines = []
                for line in text.split("\n"):
                    if not line.lstrip().startswith("--") and not re.match(r"use .*\.lemmas\.|use .*Common", line):
                        line = NAME.sub(lambda m: m[0] if m[0] in kept else spelled(m[0], words), line)
                    lines.append(line)
                new = "\n".join(lines)
                if new != text:
                    with open(p, "w", encoding="utf-8") as f:
                        f.write(new)
                    turned += 1
    print(f"goal_names: {turned} files")


main()
