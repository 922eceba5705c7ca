#!/usr/bin/env python3
"""Respells this repository's own antt names as today's Rattle spells them: words in snake case, types in camel case.

usage: python3 tools/respell.py            at the top of the repository, once, after the toolchain's own script

A name is the repository's own where a file of specs/ or proofs/ declares it; the answers of a function's goals
(proofs/F/Answers.antt and its like) are named by the checker and stay. Only specs/, proofs/ and the clauses of src/
are read; strings, functions of src/ and everything outside crates/ keep their words.
"""

import glob
import os
import re
import sys

NAME = r"[^\s(){}\[\].,;:@]+"
GOALS = ("Answers.antt", "Invariants.antt", "Choices.antt", "Proof.antt")
DECLARED = re.compile(r"^\s*(?:(?:pub|abbrev|unfoldable|let)\s+)*(" + NAME + r"(?:\s+" + NAME + r")*)\s+:(?=\s)")
TYPE = re.compile(r"^\s*(?:pub\s+)?(?:record|data)\s+(" + NAME + ")")
# Names whose plain respelling is taken, by the library or by another name of ours.
CHOSEN = {
    "If-ok": "IfAccepted",
    "length-of": "kind_length",
    "range-fits": "range_suits",
    "element-fits": "element_suits",
}


def own_names(files):
    names = set()
    for path in files:
        if os.path.basename(path) in GOALS:
            continue
        with open(path, encoding="utf-8") as f:
            for line in f:
                found = TYPE.match(line)
                if found:
                    names.add(found.group(1))
                    continue
                found = DECLARED.match(line)
                if found:
                    names.update(found.group(1).split())
    return {n for n in names if re.fullmatch(r"[A-Za-z][A-Za-z0-9]*(-[A-Za-z0-9]+)+'?", n)}


def respelt(name):
    if name in CHOSEN:
        return CHOSEN[name]
    if name[0].isupper():
        return "".join(part[0].upper() + part[1:] for part in name.split("-"))
    return name.replace("-", "_").replace("getD", "get_or")


def main():
    antt = sorted(glob.glob("crates/*/specs/**/*.antt", recursive=True) + glob.glob("crates/*/proofs/**/*.antt", recursive=True))
    code = sorted(glob.glob("crates/*/src/**/*.rt", recursive=True))
    turned = {n: respelt(n) for n in own_names(antt)}
    taken = {}
    for name, new in turned.items():
        taken.setdefault(new, []).append(name)
    bad = {new: names for new, names in taken.items() if len(names) > 1}
    if bad:
        sys.exit(f"names fall together: {bad}")
    token = re.compile(NAME)
    for path in antt + code:
        with open(path, encoding="utf-8") as f:
            text = f.read()
        words = set(token.findall(text))
        both = [n for n in turned if n in words and turned[n] in words]
        if both:
            print(f"{path}: {both} stand beside their new spellings")
        goal_file = os.path.basename(path) in GOALS
        lines = []
        for line in text.split("\n"):
            declared = DECLARED.match(line) if goal_file else None
            keep = set(declared.group(1).split()) if declared and not line.startswith(" ") else set()

            def turn(m):
                before = line[: m.start()]
                if m.group(0) in keep or re.search(r"\bgoal\.$", before):
                    return m.group(0)
                return turned.get(m.group(0), m.group(0))

            if path.endswith(".rt"):
                # strings and comments of code keep their words; a clause has neither
                if '"' in line or line.lstrip().startswith("//"):
                    lines.append(line)
                    continue
            lines.append(token.sub(turn, line))
        new = "\n".join(lines)
        if new != text:
            with open(path, "w", encoding="utf-8") as f:
                f.write(new)


main()
