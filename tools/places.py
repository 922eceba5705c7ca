#!/usr/bin/env python3
"""Lists the places in src/ that look like an older form of code, by point, and counts them.

usage: python3 tools/places.py [-q] [COMMIT]     at the top of the repository; -q gives the counts alone

It goes by text, so it finds candidates: docs/DESIGN-PASS.md says of each what became of it. Points 1, 3, 4, 6 and 7 are
patterns of a line or a few. Point 2 compares the bodies of functions with names, numbers and strings made alike. Point 5
counts the facts that stand in the `requires` of three functions or more, and the parameters that three functions or more
have in common. Point 8 counts the lines of proofs.
"""

import collections
import glob
import re
import subprocess
import sys

PATTERNS = {
    "1 options, results, enums": [
        ("a number for a kind", r"\bkind: u8\b|\bkind <= \d|^\s+\d+(\.\.=?\d*)?( \| \d+)* => "),
        (
            "an absence or a refusal handed on by hand",
            r"let (?:Some|Ok|\(Ok|\[)[^;{]*(?:\{[^{};]*\}[^;{]*)?else \{\s*return (?:None|Err\([^;]*|Ok\(None\));\s*\}",
        ),
        ("a case that only drops or turns a refusal", r"^\s+(?:Err\(_\)|None) => (?!\{|\(\)|println|print)"),
        ("a refusal made a flag", r"\.is_(?:ok|err)\(\)"),
        ("a flag or a number beside what it says", r"running: bool|0 is never|or 0 where"),
    ],
    "3 loops": [
        ("a loop over a condition", r"^\s+while "),
        ("a loop over numbers", r"for [a-z]\w* in \(?\w+\.\."),
    ],
    "4 by hand what a derive or a trait gives": [
        ("an order", r"fn (?:precedes|eq|cmp|lt)\b"),
        ("a conversion or a default", r"fn (?:of|checked|empty|number|[ui]\d+_from|number_in)\b"),
        ("printing", r"fn \w*print_\w+"),
    ],
    "6 buffers, arrays": [
        ("an array with its length beside", r"^\s+\w+: \[\w+; \w+\],\n\s+\w+: usize,"),
        ("a local buffer", r"let mut \w+ = \[\d\w*; [^\]]+\];"),
    ],
    "7 switches": [("a choice of the side or of who opens", r"match (?:end|opens|\w+\.opens) ")],
}
KEYWORDS = set("fn let mut for in if else match return while self Self Some None Ok Err true false impl pub as".split())
FUNCTION = re.compile(r"^( *)(?:pub(?:\(crate\))? )?fn (\w+)", re.M)


def sources(commit):
    if commit:
        names = subprocess.check_output(["git", "ls-tree", "-r", "--name-only", commit, "crates"], text=True).split()
    else:
        names = glob.glob("crates/*/src/**/*.rt", recursive=True)
    for name in sorted(n for n in names if n.endswith(".rt") and "/src/" in n):
        if commit:
            yield name, subprocess.check_output(["git", "show", f"{commit}:{name}"], text=True)
        else:
            yield name, open(name, encoding="utf-8").read()


def functions(text):
    """Each function of a file: its name, its head and its body."""
    for found in FUNCTION.finditer(text):
        end = text.find("\n" + found.group(1) + "}", found.start())
        stop = text.find(";\n", found.start())
        whole = text[found.start() : end if end >= 0 else stop]
        head, _, body = whole.partition("\n" + found.group(1) + "{")
        if not body:
            head, _, body = whole.partition(" {\n")
        yield found.group(2), head, body


def alike(body):
    """The body with each name, number and string made alike, in the order in which they come."""
    names = {}
    words = re.findall(r'"[^"]*"|\w+|[^\s\w]', re.sub(r"//.*", "", body))
    shape = []
    for word in words:
        if word[0].isdigit() or word[0] == '"':
            shape.append("#")
        elif (word[0].isalpha() or word[0] == "_") and word not in KEYWORDS:
            shape.append(f"${names.setdefault(word, len(names))}")
        else:
            shape.append(word)
    return " ".join(shape) if len(shape) > 18 else None


def facts(head):
    for clause in re.findall(r"requires(?: \w+)? \{ (.*) \}\n", head + "\n"):
        for fact in clause.split(" × "):
            yield re.sub(r"\b(?:\w+)\.(?:now|old)\.", "", re.sub(r"\.(?:now|old)\b", "", fact)).strip("() ")


def parameters(head):
    inside = re.search(r"\((.*?)\)(?: ->|\n|$)", head, re.S)
    found = re.findall(r"\b([a-z]\w*): ", inside.group(1)) if inside else []
    return frozenset(p for p in found if p not in ("rt", "out"))


def show(title, lines, quiet):
    print(f"{title}: {len(lines)}")
    if not quiet:
        for line in lines:
            print(f"    {line}")


def main():
    arguments = [a for a in sys.argv[1:] if a != "-q"]
    quiet = "-q" in sys.argv
    files = list(sources(arguments[0] if arguments else None))
    for point, kinds in PATTERNS.items():
        print(f"== {point}")
        for title, pattern in kinds:
            found = []
            for name, text in files:
                if title == "a local buffer" and "_tests/" in name:
                    continue
                for hit in re.finditer(pattern, text, re.M):
                    line = text.count("\n", 0, hit.start() + len(hit.group()) - len(hit.group().lstrip())) + 1
                    found.append(f"{name}:{line}: {' '.join(hit.group().split())[:90]}")
            show(title, found, quiet)
    shapes, stated, groups = (collections.defaultdict(list) for _ in range(3))
    for name, text in files:
        for function, head, body in functions(text):
            place = f"{name}: {function}"
            if alike(body):
                shapes[alike(body)].append(place)
            for fact in set(facts(head)):
                stated[fact].append(place)
            groups[parameters(head)].append(place)
    print("== 2 twins")
    show("bodies alike", [", ".join(p) for p in shapes.values() if len(p) > 1], quiet)
    print("== 5 facts and parameters that go together")
    show("facts", [f"{f} ({len(p)} functions)" for f, p in stated.items() if len(p) >= 3], quiet)
    having = {}
    for few in {a & b for a in groups for b in groups if len(a & b) >= 3}:
        having[few] = len({p for g in groups if few <= g for p in groups[g]})
    # of two sets with the same functions, the larger alone
    having = {g: n for g, n in having.items() if n >= 3 and not any(g < h and n == m for h, m in having.items())}
    show("parameters", sorted(f"{', '.join(sorted(g))} ({n} functions)" for g, n in having.items()), quiet)
    print("== 8 proofs")
    if not arguments:
        counts = collections.Counter()
        for name in glob.glob("crates/*/proofs/**/*.antt", recursive=True):
            counts[name.split("/")[1]] += open(name, encoding="utf-8").read().count("\n")
        show("lines", [f"{crate} {lines}" for crate, lines in sorted(counts.items())], quiet)


if __name__ == "__main__":
    main()
