#!/usr/bin/env python3
"""Counts, in src/ of every crate at a commit (or in the work tree), the places that docs/DESIGN-PASS.md speaks of.

    python3 tools/count_forms.py [COMMIT]        counts, a line for each point
    python3 tools/count_forms.py -l [COMMIT]     and each place
"""

import re
import subprocess
import sys
from collections import defaultdict

WORDS = set("let mut if else match for in while return self Self true false fn pub impl as break loop ref move".split())

# One pattern for each form that shows on a line of code.
LINES = {
    "1 own option or result, flag, number for a kind": (
        r"enum Verdict|: bool,$|Option<Refusal>|Err\(_\) =>|Err\(why\) => Err|None => (0|\{\})|Ok\(found\) => match"
        r"|^\s*pub(\(crate\))? (origin: u8|parent: u16|next: u16),|_stand\(\) -> u8"
    ),
    "3 index counted by hand": r"\bwhile .*[<>]|\bwhile let Some\(\w+\) = \w+(\.\w+)*\.get\(|\bfor [a-z]\w* in 0\.\.",
    "4 comparison, conversion or printing by hand": (
        r"fn (number|numbered|name|is_step)\b|fn is_full\(answer|impl.* (Clone|Copy|PartialEq|Debug|Drop) for|\.number\(\)"
    ),
    "6 buffer with a length, arena, index by hand": (
        r"^\s*(pub(\(crate\))? )?(len|count): usize,|(heads|slots|list|records): (\[|Records)"
        r"|\((number|context) - 1\) as usize|\[n - 1\]|\[[\w.]+ as usize\]|& b\[\d\]"
    ),
    "7 switch on which step to run": r"\benum Key\b|match (key|property\.template)\b|Key::\w+\(\w+\)\)",
}

# Parameters that several functions take together.
BUNDLES = [
    ("policy", "grants"),
    ("policy", "grants", "set"),
    ("regime", "set"),
    ("graph", "ticks", "places"),
    ("heads", "records"),
    ("places", "last"),
    ("ticks", "places"),
    ("from", "to"),
    ("subject", "target"),
    ("s", "t"),
]


def files(commit):
    if commit:
        names = subprocess.check_output(["git", "ls-tree", "-r", "--name-only", commit], text=True).split("\n")
    else:
        names = subprocess.check_output(["git", "ls-files", "-co", "--exclude-standard"], text=True).split("\n")
    for name in sorted(n for n in names if re.fullmatch(r"crates/\w+/src/\w+\.rt", n)):
        if commit:
            yield name, subprocess.check_output(["git", "show", f"{commit}:{name}"], text=True)
        else:
            yield name, open(name).read()


def after(text, i, opening, closing):
    """Where what opens at i has closed; an arrow closes nothing."""
    depth = 0
    while True:
        if text[i : i + 2] == "->":
            i += 1
        else:
            depth += {opening: 1, closing: -1}.get(text[i], 0)
        i += 1
        if not depth:
            return i


def functions(text):
    """Each function: its line, its name, its parameters, its clauses, its body."""
    for m in re.finditer(r"^[ ]*(?:pub(?:\(crate\))? )?fn (\w+)", text, re.M):
        start = after(text, m.end(), "<", ">") if text[m.end()] == "<" else m.end()
        i = after(text, start, "(", ")")
        parameters = text[start + 1 : i - 1]
        j, clauses = text.find("\n", i) + 1, []
        while c := re.compile(r"[ ]*(requires|ensures)\s*\w*\s*\{ (.*) \}\n").match(text, j):
            clauses.append(c.group(2))
            j = c.end()
        b = re.compile(r"[ ]*\{\n(.*?)\n[ ]{0,4}\}\n", re.S).match(text, j)
        yield text.count("\n", 0, m.start()) + 1, m.group(1), parameters, clauses, b.group(1) if b else ""


def shape(body):
    """A body with its own names and numbers taken out: twins have one shape."""
    names = {}
    out = []
    for token in re.findall(r"[A-Za-z_]\w*|\d\w*|\S", re.sub(r"//.*", "", body)):
        if token in WORDS:
            out.append(token)
        elif re.match(r"\w", token):
            out.append(names.setdefault(token, f"${len(names)}"))
        else:
            out.append(token)
    return tuple(out)


def main():
    places = "-l" in sys.argv
    commit = next((a for a in sys.argv[1:] if a != "-l"), None)
    found = defaultdict(list)
    shapes, facts, bundles = defaultdict(list), defaultdict(set), defaultdict(set)
    for name, text in files(commit):
        for k, line in enumerate(text.split("\n"), 1):
            for point, pattern in LINES.items():
                if re.search(pattern, line) and not line.lstrip().startswith("//"):
                    found[point].append(f"{name}:{k}: {line.strip()}")
        for k, fn, parameters, clauses, body in functions(text):
            here = f"{name}:{k}: {fn}"
            if len(shape(body)) >= 12:
                shapes[shape(body)].append(here)
            elif len(shape(body)) >= 6:
                shapes[" ".join(body.split())].append(here)
            for clause in clauses:
                for fact in clause.replace("self.now.", "").split(" × "):
                    facts[fact.strip("()")].add(here)
            taken = set(re.findall(r"(\w+): ", parameters))
            for bundle in BUNDLES:
                if taken.issuperset(bundle):
                    bundles[bundle].add(here)
    for twins in shapes.values():
        if len(twins) > 1:
            found["2 functions of one shape"] += twins
    for clause, where in facts.items():
        if len(where) > 2:
            found["5 fact in three contracts or more"].append(f"{{ {clause} }}: {len(where)}")
    for bundle, where in bundles.items():
        if where:
            found["5 parameters together: " + ", ".join(bundle)] += sorted(where)
    for point in sorted(found):
        print(f"{len(found[point]):4} {point}")
        if places:
            print("".join(f"         {p}\n" for p in found[point]), end="")


main()
