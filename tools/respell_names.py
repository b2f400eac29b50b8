#!/usr/bin/env python3
"""Spells this repository's own definitions, lemmas and local names as today's Rattle does, once, after the toolchain's own script.

usage: respell_names.py [--list]        at the top of the repository

A word is in snake case: `has-zero` becomes `has_zero`. A type, that is a name that begins with a capital or whose declaration ends in
`Type 0`, is in upper camel case: `All-inside` becomes `AllInside`. A word that would meet a function of src/ gets another name. What the check itself names (goals, labels of an answer file) and what a library declares
stays, and so do the functions, strings, inputs and outputs of src/. --list only prints what would change. It stops where two names
would fall together in a file.
"""

import os
import re
import sys

NAME = r'[^\s(){}.;,@"«»]+'
WORD = re.compile(NAME)
QUIET = re.compile(r"--[^\n]*|//[^\n]*|\"(?:[^\"\\\n]|\\.)*\"")
SPAN = re.compile(r"`[^`\n]+`")
HEADS = r"(?:(?:pub|abbrev|unfoldable|axiom|data|record|module|ghost)\s+)*"
DECLARED = re.compile(rf"(?m)^ *{HEADS}({NAME})(?: \{{[^{{}}\n]*\}}| \([^()\n]*\))* :(?!:)([^\n]*)")
LOCAL = re.compile(rf"\blet ({NAME})(?= [:=])")
BINDER = re.compile(rf"[({{]((?:{NAME} )+):(?= )")
LAMBDA = re.compile(rf"λ ((?:{NAME} ?)+)\.")
CLAUSE = re.compile(rf"(?m)^ *({NAME} [^=\n]*?) = ")
ALIAS = re.compile(rf" as ({NAME})")
USE = re.compile(r"(?s)\buse\s+([^\s;{]+?)\.?\{([^}]*)\}")
LABEL = re.compile(r"(?m)^ *pub (\S+) : (?:goal|need|rules|g)\.")


def files():
    for folder, dirs, names in os.walk("crates"):
        dirs[:] = sorted(d for d in dirs if d != "out")
        for name in sorted(names):
            if name.endswith((".antt", ".rt")):
                yield os.path.join(folder, name)


def own_crates():
    return set(os.listdir("crates"))


def dashed(word):
    return "-" in word.strip("-") and re.search(r"[A-Za-z]-|-[A-Za-z]", word) is not None


def libraries(texts, own):
    """The names that are imported from a library."""
    found = set()
    for text in texts.values():
        for path, items in USE.findall(text):
            steps = path.split(".")
            if not (steps[0] == "Rattle" and len(steps) > 1 and steps[1] in own):
                found |= {item.split(" as ")[0].strip() for item in items.split(",")}
    return found


def declared(texts, libs):
    """Each dashed name that a file of specs/ or proofs/ declares, and whether one of its declarations is a type's."""
    labels, types, names = set(), set(), set()
    for path, text in texts.items():
        if path.endswith(".rt"):
            names |= set(ALIAS.findall(text))
            continue
        code = re.sub(r"(?m)^use .*$", "", QUIET.sub("", text))
        labels |= set(LABEL.findall(code))
        for name, rest in DECLARED.findall(code):
            names.add(name)
            if re.search(r"(?:^|→|:) *Type 0( where)?\s*$", rest):
                types.add(name)
        names |= set(LOCAL.findall(code)) | set(ALIAS.findall(text))
        for part in BINDER.findall(code) + LAMBDA.findall(code) + CLAUSE.findall(code):
            names |= set(WORD.findall(part))
    return {n for n in names if dashed(n)} - labels - libs, types


def camel(name):
    return "".join(part[:1].upper() + part[1:] for part in name.split("-"))


# A word that would meet a function of src/, and one that the toolchain's script took for a type.
OTHER = {"unread-at": "is_unread", "Apart-in": "apart_in"}


def spelling(names, types):
    return {n: OTHER.get(n) or (camel(n) if n in types or n[0].isupper() else n.replace("-", "_")) for n in names}


# A name that the check makes, as the label of a goal or of a step of a walk.
MADE = re.compile(
    r"^(?:returns|loop|invariant|decreases|if|else|then|overflow|bounds|unreachable|explore|visit)-|-requires$|^in-[A-Z]|-in-[A-Z]|^type-inv$|-wrote$|^\w+-\d$"
)


def turn_code(text, table):
    return re.sub(NAME, lambda m: table.get(m.group(0), m.group(0)), text)


def turn(text, table):
    """Words of the code, and of comments what stands in backticks; strings stay."""
    out, at = [], 0
    for m in QUIET.finditer(text):
        out.append(turn_code(text[at : m.start()], table))
        quiet = m.group(0)
        out.append(quiet if quiet[0] == '"' else SPAN.sub(lambda s: "`" + turn_code(s.group(0)[1:-1], table) + "`", quiet))
        at = m.end()
    return "".join(out) + turn_code(text[at:], table)


def meetings(texts, table):
    """The new names that stand already in a file that has the old one, or that two old ones of it become."""
    for path, text in texts.items():
        words = set(WORD.findall(re.sub(r"\bRattle\.\w+", "", QUIET.sub("", text))))
        seen = {}
        for old in sorted(words & set(table)):
            new = table[old]
            if new in words or new in seen:
                yield f"{path}: {old} and {seen.get(new, new)} would both be {new}"
            seen[new] = old


def main():
    texts = {}
    for path in files():
        with open(path, encoding="utf-8") as f:
            texts[path] = f.read()
    names, types = declared(texts, libraries(texts, own_crates()))
    table = {old: new for old, new in spelling(names, types).items() if not MADE.search(old)}
    if "--list" in sys.argv:
        for old in sorted(table):
            print(old, table[old])
        print("-- left:", " ".join(sorted(n for n in names if n not in table)))
    bad = list(meetings(texts, table))
    print("\n".join(bad))
    if bad or "--list" in sys.argv:
        return 1 if bad else 0
    for path, text in texts.items():
        new = turn(text, table)
        if new != text:
            with open(path, "w", encoding="utf-8") as f:
                f.write(new)
    return 0


sys.exit(main())
