#!/usr/bin/env python3
"""Brings the names of this repository's own definitions and lemmas to snake case.

usage: python3 tools/snake_case.py [FOLDER]

FOLDER is the top of a checkout, by default this one. A name is renamed if a file of specs/ or proofs/ declares it: a definition, a
lemma, a field, a parameter or the name that an import gives. Names that the library or the checker makes are left as they are. It
prints each name whose new spelling was in use already.
"""

import os
import re
import sys

NAME = r"[A-Za-z][\w']*(?:-[\w']+)+"
TOKEN = re.compile(r"(?<![\w'◌-])(" + NAME + r")(?![\w'◌-])")
MODIFIERS = r"(?:(?:abbrev|unfoldable|abstract|pub|record|data)\s+)*"
DECLARED = re.compile(r"^\s*(?:\|\s*)?" + MODIFIERS + r"([A-Za-z][\w'-]*)(?:\s*(?:\([^()]*(?:\([^()]*\)[^()]*)*\)|\{[^{}]*\}))*\s*:\s*(?!=)(\S*)", re.M)
BOUND = re.compile(r"[({]([A-Za-z][\w' -]*?)\s*:(?!=)")
LET = re.compile(r"\blet\s+\(?([A-Za-z][\w', -]*?)\)?\s*(?:=|:)")
ALIAS = re.compile(r"\bas\s+(" + NAME + r")")
IMPORT = re.compile(r"^\s*(?:ghost\s+)?(?:pub\s+)?use\s+([^;{\n]+?)\.\{([^}]*)\}", re.M)


def texts(top, *endings):
    for folder, dirs, files in os.walk(os.path.join(top, "crates")):
        dirs[:] = sorted(d for d in dirs if d != "out")
        for name in sorted(files):
            if name.endswith(endings):
                yield os.path.join(folder, name)


def read(path):
    with open(path, encoding="utf-8") as f:
        return f.read()


def kebab(name):
    return re.fullmatch(NAME, name) is not None


def declared(path, text):
    answers = os.path.basename(path) in ("Answers.antt", "Invariants.antt", "Proof.antt")
    for name, kind in DECLARED.findall(text):
        if kebab(name) and not (answers and kind.startswith(("goal", "given", "need"))):
            yield name
    for names in BOUND.findall(text) + LET.findall(text):
        yield from (n for n in re.split(r"[\s,]+", names) if kebab(n))
    yield from ALIAS.findall(text)


def from_libraries(text, crates):
    """The names that a file imports from elsewhere than this repository."""
    for path, names in IMPORT.findall(text):
        parts = path.strip().split(".")
        if parts[0] == "Rattle" and len(parts) > 1 and parts[1] in crates:
            continue
        for item in names.split(","):
            name, _, alias = item.strip().partition(" as ")
            yield name
            if alias == "":
                yield name


def renamed(line, names, rust):
    comment = "//" if rust else "--"
    code, mark, rest = line.partition(comment) if line.lstrip().startswith(comment) else (line, "", "")
    pieces = re.split(r'("(?:[^"\\]|\\.)*")', code)
    turn = lambda m: m[1].replace("-", "_") if m[1] in names else m[0]
    return "".join(p if p.startswith('"') else TOKEN.sub(turn, p) for p in pieces) + mark + rest


def main():
    top = sys.argv[1] if len(sys.argv) > 1 else os.path.join(os.path.dirname(os.path.realpath(__file__)), "..")
    crates = set(os.listdir(os.path.join(top, "crates")))
    proofs = list(texts(top, ".antt"))
    own = {name for path in proofs for name in declared(path, read(path))}
    turned = {name for path in proofs for name in re.findall(r"^\s*" + MODIFIERS + r"([a-z]\w*_[\w']*)", read(path), re.M)}
    for path in texts(top, ".antt", ".rt"):
        text = read(path)
        foreign = set(from_libraries(text, crates))
        names = own - foreign
        for name in sorted(names & set(TOKEN.findall(text))):
            snake = name.replace("-", "_")
            if path.endswith(".antt") and (re.search(r"(?<![\w'.-])" + snake + r"(?![\w'-])", text) or snake in foreign):
                print(f"{path}: {snake} is there already")
        lines = [renamed(line, names, path.endswith(".rt")) for line in text.split("\n")]
        with open(path, "w", encoding="utf-8") as f:
            f.write("\n".join(lines))
    turn = lambda name: name.replace("-", "_") if name in own or name.replace("-", "_") in turned else name
    for folder, dirs, files in os.walk(os.path.join(top, "docs")):
        for name in sorted(f for f in files if f.endswith(".md")):
            path = os.path.join(folder, name)
            text = read(path)
            quoted = re.sub(r"`[^`\n]+`", lambda q: TOKEN.sub(lambda m: turn(m[1]), q[0]), text)
            with open(path, "w", encoding="utf-8") as f:
                f.write(quoted)


main()
