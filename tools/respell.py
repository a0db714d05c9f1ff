#!/usr/bin/env python3
"""Brings the repository's own definitions and lemmas to the spelling of the library: functions, lemmas and fields in snake case.

usage: tools/respell.py [--dry] [FOLDER]      (the repository's top, else this one)

A name in camel case, as `lacBits`, becomes `lac_bits`. A dash between plain words becomes an underscore, as in `runs_agree`; it stays between the names of list and
number functions, as in `sets-append`, and behind a type's name, as in `Is-missing`. What the prover makes of a function's goals (`proofs/FUNCTION/`) keeps its name. Words
of code, clauses and must-fail edits turn, and those of comments and pages where they stand in back quotes or have a capital in the middle. `--dry` writes nothing and
prints the table and the names that would fall together. It is run once: where it has run it would turn the names that end in `_lem` again.
"""

import collections
import os
import re
import sys

WORD = re.compile(r"[^\s(){}.;,@\"«»]+")
# names of the library's functions: a dash between two of them stays
LIBRARY = set("append length take drop set sets get_or add mul sub zero suc cons map replicate lt le min max div mod".split())
CAMEL = re.compile(r"(?<![A-Za-z0-9])[a-z][a-z0-9_]*[A-Z]")
DECLARES = re.compile(r"^\s*(?:(?:abbrev|unfoldable|pub|opaque|inline|ruleset|record|data|module)\s+)*([^\s(){}.;,@\"«»]+)\s+(?:(?:\{[^{}]*\}|\((?:[^()]|\([^()]*\))*\))\s*)*:\s")
# lemmas whose names would fall together with a definition's: as the library has it, they end in `_lem`
APART = {"words-of": "words_of_lem", "cells-of": "cells_of_lem"}
# the same, of lemmas that have underscores already: what turns, and the files that declare or cite it
STANDING = {
    "end_line": ["desk_last_lines/proofs/Sizes.antt"],
    "goes_on": ["machine_console/proofs/Turned.antt"],
    "base_step": ["machine_run/proofs/Changed.antt"],
    "rotated_by": ["rows_value/proofs/Compiled.antt"],
    "is_digit": ["text_constants/proofs/Numerals.antt"],
    "to_part": ["text_expression/proofs/Destinations.antt", "text_expression/proofs/Fields.antt", "text_expression/proofs/named_place/Proof.antt"],
    "is_word": ["text_grammar/proofs/Firsts.antt", "text_grammar/proofs/Complete.antt", "text_expression/proofs/Fields.antt", "text_description/proofs/FirstWords.antt"],
    "word_end": ["text_tokens/proofs/Tokens.antt", "text_tokens/proofs/token_end/Proof.antt", "text_grammar/proofs/Reaches.antt"],
}


def snake(part):
    if not re.match(r"[a-z_]", part):
        return part
    return re.sub(r"(?<=[a-z0-9])([A-Z])", lambda m: "_" + m[1].lower(), re.sub(r"(?<=[a-z0-9_])([A-Z])(?![a-z])", lambda m: "_" + m[1].lower() if re.match(r"[a-z0-9]", part[m.start() - 1]) else m[1].lower(), part)).lower()


def turned(name):
    if name in APART:
        return APART[name]
    parts = name.split("-")
    if not all(parts) or not re.match(r"[a-z_]", parts[0]):
        return name
    parts = [snake(p) if CAMEL.match(p) else p for p in parts]
    made = parts[0]
    for before, after in zip(parts, parts[1:]):
        made += ("-" if before in LIBRARY and after in LIBRARY or re.match(r"[^a-z0-9_]", after) else "_") + after
    return made


def texts(root, ends):
    for folder, dirs, files in os.walk(root):
        dirs[:] = sorted(d for d in dirs if d not in ("out", "target", ".git"))
        for f in sorted(files):
            if f.endswith(ends):
                yield os.path.join(folder, f)


def is_laws(path):
    """Whether a file of proofs/ holds laws, and not a function's answers."""
    return re.search(r"/specs/|/proofs/[^/]+\.antt$|/Proof/[^/]+\.antt$", path) is not None


def is_goal(line):
    return re.match(r"\S+ : (tie|goal)\.", line) is not None


def table(root):
    own, goals = set(), collections.defaultdict(set)
    for path in texts(os.path.join(root, "crates"), (".antt",)):
        with open(path, encoding="utf-8") as f:
            for line in f:
                if line.lstrip().startswith("--"):
                    continue
                found = DECLARES.match(line)
                if not is_laws(path):
                    if is_goal(line):
                        goals[path].add(line.split()[0])
                    elif found and not line.startswith(("abbrev μ", "abbrev Inv")):
                        own.add(found[1])
                elif found:
                    own.add(found[1])
    # constructors and camel case words that nothing above declares
    for path in texts(os.path.join(root, "crates"), (".antt",)):
        with open(path, encoding="utf-8") as f:
            for line in f:
                if not line.lstrip().startswith("--"):
                    own |= {w for w in WORD.findall(line) if CAMEL.match(w) and "-" not in w}
    turns = {n: turned(n) for n in own}
    names = collections.Counter(turns.values())
    turns |= {n: to + "_lem" for n, to in turns.items() if names[to] > 1 and "-" in n and not CAMEL.match(n)}
    return {n: to for n, to in turns.items() if to != n}, goals


def code(text, turns, kept=()):
    return WORD.sub(lambda m: turns[m[0]] if m[0] in turns and m[0] not in kept and not (turns[m[0]].endswith("_lem") and text[m.start() - 1 : m.start()] == ".") else m[0], text)


def prose(text, turns):
    text = re.sub(r"`[^`\n]+`", lambda m: code(m[0][1:-1], turns).join("``"), text)
    return re.sub(r"(?<![\w-])[a-z][a-z0-9]*[A-Z]\w*(?![\w-])", lambda m: turns.get(m[0], m[0]), text)


def lines(text, mark, turns, kept=()):
    made = []
    for line in text.split("\n"):
        at = line.find(mark) if line.lstrip().startswith(mark) else -1
        made.append(prose(line, turns) if at >= 0 else code(line, turns, kept))
    return "\n".join(made)


def clauses(text, turns):
    """Of a .rt file: everything but strings, since code has no name in camel case or with a dash."""
    made = []
    for line in text.split("\n"):
        if line.lstrip().startswith("//"):
            made.append(prose(line, turns))
        else:
            pieces = re.split(r"(b?\"(?:\\.|[^\"\\])*\"?)", line)
            made.append("".join(p if n % 2 or re.match(r"\s*[A-Za-z.<>:0-9#@ ]*\\[nt]", p) else camel_only(p, turns) for n, p in enumerate(pieces)))
    return "\n".join(made)


def camel_only(text, turns):
    return WORD.sub(lambda m: turns[m[0]] if m[0] in turns and (CAMEL.search(m[0]) or "-" in m[0] and not re.search(r"[=<>]", m[0])) else m[0], text)


def edits(text, turns):
    made, file = [], ""
    for line in text.split("\n"):
        if line.startswith("file: "):
            file = line
        if line.startswith("# "):
            head = re.match(r"(# \S+ at law )([^:]+)(.*)", line)
            line = head[1] + " and law ".join(turns.get(n, n) for n in head[2].split(" and law ")) + head[3] if head else line
            made.append(prose(line, turns))
        elif line.startswith(("old: ", "new: ")):
            made.append(line[:5] + (code if file.endswith(".antt") else camel_only)(line[5:], turns))
        else:
            made.append(line)
    return "\n".join(made)


def together(root, turns):
    """Names that fall together: two that turn to one, or one that turns to a name that stands already."""
    back = collections.defaultdict(set)
    for n, to in turns.items():
        back[to].add(n)
    for to, names in sorted(back.items()):
        if len(names) > 1:
            yield f"{', '.join(sorted(names))} -> {to}"
    for path in texts(os.path.join(root, "crates"), (".antt",)):
        with open(path, encoding="utf-8") as f:
            text = "\n".join(l for l in f.read().split("\n") if not l.lstrip().startswith("--"))
        words = set(re.findall(r"(?<![^\s({,])[^\s(){}.;,@\"«»]+(?![^\s)},;.])", text))
        for n in sorted(words):
            if n in turns and turns[n] in words:
                yield f"{os.path.relpath(path, root)}: {n} -> {turns[n]}, which stands there"


def main(argv):
    dry = "--dry" in argv
    folders = [a for a in argv if a != "--dry"]
    root = folders[0] if folders else os.path.join(os.path.dirname(os.path.abspath(__file__)), "..")
    turns, goals = table(root)
    if dry:
        for n, to in sorted(turns.items()):
            print(f"{n}\t{to}")
        print("\n".join(together(root, turns)), file=sys.stderr)
        return
    for path in texts(root, (".antt", ".rt", ".edit", ".md")):
        with open(path, encoding="utf-8") as f:
            text = f.read()
        if path.endswith(".antt"):
            here = {w: w + "_lem" for w, where in STANDING.items() if path.endswith(tuple(where))}
            new = lines(text, "--", turns | here, goals[path])
        elif path.endswith(".rt"):
            new = clauses(text, turns)
        elif path.endswith(".edit"):
            new = edits(text, turns)
        else:
            new = prose(text, turns)
        if new != text:
            with open(path, "w", encoding="utf-8") as f:
                f.write(new)


if __name__ == "__main__":
    main(sys.argv[1:])
