#!/usr/bin/env python3
"""Spells the repository's own definitions and lemmas in snake case, as today's Rattle does.

usage: tools/respell.py        at the top, once, after the toolchain's own scripts

A name that a specs/ or proofs/ file declares and that has a dash, or a capital behind a small letter, gets underscores: `blockOf` is `block_of`, `any-list`
is `any_list`. A type, a module and a name that Rattle makes for a function's proof (proofs/F/) stay. Where two names would become one, the one with a dash
is the lemma of the other, and ends in `_lem`. A file that imports a name of that spelling from a library keeps it.
In .rt files and must-fail edits only clauses, imports and what stands in backticks change; strings and code stay.
"""

import collections
import os
import re
import sys

WORDS = r"(?:(?:abbrev|unfoldable|pub|record|data|ruleset)\s+)*"
DECLARED = re.compile(rf"^ *({WORDS})([^\s(){{}}.;,@\"«»:=λ→]+)((?: +(?:\((?:[^()]|\([^()]*\))*\)|\{{[^{{}}]*\}}))*) *:(?![:=])")
TOKEN = re.compile(r"[^\s(){}.;,@\"«»`\[\]|]+")
MADE = re.compile(r"\b(tie|goal)\.|: (\{M : Type 1\} → )?statement\b")
LIBRARY = re.compile(r"(?m)^(?:ghost )?use (?:Rattle\.(?:std|core|io|libc|os)\b|Prim|mathlib|native|borrow|lib|denote|seplogic)[^{\n]*\{([^}]*)\}")


def below(root, ends):
    for folder, dirs, files in os.walk(os.path.join(root, "crates")):
        dirs[:] = sorted(d for d in dirs if d != "out")
        for f in sorted(files):
            if f.endswith(ends):
                yield os.path.join(folder, f)


def read(path):
    with open(path, encoding="utf-8") as f:
        return f.read()


def snake(name):
    words = re.sub(r"(?<=[a-z0-9])[A-Z]", lambda m: "_" + m[0].lower(), name) if name[0].islower() else name
    return words.replace("-", "_")


def names(root):
    """Each declared name that changes, with its new spelling."""
    declared = set()
    for path in below(root, ".antt"):
        for line in read(path).split("\n"):
            m = DECLARED.match(line)
            if m and not line.lstrip().startswith("--") and not MADE.search(line):
                declared.add(m[2])
    kept = {n for n in declared if snake(n) == n}
    turned, taken = {}, collections.defaultdict(list)
    for n in sorted(declared - kept):
        taken[snake(n)].append(n)
    for new, olds in taken.items():
        plain = [n for n in olds if "-" not in n]
        for n in olds:
            turned[n] = new if n in plain or not plain and new not in kept else new + "_lem"
    return turned


def in_antt(text, turned):
    def word(m):
        return turned.get(m[0], m[0])

    out = []
    for line in text.split("\n"):
        code, dash, said = line.partition("--") if re.match(r"\s*--|.* -- ", line) else (line, "", "")
        said = re.sub(r"`[^`]*`", lambda m: TOKEN.sub(word, m[0]), said)
        said = re.sub(r"\b[a-z]+[A-Z]\w*", word, said)
        out.append(TOKEN.sub(word, code) + dash + said)
    return "\n".join(out)


def in_clauses(text, turned):
    """Clauses, imports and names in backticks of a .rt file; names with an inner capital in comments too."""
    def word(m):
        return turned.get(m[0], m[0])

    out, inside = [], False
    for line in text.split("\n"):
        if line.lstrip().startswith("//"):
            line = re.sub(r"`[^`]*`", lambda m: TOKEN.sub(word, m[0]), line)
            line = re.sub(r"\b[a-z]+[A-Z]\w*", word, line)
        elif inside or re.match(r"\s*(ghost\b|requires|ensures)", line):
            line = TOKEN.sub(word, line)
            depth = line.count("{") - line.count("}")
            inside = (depth > 0) if not inside else line.count("}") <= line.count("{")
        out.append(line)
    return "\n".join(out)


def turn(root):
    turned = names(root)
    for path in below(root, (".antt", ".rt", ".edit")):
        text = read(path)
        mine = dict(turned)
        for m in LIBRARY.finditer(text):
            for n in re.split(r"[,\s]+", m[1]):
                mine.pop(n, None)
        if path.endswith(".antt"):
            new = in_antt(text, mine)
        elif path.endswith(".rt"):
            new = in_clauses(text, mine)
        else:
            of_antt = re.search(r"(?m)^file: .*\.antt$", text)
            new = in_antt(text, mine) if of_antt else re.sub(r"\b[a-z]+[A-Z]\w*", lambda m: mine.get(m[0], m[0]), text)
        if new != text:
            with open(path, "w", encoding="utf-8") as f:
                f.write(new)
    return turned


if __name__ == "__main__":
    for old, new in sorted(turn(os.path.dirname(os.path.dirname(os.path.abspath(sys.argv[0])))).items()):
        print(old, new)
