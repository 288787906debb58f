#!/usr/bin/env python3
"""Spells the definitions and lemmas of this repository as today's Rattle does: `nextZeros` becomes `next_zeros`, `coder-good`
`coder_good`. Run once, over what port.py left; a second run finds nothing. Functions of src/, exported names and strings keep theirs.

A dash stays where it joins two names, the first a word of std's on lists: `length-bits_of`. A lemma that would fall together with a
definition gets `_lem`. usage: tools/spell_names.py, at the top of the repository."""

import collections
import os
import re
import sys

NAME = r"[^\s(){}\[\];,:.«»\"]+"
DECLARED = re.compile(r"\s*(?:(?:unfoldable|abbrev|pub|record|data|ruleset)\s+)*(" + NAME + r")\s*(?:\{[^}]*\}\s*|\([^)]*\)\s*)*:")
RECORD = re.compile(r"(\s*)(?:pub )?record (\S+).* where\s*$")
FIELD = re.compile(r"\s*pub (\S+) :")
JOINED = ("length",)
# what Rattle makes or asks for, and what is of its library
MADE = re.compile(r"(returns|loop|invariant|decreases|overflow|bounds|cast)\b.*")
KEPT = {"to_z-of_z", "add-zero", "abs-sub\u2115"}


def snake(word):
    return re.sub(r"(?<=[a-z0-9])[A-Z]", lambda m: "_" + m[0].lower(), word) if word[:1].islower() else word


def spelled(name):
    if name[:1].isupper() and "-" not in name:
        return name
    head, *rest = name.split("-")
    if rest and head in JOINED:
        return head + "-" + "_".join(snake(w) for w in rest)
    return "_".join(snake(w) for w in [head, *rest])


def files(root):
    for folder, below, names in os.walk(os.path.join(root, "crates")):
        below[:] = sorted(b for b in below if b not in ("out", "must-fail"))
        for n in sorted(names):
            if n.endswith((".antt", ".rt")):
                yield os.path.join(folder, n)


def of_function(path):
    return path.endswith("/Proof.antt")


def declared(paths):
    names, fields = collections.defaultdict(set), set()
    for p in paths:
        if not p.endswith(".antt") or of_function(p):
            continue
        record = None
        for line in open(p, encoding="utf-8"):
            if line.lstrip().startswith("--"):
                continue
            if m := RECORD.match(line):
                record = len(m[1])
            elif record is not None and line.strip():
                if len(line) - len(line.lstrip()) <= record:
                    record = None
                elif m := FIELD.match(line):
                    fields.add(m[1])
                    continue
            if m := DECLARED.match(line):
                names[m[1]].add(p)
    return names, fields


def aliases(text):
    return {m[1] for m in re.finditer(r"^use \S+ as (\S+)$", text, re.M)} - {"tie", "goal"}


def quoted(text, table):
    """The text with the names between backticks turned."""
    return re.sub(r"`[^`\n]*`", lambda m: re.sub(r"[^\s(){}\[\];,:.«»\"`]+", lambda k: table.get(k[0], k[0]), m[0]), text)


def main():
    paths = list(files("."))
    names, fields = declared(paths)
    table = {}
    for n in [*names, *fields]:
        if n in KEPT or MADE.fullmatch(n):
            continue
        if (to := spelled(n)) != n:
            table[n] = to
    # of names that fall together, the one in camel case is the definition; what Unique.antt declares is named after a function
    several = collections.defaultdict(set)
    for n in names:
        if names[n] - {p for p in names[n] if p.endswith("/Unique.antt")}:
            several[table.get(n, n)].add(n)
    lemmas = {}
    for to, all_ in several.items():
        if len(all_) > 1:
            meant = sorted(all_, key=lambda n: ("-" in n, not re.search("[a-z][A-Z]", n)))
            for n in meant[1:]:
                lemmas[n] = to + "_lem"
                print(f"{meant[0]} is {to}, so {n} is {to}_lem")
    table |= lemmas
    plain = table | {n: spelled(n) for n in lemmas}
    token = re.compile(NAME)
    changed = 0
    for p in paths:
        text = open(p, encoding="utf-8").read()
        known = aliases(text)
        made = of_function(p)

        mine = plain if p.endswith("/Unique.antt") else table
        bare = set(re.findall(r"(?<![\w.'-])" + NAME, re.sub("--[^\n]*", "", text))) if made else set()
        mine = mine | {n: to + "_lem" for n, to in mine.items() if n in bare and to in bare and "-" in n}

        def turn(m):
            word = m[0]
            if made and text[m.start() - 1 : m.start()] == "." and word not in fields:
                owner = re.search(r"([^\s(){}\[\];,:.]+)\.$", text[: m.start()])
                if not owner or owner[1] not in known:
                    return word
            return mine.get(word, word)

        if p.endswith(".rt"):
            # clauses and imports alone: code keeps its names
            out, at = [], 0
            for m in re.finditer(r"ghost use [^;]*;|(?:requires|ensures)\*?[^{\n]*\{[^{}]*(?:\{[^{}]*\}[^{}]*)*\}|ghost \w+[^\n]*", text):
                out.append(text[at : m.start()])
                base = m.start()
                out.append(re.sub(NAME, lambda k: table.get(k[0], k[0]), m[0]))
                at = m.end()
            new = "".join(out) + text[at:]
        else:
            code = re.compile(r"--[^\n]*|" + NAME)
            new = code.sub(lambda m: quoted(m[0], table) if m[0].startswith("--") else turn(m), text)
        if new != text:
            changed += 1
            with open(p, "w", encoding="utf-8") as f:
                f.write(new)
    for p in ["README.md", "CONTRIBUTING.md", *(os.path.join("docs", n) for n in sorted(os.listdir("docs")) if n.endswith(".md"))]:
        text = open(p, encoding="utf-8").read()
        with open(p, "w", encoding="utf-8") as f:
            f.write(quoted(text, table))
    with open("/tmp/spelled.tsv", "w", encoding="utf-8") as f:
        f.writelines(f"{a}\t{b}\n" for a, b in sorted(table.items()))
    print(f"{len(table)} names, {changed} files; the names are in /tmp/spelled.tsv")


if __name__ == "__main__":
    sys.exit(main())
